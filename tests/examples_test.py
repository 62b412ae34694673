"""The example, as C over the static library, as C++ over the shared one and in Python, writes what dark_frame.expected says."""

import os
import subprocess
import sys
import tempfile

ROOT = os.path.join(os.path.dirname(os.path.abspath(__file__)), "..")
PROGRAMS = (["build/dark_frame"], ["build/dark_frame_cpp"], [sys.executable, "examples/dark_frame.py"])


def main():
    with open(os.path.join(ROOT, "examples", "dark_frame.expected")) as file:
        expected = file.read()
    for program in PROGRAMS:
        with tempfile.TemporaryDirectory() as folder:
            files = [os.path.join(folder, name) for name in ("first.img", "second.img")]
            run = subprocess.run([*program, *files], cwd=ROOT, capture_output=True, text=True)
        if run.returncode != 0 or run.stdout != expected:
            print(f"{program[-1]}: status {run.returncode}, wrote\n{run.stdout}{run.stderr}and not\n{expected}")
            return 1
        print(f"examples: {program[-1]} ok")
    return 0


if __name__ == "__main__":
    sys.exit(main())
