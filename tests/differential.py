"""The shared library against the model, on random histories, damaged images and damaged stores.

It prints what it ran and ok. On a difference it prints the seed, the history, the step and both answers, and its status is 1.
"""

import argparse
import collections
import random
import sys

from damage import damaged_store
from histories import history
from lent import LIBRARY
from model import words_needed
from subject import REFUSALS, Difference, expect


def words_agree(rolls):
    """pk_words at every k, and at a most near its limits, between them, and up to the limit of older versions."""
    for k in (*range(18), 2**32 - 1):
        for most in (0, 1, 2, 15, 16, 24575, 24576, 24577, 65535, 65536, 2**32 - 1, rolls.randrange(24577), rolls.randrange(24577, 65536)):
            expect(f"words({k}, {most})", LIBRARY.pk_words(k, most), words_needed(k, most))


def run(seed, first, number):
    """So many histories; each has random numbers of its own, so that one alone can be run again."""
    tally = collections.Counter()
    for index in range(first, first + number):
        steps = {"step": 0}
        rolls = random.Random(f"{seed} {index}")
        try:
            words_agree(rolls)
            subject, model = history(rolls, tally, steps)
            damaged_store(rolls, subject, model)
        except Difference as difference:
            print(f"differential: DIFFERENCE at seed {seed}, history {index}, step {steps['step']}: {difference}")
            print(f"again: python3 tests/differential.py --seed {seed} --first {index} --histories 1")
            return 1
    calls = ", ".join(f"{tally[name]} {name}" for name in REFUSALS)
    refusals = ", ".join(f"{number}: {tally[number]}" for number in range(1, 16))
    print(f"differential: seed {seed}, histories {first} to {first + number - 1}")
    print(f"  damaged stores: {tally['damaged stores']}, checks that said yes all the same: {tally['told sound']}, windows off their panel: {tally['windows off a damaged panel']}")
    print(f"  calls: {calls}")
    print(f"  refusals met: {refusals}")
    print("differential: ok")
    return 0


def main():
    parser = argparse.ArgumentParser(description=__doc__, formatter_class=argparse.RawDescriptionHelpFormatter)
    parser.add_argument("--seed", type=int, default=1)
    parser.add_argument("--first", type=int, default=0, help="the first history's number")
    parser.add_argument("--histories", type=int, default=800)
    arguments = parser.parse_args()
    return run(arguments.seed, arguments.first, arguments.histories)


if __name__ == "__main__":
    sys.exit(main())
