# The library for C, its examples and its tests from outside. `make help` says what there is.
CC = gcc
CXX = g++
PYTHON = python3
CFLAGS = -O2 -Wall -Wextra -Wpedantic -Werror
PROVED = crates/pkreg/out/libpkreg.a
SHOW = crates/pkshow/out/pkshow
# The version is read from the header. The shared library is named by it; a program that links it asks for its first number.
VERSION := $(shell sed -n 's/^.define PK_VERSION "\(.*\)"$$/\1/p' include/pkreg.h)
$(if $(VERSION),,$(error include/pkreg.h defines no PK_VERSION))
SONAME := libpkreg.so.$(firstword $(subst ., ,$(VERSION)))
SHARED := build/libpkreg.so.$(VERSION)
LIBRARY = build/libpkreg.a $(SHARED) build/$(SONAME) build/libpkreg.so build/pkreg.h
SOURCES = crates.txt $(shell find crates -name out -prune -o \( -name '*.rt' -o -name '*.antt' \) -print)
SEED = 1

.PHONY: help lib demo test soak bench clean
# A second rt would wait for the first.
.NOTPARALLEL:

help:
	@echo 'make lib    build/: libpkreg.a, $(notdir $(SHARED)) and pkreg.h, proved before they are built'
	@echo 'make demo   the C example: two laboratories mask a dark frame, and their files are the same'
	@echo 'make test   the examples, pkmask and pkshow against expected output, and the calls against a model'
	@echo 'make soak   ten times as many random calls against the model; make soak SEED=7 begins elsewhere'
	@echo 'make bench  times and instructions beside other sets of pixels; needs libboost-dev, libroaring-dev and valgrind (no part of the gate)'
	@echo 'make clean  removes build/'

lib: $(LIBRARY)

# rt builds only what is proved; a change of any crate proves again. What was built already rt leaves as it stands, hence the touch.
$(PROVED): $(SOURCES)
	cd crates/pkreg && rt lib
	touch $@

$(SHOW): $(SOURCES)
	cd crates/pkshow && rt run <stdin >/dev/null
	touch $@

build/libpkreg.a: $(PROVED)
	@mkdir -p build
	cp $< $@

$(SHARED): build/libpkreg.a
	$(CC) -shared -Wl,-soname,$(SONAME) -o $@ -Wl,--whole-archive $< -Wl,--no-whole-archive

# rt ci takes no symbolic link anywhere in a checkout; these are further names of the one file.
build/$(SONAME) build/libpkreg.so: $(SHARED)
	ln -f $< $@

build/pkreg.h: include/pkreg.h
	@mkdir -p build
	cp $< $@

build/dark_frame: examples/dark_frame.c $(LIBRARY)
	$(CC) -std=c99 $(CFLAGS) -Ibuild -o $@ $< build/libpkreg.a

# The same program as C++ and over the shared library: the header serves both languages.
build/dark_frame_cpp: examples/dark_frame.c $(LIBRARY)
	$(CXX) -std=c++11 $(CFLAGS) -Ibuild -o $@ -x c++ $< -x none -Lbuild -lpkreg -Wl,-rpath,'$$ORIGIN'

demo: build/dark_frame
	build/dark_frame build/first.img build/second.img

# The tests in C, linked as a caller would link them.
build/%_test: tests/%_test.c $(LIBRARY)
	$(CC) -std=c99 $(CFLAGS) -Ibuild -o $@ $< build/libpkreg.a

test: $(SHOW) build/dark_frame build/dark_frame_cpp build/null_test build/stack_test
	$(PYTHON) tests/version_test.py
	build/null_test
	build/stack_test
	$(PYTHON) tests/examples_test.py
	$(PYTHON) tests/python_test.py
	$(PYTHON) tests/pkmask_test.py
	$(PYTHON) tests/model_test.py
	$(PYTHON) tests/pkshow_test.py
	$(PYTHON) tests/largest_test.py
	$(PYTHON) tests/survey_test.py
	$(PYTHON) tests/differential.py --seed $(SEED) --histories 800

soak: lib
	$(PYTHON) tests/differential.py --seed $(SEED) --histories 8000

# Debian's libboost-dev, libroaring-dev and valgrind; popcnt lets the bitmap count a word by one instruction.
build/bench: bench/bench.cpp $(wildcard bench/*.hpp) build/libpkreg.a build/pkreg.h
	$(CXX) -std=c++17 $(CFLAGS) -mpopcnt -DBOOST_ALLOW_DEPRECATED_HEADERS -Ibuild -o $@ $< build/libpkreg.a -lroaring

bench: build/bench
	build/bench --seed $(SEED)
	bench/instructions.sh

clean:
	rm -rf build
