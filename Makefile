# SPDX-License-Identifier: Apache-2.0
# The stand-in's commands. `make help` lists them; `make test` is the whole test.
#
# rt works in crates/NAME/out; everything else is built in build/, where no link and no .rt or .antt file may be left, since `rt ci`
# refuses those.

SHELL := bash
.SHELLFLAGS := -euo pipefail -c
.DEFAULT_GOAL := help
.NOTPARALLEL:

# The static libraries of crates.txt, which export functions to C, each an object of its own in libfm3130.a: build/native for this
# machine, build/official for x86-64.
ARCHIVES := $(shell sed -n 's/^\([a-z0-9_]*\) staticlib *:.*/\1/p' crates.txt)

# Where `make install` puts all that it installs; DESTDIR goes before it.
PREFIX ?= /usr/local

# What says nothing for long is said to be under way.
PATIENT := tools/patient.sh
CARGO_TEST := $(PATIENT) 'being compiled and tested' cargo test --offline --release --quiet
CARGO_RUN := $(PATIENT) 'under way' cargo run --offline --release --quiet
COMPILE_COMMAND := $(PATIENT) 'being compiled' cargo build --offline --release --quiet --package fm3130-cli
# Debian's own, which has its packages; nothing is written beside the sources.
PYTHON := /usr/bin/python3 -B
FM3130 := cargo run --offline --release --quiet --package fm3130-cli --

# The C side. The official archive is for x86-64, where it is also the native one.
MACHINE := $(shell uname -m)
CC_X86_64 := $(if $(filter x86_64,$(MACHINE)),$(CC),x86_64-linux-gnu-gcc)
STRICT := -O2 -Wall -Wextra -Wpedantic -Werror -Iinclude
C99 := -std=c99 $(STRICT)
HOST := build/host/fm3130-host
SESSION := scripts/proving-session.bus
COUNTING := scripts/counting.bus

# Frames of events, and the lines that the second program wrote for them.
FRAMES := crates/main_standin/stdin crates/main_standin/stdout

# The firmware's two parts that are tested on this machine too, with a bit-banging master.
WIRES := -Ifirmware -Itests/wires tests/wires/*.c
PINS := $(WIRES) firmware/pins.c
LEVELS := -DWIRES_LEVELS $(WIRES) firmware/levels.c tests/levels/*.c

# How long `make fuzz` runs each of its targets.
SECONDS := 200

.PHONY: help test tests check demo lib library archives dist dist-check install command host ctest python python-test \
	second compare quotations edits all-edits twins few-twins web web-test controller bench counts fuzz fmt fmt-check setup \
	setup-library clean uninstall sigrok-test

help: ## list these targets
	@awk -F':.*## ' '/^[a-z-]+:.*## / { printf "make %-11s %s\n", $$1, $$2 }' Makefile

# The last line of `rt ci`, "N passed, M failed", is the last line printed.
test: setup ## everything: set-up, all proofs and edits (rt ci), then the tests in C, Python and Rust on what was proved
	@tools/test.sh

tests: lib dist-check ctest python-test few-twins ## the tests in C, Python and Rust alone, and three twins
	@$(CARGO_TEST)

check: ## prove the crates that changed, see to their layout, and run the programs
	@tools/proving.sh build/log/check.txt rt all test || { cat build/log/check.txt; exit 1; }
	@tail -n 1 build/log/check.txt

# The command is compiled without optimization, which takes half as long.
demo: host ## play a proving session through the C host, in words, and draw its wires and its lamps
	@mkdir -p build/demo
	@$(HOST) --session --save-events build/demo/events --answers build/demo/answers | tee build/demo/proving-session.txt
	@printf '\nThe command fm3130 plays the same, once it is compiled:\n'
	@tools/setup.sh command
	@$(PATIENT) 'being compiled' cargo build --offline --quiet --package fm3130-cli
	@build/cargo/debug/fm3130 run $(SESSION) --quiet --answers build/demo/script-answers \
		--vcd build/demo/proving-session.vcd --svg build/demo/proving-session.svg
	@cmp build/demo/answers build/demo/script-answers
	@printf '\nThe command fm3130 played %s and got the same answers. Its lamps, where they change:\n\n' $(SESSION)
	@build/cargo/debug/fm3130 lamps $(SESSION) --svg build/demo/lamps.svg | tee build/demo/lamps.txt | grep -e '<-' -e '^0'
	@printf '\nWhere it is lit last, it is by the old bit, which the write that hung had left: docs/GUIDE.md says what lit means.\n'
	@printf '\nTo look at:\n'
	@printf '  build/demo/%s\n' 'proving-session.txt  the words above' 'proving-session.svg  the wires, for a browser' \
		'proving-session.vcd  the wires, for GTKWave or PulseView' 'lamps.txt            the lamps after each byte' \
		'lamps.svg            the lamps below the wires, for a browser'

# All that is built with the library takes it from build/lib.
library: setup-library ## the library for C, Rust and Python, in build/lib: the one that `make lib` proved here, or else that of dist/
	@tools/library.sh --or-prove

lib: archives ## prove the library: build/native (this machine), build/official (x86-64); then as `make library`
	@[ -z "$(ARCHIVES)" ] || for folder in build/native build/official; do \
		tools/join-archives.sh "$$folder" $(ARCHIVES); tools/sources.sh >"$$folder/SOURCES"; done
	@tools/library.sh

# What the gate proves is compared with dist/, byte for byte; nothing else is compiled for that.
dist: lib ## make dist/ anew from the proved crates: the library for each machine, the module and the page for browsers
	@$(PATIENT) 'being compiled' tools/dist.sh $(ARCHIVES)

dist-check: lib
	@$(PATIENT) 'being compiled' tools/dist.sh check $(ARCHIVES)

archives:
	@tools/native-archives.sh $(ARCHIVES)

install: command ## the command, its manual and completion, the library, headers and pages below DESTDIR and PREFIX
	@tools/install.sh install "$(PREFIX)" "$(DESTDIR)"

uninstall: ## take away exactly what `make install` has put there
	@tools/install.sh uninstall "$(PREFIX)" "$(DESTDIR)"

command: library ## the command fm3130: build/cargo/release/fm3130
	@tools/setup.sh command
	@$(COMPILE_COMMAND)

host: library ## the rig's host program in C: build/host/fm3130-host
	@mkdir -p build/host
	@$(CC) $(C99) -D_POSIX_C_SOURCE=200809L host/*.c build/lib/libfm3130.a -o $(HOST)

ctest: library host ## the archives through the C headers (the official one too), the host, the guide's programs
	@mkdir -p build/ctest
	@$(CC) $(C99) $(PINS) tests/c/*.c build/lib/libfm3130.a -o build/ctest/native
	@$(CC_X86_64) $(C99) $(PINS) -static tests/c/*.c build/lib/x86_64/libfm3130.a -o build/ctest/official
	@$(CC) $(C99) $(LEVELS) build/lib/libfm3130.a -o build/ctest/levels
	@$(CC_X86_64) $(C99) $(LEVELS) -static build/lib/x86_64/libfm3130.a -o build/ctest/levels-official
	@$(CXX) $(STRICT) tests/c/plusplus.cc build/lib/libfm3130.a -o build/ctest/plusplus
	@$(CC_X86_64) $(C99) -m32 -ffreestanding -fsyntax-only -x c include/fm31.h
	@build/ctest/native $(FRAMES)
	@$(PATIENT) 'being tested' tools/run-x86-64.sh build/ctest/official $(FRAMES)
	@build/ctest/levels
	@$(PATIENT) 'being tested' tools/run-x86-64.sh build/ctest/levels-official
	@build/ctest/plusplus
	@tests/c/library.sh
	@tests/c/install.sh $(CC)
	@tests/c/alone.sh build/ctest/alone build/lib/libfm3130.a $(CC)
	@tests/c/alone.sh build/ctest/alone build/lib/x86_64/libfm3130.a $(CC_X86_64)
	@tests/c/outside.sh dist
	@tests/c/host.sh $(HOST) build/ctest/host
	@$(PATIENT) 'the guide is followed' tests/c/guide.py build/ctest/guide
	@tests/c/numbers.sh build/ctest $(CC) $(C99)
	@$(FM3130) events $(SESSION) -o build/ctest/session.events
	@cmp build/ctest/session.events build/ctest/host/session
	@$(FM3130) run $(COUNTING) --part fm3164 --quiet --answers build/ctest/counting.answers
	@$(FM3130) events $(COUNTING) --part fm3164 -o build/ctest/counting.events
	@cmp build/ctest/counting.events build/ctest/host/counting.events
	@cmp build/ctest/counting.answers build/ctest/host/counting.answers

python: library ## the package for Python with its library, which needs no other file: build/python, for PYTHONPATH or pip
	@rm -rf build/python
	@mkdir -p build/python/fm3130
	@cp python/pyproject.toml build/python/
	@cp python/fm3130/*.py python/fm3130/py.typed build/lib/libfm3130.so build/python/fm3130/
	@echo "build/python: PYTHONPATH=$(CURDIR)/build/python"

python-test: library ## the tests of the package for Python, its examples and the guide's
	@tools/setup.sh python
	@cd python && FM3130_LIBRARY="$(CURDIR)/build/lib/libfm3130.so" PYTHONPATH="$(CURDIR)/python" \
		../$(PATIENT) 'being tested' $(PYTHON) -m pytest --quiet

# Also part of the test, which passes it over where sigrok-cli is not installed.
sigrok-test: library ## waveforms in sigrok-cli, with its own decoder for I2C and with ours, sigrok/fm3130
	@tools/setup.sh sigrok
	@$(CARGO_TEST) --package fm3130-cli --test sigrok

second: ## the tests of the second program, which is written apart from the crates
	@$(CARGO_TEST) --package second

compare: library ## the proved program and the second program, side by side
	@$(CARGO_TEST) --package compare

quotations: library ## compare/quotations.sums: every quotation is looked up in the papers, which are in ../shared
	@$(CARGO_RUN) --package compare --bin write_quotations

edits: library ## docs/EDITS.md, from what the prover last said of each edit (make test, make all-edits)
	@$(CARGO_RUN) --package compare --bin write_edits

# More than an hour on two cores, so `make test` tries those of crates/*/must-fail alone.
all-edits: ## try every edit, the further ones of edits/ too
	@tools/all-edits.sh

# Minutes for most: a twin proves all that stands on the rule it changes, up to its law.
twins: ## try the twins: devices with a rule wrong in definition and code alike, each refused by a law alone
	@$(PATIENT) 'twins are tried' tools/twins.py

# Those that prove the fewest crates.
few-twins:
	@tools/twins.py late_date_goes_to_the_first one_byte_over_judged range_to_19999

web: library ## the device for browsers and Node: build/web, with one page that needs no other file, fm3130.html
	@tools/web.sh $(ARCHIVES)

# Not part of `make test`: it needs a browser.
web-test: web ## the tests of the module, of the page beside the command, and of the page in a headless browser
	@tools/setup.sh web
	@$(COMPILE_COMMAND)
	@$(PATIENT) 'being tested' node --test tests/web/*.test.mjs
	@$(PATIENT) 'being tested' /usr/bin/python3 tests/web/browser.py build/web/fm3130.html build/cargo/release/fm3130 build/web-test

# Not part of `make test`: its emulators and GCC for ARM are 110 MB to fetch and 700 MB when installed.
controller: lib ## archives for controllers (build/controller), tested on emulated boards; one table of what came out
	@tools/setup.sh controller
	@$(PATIENT) 'being compiled' tools/controller-archives.sh $(ARCHIVES)
	@$(PATIENT) 'being tested' tools/controller.sh test

# Neither of the next two is part of `make test`: times differ from machine to machine, and a search has no end.
bench: library ## the proved list run timed beside plain programs; the tables also go to build/bench/SPEED.md
	@tools/setup.sh bench
	@mkdir -p build/bench
	@$(CARGO_RUN) --package bench | tee build/bench/SPEED.md

# The counts are those of x86-64; on another machine there is nothing to hold.
counts: library ## the proved archive's instructions, held to those that docs/SPEED.md stores
ifeq ($(MACHINE),x86_64)
	@tools/setup.sh bench
	@$(CARGO_RUN) --package bench -- --hold docs/SPEED.md
else
	@echo "counts: docs/SPEED.md stores those of x86-64; this machine is $(MACHINE)"
endif

fuzz: library ## chosen bytes at the archive's C boundary, five targets for SECONDS=200 each
	@tools/setup.sh fuzz
	@$(PATIENT) 'entries: chosen bytes' tools/fuzz.sh $(SECONDS) entries
	@$(PATIENT) 'captures: chosen bytes' tools/fuzz.sh $(SECONDS) captures
	@$(PATIENT) 'family: chosen bytes' tools/fuzz.sh $(SECONDS) family
	@$(PATIENT) 'sets: chosen bytes' tools/fuzz.sh $(SECONDS) sets
	@$(PATIENT) 'beside: chosen bytes' tools/fuzz.sh $(SECONDS) beside

fmt: ## format all Rattle and Rust files
	@for crate in crates/*/; do (cd "$$crate" && rt fmt); done
	@cargo fmt

fmt-check: ## say which files are not in the layout
	@tools/fmt-check.sh
	@cargo fmt --check

setup: ## install what is missing for `make test`
	@tools/setup.sh

setup-library:
	@tools/setup.sh library

clean: ## remove all that was built
	@rm -rf build crates/*/out
