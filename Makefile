# The DSG receiver: what one builds, runs and checks. `make help` lists the targets.
SHELL := bash
.SHELLFLAGS := -eu -o pipefail -c
.DEFAULT_GOAL := sample

CARGO := cargo --quiet
LOGS := build/log
BIN := host/target/release
MACHINE := $(shell uname -m)
BOARDS := target/boards/x86_64/libdsg.a target/boards/aarch64/libdsg.a
LIBRARY := target/boards/$(MACHINE)/libdsg.a
PROVED := crates.txt $(shell find crates -name out -prune -o \( -name '*.rt' -o -name '*.antt' \) -print)

ifeq ($(filter $(LIBRARY),$(BOARDS)),)
$(error this machine is $(MACHINE): dsg is for x86_64 and aarch64 Linux)
endif

# Where `make install` puts header, archive and dsg.pc, an absolute path; a packager gives DESTDIR too.
PREFIX ?= /usr/local
DESTDIR ?=
VERSION := $(shell sed -n 's/^version = "\(.*\)"/\1/p' host/Cargo.toml)
INSTALLED := include/dsg.h lib/libdsg.a lib/pkgconfig/dsg.pc

# What the gate compares; `make bench SEED=.. COUNT=..` takes others.
SEED := 1
COUNT := 60000
AREA := all
MEMCHECK_COUNT := 10000

.PHONY: sample dcdlist setup test after-prove prove edits library boards boards-test host host-test samples host-c headend bench \
        memcheck measure install uninstall install-test clean help

sample: dcdlist ## build dcdlist and list document 01's example body (the default)
	@examples/bytes < examples/bodies/accepted-m.hex | tools/run target/bin/dcdlist

dcdlist: ## prove and build the program target/bin/dcdlist
	@mkdir -p $(LOGS) target/bin
	@echo 'proving dcdlist and all that it stands on (minutes the first time) ..' >&2
	@(cd crates/dcdlist && rt run < stdin) > $(LOGS)/dcdlist 2>&1 || { tail -n 40 $(LOGS)/dcdlist >&2; exit 1; }
	@cp crates/dcdlist/out/dcdlist target/bin/dcdlist

setup: ## install what the tests call and this machine lacks
	@tools/setup

test: setup prove ## everything that the gate asks; the last line is rt ci's verdict
	@$(MAKE) --no-print-directory after-prove
	@tail -n 1 $(LOGS)/ci

after-prove: edits samples host-test host-c headend bench memcheck boards-test install-test

prove: ## prove every crate, run the program, and try every must-fail edit
	@mkdir -p $(LOGS)
	@rt ci 2>&1 | tee $(LOGS)/ci
	@if grep -q '^rt: ok.* bad' $(LOGS)/ci; then echo 'make prove: a must-fail edit is bad' >&2; exit 1; fi

edits: ## was each must-fail edit refused for the reason that it names? (reads what `make prove` wrote)
	@tools/check-edits $(LOGS)/ci

library: $(LIBRARY) ## prove dsg_c and build the archive for this processor, for C and Rust to link

boards: $(BOARDS) ## the archives for both processors: target/boards/x86_64/libdsg.a, target/boards/aarch64/libdsg.a
	@ls -l $(BOARDS)

$(BOARDS) &: $(PROVED) tools/library tools/kit.sh
	@mkdir -p $(LOGS)
	@tools/library > $(LOGS)/library 2>&1 || { tail -n 40 $(LOGS)/library >&2; exit 1; }

boards-test: $(BOARDS) ## the C host for the other processor, where a cross compiler and an emulator are installed
	@examples/check-boards build/boards

host: $(LIBRARY) ## build the Rust side: wrapper, bench, reference, requests, measure
	@cd host && $(CARGO) build --release --offline

host-test: host ## the tests of the Rust side
	@cd host && $(CARGO) test --release --offline

samples: dcdlist ## dcdlist on every sample of examples/
	@examples/check-bodies target/bin/dcdlist

host-c: $(LIBRARY) ## the C host of examples/, built by gcc and clang and run on its scripts
	@examples/check-host $(LIBRARY) build/host-c

headend: $(LIBRARY) dcdlist ## the head end of examples/, built by gcc and clang and run on its tables
	@examples/check-headend $(LIBRARY) target/bin/dcdlist build/headend

bench: host ## the library against the other program: make bench SEED=1 COUNT=60000 AREA=all
	@$(BIN)/requests compare $(BIN)/bench $(BIN)/reference $(SEED) $(COUNT) $(AREA)

memcheck: host ## a share of that under valgrind
	@mkdir -p build
	@$(BIN)/requests make $(SEED) $(MEMCHECK_COUNT) $(AREA) > build/requests
	@valgrind --quiet --error-exitcode=9 $(BIN)/bench < build/requests > build/answers
	@$(BIN)/reference < build/requests | cmp - build/answers
	@echo "$(MEMCHECK_COUNT) requests under valgrind, no error"

measure: host ## times of the library beside plain Rust and plain copies, in one run
	@$(BIN)/measure

install: $(LIBRARY) ## put dsg.h, libdsg.a and dsg.pc below PREFIX (default /usr/local), all below DESTDIR
	@case '$(PREFIX)' in /*) ;; *) echo 'make install: PREFIX must be an absolute path' >&2; exit 2 ;; esac
	@case '$(PREFIX)' in *[\&\|\\]*) echo 'make install: PREFIX has a character that dsg.pc cannot take' >&2; exit 2 ;; esac
	@install -d '$(DESTDIR)$(PREFIX)/include' '$(DESTDIR)$(PREFIX)/lib/pkgconfig'
	@install -m 644 include/dsg.h '$(DESTDIR)$(PREFIX)/include/dsg.h'
	@install -m 644 $(LIBRARY) '$(DESTDIR)$(PREFIX)/lib/libdsg.a'
	@mkdir -p build
	@sed -e 's|@PREFIX@|$(PREFIX)|' -e 's|@VERSION@|$(VERSION)|' include/dsg.pc.in > build/dsg.pc
	@install -m 644 build/dsg.pc '$(DESTDIR)$(PREFIX)/lib/pkgconfig/dsg.pc'

uninstall: ## remove what `make install` put there
	@for file in $(INSTALLED); do rm -f '$(DESTDIR)$(PREFIX)'/$$file; done

# A prefix with a blank, since hosts have them.
install-test: $(LIBRARY) ## install into a folder of build/, build the C host from there through pkg-config, and uninstall
	@rm -rf build/install
	@$(MAKE) --no-print-directory install PREFIX='/opt/a board' DESTDIR='$(CURDIR)/build/install'
	@examples/check-install build/install '/opt/a board'
	@$(MAKE) --no-print-directory uninstall PREFIX='/opt/a board' DESTDIR='$(CURDIR)/build/install'
	@test -z "$$(find build/install/opt -type f)"

clean: ## remove everything that was built
	@rm -rf target host/target build

help: ## this list
	@sed -n 's/^\([a-z-]*\):.*## /\1\t/p' Makefile | expand -t 14
