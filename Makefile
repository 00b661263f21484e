# make test             the whole gate: documents, proofs, must-fail edits, replayed answers, then the tests on the library below; its last line is the prover's
#                       'N passed, 0 failed'
# make lib              the library for this machine's processor: dist/libfrodo_c.a, dist/libfrodo_c.so and dist/frodo.h
#                       PROCESSOR=x86-64 or PROCESSOR=aarch64 names another processor: dist/PROCESSOR/
# make install          copies what `make lib frodo` has built: program, library, header, pkg-config file, manual page, documents. It builds nothing
#                       PREFIX=/usr/local DESTDIR= LIBDIR=PREFIX/lib, and BINDIR, INCLUDEDIR, MANDIR, DOCDIR
# make uninstall        takes away what `make install` with the same variables has put there
# make host             the Rust crate's tests, the C examples and README's, and the header's
# make header           frodo.h in C99, C11 and C++17, each macro against the library, and one version everywhere
# make installed        installs into a folder of its own, and builds and runs the C example from there by pkg-config, static and shared
# make demo             a crash report sealed, opened, damaged, explained and repaired by the frodo program
# make frodo            the program itself, build/rust/release/frodo
# make cli              the program's commands as a user types them, each with its status and words; its files and streams; every verdict of explain
# make stack            the stack that each call takes
# make signal           a process with a broken heap seals its report in a signal handler; another process opens it
# make crash            the crash handler of examples/c, as a program would link it: faults of each kind, a second fault, a broken heap
# make hostile          guard pages, wrong lengths and sets (HOSTILE="20000 6" makes fewer calls); make unset runs over unset memory
# make replay           the lists that the proved programs replay, through the library as it is compiled for this machine
# make side-by-side     every call beside frodo-kem-rs, byte for byte (FRODO_KEM_RS names its folder, SEEDS=20 makes it short)
# make other-processor  the library of the other processor, and its C tests under an emulator (no part of the gate)
# make bench            speed beside other code, as ratios
# make oracle           builds frodo-kem-rs from its own source (FRODO_KEM_RS names its folder), for the lists in tests/lists
# make lists            makes the lists of answers again: wants the oracle
.PHONY: test layout wanted prove lib install uninstall host header installed frodo demo cli c-tests seal shared stack signal crash hostile unset replay side-by-side other-processor bench \
        oracle lists clean
.NOTPARALLEL:

SHELL = /bin/bash
.SHELLFLAGS = -o pipefail -c
CFLAGS = -std=c11 -D_GNU_SOURCE -O2 -g -Wall -Wextra -Werror
# Bound when the program starts: a memcpy that is bound at its first use runs the dynamic linker on the caller's stack.
LDFLAGS = -Wl,-z,now

# The processor, before anything else is done. What is known of it stands in host/c/processor alone.
ABOUT := $(shell host/c/processor $(PROCESSOR))
ifneq ($(.SHELLSTATUS),0)
$(error nothing was built or proved)
endif
about = $(patsubst $1=%,%,$(filter $1=%,$(ABOUT)))
ifeq ($(call about,native),yes)
DIST := dist
BUILD := build
RUN :=
else
# another processor's library and programs, in folders of their own, and the emulator that runs them
DIST := dist/$(call about,name)
BUILD := build/$(call about,name)
CC := $(call about,prefix)gcc
RUN := $(call about,qemu) -L $(call about,sysroot)
endif

# One version, in host/rust/Cargo.toml; `make header` holds the header, the manual page and the changelog to it.
VERSION := $(shell sed -n 's/^version = "\(.*\)"$$/\1/p' host/rust/Cargo.toml)

PREFIX = /usr/local
DESTDIR =
BINDIR = $(PREFIX)/bin
LIBDIR = $(PREFIX)/lib
INCLUDEDIR = $(PREFIX)/include
MANDIR = $(PREFIX)/share/man
DOCDIR = $(PREFIX)/share/doc/stroupadal
# The program is built for this machine alone.
PROGRAM = $(if $(filter dist,$(DIST)),build/rust/release/frodo)

test: wanted layout prove host cli c-tests installed replay side-by-side
	@echo "the library's tests have passed, on $(call about,name); the prover had said:"
	@tail -n 1 build/ci.log

# Documents that name what is there (the layout of the sources is the prover's own test), and a build that turns other processors away.
layout:
	tests/docs/check
	tests/wanted/processors

# What a build and its tests lean on, before the first proof.
wanted:
	tests/wanted/check

# What an earlier run on this machine has not passed of the same files is proved and tried from nothing.
prove:
	tests/prove/run build/ci.log

# What is not proved yet is proved first.
lib: wanted
	host/c/archive frodo_c $(call about,name) $(DIST)/libfrodo_c.a
	CC="$(CC)" host/c/shared $(DIST)/libfrodo_c.a $(VERSION)
	cmp -s include/frodo.h $(DIST)/frodo.h || cp include/frodo.h $(DIST)/
	tests/lib/check $(DIST)/libfrodo_c.a $(VERSION)

install uninstall:
	DESTDIR="$(DESTDIR)" PREFIX="$(PREFIX)" BINDIR="$(BINDIR)" LIBDIR="$(LIBDIR)" INCLUDEDIR="$(INCLUDEDIR)" MANDIR="$(MANDIR)" DOCDIR="$(DOCDIR)" \
	  VERSION="$(VERSION)" DIST="$(DIST)" PROGRAM="$(PROGRAM)" host/c/install $(if $(filter uninstall,$@),--remove)

$(BUILD)/%: tests/%.c tests/lengths.h $(DIST)/libfrodo_c.a $(DIST)/frodo.h
	mkdir -p $(@D)
	$(CC) $(CFLAGS) -I$(DIST) $< $(DIST)/libfrodo_c.a $(LDFLAGS) -o $@

$(DIST)/libfrodo_c.a $(DIST)/frodo.h: lib

host: lib seal header
	cd host/rust && CARGO_TARGET_DIR=$(CURDIR)/build/rust cargo test --offline --quiet
	tests/readme/run

header: lib
	CC="$(CC)" $(if $(filter dist,$(DIST)),,CXX=$(CC:gcc=g++)) tests/header/run $(DIST) $(BUILD)/header $(RUN)

installed: frodo
	CC="$(CC)" tests/installed/run

frodo: lib
	cd host/rust && CARGO_TARGET_DIR=$(CURDIR)/build/rust cargo build --offline --release --bin frodo

demo: frodo
	examples/demo build/rust/release/frodo

cli: frodo
	tests/cli/run build/rust/release/frodo
	tests/cli/files build/rust/release/frodo
	tests/cli/verdicts build/rust/release/frodo

# The library from C.
c-tests: seal shared stack signal crash hostile unset

seal: $(DIST)/libfrodo_c.a $(DIST)/frodo.h
	mkdir -p $(BUILD)
	$(CC) $(CFLAGS) -I$(DIST) examples/c/seal.c $(DIST)/libfrodo_c.a $(LDFLAGS) -o $(BUILD)/seal
	$(RUN) $(BUILD)/seal

# The same example over the shared object.
shared: $(DIST)/libfrodo_c.a $(DIST)/frodo.h
	mkdir -p $(BUILD)
	$(CC) $(CFLAGS) -I$(DIST) examples/c/seal.c -L$(DIST) -lfrodo_c $(LDFLAGS) -Wl,-rpath,$(CURDIR)/$(DIST) -o $(BUILD)/seal-shared
	readelf -dW $(BUILD)/seal-shared | grep -q 'NEEDED.*libfrodo_c\.so\.$(firstword $(subst ., ,$(VERSION)))\]'
	$(RUN) $(BUILD)/seal-shared

stack: $(BUILD)/stack/stack
	$(RUN) $(BUILD)/stack/stack

signal: $(BUILD)/signal/signal
	$(if $(RUN),FRODO_RUN='$(RUN)') $(RUN) $(BUILD)/signal/signal

$(BUILD)/crash/crash: tests/crash/crash.c examples/c/crash_handler.c examples/c/crash_handler.h $(DIST)/libfrodo_c.a $(DIST)/frodo.h
	mkdir -p $(@D)
	$(CC) $(CFLAGS) -Wpedantic -Wshadow -I$(DIST) $(filter %.c,$^) $(DIST)/libfrodo_c.a $(LDFLAGS) -pthread -o $@

crash: $(BUILD)/crash/crash
	$(RUN) $(BUILD)/crash/crash

hostile: $(BUILD)/hostile/hostile
	$(RUN) $(BUILD)/hostile/hostile $(HOSTILE)

# The lists of the proved program replay_kem, through the library as it is compiled here.
replay: dist/libfrodo_c.a
	tests/replay/run dist/libfrodo_c.so

unset: dist/libfrodo_c.a
	tests/hostile/unset

side-by-side: dist/libfrodo_c.a
	tests/oracle/side-by-side

other-processor:
	tests/other/run $(call about,other)

bench: dist/libfrodo_c.a
	host/c/archive bench_c $(call about,name) build/bench/libbench_c.a
	BENCH_ARCHIVE=$(CURDIR)/build/bench FRODO_ARCHIVE=$(CURDIR)/dist tests/oracle/build
	tests/bench/run
	build/oracle/target/release/rows
	build/oracle/target/release/calls

oracle:
	tests/oracle/build

lists: oracle
	for list in shake_edges parts products kem; do python3 tests/lists/$$list.py || exit 1; done

clean:
	rm -rf build dist crates/*/out
