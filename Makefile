# make run [BLOCK=file]                  phases a fragment block; the shipped example if none is given
# make judge [BLOCK=file ANSWER=file]    judges an answer; the shipped one if none is given
# make tool                              the tool velejume, rust/target/release/velejume
# make corpus [FOLDER=dir]               judges a folder of answers
# make lib                               the static library, target/staticlib/libvelejume.a
# make shared                            the shared object, target/shared/libvelejume.so
# make install [PREFIX=dir]              programs, libraries, header, pkg-config file, Python module, manual pages
# make test                              the gate: proves every crate, tries edits that must be refused, runs the tests
# make bench                             the proved call beside an unproved solver
# make soak [SEED=n COUNT=n]             differential tests, as many as you like
# make clean                             removes all that was proved and built
#
# All but help and clean need the Rattle toolchain (rt); tool, corpus, install, bench, soak and test need cargo too, and test also awk, gcc, g++ and python3.
# What is missing is proved first: some minutes the first time, crate by crate. README.md says more.

.PHONY: help run both judge tool corpus lib shared install test bench soak clean
# rt proves several crates at a time itself, and two of it would be in each other's way
.NOTPARALLEL:

FOLDER ?= examples/corpus
PREFIX ?= /usr/local
PYTHONDIR ?= $(PREFIX)/lib/python3/dist-packages
SEED ?= 1
COUNT ?= 100000

version := 0.1.0
archive := target/staticlib/libvelejume.a
sources := $(shell find crates \( -path 'crates/*/must-fail' -o -path 'crates/*/out' \) -prune -o -type f -print) crates.txt
tool := rust/target/release/velejume
root := $(DESTDIR)$(PREFIX)
module := $(DESTDIR)$(PYTHONDIR)/velejume

help:
	@sed -n -e '/^$$/q' -e 's/^# \{0,1\}//p' Makefile

run: target/bin/phase
	@scripts/run target/bin/phase < '$(or $(BLOCK),examples/p1.block)'

judge: both target/bin/judge
	@scripts/told scripts/run target/bin/judge '$(or $(BLOCK),examples/p1.block)' '$(or $(ANSWER),examples/p1.answer)'

# before anything is proved for it: two files, or none for the shipped example
both:
	@[ -z '$(BLOCK)' ] || [ -n '$(ANSWER)' ] || { echo 'make judge: BLOCK is given and ANSWER left out: make judge BLOCK=file ANSWER=file' >&2; exit 2; }
	@[ -z '$(ANSWER)' ] || [ -n '$(BLOCK)' ] || { echo 'make judge: ANSWER is given and BLOCK left out: make judge BLOCK=file ANSWER=file' >&2; exit 2; }

tool: $(tool)

corpus: $(tool)
	@$(tool) judge '$(FOLDER)'

lib: $(archive)

shared: target/shared/libvelejume.so

install: target/bin/phase target/bin/judge $(archive) target/shared/libvelejume.so $(tool)
	@mkdir -p '$(root)/bin' '$(root)/lib/pkgconfig' '$(root)/include' '$(root)/share/man/man1' '$(module)'
	@install -m 755 target/bin/phase target/bin/judge $(tool) '$(root)/bin'
	@install -m 644 $(archive) '$(root)/lib'
	@install -m 644 target/shared/libvelejume.so '$(root)/lib/libvelejume.so.$(version)'
	@ln -sf libvelejume.so.$(version) '$(root)/lib/libvelejume.so.0'
	@ln -sf libvelejume.so.0 '$(root)/lib/libvelejume.so'
	@install -m 644 include/velejume.h '$(root)/include'
	@install -m 644 man/*.1 '$(root)/share/man/man1'
	@install -m 644 python/velejume/*.py python/velejume/py.typed target/shared/libvelejume.so '$(module)'
	@sed -e 's|@PREFIX@|$(PREFIX)|' -e 's|@VERSION@|$(version)|' velejume.pc.in > '$(root)/lib/pkgconfig/velejume.pc'
	@echo 'installed in $(root); the Python module is found by PYTHONPATH=$(PYTHONDIR)'

test:
	@bash .ci/run

bench: $(archive)
	@cd rust && cargo run --quiet --profile timed --offline --bin bench

soak: $(archive)
	@cd rust && cargo run --quiet --release --offline --bin soak -- $(SEED) $(COUNT)

clean:
	@rm -rf target rust/target crates/*/out
	@find python -name __pycache__ -prune -exec rm -rf {} +

# rt runs each program that it builds; with no argument and nothing to read both end at once
target/bin/phase target/bin/judge: target/bin/%: $(sources)
	@echo 'proving and building $* (some minutes the first time)' >&2
	@cd crates/$* && ../../scripts/quietly rt run < /dev/null
	@install -D -m 755 crates/$*/out/$* $@

$(archive): $(sources)
	@echo 'proving and building the library (some minutes the first time)' >&2
	@cd crates/velejume_c && ../../scripts/quietly rt lib
	@install -D -m 644 crates/velejume_c/out/libvelejume_c.a $@

target/shared/libvelejume.so: $(archive) scripts/shared scripts/exports
	@scripts/shared

# cargo knows what is newer
.PHONY: rust/target/release/velejume
rust/target/release/velejume: $(archive)
	@cargo build --quiet --release --offline --manifest-path rust/Cargo.toml --target-dir rust/target --bin velejume
