# What can be made here. `make` alone lists it.

.PHONY: help run test lib install uninstall bench stress figures clean need-rt need-target
.NOTPARALLEL:

# Cargo builds below target/ too, over the library just made.
CARGO = CAHERMISK_LIB_DIR=$(CURDIR)/target/staticlib CARGO_TARGET_DIR=$(CURDIR)/target/rust cargo

help:
	@echo 'make run     prove the program scan and what it stands on, and scan the sample day'
	@echo 'make test    the gate: prove everything, then test the library just proved'
	@echo 'make lib     prove the library and build it into target/staticlib, unless nothing has changed'
	@echo 'make install copy what make lib and make run built below PREFIX (/usr/local): the library, its header,'
	@echo '             cahermisk.pc, the man page of scan and, on x86-64, scan; make uninstall removes them'
	@echo 'make bench   the library, then its speed beside Rust loops for the same job, drawn in target/speed.svg'
	@echo 'make stress  the library, then random and damaged pages for CAHERMISK_STRESS_SECONDS (120), beside the second reader'
	@echo 'make figures what the last `make test` saw, into docs/FIGURES.md and the end of docs/SHAMS.md; and wrong definitions'
	@echo 'make clean   remove what was built (target/, crates/*/out/)'

run: need-rt need-target
	@echo 'Proving the program and what it stands on; the first time this takes some minutes.' >&2
	@tools/prove target/prove.log run scan -- help
	@tools/program
	@tools/sample-day

test: need-rt need-target need-cargo need-cc need-c++
	@tools/gate

lib: need-rt need-target
	@tools/lib

# Where things are installed; DESTDIR goes before each of these folders.
PREFIX = /usr/local
BINDIR = $(PREFIX)/bin
LIBDIR = $(PREFIX)/lib
LIBEXECDIR = $(PREFIX)/libexec
INCLUDEDIR = $(PREFIX)/include
MANDIR = $(PREFIX)/share/man
export PREFIX BINDIR LIBDIR LIBEXECDIR INCLUDEDIR MANDIR DESTDIR

install uninstall:
	@tools/install $@

bench: need-cargo lib
	@tools/inlined
	@$(CARGO) bench --offline --locked --quiet --manifest-path rust/Cargo.toml
	@echo 'Drawn in target/speed.svg. tools/benchmarks-doc measures anew and puts both into docs/'

stress: need-cargo need-cc lib
	@$(CARGO) test --offline --locked --quiet --manifest-path rust/Cargo.toml --test library -- --ignored stress --nocapture

# The two documents that tell what a gate saw, and what becomes of wrong definitions.
SEEN = Printed by `tools/shams-seen` after `make test`: what the prover refused of each, without what only waits for that.
WRONG = Printed by `tools/wrong-definitions`: each is tried on the definitions alone, and the rows of the proved table that refuse it.

figures:
	tools/figures >target/figures.md && mv target/figures.md docs/FIGURES.md
	sed -i '/^## Wrong definitions/,$$d' docs/SHAMS.md
	{ echo '## Wrong definitions'; echo; echo '$(WRONG)'; echo; tools/wrong-definitions | sed 's/^/    /'; echo; \
	  echo '## What was seen'; echo; echo '$(SEEN)'; echo; tools/shams-seen | sed 's/^/    /'; } >>docs/SHAMS.md

clean:
	rm -rf target crates/*/out

# What of the toolchain is missing, and whether there is a folder to build in.
need-rt:
	@tools/toolchain >/dev/null

need-target:
	@tools/writable

# What another missing tool is, and where it comes from.
WHAT_cargo = the Rust toolchain, which builds the tests and the benchmark
WHAT_cc = a C compiler, which links the tests and compiles the C example
WHAT_c++ = a C++ compiler, which tests that C++ takes the header

need-%:
	@command -v $* >/dev/null 2>&1 || { echo "make: $* is missing: $(WHAT_$*). Put it on PATH and run make again" >&2; exit 1; }
