# Goals for developers. packaging/Makefile has the C library, what is installed and what is packed.

# The program that ./keywrap runs.
PROGRAM ?= $(or $(shell scripts/program.sh),$(error make $@ has no program))
# The Python that builds the package for Python.
PYTHON ?= python3

.DEFAULT_GOAL = help
.PHONY: help version build test packages proofs test-all gate evidence dist-sources dist-command-sources dist-rust \
    bench pictures clean
# Goals run one at a time: the tools are checked before anything is built, and rt writes every archive to one path.
.NOTPARALLEL:

include packaging/Makefile

# The times are of four processors, the first time; a second time takes seconds.
define help_text
make build              proves and builds the program with the kit, if its sources changed (5 to 10 minutes): then
                        ./keywrap runs it, and not the translation in C
make library            proves and builds the C library, as $(LIBRARY)/libkeywrap.a and $(shared) (5 minutes)
                        With HARDWARE=1 also libkeywrap_hw.a and .so, by the AES instructions of the processor
make provider           builds the provider for OpenSSL 3, as $(PROVIDER)/keywrap.so: docs/OPENSSL.md (the library's
                        time). With HARDWARE=1 it is over libkeywrap_hw: docs/C_LIBRARY.md
make examples           builds the example in C, as $(EXAMPLES)/wrap (the library's time)
make wheel              builds the Python package, as $(wheel) (the library's time)
make wheel-rotate       builds the rotation, as $(DIST)/$(rotate_wheel) (5 seconds, no kit)
make js                 puts the package for browsers and Node together, as $(JS) (1 second, no kit)
make dist-js            packs it for npm, as $(DIST)/keywrap-$(version).tgz (1 second, no kit)
make go                 packs the Go module of dist/, as $(GO), which GOPROXY can name: dist/GO.md (1 second)
make sdist              packs the Python package with portable C, for pip to build elsewhere (5 seconds, no kit)
make dist-sources       writes dist/, from which everyone builds without the kit: C, WebAssembly and Rust (10 minutes)
make dist-rust          writes the proved code of the Rust crate there (1 second, no kit)
make test               runs the tests of the program and the libraries (5 minutes; with the kit 10, for their proofs);
                        with KEYWRAP_ALL=1 slow ones too (60)
make packages           installs the packages that the tests use: tests/packages.txt (5 minutes)
make gate               make proofs: rt ci proves all from nothing and tries edits; then make test-all (2 hours)
make evidence           runs what takes too long for the gate, and writes docs/evidence, before a release (hours)
make install            installs the two below, under $$(DESTDIR)$$(prefix), with their documents (of what is built: 1
                        second each)
make install-command    installs the program, its manual page, and completions for bash, zsh and fish
make install-library    installs the C library: in lib, include, lib/pkgconfig and lib/cmake
make install-provider   installs the provider in $$(DESTDIR)$$(MODULESDIR): OpenSSL's directory of modules
make uninstall          removes what make install put there; uninstall-command, uninstall-library and
                        uninstall-provider remove theirs
                        These take the names of GNU: prefix, bindir, libdir, includedir, mandir, docdir;
                        CC, CPPFLAGS, CFLAGS, LDFLAGS; and STRIP=1
make dist               packs all of it in $(DIST), for machines without the kit, with SHA256SUMS: what the two below
                        pack, the wheels and the package for npm, for x86-64 and aarch64 (of what is built: 1 minute)
make dist-command       packs what make install-command installs, as
                        $(DIST)/$(of_command).tar.gz
make dist-static        packs the command in C as a static program, there (half a minute, no kit)
make dist-deb           packs the command in C as a source package for Debian, there (1 second, no kit)
make dist-library       packs what make install-library installs, there
                        With TARGET=aarch64-unknown-linux-gnu library, wheel, install-library, dist-static and
                        dist are only for aarch64, with the command in C only
make version            writes the version
make bench              how long a wrap takes, beside OpenSSL, nettle, C and pyca (10 minutes)
make pictures           draws the plots of docs/pictures, and writes what follows from the sources (2 seconds)
make clean              removes what was built
endef
help:
	$(info $(help_text))@:

version:
	@echo '$(version)'

build:
	$(needs_kit)@scripts/prove.sh keywrap

# The scripts prove and build what is not built yet, and nothing else. Options of this make are not for those of tests.
test:
	@unset MAKEFLAGS MAKELEVEL && scripts/tests.sh

packages:
	scripts/packages.sh

# The tests run the program that rt ci proved, and built by the compiler of `make build`. The checksums come first: a
# source that changes meanwhile then differs from them.
proofs:
	$(needs_kit)built_from=$$(scripts/sources.sh) && rt ci && \
	    { [ ! -e crates/keywrap/out/keywrap.by-rattle ] || \
	        install -m 755 crates/keywrap/out/keywrap.by-rattle crates/keywrap/out/keywrap; } && \
	    printf '%s\n' "$$built_from" >crates/keywrap/out/built_from

# They also run the test programs that rt ci built.
test-all:
	TESTS=crates KEYWRAP_ALL=1 $(MAKE) --no-print-directory test

gate: proofs test-all

evidence:
	scripts/evidence.sh

dist-sources: dist-rust
	$(needs_kit)$(PYTHON) generate/portable.py --needs
	generate/module.sh out/keywrap.wasm
	generate/portable_module.sh out/portable.wasm
	$(PYTHON) generate/portable.py out/portable.wasm out/keywrap.wasm dist
	$(MAKE) --no-print-directory dist-command-sources

dist-rust:
	$(PYTHON) generate/erase.py

# The first script takes the crates below the program as `make build` keeps them.
dist-command-sources: build
	generate/command_module.sh out/command.wasm
	$(PYTHON) generate/command.py out/command.wasm dist/command

# With BENCH=DIRECTORY it also writes DIRECTORY/*.csv; `make bench BENCH=docs/pictures` renews the data of the plots.
export BENCH := $(abspath $(BENCH))
bench: build library library-hardware provider wheel
	bench/wrap.sh '$(LIBRARY)/libkeywrap.a' '$(PROVIDER)/keywrap.so'
	bench/record.sh lines python3-cryptography $(PYTHON) bench/lines.py '$(PROGRAM)'
	bench/record.sh python python3-cryptography $(PYTHON) bench/python.py '$(wheel)'

pictures:
	generate/plots.py
	generate/facts.py
	generate/testing.py
	generate/trust.py

clean:
	rm -rf crates/*/out out
