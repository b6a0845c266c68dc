# make          proves and builds the programs: bin/qrp_cmd; bin/qrp_strategy, which writes the winner's strategy as a circuit; and bin/qrp_gates, for formulas of gates
# make demo     the same, and runs the checker on real examples
# make try      runs the checker on two examples before any proof, half a minute for each
# make lib      proves and builds the library for C: lib/libqrp.a and lib/libqrp.so
# make check    tests what is built
# make test     proves what has changed, builds it, and runs all tests
# make gate     the whole: every proof, on a new machine from nothing; the mutants, all tests
# make bench    measures time and memory
# make static   links the programs once more, with the C library inside: bin/qrp_cmd.static, bin/qrp_strategy.static and bin/qrp_gates.static
# make wheel    packs the Python module with the library inside, below dist/, for pip; and its source distribution
# make dist     packs a release below dist/: the archive, and the same as `make wheel`
# make deb      packs a package for Debian and Ubuntu below dist/
# make image    packs an image for containers below dist/, with the static programs alone
# make install  copies what `make all lib` built below $(PREFIX): programs, library, header, manual pages, tools, documents, examples
# make uninstall  takes that away again
# make help     prints these lines

PREFIX ?= /usr/local
RT ?= rt
PROGRAM = bin/qrp_cmd
# the winner's strategy as a circuit
STRATEGY = bin/qrp_strategy
# formulas of gates
GATES = bin/qrp_gates
# only for the tests
ECHO = bin/qrp_echo
PROVED = bin/proved
# what the programs and the library are made of: not the mutants and the wrong definitions, which only the gate tries
SOURCES = $(shell find crates \( -name out -o -name must-fail -o -name wrong-definitions \) -prune -o -type f -print) crates.txt

# for programs in C, C++ and Python
LIBRARY = lib/libqrp.a

# for any Linux
STATIC = $(PROGRAM).static $(STRATEGY).static $(GATES).static

# the tests of the libraries, as programs
LIBRARY_TESTS = crates/formula_tests/out/formula_tests_tests crates/gate_tests/out/gate_tests_tests crates/trace_tests/out/trace_tests_tests

# where `make install` puts things; DESTDIR comes before all of them
LIBDIR ?= $(PREFIX)/lib
MANDIR ?= $(PREFIX)/share/man

# what is tested of what is built, but for the tests of the libraries
TESTS = test-program test-strategy test-gates test-derivations test-tools test-examples test-library test-dist test-install test-many test-proofs \
	test-definitions test-checks test-pages test-switches test-beside test-places test-growth

.PHONY: all lib static demo try check test programs linked check-programs gate bench dist wheel deb image install uninstall help
.PHONY: clean test-refusals $(TESTS)

all: $(PROGRAM) $(STRATEGY) $(GATES)

# One call for all: they stand on the same crates.
$(PROGRAM) $(STRATEGY) $(GATES) &: $(SOURCES)
	@echo 'proves and builds the programs: from nothing 7 to 30 minutes on four processors for the checker, and some more for strategies and gates; 4 GB of memory, and 4.4 GB of disk for what is kept'
	RT=$(RT) gate/prove qrp_cmd qrp_strategy qrp_gates
	RT=$(RT) packaging/link-programs bin qrp_cmd qrp_strategy qrp_gates

lib: $(LIBRARY)

$(LIBRARY): $(SOURCES) packaging/build-library
	@echo 'proves and builds the library: some minutes of processor time more than the programs, from nothing'
	RT=$(RT) packaging/build-library lib

static: $(STATIC)

$(STATIC) &: $(PROGRAM) $(STRATEGY) $(GATES) packaging/build-static VERSION
	RT=$(RT) packaging/build-static bin

demo: all
	$(PROGRAM) check examples/blind-box/blind-box.qdimacs examples/blind-box/blind-box.qrp
	$(PROGRAM) check examples/carry-from-tables/carry-from-tables.qdimacs examples/carry-from-tables/carry-from-tables.qrp
	$(PROGRAM) format examples/two_clauses.qdimacs

# Without a proof: the same code, run as it is.
try:
	@echo 'runs the checker before any proof: what it says here is not proved'
	@for example in blind-box carry-from-tables; do \
	    (cd crates/qrp_cmd && $(RT) try --data formula=../../examples/$$example/$$example.qdimacs \
	        --data trace=../../examples/$$example/$$example.qrp -- check formula trace) || exit; done

# Every crate and its tests are proved, and all programs are built.
$(PROVED): $(SOURCES)
	@echo 'proves the crates and their tests: some minutes more than the programs alone, from nothing'
	RT=$(RT) gate/prove --tests
	$(MAKE) --no-print-directory programs
	touch $(PROVED)

# The programs are put in their places.
programs:
	RT=$(RT) packaging/link-programs bin qrp_cmd qrp_strategy qrp_gates qrp_echo

test: $(PROVED)
	RT=$(RT) packaging/build-library --proved lib
	gate/check-promises
	gate/check-memory-faults
	gate/check-adapters
	gate/check-wall
	docs/describe-crates --check
	$(MAKE) --no-print-directory check

# What is built is tested, side by side: four to six minutes. `make all lib` is enough to run this; what needs more is named at the end.
check: linked
	$(MAKE) --jobs --output-sync=target test-refusals $(TESTS)
	@for built in $(ECHO) $(LIBRARY_TESTS) $(STATIC); do [ -e $$built ] || echo "make check: there is no $$built, so what needs it was left out; 'make test' builds it"; done

# The same, but for the tests of the libraries, which the gate runs once it has built them.
check-programs: linked
	$(MAKE) --jobs --output-sync=target $(TESTS)

# The static programs are only linked.
linked:
	@for built in $(PROGRAM) $(STRATEGY) $(GATES) $(LIBRARY); do [ -e $$built ] || { echo "make check: there is no $$built: run 'make all lib' first"; exit 2; }; done
	@{ [ $(PROGRAM).static -nt $(PROGRAM) ] && [ $(STRATEGY).static -nt $(STRATEGY) ] && [ $(GATES).static -nt $(GATES) ]; } || { rm -f $(STATIC) && RT=$(RT) packaging/build-static bin; } || true

test-refusals:
	$(if $(wildcard $(LIBRARY_TESTS)),tests/library/test-refusals,@echo 'left out: test-refusals')

test-program:
	tests/program/test-program $(PROGRAM) $(wildcard $(ECHO))

test-strategy:
	tests/strategy/test-strategy $(STRATEGY) $(PROGRAM)

test-gates:
	tests/gates/test-gates $(GATES) $(PROGRAM)

test-derivations:
	tests/program/test-derivations $(PROGRAM)

test-tools:
	tests/tools/test-tools $(PROGRAM)

test-examples:
	examples/check-all $(PROGRAM)

test-library:
	tests/library/test-library $(PROGRAM) lib $(if $(wildcard $(STRATEGY)),$(STRATEGY) $(wildcard $(GATES)))

test-dist:
	$(if $(and $(wildcard $(PROGRAM).static),$(wildcard $(STRATEGY).static),$(wildcard $(GATES).static)),packaging/make-dist --check,@echo 'left out: test-dist')

test-proofs:
	tests/gate/test-proofs

test-definitions:
	tests/gate/test-definitions

test-checks:
	tests/gate/test-checks

test-pages:
	tests/documents/test-pages

test-switches:
	tests/bench/test-switches

test-beside:
	tests/bench/test-beside $(PROGRAM)

test-places:
	tests/program/test-places bin lib

test-growth:
	tests/bench/test-growth $(PROGRAM)

gate:
	RT=$(RT) gate/run

bench: all
	bench/measure $(PROGRAM)

dist: all lib static
	packaging/make-dist

wheel: lib
	python3 python/qrp_wheel.py

deb: all lib
	packaging/make-deb

image: static
	packaging/make-image

install uninstall: export PREFIX := $(PREFIX)
install uninstall: export LIBDIR := $(LIBDIR)
install uninstall: export MANDIR := $(MANDIR)
install uninstall: export DESTDIR := $(DESTDIR)

install:
	@packaging/install-files install

uninstall:
	@packaging/install-files uninstall

# on the built program and library
test-install:
	tests/packaging/test-install

# what is missing for it is named: tests/install-tools installs it
test-many:
	tests/tools/test-many $(PROGRAM)

help:
	@sed -n 's/^# \(make\)/\1/p' Makefile

clean:
	rm -rf bin lib dist crates/*/out
