# plan_ninja: see README.md. `make help` lists the targets.
PREFIX ?= /usr/local
PROGRAM = crates/plan_ninja/out/plan_ninja
UNPROVED = out/unproved/plan_ninja
# plan_build is next to plan_ninja, or in its own crate.
FRONT = $(firstword $(wildcard $(dir $(PROGRAM))plan_build) crates/plan_build/out/plan_build)
SHELL = /bin/bash -o pipefail

.DEFAULT_GOAL = all

.PHONY: help
help:
	@echo "Try it:"
	@echo "  make demo      build a small C project, edit it, build it again; less than three minutes from a fresh clone"
	@echo "  make unproved  compile both programs without their proofs, to try them out: $(dir $(UNPROVED)); four minutes"
	@echo "Build and install it:"
	@echo "  make           prove and build plan_ninja and plan_build; some 75 minutes from scratch on 4 cores"
	@echo "  make install   copy what was built to PREFIX ($(PREFIX)); it builds nothing"
	@echo "  make dist      pack a tarball and a .deb of the proved programs: out/dist; after make check"
	@echo "Change it:"
	@echo "  make quick     prove one crate, or one module of it (CRATE=plan_text ONLY=path); 5 to 60 s for a module"
	@echo "  make rows      run the rows, or some of them (NAMES='tab_* scopes/*'); half a minute"
	@echo "  make units     run the unit tests, compiled without proofs; nine minutes of a processor"
	@echo "  make tests     run all tests of the program; 4 to 6 minutes"
	@echo "  make check     run the whole gate: proofs, must-fail edits, tests; some 85 minutes from scratch on 4 cores"
	@echo "  make edits     try the must-fail edits, also those that the gate leaves out (CRATES=plan_text); a minute each"
	@echo "  make calls     refuse each allocation of the lower crates' calls, and run damaged images; two minutes"
	@echo "  make real      compare commands and builds of CMake's and Meson's trees with ninja's; more than an hour"
	@echo "  make bench     time the program, ninja and make; some minutes"
	@echo "  make clean     remove what checks and builds left"
	@echo "PROGRAM=.. tests, packs or installs another program, for example PROGRAM=$(UNPROVED) for tests."

# Python, for the tests and the benches.
.PHONY: python
python:
	@command -v python3 > /dev/null || { echo "python3 is missing: apt-get install python3 (3.8 or newer)" >&2; exit 1; }
	@python3 -c 'import sys; sys.exit(sys.version_info < (3, 8))' || { echo "python3 is too old: 3.8 or newer is needed" >&2; exit 1; }

# The toolchain.
.PHONY: kit
kit: python
	@command -v rt > /dev/null || { echo "rt is missing: the Rattle kit is not on the PATH; README.md, \"Install\", names it" >&2; exit 1; }

# The programs, as `make` left them.
.PHONY: built
built: python
	@for program in $(PROGRAM) $(FRONT); do test -x $$program \
	  || { echo "$$program is missing: make proves and builds it, make unproved compiles $(UNPROVED)" >&2; exit 1; }; done

# Builds the proved programs.
.PHONY: all
all: kit
	@echo "proving and building: some 75 minutes from scratch on 4 cores, less if earlier proofs are kept" >&2
	@cd crates/plan_ninja && rt run -- --help > /dev/null
	@cd crates/plan_build && rt run -- --version > /dev/null
	@echo "built and proved: $(PROGRAM) and $(FRONT)"

# Compiles both programs without their proofs. They run the tests as the proved ones do: make tests PROGRAM=$(UNPROVED).
.PHONY: unproved
unproved: kit
	@python3 tools/unproved.py $(UNPROVED)
	@echo "compiled without proofs: $(UNPROVED) and $(dir $(UNPROVED))plan_build"

# Builds a small C project, by the proved program if there is one, else by one without proofs.
.PHONY: demo
demo: python
	@python3 tools/demo.py $(FRONT)

# Proves one crate, or one module of it.
CRATE =
ONLY =
.PHONY: quick
quick: kit
	@test -d "crates/$(CRATE)" -a -n "$(CRATE)" || { echo "which crate? make quick CRATE=.. [ONLY=module], of: $(CRATES)" >&2; exit 1; }
	cd crates/$(CRATE) && rt check $(if $(ONLY),--only $(ONLY))

# The rows of the built program, or those that some patterns fit.
NAMES =
.PHONY: rows
rows: built
	@python3 tests/run.py rows $(foreach name,$(NAMES),-k '$(name)') $(PROGRAM)

# The built program: documents, rows, ninja's commands, refused allocations, and real trees.
.PHONY: tests
tests: built
	python3 tools/manifest_names.py
	python3 tests/run.py $(PROGRAM)

# How many must-fail edits are tried side by side: one a processor, as memory allows. A check takes less than 3 GB.
EDIT_JOBS = $(shell awk -v n=$$(nproc) '/^MemAvailable/ {m = int($$2 / 4000000); print m < 1 ? 1 : m < n ? m : n}' /proc/meminfo)

# The gate: the documents; every proof, and meanwhile the unit tests, the must-fail edits, the bodies that tests refuse
# and refused allocations; and then the programs.
.PHONY: check
check: kit
	python3 tools/gate.py

# The unit tests, compiled without proofs.
.PHONY: units
units: kit
	python3 tools/unit_tests.py

# The must-fail edits and the wrong bodies of some crates, also those that the gate leaves out. Edits are tried over
# proved crates: `make check` first, or `rt ci`.
CRATES = $(notdir $(patsubst %/,%,$(wildcard crates/*/)))
.PHONY: edits
edits: kit
	python3 tools/edits.py --jobs $(EDIT_JOBS) $(CRATES)
	python3 tools/wrong_bodies.py $(CRATES)

# Calls the lower crates with refused memory, and runs damaged images, in a program without proofs.
.PHONY: calls
calls: kit
	python3 tests/run.py calls

# Compares the commands of many trees of CMake and Meson with ninja's, upstream projects among them (from Debian's mirror); `make` first.
.PHONY: real
real: built
	python3 tests/run.py --long real building using $(PROGRAM)

# Installs what was built: the programs, and a link by which CMake and Meson call plan_build as ninja.
.PHONY: install
install:
	@for program in $(PROGRAM) $(FRONT); do test -x $$program \
	  || { echo "$$program is missing: run make first (as yourself, not as root)" >&2; exit 1; }; done
	install -D -m 755 $(PROGRAM) "$(DESTDIR)$(PREFIX)/bin/plan_ninja"
	install -D -m 755 $(FRONT) "$(DESTDIR)$(PREFIX)/bin/plan_build"
	install -d "$(DESTDIR)$(PREFIX)/libexec/plan_ninja"
	ln -sfn ../../bin/plan_build "$(DESTDIR)$(PREFIX)/libexec/plan_ninja/ninja"
	install -D -m 644 LICENSE "$(DESTDIR)$(PREFIX)/share/doc/plan_ninja/LICENSE"
	install -D -m 644 docs/GUARANTEE.md "$(DESTDIR)$(PREFIX)/share/doc/plan_ninja/GUARANTEE.md"
	@echo "installed; for CMake and Meson put $(PREFIX)/libexec/plan_ninja on the PATH"

# Packs the proved programs with the gate's log: a tarball and a .deb, with SHA-256 sums.
.PHONY: dist
dist: built
	@python3 tools/dist.py $(PROGRAM)

# Times the program beside ninja and make, and on hostile manifests; `make` first.
.PHONY: bench
bench: built
	python3 bench/run.py $(PROGRAM)
	python3 bench/compiling.py $(PROGRAM)
	python3 bench/hostile.py $(PROGRAM)
	python3 bench/upstream_trees.py $(PROGRAM)
	python3 bench/images.py $(PROGRAM)
	python3 bench/codes.py $(PROGRAM)
	python3 bench/builds.py $(PROGRAM)
	python3 bench/idle.py $(PROGRAM)
	python3 bench/events.py $(PROGRAM)

.PHONY: clean
clean:
	rm -rf out crates/*/out gate.log
	find tests tools bench -name __pycache__ -type d -prune -exec rm -rf {} +
