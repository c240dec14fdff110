# What there is to make: `make help` prints it.

SHELL := /bin/sh
FOLDER ?= examples/first
# the program that evidence is about, and the seeds of its random graphs
SYMQ ?= crates/symq/out/symq
SEEDS ?= 0..2000

.PHONY: help run try check test symq lib wrong packages evidence crate clean setup

help:
	@echo 'make run [FOLDER=DIR]            the public names of a directory, else of examples/first, by an unverified build: a minute or two once'
	@echo 'make try GRAPH=g.json QUERIES=q  the answers to the lines of q on a graph, by that build'
	@echo 'make check                       all tests that need no proof, on an unverified build: six minutes'
	@echo 'make symq                        proves and builds the program, as ./symq: 16 minutes on four processors'
	@echo 'make lib                         proves and builds the library for C, Rust and Python into lib/: docs/LIBRARY.md'
	@echo 'make test                        the full check; the last line is N passed, M failed: an hour and a half'
	@echo 'make wrong                       tries all mutants, and not only those that are due, and records them: hours'
	@echo 'make packages                    compares symdir with the checker of TypeScript on packages of Debian: minutes'
	@echo 'make evidence [SEEDS=0..2000]    compares the program with an independent model on random graphs: evidence/README.md'
	@echo 'make crate FROM=FOLDER           the Rust crate as a program with the same lines, to compare with'
	@echo 'make clean                       removes what these made'

setup:
	@command -v rt > /dev/null || { echo 'the Rattle kit is needed: its command rt was not found'; exit 1; }
	@command -v python3 > /dev/null || { echo 'python3 is needed'; exit 1; }

run: setup
	@python3 tools/set_up.py node tsc
	@node symdir/bin/symdir.js api --unproved $(FOLDER) || test $$? -eq 1
	@echo 'By an unverified build, which is kept. `make symq` proves and builds ./symq.' >&2

try: setup
	@test -n '$(GRAPH)' && test -n '$(QUERIES)' || { echo 'make try GRAPH=graph.json QUERIES=file: a line of the file is a query'; exit 2; }
	@tools/unproved_symq.sh '$(GRAPH)' < '$(QUERIES)'

# all tests that need no proof, on programs that are built without one
check: setup
	@python3 tools/check.py

test: setup
	@python3 tools/gate.py

# all wrong bodies anew, and the record of how they end
wrong: setup
	@cd crates/symq_core && rt check > /dev/null
	@python3 tools/wrong_bodies.py --base --record
	@python3 tools/test_wrong_bodies.py --record

packages:
	@python3 tools/run_symdir.py --packages

symq: setup
	@python3 tools/prove.py symq

lib: setup
	@python3 tools/prove.py lib

evidence:
	@test -x '$(SYMQ)' || { echo '$(SYMQ) is not there: `make symq` builds it, or say SYMQ=PROGRAM'; exit 1; }
	@python3 evidence/model/compare.py '$(SYMQ)' --seeds '$(SEEDS)'

crate:
	@test -n '$(FROM)' || { echo 'make crate FROM=FOLDER, where FOLDER is deno_graph 0.111.1 as cargo unpacks it'; exit 1; }
	@python3 evidence/crate/build.py '$(FROM)'

clean:
	@rm -rf symq lib out bindings/rust/target crates/*/out symdir/node_modules evidence/crate/out
