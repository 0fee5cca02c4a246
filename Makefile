# make          proves and builds the planner, and prints the plan of examples/tray.sheet
# make library  proves and builds the library for C and Rust
# make rooms    proves and builds each room of the planner by itself, for rust/checks
# make test     proves and builds all of it, and runs the tests
# make gate     all that a change has to pass: proofs, edits that must be refused, tests
.PHONY: tray program library rooms test gate

tray: program
	@echo "The plan of examples/tray.sheet, which examples/README.md tells in words:"
	@target/bin/plan < examples/tray.sheet

program library rooms:
	@tools/build $@

test:
	@tests/run

gate:
	@.ci/run
