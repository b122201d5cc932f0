# The two commands of README.md. Each does all its own set-up; both need the Rattle kit, whose command is `rt`.

PROGRAMS := trial transmission

.PHONY: run test kit $(PROGRAMS)

# Proves and builds the programs and runs them, one after the other.
run: $(PROGRAMS)

$(PROGRAMS): kit
	@mkdir -p target
	@echo "Proving and building $@; the log is target/run-$@.log."
	@cd crates/$@ && rt run 2> ../../target/run-$@.log || { tail -n 30 ../../target/run-$@.log; exit 1; }

# Proves every crate, tries the must-fail edits, and runs the programs and the tests. What a run passed is kept on its machine, and
# a later run there proves and tries again only what changed.
test: kit
	@tools/gate

kit:
	@command -v rt > /dev/null || { echo "rt is not on the PATH: install the Rattle kit that README.md names" >&2; exit 1; }
