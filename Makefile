# What to type on a machine that has the kit (`rt`), and with it Python.

EXAMPLE := examples/first_path
PROGRAM := crates/spark_run/out/spark_run

# How many crates are checked at a time. A check takes 1 to 4 GB of memory.
JOBS ?= $(shell nproc 2>/dev/null || echo 2)

.PHONY: try run test times bench docs fmt

# Runs the example with no proof of anything.
try:
	@echo "Runs $(EXAMPLE) before any proof. It takes about half a minute and proves nothing."
	cd crates/spark_run && rt try --data job.spark=../../$(EXAMPLE)/job.spark \
	    --data in.txt=../../$(EXAMPLE)/in.txt -- run job.spark

# Proves the crates, builds the program and runs the example.
run:
	@echo "Proves every crate, $(JOBS) at a time and lowest first, then builds the program and runs"
	@echo "$(EXAMPLE). From nothing it takes up to two hours on four processors that share two"
	@echo "cores; what was proved is kept, so a second run takes seconds. A line tells each crate that"
	@echo "begins or ends, how many are left, and the minutes and seconds so far."
	python3 tools/progress.py --jobs $(JOBS)
	cd crates/spark_run && rt run -- run ../../tools/built.spark
	cd $(EXAMPLE) && ../../$(PROGRAM) run job.spark

# The whole gate, as the merge runs it.
test:
	@echo "The whole gate: every proof from nothing, the edits that must fail, the tests, the program"
	@echo "as two compilers build it, the documents and the examples. It takes more than two hours on"
	@echo "four processors that share two cores, where this machine has passed nothing yet."
	bash .ci/run

# Proves and tries all anew, and tells what that took, crate by crate.
times:
	python3 tools/gate_times.py

# Times the program beside a plain Rust program.
bench:
	bash bench/run.sh

# Brings the lists in the documents up to date with the crates, and checks the documents.
docs:
	python3 tools/refresh_reading.py
	python3 tools/refresh_testing.py
	python3 tools/where.py --refresh CONTRIBUTING.md
	python3 tools/check_docs.py

# Lays out every file.
fmt:
	for crate in crates/*/; do (cd $$crate && rt fmt) || exit 1; done
