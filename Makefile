# make demo    runs examples/count with two workers, from the sources as they stand, with nothing proved: the committed rows
# make test    the gate: every proof from nothing, every edit that must be refused, every test; then the program that was proved, on all scripts of tests/
# make wrong   tries the finer edits, those of crates/NAME/wrong/; of some crates alone by make wrong CRATES="alignment channels"
# make build   proves the program and all that it stands on, and leaves it as bin/absflow
# make bench   prints the seconds of long scripts and of 1,000,000 rows through a count, through bin/absflow, and the ratios that need no other program, with their goals; and what publishing to readers and a large checkpoint cost. It takes what make test or make build has proved and built, or else proves first
.PHONY: demo test wrong build bench

demo:
	cd crates/absflow && rt try --data job.json=../../examples/count/job.json --data colors.jsonl=../../examples/count/colors.jsonl -- run job.json colors.jsonl --workers 2

test:
	rt ci
	tests/run.sh

wrong:
	tests/wrong.sh $(CRATES)

build:
	cd crates/absflow && rt run < ../../examples/line.json
	mkdir -p bin
	cp crates/absflow/out/absflow bin/absflow

bench: bin/absflow
	sh examples/bench.sh
	tests/bench.sh
	python3 tests/bench_ratios.py
	tests/bench_readers.sh
	tests/bench_checkpoints.sh

bin/absflow:
	mkdir -p bin
	cp crates/absflow/out/absflow bin/absflow || $(MAKE) build
