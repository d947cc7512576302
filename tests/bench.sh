#!/usr/bin/env bash
# tests/bench.sh [ROWS [KEYS]]: seconds, processor seconds, rows a second and peak memory through bin/absflow: of a count over a tenth of so many rows and
# over all of them (1,000,000 rows, 10,000 keys), with 1 worker and with 4; of the count over all with claims of 1, 64 and 1,024 records; and of a line,
# which can use one worker, with 1 and with 8.
set -euo pipefail
cd "$(dirname "$0")/.."
rows=${1:-1000000} keys=${2:-10000}
work=$(mktemp -d)
trap 'rm -rf "$work"' EXIT

# A count in four tasks, each with a sink of its own.
cat > "$work/count.json" <<'JOB'
{"vertices":[{"name":"rows","kind":"source"},{"name":"count","kind":"count","parallelism":4},{"name":"counts","kind":"sink","parallelism":4}],
 "edges":[{"from":"rows","to":"count","route":"hash"},{"from":"count","to":"counts"}]}
JOB
cat > "$work/line.json" <<'JOB'
{"vertices":[{"name":"rows","kind":"source"},{"name":"plus","kind":"add","n":10},{"name":"out","kind":"sink"}],
 "edges":[{"from":"rows","to":"plus"},{"from":"plus","to":"out"}]}
JOB

# put_rows N: so many rows over all keys.
put_rows() {
    awk -v rows="$1" -v keys="$keys" 'BEGIN {
        srand(1)
        for (i = 0; i < rows; i++) printf "{\"k\":\"key%d\",\"v\":%d}\n", int(rand() * keys), int(rand() * 2000) - 1000
    }' > "$work/rows.jsonl"
}

# measure NAME ROWS WORKERS BATCH: one run of the job of this name over the rows, with claims of so many records at most.
measure() {
    python3 - "$1" "$2" "$3" "$4" bin/absflow run "$work/$1.json" "$work/rows.jsonl" --workers "$3" --every 100000 --batch "$4" <<'PYTHON'
import os, resource, subprocess, sys, time
name, rows, workers, batch, command = sys.argv[1], int(sys.argv[2]), sys.argv[3], sys.argv[4], sys.argv[5:]
start = time.time()
with open(os.devnull, "w") as nowhere:
    status = subprocess.call(command, stdout=nowhere)
seconds = time.time() - start
used = resource.getrusage(resource.RUSAGE_CHILDREN)
print(f"{name}, {rows} rows, {workers} workers, batch {batch}: {seconds:.2f} s ({used.ru_utime + used.ru_stime:.2f} of processors), "
      f"{rows / seconds:.0f} rows a second, {used.ru_maxrss / 1024:.0f} MB at most, status {status}")
PYTHON
}

put_rows $((rows / 10))
for workers in 1 4; do measure count $((rows / 10)) "$workers" 1; done
put_rows "$rows"
for batch in 1 64 1024; do
    for workers in 1 4; do measure count "$rows" "$workers" "$batch"; done
done
put_rows $((rows / 5))
for workers in 1 8; do measure line $((rows / 5)) "$workers" 1; done
