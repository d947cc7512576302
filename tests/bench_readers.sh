#!/usr/bin/env bash
# tests/bench_readers.sh [ROUNDS]: the microseconds of 100 and of 1,000 publishes of 100 rows each, the least of so many rounds (9), and their ratio,
# which is 10 where publishing costs what is new. Ends with status 1 where it is more than 12. Both are measured over as many rows in all: ten writers
# that publish 100 times each, and one that publishes 1,000 times, each in a process of its own.
set -euo pipefail
cd "$(dirname "$0")/../crates/reader_bench"
rounds=${1:-9}
work=$(mktemp -d)
trap 'rm -rf "$work"' EXIT

# Proves and builds the program, where it is not there or a source is newer.
if [ ! -x out/reader_bench ] || [ -n "$(find ../*/src ../*/specs -newer out/reader_bench -print -quit)" ]; then
    rt run -- 10 100 > "$work/log" 2>&1 || { cat "$work/log"; exit 1; }
fi

# measure WRITERS PUBLISHES: the microseconds of one round are put last in the file of this number of publishes.
measure() { out/reader_bench "$1" "$2" 2>> "$work/$2" > /dev/null; }

for _ in $(seq "$rounds"); do
    measure 10 100
    measure 1 1000
done
few=$(sort -n "$work/100" | head -n 1)
many=$(sort -n "$work/1000" | head -n 1)
awk -v few="$few" -v many="$many" 'BEGIN {
    few /= 10
    printf "100 publishes of 100 rows: %.0f microseconds\n1000 publishes of 100 rows: %.0f microseconds\nratio %.1f, of 12 at most\n", few, many, many / few
    exit many > 12 * few
}'
