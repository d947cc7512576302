#!/usr/bin/env bash
# tests/bench_checkpoints.sh [CHECKPOINTS]: of an operator that counts 1,000, 100,000 and 1,000,000 keys, the nanoseconds of the call that takes its
# barrier, those of a whole checkpoint a key, and the microseconds of the longest call of a checkpoint, each the least of so many checkpoints (9). Ends with
# status 1 where the first is more than 3 times as long for one number of keys as for another, or the second 2 times.
set -euo pipefail
cd "$(dirname "$0")/../crates/checkpoint_bench"
checkpoints=${1:-9}
work=$(mktemp -d)
trap 'rm -rf "$work"' EXIT

# Proves and builds the program, where it is not there or a source is newer.
if [ ! -x out/checkpoint_bench ] || [ -n "$(find ../*/src ../*/specs -newer out/checkpoint_bench -print -quit)" ]; then
    rt run -- 100 2 > "$work/log" 2>&1 || { cat "$work/log"; exit 1; }
fi

for keys in 1000 100000 1000000; do
    read -r barrier whole longest <<< "$(out/checkpoint_bench "$keys" "$checkpoints" 2>&1 > /dev/null)"
    echo "$keys $barrier $whole $longest" >> "$work/costs"
done
awk '{
    a_key = $3 / $1
    printf "%d keys: the barrier %d ns, a checkpoint %.0f ns a key, its longest call %.0f microseconds\n", $1, $2, a_key, $4 / 1000
    if (NR == 1) { least = most = $2; least_key = most_key = a_key }
    if ($2 < least) least = $2
    if ($2 > most) most = $2
    if (a_key < least_key) least_key = a_key
    if (a_key > most_key) most_key = a_key
} END {
    printf "the barrier: ratio %.1f, of 3 at most; a key: ratio %.1f, of 2 at most\n", most / least, most_key / least_key
    exit most > 3 * least || most_key > 2 * least_key
}' "$work/costs"
