#!/bin/sh
# Seconds of a script of 10,000 and of 100,000 steps on a line, and of judging a job of 256 tasks and 4,096 channels, through bin/absflow.
#
# A third of the steps read a row, a third take it through the operator, a third bring it to the sink; then a checkpoint
# commits all of them. The same script with a last step that is none is read whole and then refused, so its time is that
# of reading the file: what is left is the time of the steps.
set -eu
cd "$(dirname "$0")/.."
work=$(mktemp -d)
trap 'rm -r "$work"' EXIT

# generate STEPS LAST: a script of that many steps, whose last is LAST
generate() {
    awk -v steps="$1" -v last="$2" 'BEGIN {
        rows = (steps - 10) / 3
        printf "{\"job\":{\"vertices\":[{\"name\":\"s\",\"kind\":\"source\"},{\"name\":\"plus\",\"kind\":\"add\",\"n\":10},"
        printf "{\"name\":\"out\",\"kind\":\"sink\"}],\"edges\":[{\"from\":\"s\",\"to\":\"plus\"},{\"from\":\"plus\",\"to\":\"out\"}]},"
        printf "\"partitions\":[["
        for (i = 0; i < rows; i++) printf "%s{\"k\":\"key%d\",\"v\":%d}", (i ? "," : ""), i % 1000, i
        printf "]],\"steps\":["
        for (i = 0; i < rows; i++) printf "\"read 0\",\"work 1 0\",\"work 2 0\","
        printf "\"trigger\",\"inject 0\",\"barrier 1 0\",\"barrier 2 0\",\"persist 0\",\"persist 1\",\"persist 2\","
        printf "\"complete\",\"commit 0\",\"%s\"]}", last
    }'
}

# seconds FILE: how long the program runs on it
seconds() {
    start=$(date +%s.%N)
    bin/absflow script "$1" > "$work/out" 2> "$work/err" || true
    end=$(date +%s.%N)
    awk -v a="$start" -v b="$end" 'BEGIN { printf "%.3f", b - a }'
}

for steps in 10000 100000; do
    generate "$steps" "read 0" > "$work/script.json"
    generate "$steps" "no step" > "$work/refused.json"
    whole=$(seconds "$work/script.json")
    reading=$(seconds "$work/refused.json")
    awk -v n="$steps" -v w="$whole" -v r="$reading" 'BEGIN {
        printf "%d steps: %s s, of which reading %s s; %.2f microseconds a step\n", n, w, r, (w - r) * 1000000 / n
    }'
done

# Five vertices of 32 subtasks, each joined to the next by a hashed edge of 1,024 channels, and three sources more.
awk 'BEGIN {
    printf "{\"vertices\":[{\"name\":\"s\",\"kind\":\"source\",\"parallelism\":32}"
    for (i = 1; i <= 3; i++) printf ",{\"name\":\"v%d\",\"kind\":\"add\",\"n\":1,\"parallelism\":32}", i
    printf ",{\"name\":\"v4\",\"kind\":\"sink\",\"parallelism\":32}"
    for (i = 1; i <= 3; i++) printf ",{\"name\":\"t%d\",\"kind\":\"source\",\"parallelism\":32}", i
    printf "],\"edges\":[{\"from\":\"s\",\"to\":\"v1\",\"route\":\"hash\"}"
    for (i = 1; i <= 3; i++) printf ",{\"from\":\"v%d\",\"to\":\"v%d\",\"route\":\"hash\"}", i, i + 1
    printf "]}"
}' > "$work/job.json"
start=$(date +%s.%N)
told=$(bin/absflow check "$work/job.json")
end=$(date +%s.%N)
awk -v told="$told" -v a="$start" -v b="$end" 'BEGIN { printf "%s: %.3f s\n", told, b - a }'
