#!/usr/bin/env bash
# tests/run.sh [PROGRAM..]: runs the program on scripts and jobs whose answers are known. Without words that is what `rt ci` has proved and built,
# as LLVM builds it and as Rattle's own compiler does. The last line is `N passed, M failed`.
#
# scripts/NAME.json          a script. Standard output is the whole of NAME.out, and the status 0; or, where there is a NAME.err in its place,
#                            standard error is the whole of that, nothing is on standard output, and the status is 1
# jobs/NAME.json             a job file for `absflow check`, in the same way
# examples/NAME.out          what examples/NAME.json comes to, in the same way
# runs/NAME/                 `absflow run`, in this folder and with the words of each line of args, and with `--batch 256` too where they say nothing of it: out, err
#                            and status are wanted (nothing, nothing and 0 where they are not there; of status 2 clap's text is not compared); where there
#                            is any-order, the sorted lines of out
# examples/NAME/             the same of its job and its inputs, which come to tests/examples/NAME.out
# crashes/NAME.json          a run that fails at each of its places (see crashes.py)
# conformance/STAGE/N.json   random scripts, with the output of an independent reference: 400 for each stage that is served, or begun (see beginnings.py)
#
# At its end it looks whether what README.md and docs/ name by its path is there (see paths.py).
#
# What they want was worked out by hand or by that reference, and never taken from the program.
set -uo pipefail
programs=()
[ $# -eq 0 ] || mapfile -t programs < <(realpath -- "$@")
cd "$(dirname "$0")/.."

# The stages of conformance/ whose steps are all served; and those of which some are not, each script of which is run up to the first of these, or whole
# where it has none. (Of none today.)
served="stage08 stage12"
begun=""

# A script and a job have at most so many bytes.
most_bytes=16777216

if [ $# -eq 0 ]; then
  programs=("$PWD/crates/absflow/out/absflow" "$PWD/crates/absflow/out/absflow.by-rattle")
  if [ ! -e "${programs[1]}" ]; then
    echo "${programs[1]} is not there (Rattle's own compiler may not compile a program): running ${programs[0]} alone"
    programs=("${programs[0]}")
  fi
fi
work=$(mktemp -d)
trap 'rm -rf "$work"' EXIT
passed=0 failed=0

# differ WANTED GOT: the first line in which these files differ.
differ() { diff --side-by-side --suppress-common-lines --expand-tabs --width=100 "$1" "$2" | head -n 1; }

# judge NAME OUT GOT ERR STATUS ENDED: the output that was got is OUT, standard error is ERR, and the program ended with the status that is wanted.
judge() {
  if cmp -s "$2" "$3" && cmp -s "$4" "$work/err" && [ "$6" -eq "$5" ]; then
    passed=$((passed + 1))
  else
    failed=$((failed + 1))
    echo "FAILED $1: status $6, $5 is wanted"
    differ "$2" "$3"
    differ "$4" "$work/err"
  fi
}

# expect NAME WANTED WORD..: with these words the program comes to WANTED.out or WANTED.err.
expect() {
  local name=$1 wanted=$2 status=0 out=/dev/null err=/dev/null
  shift 2
  "$program" "$@" > "$work/out" 2> "$work/err"
  local ended=$?
  if [ -e "$wanted.err" ]; then status=1 err=$wanted.err; else out=$wanted.out; fi
  judge "$name" "$out" "$work/out" "$err" $status $ended
}

# expect_all COMMAND FILE..: the command, with each of these files.
expect_all() {
  local command=$1
  shift
  for file in "$@"; do expect "$file" "${file%.json}" "$command" "$file"; done
}

# expect_made COMMAND OUT|ERR TEXT PYTHON: the command, with a file of these bytes, writes the text on standard output or error.
expect_made() {
  rm -f "$work"/made.*
  printf '%b' "$3" > "$work/made.$2"
  python3 -c "import sys; sys.stdout.buffer.write($4)" > "$work/made.json"
  expect "$1 of ${4::60}" "$work/made" "$1" "$work/made.json"
}

# expect_run WANTED FOLDER WORD..: `absflow run` with these words, in this folder, comes to the files of WANTED. It has so many KiB of memory as `memory` says.
expect_run() {
  local wanted=$1 folder=$2 status=0 out=/dev/null err=/dev/null order=cat
  shift 2
  (cd "$folder" && ulimit -v "${memory:-unlimited}" && "$program" run "$@") > "$work/out" 2> "$work/err"
  local ended=$?
  [ ! -e "$wanted/any-order" ] || order=sort
  [ ! -e "$wanted/status" ] || status=$(cat "$wanted/status")
  [ ! -e "$wanted/out" ] || { $order "$wanted/out" > "$work/wanted" && out=$work/wanted; }
  [ ! -e "$wanted/err" ] || err=$wanted/err
  [ "$status" -ne 2 ] || err=$work/err
  $order "$work/out" > "$work/ordered"
  judge "$wanted, run $*" "$out" "$work/ordered" "$err" "$status" $ended
}

# expect_each WANTED FOLDER WORD..: the same, and with claims of 256 records from the first on too, where the words say nothing of that.
expect_each() {
  expect_run "$@"
  [[ " $* " == *" --batch "* ]] || expect_run "$@" --batch 256
}

# expect_runs FOLDER..: each line of its args.
expect_runs() {
  local folder words
  for folder in "$@"; do
    while read -r -a words; do expect_each "$PWD/$folder" "$folder" "${words[@]}"; done < "$folder/args"
  done
}

# expect_example NAME INPUT WORD..: the example's job over its input.
expect_example() {
  rm -rf "$work/example"
  mkdir "$work/example"
  cp "tests/examples/$1.out" "$work/example/out"
  expect_each "$work/example" "examples/$1" job.json "${@:2}"
}

# expect_long_line LENGTH OUT|ERR TEXT: a line of so many bytes, all but a row's being spaces, and its end, read by one, two and four workers.
expect_long_line() {
  local workers
  rm -rf "$work/long"
  mkdir "$work/long"
  printf '%b' "$3" > "$work/long/$2"
  [ "$2" = out ] || echo 1 > "$work/long/status"
  cp tests/runs/line_of_two_rows/job.json "$work/long/"
  python3 -c "print('{\"k\":\"a\",\"v\":1}'.ljust($1))" > "$work/long/0.jsonl"
  for workers in 1 2 4; do expect_run "$work/long" "$work/long" job.json 0.jsonl --workers $workers; done
}

# expect_batches WORD..: a count of 3,000 rows of three keys in one task, with these words, and claims of 1, 7 and 1,024 records.
expect_batches() {
  rm -rf "$work/batches"
  mkdir "$work/batches"
  cat > "$work/batches/job.json" <<'JOB'
{"vertices":[{"name":"s","kind":"source"},{"name":"c","kind":"count"},{"name":"out","kind":"sink"}],"edges":[{"from":"s","to":"c","route":"hash"},{"from":"c","to":"out"}]}
JOB
  for ((row = 0; row < 3000; row++)); do printf '{"k":"k%d","v":%d}\n' $((row % 3)) $row; done > "$work/batches/0.jsonl"
  { echo 'sink 0 rows 3000'; for ((row = 0; row < 3000; row++)); do printf '{"k":"k%d","v":%d}\n' $((row % 3)) $((row / 3 + 1)); done; } > "$work/batches/out"
  for batch in 1 7 1024; do expect_run "$work/batches" "$work/batches" job.json 0.jsonl "$@" --batch $batch; done
}

# expect_rounds: a count of 150,000 rows of three keys, three mebibytes whose last line has no end, by one worker and by several, who read such an input in
# rounds; and the same with a line behind the 140,000th that is no row.
expect_rounds() {
  local workers
  rm -rf "$work/rounds" "$work/refused"
  mkdir "$work/rounds" "$work/refused"
  python3 - "$work/rounds" "$work/refused" <<'ROUNDS'
import sys
rounds, refused = sys.argv[1:]
job = '{"vertices":[{"name":"s","kind":"source"},{"name":"c","kind":"count"},{"name":"out","kind":"sink"}],"edges":[{"from":"s","to":"c"},{"from":"c","to":"out"}]}'
rows = ['{"k":"k%d","v":%d}' % (row % 3, row) for row in range(150000)]
counts = ['{"k":"k%d","v":%d}' % (row % 3, row // 3 + 1) for row in range(150000)]
for folder, lines in (rounds, rows), (refused, rows[:140000] + ['{"k":"k0"}'] + rows[140000:]):
    open(folder + '/job.json', 'w').write(job)
    open(folder + '/0.jsonl', 'w').write('\n'.join(lines))
open(rounds + '/out', 'w').write('sink 0 rows 150000\n' + ''.join(count + '\n' for count in counts))
open(refused + '/err', 'w').write('input 0 line 140001: bad row\n')
open(refused + '/status', 'w').write('1\n')
ROUNDS
  for workers in 1 2 3 4 7; do
    expect_run "$work/rounds" "$work/rounds" job.json 0.jsonl --workers $workers --batch 1024
    expect_run "$work/refused" "$work/refused" job.json 0.jsonl --workers $workers
  done
}

# expect_little_memory: 20,000 rows from 32 adds to 32 filters by broadcast, of which each passes the last, in 200 MB of memory: a channel takes room for what
# goes into it, and not for all that its task sends.
expect_little_memory() {
  rm -rf "$work/wide"
  mkdir "$work/wide"
  python3 - "$work/wide" <<'WIDE'
import json, sys
vertices = [{"name": "s", "kind": "source"}, {"name": "a", "kind": "add", "n": 1, "parallelism": 32},
            {"name": "f", "kind": "filter_ge", "n": 20000, "parallelism": 32}, {"name": "out", "kind": "sink", "parallelism": 32}]
edges = [{"from": "s", "to": "a", "route": "hash"}, {"from": "a", "to": "f", "route": "broadcast"}, {"from": "f", "to": "out"}]
json.dump({"vertices": vertices, "edges": edges}, open(sys.argv[1] + '/job.json', 'w'))
open(sys.argv[1] + '/0.jsonl', 'w').writelines('{"k":"k%d","v":%d}\n' % (row % 640, row) for row in range(20000))
open(sys.argv[1] + '/out', 'w').writelines('sink %d rows 1\n{"k":"k159","v":20000}\n' % sink for sink in range(32))
WIDE
  memory=200000 expect_run "$work/wide" "$work/wide" job.json 0.jsonl --batch 1024 --every 0
}

# expect_full: rows that can't be written end with status 1, and that is said.
expect_full() {
  local folder=tests/runs/line_of_two_rows ended
  "$program" run "$folder/job.json" "$folder/0.jsonl" > /dev/full 2> "$work/err"
  ended=$?
  if [ $ended -eq 1 ] && [ "$(cat "$work/err")" = 'cannot write the output' ]; then
    passed=$((passed + 1))
  else
    failed=$((failed + 1))
    echo "FAILED run on a full device: status $ended, 1 is wanted"
    cat "$work/err"
  fi
}

# expect_default OPTION NUMBER: what `run` takes where this option is not given, as its help tells.
expect_default() {
  if "$program" run --help | grep -q -- "^ *--$1 <N> .*\[default: $2\]\$"; then
    passed=$((passed + 1))
  else
    failed=$((failed + 1))
    echo "FAILED run --help: $2 is wanted for --$1 where it is not given"
    "$program" run --help | grep -- "--$1 "
  fi
}

# count_told COMMAND..: what a command passed and failed, as its last line says.
count_told() {
  "$@" > "$work/told"
  grep FAILED "$work/told"
  read -r more _ less _ <<< "$(tail -n 1 "$work/told")"
  passed=$((passed + more)) failed=$((failed + less))
}

for program in "${programs[@]}"; do
  [ -x "$program" ] || { echo "$program is not there: rt ci builds it"; echo "0 passed, 1 failed"; exit 1; }
  expect_all script tests/scripts/*.json
  expect_all check tests/jobs/*.json
  for stage in $served; do expect_all script "tests/conformance/$stage"/*.json; done
  for file in examples/*.json; do expect "$file" "tests/${file%.json}" script "$file"; done
  for file in examples/jobs/*.json; do expect "$file" "tests/${file%.json}" check "$file"; done

  line="open('tests/scripts/partition_without_rows.json', 'rb').read()"
  expect_made script out "$(cat tests/scripts/partition_without_rows.out)\n" "$line.ljust($most_bytes)"
  expect_made script err 'script: too long\n' "$line.ljust($most_bytes + 1)"
  for count in 200 2000000; do expect_made script err 'script: not JSON\n' "b'[' * $count"; done
  for count in 200 $most_bytes; do expect_made check err 'G1 BadJson\n' "b'[' * $count"; done
  expect_made check err 'G11 TooMany\n' "b'[' * ($most_bytes + 1)"

  expect_runs tests/runs/*
  for workers in 1 2 8; do
    expect_example count colors.jsonl --workers $workers
    expect_example sum payments.jsonl --workers $workers
    expect_example loop starts.jsonl --workers $workers --every 1
  done
  expect_long_line 1048576 out 'sink 0 rows 1\n{"k":"a","v":11}\n'
  expect_long_line 1048577 err 'input 0 line 1: bad row\n'
  expect_long_line 50000000 err 'input 0 line 1: bad row\n'
  for workers in 1 4; do expect_batches --workers $workers; done
  expect_rounds
  expect_little_memory
  expect_full
  expect_default workers 1
  expect_default every 100
  expect_default turns 1000000000
  expect_default batch 1

  count_told tests/crashes.py "$program" tests/crashes/*.json
  for stage in $begun; do count_told tests/beginnings.py "$program" "tests/conformance/$stage"/*.json; done
done
count_told tests/paths.py
echo "$passed passed, $failed failed"
[ $failed -eq 0 ]
