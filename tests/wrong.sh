#!/usr/bin/env bash
# tests/wrong.sh [CRATE..]: lets the prover refuse the wrong bodies of crates/CRATE/wrong/, of all crates where none is named.
#
# In a clone of what is committed they take the place of the crate's must-fail/, and `rt ci CRATE..` tries them there, side by side, over the proofs that
# earlier runs on this machine kept, with all the guards of the gate: the others are made first, so `make test` should come before.
# The last line is `N passed, M failed`.
set -euo pipefail
cd "$(dirname "$0")/.."
crates=("$@")
[ $# -gt 0 ] || mapfile -t crates < <(ls -d crates/*/wrong | cut -d/ -f2)

room=$(mktemp -d "${TMPDIR:-/tmp}/wrong-XXXXXX")
trap 'rm -rf "$room"' EXIT
git clone --quiet . "$room/clone"
cd "$room/clone"

for crate in "${crates[@]}"; do
  [ -d "crates/$crate/wrong" ] || { echo "crates/$crate has no wrong/"; exit 2; }
  rm -rf "crates/$crate/must-fail"
  mv "crates/$crate/wrong" "crates/$crate/must-fail"
  echo "wrong bodies of $crate: $(ls "crates/$crate/must-fail" | wc -l)"
done

rt ci "${crates[@]}" > "$room/tried" 2>&1 || true
grep 'NOT PROVED' "$room/tried" || true

passed=0 failed=0
for crate in "${crates[@]}"; do
  grep "^rt: must-fail $crate/" "$room/tried" > "$room/$crate.tried" || true
  refused=$(grep -c ': refused, as it must be' "$room/$crate.tried" || true)
  edits=$(ls "crates/$crate/must-fail" | wc -l)
  passed=$((passed + refused)) failed=$((failed + edits - refused))
  grep 'only because a proof file names' "$room/$crate.tried" || true
  [ "$refused" -eq "$edits" ] || grep -v ": refused, as it must be" "$room/$crate.tried" || tail -n 5 "$room/tried"
done
echo "$passed passed, $failed failed"
[ "$failed" -eq 0 ]
