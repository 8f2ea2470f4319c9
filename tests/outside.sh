#!/usr/bin/env bash
# The outside tests with the gate's counts: brute force, damaged files, listed cases, wrong versions, and the C boundary.
# Each prints its own counts; a line 'ok: ..' follows each that passes, and the status is not 0 if any does not.
set -u
cd "$(dirname "$0")/.." || exit 2
# shellcheck source=tests/try.sh
. tests/try.sh
# shellcheck source=tests/reach.sh
. tests/reach.sh
[ "$(uname -m)" = x86_64 ] || tools/not-run.sh "the C boundary under the address sanitizer" \
  "the archive is for x86-64, this machine is $(uname -m); it runs under an emulator, on guarded pages, undefined behaviour trapped"
for program in boundary records; do
  need tools/x86.sh build yes "$built/$program" "tests/boundary/$program.c" "$archive"
done

# the longest part runs beside the others, and says what it has to say at the end
said=$(mktemp)
trap 'rm -f "$said"' EXIT
"$run/damage" "${against[@]}" --seed 1 --cases 200000 >"$said" 2>&1 &
damage=$!

# its words and its status
# shellcheck disable=SC2317
end_of_damage() {
  local status=0
  wait "$damage" || status=$?
  cat "$said"
  return "$status"
}

try "every wrong version is noticed" "$run/bite" --seed 1
try "the steps agree with brute force over worlds" "$run/compare" --against steps --seed 2 --cases 20000
try "random sites agree with brute force over worlds" "$run/compare" "${against[@]}" --seed 1 --cases 20000
try "document 01's cases, truncations, changed bytes and limits" "$run/listed" "${against[@]}"
try "the C boundary on guarded memory, under the sanitizers that are there" tools/x86.sh run "$built/boundary"
try "rows of records and readers in any state at the C boundary" tools/x86.sh run "$built/records"
try "damaged files and bad arguments are refused as document 01 says" end_of_damage
exit "$failed"
