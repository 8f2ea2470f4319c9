#!/usr/bin/env bash
# Makes sure that a file below target/ is what rt makes of the present sources of a crate, and says nothing if it is. rt leaves it in the
# crate's out/, from where it is copied. What it was made of is noted beside it: only if that, or the file, has changed is rt asked again.
#   tools/made.sh FILE VERB CRATE MADE TEXT [COMMAND..]
# MADE is what `rt VERB` leaves in the crate's out/; TEXT and COMMAND are for tools/prove.sh. The files: tools/archive.sh, tools/program.sh.
set -u
cd "$(dirname "$0")/.." || exit 2
file=$1 verb=$2 crate=$3 made=$4 text=$5
shift 5
tools/need.sh rt || exit 2

# the toolchain, and the crates that the file is made of
sources() {
  {
    rt version
    grep -v '^#' crates.txt
    for one in $(tools/crates.sh "$crate"); do
      find "crates/$one/src" "crates/$one/specs" "crates/$one/proofs" -type f 2>/dev/null
    done | LC_ALL=C sort | xargs -d '\n' sha256sum
  } | sha256sum
}

now=$(sources)
[ -f "$file" ] && [ "$now $(sha256sum <"$file")" = "$(cat "$file.of" 2>/dev/null)" ] && exit 0
tools/prove.sh "$verb" "$crate" "$text" "$@" || exit 1
mkdir -p "$(dirname "$file")"
cp -f "crates/$crate/out/$made" "$file" && echo "$now $(sha256sum <"$file")" >"$file.of"
