#!/usr/bin/env bash
# Fails if a crate is not listed in crates.txt, a listed one is not there, a .rt file stands outside the src/ of the crates that are listed or
# an .antt file outside their specs/ and proofs/; or at what `rt ci` stops at: another list of crates, or a link.
#   tests/listed.sh [ROOT]     another copy of the repository
set -u
cd "${1:-$(dirname "$0")/..}" || exit 2
listed=$(sed -e 's/#.*//' -e 's/:.*//' crates.txt | awk 'NF { print $1 }')
bad=0

tell() {
  echo "$1: $2"
  bad=1
}

is_listed() { grep -qxF -e "$1" <<<"$listed"; }

for folder in crates/*/; do
  name=$(basename "$folder")
  is_listed "$name" || tell "not listed in crates.txt" "crates/$name"
done
for name in $listed; do
  [ -d "crates/$name/src" ] || tell "listed in crates.txt, and not there" "crates/$name/src"
done
while IFS= read -r file; do
  IFS=/ read -r top crate part _ <<<"$file"
  case $part/${file##*.} in
  src/rt | specs/antt | proofs/antt) [ "$top" = crates ] && is_listed "$crate" && continue ;;
  esac
  tell "belongs to no listed crate" "$file"
done < <(find . -path ./.git -prune -o -path './crates/*/out' -prune -o \( -name '*.rt' -o -name '*.antt' \) -print | sed 's#^\./##')
while IFS= read -r file; do
  tell "must not be there" "$file"
done < <(find . -path ./.git -prune -o -path './crates/*/out' -prune -o \
  \( -type l -o -name BUILD.bazel -o -name MODULE.bazel -o ! -path ./crates.txt -name crates.txt \) -print | sed 's#^\./##')
exit "$bad"
