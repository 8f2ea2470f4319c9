#!/usr/bin/env bash
# Runs the built program in folders of its own, on document 01's sites, on the second site and on files that are missing, broken, full or too
# long, and compares what it prints to the byte. It is built first if the sources have changed.
set -u
cd "$(dirname "$0")/.." || exit 2
tools/program.sh || exit 1
program=$PWD/target/bin/cleaner
x86=$PWD/tools/x86.sh
work=$(mktemp -d)
trap 'rm -rf "$work"' EXIT
bad=0

# hex words as bytes
bytes() {
  local word
  for word in $1; do printf '%b' "\\x$word"; done
}

# a number in document 01's form
number() {
  if [ "$1" -lt 128 ]; then
    printf '%02X ' "$1"
  else
    printf '%02X %02X ' $(($1 % 128 + 128)) $(($1 / 128))
  fi
}

# a new folder to run in
site() {
  rm -rf "$work/site"
  mkdir "$work/site"
}

# so many zero bytes after a file's own
lengthen() {
  head -c "$2" /dev/zero >>"$work/site/$1"
}

# the case's name; the listing is what is read
prints() {
  cat >"$work/wanted"
  if (cd "$work/site" && "$x86" run "$program") >"$work/printed" && cmp "$work/wanted" "$work/printed"; then
    echo "ok: $1"
  else
    echo "FAILED: $1"
    bad=1
  fi
}

R='02 01 05 01 00 01 00 01 40 00 41 00 04 00 03 00 01'
F='06 00 07 01 07 01 09 40 09 07 40 09 AC 02 40 0C 0C'

site
bytes "$R" >"$work/site/rules.bin"
bytes "$F" >"$work/site/bundle.bin"
prints "the worked site" <examples/worked-site/listing.txt

lengthen bundle.bin 70000
prints "a bundle longer than the buffer" <<<"refused 7 in bundle at 17"
lengthen rules.bin 70000
prints "rules longer than the buffer" <<<"refused 7 in rules at 17"

site
tools/site build examples/second-site/site.txt -o "$work/site" >/dev/null || bad=1
prints "the second site" <examples/second-site/listing.txt

site
prints "no files" <<<"refused 1 in rules at 0"
bytes "$R" >"$work/site/rules.bin"
prints "no bundle" <<<"refused 1 in bundle at 0"
bytes '00' >"$work/site/bundle.bin"
prints "no facts" <<<"facts 0 kept 0 alone 0 disputed 0"
bytes '02 00 07 00 07' >"$work/site/bundle.bin"
prints "a refusal in the bundle" <<<"refused 8 in bundle at 3"
bytes '00 01 02 04 00 02 01 01' >"$work/site/rules.bin"
prints "a refusal in the rules" <<<"refused 6 in rules at 3"
bytes '00 00 01 05' >"$work/site/rules.bin"
prints "a rule kind that there is not" <<<"refused 11 in rules at 3"
bytes '00 00 01 04 00' >"$work/site/rules.bin"
prints "a role that is not declared" <<<"refused 5 in rules at 4"

if (cd "$work/site" && "$x86" run "$program") >/dev/full 2>"$work/said" || ! [ -s "$work/said" ]; then
  echo "FAILED: an output that is full is told of"
  bad=1
else
  echo "ok: an output that is full is told of"
fi

site
mkdir "$work/site/rules.bin"
prints "a folder in the place of a file" <<<"refused 1 in rules at 0"

# concept 0 of every thing below 4,096, without a rule
site
bytes '01 00 00' >"$work/site/rules.bin"
bytes "80 20 $(for a in $(seq 0 4095); do printf '00 ' && number "$a"; done)" >"$work/site/bundle.bin"
{
  echo "facts 4096 kept 4096 alone 0 disputed 0"
  seq 0 4095 | sed 's/$/ kept/'
} | prints "as many facts as a bundle holds"

# two disjoint concepts, both of every thing below 101
site
bytes '02 00 01 01 00 01' >"$work/site/rules.bin"
bytes "$(number 202)$(for a in $(seq 0 100); do printf '00 ' && number "$a"; done)$(for a in $(seq 0 100); do printf '01 ' && number "$a"; done)" \
  >"$work/site/bundle.bin"
{
  echo "facts 202 kept 0 alone 0 disputed 202"
  for a in $(seq 0 100); do echo "$a disputed $((a + 101))"; done
  for a in $(seq 0 100); do echo "$((a + 101)) disputed $a"; done
} | prints "partners of one, two and three digits"

exit "$bad"
