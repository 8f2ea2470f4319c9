#!/usr/bin/env bash
# The stack that each entry point of the archive touches, on the worked site and on one at all limits, held to what the field unit has:
# 24,576 bytes, of which 4,096 are left to the caller.
set -u
cd "$(dirname "$0")/.." || exit 2
limit=$((24576 - 4096))
due=$(grep -cE '^dzy_[a-z_]+ dzy_[a-z_]+\(' include/dzyunagor.h)
tools/need.sh rt gcc && tools/archive.sh || exit 1
work=$(mktemp -d)
trap 'rm -rf "$work"' EXIT
tools/x86.sh build no "$work/stack" tests/boundary/stack.c target/staticlib/libdzyunagor.a || exit 1
tools/x86.sh run "$work/stack" >"$work/said" || {
  cat "$work/said"
  exit 1
}
awk -v limit="$limit" -v due="$due" '
  $3 == "bytes" { if (!($1 in most)) order[++count] = $1; if ($2 > most[$1]) most[$1] = $2; seen[$1]++ }
  END {
    for (i = 1; i <= count; i++) {
      name = order[i]
      print name " " most[name] " bytes of stack"
      if (most[name] > limit) { print "FAILED: " name " touches more than " limit " bytes"; bad = 1 }
      if (seen[name] != 2) { print "FAILED: " name " was measured " seen[name] " times, not on both sites"; bad = 1 }
    }
    if (count != due) { print "FAILED: " count " entry points were measured, and the header has " due; bad = 1 }
    exit bad
  }' "$work/said"
