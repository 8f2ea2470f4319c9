#!/usr/bin/env bash
# Prints the crates of this repository that a crate stands on, and the crate itself, one to a line, in the order of crates.txt.
#   tools/crates.sh NAME
# The name is the first word of a line of crates.txt; what else stands before the colon says what kind of crate it is.
set -u
cd "$(dirname "$0")/.." || exit 2
awk -v name="${1:?which crate}" '
  { sub(/#.*/, "") }
  !/:/ { next }
  { split($0, side, ":"); split(side[1], words, " "); order[++count] = words[1]; under[words[1]] = side[2] }
  function take(one, words, n, i) {
    if (one in taken || !(one in under)) return
    taken[one] = 1
    n = split(under[one], words, " ")
    for (i = 1; i <= n; i++) take(words[i])
  }
  END {
    take(name)
    for (i = 1; i <= count; i++) if (order[i] in taken) print order[i]
    if (!(name in taken)) { print "crates.txt has no crate " name > "/dev/stderr"; exit 2 }
  }' crates.txt
