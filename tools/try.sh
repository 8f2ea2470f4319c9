#!/usr/bin/env bash
# Compiles a program and runs it on its data with nothing proved, in seconds, and holds what it writes to its file stdout: `rt try`, which
# itself compares nothing.
#   tools/try.sh NAME
set -u
cd "$(dirname "$0")/.." || exit 2
name=${1:?which program}
tools/need.sh rt || exit 2
cd "crates/$name" || exit 2
wrote=$(mktemp)
trap 'rm -f "$wrote"' EXIT

words=()
while read -r file; do words+=(--data "${file#data/}=$file"); done < <(find data -type f 2>/dev/null)
if [ -f args ]; then
  mapfile -t args <args
  words+=(-- "${args[@]}")
fi
input=/dev/null
[ -f stdin ] && input=stdin
due=0
[ -f status ] && read -r due <status

rt try "${words[@]}" <"$input" >"$wrote"
status=$?
if [ "$status" -ne "$due" ]; then
  echo "FAILED: rt try $name: status $status, and not $due"
  exit 1
fi
wanted=/dev/null
[ -f stdout ] && wanted=stdout
diff -u "$wanted" "$wrote"
