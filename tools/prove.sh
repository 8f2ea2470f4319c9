#!/usr/bin/env bash
# Runs rt in a crate's folder, and says on standard error how far it is with the crate and what it stands on. What rt prints goes to
# target/NAME.log, and its end is shown if rt fails. If all is done within two seconds, as where nothing has changed, it says nothing.
#   tools/prove.sh check|lib|run NAME TEXT [COMMAND..]
# TEXT is the first line, what is done and how long it takes; COMMAND is run after it, while rt works.
set -u
cd "$(dirname "$0")/.." || exit 2
verb=$1 name=$2 text=$3
shift 3
tools/need.sh rt || exit 2
crates=$(tools/crates.sh "$name") || exit 2
count=$(wc -l <<<"$crates")
mkdir -p target
log=$PWD/target/$name.log
shown=0
long=no

# rt has a group of its own, so that it ends with all that it started if this script is stopped
set -m
(cd "crates/$name" && exec rt "$verb") </dev/null >"$log" 2>&1 &
rt=$!
set +m
trap 'kill -- -"$rt" 2>/dev/null' EXIT
trap 'exit 130' INT TERM HUP

# the crates that rt has come to so far, and those that it is done with; one that has not changed is in neither
begun() { sed -n 's/^rt: chose --jobs [0-9]* for \([a-z0-9_]*\)$/\1/p' "$log"; }
proved() { sed -n 's/^crate \([a-z0-9_]*\): modules .*/\1/p' "$log"; }

# a crate's place among all
place() { grep -nxF -e "$1" <<<"$crates" | cut -d: -f1; }

# on a terminal one line, of the crate that is worked at; else a line for each crate that has been proved since the last time
show() {
  local one
  if [ -t 2 ]; then
    one=$(begun | tail -n 1)
    [ -n "$one" ] && printf '\r\033[Kcrate %d of %d: %s, %d s so far' "$(place "$one")" "$count" "$one" "$SECONDS" >&2
    return
  fi
  while read -r one; do
    shown=$((shown + 1))
    echo "crate $(place "$one") of $count: $one proved, $SECONDS s so far" >&2
  done < <(proved | tail -n "+$((shown + 1))")
}

# waits till rt has ended, or for so many tenths of a second
ended() {
  local i
  for ((i = 0; i < $1; i++)); do
    kill -0 "$rt" 2>/dev/null || return 0
    sleep 0.1
  done
  return 1
}

if ! ended 20; then
  long=yes
  echo "$text" >&2
  echo "What the prover says is in target/$name.log." >&2
  [ $# -gt 0 ] && "$@" >&2
  until ended 5; do show; done
  show
  [ -t 2 ] && printf '\r\033[K' >&2
fi
wait "$rt"
status=$?
trap - EXIT
if [ "$status" -ne 0 ]; then
  echo "FAILED: rt $verb in crates/$name, status $status. The end of target/$name.log:" >&2
  tail -n 20 "$log" | cut -c 1-300 >&2
elif [ "$long" = yes ]; then
  echo "$name: $count crates proved, $SECONDS s" >&2
fi
exit "$status"
