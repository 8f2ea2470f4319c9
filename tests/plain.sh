#!/usr/bin/env bash
# Fails if a definition, a proof or a contract has a hole, an axiom, excluded middle or choice, if a source file declares C functions of
# its own, or if a script lets the toolchain pass what it refuses. Comments are taken out first (tests/lines.py).
#   tests/plain.sh [ROOT]     another copy of the repository
set -u
here=$(cd "$(dirname "$0")" && pwd)
cd "${1:-$here/..}" || exit 2
bad=0
text=$(mktemp -d)
trap 'rm -rf "$text"' EXIT
for what in antt contracts code; do "$here/lines.py" "$what" "$PWD" >"$text/$what" || exit 2; done

# what is found, the pattern, then where to look
none() {
  if grep -hE -e "$2" "${@:3}"; then
    echo "$1"
    bad=1
  fi
}

edge='[][:space:](){},;.=]'
none "a hole is left" '\?' "$text/antt" "$text/contracts"
none "an axiom is used" '[[:space:]]axiom[[:space:]]|Prim\.Axiom' "$text/antt" "$text/contracts"
none "excluded middle or choice is named" "$edge(lem|ac|Lem|Ac|LEM|AC)($edge|\$)" "$text/antt" "$text/contracts"
none "C functions are declared" 'extern[[:space:]]*0?[[:space:]]*(\{|$)' "$text/code"
for folder in .ci tests tools bench Makefile; do
  [ -e "$folder" ] && none "a script passes what the toolchain refuses" '--allow-[[:lower:]]|RT_A[L]LOW' -r --exclude-dir=target "$folder"
done
exit "$bad"
