#!/usr/bin/env bash
# Fails unless a run of `rt ci` refused every wrong version that there is: tests/refused.sh LOG, a file with what it printed.
# A wrong version that cannot be applied, compiled or read fails nothing in rt ci, which only counts it as bad. So its one line
# 'rt: ok; handles allowed: ..; must-fail edits: N refused; ..' must have as many as there are files, and no bad one. One that was refused
# only for a name that it takes away, or only by a limit of the prover, says nothing of the contract either, and fails.
#   tests/refused.sh LOG [ROOT]     another copy of the repository
set -u
log=$(realpath "${1:?the log of rt ci}")
cd "${2:-$(dirname "$0")/..}" || exit 2
due=$(find crates -path '*/must-fail/*.edit' | wc -l)
line=$(grep -aE '^rt: ok\b' "$log")
form='^rt: ok; handles allowed: [^;]*; must-fail edits: ([0-9]+) refused(, [0-9]+ of them only by a limit)?(, [0-9]+ bad)?; '
little='^rt: must-fail .*: refused, as it must be \(only (because|by)[^:]*'
if [[ $line == *$'\n'* ]] || ! [[ $line =~ $form ]]; then
  echo "what rt ci says of the wrong versions is not what it should be: ${line:-nothing}"
elif [ -n "${BASH_REMATCH[2]}${BASH_REMATCH[3]}" ]; then
  echo "wrong versions that say nothing of a contract: ${BASH_REMATCH[2]#, }${BASH_REMATCH[3]}"
elif [ "${BASH_REMATCH[1]}" -ne "$due" ]; then
  echo "wrong versions that were refused: ${BASH_REMATCH[1]}, and there are $due"
elif ! grep -aoE "$little" "$log"; then
  exit 0
fi
exit 1
