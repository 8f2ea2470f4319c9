#!/usr/bin/env bash
# More of the random tests: tests/fuzz.sh N [SEED] runs N damaged cases and N/10 random sites from the seed (3 if none is given).
# The same words give the same cases; take another seed for others. The archive is made anew if the sources have changed.
set -u
cd "$(dirname "$0")/.." || exit 2
cases=${1:?how many cases}
seed=${2:-3}
# shellcheck source=tests/reach.sh
. tests/reach.sh
"$run/damage" "${against[@]}" --seed "$seed" --cases "$cases" &&
  "$run/compare" "${against[@]}" --seed "$seed" --cases "$((cases / 10))" &&
  echo "ok: fuzz of $cases cases, seed $seed"
