# Sourced by tests of several parts: names each part and says whether it passed; $failed is the status at the end.
# shellcheck shell=bash disable=SC2034
failed=0

# a part's name, then its command
try() {
  local name=$1
  shift
  if "$@"; then
    echo "ok: $name"
  else
    echo "FAILED: $name"
    failed=1
  fi
}
