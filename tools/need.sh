#!/usr/bin/env bash
# Fails, and names the Debian package, for each of some commands that is not on the PATH, and for a Rust that is too old.
#   tools/need.sh COMMAND..
set -u
bad=0
oldest=1.81

missing() {
  echo "missing: $1" >&2
  bad=1
}

for word in "$@"; do
  if command -v "$word" >/dev/null 2>&1; then
    [ "$word" = cargo ] || [ "$word" = rustc ] || continue
    version=$(rustc --version 2>/dev/null | cut -d' ' -f2)
    [ "$(printf '%s\n' "$oldest" "${version:-0}" | sort -V | head -n 1)" = "$oldest" ] ||
      missing "Rust $oldest or newer; here is ${version:-none} (Debian package cargo, on Debian 12 cargo-web)"
    continue
  fi
  case $word in
  rt) missing "the command rt of the Rattle toolchain, which is no Debian package: put its folder bin on the PATH" ;;
  gcc) missing "the command gcc (Debian packages gcc and libc6-dev)" ;;
  cargo | rustc) missing "the command $word (Debian package cargo, on Debian 12 cargo-web)" ;;
  *) missing "the command $word (Debian package $word)" ;;
  esac
done
exit "$bad"
