#!/usr/bin/env bash
# Measures the library's text, compiled as plain Rust, beside plain Rust, SQL and, on x86-64, the archive, and prints the results; with KEEP=1
# it writes them to bench/RESULTS.md instead. Which case it is at is said on standard error. No network, no registry crates. With BUILD=only,
# as in the gate, it measures nothing: all of it must compile.
set -eu
cd "$(dirname "$0")/.."
tools/need.sh python3 rustc gcc rt
built=target/bench
rm -rf "$built/text"
python3 bench/translate.py "$built/text"
compile() { rustc --edition 2021 -C opt-level=3 -C overflow-checks=no "$@"; }
compile --crate-type rlib --crate-name text "$built/text/lib.rs" -o "$built/libtext.rlib"
compile --extern "text=$built/libtext.rlib" bench/main.rs -o "$built/bench"
tools/archive.sh
tools/x86.sh build no "$built/archive" bench/archive.c target/staticlib/libdzyunagor.a
[ "${BUILD:-}" != only ] || exit 0
command -v sqlite3 >/dev/null || tools/not-run.sh "the same cleaning as SQL" "the command sqlite3 is missing (Debian package sqlite3)" >&2
[ "$(uname -m)" = x86_64 ] || tools/not-run.sh "the archive's times" "the archive is for x86-64, this machine is $(uname -m); its marks are compared" >&2
ARCHIVE=$(tools/x86.sh command "$built/archive")
export ARCHIVE

# the lines that are read; on standard error each table's heading, and each line of a table as it is measured, by its name and its facts
tell_cases() {
  local line before='' cells='' cases=0
  while IFS= read -r line; do
    printf '%s\n' "$line"
    case $line in
    '## '*) echo "bench: ${line#\#\# }" >&2 ;;
    '|---'*) case $before in '| bundle '*) cells=2,3 ;; *) cells=2 ;; esac ;;
    '| '*)
      [ -z "$cells" ] || cases=$((cases + 1))
      [ -z "$cells" ] || echo "bench: case $cases measured, $SECONDS s so far:$(cut -d'|' -f"$cells" <<<"$line" | sed 's/ |/,/')" >&2
      ;;
    *) cells='' ;;
    esac
    before=$line
  done
}

set -o pipefail
{
  cat bench/HEAD.md
  echo "Measured on $(uname -m) by $(rustc --version | cut -d' ' -f1,2)$(command -v sqlite3 >/dev/null && echo ", SQLite $(sqlite3 --version | cut -d' ' -f1)"), with the toolchain $(rt version)."
  echo
  "$built/bench" | tell_cases
  echo
  cat bench/PUBLISHED.md
} >"$built/RESULTS.md"
if [ "${KEEP:-}" = 1 ]; then
  mv "$built/RESULTS.md" bench/RESULTS.md
  echo "bench: written to bench/RESULTS.md" >&2
else
  cat "$built/RESULTS.md"
fi
