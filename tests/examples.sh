#!/usr/bin/env bash
# Compiles the header by itself, and the examples, README's code and the Rust package against the library's archive; runs the examples on the
# worked site and compares what they print; runs the package's tests.
# The archive is for x86-64. On another processor tools/x86.sh compiles, links and runs the C examples, and what is in Rust, for want of
# Rust's own library, is only checked by its compiler.
# With a path it takes that archive, one for this machine, and builds none. What it cannot run here it notes (tools/not-run.sh).
set -u
cd "$(dirname "$0")/.." || exit 2
archive=$(realpath -m "${1:-target/staticlib/libdzyunagor.a}")
site=crates/cleaner/data
built=target/rust
strict=(-std=c11 -O2 -Wall -Wextra -Wpedantic -Werror -Iinclude)
work=$(mktemp -d)
trap 'rm -rf "$work"' EXIT
bad=0
runner=()

# the examples of each language
c=(clean records ask)
rust=(clean records)

# what an example prints
printed() {
  case $1 in
  */clean.*) echo examples/worked-site/listing.txt ;;
  */ask.c) echo examples/worked-site/answers.txt ;;
  *.c) echo examples/worked-site/records.txt ;;
  *) echo examples/worked-site/row.txt ;;
  esac
}

fail() {
  echo "examples: $1"
  bad=1
}

# runs a program where the worked site's files are: once, or once for each line '$ ask ..' of what is due
run() {
  if ! grep -q '^\$ ' "$1"; then
    "${runner[@]}" "$2"
    return
  fi
  sed -n 's/^\$ ask //p' "$1" | while read -r words; do
    echo "\$ ask $words"
    # shellcheck disable=SC2086
    (cd "$site" && "${runner[@]}" "$2" $words)
    echo "status $?"
  done
}

# an example and its program
compare() {
  local due
  due=$(printed "$1")
  if ! run "$due" "$2" >"$work/out"; then
    fail "$1 did not end well"
  elif ! diff -u "$due" "$work/out"; then
    fail "$1 prints something else than $due"
  else
    echo "examples: $1 prints $due"
  fi
}

link_c() {
  if [ "$across" = yes ]; then
    tools/x86.sh build no "$work/$1-c" "examples/c/$1.c" "$archive"
  else
    cc "$work/$1.o" "$archive" -o "$work/$1-c"
  fi
}

cargo_here() {
  local command=$1
  shift
  DZYUNAGOR_LIB=$(dirname "$archive") RUSTFLAGS="-D warnings" RUSTDOCFLAGS="-D warnings" \
    cargo "$command" --quiet --offline --manifest-path rust/Cargo.toml --target-dir "$built" "$@"
}

# README's blocks of a language, each between two lines
readme_blocks() {
  awk -v language="\`\`\`$1" -v before="$2" -v after="$3" '
    $0 == "```" && inside { print after; inside = 0 }
    inside
    $0 == language { print before; inside = 1 }' README.md
}

# README's C in one function, over what its text leaves to the caller
readme_c() {
  cat <<'END'
#include <stdio.h>
#include "dzyunagor.h"
void readme(const uint8_t *rules, size_t rules_n, const uint8_t *bundle, size_t bundle_n, uint8_t *marks, size_t marks_n,
            uint16_t *partners, size_t partners_n, dzy_record *row, size_t row_n, uint8_t *out, size_t out_n)
{
END
  readme_blocks c '{' '}'
  echo '}'
}

# README's program in Rust writes the kept facts of the worked site
readme_rust() {
  readme_blocks rust '' '' >"$work/readme.rs"
  rustc --edition 2021 -D warnings --extern dzyunagor="$built/debug/libdzyunagor.rlib" "$work/readme.rs" -o "$work/readme" || return 1
  cp "$site"/*.bin "$work"
  (cd "$work" && ./readme >/dev/null) && [ "$(od -An -tx1 "$work/kept.bin")" = ' 01 01 09' ]
}

# the version, in each place that says it
versions() {
  grep -oP '#define DZY_VERSION_(MAJOR|MINOR|PATCH) \K[0-9]+' include/dzyunagor.h | paste -sd.
  grep -oP '#define DZY_VERSION "\K[^"]+' include/dzyunagor.h
  grep -oPm1 '^version = "\K[^"]+' rust/Cargo.toml
  grep -oPm1 '^## \K[0-9.]+' CHANGES.md
}
if [ "$(versions | wc -l)" -ne 4 ] || [ "$(versions | sort -u | wc -l)" -ne 1 ]; then
  versions
  fail "the version is not the same in the header (twice), rust/Cargo.toml and CHANGES.md"
fi

# the header, the examples and the package compile on any machine
cc "${strict[@]}" -c tests/header.c -o "$work/header.o" || fail "the header does not compile as C11"
for name in "${c[@]}"; do
  cc "${strict[@]}" -c "examples/c/$name.c" -o "$work/$name.o" || fail "examples/c/$name.c does not compile"
done
readme_c >"$work/readme.c"
cc "${strict[@]}" -Wno-unused-variable -c "$work/readme.c" -o "$work/readme.o" || fail "README's C does not compile"
if command -v c++ >/dev/null 2>&1; then
  echo '#include "dzyunagor.h"' >"$work/header.cc"
  c++ -std=c++17 -Wall -Wextra -Wpedantic -Werror -Iinclude -c "$work/header.cc" -o "$work/header-cc.o" || fail "the header does not compile as C++"
else
  tools/not-run.sh "the header compiled as C++" "the command c++ is missing (Debian package g++)"
fi
cargo_here check --all-targets || fail "the Rust package, its tests or the Rust examples do not compile"
[ "$bad" -eq 0 ] && echo "examples: the header, the examples and the Rust package compile"

across=no
if [ $# -eq 0 ]; then
  tools/archive.sh || {
    fail "the archive is not built"
    exit "$bad"
  }
  if [ "$(uname -m)" != x86_64 ]; then
    across=yes
    runner=("$PWD/tools/x86.sh" run)
  fi
fi

for name in "${c[@]}"; do
  if link_c "$name"; then
    compare "examples/c/$name.c" "$work/$name-c"
  else
    fail "examples/c/$name.c does not link"
  fi
done
if [ "$across" = yes ]; then
  tools/not-run.sh "the examples and the package in Rust, linked and run" "the archive is for x86-64, this machine is $(uname -m); they are compiled"
  exit "$bad"
fi
if cargo_here build --examples; then
  for name in "${rust[@]}"; do
    compare "examples/rust/$name.rs" "$built/debug/examples/$name"
  done
else
  fail "the Rust examples do not link"
fi
if cargo_here test; then
  echo "examples: the Rust package's tests pass"
else
  fail "the Rust package's tests do not pass"
fi
if cargo_here build && readme_rust; then
  echo "examples: README's program in Rust writes the kept facts"
else
  fail "README's program in Rust does not do what README says"
fi
exit "$bad"
