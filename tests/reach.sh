# Sourced by the outside tests: builds them and the archive of the present sources, and sets how the programs reach the library.
# The archive is for x86-64: there the programs link it; elsewhere they call it through the relay, which runs under an emulator.
# shellcheck shell=bash disable=SC2034
archive=target/staticlib/libdzyunagor.a
built=target/outside
run=$built/release

need() {
  "$@" || {
    echo "FAILED: $*"
    exit 1
  }
}

build_programs() {
  need cargo build --quiet --release --offline --manifest-path tests/outside/Cargo.toml --target-dir "$built" "$@"
}

need tools/need.sh rt cargo gcc
need tools/archive.sh
if [ "$(uname -m)" = x86_64 ]; then
  build_programs --features library
  against=(--against library)
else
  build_programs
  need tools/x86.sh build no "$built/relay" tests/boundary/relay.c "$archive"
  against=(--against relay --relay "$(tools/x86.sh command "$built/relay")")
fi
