#!/usr/bin/env bash
# The main job on the worked site: the program is proved and built, then run where the site's two files stand. Standard output has the
# listing alone. The first time, which takes minutes, the program is run before the proof too.
set -u
cd "$(dirname "$0")/.." || exit 2

# the listing by the program as it stands, nothing proved: what it writes is held to its file stdout
before_the_proof() {
  local said
  if said=$(tools/try.sh cleaner 2>&1); then
    echo "Compiled without proof, the program prints this; it is NOT PROVED YET:"
    sed 's/^/    /' crates/cleaner/stdout
    echo "The proof goes on. \`make test\` proves every crate, and runs every test."
  else
    echo "$said"
    echo "Compiled without proof, the program did not print its listing. The proof goes on."
  fi
}

if [ "${1:-}" = before ]; then
  before_the_proof
  exit
fi
tools/need.sh rt || exit 2
tools/toolchain.sh >&2
tools/program.sh tests/run-worked-site.sh before || exit 1
root=$PWD
cd crates/cleaner/data && "$root/tools/x86.sh" run "$root/target/bin/cleaner"
