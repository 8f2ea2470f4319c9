#!/usr/bin/env bash
# Installs into a folder of its own, uses what is there as its owner would, and uninstalls: no file may be left.
# RT=: takes what is built as it is; otherwise `make install` has it proved and built first.
# shellcheck disable=SC2317
set -u
cd "$(dirname "$0")/.." || exit 2
work=$(mktemp -d)
trap 'rm -rf "$work"' EXIT
export DESTDIR=$work/dest
prefix=/usr/dzyunagor
root=$DESTDIR$prefix
documents=$root/share/doc/dzyunagor
# shellcheck source=tests/try.sh
. tests/try.sh

pkg() {
  PKG_CONFIG_LIBDIR=$root/lib/pkgconfig PKG_CONFIG_SYSROOT_DIR=$DESTDIR pkg-config "$@" dzyunagor
}

# the example, compiled with what pkg-config says and nothing else
compiles() {
  # shellcheck disable=SC2046
  cc -std=c11 "$documents/examples/c/clean.c" $(pkg --cflags --libs) -o "$work/clean" && "$work/clean" | diff examples/worked-site/listing.txt -
}

same_version() {
  [ "$(pkg --modversion)" = "$(grep -oP '#define DZY_VERSION "\K[^"]+' "$root/include/dzyunagor.h")" ]
}

# what the tool prints here, from another folder, with status 1: something is dropped
cleans() {
  (cd "$documents" && PATH=$root/bin:$PATH site clean examples/worked-site/site.txt) >"$work/cleaned"
  [ $? -eq 1 ] && tools/site clean examples/worked-site/site.txt | diff - "$work/cleaned"
}

# the documents that header and man pages cite, and those that these documents link to
cited() {
  local file missing=0
  for file in $(grep -oh 'docs/[A-Z]*\.md' include/dzyunagor.h man/*.1) $(grep -oh '](\([^)]*\))' "$documents"/docs/{API,FORMAT,REFUSALS,TEXT}.md | sed 's|](\(.*\))|docs/\1|'); do
    [ -f "$documents/$file" ] || {
      echo "not installed: $file"
      missing=1
    }
  done
  return "$missing"
}

# neither a file nor a folder of its own
nothing_left() {
  ! find "$DESTDIR" ! -type d -o -path "$root/*" -name dzyunagor | grep .
}

try "make install" make -s install PREFIX="$prefix"
if command -v pkg-config >/dev/null 2>&1; then
  try "pkg-config gives the header's version" same_version
  if [ "$(uname -m)" = x86_64 ]; then
    try "an example is compiled through pkg-config and runs" compiles
  else
    tools/not-run.sh "the installed archive, linked" "the archive is for x86-64, this machine is $(uname -m)"
  fi
else
  tools/not-run.sh "what pkg-config says of the installed library" "the command pkg-config is missing (Debian package pkg-config)"
fi
try "the installed site cleans the worked site" cleans
try "every document that is cited is installed" cited
try "make uninstall" make -s uninstall PREFIX="$prefix"
try "nothing is left" nothing_left
exit "$failed"
