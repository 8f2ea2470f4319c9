#!/usr/bin/env bash
# Makes sure that the library's archive, target/staticlib/libdzyunagor.a, is of the present sources, and says nothing if it is.
set -u
cd "$(dirname "$0")/.." || exit 2
archive=target/staticlib/libdzyunagor.a
exec tools/made.sh "$archive" lib dzyunagor_c libdzyunagor_c.a \
  "Making $archive: less than a minute; some minutes if its crates are not proved yet."
