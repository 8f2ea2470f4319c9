#!/usr/bin/env bash
# Makes sure that the program, target/bin/cleaner, is of the present sources, and says nothing if it is. rt proves it, builds it, and also
# runs it once, in a folder without a site, which shows nothing.
#   tools/program.sh [COMMAND..]     COMMAND is run while rt works, if that takes long
set -u
cd "$(dirname "$0")/.." || exit 2
exec tools/made.sh target/bin/cleaner run cleaner cleaner \
  "Proving and building the program target/bin/cleaner: some minutes the first time." "$@"
