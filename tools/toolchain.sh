#!/usr/bin/env bash
# Says so if the toolchain is not the one in the file TOOLCHAIN, with which all is proved; fails if its logic is another one. A kit of another
# name with the same logic proves the same things.
set -u
cd "$(dirname "$0")/.." || exit 2
tools/need.sh rt || exit 1
here=$(rt version) due=$(cat TOOLCHAIN)
[ "$here" = "$due" ] && exit 0
echo "not the toolchain it was proved with: here '$here', proved with '$due'"
[ "${here##* logic }" = "${due##* logic }" ]
