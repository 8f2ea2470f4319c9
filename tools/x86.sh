#!/usr/bin/env bash
# The one place that knows how a program for x86-64 is run, and how C programs that link the library's archive are built: as they are on
# x86-64, and elsewhere with the emulator, compiler and C library for x86-64 of a Rattle toolchain that has them. From any folder, but
# `build` from the root.
#   tools/x86.sh run PROGRAM [WORDS]                   runs it
#   tools/x86.sh command PROGRAM                       prints the words that run it
#   tools/x86.sh build SANITIZED OUT SOURCE ARCHIVE    SANITIZED: yes or no
set -u
machine=$(uname -m)
emulator=()
if [ "$machine" != x86_64 ]; then
  command -v rt >/dev/null 2>&1 || {
    echo "x86.sh: programs for x86-64 run on $machine under the Rattle toolchain's emulator, and its command rt is not on the PATH" >&2
    exit 2
  }
  tools=$(dirname "$(rt doc)")/on/$machine/toolchain
  [ -d "$tools" ] || {
    echo "x86.sh: this Rattle toolchain has no emulator for $machine ($tools): take an x86-64 machine" >&2
    exit 2
  }
  emulator=("$tools/bin/qemu-x86_64" "$tools/lib/ld-linux-x86-64.so.2" --library-path "$tools/lib")
fi
warn="-std=c11 -pedantic -Wall -Wextra -Werror"

build_here() {
  local checks=''
  [ "$1" = yes ] && checks="-g -fsanitize=address,undefined -fno-sanitize-recover=all"
  # shellcheck disable=SC2086
  gcc $warn -O2 $checks -Iinclude "$3" "$4" -o "$2"
}

# No address sanitizer is there for another processor: pages that cannot be touched stand in, and undefined behaviour traps.
build_elsewhere() {
  local checks='' lib=$tools/lib
  [ "$1" = yes ] && checks="-fsanitize=undefined -fsanitize-trap=undefined"
  # shellcheck disable=SC2086
  "$tools/bin/clang" --target=x86_64-linux-gnu $warn -O2 -fPIE $checks -nostdinc -isystem "$(gcc -print-file-name=include)" \
    -isystem "/usr/include/$(gcc -print-multiarch)" -isystem /usr/include -Iinclude -c "$3" -o "$2.o" &&
    "$tools/bin/ld.lld" -pie --dynamic-linker "$lib/ld-linux-x86-64.so.2" -o "$2" "$lib/Scrt1.o" "$lib/crti.o" "$lib/crtbeginS.o" \
      "$2.o" "$4" "$lib/libc.so.6" "$lib/libc_nonshared.a" "$lib/libgcc.a" "$lib/crtendS.o" "$lib/crtn.o"
}

case "${1-} $machine" in
"build x86_64") shift && build_here "$@" ;;
"build "*) shift && build_elsewhere "$@" ;;
"command "*) echo "${emulator[@]}" "$2" ;;
"run "*) shift && "${emulator[@]}" "$@" ;;
*) exit 2 ;;
esac
