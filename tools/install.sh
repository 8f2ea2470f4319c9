#!/usr/bin/env bash
# Installs what is built, or takes it away again: tools/install.sh install|uninstall PREFIX, below DESTDIR if that is set.
# `make install` and `make uninstall` call it. Folders that others use too stay.
set -eu
cd "$(dirname "$0")/.."
prefix=${2:?a prefix}
root=${DESTDIR-}$prefix
own=share/dzyunagor
documents=share/doc/dzyunagor
pkg_config=lib/pkgconfig/dzyunagor.pc

# every file that is copied: its mode, where it is, where it goes
files() {
  local file
  echo 755 target/bin/cleaner bin/cleaner
  echo 644 target/staticlib/libdzyunagor.a lib/libdzyunagor.a
  echo 644 include/dzyunagor.h include/dzyunagor.h
  echo 755 tools/site $own/site
  echo 755 tools/x86.sh $own/x86.sh
  for file in tools/dzysite/*.py; do echo "644 $file $own/dzysite/${file##*/}"; done
  for file in man/*.1; do echo "644 $file share/man/man1/${file##*/}"; done
  for file in README.md CHANGES.md docs/{API,FORMAT,GLOSSARY,REFUSALS,SPEED,TEXT}.md examples/c/*.c examples/*/site.txt; do
    echo "644 $file $documents/$file"
  done
}

# the version is the header's
write_pkg_config() {
  local version
  version=$(sed -n 's/^#define DZY_VERSION "\(.*\)"$/\1/p' include/dzyunagor.h)
  mkdir -p "$root/lib/pkgconfig"
  sed -e "s|@PREFIX@|$prefix|" -e "s|@VERSION@|$version|" dzyunagor.pc.in >"$root/$pkg_config"
  chmod 644 "$root/$pkg_config"
}

case $1 in
install)
  files | while read -r mode from to; do install -D -m "$mode" "$from" "$root/$to"; done
  ln -sfn ../$own/site "$root/bin/site"
  write_pkg_config
  ;;
uninstall)
  files | while read -r _ _ to; do rm -f "$root/$to"; done
  rm -f "$root/bin/site" "$root/$pkg_config"
  for folder in $own $documents; do
    if [ -d "$root/$folder" ]; then find "$root/$folder" -depth -type d -empty -delete; fi
  done
  ;;
*) exit 2 ;;
esac
