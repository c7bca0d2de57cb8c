#!/usr/bin/env bash
# dist.sh [--twice]: packs what is installed, with the file PROVED, into dist/hefrudyl-VERSION-x86_64-linux.tar.xz. The command is
# linked statically there, so that it runs whatever C library a machine has. The same built files and the same commit give the same
# bytes; with --twice that is tried.
set -euo pipefail
cd "$(dirname "$0")/.."

version=$(packaging/version)
name=hefrudyl-$version-x86_64-linux
kit=$(dirname "$(rt doc)")
export SOURCE_DATE_EPOCH=${SOURCE_DATE_EPOCH:-$(git log -1 --format=%ct)}

pack() { # FILE
  local room=packaging/out/dist
  rm -rf "$room"
  mkdir -p "$room/$name"
  make --no-print-directory -s install DESTDIR="$PWD/$room/$name" PREFIX= PC_PREFIX='$${pcfiledir}/../..'
  gcc -static -s -o "$room/$name/bin/tltool" crates/tltool/out/tltool.o "$kit/c/libos_c.a" "$kit/c/liblibc_c.a"
  packaging/proved.py "$room/$name" >"$room/PROVED"
  mv "$room/PROVED" "$room/$name/PROVED"
  tar --sort=name --mtime="@$SOURCE_DATE_EPOCH" --owner=0 --group=0 --numeric-owner --mode='u=rwX,go=rX' -C "$room" -cf - "$name" \
    | xz -9e --threads=1 >"$1"
}

mkdir -p dist
pack "dist/$name.tar.xz"
if [ "${1:-}" = --twice ]; then
  pack packaging/out/again.tar.xz
  cmp "dist/$name.tar.xz" packaging/out/again.tar.xz
  echo 'packed twice, with the same bytes'
fi
(cd dist && sha256sum "$name.tar.xz")
