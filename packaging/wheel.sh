#!/usr/bin/env bash
# Makes the wheel of the Python module in dist/, with the shared library inside, by Debian's python3-build. Its tag names the oldest
# C library that the shared library runs with.
set -euo pipefail
cd "$(dirname "$0")/.."

version=$(packaging/version)
library=benches/out/libhefrudyl.so
export SOURCE_DATE_EPOCH=${SOURCE_DATE_EPOCH:-$(git log -1 --format=%ct)}
room=packaging/out/wheel

rm -rf "$room"
mkdir -p "$room/hefrudyl" dist
cp benches/python/hefrudyl/*.py "$room/hefrudyl"
install -m755 "$library" "$room/hefrudyl/libhefrudyl.so"
packaging/proved.py >"$room/hefrudyl/PROVED"
cp packaging/wheel/setup.py packaging/wheel/README.md "$room"
export HEFRUDYL_GLIBC
HEFRUDYL_GLIBC=$(printf '2.5\n%s\n' "$(packaging/needs.sh "$library")" | sort -V | tail -n 1) # manylinux begins at 2.5
sed "s/@VERSION@/$version/" packaging/wheel/pyproject.toml >"$room/pyproject.toml"
rm -f dist/hefrudyl-"$version"-py3-*.whl
/usr/bin/python3 -m build --wheel --no-isolation --outdir dist "$room" >packaging/out/wheel.log 2>&1 \
  || { tail -n 100 packaging/out/wheel.log; exit 1; }
ls -l dist/hefrudyl-"$version"-py3-*.whl
