#!/usr/bin/env bash
# Makes the Debian packages hefrudyl, libhefrudyl1 and libhefrudyl-dev in dist/, of what was proved and built here, by Debian's own
# tools, and has lintian look at them: an error fails.
set -euo pipefail
cd "$(dirname "$0")/.."

version=$(packaging/version)
export HEFRUDYL_TOP=$PWD SOURCE_DATE_EPOCH=${SOURCE_DATE_EPOCH:-$(git log -1 --format=%ct)}
room=packaging/out/deb

rm -rf "$room"
mkdir -p "$room" dist
cp -R packaging/debian "$room/debian"
cat >"$room/debian/changelog" <<END
hefrudyl ($version-1) UNRELEASED; urgency=medium

  * Version $version, as CHANGELOG.md has it.

 -- $(sed -n 's/^Maintainer: //p' packaging/debian/control)  $(date -uR -d "@$SOURCE_DATE_EPOCH")
END
packaged() {
  local package
  for package in hefrudyl libhefrudyl1 libhefrudyl-dev; do
    echo "dist/${package}_$version-1_amd64.deb"
  done
}
rm -f $(packaged)
(cd "$room" && dpkg-buildpackage --build=binary --no-sign --no-pre-clean --buildinfo-option=--build=binary) >packaging/out/deb.log 2>&1 \
  || { tail -n 100 packaging/out/deb.log; exit 1; }
mv packaging/out/*_amd64.deb dist/
lintian --fail-on error --allow-root $(packaged)
ls -l $(packaged)
