#!/usr/bin/env bash
# push.sh LIBRARY: the instructions of a call of tl_monitor_push in this static library, with a beat as a struct (bench/push.c), the
# program's own for the beat among them: the difference of two runs (`valgrind --tool=callgrind`), over the beats between them.
set -euo pipefail
library=${1:?usage: push.sh LIBRARY}
here=$(cd "$(dirname "$0")" && pwd)
folder=$(mktemp -d)
trap 'rm -rf "$folder"' EXIT
${CC:-cc} -std=c11 -O2 -I"$here/../benches/include" -o "$folder/push" "$here/push.c" "$library"

# the instructions of a run: KIND COUNT
count() {
    valgrind --tool=callgrind --callgrind-out-file=/dev/null "$folder/push" "$@" 2>&1 | sed -n 's/.*Collected : //p'
}

for kind in gets:2 holds:3; do
    less=$(count "${kind%:*}" 10000)
    more=$(count "${kind%:*}" 30000)
    echo "${kind%:*}: $(((more - less) / (20000 * ${kind#*:}))) instructions a beat"
done
