#!/usr/bin/env bash
# write.sh: the time of `write_line` for the beats of ten lines of all channels, 100,000 times each, and
# its instructions a line where valgrind is installed. Builds a program over tl_beat in a folder of its own.
set -euo pipefail
root=$(cd "$(dirname "$0")/.." && pwd)
work=$(mktemp -d)
trap 'rm -rf "$work"' EXIT

mkdir -p "$work/crates/write/src"
cp -r "$root"/crates/tl_beat "$work/crates/"
cp "$root/bench/write.rt.txt" "$work/crates/write/src/main.rt"
cp "$root/HANDLES" "$work/"
{
    grep -E '^tl_beat:' "$root/crates.txt"
    echo 'write: tl_beat'
} >"$work/crates.txt"

# instructions ROUNDS: how many the program takes for so many rounds
instructions() {
    valgrind --tool=callgrind --callgrind-out-file=/dev/null out/write "$1" 2>&1 >/dev/null | sed -n 's/.*Collected : //p'
}

cd "$work/crates/write"
rt run -- 100000 2>&1 | grep ' ns'
if command -v valgrind >/dev/null; then
    awk -v a="$(instructions 2000)" -v b="$(instructions 0)" 'BEGIN { printf "instructions: %.0f a line\n", (a - b) / 20000 }'
fi
