#!/usr/bin/env bash
# kernels.sh: the time of the masked merge and of an atomic on a block, beside plain loops over its
# bytes, in one run. Builds a program over the crates of this repository in a folder of its own.
set -euo pipefail
root=$(cd "$(dirname "$0")/.." && pwd)
work=$(mktemp -d)
trap 'rm -rf "$work"' EXIT

mkdir -p "$work/crates/kernels/src"
for crate in tl_beat tl_burst tl_params tl_rules; do
    cp -r "$root/crates/$crate" "$work/crates/"
done
cp "$root/bench/kernels.rt.txt" "$work/crates/kernels/src/main.rt"
cp "$root/HANDLES" "$work/"
{
    grep -E '^(tl_beat|tl_burst|tl_params|tl_rules):' "$root/crates.txt"
    echo 'kernels: tl_rules tl_burst tl_beat'
} >"$work/crates.txt"

cd "$work/crates/kernels"
if ! rt run >"$work/log" 2>&1; then
    cat "$work/log" >&2
    echo 'kernels.sh: the program was not built, or it failed' >&2
    exit 1
fi
grep ' ns' "$work/log"
