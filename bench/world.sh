#!/usr/bin/env bash
# world.sh [ROUNDS]: how many deliveries a world of two and of sixteen caching clients makes in a second,
# where they contend for one block and for 1,024, by `next_delivery` and `step` and by `drain`; and the
# instructions a delivery where valgrind is installed. In each round (100,000 where ROUNDS isn't given, an
# eighth of them for sixteen clients) each client asks for a block to write, all is delivered, and who has
# its block writes to it. Builds a program over the crates of this repository in a folder of its own.
set -euo pipefail
rounds=${1:-100000}
root=$(cd "$(dirname "$0")/.." && pwd)
work=$(mktemp -d)
trap 'rm -rf "$work"' EXIT
below=(tl_beat tl_burst tl_params tl_rules tl_client tl_manager tl_coherence tl_world)

mkdir -p "$work/crates/world/src"
for crate in "${below[@]}"; do
    cp -r "$root/crates/$crate" "$work/crates/"
    grep -E "^$crate:" "$root/crates.txt" >>"$work/crates.txt"
done
echo 'world: tl_coherence tl_world tl_client tl_manager tl_rules arrayvec' >>"$work/crates.txt"
cp "$root/bench/world.rt.txt" "$work/crates/world/src/main.rt"
cp "$root/HANDLES" "$work/"

# counted ROUNDS: the program's lines, and the instructions that it takes for them
counted() {
    valgrind --tool=callgrind --callgrind-out-file=/dev/null out/world "$1" 2>&1 |
        awk '/ns$/ { count += $6 } /Collected :/ { all = $NF } END { print count, all }'
}

cd "$work/crates/world"
if ! rt run -- "$rounds" >"$work/log" 2>&1 || ! grep -q ' ns$' "$work/log"; then
    cat "$work/log" >&2
    echo 'world.sh: the program was not built, or it failed' >&2
    exit 1
fi
awk '/ ns$/ { printf "%s, %.2f million a second\n", $0, 1000 * $6 / $8 }' "$work/log"
if command -v valgrind >/dev/null; then
    read -r few least < <(counted 400)
    read -r many most < <(counted 4400)
    awk -v n="$((many - few))" -v i="$((most - least))" 'BEGIN { printf "instructions: %.0f a delivery\n", i / n }'
fi
