#!/usr/bin/env bash
# coherent.sh TOOL [EVENTS [BLOCKS]]: the processor time and memory of `TOOL coherent` beside those of `TOOL monitor`, to
# /dev/null, the best of three runs each, for two traces: that of a random schedule of EVENTS events (3,000,000 if none is
# said) of six clients, and that of Puts of 64 bytes to as many BLOCKS (685,000 if none is said). Behind the second stands how
# many bytes `coherent` takes for each written block.
set -euo pipefail
tool=${1:?usage: coherent.sh TOOL [EVENTS [BLOCKS]]}
blocks=${3:-685000}
trace=$(mktemp)
trap 'rm -f "$trace"' EXIT

# one line for a command: the seconds and the memory of the fastest of three runs
best() {
    for _ in 1 2 3; do
        /usr/bin/time -f '%U s %M KB' "$tool" "$1" "$trace" 2>&1 >/dev/null | tail -n 1
    done | sort -n | head -n 1
}

"$tool" random --seed 1 --events "${2:-3000000}" --clients C:2,C:2,C:2,C:2,UH:2,UL:2 --blocks 1024 --trackers 8 \
    | "$tool" run --trace >"$trace"
printf '%s beats\n' "$(($(wc -l <"$trace") - 1))"
for command in monitor coherent; do
    printf '%s: %s\n' "$command" "$(best "$command")"
done

awk -v blocks="$blocks" 'BEGIN {
    data = "00112233445566778899aabbccddeeff"
    print "tltrace 2 16 UH"
    for (block = 0; block < blocks; block++) {
        for (beat = 0; beat < 4; beat++) printf "00 A 0 0 6 00 %08x ffff %s 0\n", 64 * block, data
        print "00 D 0 0 6 00 00 0 - 0"
    }
}' >"$trace"
printf '%s written blocks\n' "$blocks"
memory=()
for command in monitor coherent; do
    found=$(best "$command")
    printf '%s: %s\n' "$command" "$found"
    memory[${#memory[@]}]=$(printf '%s' "$found" | awk '{ print $3 }')
done
printf '%s bytes a block\n' "$(((memory[1] - memory[0]) * 1024 / blocks))"
