#!/usr/bin/env bash
# explain.sh TOOL [LINES]: for two traces the processor time and memory of `TOOL explain` beside those
# of `TOOL monitor`, to /dev/null, the best of three runs each. LINES is the number of lines, 2000000
# if none is said, which is some 60 MB.
set -euo pipefail
tool=${1:?usage: explain.sh TOOL [LINES]}
lines=${2:-2000000}
trace=$(mktemp)
trap 'rm -f "$trace" "$trace.seen"' EXIT
export LC_ALL=C

# one link at UL: Gets of 8 bytes and their answers in turn
gets() {
    awk -v n="$1" 'BEGIN {
        print "tltrace 1 UL"
        for (i = 0; 2 * i < n; i++) {
            printf "00 A 4 0 3 %02x %08x ff - 0\n", i % 256, 8 * i
            printf "00 D 1 0 3 %02x 00 0 0123456789abcdef 0\n", i % 256
        }
    }'
}

# seconds and kilobytes of the best of three runs
best() {
    for _ in 1 2 3; do
        /usr/bin/time -f '%U s %M KB' "$tool" "$1" "$trace" 2>&1 >/dev/null | tail -n 1
    done | sort -n | head -n 1
}

compare() {
    printf '%s: monitor %s, explain %s\n' "$1" "$(best monitor)" "$(best explain)"
}

gets "$lines" >"$trace"
compare 'clean'
# an answer of another size, in the last line
sed -i '$s/D 1 0 3/D 1 0 2/' "$trace"
compare 'H3 in the last line'
