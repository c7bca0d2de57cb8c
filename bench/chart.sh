#!/usr/bin/env bash
# chart.sh TOOL [LINES]: the processor time and memory of `TOOL chart` beside those of `TOOL monitor`, to /dev/null, the best
# of three runs each: the first 200 messages, a window in the middle, and one block. LINES is the number of lines of the
# trace, 2000000 if none is said, which is some 60 MB.
set -euo pipefail
tool=${1:?usage: chart.sh TOOL [LINES]}
lines=${2:-2000000}
trace=$(mktemp)
trap 'rm -f "$trace"' EXIT
export LC_ALL=C

# one link at UL: Gets of 8 bytes and their answers in turn
awk -v n="$lines" 'BEGIN {
    print "tltrace 1 UL"
    for (i = 0; 2 * i < n; i++) {
        printf "00 A 4 0 3 %02x %08x ff - 0\n", i % 256, 8 * i
        printf "00 D 1 0 3 %02x 00 0 0123456789abcdef 0\n", i % 256
    }
}' >"$trace"

# seconds and kilobytes of the best of three runs
best() {
    for _ in 1 2 3; do
        /usr/bin/time -f '%U s %M KB' "$tool" "$@" "$trace" 2>&1 >/dev/null | tail -n 1
    done | sort -n | head -n 1
}

middle=$((lines / 2))
printf 'monitor %s\n' "$(best monitor)"
printf 'chart %s\n' "$(best chart)"
printf 'chart --lines %s %s\n' "$middle-$((middle + 100))" "$(best chart --lines "$middle-$((middle + 100))")"
printf 'chart --block 010 %s\n' "$(best chart --block 010)"
