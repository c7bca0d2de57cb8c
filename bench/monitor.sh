#!/usr/bin/env bash
# monitor.sh TOOL [LINES..]: for four traces the processor time and memory of `TOOL monitor` beside
# those of `TOOL decode` on the same lines without the header, to /dev/null, the best of three runs
# each. LINES are the numbers of lines of each trace: 2000000 if none is said, which is some 60 MB.
set -euo pipefail
tool=${1:?usage: monitor.sh TOOL [LINES..]}
shift
(($#)) || set -- 2000000
trace=$(mktemp)
trap 'rm -f "$trace" "$trace.beats" "$trace.seen"' EXIT
export LC_ALL=C
Z=0123456789abcdef

# one link at UL: Gets of 8 bytes and their answers in turn
gets() {
    awk -v n="$1" -v z="$Z" 'BEGIN {
        print "tltrace 1 UL"
        for (i = 0; 2 * i < n; i++) {
            printf "00 A 4 0 3 %02x %08x ff - 0\n", i % 256, 8 * i
            printf "00 D 1 0 3 %02x 00 0 %s 0\n", i % 256, z
        }
    }'
}

# sixteen links at C: each block in turn acquired whole, granted, acknowledged and probed
transfers() {
    awk -v n="$1" -v z="$Z" 'BEGIN {
        printf "tltrace 1"
        for (l = 0; l < 16; l++) printf " C"
        printf "\n"
        for (i = 0; 12 * i < n; i++) {
            l = i % 16; a = 64 * (i * 7919 % 1048576); s = i % 256
            printf "%02x A 6 1 6 %02x %08x ff - 0\n", l, s, a
            for (b = 0; b < 8; b++) printf "%02x D 5 0 6 %02x %02x 0 %s 0\n", l, s, s, z
            printf "%02x E %02x\n", l, s
            printf "%02x B 6 2 6 00 %08x ff - 0\n", l, a
            printf "%02x C 4 1 6 00 %08x - 0\n", l, a
        }
    }'
}

# one link at C: a block more held after each three lines
holds() {
    awk -v n="$1" 'BEGIN {
        print "tltrace 1 C"
        for (i = 0; 3 * i < n; i++) {
            a = 64 * (i * 7919 % 67108859); s = i % 256
            printf "00 A 7 1 6 %02x %08x ff - 0\n", s, a
            printf "00 D 4 0 6 %02x %02x 0 - 0\n", s, s
            printf "00 E %02x\n", s
        }
    }'
}

# one link at UH: Puts of 64 bytes and their answers
puts() {
    awk -v n="$1" -v z="$Z" 'BEGIN {
        print "tltrace 1 UH"
        for (i = 0; 9 * i < n; i++) {
            for (b = 0; b < 8; b++) printf "00 A 0 0 6 %02x %08x ff %s 0\n", i % 256, 64 * (i % 67108864), z
            printf "00 D 0 0 6 %02x 00 0 - 0\n", i % 256
        }
    }'
}

# least COMMAND FILE: the least processor seconds, and the most memory in KiB, of three runs
least() {
    for _ in 1 2 3; do
        /usr/bin/time -o "$trace.seen" -f '%U %S %M' "$tool" "$1" <"$2" >/dev/null
        cat "$trace.seen"
    done | awk '{ s = $1 + $2 } NR == 1 || s < least { least = s } $3 > m { m = $3 } END { print least, m }'
}

printf '%-10s %9s %9s %9s %7s %12s %12s\n' trace beats decode monitor ratio beats/s 'KiB at most'
for lines; do
    for name in gets transfers holds puts; do
        "$name" "$lines" >"$trace"
        tail -n +2 "$trace" >"$trace.beats"
        beats=$(wc -l <"$trace.beats")
        "$tool" monitor <"$trace" | grep -q "^clean $beats\$" || {
            echo "$name: not clean" >&2
            exit 1
        }
        read -r decode _ < <(least decode "$trace.beats")
        read -r monitor memory < <(least monitor "$trace")
        awk -v n="$name" -v b="$beats" -v d="$decode" -v m="$monitor" -v k="$memory" \
            'BEGIN { printf "%-10s %9d %9.2f %9.2f %7.2f %12.0f %12d\n", n, b, d, m, d ? m / d : 0, m ? b / m : 0, k }'
    done
done
