#!/usr/bin/env bash
# run.sh TOOL [MB..]: for two schedules of MB million bytes each (60 if none is said), and for two of a
# tenth of it, which have long drains, the lines that `TOOL run` writes a second of processor time, to
# /dev/null, the best of three runs, the most memory that it takes, and the instructions a line (`valgrind
# --tool=callgrind` on the first 20,000 lines, where it is installed). The trace of each schedule must be
# `clean` for `TOOL monitor`.
set -euo pipefail
tool=${1:?usage: run.sh TOOL [MB..]}
shift
(($#)) || set -- 60
folder=$(mktemp -d)
trap 'rm -rf "$folder"' EXIT
export LC_ALL=C

# a cache that holds a block: Stores and Loads of it in turn
words() {
    awk -v n="$1" 'BEGIN {
        print "tlsched 1 1 1 C:1\n00 acquire 000 NtoT\ndrain"
        for (i = 0; 58 * i < n; i++) print "00 store 3 00000000 0123456789abcdef\n00 load 3 00000000"
    }'
}

# a plain client: Gets of 8 bytes, each with its two deliveries
gets() {
    awk -v n="$1" 'BEGIN {
        print "tlsched 1 1024 8 UL:8"
        for (i = 0; 45 * i < n; i++) printf "00 get 3 %08x\n00 deliver A\n00 deliver D\n", 8 * (i * 7919 % 8192)
    }'
}

# rounds BYTES LEVEL SIZE: sixteen clients of a level with eight sources each; in each round of SIZE bytes
# 128 requests, and then all is drained. A cache asks for a block to write, a plain client for 64 bytes.
rounds() {
    awk -v n="$1" -v level="$2" -v size="$3" 'BEGIN {
        printf "tlsched 1 1024 8"
        for (l = 0; l < 16; l++) printf " %s:8", level
        printf "\n"
        for (i = 0; size * i < n; i++) {
            for (k = 0; k < 128; k++) {
                if (level == "C") printf "%02x acquire %03x NtoT\n", (k + i) % 16, k
                else printf "%02x get 6 %08x\n", k % 16, 64 * ((i * 128 + k) * 7919 % 1024)
            }
            print "drain"
        }
    }'
}

# sixteen plain clients that read 64 bytes with each of their sources
drains() {
    rounds "$1" UH 2310
}

# sixteen caches that want to write eight blocks each, which are dirty elsewhere
transfers() {
    rounds "$1" C 2694
}

# least FILE: the least processor seconds, and the most memory in KiB, of three runs
least() {
    for _ in 1 2 3; do
        /usr/bin/time -o "$folder/seen" -f '%U %S %M' "$tool" run <"$1" >/dev/null
        cat "$folder/seen"
    done | awk '{ s = $1 + $2 } NR == 1 || s < least { least = s } $3 > m { m = $3 } END { print least, m }'
}

# instructions FILE: how many `TOOL run` takes for it
instructions() {
    valgrind --tool=callgrind --callgrind-out-file=/dev/null "$tool" run <"$1" 2>&1 >/dev/null | sed -n 's/.*Collected : //p'
}

# a_line FILE: the instructions for each line that the first 20,000 of FILE have written
a_line() {
    command -v valgrind >/dev/null || { echo -; return; }
    head -n 20000 "$1" >"$folder/part"
    head -n 1 "$1" >"$folder/none"
    awk -v a="$(instructions "$folder/part")" -v b="$(instructions "$folder/none")" -v n="$("$tool" run <"$folder/part" | wc -l)" \
        'BEGIN { printf "%.0f\n", (a - b) / n }'
}

printf '%-10s %9s %10s %9s %12s %12s %13s\n' schedule 'lines in' 'lines out' seconds 'lines out/s' 'KiB at most' 'instructions'
for million; do
    for name in words gets drains transfers; do
        case $name in
        words | gets) bytes=${million}000000 ;;
        *) bytes=${million}00000 ;;
        esac
        "$name" "$bytes" >"$folder/$name"
        "$tool" run --trace <"$folder/$name" | "$tool" monitor | grep -q '^clean [1-9]' || {
            echo "$name: its trace isn't clean" >&2
            exit 1
        }
        in=$(wc -l <"$folder/$name")
        out=$("$tool" run <"$folder/$name" | wc -l)
        read -r seconds memory < <(least "$folder/$name")
        awk -v name="$name" -v in_="$in" -v out="$out" -v s="$seconds" -v k="$memory" -v i="$(a_line "$folder/$name")" \
            'BEGIN { printf "%-10s %9d %10d %9.2f %12.0f %12d %13s\n", name, in_, out, s, s ? out / s : 0, k, i }'
    done
done
