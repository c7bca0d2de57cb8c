#!/usr/bin/env bash
# decode.sh TOOL [TENTHS]: what `TOOL decode` takes for TENTHS times ten beat lines (216,000, some 65 MB,
# where it isn't given), beside `sed -n p` on the same file, both to /dev/null: the seconds, the best of
# ten runs each, and the instructions a line (`valgrind --tool=callgrind` on 20,000 lines, where it is
# installed). First for ten lines of all channels over and over, then for lines of all channels and
# opcodes with random fields.
set -euo pipefail
tool=${1:?usage: decode.sh TOOL [TENTHS]}
tenths=${2:-216000}
folder=$(mktemp -d)
trap 'rm -rf "$folder"' EXIT
export LC_ALL=C

beats() {
    printf '%s\n' \
        '00 A 4 0 6 00 00000040 ff - 0' \
        '01 A 0 0 3 02 00001008 ff 0123456789abcdef 0' \
        '00 A 2 4 3 01 00000010 ff fedcba9876543210 0' \
        '02 B 6 2 6 00 000fffc0 ff - 0' \
        '02 C 5 1 6 00 000fffc0 00000000deadbeef 0' \
        '01 C 4 5 6 00 00000080 - 0' \
        '00 D 1 0 6 00 00 0 8899aabbccddeeff 0' \
        '01 D 0 0 3 02 00 0 - 0' \
        '02 D 4 0 6 03 01 0 - 0' \
        '02 E 01'
}

# repeated TENTHS: the ten lines above, so many times
repeated() {
    beats | awk -v times="$1" '{ line[NR] = $0 } END { for (i = 0; i < times; i++) for (n = 1; n <= NR; n++) print line[n] }'
}

# mixed TENTHS: ten times as many lines, the same ones on each call
mixed() {
    awk -v times="$1" '
        function below(n) { return int(rand() * n) }
        function digits(n,  text) { text = ""; while (n-- > 0) text = text substr("0123456789abcdef", below(16) + 1, 1); return text }
        BEGIN {
            srand(7)
            split("0 1 2 4 5 6 7", on_c, " ")
            split("0 1 2 4 5 6", on_d, " ")
            for (i = 0; i < 10 * times; i++) {
                letter = substr("ABCDE", below(5) + 1, 1)
                if (letter == "E") { print digits(2), "E", digits(2); continue }
                if (letter == "C") { op = on_c[below(7) + 1]; data = op == 1 || op == 5 || op == 7 }
                else if (letter == "D") { op = on_d[below(6) + 1]; data = op == 1 || op == 5 }
                else { op = below(8); data = op < 4 }
                param = letter == "D" ? below(4) : below(8)
                line = digits(2) " " letter " " op " " param " " digits(1) " " digits(2) " "
                line = line (letter == "D" ? digits(2) " " below(2) : digits(8))
                if (letter == "A" || letter == "B") line = line " " digits(2)
                print line, (data ? digits(16) : "-"), below(2)
            }
        }'
}

# seconds FILE COMMAND..: the least of ten times
seconds() {
    local file=$1 best=999999999 start end
    shift
    for _ in 1 2 3 4 5 6 7 8 9 10; do
        start=$(date +%s%N)
        "$@" <"$file" >/dev/null
        end=$(date +%s%N)
        (((end - start) / 1000 < best)) && best=$(((end - start) / 1000))
    done
    awk -v t="$best" 'BEGIN { printf "%.3f", t / 1000000 }'
}

# instructions FILE: how many `TOOL decode` takes for it
instructions() {
    valgrind --tool=callgrind --callgrind-out-file=/dev/null "$tool" decode <"$1" 2>&1 >/dev/null | sed -n 's/.*Collected : //p'
}

# report NAME FILE PART NONE: the figures of a file, of which PART has the first 20,000 lines and NONE none
report() {
    local decode sed whole none
    decode=$(seconds "$2" "$tool" decode)
    sed=$(seconds "$2" sed -n p)
    printf '%s: %s lines, %s bytes\n' "$1" "$(wc -l <"$2")" "$(stat -c %s "$2")"
    printf '  tltool decode  %s s\n' "$decode"
    printf '  sed -n p       %s s\n' "$sed"
    awk -v a="$decode" -v b="$sed" 'BEGIN { printf "  ratio          %.2f\n", a / b }'
    if command -v valgrind >/dev/null; then
        whole=$(instructions "$3")
        none=$(instructions "$4")
        awk -v a="$whole" -v b="$none" 'BEGIN { printf "  instructions   %.0f a line\n", (a - b) / 20000 }'
    fi
}

: >"$folder/none"
for kind in repeated mixed; do
    "$kind" "$tenths" >"$folder/$kind"
    "$kind" 2000 >"$folder/part"
    report "$kind" "$folder/$kind" "$folder/part" "$folder/none"
done
