#!/usr/bin/env bash
# random.sh TOOL [EVENTS..]: the events a second that `TOOL random` writes to /dev/null, by processor time, and the most
# memory that it takes, at three worlds; EVENTS are the numbers of events (100000 and 1000000 if none is said), so that it
# shows whether memory grows with them.
set -euo pipefail
tool=${1:?usage: random.sh TOOL [EVENTS..]}
shift
(($#)) || set -- 100000 1000000
seen=$(mktemp)
trap 'rm -f "$seen"' EXIT

# row NAME EVENTS [WORD..]: a world's row
row() {
    name=$1 events=$2
    shift 2
    /usr/bin/time -o "$seen" -f '%U %S %M' "$tool" random --seed 1 --events "$events" "$@" >/dev/null
    awk -v name="$name" -v n="$events" \
        '{ s = $1 + $2; printf "%-10s %10d %9.2f %12.0f %14.0f %12d\n", name, n, s, s ? n / s : 0, s ? 3600 * n / s : 0, $3 }' "$seen"
}

printf '%-10s %10s %9s %12s %14s %12s\n' world events seconds 'events/s' 'events/hour' 'KiB at most'
for events; do
    row default "$events"
    row plain "$events" --clients UL:8,UH:8 --blocks 64
    row sixteen "$events" --clients "$(printf 'C:8,%.0s' {1..15})C:8" --blocks 1024 --trackers 8 --width 16 --profile 2
done
