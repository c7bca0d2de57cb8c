#!/usr/bin/env bash
# spoiled.sh TOOL SCHEDULE: runs a schedule many times over, spoils the trace of it by one beat in ten
# ways, and shows what `TOOL explain` says of each.
set -euo pipefail
tool=${1:?usage: spoiled.sh TOOL SCHEDULE}
schedule=${2:?usage: spoiled.sh TOOL SCHEDULE}
here=$(dirname "$0")
folder=$(mktemp -d)
trap 'rm -rf "$folder"' EXIT

{
    head -n 1 "$schedule"
    for _ in $(seq 200); do
        tail -n +2 "$schedule"
    done
} >"$folder/schedule"
"$tool" run --trace "$folder/schedule" >"$folder/trace" || true
lines=$(wc -l <"$folder/trace")
printf 'the trace has %s lines\n' "$lines"
while read -r kind channel; do
    python3 "$here/spoil.py" "$folder/trace" "$kind" "$channel" $((lines / 2)) >"$folder/spoiled"
    printf '\n%s %s:\n' "$kind" "$channel"
    "$tool" explain "$folder/spoiled" || true
done <<'END'
drop A
drop B
drop C
drop D
drop E
source A
param A
param C
size D
address C
END
