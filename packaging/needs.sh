#!/usr/bin/env bash
# needs.sh FILE: prints the newest version of glibc whose names FILE uses: the oldest that it runs with.
set -euo pipefail
objdump -T "$1" | sed -n 's/.*(\?GLIBC_\([0-9]*\.[0-9]*\).*/\1/p' | sort -V | tail -n 1 | grep .
