#!/usr/bin/env bash
# Installs by apt-get what the benches need beside the toolchain. It fails where a tool is missing
# afterwards, and prints what apt-get wrote only where that fails.
set -euo pipefail

tools=(verilator iverilog vvp g++ make python3 yosys berkeley-abc)

missing() {
  for tool in "${tools[@]}"; do
    command -v "$tool" >/dev/null || echo "$tool"
  done
}

if [ -n "$(missing)" ]; then
  root=()
  [ "$(id -u)" -eq 0 ] || root=(sudo)
  apt=("${root[@]}" env DEBIAN_FRONTEND=noninteractive apt-get)
  packages=(verilator iverilog g++ make python3 yosys berkeley-abc)
  log=$(mktemp)
  { "${apt[@]}" update && "${apt[@]}" install -y --no-install-recommends "${packages[@]}"; } >"$log" 2>&1 || { cat "$log"; exit 1; }
  rm "$log"
fi

if [ -n "$(missing)" ]; then
  echo "benches/setup.sh: still missing: $(missing | tr '\n' ' ')" >&2
  exit 1
fi
verilator --version
iverilog -V 2>/dev/null | sed -n 1p
g++ --version | sed -n 1p
yosys -V
python3 --version
