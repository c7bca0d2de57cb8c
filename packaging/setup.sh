#!/usr/bin/env bash
# Installs by apt-get what the packages are made and tried with. It fails where a tool is missing afterwards, and prints what apt-get
# wrote only where that fails.
set -euo pipefail

packages=(dpkg-dev debhelper fakeroot lintian python3-build python3-setuptools python3-wheel mmdebstrap binutils xz-utils make gcc libc6-dev)
tools=(dpkg-buildpackage dh fakeroot lintian mmdebstrap objdump xz make gcc unshare)

missing() {
  for tool in "${tools[@]}"; do
    command -v "$tool" >/dev/null || echo "$tool"
  done
  /usr/bin/python3 -c 'import build, setuptools, wheel' 2>/dev/null || echo python3-build
  # what a static program is linked with; the compiler prints a file's name alone where it hasn't the file
  [ "$(gcc -print-file-name=libc.a 2>/dev/null)" != libc.a ] || echo libc6-dev
}

if [ -n "$(missing)" ]; then
  root=()
  [ "$(id -u)" -eq 0 ] || root=(sudo)
  apt=("${root[@]}" env DEBIAN_FRONTEND=noninteractive apt-get -o DPkg::Lock::Timeout=600 -o Acquire::Retries=5 -o APT::Sandbox::User=root)
  log=$(mktemp)
  { "${apt[@]}" update && "${apt[@]}" install -y --no-install-recommends "${packages[@]}"; } >"$log" 2>&1 || { cat "$log"; exit 1; }
  rm "$log"
fi

if [ -n "$(missing)" ]; then
  echo "packaging/setup.sh: still missing: $(missing | tr '\n' ' ')" >&2
  exit 1
fi
dpkg-buildpackage --version | sed -n 1p
lintian --version
mmdebstrap --version
/usr/bin/python3 -c 'import build; print("python3-build", build.__version__)'
