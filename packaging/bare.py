#!/usr/bin/env python3
"""Installs the tarball, the Debian packages and the wheel of dist/ into a Debian that has neither the toolchain nor the sources nor
a network, and uses each there: the commands of the pages, programs in C, a bench in Python, the example under Verilator.

    packaging/bare.py [--fresh]

The bare system is made by mmdebstrap and kept as packaging/out/bare.tar; --fresh makes it anew. What is run there is printed with
what it wrote. The last line counts what passed."""

import os
import pathlib
import re
import subprocess
import sys
import time

ROOT = pathlib.Path(__file__).resolve().parent.parent
sys.path.insert(0, str(ROOT / "docs"))
from walk import PAGES, walk

OUT, DIST = ROOT / "packaging/out", ROOT / "dist"
KEPT, BEGUN, ROOM = OUT / "bare.tar", OUT / "begun.tar", OUT / "bare"
AS_ROOT = [] if os.geteuid() == 0 else ["sudo"]
# What a user of the packages has beside them: Python's installer, a C compiler, and Verilator.
TOOLS = "xz-utils,python3-pip,verilator,g++,make,pkgconf"
VERSION = subprocess.run([ROOT / "packaging/version"], capture_output=True, text=True, check=True).stdout.strip()
NAME = f"hefrudyl-{VERSION}-x86_64-linux"
TARBALL, WHEEL = DIST / f"{NAME}.tar.xz", next(iter(DIST.glob(f"hefrudyl-{VERSION}-py3-none-*.whl")), None)
DEBS = [DIST / f"{name}_{VERSION}-1_amd64.deb" for name in ("hefrudyl", "libhefrudyl1", "libhefrudyl-dev")]
EXAMPLES = "share/doc/hefrudyl/examples"


def on_host(*words):
    subprocess.run([*AS_ROOT, *map(str, words)], check=True)


def make_room(fresh):
    """Unpacks a bare system, with the packages and the tests in its folder /root."""
    if fresh or not KEPT.exists():
        apt = ["--aptopt=Acquire::Retries 5", "--aptopt=APT::Sandbox::User root"]
        on_host("mmdebstrap", "--quiet", "--variant=minbase", *apt, f"--include={TOOLS}", "bookworm", BEGUN)
        on_host("mv", BEGUN, KEPT)
    on_host("rm", "-rf", ROOM)
    ROOM.mkdir(parents=True)
    on_host("tar", "-xpf", KEPT, "-C", ROOM)
    tests = [ROOT / "benches/tests" / name for name in ("want.h", "test_monitor.c", "test_judge.c", "test_clocked.py")]
    on_host("cp", TARBALL, WHEEL, *DEBS, *tests, ROOM / "root")


def ran_bare(command, path="", quiet=False):
    """Runs a command in the bare system, without a network."""
    shell = ["env", "-i", f"PATH={path}/usr/sbin:/usr/bin:/sbin:/bin", "HOME=/root", "LANG=C.UTF-8", "bash", "-c", f"cd /root; {command}"]
    apart = ["unshare", "--mount", "--net", "--pid", "--fork", f"--mount-proc={ROOM}/proc", "chroot", ROOM]
    ran = subprocess.run([*AS_ROOT, *apart, *shell], stdout=subprocess.PIPE, stderr=subprocess.STDOUT, text=True, timeout=600)
    if not quiet:
        lines = ran.stdout.splitlines()
        left = [f"... ({len(lines) - 12} lines)"] if len(lines) > 13 else []
        print(f"# {command}", *(lines if not left else [*lines[:6], *left, *lines[-6:]]), sep="\n", flush=True)
    return ran


def run(command, path="", quiet=False):
    """The same, and returns what the command wrote, with its status if that isn't 0."""
    ran = ran_bare(command, path, quiet)
    return ran.stdout + (f"status {ran.returncode}\n" if ran.returncode else "")


PASSED, FAILED = [], []


def want(what, holds, ran=None):
    """Notes whether it holds; where it doesn't, shows all that the command wrote."""
    (PASSED if holds else FAILED).append(what)
    print(f"{'ok     ' if holds else 'FAILED '} {what}", flush=True)
    if ran and not holds:
        print(f"error: {' '.join(ran.args[-1:])}: status {ran.returncode}, and wrote:\n{ran.stdout}", flush=True)


def writes(what, command, pattern, path=""):
    """That a command succeeds and writes a text with this pattern."""
    ran = ran_bare(command, path)
    want(what, ran.returncode == 0 and re.search(pattern, ran.stdout, re.M), ran)


def each(number, things, holds, lost):
    return f"each of the {number} {things} {holds}" + (f"; not {', '.join(lost)}" if lost else "")


def pages(prefix, path):
    """That the pages' commands write what the installed pages show, and that what these link to is there."""
    documents = ROOM / f"{prefix}/share/doc/hefrudyl"[1:]
    there = lambda command: ran_bare(f"cd walk; {command}", path, quiet=True).stdout
    walked = []
    for page in PAGES:
        run(f"rm -rf walk; cp -R {prefix}/{EXAMPLES} walk", quiet=True)
        walked.append(walk(page, (documents / page).read_text(), there))
    passed, failed = map(sum, zip(*walked))
    want(f"{passed} commands of the pages write what is shown, {failed} don't", passed and not failed)
    links = [(page, it) for page in documents.rglob("*.md") for it in re.findall(r"\]\(([^)#]+)", page.read_text()) if "://" not in it]
    lost = [f"{page.name}: {it}" for page, it in links if not (page.parent / it).exists()]
    want(each(len(links), "links of the pages", "leads somewhere", lost), links and not lost)


def programs(flags, path=""):
    """That programs in C find header and library, the shared one and the static one."""
    for name in ("test_monitor", "test_judge"):
        for how, words in (("shared", f"$({flags} --libs hefrudyl)"), ("static", f"$({flags} --variable=libdir hefrudyl)/libhefrudyl.a")):
            command = f"gcc -Wall -o {name} {name}.c $({flags} --cflags hefrudyl) {words} && LD_LIBRARY_PATH=$({flags} --variable=libdir hefrudyl) ./{name}"
            writes(f"{name}.c with the {how} library", command, r"\b0 failures", path)


def simulated(prefix, path=""):
    """That the example is recorded, judged and checked under Verilator, without a fault and with one."""
    make = f"make -f {prefix}/share/hefrudyl/example/Makefile"
    writes("the example: recorded and judged", f"{make} record", r"^coherent \d+$", path)
    writes("the example: checked", f"{make} check", r"agree", path)
    for target, pattern in (("record", r"^line \d+ H12$"), ("check", r"breaks H12")):
        written = run(f"{make} {target} BUG=5", path)
        want(f"the example with a bug: {target} finds it", re.search(pattern, written, re.M))


def tarball():
    prefix = f"/opt/{NAME}"
    path = f"{prefix}/bin:"
    writes("the tarball is unpacked", f"tar -xf {TARBALL.name} -C /opt && ls {prefix}", "PROVED")
    writes("its files are those of PROVED", f"cd {prefix}; head -n 9 PROVED; grep -E '^[0-9a-f]{{64}}  ' PROVED | sha256sum -c --quiet && echo all", "^all$")
    writes("the command needs no library", "ldd $(command -v tltool) || tltool --version", rf"^tltool {re.escape(VERSION)}$", path)
    alone = f"mkdir alone && cp {prefix}/bin/tltool {prefix}/{EXAMPLES}/two_caches.trace alone && chroot alone /tltool monitor two_caches.trace"
    writes("the command runs in a root that has nothing else", alone, "^clean 29$")
    pages(prefix, path)
    programs(f"PKG_CONFIG_PATH={prefix}/lib/pkgconfig pkg-config")
    writes("the Python module", f"PYTHONPATH={prefix}/share/hefrudyl/python python3 test_clocked.py", "^0 failures$")
    simulated(prefix, path)
    run(f"rm -rf {prefix} out")


def whole():
    """That the Debian packages have each file of the tarball, at its place in Debian."""
    places = {"lib/": "usr/lib/x86_64-linux-gnu/", "PROVED": "usr/share/doc/hefrudyl/PROVED",
              "share/doc/hefrudyl/CHANGELOG.md": "usr/share/doc/hefrudyl/changelog", "": "usr/"}
    place = lambda name: next(to + name.removeprefix(of) for of, to in places.items() if name.startswith(of))
    names = lambda command: {it.removeprefix("./") for it in run(command, quiet=True).splitlines() if not it.endswith("/")}
    packed = {it.removesuffix(".gz") for deb in DEBS for it in names(f"dpkg-deb --fsys-tarfile {deb.name} | tar -t")}
    wanted = {place(it.removeprefix(f"{NAME}/")) for it in names(f"tar -tf {TARBALL.name}")}
    lost = sorted(wanted - packed)
    want(each(len(wanted), "files of the tarball", "is in the packages", lost), wanted and not lost)


def packages():
    whole()
    writes("the packages are installed", f"dpkg -i {' '.join(it.name for it in DEBS)}", "Setting up hefrudyl")
    for package in ("hefrudyl", "libhefrudyl1"):
        writes(f"{package} says what was proved", f"head -n 3 /usr/share/doc/{package}/PROVED", "^Proved by rattle-kit")
    writes("the command", "command -v tltool; tltool --version", rf"^/usr/bin/tltool\ntltool {re.escape(VERSION)}$")
    pages("/usr", "")
    programs("pkg-config")
    writes("they are removed", "dpkg --purge hefrudyl libhefrudyl-dev libhefrudyl1 && ! command -v tltool && ! ls /usr/share/hefrudyl && echo gone", "^gone$")


def wheel():
    install = "pip install --no-index --break-system-packages --root-user-action=ignore"
    writes("the wheel is installed", f"{install} ./{WHEEL.name}", "Successfully installed hefrudyl")
    proved = "python3 -c 'import hefrudyl, pathlib; print(pathlib.Path(hefrudyl.__file__).with_name(\"PROVED\").read_text())' | head -n 3"
    writes("the wheel says what was proved", proved, "^Proved by rattle-kit")
    writes("a bench in Python", "python3 test_clocked.py", "^0 failures$")
    writes("it is removed", "pip uninstall --yes --break-system-packages --root-user-action=ignore hefrudyl", "Successfully uninstalled")


def main():
    missing = [str(it) for it in (TARBALL, WHEEL or "the wheel", *DEBS) if not pathlib.Path(it).exists()]
    if missing:
        sys.exit(f"packaging/bare.py: missing: {', '.join(missing)}: run `make packages`")
    began = time.time()
    make_room("--fresh" in sys.argv[1:])
    print(f"the bare system is unpacked after {time.time() - began:.0f} s")
    on_host("df", "-h", ROOM)
    there = "import importlib.util as it; print(it.find_spec(\"hefrudyl\"))"
    system = run(f"cat /etc/debian_version; command -v rt tltool; ls -d /opt/* /root/* 2>/dev/null; python3 -c '{there}'")
    want("the system has neither the toolchain nor Hefrudyl", re.search(r"^None$", system, re.M) and not re.search(r"/rt$|/tltool$|/opt/", system, re.M))
    for part in (tarball, packages, wheel):
        print(f"== {part.__name__}", flush=True)
        part()
    on_host("rm", "-rf", ROOM)
    for file in (TARBALL, *DEBS, WHEEL):
        print(f"{file.stat().st_size:9} {file.name}")
    for what in FAILED:
        print(f"error: FAILED  {what}")
    took = f"{time.time() - began:.0f} s, {sum(os.times()[:4]):.0f} s of processor time"
    print(f"{len(PASSED)} passed, {len(FAILED)} failed, {took}")
    return 1 if FAILED else 0


if __name__ == "__main__":
    sys.exit(main())
