"""What the tests of the benches share: how simulations, programs and the library are built and run.

Tests run side by side. Each has a folder of its own for what it writes; what several of them use is built once."""

import fcntl
import functools
import glob
import hashlib
import os
import re
import shutil
import subprocess
import sys

HERE = os.path.dirname(os.path.abspath(__file__))
ROOT = os.path.dirname(HERE)
OUT = os.path.join(HERE, "out")
TLTOOL = os.environ.get("TLTOOL", os.path.join(ROOT, "crates/tltool/out/tltool"))
LIBRARY = os.path.join(OUT, "libhefrudyl.a")
SHARED_LIBRARY = os.path.join(OUT, "libhefrudyl.so")
room = OUT  # where the test that this process runs writes

WATCH = ["sv/tl_pkg.sv", "sv/tl_unknown.sv", "sv/tl_pending.sv", "sv/tl_port_watch.sv"]
SV = WATCH + ["sv/tl_manager_recorder.sv", "sv/tl_link_recorder.sv"]
COMMIT_WATCH = ["sv/tl_commit_watch.sv"]
COMMIT_RECORDER = COMMIT_WATCH + ["sv/tl_commit_recorder.sv"]
CHECKERS = ["sv/tl_manager_checker.sv", "sv/tl_link_checker.sv"]
COMMIT_CHECKER = ["sv/tl_commit_checker.sv"]
INCLUDES = "-I" + os.path.join(HERE, "sv")
TESTS = []


def test(function):
    TESTS.append(function)
    return function


def shares(folder):
    """A test that writes into a folder of what is built: of those with the same one at a time runs."""
    def marked(function):
        function.shares = folder
        return function
    return marked


def measures(function):
    """A test that measures time: no other runs beside it."""
    function.measures = True
    return function


class Failed(Exception):
    pass


def want(holds, text):
    if not holds:
        raise Failed(text)


def run(command, status=0, timeout=600, **options):
    """What a command writes; its exit status has to be the one that is wanted."""
    done = subprocess.run(command, stdout=subprocess.PIPE, stderr=subprocess.STDOUT, text=True,
                          timeout=timeout, **options)
    if status is not None and done.returncode != status:
        raise Failed(f"{' '.join(command[:3])} ..: status {done.returncode}, wanted {status}\n{done.stdout[-3000:]}")
    return done.stdout


def begin(name):
    """Gives the test that this process runs an empty folder."""
    global room
    room = os.path.join(OUT, "tests", name)
    shutil.rmtree(room, ignore_errors=True)
    os.makedirs(room)


def end():
    """Removes what a test wrote that has passed."""
    shutil.rmtree(room)


def path(name):
    """A file of the test that runs."""
    return os.path.join(room, name)


def files(names):
    return [os.path.join(HERE, name) for name in names]


def digest(words, names=()):
    """A sum of words and of what files have."""
    sum = hashlib.sha256("\0".join(words).encode())
    for name in names:
        with open(name, "rb") as file:
            sum.update(file.read())
    return sum.hexdigest()


def made(name, words):
    """The folder in which a command has built: once for all tests, and again where a file that it names, or one that these
    may include, has changed. Where two tests want the same at once, one waits for the other."""
    folder = os.path.join(OUT, "built", f"{name}-{digest(words)[:12]}")
    included = [it for ending in ("sv/*.svh", "sv/*.hpp", "include/*", "tests/*.h") for it in glob.glob(os.path.join(HERE, ending))]
    now = digest(words, [it for it in words if os.path.isfile(it)] + sorted(included))
    os.makedirs(os.path.dirname(folder), exist_ok=True)
    with open(f"{folder}.mark", "a+") as mark:
        fcntl.flock(mark, fcntl.LOCK_EX)
        mark.seek(0)
        if mark.read() != now:
            mark.truncate(0)
            shutil.rmtree(folder, ignore_errors=True)
            os.mkdir(folder)
            run(words, cwd=folder)
            mark.write(now)
    return folder


BINARY = ["verilator", "--binary", "--timing", "-Wno-WIDTH", "-Mdir", "."]


@functools.cache
def runtime(*flags):
    """What Verilator links with each simulation: compiled once, while a small one is built."""
    folder = made("runtime", [*BINARY, *flags, "--top-module", "runtime", *files(["tests/runtime.sv"])])
    return sorted(glob.glob(os.path.join(folder, "verilated*.o")))


def verilator(name, top, sources, *flags):
    """Builds a simulation, and gives its path. All that Verilator writes for it is compiled as one file; only the example is
    simulated for so long that it is worth while to optimize."""
    make = f"VM_PARALLEL_BUILDS=0 VM_GLOBAL_FAST= OPT_FAST={'-Os' if top == 'bench_recorded' else '-O0'}"
    folder = made(name, [*BINARY, "-O3", INCLUDES, "--top-module", top, "-MAKEFLAGS", make, "-LDFLAGS", " ".join(runtime()),
                         *flags, *files(sources)])
    return os.path.join(folder, "V" + top)


def icarus(name, top, sources, *flags):
    """The same by Icarus."""
    return os.path.join(made(name, ["iverilog", "-g2012", INCLUDES, "-s", top, "-o", name, *flags, *files(sources)]), name)


class ScriptedBench:
    """A bench that plays scripts, in both simulators. Its trace has the name `trace`."""

    def __init__(self, trace, top, sources):
        self.trace, self.top, self.sources = trace, top, sources

    def simulations(self, name, *flags):
        """The bench in each simulator, with the exit status that a $fatal ends it with."""
        name = f"{self.trace}_{name}"
        return (("Verilator", [verilator(name, self.top, self.sources, *flags)], -6),
                ("Icarus", ["vvp", "-n", icarus(f"{name}.vvp", self.top, self.sources, *flags)], 1))

    def played(self, command, script, *words, status=0):
        """What a run of the script tells."""
        with open(path("script"), "w") as text:
            text.write("\n".join(script) + "\n")
        return run([*command, f"+script={path('script')}", f"+trace={path(self.trace)}", *words], status=status)


def over_library(cpp):
    """What Verilator wants for these sources of C++ over the library."""
    return files(cpp) + [LIBRARY, "-CFLAGS", "-I" + os.path.join(HERE, "include")]


# What the checkers stand on.
DPI = over_library(["sv/tl_checker_dpi.cpp"])


def judged(trace, *words):
    """What `tltool monitor`, or the command with these words, writes of a trace."""
    done = subprocess.run([TLTOOL, *(words or ["monitor"]), trace], stdout=subprocess.PIPE, text=True, timeout=600)
    return done.stdout.strip()


def decoded(beat):
    """The text of `tltool decode` for the fields of a beat line."""
    done = subprocess.run([TLTOOL, "decode"], input=" ".join(beat) + "\n", stdout=subprocess.PIPE, text=True)
    return done.stdout.strip()


def beat_lines(name):
    with open(path(name)) as trace:
        return trace.read().splitlines()


def enumerators(file, pattern):
    with open(os.path.join(HERE, file)) as text:
        return re.findall(pattern, text.read())


def compiled(name, compiler, source, *flags):
    folder = made(name, [compiler, "-O1", "-g", "-Wall", "-Wextra", "-Werror", "-I" + os.path.join(HERE, "include"), *flags,
                         "-o", name, os.path.join(HERE, source), LIBRARY])
    return os.path.join(folder, name)


def python_module():
    os.environ["HEFRUDYL_LIBRARY"] = SHARED_LIBRARY
    sys.path.insert(0, os.path.join(HERE, "python"))
    import hefrudyl
    return hefrudyl


def processor_time(command):
    """The processor time of a command and what it starts."""
    before = os.times()
    run(command)
    after = os.times()
    return after.children_user - before.children_user + after.children_system - before.children_system


def least_times(first, second, is_enough=lambda least: True):
    """The least processor times of two commands, side by side five times, and up to twenty times as long as they
    aren't enough: whatever else the machine does only adds to a time."""
    times = []
    while len(times) < 5 or (len(times) < 20 and not is_enough(least)):
        times.append((processor_time(first), processor_time(second)))
        least = tuple(min(time[i] for time in times) for i in (0, 1))
    return least
