"""The example of the benches in the forms that the tests simulate, and its bugs."""

import os

from harness import CHECKERS, COMMIT_CHECKER, COMMIT_RECORDER, HERE, INCLUDES, LIBRARY, SV, files, icarus, made, over_library, run, verilator

EXAMPLE = [f"example/{name}.sv" for name in (
    "tl_cache", "tl_liberal_cache", "tl_home", "tl_crossbar", "tl_shared_home", "tl_device", "bench_recorded")]

# Each bug of example/tl_home.sv, and the rule of memory that finds it.
HOME_BUGS = {1: "M1", 2: "M4", 3: "M2"}

# Each bug of example/tl_cache.sv: the rule that finds it, and what the bench itself says of the run. The ninth needs a
# manager that takes an Acquire while it probes (tests/test_early_acquire.sv).
BUGS = {
    1: ("H11", "agree"),
    2: (None, "differ"),
    3: ("H8", "agree"),
    4: ("S1", "agree"),
    5: ("H12", "agree"),
    6: ("H5", "agree"),
    7: ("H13", "agree"),
    8: ("H10", "agree"),
    9: (None, "agree"),
}

# Each bug of example/tl_liberal_cache.sv, in the same way.
LIBERAL_BUGS = {
    1: (None, "differ"),
    2: ("H8", "agree"),
    3: ("H8", "agree"),
    4: ("H10", "agree"),
    5: ("H12", "agree"),
    6: ("H13", "differ"),
    7: (None, "differ"),
}

# The bugs of both caches that their processors' stores and loads show: the rule, the cycle in which it is broken with seed 1, and
# the rule that the beats alone break. The bench itself differs at each of them.
COPY_BUGS = {
    2: ("M7", 290, None),
    10: ("M7", 1185, None),
    11: ("M7", 1607, None),
    12: ("M7", 295, None),
    13: ("M7", 1387, None),
    14: ("M5", 1349, None),
    15: ("M6", 12321, None),
    16: ("M5", 1023, None),
}
LIBERAL_COPY_BUGS = {
    1: ("M7", 100, None),
    6: ("M5", 661, "H13"),
    7: ("M6", 7991, None),
    8: ("M7", 100, None),
}


def with_library(name, sources, cpp, *flags):
    """The example with the checkers that the flags choose, and what else stands on the library."""
    extra = over_library(cpp)
    sources = SV + CHECKERS + sources + EXAMPLE
    return verilator(name, "bench_recorded", sources, *flags, *extra)


def checked(count=0):
    """The example with a checker on each link."""
    return with_library(f"checked{count}", [], ["sv/tl_checker_dpi.cpp"], "-DCHECKED", f"-DCOUNT={count}")


def together(count=0):
    """The example with one checker of all links."""
    return with_library(f"together{count}", [], ["sv/tl_checker_dpi.cpp"], "-DTOGETHER", f"-DCOUNT={count}")


def covered():
    """The example with a checker on each link and one of all links, which tell situations."""
    return with_library("covered", [], ["sv/tl_checker_dpi.cpp"], "-DCHECKED", "-DTOGETHER", "-DCOUNT=1", "-DCOVERED")


def proved(width=8, checkers="CHECKED", base=0):
    """The example under the proved manager, with a proved client in place of the second cache, and a checker on each
    link, or one of all links."""
    return with_library(f"proved{width}{checkers}{base:x}", ["sv/tl_proved_manager.sv", "sv/tl_proved_client.sv"],
                        ["sv/tl_checker_dpi.cpp", "sv/tl_agents_dpi.cpp"], "-DPROVED", f"-D{checkers}", "-DCOUNT=0",
                        f"-DWIDTH={width}", f"-DBASE=32'h{base:08x}")


def recorded():
    return verilator("recorded", "bench_recorded", SV + EXAMPLE)


def recorded_commits(*flags):
    """The example whose trace has what the caches' processors store and load."""
    return verilator("with_commits" + "".join(flags), "bench_recorded", SV + COMMIT_RECORDER + EXAMPLE, "-DCOMMITS", *flags)


def commits_checked(count=0, *flags):
    """The same with one checker of all links, which judges what they store and load too."""
    return with_library(f"commits_checked{count}" + "".join(flags), COMMIT_RECORDER + COMMIT_CHECKER,
                        ["sv/tl_checker_dpi.cpp"], "-DCOMMITS", "-DTOGETHER", f"-DCOUNT={count}", *flags)


def shared(*flags):
    """The example whose caches share a port of the manager."""
    return verilator("shared", "bench_recorded", SV + EXAMPLE, "-DSHARED", *flags)


def shared_checked():
    """The same with a checker of all links on the caches' side, and one of the ports on the manager's."""
    return with_library("shared_checked", [], ["sv/tl_checker_dpi.cpp"], "-DSHARED", "-DTOGETHER", "-DCOUNT=0")


# The example on wide links: its caches share a port, beats have 32 bytes, and the map begins behind 32 bits of address.
FAR = ["-DSHARED", "-DADDRESS_BITS=64", "-DBASE=64'h1_8000_0000"]
WIDE = ["-DWIDTH=32", *FAR]


def wide(*flags):
    """The example on wide links."""
    return verilator("wide" + "".join(flags), "bench_recorded", SV + EXAMPLE, *WIDE, *flags)


def wide_in_icarus():
    """The same in Icarus, as a command."""
    return ["vvp", "-n", icarus("wide.vvp", "bench_recorded", SV + EXAMPLE, *WIDE)]


def wide_checked():
    """The same with a checker on each link, one of all links on the caches' side, and one of the ports on the manager's."""
    return with_library("wide_checked", [], ["sv/tl_checker_dpi.cpp"], *WIDE, "-DCHECKED", "-DTOGETHER", "-DCOUNT=0")


def wide_commits(width=32):
    """The example on wide links of so many bytes, whose trace has what the caches' processors store and load."""
    return verilator(f"wide_commits{width}", "bench_recorded", SV + COMMIT_RECORDER + EXAMPLE, "-DCOMMITS", f"-DWIDTH={width}", *FAR)


def wide_commits_in_icarus():
    """The same in Icarus, as a command."""
    return ["vvp", "-n", icarus("wide_commits.vvp", "bench_recorded", SV + COMMIT_RECORDER + EXAMPLE, "-DCOMMITS", *WIDE)]


def wide_commits_checked():
    """The same with one checker of all links, which judges what they store and load too."""
    return with_library("wide_commits_checked", COMMIT_RECORDER + COMMIT_CHECKER, ["sv/tl_checker_dpi.cpp"], "-DCOMMITS", "-DTOGETHER",
                        "-DCOUNT=0", *WIDE)


def liberal():
    """The example with the caches that take liberties."""
    return verilator("liberal", "bench_recorded", SV + EXAMPLE, "-DLIBERAL")


def liberal_checked():
    """The same with a checker on each link, and one of all links."""
    return with_library("liberal_checked", [], ["sv/tl_checker_dpi.cpp"], "-DLIBERAL", "-DCHECKED", "-DTOGETHER", "-DCOUNT=0")


def liberal_proved(client=False):
    """The same under the proved manager; `client` makes the second cache a proved client."""
    return with_library(f"liberal_proved{client:d}", ["sv/tl_proved_manager.sv", "sv/tl_proved_client.sv"],
                        ["sv/tl_checker_dpi.cpp", "sv/tl_agents_dpi.cpp"], "-DLIBERAL", "-DPROVED", "-DCHECKED",
                        "-DTOGETHER", "-DCOUNT=0", *(["-DPROVED_CLIENT"] if client else []))


def liberal_late(proved):
    """The same with late GrantAcks and one checker of all links."""
    manager = ["sv/tl_proved_manager.sv"] if proved else []
    cpp = ["sv/tl_checker_dpi.cpp"] + (["sv/tl_agents_dpi.cpp"] if proved else [])
    return with_library(f"liberal_late{proved:d}", manager, cpp, "-DLIBERAL", "-DLATE", "-DTOGETHER", "-DCOUNT=0",
                        *(["-DPROVED"] if proved else []))


def liberal_in_icarus(proved=False):
    """The example with the caches that take liberties in Icarus, as a command; under the proved manager it is called over
    VPI."""
    flags, manager, loaded = [], [], []
    if proved:
        wanted = [word for word in run(["iverilog-vpi", "--cflags"]).split() if word.startswith("-I")]
        folder = made("tl_manager_vpi", ["g++", "-O2", "-Wall", "-Wextra", "-Werror", "-shared", "-fPIC", INCLUDES,
                                         "-I" + os.path.join(HERE, "include"), *wanted, "-o", "tl_manager.vpi",
                                         *files(["sv/tl_manager_vpi.cpp"]), LIBRARY])
        flags, manager, loaded = ["-DPROVED"], ["sv/tl_proved_manager.sv"], ["-M", folder, "-m", "tl_manager"]
    return ["vvp", "-n", *loaded, icarus(f"liberal{proved:d}.vvp", "bench_recorded", SV + manager + EXAMPLE, "-DLIBERAL", *flags)]
