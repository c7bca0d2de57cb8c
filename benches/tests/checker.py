"""The checkers of one link and of all links of a manager."""

import collections
import re
import subprocess

from harness import CHECKERS, DPI, INCLUDES, SV, WATCH, beat_lines, decoded, files, icarus, judged, path, run, test, verilator, want
from simulations import BUGS, HOME_BUGS, checked, covered, recorded, together


@test
def the_checkers_are_silent_without_a_fault():
    for built in (checked(), together()):
        told = run([built, "+seed=7", "+cycles=20000"])
        want("agree" in told and "faults: 0" in told, told)


@test
def the_checker_stops_at_the_beat_that_the_monitor_names():
    for bug, (rule, _) in BUGS.items():
        if rule is None:
            continue
        run([recorded(), "+seed=1", "+cycles=20000", f"+bug={bug}", f"+trace={path('bug')}"])
        line = int(judged(path("bug")).split()[1])
        beat = beat_lines("bug")[line - 1].split()
        told = run([checked(), "+seed=1", "+cycles=20000", f"+bug={bug}"], status=None)
        want(f"link {int(beat[0], 16)} breaks {rule}: " in told and f": {decoded(beat)}\n" in told, f"bug {bug}: {told}")
        want("$fatal" in told or "Fatal" in told or "Error" in told, f"bug {bug}: not stopped: {told}")
        want("agree" not in told, f"bug {bug}: not stopped: {told}")


@test
def the_checker_of_all_links_stops_at_the_beat_that_breaks_a_rule_of_memory():
    for bug, rule in HOME_BUGS.items():
        run([recorded(), "+seed=1", "+cycles=20000", f"+home_bug={bug}", f"+trace={path('home')}"])
        line = int(judged(path("home"), "coherent").split()[1])
        beat = beat_lines("home")[line - 1].split()
        told = run([together(), "+seed=1", "+cycles=20000", f"+home_bug={bug}"], status=None)
        want(f"tl_manager_checker: link {int(beat[0], 16)} breaks {rule}: {line}: {decoded(beat)}\n" in told, f"bug {bug}: {told}")
        want("agree" not in told, f"bug {bug}: not stopped: {told}")


@test
def the_trace_beside_a_checker_that_stops_is_whole():
    for bug, (rule, _) in BUGS.items():
        if rule is None:
            continue
        run([recorded(), "+seed=1", "+cycles=20000", f"+bug={bug}", f"+trace={path('whole')}"])
        run([checked(), "+seed=1", "+cycles=20000", f"+bug={bug}", f"+trace={path('stopped')}"], status=-6)
        verdict = judged(path("stopped"))
        want(verdict == judged(path("whole")) and verdict.endswith(f" {rule}"), f"bug {bug}: {verdict}")


def lines_at_fault(trace, command):
    """The lines at fault of a trace, each with its rule."""
    return re.findall(r"^line (\d+) (\w+)$", judged(trace, command, "--all", "1000000"), re.M)


def wants_counted(told, checker, faults):
    """A checker tells of the first hundred faults, and counts all of them by rule."""
    lines = [(line, rule) for rule, line in re.findall(rf"{checker}: link \d+ breaks (\w+): (\d+): ", told)]
    want(lines == faults[:100], f"{lines}, wanted {faults[:100]}")
    want(("what follows is counted alone" in told) == (len(faults) >= 100), told)
    found = re.findall(rf"{checker}: faults: (\d+): (.*)", told)
    counts = collections.Counter(rule for _, rule in faults)
    if not faults:
        want(found == [], told)
    else:
        want(len(found) == 1 and int(found[0][0]) == len(faults), told)
        words = found[0][1].split()
        want(dict(zip(words[::2], map(int, words[1::2]))) == counts, f"{found}, wanted {counts}")


@test
def a_checker_that_counts_goes_on_as_all_does():
    for bug, (_, own) in BUGS.items():
        told = run([checked(1), "+seed=1", "+cycles=20000", f"+bug={bug}", f"+traces={path('count')}"])
        want(own in told, f"bug {bug}: {told}")
        wants_counted(told, "tl_link_checker", lines_at_fault(path("count0"), "monitor"))


@test
def a_checker_of_all_links_that_counts_goes_on_as_all_does():
    for bug in HOME_BUGS:
        told = run([together(1), "+seed=1", "+cycles=20000", f"+home_bug={bug}", f"+trace={path('count')}"])
        faults = lines_at_fault(path("count"), "coherent")
        want(faults, f"bug {bug}: {told}")
        wants_counted(told, "tl_manager_checker", faults)


def situations_told(told, checker):
    """What each checker of a kind tells of situations, in the order in which it ends, as sorted lines."""
    parts = re.findall(rf"^\d+: {checker}: (\d+ of \d+ situations seen)\n((?:  .*\n)*)", told, re.M)
    return [sorted([summary, *(line.strip() for line in lines.splitlines())]) for summary, lines in parts]


def situations_of(trace):
    """What `tltool cover` says of a trace, as sorted lines, without the verdict."""
    return sorted(judged(trace, "cover").splitlines()[1:])


@test
def checkers_tell_the_situations_that_cover_does():
    for bug in (0, 8):
        words = [covered(), "+seed=1", "+cycles=3000", f"+bug={bug}"]
        told = run([*words, f"+trace={path('seen')}"])
        want(situations_told(told, "tl_manager_checker") == [situations_of(path("seen"))], f"bug {bug}: {told}")
        links = sorted(situations_told(run([*words, f"+traces={path('seen')}"]), "tl_link_checker"))
        want(links == sorted(situations_of(path(f"seen{link}")) for link in range(3)), f"bug {bug}: {links}")


@test
def the_checker_of_a_link_takes_liberties():
    top = "test_liberties"
    sources = WATCH + CHECKERS + ["tests/test_liberties.sv"]
    told = run([verilator(top, top, sources, *DPI)])
    want("link 0 breaks H8: " in told and ": 00 E GrantAck " in told and "faults: 2 without liberties, 0 with them" in told, told)
    want("tl_link_checker: faults: 2: H5 1 H8 1\n" in told, told)


@test
def the_checker_of_all_links_takes_liberties():
    top = "test_judged_liberties"
    sources = WATCH + CHECKERS + [f"tests/{top}.sv"]
    told = run([verilator(top, top, sources, *DPI)])
    want("link 1 breaks L6: " in told and "link 1 breaks M1: " in told, told)
    want("faults: 1 without liberties, 0 with them, 1 undenied" in told, told)


# What doesn't fit, by module: a parameter, and the name that says what is wanted.
RECORDER_LIMITS = [
    ("LINK(16)", "tl_links_are_0_to_15"), ("W(24)", "tl_W_is_4_8_16_32_or_64"), ("SOURCE_BITS(17)", "tl_SOURCE_BITS_is_1_to_16"),
    ("SINK_BITS(17)", "tl_SINK_BITS_is_1_to_16"), ("ADDRESS_BITS(65)", "tl_ADDRESS_BITS_is_1_to_64"),
    ("TIMEOUT(-1)", "tl_TIMEOUT_is_0_or_more"), ("LEVEL(3)", "tl_LEVELS_are_0_1_or_2"), ("PROFILE(3)", "tl_PROFILE_is_1_or_2"),
    ("LIBERTIES(256)", "tl_LIBERTIES_is_0_to_255"),
]
SHARED_LIMITS = [
    ("N(17)", "tl_N_is_1_to_16"), ("N(2), .LEVELS(4'b1110)", "tl_LEVELS_are_0_1_or_2"), ("CLIENTS(17)", "tl_CLIENTS_is_0_to_16"),
    ("FIRST(15), .N(2)", "tl_links_are_0_to_15"),
    # a port that there isn't, sources backwards, beyond the width, and of two clients
    *((f"CLIENTS(2), {words}", "tl_sources_of_CLIENTS_are_apart_and_of_a_port") for words in (
        ".CLIENT_PORTS(8'h10), .FIRST_SOURCES(16'h0400), .LAST_SOURCES(16'h0703)",
        ".FIRST_SOURCES(16'h0704), .LAST_SOURCES(16'h0803)",
        ".SOURCE_BITS(3), .FIRST_SOURCES(16'h0400), .LAST_SOURCES(16'h0803)",
        ".FIRST_SOURCES(16'h0300), .LAST_SOURCES(16'h0703)")),
]
CHECKER_LIMITS = [
    ("LIBERTIES(256)", "tl_LIBERTIES_is_0_to_255"), ("PROFILE(3)", "tl_PROFILE_is_1_or_2"), ("LEVELS(4'b1110)", "tl_LEVELS_are_0_1_or_2"), ("W(5)", "tl_W_is_4_8_16_32_or_64"),
    ("W(32), .COUNT(1)", "tl_COUNT_is_0_on_wide_links"), ("ADDRESS_BITS(33), .COVER(1)", "tl_COVER_is_0_on_wide_links"),
]
AGENT_LIMITS = [
    ("BLOCKS(1025)", "tl_BLOCKS_is_1_to_1024"), ("SOURCES(9)", "tl_SOURCES_is_1_to_8"), ("PROFILE(0)", "tl_PROFILE_is_1_or_2"),
    ("W(64)", "tl_W_is_4_8_or_16"), ("SOURCE_BITS(0)", "tl_SOURCE_BITS_is_1_to_8"), ("BASE(32)", "tl_BASE_is_a_multiple_of_64"),
    ("BASE(32'hffff_fc40)", "tl_BASE_leaves_room_for_BLOCKS_in_32_bits"),
]
LIMITS = {
    "tl_link_recorder": RECORDER_LIMITS, "tl_manager_recorder": SHARED_LIMITS, "tl_manager_checker": CHECKER_LIMITS,
    "tl_link_checker": RECORDER_LIMITS[1:],
    "tl_proved_manager": [*AGENT_LIMITS, ("N(17)", "tl_N_is_1_to_16"), ("TRACKERS(9)", "tl_TRACKERS_is_1_to_8"),
                          ("LEVELS(3)", "tl_LEVELS_are_0_1_or_2"),
                          ("LIBERTIES(8)", "tl_LIBERTIES_of_a_manager_are_of_IDS_WRITER_DROPS_and_REPORTS"),
                          ("LIBERTIES(256)", "tl_LIBERTIES_of_a_manager_are_of_IDS_WRITER_DROPS_and_REPORTS"),
                          ("SOURCE_BITS(2), .PROBE_SOURCES(8'd4)", "tl_PROBE_SOURCES_fit_SOURCE_BITS")],
    "tl_proved_client": [*AGENT_LIMITS, ("SOURCES(5)", "tl_SOURCES_is_1_to_8_and_fits_SOURCE_BITS")],
}
LINT = ["verilator", "--lint-only", "--timing", "-Wno-PINMISSING", "-Wno-WIDTH", INCLUDES, "--top-module", "refused"]
# No output: Icarus makes its output executable, and a /dev/null of mode 755 is closed to every user but root.
ELABORATE = ["iverilog", "-g2012", INCLUDES, "-s", "refused", "-t", "null"]


def elaborated(command, module, parameter):
    """What a simulator says of an instance."""
    bench = path("refused.sv")
    with open(bench, "w") as text:
        text.write(f"module refused; {module} #(.{parameter}) r (); endmodule\n")
    sources = SV if "recorder" in module else WATCH + CHECKERS if "checker" in module else ["sv/tl_pkg.sv", f"sv/{module}.sv"]
    return subprocess.run([*command, *files(sources), bench], stdout=subprocess.PIPE, stderr=subprocess.STDOUT, text=True)


@test
def what_does_not_fit_is_refused_at_elaboration():
    for module, limits in LIMITS.items():
        # Icarus knows no DPI, by which the checkers and the proved client are called
        for command in (LINT, ELABORATE) if "recorder" in module or module == "tl_proved_manager" else (LINT,):
            taken = elaborated(command, module, "W(8)")
            want(taken.returncode == 0, f"{command[0]} refuses {module}: {taken.stdout}")
            for parameter, name in limits:
                refused = elaborated(command, module, parameter)
                want(refused.returncode != 0 and name in refused.stdout, f"{command[0]} takes {module} {parameter}: {refused.stdout}")


@test
def fields_are_written_as_they_are_on_the_link():
    top = "test_fields"
    sources = SV + ["tests/test_fields.sv"]
    for name, command in (("fast", [verilator(top, top, sources)]), ("slow", ["vvp", "-n", icarus(top + ".vvp", top, sources)])):
        run(command + [f"+trace={path(name)}"])
        want(beat_lines(name) == [
            "tltrace 2 4 C C",
            "00 B 6 2 6 02 00000040 f - 0",
            "00 C 4 5 6 02 00000040 - 0",
            "00 D 0 0 2 01 07 1 - 0",
            "01 B 6 2 6 02 00000040 f - 0",
            "01 C 4 5 6 02 00000040 - 0",
            "01 D 0 0 2 01 07 1 - 0",
            "00 D 1 0 2 01 07 1 00000000 0",
            "01 D 1 0 2 01 07 1 00000000 0",
            "00 E 03",
            "01 E 03",
        ], "\n".join(beat_lines(name)))
