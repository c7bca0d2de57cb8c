"""What cores store and load, recorded between the beats: the lines and their order, what is refused, and what the command and the
model of bench/commits_model.py say of the example's caches."""

import os
import subprocess
import sys

from harness import (
    COMMIT_CHECKER, COMMIT_RECORDER, COMMIT_WATCH, INCLUDES, ROOT, SV, WATCH, ScriptedBench, beat_lines, files, icarus,
    judged, path, run, test, want,
)
from simulations import BUGS, COPY_BUGS, EXAMPLE, LIBERAL_BUGS, LIBERAL_COPY_BUGS, commits_checked, recorded_commits

sys.path.insert(0, os.path.join(ROOT, "bench"))
import commits_model

TOP = "test_ports"
SOURCES = WATCH + COMMIT_RECORDER + [f"tests/{TOP}.sv"]
BENCH = ScriptedBench("committed", TOP, SOURCES)
simulations, played = BENCH.simulations, BENCH.played


def flags(parameters, *more):
    """The bench of scripts with two commits a link, and these parameters of its recorder."""
    return ["-DCOMMITS=2", f"-DPARAMETERS=.SOURCE_BITS(SOURCE_BITS),{parameters}", *more]


ONE = flags(".COMPLETE(16'b1)")
TWO = flags(".COMPLETE(16'b10),.LIBERTIES(127)", "-DN=2", "-DLEVELS=4'b1010")

@test
def the_commits_of_an_edge_are_before_its_beats_or_behind_them():
    edge = ["M 3 L 1 0 7f fe", "M 0 L 0 3 40 0123456789abcdef", "M 1 S 0 3 40 1122334455667788", "M 2 I 0 2 44 0", "A 0 7 1 6 0 40",
            "B 1 6 2 6 0 80", "C 0 4 5 6 0 c0", "D 1 0 0 0 1 0", "E 0 3", "edge 1", "M 2 S 1 1 6 dcba", "edge 1"]
    for name, command, _ in simulations("two", *TWO):
        played(command, edge, f"+times={path('times')}")
        want(beat_lines("committed") == [
            "tltrace 4 8 standard C C+", "00 L 3 00000040 0123456789abcdef", "00 S 3 00000040 1122334455667788", "01 I 2 00000044",
            "00 A 7 1 6 00 00000040 ff - 0", "01 B 6 2 6 00 00000080 ff - 0", "00 C 4 5 6 00 000000c0 - 0", "01 D 0 0 0 01 00 0 - 0",
            "00 E 03", "01 L 0 0000007f fe", "01 S 1 00000006 dcba",
        ], f"{name}: {beat_lines('committed')}")
        want(beat_lines("times") == ["25"] * 9 + ["35"], f"{name}: {beat_lines('times')}")


@test
def commits_of_wide_links_have_sixteen_digits_of_address():
    script = ["A 0 7 1 6 0 180000040 edge 1", "D 0 4 0 6 0 0 M 0 S 1 0 180000041 5a M 1 I 1 2 180000040 0 edge 1", "E 0 0 edge 1",
              "M 0 L 0 2 180000040 5aff M 1 S 0 3 180000078 1122334455667788 edge 1", "M 0 S 0 1 80000040 1 edge 1"]
    for name, command, aborted in simulations("far", *flags(".COMPLETE(16'b1)", "-DADDRESS_BITS=64")):
        played(command, script)
        want(beat_lines("committed") == [
            "tltrace 5 8 none C+", "00 A 7 1 6 0000 0000000180000040 ff - 0", "00 D 4 0 6 0000 0000 0 - 0", "00 S 0 0000000180000041 5a",
            "00 I 2 0000000180000040", "00 E 0000", "00 L 2 0000000180000040 00005aff", "00 S 3 0000000180000078 1122334455667788",
            "00 S 1 0000000080000040 0001",
        ], f"{name}: {beat_lines('committed')}")
        # of the block that was granted any byte may be loaded that isn't stored; another block has the lower half of its address
        want(judged(path("committed"), "coherent") == "line 9 M5", f"{name}: {judged(path('committed'), 'coherent')}")
        told = played(command, ["M 1 S 0 3 180000044 0 edge 1"], status=aborted)
        want("m_address is 0000000180000044 in cycle 2: no multiple of 8 bytes\n" in told, f"{name}: {told}")


@test
def a_header_says_of_which_links_all_stores_are_recorded_and_whether_memory_was_zero():
    for header, words in (
            ("none C+", ONE), ("writer C+", flags(".COMPLETE(16'b1),.PROFILE(2)")), ("early,drops C+", flags(".COMPLETE(16'b1),.LIBERTIES(24)")),
            ("none UH UH C+", flags(".COMPLETE(16'b10),.FIRST(1)", "-DN=2", "-DLEVELS=4'b1001")),
            ("none zero C", flags(".ZERO(1)")), ("writer zero UL", flags(".ZERO(1),.PROFILE(2)", "-DLEVELS=0")),
            ("none zero C+", flags(".COMPLETE(16'b1),.ZERO(1)")), ("early,drops zero C+", flags(".COMPLETE(16'b1),.LIBERTIES(24),.ZERO(1)")),
            ("none C+ C+", flags(".COMPLETE(16'b11)", "-DN=2", "-DLEVELS=4'b1010"))):
        played(["vvp", "-n", icarus("commits_header.vvp", TOP, SOURCES, *words)], ["edge 1"])
        want(beat_lines("committed") == [f"tltrace 4 8 {header}"], f"{beat_lines('committed')}")


# A commit that no line can have, and what is told of it. Those with an x are of Icarus alone.
WRONG = [
    ("M 1 S 0 3 44 0", "m_address is 00000044 in cycle 2: no multiple of 8 bytes"),
    ("M 1 L 0 4 40 0", "m_size is 4 in cycle 2: a commit has at most 8 bytes"),
    ("M 1 B 0 3 40 0", "m_store and m_begin are both 1 in cycle 2"),
    ("M 1 X 0 3 40 0", "m_valid is unknown in cycle 2"),
    ("M 1 L x 3 40 0", "m_after is unknown in cycle 2"),
    ("M 1 S 0 x 40 0", "m_size is unknown in cycle 2"),
    ("M 1 I 0 3 x0 0", "m_address is unknown in cycle 2"),
    ("M 1 S 0 1 40 x000", "m_data is unknown in cycle 2"),
]


@test
def a_commit_that_no_line_can_have_stops_the_simulation():
    for name, command, aborted in simulations("one", *ONE):
        for commit, text in WRONG:
            if "unknown" in text and name == "Verilator":
                continue
            told = played(command, [commit, "M 0 L 0 0 41 5a", "edge 1", "M 0 L 0 0 42 5b", "edge 1"], status=aborted)
            want(f"25: tl_commit_recorder: link 0, commit 1: {text}\n" in told, f"{name}, {commit}: {told}")
            want(beat_lines("committed")[1:] == ["00 L 0 00000041 5a", "00 S unknown"], f"{name}, {commit}: {beat_lines('committed')}")
            want(judged(path("committed")) == "line 3 F1", f"{name}, {commit}: {judged(path('committed'))}")
        # bytes beyond the size say nothing, nor do those of a load that begins
        rest = "xxxx" if name == "Icarus" else "ffff"
        played(command, [f"M 0 S 0 1 40 {rest}1234", f"M 1 I 0 2 40 {rest}", "edge 1"])
        want(beat_lines("committed")[1:] == ["00 S 1 00000040 1234", "00 I 2 00000040"], f"{name}: {beat_lines('committed')}")


@test
def a_line_that_is_told_counts_commits_too():
    script = ["M 0 L 0 0 41 5a", "A 0 4 0 3 5 40", "M 1 L 1 0 41 5a", "edge 1", "M 0 L 0 0 41 5a", "A 0 4 0 3 6 48", "edge 1", "D 0 1 0 3 5 0 edge 9"]
    for name, command, aborted in simulations("late", *flags(".COMPLETE(16'b1),.TIMEOUT(3)")):
        told = played(command, script, status=aborted)
        want("  6: 00 A Get 0 size=3 source=06 " in told and beat_lines("committed")[5].startswith("00 A 4 0 3 06"), f"{name}: {told}")


@test
def commits_behind_a_second_reset_are_refused():
    for name, command, aborted in simulations("one", *ONE):
        told = played(command, ["M 0 L 0 0 41 5a", "edge 1", "reset", "M 0 L 0 0 41 5a", "edge 1"], status=aborted)
        want("tl_commit_recorder: a beat or commit after a second reset" in told, f"{name}: {told}")
        want(len(beat_lines("committed")) == 2, f"{name}: {beat_lines('committed')}")


REFUSED = [
    ("COMMITS(0)", "tl_COMMITS_is_1_to_16"), ("COMMITS(17)", "tl_COMMITS_is_1_to_16"), ("SINK_BITS(17)", "tl_SINK_BITS_is_1_to_16"),
    ("ADDRESS_BITS(65)", "tl_ADDRESS_BITS_is_1_to_64"), ("W(32)", None), ("ADDRESS_BITS(33)", None), ("SOURCE_BITS(9)", None),
]
REFUSED_COMPLETE = ["COMPLETE(16'b0)", "COMPLETE(16'b10)", "COMPLETE(16'b10), .ZERO(1)", "COMPLETE(16'b1), .LEVELS(1)", "N(2), .COMPLETE(16'b101)"]
RECORDED, CHECKED = WATCH + COMMIT_RECORDER, WATCH + COMMIT_WATCH + COMMIT_CHECKER


def elaborated(command, module, sources, parameters):
    """What a simulator says of an instance."""
    bench = path("refused.sv")
    with open(bench, "w") as text:
        text.write(f"module refused; {module} #({parameters}) r (); endmodule\n")
    return subprocess.run([*command, *files(sources), bench], stdout=subprocess.PIPE, stderr=subprocess.STDOUT, text=True)


@test
def commits_that_no_trace_can_have_are_refused_at_elaboration():
    cases = [(f".COMPLETE(16'b1), .{parameter}", name) for parameter, name in REFUSED]
    cases += [(f".{parameter}", "tl_COMPLETE_is_of_links_of_level_C") for parameter in REFUSED_COMPLETE]
    cases += [(".COMPLETE(16'b1)", None), (".ZERO(1)", None)]
    too_many = [(".COMPLETE(16'b1), .FIRST(16)", "tl_links_are_0_to_15")]
    counted = [(".COMPLETE(16'b1), .W(64), .COUNT(1)", "tl_COUNT_is_0_on_wide_links"), (".COMPLETE(16'b1), .COUNT(1)", None)]
    verilator_lint = ["verilator", "--lint-only", "--timing", "-Wno-PINMISSING", "-Wno-WIDTH", INCLUDES, "--top-module", "refused"]
    # Icarus knows no DPI, by which the checker is called
    for command, module, sources, wanted in (
            (verilator_lint, "tl_commit_recorder", RECORDED, cases + too_many), (verilator_lint, "tl_commit_checker", CHECKED, cases + counted),
            (["iverilog", "-g2012", INCLUDES, "-s", "refused", "-t", "null"], "tl_commit_recorder", RECORDED, cases + too_many)):
        for parameters, name in wanted:
            told = elaborated(command, module, sources, parameters)
            want((told.returncode != 0 and name in told.stdout) if name else told.returncode == 0, f"{command[0]} {module} {parameters}: {told.stdout}")


# ---- the example's caches

def judged_by_model(name, alone=False):
    """What the model says of a trace, in the command's words."""
    fault = commits_model.judged(beat_lines(name), alone)
    return f"line {fault[0]} {fault[1]}" if fault else f"coherent {len(beat_lines(name)) - 1}"


def without_commits(name):
    """The trace of the beats alone, as another file."""
    header, *lines = beat_lines(name)
    with open(path("alone"), "w") as alone:
        alone.write("\n".join([header.replace("+", ""), *(line for line in lines if line[3] not in "SLI")]) + "\n")
    return "alone"


CACHES = ([], ["-DLIBERAL"])


def in_icarus(*flags):
    """The example in Icarus, as a command."""
    return ["vvp", "-n", icarus("with_commits" + "".join(flags) + ".vvp", "bench_recorded", SV + COMMIT_RECORDER + EXAMPLE, "-DCOMMITS", *flags)]


@test
def what_right_caches_store_and_load_is_coherent_in_both_simulators():
    for flags in CACHES:
        for seed in (1, 2):
            for name, command in (("fast", [recorded_commits(*flags)]), ("slow", in_icarus(*flags))):
                told = run([*command, f"+seed={seed}", "+cycles=5000", f"+trace={path(name)}"])
                want("agree" in told, f"{name}, seed {seed}: {told}")
            lines = beat_lines("fast")
            want(lines == beat_lines("slow") and lines[0].startswith("tltrace 4 8 ") and lines[0].endswith(" C+ C+ UL"), f"seed {seed}: {lines[0]}")
            want(len([line for line in lines[1:] if line[3] in "SL"]) > 100, f"seed {seed}: few commits")
            for verdict in (judged(path("fast"), "coherent"), judged_by_model("fast")):
                want(verdict == f"coherent {len(lines) - 1}", f"seed {seed}: {verdict}")


@test
def commits_between_beats_of_other_widths_are_coherent_too():
    for flags in (["-DWIDTH=4"], ["-DWIDTH=16"], ["-DSHARED"], ["-DLIBERAL", "-DLATE"]):
        told = run([*in_icarus(*flags), "+seed=5", "+cycles=2000", f"+trace={path('slow')}"])
        verdict = judged(path("slow"), "coherent")
        want("agree" in told and verdict == f"coherent {len(beat_lines('slow')) - 1}" == judged_by_model("slow"), f"{flags}: {verdict}, {told}")


def commits_show(built, bugs):
    """Of each bug of the copy the rule that commits break, and in which cycle, with seed 1; and whether the beats alone break none."""
    for bug, (rule, cycle, beats) in bugs.items():
        told = run([built, "+seed=1", "+cycles=20000", f"+bug={bug}", f"+trace={path('copy')}", f"+times={path('times')}"])
        want("differ" in told, f"bug {bug}: the bench says {told}")
        verdict = judged(path("copy"), "coherent")
        want(verdict.endswith(f" {rule}") and verdict == judged_by_model("copy"), f"bug {bug}: {verdict}, and the model says {judged_by_model('copy')}")
        found = int(beat_lines("times")[int(verdict.split()[1]) - 2]) // 10
        want(found == cycle, f"bug {bug}: cycle {found}")
        alone = judged(path(without_commits("copy")), "coherent")
        want(alone.endswith(f" {beats}") if beats else alone.startswith("coherent "), f"bug {bug}: the beats alone {alone}")


@test
def commits_show_the_bugs_of_a_copy():
    commits_show(recorded_commits(), COPY_BUGS)
    commits_show(recorded_commits("-DLIBERAL"), LIBERAL_COPY_BUGS)


@test
def no_commit_hides_a_bug_that_a_link_shows():
    for built, bugs in ((recorded_commits(), BUGS), (recorded_commits("-DLIBERAL"), LIBERAL_BUGS)):
        for bug, (rule, _) in bugs.items():
            if rule and (bugs, bug) != (LIBERAL_BUGS, 6):
                run([built, "+seed=1", "+cycles=20000", f"+bug={bug}", f"+trace={path('copy')}"])
                verdict = judged(path("copy"), "coherent")
                want(verdict.endswith(f" {rule}"), f"bug {bug}: {verdict}")


def ten_million_cycles(command, wanted):
    """Fifty runs without a bug, of which the bench tells what is wanted, and the command judges the trace of each."""
    count = 0
    for seed in range(401, 451):
        told = run([*command, f"+seed={seed}", "+cycles=200000", f"+trace={path('long')}"], timeout=7200)
        lines = len(beat_lines("long")) - 1
        verdicts = [judged(path("long"), it) for it in ("monitor", "coherent")]
        want(verdicts == [f"clean {lines}", f"coherent {lines}"], f"seed {seed}: {verdicts}")
        want(all(it in told for it in wanted), f"seed {seed}: {told}")
        count += lines
    print(f"        {count} lines")


@test
def ten_million_cycles_with_commits_long():
    for flags in CACHES:
        ten_million_cycles([commits_checked(0, *flags)], ["agree", "faults: 0"])


@test
def ten_million_cycles_with_commits_in_icarus_long():
    for flags in CACHES:
        ten_million_cycles(in_icarus(*flags), ["agree"])
