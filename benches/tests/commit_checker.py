"""The checker of what cores store and load beside the beats of all links: it stops at the line at which the command finds the fault
of the recorded trace."""

from harness import COMMIT_CHECKER, COMMIT_RECORDER, DPI, WATCH, beat_lines, decoded, judged, path, run, test, verilator, want
from simulations import BUGS, COPY_BUGS, LIBERAL_BUGS, LIBERAL_COPY_BUGS, commits_checked, recorded_commits

RUN = ["+seed=1", "+cycles=20000"]
TOP = "test_ports"


def told_of(line):
    """What a checker tells of a line of a trace: a commit as it is, a beat in words."""
    return line if line[3] in "SLI" else decoded(line.split())


@test
def the_checker_of_commits_is_silent_without_a_fault():
    for flags in ([], ["-DLIBERAL"], ["-DWIDTH=4", "-DSHARED"]):
        for seed in (1, 7):
            told = run([commits_checked(0, *flags), f"+seed={seed}", "+cycles=20000", f"+trace={path('right')}"])
            want("agree" in told and "faults: 0" in told, f"{flags}, seed {seed}: {told}")
            want(judged(path("right"), "coherent") == f"coherent {len(beat_lines('right')) - 1}", f"{flags}, seed {seed}")


@test
def the_checker_of_commits_stops_at_the_line_that_coherent_names():
    for flags, bugs in (([], {**BUGS, **COPY_BUGS}), (["-DLIBERAL"], {**LIBERAL_BUGS, **LIBERAL_COPY_BUGS})):
        for bug, (rule, *_) in bugs.items():
            run([recorded_commits(*flags), *RUN, f"+bug={bug}", f"+trace={path('whole')}"])
            verdict = judged(path("whole"), "coherent")
            told = run([commits_checked(0, *flags), *RUN, f"+bug={bug}", f"+trace={path('stopped')}"], status=-6 if rule else 0)
            if rule is None:
                want("faults: 0" in told and verdict.startswith("coherent "), f"{flags}, bug {bug}: {verdict}, {told}")
                continue
            number = int(verdict.split()[1])
            line = beat_lines("whole")[number - 1]
            want(verdict == f"line {number} {rule}", f"{flags}, bug {bug}: {verdict}")
            want(f"tl_commit_checker: link {int(line[:2], 16)} breaks {rule}: {number}: {told_of(line)}\n" in told, f"{flags}, bug {bug}: {told}")
            want(told.count(" breaks ") == 1 and "agree" not in told, f"{flags}, bug {bug}: {told}")
            # the trace beside it has the line at fault
            want(judged(path("stopped"), "coherent") == verdict, f"{flags}, bug {bug}: {judged(path('stopped'), 'coherent')}")


@test
def the_checker_of_commits_that_counts_goes_on():
    for bug, (rule, *_) in COPY_BUGS.items():
        told = run([commits_checked(1), *RUN, f"+bug={bug}", f"+trace={path('counted')}"])
        verdict = judged(path("counted"), "coherent")
        first = next(it for it in told.splitlines() if " breaks " in it)
        want(f" breaks {rule}: {verdict.split()[1]}: " in first and "differ" in told, f"bug {bug}: {verdict}, {told}")
        want(f" {rule} " in told.split("tl_commit_checker: faults: ")[1], f"bug {bug}: {told}")


# ---- one edge and another, by a script

def checked_script(count=0, zero=0, address_bits=32):
    """A script's bench with a recorder and a checker: link 0 has a cache, link 1 has none, and each has two commits at an edge."""
    parameters = f".SOURCE_BITS(SOURCE_BITS),.COMPLETE(16'b1),.TIMEOUT(20),.ZERO({zero})"
    return [verilator(f"commits_script{count}{zero}{address_bits}", TOP, WATCH + COMMIT_RECORDER + COMMIT_CHECKER + [f"tests/{TOP}.sv"],
                      "-DCOMMITS=2", "-DCHECKER", "-DN=2", "-DLEVELS=4'b0010", f"-DCOUNT={count}", f"-DADDRESS_BITS={address_bits}",
                      f"-DPARAMETERS={parameters}", *DPI)]


def played(script, *words, status=0, **bench):
    """What a run of the script tells; its trace is `checked`."""
    with open(path("checked_script"), "w") as text:
        text.write("\n".join(script) + "\n")
    return run([*checked_script(**bench), f"+script={path('checked_script')}", f"+trace={path('checked')}", *words], status=status)


GRANTED = ["A 0 7 1 6 0 40 edge 1", "D 0 4 0 6 0 0 edge 1", "E 0 0 edge 1"]
PROBED = "B 0 6 2 6 0 40 edge 1"

# A script, what breaks which rule, and a script that differs from it in one place and breaks none.
FAULTS = [
    # a store at the edge of its Grant: of the copy as it is before that edge, or of what the Grant brings
    (GRANTED[:1] + ["D 0 4 0 6 0 0 M 0 S 0 3 40 1122334455667788 edge 1"], "M5: 3: 00 S 3 00000040 1122334455667788",
     GRANTED[:1] + ["D 0 4 0 6 0 0 M 0 S 1 3 40 1122334455667788 edge 1"]),
    # a load at the edge at which the copy is given up
    (GRANTED + [PROBED, "C 0 4 1 6 0 40 M 0 L 1 1 42 5a5b edge 1"], "M5: 7: 00 L 1 00000042 5a5b",
     GRANTED + [PROBED, "C 0 4 1 6 0 40 M 0 L 0 1 42 5a5b edge 1"]),
    # the commits of a link by place: a load and then a store, or the other way round
    (GRANTED + ["M 0 S 0 2 44 deadbeef edge 1", "M 1 L 0 2 44 deadbeef M 0 S 0 2 44 cafecafe edge 1"], "M6: 7: 00 L 2 00000044 deadbeef",
     GRANTED + ["M 0 S 0 2 44 deadbeef edge 1", "M 0 L 0 2 44 deadbeef M 1 S 0 2 44 cafecafe edge 1"]),
    # bytes that are given back, all of them ff, where another one was stored
    (GRANTED + ["M 1 S 0 0 41 5a edge 1", PROBED, "C 0 5 1 6 0 40 edge 1"], "M7: 7: 00 C ProbeAckData TtoN size=6 source=00 ",
     GRANTED + ["M 1 S 0 0 41 ff edge 1", PROBED, "C 0 5 1 6 0 40 edge 1"]),
    # a load that began while the block was held, and one that didn't begin
    (GRANTED + [PROBED, "C 0 4 1 6 0 40 edge 1", "M 0 L 0 0 40 5a edge 1"], "M5: 7: 00 L 0 00000040 5a",
     GRANTED + ["M 0 I 0 0 40 0 edge 1", PROBED, "C 0 4 1 6 0 40 edge 1", "M 0 L 0 0 40 5a edge 1"]),
]


@test
def the_checker_judges_the_commits_of_an_edge_before_its_beats_or_behind_them():
    for script, fault, right in FAULTS:
        told = played(script, status=-6)
        want(f"tl_commit_checker: link 0 breaks {fault}" in told, f"{script}: {told}")
        verdict = f"line {fault.split(': ')[1]} {fault.split(': ')[0]}"
        want(judged(path("checked"), "coherent") == verdict, f"{script}: {judged(path('checked'), 'coherent')}")
        told = played(right)
        want("breaks" not in told and judged(path("checked"), "coherent").startswith("coherent "), f"{right}: {told}")


# What is wrong if memory was zero, and only then: bytes ff that a Get brings, and a copy that is granted without its bytes, stored to and
# given up without data. If 00 is stored it is right.
READ = ["A 1 4 0 3 5 80 edge 1", "D 1 1 0 3 5 0 edge 1"]
DROPPED, DROPPED_ZERO = ([*GRANTED, f"M 0 S 0 0 41 {byte} edge 1", "C 0 6 1 6 0 40 edge 1"] for byte in ("5a", "00"))


@test
def the_checker_judges_by_memory_that_was_zero_at_each_reset():
    for script, number, rule in ((READ, 3, "M3"), (DROPPED, 6, "M7"), ([*DROPPED_ZERO, "reset", *READ], 3, "M3")):
        for zero, address_bits in ((0, 32), (1, 32), (0, 64), (1, 64)):
            told = played(script, "+anew", status=-6 * zero, zero=zero, address_bits=address_bits)
            want(f" breaks {rule}: {number}: " in told if zero else "breaks" not in told, f"{script}, {zero}: {told}")
            trace = "checked2" if "reset" in script else "checked"
            wanted = f"line {number} {rule}" if zero else f"coherent {len(beat_lines(trace)) - 1}"
            want(judged(path(trace), "coherent") == wanted, f"{script}, {zero}: {judged(path(trace), 'coherent')}")


@test
def the_checker_counts_what_commits_break():
    script = ["M 0 S 0 3 40 1 edge 1", *GRANTED, "M 0 S 0 3 40 2 M 1 L 0 3 40 1 edge 1", "C 0 7 1 6 1 40 edge 1", "M 0 L 0 3 40 2 edge 1"]
    told = played(script, count=1)
    want([it.split(" breaks ")[1] for it in told.splitlines() if " breaks " in it] == [
        "M5: 2: 00 S 3 00000040 0000000000000001", "M6: 7: 00 L 3 00000040 0000000000000001",
        "M7: 8: 00 C ReleaseData TtoN size=6 source=01 address=00000040 data=ffffffffffffffff corrupt=0"], told)
    want("tl_commit_checker: faults: 3: M5 1 M6 1 M7 1\n" in told, told)


@test
def a_commit_of_a_link_without_a_cache_breaks_L1():
    told = played(["M 2 L 0 0 40 5a edge 1"], status=-6)
    want("25: tl_commit_checker: link 1 breaks L1: 2: 01 L 0 00000040 5a\n" in told, told)


@test
def the_checker_judges_commits_anew_behind_a_reset():
    script = [*GRANTED, "M 0 S 0 3 40 1 edge 1", "reset", "M 0 L 0 3 40 1 edge 1"]
    told = played(script, "+anew", status=-6)
    want("tl_commit_checker: link 0 breaks M5: 2: 00 L 3 00000040 0000000000000001\n" in told, told)
    told = played([it for it in script if it != "reset"])
    want("breaks" not in told, told)


@test
def a_commit_that_no_line_can_have_stops_the_checker():
    for commit, text in (("M 1 S 0 3 44 0", "m_address is 00000044 in cycle 2: no multiple of 8 bytes"),
                         ("M 1 L 0 4 40 0", "m_size is 4 in cycle 2: a commit has at most 8 bytes"),
                         ("M 1 B 0 3 40 0", "m_store and m_begin are both 1 in cycle 2")):
        told = played([commit, "edge 2"], status=-6)
        want(f"25: tl_commit_checker: link 0, commit 1: {text}\n" in told and "breaks" not in told, f"{commit}: {told}")


@test
def bytes_beyond_the_size_of_a_commit_say_nothing_to_the_checker():
    told = played([*GRANTED, "M 0 S 0 1 40 ffff1234 edge 1", "M 0 I 0 2 40 ffff M 1 L 0 1 40 eeee1234 edge 1"])
    want("breaks" not in told and "gave up" not in told, told)


@test
def a_line_that_the_checker_tells_counts_commits_too():
    told = played([*GRANTED, "M 0 L 0 0 41 5a", "A 0 4 0 3 5 80", "M 1 L 1 0 41 5a", "edge 40"], status=-6)
    want("tl_commit_checker: after 21 cycles there is a request without an answer" in told and "  6: 00 A Get 0 size=3 source=05 " in told, told)
