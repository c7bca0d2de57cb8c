"""What a recorder sees at a port that a trace doesn't tell: a simulation that is aborted, a second reset, what is never answered,
clients that share a port, and times."""

import re

from harness import DPI, SV, ScriptedBench, path, test, want, verilator, judged, beat_lines

TOP = "test_ports"
SOURCES = SV + [f"tests/{TOP}.sv"]
BENCH = ScriptedBench("ports", TOP, SOURCES)
simulations, played = BENCH.simulations, BENCH.played

# A block that is acquired to write and then to read again on the script's port: an AcquirePerm, its Grant and GrantAck.
ACQUIRE = "A 0 7 1 6 {source:x} {address:x} edge 1"
GRANT = "D 0 4 0 6 {source:x} {sink:x} edge 1"
GRANT_ACK = "E 0 {sink:x} edge 1"
HELD = [ACQUIRE, GRANT, GRANT_ACK]


def filled(lines, source=0, sink=0, address=0):
    return [line.format(source=source, sink=sink, address=address) for line in lines]


@test
def the_trace_is_whole_where_the_bench_stops():
    for name, command, aborted in simulations("plain"):
        played(command, [*filled(HELD), "A 0 6 0 6 1 40 edge 1", "fatal"], status=aborted)
        want(beat_lines("ports") == ["tltrace 2 8 C", "00 A 7 1 6 00 00000000 ff - 0", "00 D 4 0 6 00 00 0 - 0", "00 E 00",
                                     "00 A 6 0 6 01 00000040 ff - 0"], f"{name}: {beat_lines('ports')}")
        want(judged(path("ports")) == "clean 4", f"{name}: {judged(path('ports'))}")


@test
def a_second_reset_is_another_trace_or_refused():
    twice = [*filled(HELD), "reset", *filled(HELD)]
    for name, command, aborted in simulations("plain"):
        told = played(command, twice, status=aborted)
        want("tl_manager_recorder: a beat after a second reset" in told, f"{name}: {told}")
        want(judged(path("ports"), "coherent") == "coherent 3", f"{name}: {judged(path('ports'), 'coherent')}")
        told = played(command, twice, "+anew")
        for trace in ("ports", "ports2"):
            want(judged(path(trace), "coherent") == "coherent 3", f"{name}, {trace}: {judged(path(trace), 'coherent')}")
        # a reset before the first beat, and one behind the last, are no second one
        played(command, ["reset", *filled(HELD), "reset", "edge 5"])
        want(judged(path("ports")) == "clean 3", f"{name}: {judged(path('ports'))}")


@test
def the_header_says_that_memory_was_zero():
    for name, command, _ in simulations("zero", "-DPARAMETERS=.SOURCE_BITS(SOURCE_BITS),.ZERO(1)"):
        played(command, filled(HELD))
        want(beat_lines("ports")[0] == "tltrace 4 8 none zero C", f"{name}: {beat_lines('ports')}")
        # a first read brings bytes ff
        played(command, ["A 0 4 0 3 5 40 edge 1", "D 0 1 0 3 5 0 edge 1"])
        want(judged(path("ports"), "coherent") == "line 3 M3", f"{name}: {judged(path('ports'), 'coherent')}")


@test
def each_line_has_its_time():
    for name, command, _ in simulations("plain"):
        played(command, ["A 0 7 1 6 0 0 edge 3", "D 0 4 0 6 0 0 E 0 0 edge 1"], f"+times={path('times')}")
        want(beat_lines("times") == ["25", "55", "55"], f"{name}: {beat_lines('times')}")


# Each with what opens it, what answers it in its last line, what is waited for, and the beat that opened it.
OWED = [
    (["A 0 4 0 3 5 40 edge 1"], ["D 0 1 0 3 5 0 edge 1"], "a request without an answer",
     "A Get 0 size=3 source=05 address=00000040 mask=ff data=- corrupt=0"),
    (["A 0 0 0 4 5 40 edge 1", "A 0 0 0 4 5 40 edge 1"], ["D 0 0 0 4 5 0 edge 1"], "a request without an answer",
     "A PutFullData 0 size=4 source=05 address=00000040 mask=ff data=ffffffffffffffff corrupt=0"),
    (filled([ACQUIRE]), filled([GRANT, GRANT_ACK]), "a request without an answer",
     "A AcquirePerm NtoT size=6 source=00 address=00000000 mask=ff data=- corrupt=0"),
    (filled([ACQUIRE, GRANT], sink=3), ["E 0 3 edge 1"], "a Grant without GrantAck",
     "D Grant toT size=6 source=00 sink=03 denied=0 data=- corrupt=0"),
    (["C 0 6 5 6 2 80 edge 1"], ["D 0 6 0 6 2 0 edge 1"], "a Release without ReleaseAck",
     "C Release 5 size=6 source=02 address=00000080 data=- corrupt=0"),
    (["B 0 6 2 6 0 c0 edge 1"], ["C 0 4 5 6 0 c0 edge 1"], "a Probe without ProbeAck",
     "B ProbeBlock toN size=6 source=00 address=000000c0 mask=ff data=- corrupt=0"),
    # a response that stops in its middle
    (["A 0 4 0 6 5 40 edge 1", *["D 0 1 0 6 5 0 edge 1"] * 7], ["D 0 1 0 6 5 0 edge 1"], "a request without an answer",
     "A Get 0 size=6 source=05 address=00000040 mask=ff data=- corrupt=0"),
]
PATIENT = ["-DPARAMETERS=.SOURCE_BITS(SOURCE_BITS),.TIMEOUT(20),.PENDING(1)"]


def overdue(module, begun, waited, beat):
    """What a module tells of a message that began at this edge, from 1 on, in this line of the trace but one, and has no answer."""
    time = 15 + 10 * begun
    return (f"{time + 210}: {module}: after 21 cycles there is {waited}, opened in cycle {begun + 1}, at {time}:\n"
            f"  {begun + 1}: 00 {beat}\n")


@test
def what_is_never_answered_is_told_with_the_beat_that_opened_it():
    for name, command, aborted in simulations("patient", *PATIENT):
        for opening, answer, waited, beat in OWED:
            begun = len(opening) if "D 0 4" in opening[-1] else 1  # the edge of the beat that opened it
            told = played(command, [*opening, "edge 100"], status=aborted)
            want(overdue("tl_manager_recorder", begun, waited, beat) in told, f"{name}: {told}")
            want(told.count("after 21 cycles") == 1, f"{name}: {told}")
            # what is answered in time is told by nobody
            told = played(command, [*opening, f"edge {20 - len(opening) - len(answer):x}", *answer, "edge 100"])
            want("cycles there is" not in told and "at the end" not in told, f"{name}: {told}")


def listed(text, head):
    """The lines below a head that tells how many messages are pending, each without the moment at which it was opened."""
    lines = text.split("\n")
    found = [number for number, line in enumerate(lines) if head in line]
    if not found:
        return []
    below = [re.sub(r", opened in cycle \d+, at \d+:", ":", line) for line in lines[found[0] + 1 :]]
    of_list = [re.match(r"  (a |\d+: |and )", line) is not None for line in below]
    return below[: of_list.index(False)]


# Several of each kind on two links, bursts that stop in their middle, and one that is answered.
LEFT = ["A 0 0 0 5 5 40 edge 1", "A 0 0 0 5 5 40 B 0 6 2 6 0 c0 edge 1", "C 1 7 1 6 2 80 edge 1", *filled(HELD, 1, 2, 100),
        "A 1 4 0 6 5 140 edge 1", "D 1 1 0 6 5 0 edge 1", "C 0 5 1 6 0 c0 edge 1", "edge 3"]
CROWD = [f"A {port} 4 0 3 {source:x} {64 * source:x} edge 1" for port in (0, 1) for source in range(13)]


LISTED = ["-DN=2", "-DLEVELS=4'b10_10", "-DPARAMETERS=.SOURCE_BITS(SOURCE_BITS),.PENDING(1)"]


@test
def what_is_pending_at_the_end_is_listed_as_explain_does():
    for name, command, _ in simulations("listed", *LISTED):
        for script in (LEFT, LEFT[:2], [*CROWD, "edge 2"], *(opening for opening, _, _, _ in OWED)):
            mine = listed(played(command, script), "pending at the end")
            explained = listed(judged(path("ports"), "explain") + "\n", "pending at the end")
            if judged(path("ports")).startswith("clean"):
                want(mine and mine == explained, f"{name}: {mine} {explained}")


# Two clients on port 0, with sources 0 to 3 and 8 to b, and one on port 1 with sources 0 to f.
SHARED = (".SOURCE_BITS(SOURCE_BITS),.CLIENTS(3),.CLIENT_PORTS(12'h100),.FIRST_SOURCES({8'd0,8'd8,8'd0}),"
          ".LAST_SOURCES({8'd15,8'd11,8'd3})")
SHARED_FLAGS = ["-DN=2", f"-DPARAMETERS={SHARED}", "-DLEVELS=6'b10_10_10"]

# The first client has a block and gives it to the second, while that of port 1 has another.
SHARED_RUN = ["A 0 7 1 6 3 0 edge 1", "D 0 4 0 6 3 1 E 0 1 edge 1", "B 0 6 2 6 0 0 edge 1", "C 0 4 1 6 0 0 edge 1",
              "A 0 7 1 6 b 0 A 1 7 1 6 b 40 edge 1", "D 0 4 0 6 b 2 D 1 4 0 6 b 3 edge 1", "E 0 2 E 1 3 edge 1",
              "C 0 6 1 6 9 0 edge 1", "D 0 6 0 6 9 0 edge 1"]


@test
def a_shared_port_is_recorded_as_a_link_for_each_client():
    for name, command, _ in simulations("shared", *SHARED_FLAGS):
        played(command, SHARED_RUN)
        want(beat_lines("ports") == [
            "tltrace 2 8 C C C",
            "00 A 7 1 6 03 00000000 ff - 0", "00 D 4 0 6 03 01 0 - 0", "00 E 01", "00 B 6 2 6 00 00000000 ff - 0",
            "00 C 4 1 6 00 00000000 - 0", "01 A 7 1 6 0b 00000000 ff - 0", "02 A 7 1 6 0b 00000040 ff - 0",
            "01 D 4 0 6 0b 02 0 - 0", "02 D 4 0 6 0b 03 0 - 0", "01 E 02", "02 E 03", "01 C 6 1 6 09 00000000 - 0",
            "01 D 6 0 6 09 00 0 - 0"], f"{name}: {beat_lines('ports')}")
        for judging, verdict in (("monitor", "clean 13"), ("coherent", "coherent 13")):
            want(judged(path("ports"), judging) == verdict, f"{name}: {judged(path('ports'), judging)}")


@test
def each_client_of_a_shared_port_owes_its_own_answers():
    # both are probed for one block, and the second answers
    script = ["B 0 6 2 6 0 c0 edge 1", "B 0 6 2 6 8 c0 edge 1", "C 0 4 5 6 8 c0 edge 1", "edge 100"]
    flags = [f"{flag},.TIMEOUT(20)" if "PARAMETERS" in flag else flag for flag in SHARED_FLAGS]
    probe = "B ProbeBlock toN size=6 source=00 address=000000c0 mask=ff data=- corrupt=0"
    for name, command, aborted in simulations("shared_patient", *flags):
        told = played(command, script, status=aborted)
        want(overdue("tl_manager_recorder", 1, "a Probe without ProbeAck", probe) in told, f"{name}: {told}")


# A beat of no client: a source between those of two clients, and a GrantAck of a sink that wasn't granted.
STRAYS = [
    ("A 0 4 0 3 4 40", "A Get 0 size=3 source=04 address=00000040 mask=ff data=- corrupt=0", "ff A 4 0 3 04 00000040 ff - 0"),
    ("B 0 6 2 6 7 40", "B ProbeBlock toN size=6 source=07 address=00000040 mask=ff data=- corrupt=0", "ff B 6 2 6 07 00000040 ff - 0"),
    ("C 0 4 5 6 c 40", "C ProbeAck NtoN size=6 source=0c address=00000040 data=- corrupt=0", "ff C 4 5 6 0c 00000040 - 0"),
    ("D 0 6 0 6 c 0", "D ReleaseAck 0 size=6 source=0c sink=00 denied=0 data=- corrupt=0", "ff D 6 0 6 0c 00 0 - 0"),
    ("E 0 5", "E GrantAck sink=05", "ff E 05"),
]


@test
def a_beat_of_no_client_is_told_and_written():
    for name, command, aborted in simulations("shared", *SHARED_FLAGS):
        for beat, shown, line in STRAYS:
            told = played(command, [beat, "edge 2"], status=aborted)
            want(f"25: tl_manager_recorder: port 0: a beat of no client in cycle 2: {shown}\n" in told, f"{name}: {told}")
            want(beat_lines("ports")[1:] == [line], f"{name}: {beat_lines('ports')}")
            want(judged(path("ports")).startswith("line 2 "), f"{name}: {judged(path('ports'))}")


# ---- the checkers at the same ports. They judge by the library, which Verilator alone can call.

def checked_ports(name, *flags):
    sources = SOURCES[:-1] + ["sv/tl_manager_checker.sv", SOURCES[-1]]
    return [verilator(f"ports_checked_{name}", TOP, sources, "-DCHECKER", *flags, *DPI)]


TWO_LINKS = ["-DN=2", "-DLEVELS=4'b10_10"]


@test
def a_checker_judges_anew_behind_a_reset():
    # the block that link 0 had before the reset is granted to link 1 behind it, and the source and sink are new ones
    script = [*filled(HELD), "reset", "A 1 7 1 6 0 0 edge 1", "D 1 4 0 6 0 0 edge 1", "E 1 0 edge 1"]
    told = played(checked_ports("two", *TWO_LINKS), script, "+anew")
    want("breaks" not in told, told)
    told = played(checked_ports("two", *TWO_LINKS), [line for line in script if line != "reset"], status=-6)
    want("tl_manager_checker: link 1 breaks M1: 6: 01 D Grant toT " in told, told)
    # the trace has the beat at fault, in the last line
    want(judged(path("ports"), "coherent") == f"line {len(beat_lines('ports'))} M1", judged(path("ports"), "coherent"))


# Fields that are fixed on a link without liberties, each in the last beat of a script with another value.
FIXED = [
    (["B 0 6 2 6 5 40 edge 2"], "L2: 2: 00 B ProbeBlock"),
    (["B 0 6 2 6 0 40 edge 1", "C 0 4 5 6 5 40 edge 2"], "L2: 3: 00 C ProbeAck"),
    (["A 0 4 0 3 5 40 edge 1", "D 0 1 0 3 5 3 edge 2"], "L2: 3: 00 D AccessAckData"),
    (["A 0 4 0 3 5 40 edge 1", "denied D 0 1 0 3 5 0 edge 2"], "L6: 3: 00 D AccessAckData"),
    # an opcode that isn't in use
    (["A 0 4 0 3 5 40 edge 1", "D 0 7 0 3 5 0 edge 2"], "F4: 3: 00 D 7"),
]


@test
def a_checker_judges_fields_as_they_are_on_the_link():
    for script, beat in FIXED:
        told = played(checked_ports("two", *TWO_LINKS), script, status=-6)
        want(f"tl_manager_checker: link 0 breaks {beat} " in told, f"{beat}: {told}")


@test
def a_checker_tells_what_is_never_answered():
    opening, _, waited, beat = OWED[2]
    told = played(checked_ports("patient", *PATIENT), [*opening, "edge 100"], status=-6)
    want(overdue("tl_manager_checker", 1, waited, beat) in told, told)


@test
def a_checker_lists_what_is_pending_at_the_end():
    opening, _, waited, beat = OWED[2]
    told = played(checked_ports("listed", *LISTED), [*opening, "edge 5"])
    want("tl_manager_checker: pending at the end: 1, the oldest first\n"
         f"  {waited}, opened in cycle 2, at 25:\n  2: 00 {beat}\n" in told, told)


@test
def the_checker_of_a_shared_port_judges_a_link_for_each_client():
    command = checked_ports("shared", *SHARED_FLAGS)
    want("breaks" not in played(command, SHARED_RUN), "the clients of a port are taken for one")
    # the second client is granted what the first one of its port has
    told = played(command, [*SHARED_RUN[:2], "A 0 7 1 6 b 0 edge 1", "D 0 4 0 6 b 2 edge 1"], status=-6)
    want("tl_manager_checker: link 1 breaks M1: 6: 01 D Grant toT size=6 source=0b" in told, told)
    for beat, shown, _ in STRAYS:
        told = played(command, [beat, "edge 2"], status=-6)
        want(f"tl_manager_checker: port 0: a beat of no client in cycle 2: {shown}\n" in told, told)
