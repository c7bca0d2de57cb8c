"""Unknown values on a link, in a simulator of four states."""

import os
import re

from harness import HERE, SV, test, want, run, path, icarus, judged, beat_lines

TOP = "test_unknown"
SOURCES = SV + [f"tests/{TOP}.sv"]
CHANNELS = "abcde"


def signals():
    """Every signal of a link, with its channel."""
    with open(os.path.join(HERE, "sv/tl_ports.svh")) as ports:
        names = re.findall(r"\b([a-e])_(\w+)", re.sub(r"//.*", "", ports.read()))
    want(len(names) == 42, f"{len(names)} signals, wanted 42")
    return names


def bench(*flags, status):
    """What a run tells, its trace in `unknown`."""
    return run(["vvp", "-n", icarus(f"{TOP}.vvp", TOP, SOURCES, *flags), f"+trace={path('unknown')}"], status=status)


def simulated(channel, signal, value, *flags, status):
    """What a run tells where a signal has a value, while its channel shows a beat with data."""
    return bench(f"-DCHANNEL={CHANNELS.index(channel)}", f"-DSIGNAL={channel}_{signal}", f"-DVALUE={value}", *flags, status=status)


@test
def an_unknown_value_of_each_signal_is_told_at_once():
    for channel, signal in signals():
        for value in ("'bx", "'bz"):
            told = simulated(channel, signal, value, status=1)
            name = f"{channel}_{signal}"
            want(f"55: tl_link_recorder: link 0: {name} is unknown in cycle 5\n" in told, f"{name} {value}: {told}")
            want(told.count("is unknown") == 1 and "FATAL" in told, f"{name} {value}: {told}")
            want(beat_lines("unknown")[1:] == [f"00 {channel.upper()} unknown"], f"{name}: {beat_lines('unknown')}")
            verdict = judged(path("unknown"))
            want(verdict == ("line 2 F3" if channel == "e" else "line 2 F1"), f"{name}: {verdict}")


# Data that say nothing, as the bench's beats have them: of A and B beyond the mask, of others where they are corrupt or denied.
UNREAD = [
    ("a", "a_data[63:32]", []),
    ("b", "b_data[63:32]", []),
    ("a", "a_data", ["a_corrupt = 1"]),
    ("c", "c_data", ["c_corrupt = 1"]),
    ("d", "d_data", ["d_denied = 1"]),
    ("d", "d_data[31:0]", ["d_opcode = 1", "d_size = 2", "d_source = 1"]),
]


@test
def unknown_data_that_say_nothing_are_written_as_0():
    for channel, signal, others in UNREAD:
        name = signal.removeprefix(f"{channel}_")
        told = simulated(channel, name, "; ".join(["'bx", *others]), *(["-DREQUESTED"] if "d_size = 2" in others else []), status=0)
        want("unknown" not in told, f"{signal}: {told}")
        lines = [line for line in beat_lines("unknown")[1:] if line[3] == channel.upper()]
        want(lines and all("x" not in line for line in lines), f"{signal}: {lines}")


@test
def unknown_values_are_written_where_they_are_not_watched():
    told = simulated("a", "opcode", "'bx", "-DUNKNOWN=0", status=0)
    want("unknown" not in told and beat_lines("unknown")[1].startswith("00 A x "), f"{told}: {beat_lines('unknown')}")
    want(judged(path("unknown")) == "line 2 F3", judged(path("unknown")))


@test
def a_reset_that_is_not_driven_is_told():
    told = bench("-DSIGNAL=rst_n", "-DVALUE='bx", status=1)
    want("55: tl_link_recorder: rst_n is unknown in cycle 5\n" in told and beat_lines("unknown")[1:] == [], told)
    for value in ("0", "'bx"):
        told = bench(f"-DRELEASED={value}", status=1 if value == "'bx" else 0)
        want("tl_link_recorder: rst_n was 1 at no rising edge of clk: nothing was watched\n" in told, told)
