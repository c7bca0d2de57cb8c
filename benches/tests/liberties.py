"""Liberties: for each a shortest trace that it alone makes lawful, and the nearest that stays at fault; and how they are named."""

import os
import re
import subprocess
import sys

from harness import HERE, SV, TLTOOL, beat_lines, icarus, path, python_module, run, test, verilator, want

DATA = "00" * 8
ACQUIRE_NTOB = "00 A 6 0 6 00 00000000 ff - 0"
ACQUIRE_PERM_NTOT = "00 A 7 1 6 00 00000000 ff - 0"
GRANT_TOT = "00 D 4 0 6 00 00 0 - 0"
GET = "00 A 4 0 3 00 00000000 ff - 0"
PUT_BEGUN = f"00 A 0 0 4 00 00000000 ff {DATA} 0"
PUT = f"00 A 0 0 3 00 00000000 ff {DATA} 0"
GRANT_DATA_BEGUN = f"00 D 5 1 6 00 00 0 {DATA} 0"
GRANT_DATA_TOT_BEGUN = f"00 D 5 0 6 00 00 0 {DATA} 0"
PUT_ANSWERED = "00 D 0 0 4 00 00 0 - 0"
HELD = [ACQUIRE_PERM_NTOT, GRANT_TOT]
PROBED = [*HELD, "00 E 00", "00 B 6 2 6 00 00000000 ff - 0"]

# Liberty, trace, and the rule that its last beat breaks where the liberty isn't there.
ALLOWED = [
    ("IDS", ["00 B 6 2 6 05 00000000 ff - 0"], "L2"),
    ("SINKS", [GET, f"00 D 1 0 3 00 07 0 {DATA} 0"], "L2"),
    ("WRITER", [ACQUIRE_NTOB, f"00 D 5 0 6 00 00 0 {DATA} 0"], "H6"),
    ("EARLY", [PUT_BEGUN, PUT_ANSWERED], "H2"),
    ("EARLY", [ACQUIRE_NTOB, GRANT_DATA_BEGUN, "00 E 00"], "H8"),
    ("DROPS", [*HELD, "00 A 6 0 6 01 00000000 ff - 0"], "H5"),
    ("DROPS", [*PROBED, "00 C 4 5 6 00 00000000 - 0"], "H12"),
    ("REPORTS", ["00 C 6 5 6 00 00000000 - 0"], "L2"),
    ("DENIED", [ACQUIRE_NTOB, "00 D 4 1 6 00 00 1 - 0"], "L6"),
    ("UNCORRUPT", [GET, f"00 D 1 0 3 00 00 1 {DATA} 0"], "L6"),
]

# What stays at fault under all liberties, or under all but some.
AT_FAULT = [
    (["00 B 6 2 6 05 00000000 ff - 0", "00 C 4 5 6 00 00000000 - 0"], "H10", []),
    ([GET, f"00 D 1 1 3 00 07 0 {DATA} 0"], "L2", []),
    (["00 A 7 0 6 00 00000000 ff - 0", GRANT_TOT], "H6", []),
    ([PUT_BEGUN, PUT_ANSWERED, PUT_ANSWERED], "H2", []),
    ([ACQUIRE_NTOB, GRANT_DATA_BEGUN, "00 E 01"], "H8", []),
    ([ACQUIRE_NTOB, "00 E 00"], "H8", []),
    ([*HELD, "00 A 6 2 6 01 00000000 ff - 0"], "H5", []),
    ([*HELD, "00 C 6 1 6 00 00000000 - 0", "00 A 6 0 6 01 00000000 ff - 0"], "H4", []),
    ([*PROBED, "00 C 4 2 6 00 00000000 - 0"], "H12", []),
    ([*PROBED, "00 C 4 4 6 00 00000000 - 0"], "H12", []),
    (["00 C 6 4 6 00 00000000 - 0"], "H13", []),
    ([*HELD, "00 E 00", "00 C 6 5 6 00 00000000 - 0"], "H13", ["DROPS"]),
    ([ACQUIRE_NTOB, f"00 D 5 1 6 00 00 1 {DATA} 0"], "L6", []),
    ([PUT, "00 D 0 0 3 00 00 1 - 1"], "L6", []),
]


def last_fault(judging, lines):
    """The rule that the last beat of a trace breaks, or none; the beats before it break none."""
    with judging:
        *before, last = (judging.push_line(f"{line}\n".encode()) for line in lines)
    want(all(it.code.name == "OK" for it in before) and last.code.name in ("OK", "BROKEN"), f"{lines}: {before}, {last}")
    return last.rule


def first_fault(module, liberties, lines):
    """The same of a monitor of a cache's link that has these liberties."""
    return last_fault(module.Monitor([module.Level.C], liberties=liberties), lines)


@test
def each_liberty_alone_makes_its_traces_lawful():
    module = python_module()
    every = module.Liberty.STANDARD | module.Liberty.UNCORRUPT
    for name, lines, rule in ALLOWED:
        own = module.Liberty[name]
        want(first_fault(module, own, lines) == "", f"{name}: {lines}")
        want(first_fault(module, every, lines) == "", f"all: {lines}")
        told = first_fault(module, every & ~own, lines)
        want(told == rule, f"all but {name}: {told}, wanted {rule}: {lines}")


@test
def what_no_liberty_allows_stays_at_fault():
    module = python_module()
    every = module.Liberty.STANDARD | module.Liberty.UNCORRUPT
    for lines, rule, without in AT_FAULT:
        liberties = every
        for name in without:
            liberties &= ~module.Liberty[name]
        told = first_fault(module, liberties, lines)
        want(told == rule, f"{told}, wanted {rule}: {lines}")


@test
def liberties_of_a_profile_are_the_profile():
    module = python_module()
    for profile, liberties in ((1, 0), (2, module.Liberty.WRITER)):
        for _, lines, rule in ALLOWED:
            with module.Monitor([module.Level.C], profile=profile) as monitor:
                told = [monitor.push_line(f"{line}\n".encode()).rule for line in lines][-1]
            want(told == first_fault(module, liberties, lines), f"profile {profile}: {told}: {lines}")


# Traces of two links of one manager under a liberty, and the rule that the last beat breaks for a judge of both. What early answers
# leave is in docs/PROTOCOL.md, "Early answers".
OTHER_ACQUIRE = "01 A 7 1 6 00 00000000 ff - 0"
OTHER_GRANT = "01 D 4 0 6 00 01 0 - 0"
OTHER_GET = "01 A 4 0 3 00 00000000 ff - 0"
TAKEN_ALONE = [*HELD, "00 E 00", OTHER_ACQUIRE]
OTHER_HOLDS = [OTHER_ACQUIRE, OTHER_GRANT, "01 E 01"]
EARLY_GRANT_ACK = ["00 A 6 1 6 00 00000000 ff - 0", GRANT_DATA_TOT_BEGUN, "00 E 00", OTHER_ACQUIRE]
KNOWN = "05" * 8
OTHER_PUT = [f"01 A 0 0 3 00 00000008 ff {KNOWN} 0", "01 D 0 0 3 00 00 0 - 0"]
READ_EARLY = [*OTHER_PUT, ACQUIRE_NTOB, GRANT_DATA_BEGUN, "00 E 00"]
EARLY_RELEASE_ACK = [*HELD, "00 E 00", f"00 C 7 1 6 00 00000000 {KNOWN} 0", "00 D 6 0 6 00 00 0 - 0", OTHER_GET]
PROBED_AWAY = ["00 B 6 2 6 00 00000000 ff - 0", "00 C 4 5 6 00 00000000 - 0"]
TOGETHER = [
    # what was dropped is another's when a Probe's answer says so, and not before
    ("DROPS", [*TAKEN_ALONE, *PROBED_AWAY, OTHER_GRANT], ""),
    ("DROPS", [*TAKEN_ALONE, OTHER_GRANT], "M1"),
    # a denied Grant gives nothing, beside a writer too
    ("DENIED", [*TAKEN_ALONE, "01 D 4 0 6 00 01 1 - 0"], ""),
    ("DENIED", [*TAKEN_ALONE, OTHER_GRANT], "M1"),
    # from an early GrantAck on its link holds the block; the later beats are judged
    ("EARLY", [*EARLY_GRANT_ACK, "00 B 6 2 6 00 00000000 ff - 0", "00 C 4 1 6 00 00000000 - 0", OTHER_GRANT], ""),
    ("EARLY", [*EARLY_GRANT_ACK, OTHER_GRANT], "M1"),
    ("EARLY", [*READ_EARLY, f"00 D 5 1 6 00 00 0 {KNOWN} 0"], ""),
    ("EARLY", [*READ_EARLY, GRANT_DATA_BEGUN], "M2"),
    # an early ReleaseAck leaves the bytes that have come
    ("EARLY", [*EARLY_RELEASE_ACK, f"01 D 1 0 3 00 00 0 {KNOWN} 0"], ""),
    ("EARLY", [*EARLY_RELEASE_ACK, f"01 D 1 0 3 00 00 0 {DATA} 0"], "M3"),
    # M4 doesn't judge an access that is answered before its request is complete
    ("EARLY", [*OTHER_HOLDS, PUT_BEGUN, PUT_ANSWERED], ""),
    ("EARLY", [*OTHER_HOLDS, PUT, "00 D 0 0 3 00 00 0 - 0"], "M4"),
]


@test
def a_judge_of_all_links_takes_each_liberty():
    module = python_module()
    caches = [module.Level.C, module.Level.C]
    every = module.Liberty.STANDARD | module.Liberty.UNCORRUPT
    for name, lines, rule in ALLOWED:
        own = module.Liberty[name]
        for liberties, wanted in ((own, ""), (every, ""), (0, rule), (every & ~own, rule)):
            told = last_fault(module.Judge(caches, liberties=liberties), lines)
            want(told == wanted, f"{name}, under {liberties}: {told}, wanted {wanted}: {lines}")
    for name, lines, rule in TOGETHER:
        for liberties in (module.Liberty[name], every):
            told = last_fault(module.Judge(caches, liberties=liberties), lines)
            want(told == rule, f"{name}, under {liberties}: {told}, wanted {rule}: {lines}")


# ---- names

# The numbers of docs/PROTOCOL.md's liberties, in its order; and what stands for several.
NUMBERS = {name: 1 << place for place, name in enumerate(
    ("IDS", "SINKS", "WRITER", "EARLY", "DROPS", "REPORTS", "DENIED", "UNCORRUPT"))}
STANDARD, EVERY = 127, 255

# Where each file names them: the text that begins and ends the list, and a name with its number.
NAMED = [
    ("sv/tl_pkg.sv", "// What a link may do", "\n\n", r"\bLIBERTY_([A-Z]+) = (\d+);"),
    ("include/hefrudyl.h", "enum tl_liberty {", "};", r"\bTL_(?!NO_)([A-Z]+) = (\d+)"),
    ("python/hefrudyl/values.py", "class Liberty(", "\n\n\n", r"^    ([A-Z]+) = (\d+)$"),
]


@test
def each_language_names_the_liberties_alike():
    for file, begin, end, pattern in NAMED:
        with open(os.path.join(HERE, file)) as text:
            listed = text.read().split(begin)[1].split(end)[0]
        found = {name: int(number) for name, number in re.findall(pattern, listed, re.M)}
        want(found == {**NUMBERS, "STANDARD": STANDARD}, f"{file}: {found}")
    sys.path.insert(0, os.path.join(HERE, "formal"))
    from tl_formal.design import LIBERTIES
    want(LIBERTIES == [name.lower() for name in NUMBERS], f"tl_formal: {LIBERTIES}")


def header_of(liberties):
    """The header of a link of level C, as docs/FORMATS.md has it."""
    if liberties == 0:
        return "tltrace 2 8 C"
    if liberties == NUMBERS["WRITER"]:
        return "tltrace 3 8 2 C"
    if liberties in (STANDARD, EVERY):
        return f"tltrace 4 8 {'standard' if liberties == STANDARD else 'standard,uncorrupt'} C"
    return f"tltrace 4 8 {','.join(name.lower() for name, number in NUMBERS.items() if liberties & number)} C"


def recorded_headers(simulator, sets):
    """Has recorders of these sets write their headers, to the files `headers` and a word."""
    top = "test_headers"
    words = ",".join(f"8'd{it}" for it in reversed(sets))
    flags = [f"-DCOUNT={len(sets)}", f"-DSETS={{{words}}}"]
    sources = SV + [f"tests/{top}.sv"]
    if simulator == "Verilator":
        run([verilator(top, top, sources, *flags), f"+traces={path('headers')}"])
    else:
        run(["vvp", "-n", icarus(f"{top}.vvp", top, sources, *flags), f"+traces={path('headers')}"])
    others = {it: beat_lines(f"headers.{it}") for it in ("several", "second", "none")}
    want(others == {"several": ["tltrace 4 8 early UL UL UL UH C"], "second": ["tltrace 3 8 2 UH"], "none": []}, f"{simulator}: {others}")
    for it in sets:
        found = beat_lines(f"headers.{it}")
        want(found == [header_of(it)], f"{simulator}, liberties {it}: {found}")


@test
def a_recorder_writes_its_liberties_into_the_header():
    few = [0, *NUMBERS.values(), STANDARD, EVERY]
    recorded_headers("Verilator", few)
    recorded_headers("Icarus", [*few, *(EVERY - it for it in NUMBERS.values() if it != NUMBERS["UNCORRUPT"])])


def monitored(liberties, lines):
    """What the command says of a trace with the header that a recorder wrote last."""
    text = "\n".join([*beat_lines(f"headers.{liberties}"), *lines, ""])
    return subprocess.run([TLTOOL, "monitor"], input=text, stdout=subprocess.PIPE, text=True).stdout.strip()


@test
def the_command_reads_what_a_recorder_names():
    recorded_headers("Icarus", [*NUMBERS.values(), *(EVERY - it for it in NUMBERS.values())])
    for name, lines, rule in ALLOWED:
        own, others = monitored(NUMBERS[name], lines), monitored(EVERY - NUMBERS[name], lines)
        want(own == f"clean {len(lines)}" and others == f"line {len(lines) + 1} {rule}", f"{name}: {own}, {others}: {lines}")
