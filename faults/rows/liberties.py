"""What links may do that have liberties, and the nearest that they still may not."""
import typing

from rows.shell import F7, GRANT, PERM, PROBE, allowed, judged, printed, trace

NAMES = ("ids", "sinks", "writer", "early", "drops", "reports", "denied", "uncorrupt")
# The traces of early answers, all links together: the line at fault, the beats of the right one, and the line of that one that
# breaks a rule without the liberty.
AT_FAULT_EARLY = (("M1_early", 6), ("M2_early_grant", 7), ("M2_early_release", 8), ("M3_early", 7), ("M4_early", 6))
RIGHT_EARLY = (("M1_early", 7), ("M2_early_grant", 8), ("M2_early_release", 9), ("M3_early", 6), ("M4_early", 5))
WITHOUT_EARLY = (("M1_early", 4, "H8"), ("M2_early_grant", 6, "H8"), ("M2_early_release", 6, "H2"), ("M3_early", 5, "H2"), ("M4_early", 5, "H2"))


class Example(typing.NamedTuple):
    """A trace of one link: its liberty, the rule that its last beat breaks without it, or with it too, and its beats."""

    liberty: str
    rule: str
    beats: list

    def fault(self):
        return f"line {len(self.beats) + 1} {self.rule}"


def examples(data, right):
    """The traces in rules/ of one link with one liberty, by its place. The last beat of a right one breaks no rule with the liberty;
    that of the others, the nearest ones, breaks the rule with it too."""
    found = []
    for path in (data / "rules").glob("*.trace"):
        header, *lines = path.read_text().splitlines()
        version, liberty, levels = header.split()[1], header.split()[3:4], header.split()[4:]
        if version == "4" and liberty[0] in NAMES and len(levels) == 1 and path.stem.endswith("_right") == right:
            found.append(Example(liberty[0], path.stem.split("_")[0], [it[3:] for it in lines]))
    return sorted(found, key=lambda it: (NAMES.index(it.liberty), it))


def together(liberties, lines):
    """A trace of two caches, the first of which is granted Trunk, judged together."""
    held = ["00 A 7 1 6 00 00000000 ff - 0", "00 D 4 0 6 00 00 0 - 0", "00 E 00", "01 A 7 1 6 00 00000000 ff - 0"]
    return f"{printed([f'tltrace 4 8 {liberties} C C', *held, *lines])} | tltool coherent"


def explained(beats, header="tltrace 1 C", options="", line="tail -n 1"):
    """A line of the explanation of a trace."""
    return f"{trace(header, beats)} >fault.trace; tltool explain {options} fault.trace | {line}"


HEADERS = [
    # what the links may do
    *((f"printf 'tltrace 4 {it}\\n' | tltool monitor", 0, "clean 0\n", "") for it in (
        "8 none C", "4 standard C", "16 standard,uncorrupt C UH UL", "8 drops C", "8 early,drops C",
        "8 ids,sinks,writer,early,drops,reports,denied,uncorrupt C", "8 ids,sinks,writer,early,drops,reports,denied C",
    )),
    *((f"printf 'tltrace 4 {it}\\n' | tltool monitor", 1, F7.format(1), "") for it in (
        "8 C", "8 none", "none C", "8 all C", "8 Drops C", "8 drops,drops C", "8 drops,early C", "8 none,drops C", "8 drops,none C",
        "8 standard,drops C", "8 uncorrupt,standard C", "8 drops, C", "8 ,drops C", "8 early,,drops C", "8 early drops C", "8  none C",
        "2 none C", "32 none C", "8 none" + 17 * " C",
    )),
    *((f"printf 'tltrace 4 8 early C\\n' {it}", 0, "coherent 0\n", "") for it in (
        "| tltool coherent", "| tltool coherent --all 3", "| tltool coherent --report r.json", "| tltool coherent --junit r.xml",
        ">early.trace; tltool coherent early.trace", ">early.trace; tltool coherent --all 3 early.trace",
    )),
]

DROPPED = [
    # a block that is dropped may be given up by a report that nothing is held
    ("tltool monitor rules/H13_drops_right.trace", 0, "clean 4\n", ""),
    ("sed 's/drops,//' rules/H13_drops_right.trace | tltool monitor", 1, "line 5 H13\n", ""),
    ("sed 's/,reports//' rules/H13_drops_right.trace | tltool monitor", 1, "line 5 L2\n", ""),
    ("tltool monitor rules/H13_drops.trace", 1, "line 5 H13\n", ""),
]

EARLY = [
    # answers that come before the message that they answer is complete
    *((f"tltool coherent rules/{it}.trace", 1, f"line {line} {it[:2]}\n", "") for it, line in AT_FAULT_EARLY),
    *((f"tltool coherent rules/{it}_right.trace", 0, f"coherent {count}\n", "") for it, count in RIGHT_EARLY),
    *((f"sed '1s/4 8 early/2 8/' rules/{it}_right.trace | tltool coherent --allow early", 0, f"coherent {count}\n", "") for it, count in RIGHT_EARLY),
    *((f"sed '1s/early/none/' rules/{it}_right.trace | tltool coherent", 1, f"line {line} {rule}\n", "") for it, line, rule in WITHOUT_EARLY),
    ("tltool explain --coherent rules/M1_early.trace | tail -1", 0, "  link 00 holds Branch of block 00000000 since line 4 (a GrantAck before the last beat of its Grant)\n", ""),
    ("tltool explain --coherent rules/M2_early_grant.trace | tail -1", 0, "  byte 00000008 is 00, and may be 05, set in line 3\n", ""),
    ("tltool explain --coherent rules/M2_early_release.trace | tail -1", 0, "  byte 00000000 is 00, and may be 05, set in line 6\n", ""),
    ("tltool explain --coherent rules/M3_early.trace | tail -1", 0, "  byte 00000010 is 00, and may be 05, set in line 3\n", ""),
    ("tltool explain --coherent rules/M4_early.trace | tail -2", 0, "  its request was complete in line 5\n  link 00 holds Trunk of block 00000000 since line 3\n", ""),
    ("sed '1s/4 8 early/2 8/' rules/M1_early.trace >late.trace; tltool explain --coherent --allow early late.trace | tail -1", 0, "  link 00 holds Branch of block 00000000 since line 4 (a GrantAck before the last beat of its Grant)\n", ""),
]

TOGETHER = [
    (together("drops", ["00 B 6 2 6 00 00000000 ff - 0", "00 C 4 5 6 00 00000000 - 0", "01 D 4 0 6 00 01 0 - 0"]), 0, "coherent 7\n", ""),
    (together("drops", ["01 D 4 0 6 00 01 0 - 0"]), 1, "line 6 M1\n", ""),
    (together("denied", ["01 D 4 0 6 00 01 1 - 0"]), 0, "coherent 5\n", ""),
    (together("none", ["01 D 4 0 6 00 01 1 - 0"]), 1, "line 6 L6\n", ""),
]


def monitored(under, still):
    """What `monitor` says under a liberty that the header names, or that is added to it."""
    return [
        *((judged(it.liberty, it.beats), 0, f"clean {len(it.beats)}\n", "") for it in under),
        *((judged("none", it.beats), 1, f"{it.fault()}\n", "") for it in under),
        *((judged(it.liberty, it.beats), 1, f"{it.fault()}\n", "") for it in still),
        *((judged(liberties, it.beats), 0, f"clean {len(it.beats)}\n", "") for liberties in ("standard", "standard,uncorrupt") for it in under[:-1]),
        # the same, added to what a header names
        *((allowed("tltrace 1 C", it.liberty, it.beats), 0, f"clean {len(it.beats)}\n", "") for it in under),
        *((allowed("tltrace 1 C", it.liberty, it.beats), 1, f"{it.fault()}\n", "") for it in still),
        *((allowed("tltrace 4 8 standard C", "none", it.beats), 0, f"clean {len(it.beats)}\n", "") for it in under[:-1]),
        *((allowed("tltrace 4 8 standard C", "uncorrupt", it.beats), 0, f"clean {len(it.beats)}\n", "") for it in under),
        *((allowed("tltrace 1 C", it.liberty, it.beats, "--all 2"), 0, f"clean {len(it.beats)}\n", "") for it in under),
        *((allowed("tltrace 1 C", it.liberty, it.beats, "--all 1"), 1, f"{it.fault()}\nfaults 1\n", "") for it in still),
        (allowed("tltrace 4 8 early,drops C", "denied", under[4].beats + under[0].beats, "--all 9"), 1, "line 5 L2\nfaults 1\n", ""),
        (allowed("tltrace 2 8", "standard", under[0].beats), 1, "line 1 F7\n", ""),
        # no other liberty allows it, nor all others together
        *((judged(",".join(name for name in NAMES if name != it.liberty), it.beats), 1, f"{it.fault()}\n", "") for it in under),
    ]


def judged_together(under):
    """What `coherent` says of one link: any liberties are read."""
    return [
        *((judged(it.liberty, it.beats, "coherent"), 0, f"coherent {len(it.beats)}\n", "") for it in under),
        *((judged("none", it.beats, "coherent"), 1, f"{it.fault()}\n", "") for it in under),
        *((allowed("tltrace 1 C", it.liberty, it.beats, command="coherent"), 0, f"coherent {len(it.beats)}\n", "") for it in under),
        *((allowed("tltrace 1 C", it.liberty, it.beats, "--all 2", "coherent"), 0, f"coherent {len(it.beats)}\n", "") for it in under),
        *((allowed("tltrace 1 C", "none", it.beats, "--all 2", "coherent"), 1, f"{it.fault()}\nfaults 1\n", "") for it in under),
        (allowed("tltrace 4 8 early C", "drops", [], command="coherent"), 0, "coherent 0\n", ""),
        (judged("standard", [], "coherent"), 0, "coherent 0\n", ""),
    ]


def reasons(under, still):
    """An explanation ends with the liberties that would allow the beat. It explains the verdict under those of the header and
    besides, and says which further ones would."""
    first = "sed -n 1p"
    return [
        *((explained(it.beats), 0, f"  (allowed under {it.liberty})\n", "") for it in under),
        (explained([PERM, GRANT, "E 00", PROBE, "C 4 2 6 00 00000000 - 0"]) + " | grep -c allowed", 1, "0\n", ""),
        ("tltool explain --coherent rules/M1.trace | grep -c allowed", 1, "0\n", ""),
        *((explained(it.beats, f"tltrace 4 8 {it.liberty} C", line=first), 0, f"clean {len(it.beats)}\n", "") for it in under),
        *((explained(it.beats, options=f"--allow {it.liberty}", line=first), 0, f"clean {len(it.beats)}\n", "") for it in under),
        *((explained(it.beats, f"tltrace 4 8 {it.liberty} C", line=first), 0, f"{it.fault()}\n", "") for it in still),
        *((explained(it.beats, options=f"--allow {it.liberty}", line=first), 0, f"{it.fault()}\n", "") for it in still),
        *((explained(it.beats, "tltrace 4 8 none C"), 0, f"  (allowed under {it.liberty})\n", "") for it in under),
        *(
            (explained(it.beats, "tltrace 4 8 sinks C", "--allow writer"), 0, f"  (allowed under {it.liberty})\n", "")
            for it in under if it.liberty not in ("sinks", "writer")
        ),
        ("tltool explain --coherent --allow drops,denied rules/M1.trace | sed -n 1p", 0, "line 5 M1\n", ""),
        ("sed '1s/.*/tltrace 4 8 drops C C/' rules/M1.trace >under.trace; tltool explain --coherent under.trace >told; sed 1s/drops/none/ under.trace >of.trace; tltool explain --coherent of.trace | cmp - told; grep -c '00 holds Trunk' told", 0, "1\n", ""),
    ]


def drawn(under, still):
    """The verdict in a chart is that of `monitor` under the liberties of the header and those of --allow."""
    return [
        *((judged(it.liberty, it.beats, "chart") + f" | grep -c '>clean {len(it.beats)}<'", 0, "1\n", "") for it in under),
        *((judged(it.liberty, it.beats, "chart") + f" | grep -c '>{it.fault()}<'", 0, "1\n", "") for it in still),
        *((allowed("tltrace 1 C", it.liberty, it.beats, command="chart") + f" | grep -c '>clean {len(it.beats)}<'", 0, "1\n", "") for it in under),
        *((allowed("tltrace 1 C", "none", it.beats, command="chart") + f" | grep -c '>{it.fault()}<'", 0, "1\n", "") for it in under),
    ]


def rows(data):
    """The rows about liberties, with the examples in this folder."""
    under, still = examples(data, True), examples(data, False)
    return [
        *HEADERS, *monitored(under, still), *DROPPED, *judged_together(under), *EARLY, *TOGETHER, *reasons(under, still), *drawn(under, still),
    ]
