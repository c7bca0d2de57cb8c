"""Charts, and what their readers are told that don't see the picture."""
from rows.shell import GRANT, PERM, judged

DENIED = "D 4 0 6 00 00 1 - 0"
# A Put of two beats, answered behind the first, and a Get.
PUT = "A 0 0 4 00 00000000 ff 0000000000000000 0"
ANSWERED_EARLY = [PUT, "D 0 0 4 00 00 0 - 0", PUT, "A 4 0 3 00 00000000 ff - 0", "D 1 0 3 00 00 0 0000000000000000 0"]
# What charts tell of these: a copy that is dropped, and one that isn't; nothing that a denied Grant gives; of the Put
# nothing behind its last beat.
GRANTED_TOLD = """Line 2: 00 A AcquirePerm NtoT block 000 source 00.
Line 3: 00 D Grant toT block 000 source 00 sink 00.
Line 4: 00 E GrantAck block 000 sink 00.
"""
ASKED_TOLD = f"{GRANTED_TOLD}Line 5: 00 A AcquirePerm NtoT block 000 source 00.\nWith line 3 00 is a writer.\n"
DROPPED_TOLD = f"{ASKED_TOLD}With line 5 00 holds nothing.\nThe monitor says: clean 4</desc>\n"
KEPT_TOLD = f"{ASKED_TOLD}The monitor says: line 5 H5</desc>\n"
DENIED_TOLD = f"{GRANTED_TOLD}The monitor says: clean 3</desc>\n"
# Of a trace of wide beats, and of one with stores and loads, each with lines and names of its own.
WIDE_TOLD = """Line 2: 00 A AcquireBlock NtoT block 6000000 source 0100.
Line 3: 00 D GrantData toT block 6000000 source 0100 sink 0010 2 beats.
Line 5: 00 E GrantAck block 6000000 sink 0010.
Line 6: 01 A AcquireBlock NtoB block 6000000 source 0002.
Line 7: 00 B ProbeBlock toB block 6000000.
Line 8: 00 C ProbeAckData TtoB block 6000000 source 0000 2 beats.
Line 10: 01 D GrantData toB block 6000000 source 0002 sink 0011 2 beats.
Line 12: 01 E GrantAck block 6000000 sink 0011.
"""
# A permission changes with the last beat of a message.
WIDE_HELD = """With line 4 00 is a writer.
With line 9 00 is a reader.
With line 11 01 is a reader.
"""
WIDE_FAULT = """Line 2: 00 A AcquireBlock NtoB block 3fffffffe000001 source 0000.
Line 3: 00 D GrantData toB block 3fffffffe000001 source 0000 sink 0000.
Line 4: 00 E GrantAck block 3fffffffe000001 sink 0000.
Line 5: 00 B ProbeBlock toN block 3fffffffe000001.
Line 6: 00 C ProbeAck TtoN block 3fffffffe000001 source 0000.
The monitor says: line 6 H12</desc>
"""
STORED_TOLD = f"""{GRANTED_TOLD}Line 5: 00 stores 1 byte at 00000000: 05.
Line 6: 00 loads 1 byte at 00000000: 06.
"""
# Of a wide trace with stores and loads.
WIDE_STORED = """Line 2: 00 A AcquirePerm NtoT block 6000001 source 0100.
Line 3: 00 D Grant toT block 6000001 source 0100 sink 0000.
Line 4: 00 E GrantAck block 6000001 sink 0000.
Line 5: 00 stores 1 byte at 0000000180000050: 05.
Line 6: 00 loads 1 byte at 0000000180000050: 05.
Line 7: 00 C ReleaseData TtoN block 6000001 source 0200 2 beats, not all.
"""
ANSWERED_TOLD = """Line 5: 00 A Get block 000 source 00.
Line 6: 00 D AccessAckData block 000 source 00.
The monitor says: clean 5</desc>
"""

def charted(liberties, beats, options=""):
    """A chart of one link with these liberties, as its readers are told it that don't see the picture."""
    return judged(liberties, beats, f"chart {options}") + " | sed -n '/^Line/,/<.desc>/p'"


ROWS = [
    # what is drawn
    ("tltool chart two_caches.trace", 0, "<svg ..", ""),
    ("tltool chart <two_caches.trace", 0, "<svg ..", ""),
    ("tltool chart wrong_report.trace", 1, "<svg ..", ""),
    ("tltool chart wrong_report.trace | grep -c \"<g class='X'>\"", 0, "2\n", ""),
    ("tltool chart two_caches.trace | grep -c '<circle'", 0, "8\n", ""),
    ("tltool chart --lines 14-24 --block 000 two_caches.trace | grep -c '<circle'", 0, "4\n", ""),
    ("tltool chart --block 001 two_caches.trace | grep -c '<circle'", 1, "0\n", ""),
    ("(cat two_caches.trace; echo '<x>&') | tltool chart | tail -n 3 | head -n 1", 0, "<text class='v' x='70' y='268'>line 31 F1</text>\n", ""),
    ("tltool chart </dev/null | grep -c 'line 1 F7'", 0, "2\n", ""),
    ("tltool chart --allow standard two_caches.trace | cmp - <(tltool chart two_caches.trace)", 0, "", ""),
    (charted("drops", [PERM, GRANT, "E 00", PERM], "--block 000"), 0, DROPPED_TOLD, ""),
    (charted("none", [PERM, GRANT, "E 00", PERM], "--block 000"), 0, KEPT_TOLD, ""),
    (charted("denied", [PERM, DENIED, "E 00"], "--block 000"), 0, DENIED_TOLD, ""),
    (charted("early", ANSWERED_EARLY, "--lines 5-6"), 0, ANSWERED_TOLD, ""),
    # of wide beats, and of stores and loads
    *((f"tltool chart {way}wide/two_caches.trace | sed -n '/^Line/,/<.desc>/p'", 0, f"{WIDE_TOLD}The monitor says: clean 11</desc>\n", "") for way in ("", "<")),
    ("tltool chart --block 6000000 wide/two_caches.trace | sed -n '/^Line/,/<.desc>/p'", 0, f"{WIDE_TOLD}{WIDE_HELD}The monitor says: clean 11</desc>\n", ""),
    ("tltool chart --block 000 wide/two_caches.trace | grep -c '<circle'", 1, "0\n", ""),
    ("tltool chart --lines 7-9 wide/two_caches.trace | grep -o '^Line .*'", 0, "".join(f"{it}\n" for it in WIDE_TOLD.splitlines()[3:6]), ""),
    ("tltool chart wide/wrong_report.trace | sed -n '/^Line/,/<.desc>/p'", 0, WIDE_FAULT, ""),
    ("tltool chart wide/wrong_report.trace", 1, "<svg ..", ""),
    *((f"tltool chart {way}rules/M6.trace | sed -n '/^Line/,/<.desc>/p'", 0, f"{STORED_TOLD}The monitor says: clean 5</desc>\n", "") for way in ("", "<")),
    ("tltool chart --block 000 rules/M6.trace | sed -n '/^Line/,/<.desc>/p'", 0, f"{STORED_TOLD}With line 3 00 is a writer.\nThe monitor says: clean 5</desc>\n", ""),
    ("tltool chart --block 001 rules/M6.trace | grep -c '^Line'", 1, "0\n", ""),
    ("tltool chart --lines 6-6 rules/M6.trace | grep -o '^Line .*'", 0, "Line 6: 00 loads 1 byte at 00000000: 06.\n", ""),
    ("(cat rules/M6.trace; echo '00 S 4 00000000 05') | tltool chart | grep -c 'says: line 7 F3'", 0, "1\n", ""),
    ("tltool chart --allow early rules/M6.trace | cmp - <(tltool chart rules/M6.trace)", 0, "", ""),
    # and of wide traces with stores and loads
    *((f"tltool chart {way}wide/store_lost.trace | sed -n '/^Line/,/<.desc>/p'", 0, f"{WIDE_STORED}The monitor says: clean 6</desc>\n", "") for way in ("", "<")),
    ("tltool chart --block 6000001 wide/store_lost.trace | sed -n '/^Line/,/<.desc>/p'", 0, f"{WIDE_STORED}With line 3 00 is a writer.\nThe monitor says: clean 6</desc>\n", ""),
    ("tltool chart --block 6000000 wide/store_lost.trace | grep -c '^Line'", 1, "0\n", ""),
    # of both, the marks of stores and loads, and those that aren't drawn
    *(
        row for trace in ("rules/M6.trace", "wide/store_given_back.trace") for row in (
            (f"tltool chart {trace} | grep -c \"<rect class='[wr]' width='6' height='6'\"", 0, "2\n", ""),
            (f"tltool chart {trace} | grep -c \"<rect class='w' width='6' height='6'\"", 0, "1\n", ""),
            (f"tltool chart --lines 2-4 {trace} | grep -o 'stores and loads that follow: .'", 0, "stores and loads that follow: 2\n", ""),
        )
    ),
    # with --block they are those of the block, though it comes after the last line that is drawn
    ("tltool chart --lines 1-1 --block 6000001 wide/store_lost.trace | grep -o 'that follow: .'", 0, "that follow: 4\nthat follow: 2\n", ""),
    ("sed '5s/50 05$/50 5/' wide/store_lost.trace | tltool chart | sed -n '/^Line/,/<.desc>/p'", 0, "".join(f"{it}\n" for it in WIDE_STORED.splitlines()[:3]) + "The monitor says: line 5 F3</desc>\n", ""),
    ("(sed '1s/C+/C/' wide/store_lost.trace) | tltool chart | grep -c 'says: line 5 F2'", 0, "1\n", ""),
    ("tltool chart wide/two_caches.trace >/dev/full", 3, "", "tltool: write failed\n"),
    ("tltool chart nope.trace", 3, "", "tltool: cannot open nope.trace\n"),
    ("tltool chart rules", 3, "", "tltool: read failed\n"),
    ("tltool chart two_caches.trace >/dev/full", 3, "", "tltool: write failed\n"),
]
