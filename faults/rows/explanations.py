"""What `explain` says of verdicts and of rules."""
from rows.shell import F3

# A trace in which a block is granted while it is probed, and what is told of its fault.
PROBED = (
    "printf '%s\\n' 'tltrace 1 C' '00 A 7 1 6 00 00000000 ff - 0' '00 B 6 2 6 00 00000000 ff - 0' '00 D 4 0 6 00 00 0 - 0'"
)
PROBED_TOLD = """  4: 00 D Grant
  the request, of line 2:
  2: 00 A AcquirePerm
  a Probe of block 00000000 is pending since line 3:
  3: 00 B ProbeBlock
"""
# The reasons for a wrong report, as those of the narrow trace but for lines and names, and those for a wrong response.
WIDE_REASONS = """line 6 H12
  H12 (ProbeAck, ProbeAckData): the param isn't the report of the Probe's cap and the permission held
  6: 00 C ProbeAck TtoN size=6 source=0000 address=ffffffff80000040 data=- corrupt=0
  the Probe, of line 5:
  5: 00 B ProbeBlock toN size=6 source=0000 address=ffffffff80000040 mask=ffffffffffffffff data=- corrupt=0
  block ffffffff80000040 is held as Branch since line 3:
  3: 00 D GrantData toB size=6 source=0000 sink=0000 denied=0 data=..
  wanted: BtoN
"""
WIDE_MEMORY = """line 6 M3
  M3 (AccessAckData): a requested byte h
  6: 00 D AccessAckData 0 size=5 source=
  byte 000000400000003f is 2f, and may b
"""
CLEAN_MEANS = """  clean means that no beat breaks a rule of its own link; it says nothing about two links together, nor about the data
"""
# The times of lines 2 to 13 are 10, 20, .., 120.
TIMED_REASONS = """line 13 H12
  H12 (ProbeAck, ProbeAckData): the param isn't the report of the Probe's cap and the permission held
  13: 00 C ProbeAck TtoN size=6 source=00 address=00000000 data=- corrupt=0 (time 120)
  the Probe, of line 12 (time 110):
  12: 00 B ProbeBlock toN size=6 source=00 address=00000000 mask=ff data=- corrupt=0 (time 110)
  block 00000000 is held as Branch since line 10 (time 90):
  10: 00 D GrantData toB size=6 source=00 sink=00 denied=0 data=0000000000000000 corrupt=0 (time 90)
  wanted: BtoN
"""
# Of a wide trace with stores and loads, but for the sentence of the rule.
WIDE_LOST = f"""line 7 M7
  7: 00 C ReleaseData TtoN size=6 source=0200 address=0000000180000040 data={''.join(f'{it:02x}' for it in range(31, 16, -1))}06{''.join(f'{it:02x}' for it in range(15, -1, -1))} corrupt=0
  link 00 holds Trunk of block 0000000180000040 since:
  3: 00 D Grant toT size=6 source=0100 sink=0000 denied=0 data=- corrupt=0
  a ProbeAckData or ReleaseData of the block is under way since:
  7: 00 C ReleaseData TtoN size=6 source=0200 address=0000000180000040 data=..
  the last stores to these bytes:
  5: link 00 stores 1 byte at 0000000180000050: 05
"""
# The reasons for the fault of an event, without the sentence of its rule.
STORIES = {
    "M5": """line 5 M5
  5: link 00 stores 1 byte at 00000000: 05
  link 00 holds Branch of block 00000000 since:
  3: 00 D Grant toB size=6 source=00 sink=00 denied=0 data=- corrupt=0
  no store before it reached these bytes
""",
    "M5_load": """line 3 M5
  3: link 00 loads 1 byte at 00000000: 05
  link 00 holds None of block 00000000 since the start of the trace
  no store before it reached these bytes
""",
    "M5_begun": """line 8 M5
  8: link 00 loads 1 byte at 00000000: 05
  link 00 holds None of block 00000000 since:
  6: 00 C ProbeAck BtoN size=6 source=00 address=00000000 data=- corrupt=0
  no store before it reached these bytes
""",
    "M6": """line 6 M6
  6: link 00 loads 1 byte at 00000000: 06
  link 00 holds Trunk of block 00000000 since:
  3: 00 D Grant toT size=6 source=00 sink=00 denied=0 data=- corrupt=0
  the last stores to these bytes:
  5: link 00 stores 1 byte at 00000000: 05
  byte 00000000 is 06, and may be 05, set in line 5
""",
    "M7": """line 6 M7
  6: 00 C ReleaseData TtoN size=6 source=00 address=00000000 data=0000000000000006 corrupt=0
  link 00 holds Trunk of block 00000000 since:
  3: 00 D Grant toT size=6 source=00 sink=00 denied=0 data=- corrupt=0
  the last stores to these bytes:
  5: link 00 stores 1 byte at 00000000: 05
  byte 00000000 is 06, and may be 05, set in line 5
""",
    "M7_coming": f"""line 18 M7
  18: 00 C ProbeAckData TtoN size=6 source=00 address=00000000 data={30 * '0'}07 corrupt=0
  link 00 holds Trunk of block 00000000 since:
  16: 00 E GrantAck sink=01
  a GrantData of the block is under way since:
  15: 00 D GrantData toT size=6 source=00 sink=01 denied=0 data={30 * '0'}09 corrupt=0
  no store before it reached these bytes
  byte 00000000 is 07, and may be 09, set in line 15
""",
    "M7_dropped": f"""line 9 M7
  9: 00 C Release TtoN size=6 source=00 address=00000000 data=- corrupt=0
  link 00 holds Trunk of block 00000000 since:
  6: 00 D GrantData toT size=6 source=00 sink=00 denied=0 data={32 * '0'} corrupt=0
  the last stores to these bytes:
  8: link 00 stores 1 byte at 00000000: 05
  byte 00000000 of the copy was stored, and may be 05, set in line 8; that of memory wasn't, and may be 00, set in line 6
""",
    "M6_zero": """line 8 M6
  8: link 00 loads 1 byte at 00000000: 05
  link 00 holds Branch of block 00000000 since:
  7: 00 C ProbeAck TtoB size=6 source=00 address=00000000 data=- corrupt=0
  the last stores to these bytes:
  5: link 00 stores 1 byte at 00000000: 05
  byte 00000000 is 05, and may be 00, set in line 7
""",
    "M7_zero": """line 6 M7
  6: 00 C Release TtoN size=6 source=00 address=00000000 data=- corrupt=0
  link 00 holds Trunk of block 00000000 since:
  3: 00 D Grant toT size=6 source=00 sink=00 denied=0 data=- corrupt=0
  the last stores to these bytes:
  5: link 00 stores 1 byte at 00000000: 05
  byte 00000000 of the copy was stored, and may be 05, set in line 5; that of memory wasn't, and may be 00
""",
}

ROWS = [
    ("tltool explain wide/two_caches.trace", 0, f"clean 11\n  nothing is pending at the end\n{CLEAN_MEANS}", ""),
    ("tltool explain --coherent wide/two_caches.trace", 0, "coherent 11\n  nothing is pending at the end\n  coherent means ..", ""),
    ("tltool explain wide/wrong_report.trace", 1, WIDE_REASONS, ""),
    ("tltool explain --coherent wide/second_part.trace | cut -c1-40", 0, WIDE_MEMORY, ""),
    ("seq 10 10 120 >link.times; tltool explain --times link.times wrong_report.trace", 1, TIMED_REASONS, ""),
    ("seq 10 10 110 >link.times; tltool explain --times link.times wrong_report.trace | sed -n '3,4s/.* \\(corrupt\\|of\\)/\\1/p'", 0, "corrupt=0\nof line 12 (time 110):\n", ""),
    ("seq 10 10 120 | sed '11s/0$/x/;12s/$/ /' >link.times; tltool explain --times link.times wrong_report.trace | grep -c time", 0, "2\n", ""),
    ("(seq 10 10 110; printf 120) >link.times; tltool explain --times link.times wrong_report.trace | grep -c 'time 1[12]0'", 0, "2\n", ""),
    ("seq 10 10 120 >link.times; tltool explain --times link.times wide/wrong_report.trace | sed -n 's/.*corrupt=0//p;s/.*the Probe,/the Probe,/p'", 0, " (time 50)\nthe Probe, of line 5 (time 40):\n (time 40)\n", ""),
    ("seq 10 10 120 >link.times; tltool explain --coherent --times link.times rules/M6.trace | grep -c 'time [235]0)$\\|time 40)$'", 0, "4\n", ""),
    ("seq 10 10 120 >link.times; sed '3s/ 00000000/ line 2/' two_caches.trace >fault.trace; tltool explain --times link.times fault.trace | grep time", 1, "", ""),
    ("seq 10 10 120 >link.times; tltool explain --times link.times two_caches.trace", 0, f"clean 29\n  nothing is pending at the end\n{CLEAN_MEANS}", ""),
    ("tltool explain --times none.times wrong_report.trace", 3, "", "tltool: cannot open none.times\n"),
    ("tltool explain --times . wrong_report.trace", 3, "", "tltool: read failed\n"),
    ("seq 10 10 120 >link.times; tltool explain --times link.times H12", 3, "", "tltool: cannot open H12\n"),
    ("tltool explain --times", 2, "", "error: .."),
    ("tltool monitor --times link.times two_caches.trace", 2, "", "error: unexpected argument '--times' found.."),
    ("sed '1s/64/32/' wide/wrong_report.trace >narrower.trace; tltool explain narrower.trace", 1, F3.format(2), ""),
    ("(head -5 wide/wrong_report.trace; tail -1 wide/wrong_report.trace | sed 's/C 4 1/C 4 2/') >right.trace; tltool explain right.trace | sed -n 1p", 0, "clean 5\n", ""),
    # why an event is at fault
    ("tltool explain rules/M6.trace", 0, "clean 5\n  nothing is pending at the end\n  clean means ..", ""),
    ("tltool explain --coherent rules/M6_right.trace", 0, "coherent 5\n  nothing is pending at the end\n  coherent means ..", ""),
    *((f"tltool explain --coherent rules/{name}.trace | sed 2d", 0, told, "") for name, told in STORIES.items()),
    *((f"(tltool explain {name} | head -1; tltool explain --coherent rules/{name}.trace | sed -n 's/^  //;2p') | uniq | wc -l", 0, "1\n", "") for name in ("M5", "M6", "M7")),
    # the same of wide traces
    ("tltool explain --coherent wide/store_lost.trace | sed '2d;/^  byte/d'", 0, WIDE_LOST, ""),
    ("(tltool explain M7 | head -1; tltool explain --coherent wide/store_lost.trace | sed -n 's/^  //;2p') | uniq | wc -l", 0, "1\n", ""),
    ("tltool explain wide/store_lost.trace | sed -n '1p;$p'", 0, "clean 6\n  clean means that no beat breaks a rule of its own link; it says nothing about two links together, nor about the data, nor about stores and loads\n", ""),
    ("sed '6s/05$/06/' wide/store_given_back.trace >load.trace; tltool explain --coherent load.trace | sed -n '1p;3,6p'", 0, "line 6 M6\n  6: link 00 loads 1 byte at 0000000180000050: 06\n" + "".join(f"{it}\n" for it in WIDE_LOST.splitlines()[2:4]) + "  the last stores to these bytes:\n", ""),
    ("sed '5s/ 05$/ 5/' wide/store_lost.trace >digit.trace; tltool explain digit.trace", 1, "line 5 F3\n  F3: a field isn't of its form: ..", ""),
    ("sed '5s/05/07 /' rules/M6.trace >long.trace; tltool explain --coherent long.trace", 1, "line 5 F1\n  F1: more than 256 bytes, or ..", ""),
    ("sed '5s/05/07 /' rules/M6.trace >spaced.trace; tltool explain --coherent spaced.trace | tail -3", 0, f"  00 S 0 00000000 07 \n  {19 * ' '}^\n  fields: 6; a line of S has 5\n", ""),
    ("sed '6s/.*/00 I 0 00000000 05/' rules/M6.trace >valued.trace; tltool explain valued.trace | tail -3", 0, f"  00 I 0 00000000 05\n  {16 * ' '}^^\n  fields: 5; a line of I has 4\n", ""),
    ("sed '5s/ 05$//' rules/M6.trace >short.trace; tltool explain short.trace | tail -3", 0, f"  00 S 0 00000000\n  {15 * ' '}^\n  fields: 4; a line of S has 5\n", ""),
    ("sed '5s/S/X/' rules/M6.trace >letter.trace; tltool explain letter.trace | tail -3", 0, "  00 X 0 00000000 05\n     ^\n  field 2, letter: one of A, B, C, D, E, S, L, I\n", ""),
    ("sed '5s/S 0/S 4/' rules/M6.trace >size.trace; tltool explain size.trace", 1, "line 5 F3\n  F3: a field isn't of its form: ..", ""),
    ("sed '5s/S 0/S 4/' rules/M6.trace >four.trace; tltool explain --coherent four.trace | tail -3", 0, "  00 S 4 00000000 05\n       ^\n  field 3, n: 0, 1, 2 or 3\n", ""),
    ("sed '5s/S 0 .*/S 1 00000001 0005/' rules/M6.trace >odd.trace; tltool explain odd.trace | tail -3", 0, f"  00 S 1 00000001 0005\n  {7 * ' '}{8 * '^'}\n  field 4, address: 8 digits of 0 to 9 and a to f, a multiple of 2\n", ""),
    ("sed '6s/06/6/' rules/M6.trace >digit.trace; tltool explain digit.trace | tail -3", 0, f"  00 L 0 00000000 6\n  {16 * ' '}^\n  field 5, data: 2 digits of 0 to 9 and a to f\n", ""),
    ("sed '3s/4 0/4 4/' rules/M6.trace >param.trace; tltool explain param.trace | tail -3", 0, f"  00 D 4 4 6 00 00 0 - 0\n  {7 * ' '}^\n  field 4, param: at most 3\n", ""),
    ("(sed 5q rules/M6.trace; printf '00 L 0') >cut.trace; tltool explain --coherent cut.trace | sed 2d", 0, f"line 6 F1\n  00 L 0\n  {6 * ' '}^\n  the line doesn't end in a line feed\n", ""),
    ("sed '2s/$/ 0 0 0 0 0 0 0 0 0 0 0 0 0 0 0 0 0 0 0 0/' rules/M6.trace >wide.trace; tltool explain wide.trace | sed 2d", 0, f"line 2 F1\n  00 A 7 1 6 00 00000000 ff - 0{20 * ' 0'}\n  {30 * ' '}{39 * '^'}\n  fields: 30; a line of channel A has 10\n", ""),
    ("sed \"5s/$/$(printf %0300d 0)/\" rules/M6.trace >many.trace; tltool explain many.trace | sed 2d", 0, f"line 5 F1\n  00 S 0 00000000 05{238 * '0'}\n  {256 * ' '}^\n  the line has more than 256 bytes\n", ""),
    # which links hold what conflicts, since which of these lines
    ("sed -e '1s/.*/tltrace 4 8 none C+ C+/' -e '1a01 I 0 00000040' -e '2a01 I 0 00000080' rules/M1.trace >held.trace; tltool explain --coherent held.trace | sed '1p;$!d'", 0, "line 7 M1\n  link 00 holds Trunk of block 00000000 since line 5\n", ""),
    ("sed -e '1s/.*/tltrace 4 8 none C+ C+/' -e '2a01 I 0 00000040' -e '4a01 I 0 00000080' rules/M1_begun.trace >begun.trace; tltool explain --coherent begun.trace | sed '1p;$!d'", 0, "line 7 M1\n  link 00 is being granted Trunk of block 00000000 since line 5\n", ""),
    ("sed -e '1s/.*/tltrace 4 8 none C+ UL/' -e '1a00 I 0 00000040' -e '3a00 S 0 00000000 05' -e '4a00 L 0 00000000 05' rules/M4.trace >asked.trace; tltool explain --coherent asked.trace | sed '1p;/^  [il]/!d'", 0, "line 8 M4\n  its request was complete in line 6\n  link 00 holds Trunk of block 00000000 since line 4\n", ""),
    # which bytes a response can't have, and what each may be: by a store, by memory that was zero, by a Get's window and a store after it
    ("tltool explain --coherent rules/M2_stored.trace | sed '1p;/^  byte/!d'", 0, "line 9 M2\n  byte 00000000 is 07, and may be 05, set in line 5\n", ""),
    ("tltool explain --coherent rules/M3_stored.trace | sed '1p;/^  byte/!d'", 0, "line 9 M3\n  byte 00000000 is 00, and may be 05, set in line 5\n", ""),
    ("tltool explain --coherent rules/M2_zero.trace | sed '1p;4,$!d'", 0, "line 3 M2\n  byte 00000000 is 07, and may be 00\n", ""),
    ("tltool explain --coherent rules/M3_zero.trace | sed '1p;4,$!d'", 0, "line 3 M3\n  byte 00000000 is 07, and may be 00\n", ""),
    ("sed -e '6a00 S 0 00000000 06' -e '8a00 S 0 00000000 08' -e '9s/00 0$/05 0/' rules/M3_stored.trace >read.trace; tltool explain --coherent read.trace | sed '1p;4,$!d'", 0, "line 11 M3\n  byte 00000000 is 05, and may be 06, set in line 7\n", ""),
    ("sed '3s/0*7 0$/07070707070707070707070707070707 0/' rules/M2_zero.trace >more.trace; tltool explain --coherent more.trace | tail -2", 0, "  byte 00000007 is 07, and may be 00\n  and 8 more\n", ""),
    ("sed '3s/4 0/4 1/' rules/M6.trace >branch.trace; tltool explain branch.trace", 1, "line 3 H6\n  H6 (..", ""),
    ("sed '22s/5a/00/' two_caches.trace | tltool coherent", 1, "line 22 M2\n", ""),
    ("tltool explain M1", 0, "M1 (Grant, GrantData): ..", ""),
    ("tltool explain M2", 0, "M2 (GrantData): ..", ""),
    ("tltool explain M3", 0, "M3 (AccessAckData): ..", ""),
    ("tltool explain M4", 0, "M4 (AccessAck, AccessAckData): ..", ""),
    ("tltool explain M5", 0, "M5 (S, L): ..", ""),
    ("tltool explain M6", 0, "M6 (L): ..", ""),
    ("tltool explain M7", 0, "M7 (ProbeAck, ProbeAckData, Release, ReleaseData, Acquire): ..", ""),
    ("tltool explain M8", 3, "", "tltool: cannot open M8\n"),
    ("tltool run schedules/nothing_happens.schedule", 0, "..", ""),
    ("tltool explain wrong_report.trace", 1, "line ..", ""),
    ("tltool explain H12", 0, "H12 (ProbeAck, ProbeAckData): ..", ""),
    # a Grant of a block that is probed: the request and the Probe are told
    (f"{PROBED} >probed.trace; tltool explain probed.trace | grep -o '^  [a-z].*line .*\\|^  [0-9]*: .. . [A-Za-z]*'", 0, PROBED_TOLD, ""),
]
