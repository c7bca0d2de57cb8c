"""Traces of wide beats, with stores and loads and without, and lines of them in words."""
from rows.shell import F1, F2, F3, F7

# The lines of a trace in words.
WIDE_WORDS = f"""00 A AcquireBlock NtoT size=6 source=0100 address=0000000180000000 mask=ffffffff data=- corrupt=0
00 D GrantData toT size=6 source=0100 sink=0010 denied=0 data={64 * '0'} corrupt=0
00 D GrantData toT size=6 source=0100 sink=0010 denied=0 data={64 * '0'} corrupt=0
00 E GrantAck sink=0010
01 A AcquireBlock NtoB size=6 source=0002 address=0000000180000000 mask=ffffffff data=- corrupt=0
00 B ProbeBlock toB size=6 source=0000 address=0000000180000000 mask=ffffffff data=- corrupt=0
00 C ProbeAckData TtoB size=6 source=0000 address=0000000180000000 data={62 * '0'}5a corrupt=0
00 C ProbeAckData TtoB size=6 source=0000 address=0000000180000000 data={64 * '0'} corrupt=0
01 D GrantData toB size=6 source=0002 sink=0011 denied=0 data={62 * '0'}5a corrupt=0
01 D GrantData toB size=6 source=0002 sink=0011 denied=0 data={64 * '0'} corrupt=0
01 E GrantAck sink=0011
"""

ROWS = [
    # lines of wide beats in words
    *((f"tail -n +2 wide/two_caches.trace | {it}", 0, WIDE_WORDS, "") for it in ("tltool decode --wide --width 32", "tltool decode --width 32 --wide")),
    ("tail -n +2 wide/two_caches.trace >beats.wide; tltool decode --wide --width 32 beats.wide", 0, WIDE_WORDS, ""),
    ("tltool decode --wide --width 32 wide/two_caches.trace", 1, F2.format(1), ""),
    ("tail -n +2 wide/two_caches.trace | tltool decode --wide", 1, F3.format(1), ""),
    ("tail -n +2 wide/two_caches.trace | tltool decode --wide --width 64", 1, F3.format(1), ""),
    ("tail -n +2 wide/two_caches.trace | tltool decode", 1, F3.format(1), ""),
    ("tltool decode --wide beats.txt", 1, F3.format(1), ""),
    ("tail -n +2 wide/two_caches.trace | head -c -1 | tail -1 | tltool decode --wide --width 32", 1, F1.format(1), ""),
    ("printf '00 E 0010' | tltool decode --wide", 1, F1.format(1), ""),
    ("printf '00 E 0010\\n00 E 10\\n00 E 0011\\n' | tltool decode --wide", 1, "00 E GrantAck sink=0010\nline 2 F3\n", ""),
    ("printf '00 A 4 9 3 ffff ffffffffffffffff 00 - 0\\n' | tltool decode --wide", 1, "line 1 F5\n", ""),
    ("printf '' | tltool decode --wide", 0, "", ""),
    ("tltool decode --wide missing.trace", 3, "", "tltool: cannot open missing.trace\n"),
    *(
        (f"printf '00 A 2 5 2 ffff fedcba9876543210 {mask} {data} 1\\n' | tltool decode --wide --width {width}", 0, f"00 A ArithmeticData 5 size=2 source=ffff address=fedcba9876543210 mask={mask} data={data} corrupt=1\n", "")
        for width, mask, data in ((4, "a", "01234567"), (8, "a5", "0123456789abcdef"), (16, "a55a", 2 * "0123456789abcdef"), (64, "a55a0ff0123489ab", 8 * "0123456789abcdef"))
    ),
    ("tltool monitor --width 4 two_caches.trace", 2, "", "error: unexpected argument '--width' found.."),
    ("tltool monitor --verbose two_caches.trace", 2, "", "error: unexpected argument '--verbose' found.."),
    ("tltool run --trace=x", 2, "", "error: .."),
    ("tltool run --trace --trace", 2, "", "error: .."),
    ("tltool run --commits schedules/a_writer_becomes_a_reader.schedule", 2, "", "error: the argument '--commits' cannot be used without '--trace', since it adds lines to the trace\n.."),
    ("tltool run --trace --commits=x", 2, "", "error: .."),
    ("tltool monitor --commits two_caches.trace", 2, "", "error: unexpected argument '--commits' found.."),
    ("tltool decode --version", 2, "", "error: unexpected argument '--version' found.."),
    # traces of wide beats
    ("tltool monitor wide/two_caches.trace", 0, "clean 11\n", ""),
    ("tltool monitor <wide/two_caches.trace", 0, "clean 11\n", ""),
    ("tltool coherent wide/two_caches.trace", 0, "coherent 11\n", ""),
    ("tltool coherent --allow ids <wide/two_caches.trace", 0, "coherent 11\n", ""),
    ("tltool coherent wide/second_part.trace", 1, "line 6 M3\n", ""),
    ("sed '1s/none/early/' wide/two_caches.trace | tltool monitor", 0, "clean 11\n", ""),
    ("sed '1s/none/early/' wide/two_caches.trace | tltool coherent", 0, "coherent 11\n", ""),
    ("sed '1s/none/early/' wide/two_caches.trace >early.trace; tltool coherent early.trace", 0, "coherent 11\n", ""),
    ("sed '1s/32/24/' wide/two_caches.trace | tltool monitor", 1, F7.format(1), ""),
    ("sed '1s/32/16/' wide/two_caches.trace | tltool monitor", 1, F3.format(2), ""),
    ("sed '1s/none //' wide/two_caches.trace | tltool monitor", 1, F7.format(1), ""),
    ("sed '1s/tltrace 5/tltrace 6/' wide/two_caches.trace | tltool monitor", 1, F7.format(1), ""),
    ("head -c -1 wide/two_caches.trace | tltool monitor", 1, F1.format(12), ""),
    *(
        (f"tltool {words} {way}wide/two_caches.trace", 0, f"{words.split()[0].replace('monitor', 'clean')} 11\n", "")
        for words in ("monitor --all 3", "coherent --all 3", "monitor --report wide.json", "coherent --junit wide.xml") for way in ("", "<")
    ),
    # A response that is at fault at its second part, and after it the right one: nothing of the first is left.
    ("(cat wide/second_part.trace; tail -1 wide/second_part.trace | sed 's/ 2f/ 1f/') | tltool coherent --all 10", 1, "line 6 M3\nfaults 1\n", ""),
    ("(cat wide/second_part.trace; tail -1 wide/second_part.trace) | tltool coherent --all 10", 1, "line 6 M3\nline 7 M3\nfaults 2\n", ""),
    ("(cat wide/second_part.trace; tail -1 wide/second_part.trace) | tltool monitor --all 10", 1, "line 7 H2\nfaults 1\n", ""),
    ("sed '1s/none/early/' wide/two_caches.trace | tltool coherent --all 3", 0, "coherent 11\n", ""),
    # the same of wide traces: no part and no name of a beat at fault is left, and no byte of a store or a load
    ("tltool monitor --all 9 <wide/store_lost.trace", 0, "clean 6\n", ""),
    ("tltool coherent --all 9 wide/store_given_back.trace", 0, "coherent 6\n", ""),
    ("tltool coherent --all 9 wide/store_lost.trace", 1, "line 7 M7\nfaults 1\n", ""),
    ("(cat wide/store_lost.trace; tail -1 wide/store_lost.trace; tail -1 wide/store_given_back.trace) | tltool coherent --all 9", 1, "line 7 M7\nline 8 M7\nfaults 2\n", ""),
    ("(cat wide/store_lost.trace; tail -1 wide/store_lost.trace) | tltool coherent --all 1", 1, "line 7 M7\nfaults 1\n", ""),
    ("sed '6s/05$/06/' wide/store_given_back.trace | tltool coherent --all 9", 1, "line 6 M6\nfaults 1\n", ""),
    ("sed '5s/ 05$//' wide/store_lost.trace | tltool monitor --all 9", 1, "line 5 F1\nfaults 1\n", ""),
    ("(cat wide/store_lost.trace; printf '00 L 0') | tltool coherent --all 9", 1, "line 7 M7\nline 8 F1\nfaults 2\n", ""),
    ("sed '1s/C+/UH+/' wide/store_lost.trace | tltool coherent --all 9", 1, "line 1 F7\nfaults 1\n", ""),
    *((f"tltool coherent --{form} wide.{form} wide/store_lost.trace; grep -o '{part}' wide.{form}", 0, f"line 7 M7\n{part}\n", "") for form, part in (
        ("report", '"channel":"S","link":0,"message":"Store"'), ("report", '"channel":"L","link":0,"message":"Load"'),
        ("report", '"beats":5'), ("junit", 'name="beats" value="5"'))),
    ("sed 4q rules/M1.trace | tltool coherent", 0, "coherent 3\n", ""),
]
