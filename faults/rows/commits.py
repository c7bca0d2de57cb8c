"""The verdicts on traces with stores and loads, and the situations of their beats."""

# The traces with stores and loads: their lines after the header, and what `coherent` writes.
COMMITS = (
    ("L1_commit", 1, "line 2 L1"), ("L1_commit_right", 1, "coherent 1"), ("M5", 4, "line 5 M5"), ("M5_right", 4, "coherent 4"),
    ("M2_stored", 8, "line 9 M2"), ("M2_stored_right", 8, "coherent 8"),
    ("M3_stored", 8, "line 9 M3"), ("M3_stored_right", 8, "coherent 8"),
    ("M5_load", 2, "line 3 M5"), ("M5_load_right", 3, "coherent 3"), ("M5_begun", 7, "line 8 M5"), ("M5_begun_right", 7, "coherent 7"),
    ("M6", 5, "line 6 M6"), ("M6_right", 5, "coherent 5"), ("M6_unmarked_right", 5, "coherent 5"), ("M7", 5, "line 6 M7"),
    ("M7_right", 5, "coherent 5"), ("M7_dropped", 8, "line 9 M7"), ("M7_dropped_right", 8, "coherent 8"), ("M7_asked_right", 9, "coherent 9"),
    ("M7_coming", 17, "line 18 M7"), ("M7_coming_right", 24, "coherent 24"),
    ("M2_zero", 2, "line 3 M2"), ("M2_zero_right", 2, "coherent 2"), ("M2_unsaid_right", 2, "coherent 2"),
    ("M3_zero", 2, "line 3 M3"), ("M3_zero_right", 2, "coherent 2"),
    ("M6_zero", 7, "line 8 M6"), ("M6_zero_right", 7, "coherent 7"), ("M6_unsaid_right", 7, "coherent 7"),
    ("M7_zero", 5, "line 6 M7"), ("M7_zero_right", 5, "coherent 5"), ("M7_unsaid_right", 5, "coherent 5"))
# Lines of no commit, with their faults, and headers in which a mark or a word isn't at its place.
NO_COMMITS = (("00 S 0 00000000", "F1"), ("00 I 0 00000000 05", "F1"), ("00 L 0 00000000 05 0", "F1"), ("00 T 0 00000000 05", "F2"),
    ("00 s 0 00000000 05", "F2"), ("00 S 4 00000000 05", "F3"), ("00 S 1 00000001 0505", "F3"), ("00 S 1 00000000 05", "F3"),
    ("00 S 0 0000000 05", "F3"), ("00 L 3 00000000 00000000000000G5", "F3"), ("00 A 0 00000000 05", "F1"))
NO_MARKS = ("tltrace 4 8 none UH+", "tltrace 4 8 none C++", "tltrace 4 8 none C +", "tltrace 4 8 none +C", "tltrace 2 8 C+", "tltrace 3 8 1 C+",
    "tltrace 5 24 none C+", "tltrace 4 32 none C+", "tltrace 4 8 C+", "tltrace 4 8 zero none C", "tltrace 4 8 none C zero", "tltrace 4 8 none zero",
    "tltrace 4 8 none zero zero C", "tltrace 4 8 none  zero C", "tltrace 4 8 nonezero C", "tltrace 4 8 none zeroC", "tltrace 4 8 zero C", "tltrace 3 8 1 zero C",
    "tltrace 4 8 none zero commits C", "tltrace 4 8 none commits commits C", "tltrace 4 8 none commits", "tltrace 4 8 commits C", "tltrace 4 8 none commitsC",
    "tltrace 3 8 1 commits C")
# A copy to read whose first byte is 05, and a load from it; no link has all its stores in the trace.
COPY_READ = "tltrace 4 8 none commits C\\n00 A 6 0 6 00 00000000 ff - 0\\n" + 8 * "00 D 5 1 6 00 00 0 0000000000000005 0\\n" + "00 E 00\\n00 L 0 00000000 "

ROWS = [
    *((f"tltool monitor rules/{name}.trace", 0, f"clean {lines}\n", "") for name, lines, _ in COMMITS),
    *((f"tltool coherent rules/{name}.trace", "M" in end or "L" in end, f"{end}\n", "") for name, _, end in COMMITS),
    # memory was zero, and stores and loads of links that aren't C+
    ("sed '1s/.*/tltrace 4 8 none zero C/' rules/M6.trace | tltool coherent", 0, "coherent 5\n", ""),
    ("sed '1s/.*/tltrace 4 8 none C/' rules/M6.trace | tltool coherent", 1, "line 5 F2\n", ""),
    ("sed '1s/none/standard,uncorrupt zero/' rules/M6.trace | tltool coherent", 1, "line 6 M6\n", ""),
    # stores and loads of links of which not all stores are in the trace
    ("sed '1s/.*/tltrace 4 8 none commits C/' rules/M5.trace | tltool coherent", 1, "line 5 M5\n", ""),
    ("sed '1s/.*/tltrace 4 8 none commits C/' rules/M5.trace | tltool monitor", 0, "clean 4\n", ""),
    ("sed '1s/.*/tltrace 4 8 none commits C/' rules/M6.trace | tltool coherent", 0, "coherent 5\n", ""),
    ("sed '1s/.*/tltrace 4 8 none commits zero C+/' rules/M6.trace | tltool coherent", 1, "line 6 M6\n", ""),
    (f"printf '{COPY_READ}06\\n' | tltool coherent", 1, "line 12 M6\n", ""),
    (f"printf '{COPY_READ}05\\n' | tltool coherent", 0, "coherent 11\n", ""),
    ("echo 'tltrace 5 32 none commits UL C' | tltool coherent", 0, "coherent 0\n", ""),
    ("echo 'tltrace 5 32 none zero UL UH C' | tltool coherent", 0, "coherent 0\n", ""),
    ("printf 'tltrace 5 32 none zero UH\\n00 A 4 0 5 0001 0000000000000000 ffffffff - 0\\n00 D 1 0 5 0001 0000 0 %063d1 0\\n' 0 | tltool coherent", 1, "line 3 M3\n", ""),
    ("printf 'tltrace 5 32 none zero UH\\n00 A 4 0 5 0001 0000000000000000 ffffffff - 0\\n00 D 1 0 5 0001 0000 0 %064d 0\\n' 0 | tltool coherent", 0, "coherent 2\n", ""),
    ("printf 'tltrace 5 32 none UH\\n00 A 4 0 5 0001 0000000000000000 ffffffff - 0\\n00 D 1 0 5 0001 0000 0 %063d1 0\\n' 0 | tltool coherent", 0, "coherent 2\n", ""),
    # the mark is of its link alone
    ("sed '1s/C+/C C+/' rules/M6.trace | tltool coherent", 0, "coherent 5\n", ""),
    ("sed '1s/C+/C C+/; s/^00/01/' rules/M6.trace | tltool coherent", 1, "line 6 M6\n", ""),
    ("sed '1s/C+/UL C+/' rules/M5.trace | tltool coherent", 1, "line 2 L1\n", ""),
    # beats of other widths
    ("sed '1s/ 8 / 4 /; s/ ff / f /' rules/M6.trace | tltool coherent", 1, "line 6 M6\n", ""),
    ("sed '1s/ 8 / 16 /; s/ ff / ffff /' rules/M6.trace | tltool coherent", 1, "line 6 M6\n", ""),
    # a copy that is dropped in silence: its bytes are lost too
    ("sed '9s/.*/00 A 6 1 6 01 00000000 ffff - 0/' rules/M7_dropped.trace | tltool coherent", 1, "line 9 H5\n", ""),
    ("sed '9s/.*/00 A 6 1 6 01 00000000 ffff - 0/' rules/M7_dropped.trace | tltool coherent --allow drops", 1, "line 9 M7\n", ""),
    ("sed '1s/none/drops/; 9s/.*/00 A 6 1 6 01 00000000 ffff - 0/' rules/M7_dropped.trace | tltool coherent", 1, "line 9 M7\n", ""),
    # lines of commits
    *((f"sed '6s/.*/{line}/' rules/M6_right.trace | tltool {command}", 1, f"line 6 {fault}\n", "") for command in ("monitor", "coherent") for line, fault in NO_COMMITS),
    ("(cat rules/M6_right.trace; printf '00 L 0') | tltool coherent", 1, "line 7 F1\n", ""),
    ("sed '1s/C+/C/' rules/M6_right.trace | tltool coherent", 1, "line 5 F2\n", ""),
    ("sed '1s/C+/C/' rules/M6_right.trace | tltool monitor", 1, "line 5 F2\n", ""),
    # headers with the mark
    *((f"sed '1s/.*/{header}/' rules/M6_right.trace | tltool {command}", 1, "line 1 F7\n", "") for command in ("monitor", "coherent") for header in NO_MARKS),
    ("printf 'tltrace 4 8 none C+' | tltool coherent", 1, "line 1 F7\n", ""),
    ("echo 'tltrace 4 8 none C+' | tltool coherent", 0, "coherent 0\n", ""),
    ("echo 'tltrace 4 8 none C+' | tltool monitor", 0, "clean 0\n", ""),
    # the situations of the beats, with the lines of the trace
    *((f"tltool cover rules/{name}.trace | sed -n 1p", 0, f"clean {lines}\n", "") for name, lines, _ in COMMITS),
    ("(cat rules/M6.trace; echo 00 C 7 1 6 00 00000000 0000000000000000 0) | tltool cover | grep release-TtoN", 0, "release-TtoN 1, line 7: ..", ""),
    ("sed '5s/ 05$//' rules/M6.trace | tltool cover | sed -n 1p", 0, "line 5 F1\n", ""),
    ("(sed '5s/05/07/' rules/M6.trace; printf '00 L 0') | tltool cover | sed -n 1p", 0, "line 7 F1\n", ""),
    ("echo 'tltrace 4 8 none C+' | tltool cover | sed -n 1p", 0, "clean 0\n", ""),
    # all that are at fault: neither a beat nor a commit at fault leaves anything
    *((f"tltool coherent --all 9 rules/{name}.trace", int("M" in end or "L" in end), f"{end}\n" + "faults 1\n" * ("M" in end or "L" in end), "") for name, _, end in COMMITS),
    *((f"tltool monitor --all 9 <rules/{name}.trace", 0, f"clean {lines}\n", "") for name, lines, _ in COMMITS),
    ("(cat rules/M6.trace; echo 00 L 0 00000000 05; tail -1 rules/M6.trace) | tltool coherent --all 9", 1, "line 6 M6\nline 8 M6\nfaults 2\n", ""),
    ("(cat rules/M5.trace; echo 00 L 0 00000000 07) | tltool coherent --all 9", 1, "line 5 M5\nfaults 1\n", ""),
    ("(cat rules/M7.trace; tail -1 rules/M7_right.trace) | tltool coherent --all 9", 1, "line 6 M7\nfaults 1\n", ""),
    ("sed '5s/ 05$//' rules/M6.trace | tltool coherent --all 9", 1, "line 5 F1\nfaults 1\n", ""),
    ("sed '5s/ 05$//' rules/M6.trace | tltool monitor --all 9", 1, "line 5 F1\nfaults 1\n", ""),
    ("(cat rules/M6.trace; printf '00 L 0') | tltool coherent --all 9", 1, "line 6 M6\nline 7 F1\nfaults 2\n", ""),
    ("tltool coherent --all 1 rules/M6.trace", 1, "line 6 M6\nfaults 1\n", ""),
    ("sed '9s/.*/00 A 6 1 6 01 00000000 ffff - 0/' rules/M7_dropped.trace | tltool coherent --all 9 --allow drops", 1, "line 9 M7\nfaults 1\n", ""),
    *((f"sed '1s/.*/{header}/' rules/M6_right.trace | tltool coherent --all 9", 1, "line 1 F7\nfaults 1\n", "") for header in NO_MARKS),
]
