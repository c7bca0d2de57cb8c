"""What `cover` says of traces: their situations, and the tables of their links."""
from rows.shell import F1

# A table of a link.
PERMISSIONS = """permissions on link 0       None  Branch   Trunk
grant-toT                      1       0       -
grant-toB                      0       -       -
report-toT                     0       0       0
report-toB                     0       0       1
report-toN                     0       0       0
release-toB                    -       -       0
release-toN                    -       0       0

"""

ROWS = [
    # the situations of a trace
    ("tltool cover two_caches.trace | sed -n 1,9p | tail -3 | cut -d: -f1", 0, "report-TtoB 1, line 14\nresponse-at-once 2, line 3\n7 of 79 situations seen\n", ""),
    ("tltool cover <two_caches.trace | wc -l", 0, "81\n", ""),
    ("tltool cover wrong_report.trace", 1, "line 13 H12\n..", ""),
    ("tltool cover --json wrong_report.trace", 1, "{\"verdict\": \"line 13 H12\", \"seen\": ..", ""),
    ("tltool cover </dev/null", 1, "line 1 F7\n0 of 79 situations seen\n", ""),
    ("tltool cover --json </dev/null", 1, "{\"verdict\": \"line 1 F7\", \"seen\": 0, \"of\": 79, \"situations\": [], \"bins\": [{\"name\": \"A-PutFullData-1\", \"counts\": []},\n..", ""),
    ("tltool cover --json two_caches.trace wrong_report.trace | grep AcquireBlock-NtoB", 0, "  {\"name\": \"A-AcquireBlock-NtoB-64\", \"counts\": [1, 1]},\n", ""),
    ("tltool cover --tables two_caches.trace | sed -n 1,81p | cmp - <(tltool cover two_caches.trace)", 0, "", ""),
    ("tltool cover --tables two_caches.trace | grep -A 8 'permissions on link 0'", 0, PERMISSIONS, ""),
    ("tltool cover --tables two_caches.trace two_caches.trace | grep -c 'report-toB  *0  *0  *2$'", 0, "1\n", ""),
    ("tltool cover --tables two_caches.trace wrong_report.trace | grep A-AcquireBlock-NtoB | tr -s ' '", 0, "A-AcquireBlock-NtoB - - - - - - 1\nA-AcquireBlock-NtoB - - - - - - 1\n", ""),
    ("tltool cover --tables wrong_report.trace", 1, "line 13 H12\n..", ""),
    ("tltool cover --tables wrong_report.trace | grep -c ' on link '", 0, "5\n", ""),
    ("tltool cover --tables two_caches.trace | grep -c '^pending-[a-z]*  *[01]  *0  *0  *0  *0  *0$'", 0, "14\n", ""),
    ("printf 'tltrace 1 UH\\n' | tltool cover --tables | grep ^pending | tr -s ' '", 0, "pending on link 0 1 2 3-4 5-8 9-16 17-up\npending-get 0 0 0 0 0 0\npending-put 0 0 0 0 0 0\npending-atomic 0 0 0 0 0 0\n", ""),
    ("tltool cover --tables </dev/null", 1, "line 1 F7\n0 of 79 situations seen\n", ""),
    ("printf 'tltrace 2 8 UL\\n' | tltool cover --tables | grep -c -e ' on link ' -e '^A-'", 0, "6\n", ""),
    ("printf 'tltrace 2 8 UL\\n' | tltool cover --tables | grep ^access-8-at", 0, "access-8-at                    -       -       -       0       0       0       0\n", ""),
    ("tltool cover --tables wide/two_caches.trace | grep -A 4 'permissions on link 0' | tail -2 | tr -s ' '", 0, "report-toT 0 0 0\nreport-toB 0 0 1\n", ""),
    ("tltool cover --tables two_caches.trace >/dev/full", 3, "", "tltool: write failed\n"),
    ("tltool cover --tables nope.trace", 3, "", "tltool: cannot open nope.trace\n"),
    ("tltool cover nope.trace", 3, "", "tltool: cannot open nope.trace\n"),
    # the situations of several traces
    ("tltool cover two_caches.trace wrong_report.trace | sed -n 1,2p", 0, "two_caches.trace: clean 29\nwrong_report.trace: line 13 H12\n", ""),
    ("tltool cover wrong_report.trace two_caches.trace", 1, "wrong_report.trace: line 13 H12\ntwo_caches.trace: clean 29\n..", ""),
    ("tltool cover two_caches.trace two_caches.trace | grep ^report-TtoB", 0, "report-TtoB 2, two_caches.trace:14: a ProbeAck with this report\n", ""),
    ("tltool cover wrong_report.trace two_caches.trace | grep ^report-TtoB", 0, "report-TtoB 1, two_caches.trace:14: a ProbeAck with this report\n", ""),
    ("tltool cover /dev/null two_caches.trace | sed -n '1,2p;/report-TtoB/p'", 0, "/dev/null: line 1 F7\ntwo_caches.trace: clean 29\nreport-TtoB 1, two_caches.trace:14: a ProbeAck with this report\n", ""),
    ("tltool cover --json wrong_report.trace two_caches.trace", 1, "{\"verdicts\": [\"line 13 H12\", \"clean 29\"], \"seen\": ..", ""),
    ("tltool cover --json wrong_report.trace two_caches.trace | grep -o '\"report-TtoB.*line\": [0-9]*'", 0, "\"report-TtoB\", \"count\": 1, \"trace\": 1, \"line\": 14\n", ""),
    ("tltool cover --json two_caches.trace two_caches.trace | grep -o '\"report-TtoN.*line\": [a-z]*'", 0, "\"report-TtoN\", \"count\": 0, \"trace\": null, \"line\": null\n", ""),
    # wide beats and commits: the lines are those of the trace
    ("tltool cover wide/store_lost.trace | sed -n 1p", 0, "clean 6\n", ""),
    ("tltool cover <wide/store_lost.trace | grep release-TtoN", 0, "release-TtoN 1, line 7: ..", ""),
    ("sed '5s/ 05$//' wide/store_lost.trace | tltool cover | sed -n 1p", 0, "line 5 F1\n", ""),
    ("sed '1s/C+/UH+/' wide/store_lost.trace | tltool cover | sed -n 1p", 0, "line 1 F7\n", ""),
    # wide beats: the lines are theirs, the counts those of their parts
    ("tltool cover wide/two_caches.trace | sed -n 1,4p | cut -d: -f1", 0, "clean 11\nacquire-NtoB 1, line 6\nacquire-NtoT 1, line 2\ngrant-NtoB 1, line 10\n", ""),
    ("tltool cover wide/wrong_report.trace", 1, "line 6 H12\n..", ""),
    ("tltool cover two_caches.trace wide/two_caches.trace | grep ^report-TtoB", 0, "report-TtoB 2, two_caches.trace:14: a ProbeAck with this report\n", ""),
    ("tltool cover wide/two_caches.trace two_caches.trace | grep ^report-TtoB", 0, "report-TtoB 2, wide/two_caches.trace:8: a ProbeAck with this report\n", ""),
    ("sed '1s/32/24/' wide/two_caches.trace | tltool cover", 1, "line 1 F7\n0 of 79 situations seen\n", ""),
    ("head -c -1 wide/two_caches.trace | tltool cover", 1, f"{F1.format(12)}..", ""),
    ("tltool cover two_caches.trace nope.trace wrong_report.trace", 3, "", "tltool: cannot open nope.trace\n"),
    ("tltool cover two_caches.trace rules", 3, "", "tltool: read failed\n"),
    ("tltool cover rules", 3, "", "tltool: read failed\n"),
    ("tltool cover two_caches.trace >/dev/full", 3, "", "tltool: write failed\n"),
]
