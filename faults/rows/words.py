"""What the commands and their options take, and what they refuse."""

# What the options of `chart` and `random` take.
LINES_LOOKED_FOR = "a number from 1 to 18446744073709551615, without leading zeros"
LINES = "the numbers of the first line and of the last, without leading zeros, as 2-80"
BLOCK = "the number of a block in three digits or in seven, of 0 to 9 and a to f, as 00f"
LIBERTIES = "none, standard, or names of ids, sinks, writer, early, drops, reports, denied and uncorrupt, in this order, with a comma between them"
NUMBER = "a number from 0 to 18446744073709551615"
LIST = "1 to 16 clients with commas between them, each UL, UH or C with its number of sources from 1 to 8, as C:2,C:2,UH:1"

ROWS = [
    # words
    ("tltool", 2, "", "error: .."),
    ("tltool moniter two_caches.trace", 2, "", "error: unrecognized subcommand 'moniter'.."),
    ("tltool Monitor two_caches.trace", 2, "", "error: unrecognized subcommand 'Monitor'.."),
    ("tltool two_caches.trace", 2, "", "error: unrecognized subcommand 'two_caches.trace'.."),
    ("tltool version", 2, "", "error: unrecognized subcommand 'version'.."),
    ("tltool --version", 0, "tltool 1.0.0\nproved with ..", ""),
    ("tltool -V", 0, "tltool ..", ""),
    ("tltool --help", 0, "..", ""),
    ("tltool -h", 0, "..", ""),
    ("tltool help", 0, "..", ""),
    ("tltool help monitor", 0, "..", ""),
    ("tltool help nothing", 2, "", "error: ..",),
    ("tltool decode --help", 0, "..", ""),
    ("tltool monitor -h", 0, "..", ""),
    ("tltool coherent --help", 0, "..", ""),
    ("tltool coherent a b", 2, "", "error: unexpected argument 'b' found.."),
    ("tltool coherent --width 4 two_caches.trace", 2, "", "error: unexpected argument '--width' found.."),
    ("tltool explain --help", 0, "..", ""),
    ("tltool chart --help", 0, "..", ""),
    ("tltool run --help", 0, "..", ""),
    ("tltool explain", 2, "", "error: .."),
    ("tltool monitor two_caches.trace wrong_report.trace", 2, "", "error: unexpected argument 'wrong_report.trace' found.."),
    ("tltool decode a b", 2, "", "error: unexpected argument 'b' found.."),
    ("tltool decode --width 32 beats.txt", 2, "", "error: invalid value '32' for '--width <BYTES>': a beat carries 4, 8 or 16 bytes\n.."),
    ("tltool decode --width 0x8 beats.txt", 2, "", "error: invalid value '0x8' for '--width <BYTES>': a beat carries 4, 8 or 16 bytes\n.."),
    ("tltool decode --width", 2, "", "error: .."),
    *(
        (f"tltool decode --wide --width {it} beats.txt", 2, "", f"error: invalid value '{it}' for '--width <BYTES>': a wide beat carries 4, 8, 16, 32 or 64 bytes\n..")
        for it in ("2", "24", "128", "032", "0x8", "wide")
    ),
    ("tltool decode --wide --width", 2, "", "error: .."),
    ("tltool decode --wide --wide beats.txt", 2, "", "error: .."),
    ("tltool decode --wide=yes beats.txt", 2, "", "error: .."),
    ("tltool monitor --wide two_caches.trace", 2, "", "error: unexpected argument '--wide' found.."),
    # words of a search
    *(
        (f"tltool {command} --all {word} two_caches.trace", 2, "", f"error: invalid value '{word}' for '--all <N>': {LINES_LOOKED_FOR}\n..")
        for command in ("monitor", "coherent")
        for word in ("0", "01", "+1", "one", "1.5", "18446744073709551616")
    ),
    ("tltool monitor --all", 2, "", "error: .."),
    # words of liberties
    *(
        (f"tltool monitor --allow {word} two_caches.trace", 2, "", f"error: invalid value '{word}' for '--allow <LIBERTIES>': {LIBERTIES}\n..")
        for word in ("all", "Early", "early,", ",early", "drops,early", "early,early", "none,early", "standard,early", "early,late")
    ),
    ("tltool monitor --allow '' two_caches.trace", 2, "", f"error: invalid value '' for '--allow <LIBERTIES>': {LIBERTIES}\n.."),
    ("tltool monitor --allow 'early drops' --all 3 two_caches.trace", 2, "", f"error: invalid value 'early drops' for '--allow <LIBERTIES>': {LIBERTIES}\n.."),
    ("tltool monitor --allow late --report r.json two_caches.trace; ls r.json", 2, "", f"error: invalid value 'late' for '--allow <LIBERTIES>': {LIBERTIES}\n.."),
    ("tltool monitor --allow", 2, "", "error: .."),
    ("tltool monitor --allow early --allow drops two_caches.trace", 2, "", "error: .."),
    *((f"tltool {it} --allow early two_caches.trace", 2, "", "error: unexpected argument '--allow' found..") for it in ("decode", "run")),
    *((f"tltool explain --allow {it} two_caches.trace", 2, "", f"error: invalid value '{it}' for '--allow <LIBERTIES>': {LIBERTIES}\n..") for it in ("all", "drops,early")),
    *((f"tltool explain --coherent --allow {it} two_caches.trace", 2, "", f"error: invalid value '{it}' for '--allow <LIBERTIES>': {LIBERTIES}\n..") for it in ("all", "drops,early")),
    ("tltool explain --allow early H12", 0, "H12 (ProbeAck, ProbeAckData): ..", ""),
    *(
        (f"tltool coherent {options} --allow {word} two_caches.trace", 2, "", f"error: invalid value '{word}' for '--allow <LIBERTIES>': {LIBERTIES}\n..")
        for word in ("late", "drops,ids", "all") for options in ("", "--all 3", "--report r.json")
    ),
    ("tltool monitor --all 1 --all 2", 2, "", "error: .."),
    ("tltool explain --all 2 two_caches.trace", 2, "", "error: unexpected argument '--all' found.."),
    # words of a chart
    *(
        (f"tltool chart --lines {word} two_caches.trace", 2, "", f"error: invalid value '{word}' for '--lines <A-B>': {LINES}\n..")
        for word in ("5", "5-", "5-4", "0-4", "05-9", "1-2-3", "1-99999999999999999999", "a-b")
    ),
    *(
        (f"tltool chart --block {word} two_caches.trace", 2, "", f"error: invalid value '{word}' for '--block <BBB>': {BLOCK}\n..")
        for word in ("0", "00", "0000", "00F", "00g", "00000000")
    ),
    *(
        (f"tltool chart --allow {word} two_caches.trace", 2, "", f"error: invalid value '{word}' for '--allow <LIBERTIES>': {LIBERTIES}\n..")
        for word in ("all", "Early", "early,", "drops,early", "none,early", "early,late")
    ),
    ("tltool chart --allow '' two_caches.trace", 2, "", f"error: invalid value '' for '--allow <LIBERTIES>': {LIBERTIES}\n.."),
    ("tltool chart --allow", 2, "", "error: .."),
    ("tltool chart --allow early --allow drops two_caches.trace", 2, "", "error: .."),
    ("tltool chart --block", 2, "", "error: .."),
    ("tltool chart a b", 2, "", "error: unexpected argument 'b' found.."),
    # words of the situations
    ("tltool cover --help", 0, "..", ""),
    ("tltool cover --json a --json", 2, "", "error: .."),
    ("tltool cover --json=x", 2, "", "error: .."),
    ("tltool cover --tables --tables two_caches.trace", 2, "", "error: .."),
    ("tltool cover --tables=x two_caches.trace", 2, "", "error: .."),
    ("tltool cover --tables --json two_caches.trace", 2, "", "error: the argument '--tables' cannot be used with '--json', which has the tables too\n.."),
    ("tltool cover --json two_caches.trace --tables", 2, "", "error: the argument '--tables' cannot be used with '--json', which has the tables too\n.."),
    ("tltool cover --all 2 two_caches.trace", 2, "", "error: unexpected argument '--all' found.."),
    # words of a random schedule
    ("tltool random", 2, "", "error: the following required arguments were not provided:\n  --seed <N>.."),
    ("tltool random 1", 2, "", "error: unexpected argument '1' found.."),
    ("tltool random --seed", 2, "", "error: .."),
    ("tltool random --seed 1 --seed 2", 2, "", "error: .."),
    *((f"tltool random --seed {it}", 2, "", f"error: invalid value '{it}' for '--seed <N>': {NUMBER}, without leading zeros\n..") for it in (
        "one", "0x1", "01", "+1", "1.5", "18446744073709551616",
    )),
    *((f"tltool random --seed 1 {it}", 2, "", f"error: invalid value '{it.split()[1]}' for '{it.split()[0]} {wanted}\n..") for it, wanted in (
        ("--events 1e3", f"<N>': {NUMBER}, without leading zeros"),
        ("--blocks 0", "<N>': a number from 1 to 1024"),
        ("--blocks 1025", "<N>': a number from 1 to 1024"),
        ("--trackers 9", "<N>': a number from 1 to 8"),
        ("--contend 3", "<N>': a number from 1 to the number of blocks"),
        ("--contend 0", "<N>': a number from 1 to the number of blocks"),
        ("--width 32", "<BYTES>': a beat carries 4, 8 or 16 bytes"),
        ("--profile 3", "<P>': 1 or 2"),
        *((f"--clients {it}", f"<LIST>': {LIST}") for it in ("C", "C:0", "C:9", "c:2", "C:2,", ",C:2", "C:2/C:2", "C:02", "TL-C:2", ",".join(17 * ["C:1"]))),
    )),
    ("tltool random --seed 1 --clients ''", 2, "", f"error: invalid value '' for '--clients <LIST>': {LIST}\n.."),
    ("tltool random --seed 1 --clients 'C:2 C:2'", 2, "", f"error: invalid value 'C:2 C:2' for '--clients <LIST>': {LIST}\n.."),
    ("tltool random --help", 0, "..", ""),
    ("tltool random --seed 1 --events 0", 0, "tlsched 1 2 2 C:2 C:2 C:2 UH:1\ndrain\n", ""),
    ("tltool random --events 0 --blocks 1024 --seed=18446744073709551615", 0, "tlsched 1 1024 2 C:2 C:2 C:2 UH:1\ndrain\n", ""),
    ("tltool random --seed 1 --events 0 --width 16 --clients UL:1,UH:8 --blocks 1 --trackers 8", 0, "tlsched 2 16 1 8 UL:1 UH:8\ndrain\n", ""),
    ("tltool random --seed 1 --events 0 --profile 2", 0, "tlsched 3 8 2 2 2 C:2 C:2 C:2 UH:1\ndrain\n", ""),
    ("tltool random --seed 1 | wc -l", 0, "1002\n", ""),
    ("cmp <(tltool random --seed 7) <(tltool random --seed 7)", 0, "", ""),
    ("cmp -s <(tltool random --seed 7) <(tltool random --seed 8)", 1, "", ""),
    ("tltool random --seed 1 | tltool run --trace | tltool monitor", 0, "clean ..", ""),
    ("tltool random --seed 1 >/dev/full", 3, "", "tltool: write failed\n"),
    # words that fit
    ("echo '00 A 4 0 2 00 00000040 f - 0' | tltool decode --width 4", 0, "00 A Get 0 size=2 source=00 address=00000040 mask=f data=- corrupt=0\n", ""),
    ("echo '00 A 4 0 2 00 00000040 000f - 0' | tltool decode --width=16", 0, "00 A Get 0 size=2 source=00 address=00000040 mask=000f data=- corrupt=0\n", ""),
    ("tltool decode <beats.txt | cmp - <(tltool decode beats.txt)", 0, "", ""),
    ("tltool monitor two_caches.trace", 0, "clean 29\n", ""),
]
