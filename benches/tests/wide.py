"""The example on wide links: beats of 32 bytes behind addresses of more than 32 bits, its caches behind a port that they share."""

from harness import TLTOOL, beat_lines, judged, path, run, test, want
from simulations import (
    BUGS, COPY_BUGS, HOME_BUGS, recorded_commits, wide, wide_checked, wide_commits, wide_commits_checked,
    wide_commits_in_icarus, wide_in_icarus,
)

RUN = ["+seed=1", "+cycles=20000"]
SIDES = ("wide_sides", "wide_port")  # the traces of the caches' side of the crossbar, and of the manager's
LOST_RELEASE_ACK = "+home_bug=4"


def traces():
    """Where a run writes them."""
    return [f"+trace={path(SIDES[0])}", f"+ports={path(SIDES[1])}"]


def wants_clean(told):
    want("agree" in told, told)
    for side in SIDES:
        for command, right in (("monitor", "clean"), ("coherent", "coherent")):
            verdict = judged(path(side), command)
            want(verdict == f"{right} {len(beat_lines(side)) - 1}", f"{side}: {verdict}")


@test
def wide_links_are_recorded_in_both_simulators():
    told = run([wide(), *RUN, *traces()])
    wants_clean(told)
    want(beat_lines(SIDES[0])[0] == "tltrace 5 32 none C C UL" and beat_lines(SIDES[1])[0] == "tltrace 5 32 ids C C UL", "the headers")
    want(any(" 00000001800" in line for line in beat_lines(SIDES[0])), "no address of more than 32 bits")
    run([wide(), "+seed=2", "+cycles=4000", *traces()])
    fast = [beat_lines(side) for side in SIDES]
    wants_clean(run([*wide_in_icarus(), "+seed=2", "+cycles=4000", *traces()]))
    want([beat_lines(side) for side in SIDES] == fast, "Icarus's traces differ")


@test
def a_bug_breaks_the_same_rule_on_wide_links():
    for bug, (rule, own) in BUGS.items():
        # on the port the third bug's GrantAck belongs to no client, and stops the bench
        told = run([wide(), *RUN, *traces(), f"+bug={bug}"], status=-6 if bug == 3 else 0)
        for side in SIDES:
            verdict, wanted = judged(path(side)), "L1" if bug == 3 and side == SIDES[1] else rule
            want(verdict.endswith(f" {wanted}") if wanted else verdict.startswith("clean"), f"bug {bug}, {side}: {verdict}")
        want(bug == 3 or own in told, f"bug {bug}: {told}")
    for bug, rule in HOME_BUGS.items():
        run([wide(), *RUN, *traces(), f"+home_bug={bug}"])
        for side in SIDES:
            want(judged(path(side), "coherent").endswith(f" {rule}"), f"home_bug {bug}, {side}: {judged(path(side), 'coherent')}")


@test
def checkers_of_wide_links_stop_at_the_same_beat():
    want("agree" in run([wide_checked(), *RUN]), "a checker finds a fault")
    for bug, rule in [*((f"+bug={bug}", rule) for bug, (rule, _) in BUGS.items() if rule and bug != 3),
                      *((f"+home_bug={bug}", rule) for bug, rule in HOME_BUGS.items())]:
        run([wide(), *RUN, *traces(), bug])
        line = judged(path(SIDES[0]), "coherent").split()[1]
        told = run([wide_checked(), *RUN, bug], status=-6)
        for checker, count in (("tl_link_checker", 0 if bug.startswith("+home") else 1), ("tl_manager_checker", 2)):
            found = [it for it in told.splitlines() if f" {checker}: " in it and f" breaks {rule}: " in it]
            want(len(found) == count, f"{bug}: {told}")
        want(told.count(f" breaks {rule}: {line}: ") >= 2, f"{bug}: line {line}: {told}")


@test
def a_lost_release_ack_is_found_on_wide_links():
    told = run([wide("-DTIMEOUT=300"), *RUN, LOST_RELEASE_ACK], status=-6)
    want("after 301 cycles there is a Release without ReleaseAck" in told and "tl_manager_recorder: " in told, told)
    want(" source=" in told and " address=00000001800" in told, told)
    want("hang: " in run([wide(), *RUN, LOST_RELEASE_ACK]), "the bench doesn't hang")


# ---- what the caches' processors store and load

ALL_BUGS = {**BUGS, **COPY_BUGS}


def in_words(line):
    """A line of a wide trace as a checker tells it: a commit as it is, a beat in words."""
    return line if line[3] in "SLI" else run([TLTOOL, "decode", "--wide", "--width", "32"], input=line + "\n").strip()


def recorded(command, *words):
    """What a run tells, and what `coherent` says of its trace. The GrantAck of the third bug stops it, on the port."""
    told = run([*command, *words, f"+trace={path('committed')}"], status=-6 if "+bug=3" in words else 0, timeout=7200)
    return told, judged(path("committed"), "coherent")


@test
def commits_of_wide_links_are_coherent_in_both_simulators():
    for seed in (1, 2, 3):
        told, verdict = recorded([wide_commits()], f"+seed={seed}", "+cycles=4000")
        fast = beat_lines("committed")
        want("agree" in told and verdict == f"coherent {len(fast) - 1}", f"seed {seed}: {verdict}, {told}")
        want(fast[0] == "tltrace 5 32 none C+ C+ UL" and any(" S 3 00000001800" in line for line in fast), f"seed {seed}: {fast[0]}")
        recorded(wide_commits_in_icarus(), f"+seed={seed}", "+cycles=4000")
        want(beat_lines("committed") == fast, f"seed {seed}: Icarus's trace differs")


@test
def a_wide_trace_with_commits_has_the_verdict_of_the_narrow_one():
    """The same run with addresses of 32 bits and of 64."""
    for words in ([], *([f"+bug={bug}"] for bug in ALL_BUGS), *([f"+home_bug={bug}"] for bug in HOME_BUGS)):
        told, narrow = recorded([recorded_commits("-DSHARED")], *RUN, *words)
        lines = beat_lines("committed")
        also, verdict = recorded([wide_commits(8)], *RUN, *words)
        want(verdict == narrow and ("agree" in told) == ("agree" in also), f"{words}: {verdict}, and the narrow trace {narrow}")
        want(len(beat_lines("committed")) == len(lines) and beat_lines("committed") != lines, f"{words}: the traces")


@test
def the_checker_of_commits_of_wide_links_stops_at_the_line_that_coherent_names():
    """Which of M5 to M7 a bug of a copy breaks first, and whether it does something, is another matter in another run."""
    found = 0
    for bug, (rule, *_) in ALL_BUGS.items():
        _, verdict = recorded([wide_commits()], *RUN, f"+bug={bug}")
        told = run([wide_commits_checked(), *RUN, f"+bug={bug}", f"+trace={path('stopped')}"], status=-6 if verdict.startswith("line ") else 0)
        broken = verdict.split()[2] if verdict.startswith("line ") else None
        want(broken in ("M5", "M6", "M7", None) if bug in COPY_BUGS else broken == rule, f"bug {bug}: {verdict}")
        if broken:
            number = int(verdict.split()[1])
            line = beat_lines("committed")[number - 1]
            want(f"tl_commit_checker: link {int(line[:2], 16)} breaks {broken}: {number}: {in_words(line)}\n" in told, f"bug {bug}: {verdict}, {told}")
            want(judged(path("stopped"), "coherent") == verdict, f"bug {bug}: {judged(path('stopped'), 'coherent')}")
            found += bug in COPY_BUGS
        else:
            want("faults: 0" in told, f"bug {bug}: {told}")
    want(found >= 6, f"{found} bugs of copies are found")


@test
def commits_of_wide_links_raise_no_false_alarm():
    for seed in range(31, 36):
        told, verdict = recorded([wide_commits_checked()], f"+seed={seed}", "+cycles=60000")
        want("agree" in told and "faults: 0" in told, f"seed {seed}: {told}")
        want(verdict == f"coherent {len(beat_lines('committed')) - 1}", f"seed {seed}: {verdict}")


@test
def wide_links_are_clean_in_a_long_run():
    for seed in (21, 22):
        wants_clean(run([wide(), f"+seed={seed}", "+cycles=5000000", *traces()], timeout=3600))
        want("agree" in run([wide_checked(), f"+seed={seed}", "+cycles=5000000"], timeout=3600), "a checker finds a fault")
    wants_clean(run([*wide_in_icarus(), "+seed=21", "+cycles=5000000", *traces()], timeout=7200))
