"""The example's cache that takes liberties: recorded and judged under them, and its bugs, which none of them hides."""

import os
import subprocess

from harness import TLTOOL, beat_lines, judged, path, run, test, want
from simulations import HOME_BUGS, LIBERAL_BUGS, liberal, liberal_checked, liberal_in_icarus, liberal_late, liberal_proved

# The liberties of the example's links, in the order of a header, and the rule that the trace of a run breaks without each.
NEEDED = {"ids": "L2", "sinks": "L2", "writer": "H6", "early": "H8", "drops": "H5"}
HEADER = f"tltrace 4 8 {','.join(NEEDED)} C C UL"
# Under the proved manager, whose answers have a sink where they grant alone.
PROVED_HEADER = "tltrace 4 8 ids,writer,early,drops C C UL"
SEEDS = range(1, 11)


def judged_under(header, name, command="monitor"):
    """What the command says of a trace with another header."""
    with open(path(name)) as trace:
        trace.readline()
        text = f"{header}\n{trace.read()}"
    return subprocess.run([TLTOOL, command], input=text, stdout=subprocess.PIPE, text=True).stdout.strip()


def clean_in_both_simulators(fast, slow, header):
    """The same beats in Verilator and in Icarus, which the command judges."""
    for seed in (1, 2):
        for name, command in (("fast", fast), ("slow", slow)):
            told = run([*command, f"+seed={seed}", "+cycles=8000", f"+trace={path(name)}"])
            want("agree" in told, f"seed {seed}: {told}")
        want(beat_lines("fast") == beat_lines("slow") and beat_lines("fast")[0] == header, f"seed {seed}: {beat_lines('fast')[0]}")
        for command, right in (("monitor", "clean"), ("coherent", "coherent")):
            verdict = judged(path("slow"), command)
            want(verdict == f"{right} {len(beat_lines('slow')) - 1}", f"seed {seed}: {verdict}")


@test
def a_cache_that_takes_liberties_is_clean_in_both_simulators():
    clean_in_both_simulators([liberal()], liberal_in_icarus(), HEADER)


@test
def a_cache_that_takes_liberties_is_clean_under_the_proved_manager_in_both_simulators():
    clean_in_both_simulators([liberal_proved()], liberal_in_icarus(proved=True), PROVED_HEADER)


@test
def checkers_find_nothing_where_a_cache_with_liberties_is_under_the_proved_manager():
    for client in (False, True):
        for seed in (1, 2, 3):
            told = run([liberal_proved(client), f"+seed={seed}", "+cycles=20000"])
            want("agree" in told and told.count("faults: 0") == 2 and "refused: 0" in told, f"seed {seed}: {told}")


@test
def caches_that_take_liberties_are_coherent_with_late_grant_acks_too():
    for proved, header in ((False, HEADER), (True, PROVED_HEADER)):
        for seed in (1, 2, 3):
            told = run([liberal_late(proved), f"+seed={seed}", "+cycles=20000", f"+trace={path('late')}"])
            want("agree" in told and "faults: 0" in told and told.count("refused: 0") == proved, f"seed {seed}: {told}")
            beats = beat_lines("late")
            want(beats[0] == header.replace("early,", ""), beats[0])
            verdict = judged(path("late"), "coherent")
            want(verdict == f"coherent {len(beats) - 1}", f"seed {seed}: {verdict}")


@test
def a_cache_that_takes_liberties_needs_each_of_them():
    run([liberal(), "+seed=1", "+cycles=20000", f"+trace={path('needed')}"])
    for command, right in (("monitor", "clean"), ("coherent", "coherent")):
        want(judged_under("tltrace 4 8 standard C C UL", "needed", command).startswith(f"{right} "), f"{command}: the standard's liberties")
    want(judged_under("tltrace 2 8 C C UL", "needed").endswith(" H8"), "no liberties")
    for name, rule in NEEDED.items():
        others = ",".join(it for it in NEEDED if it != name)
        told = judged_under(f"tltrace 4 8 {others} C C UL", "needed")
        want(told.endswith(f" {rule}"), f"without {name}: {told}")


@test
def no_liberty_hides_a_bug_that_a_link_shows():
    for bug, (rule, own) in LIBERAL_BUGS.items():
        for seed in SEEDS:
            told = run([liberal(), f"+seed={seed}", "+cycles=20000", f"+bug={bug}", f"+trace={path('bug')}"])
            want(own in told, f"bug {bug}, seed {seed}: the bench says {told}")
            for command, right in (("monitor", "clean"), ("coherent", "coherent")):
                verdict = judged(path("bug"), command)
                want(verdict.endswith(f" {rule}") if rule else verdict.startswith(f"{right} "), f"bug {bug}, seed {seed}: {verdict}")


def checkers_find_each_bug(built):
    """Both checkers name the beat at which the command stops, and none where no link shows the bug."""
    for bug, (rule, _) in LIBERAL_BUGS.items():
        plus = ["+seed=1", "+cycles=20000", f"+bug={bug}", f"+trace={path('bug')}"]
        told = run([built, *plus], status=-6 if rule else 0)
        if rule:
            beat = beat_lines("bug")[int(judged(path("bug")).split()[1]) - 1].split()
            for checker in ("tl_link_checker", "tl_manager_checker"):
                want(f"{checker}: link {int(beat[0], 16)} breaks {rule}: " in told and f" {beat[0]} {beat[1]} " in told, f"bug {bug}: {told}")
        else:
            want(told.count("faults: 0") == 2, f"bug {bug}: {told}")


@test
def the_checkers_take_the_liberties_of_a_link():
    told = run([liberal_checked(), "+seed=7", "+cycles=20000"])
    want("agree" in told and told.count("faults: 0") == 2, told)
    checkers_find_each_bug(liberal_checked())


@test
def the_proved_manager_hides_no_bug_of_a_cache_with_liberties():
    checkers_find_each_bug(liberal_proved())


@test
def a_managers_bugs_are_found_between_links_that_answer_early():
    for bug, rule in HOME_BUGS.items():
        words = ["+seed=1", "+cycles=20000", f"+home_bug={bug}", f"+trace={path('home')}"]
        run([liberal(), *words])
        verdict = judged(path("home"), "coherent")
        want(verdict.endswith(f" {rule}"), f"bug {bug}: {verdict}")
        told = run([liberal_checked(), *words], status=-6)
        want(f" breaks {rule}: {verdict.split()[1]}: " in told, f"bug {bug}: {verdict}, and the checker says {told}")


def ten_million_cycles(command, checkers):
    """A run of which the command judges each beat while it comes, and so many checkers beside it."""
    pipe = path("pipe")
    if os.path.exists(pipe):
        os.remove(pipe)
    os.mkfifo(pipe)
    for seed in (11, 12):
        judge = subprocess.Popen([TLTOOL, "coherent", pipe], stdout=subprocess.PIPE, text=True)
        told = run([*command, f"+seed={seed}", "+cycles=5000000", f"+trace={pipe}"], timeout=7200)
        verdict = judge.communicate(timeout=600)[0].strip()
        right = "agree" in told and told.count("faults: 0") == checkers and told.count("refused: ") == told.count("refused: 0\n")
        want(right and verdict.startswith("coherent "), f"{told}{verdict}")
        print(f"        seed {seed}: {verdict}, {next(line for line in told.splitlines() if 'agree' in line)}")


@test
def ten_million_cycles_with_liberties_long():
    ten_million_cycles([liberal_checked()], checkers=2)


@test
def ten_million_cycles_with_liberties_in_icarus_long():
    ten_million_cycles(liberal_in_icarus(), checkers=0)


@test
def ten_million_cycles_with_liberties_under_the_proved_manager_long():
    ten_million_cycles([liberal_proved()], checkers=2)


@test
def ten_million_cycles_with_liberties_under_the_proved_manager_in_icarus_long():
    ten_million_cycles(liberal_in_icarus(proved=True), checkers=0)
