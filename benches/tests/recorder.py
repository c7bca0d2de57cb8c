"""The recorders: what Verilator and Icarus write, and what the command says of it."""

import os
import subprocess

from harness import SV, TLTOOL, beat_lines, icarus, judged, path, run, test, verilator, want
from simulations import BUGS, EXAMPLE, HOME_BUGS, recorded


def traces_agree(width):
    flags = [f"-DWIDTH={width}"]
    fast = verilator(f"recorded{width}", "bench_recorded", SV + EXAMPLE, *flags)
    slow = icarus(f"recorded{width}.vvp", "bench_recorded", SV + EXAMPLE, *flags)
    for seed in (1, 2, 3):
        plus = [f"+seed={seed}", "+cycles=4000"]
        told = run([fast, *plus, f"+traces={path('fast')}"])
        want("agree" in told, told)
        want("agree" in run(["vvp", "-n", slow, *plus, f"+traces={path('slow')}"]), "Icarus's run differs")
        for link in range(3):
            want(beat_lines(f"fast{link}") == beat_lines(f"slow{link}"), f"width {width}, seed {seed}, link {link}")
            want(judged(path(f"fast{link}")).startswith("clean"), judged(path(f"fast{link}")))


@test
def verilator_and_icarus_record_the_same_at_width_4():
    traces_agree(4)


@test
def verilator_and_icarus_record_the_same_at_width_8():
    traces_agree(8)


@test
def verilator_and_icarus_record_the_same_at_width_16():
    traces_agree(16)


@test
def one_trace_of_all_links_is_clean_and_coherent():
    told = run([recorded(), "+seed=7", "+cycles=20000", f"+trace={path('all')}"])
    want("agree" in told, told)
    for command, right in (("monitor", "clean"), ("coherent", "coherent")):
        verdict = judged(path("all"), command)
        want(verdict == f"{right} {len(beat_lines('all')) - 1}", verdict)


@test
def a_managers_bugs_are_found_between_the_links():
    for bug, rule in HOME_BUGS.items():
        run([recorded(), "+seed=1", "+cycles=20000", f"+home_bug={bug}", f"+trace={path('home')}"])
        verdict = judged(path("home"), "coherent")
        want(verdict.endswith(f" {rule}"), f"bug {bug}: {verdict}")
        line = int(verdict.split()[1])
        before = subprocess.run([TLTOOL, "monitor"], input="\n".join(beat_lines("home")[:line]) + "\n",
                                stdout=subprocess.PIPE, text=True)
        want(before.stdout == f"clean {line - 1}\n", f"bug {bug}: {before.stdout}")


def through_a_pipe(bug):
    pipe = path("pipe")
    if os.path.exists(pipe):
        os.remove(pipe)
    os.mkfifo(pipe)
    monitor = subprocess.Popen([TLTOOL, "monitor", pipe], stdout=subprocess.PIPE, text=True)
    # where the monitor stops at a fault, the simulation is ended by its broken pipe
    subprocess.run([recorded(), "+seed=1", "+cycles=20000", f"+bug={bug}", f"+trace={pipe}"],
                   stdout=subprocess.PIPE, timeout=600)
    return monitor.communicate(timeout=60)[0].strip()


@test
def a_named_pipe_is_judged_while_the_bench_runs():
    run([recorded(), "+seed=1", "+cycles=20000", f"+trace={path('whole')}"])
    want(through_a_pipe(0) == judged(path("whole")), "the pipe's verdict isn't the file's")


@test
def a_fault_comes_through_a_named_pipe():
    verdict = through_a_pipe(4)
    want(verdict.endswith("S1"), verdict)


@test
def each_bug_breaks_the_rule_of_the_table():
    for bug, (rule, own) in BUGS.items():
        told = run([recorded(), "+seed=1", "+cycles=20000", f"+bug={bug}", f"+trace={path('bug')}"])
        verdict = judged(path("bug"))
        want(own in told, f"bug {bug}: the bench says {told}")
        want(verdict.endswith(rule) if rule else verdict.startswith("clean"), f"bug {bug}: {verdict}")


@test
def a_cache_waits_with_its_acquire_until_its_answer_to_a_probe_is_taken():
    top = "test_early_acquire"
    sources = SV + ["example/tl_cache.sv", f"tests/{top}.sv"]
    for command in ([verilator(top, top, sources)], ["vvp", "-n", icarus(top + ".vvp", top, sources)]):
        for bug, verdict in ((0, "clean 29"), (9, "line 13 H5")):
            run(command + [f"+bug={bug}", f"+trace={path('early')}"])
            want(judged(path('early')) == verdict, f"bug {bug}: {judged(path('early'))}")
