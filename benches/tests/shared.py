"""Two caches behind one port: what is recorded and judged on both sides of the crossbar that merges them."""

from harness import SV, beat_lines, icarus, judged, path, run, test, want
from simulations import BUGS, EXAMPLE, HOME_BUGS, shared, shared_checked, with_library

SEED, CYCLES = "+seed=1", "+cycles=20000"
RUN = [SEED, CYCLES]
SECOND = 4  # the first source of the second cache on the port


def of_a_client(line):
    """The line of the client's side for one of the port: sources there are from 0 on."""
    fields = line.split()
    if fields[0] == "01" and fields[1] != "E":
        fields[5] = f"{int(fields[5], 16) - SECOND:02x}"
    return " ".join(fields)


def both_sides(command, *words, status=0):
    """What a run tells, with the lines of both traces behind their headers."""
    told = run([*command, SEED, *words, CYCLES, f"+trace={path('sides')}", f"+ports={path('shared_port')}"], status=status)
    return told, beat_lines("sides")[1:], beat_lines("shared_port")[1:]


@test
def a_shared_port_carries_the_beats_of_its_clients():
    built = icarus("shared.vvp", "bench_recorded", SV + EXAMPLE, "-DSHARED")
    for command, words in (([shared()], []), (["vvp", "-n", built], ["+cycles=4000"])):
        told, sides, port = both_sides(command, *words)
        want("agree" in told and len(port) > 2000, told)
        want([of_a_client(line) for line in port] == sides, "the port's beats aren't those of its clients")
        want({line[:2] for line in port} == {"00", "01", "02"}, "a client has no beats")
        want(any(line[:4] == "01 B" for line in port) and any(line[:4] == "00 B" for line in port), "a client isn't probed")
        for judging, right in (("monitor", "clean"), ("coherent", "coherent")):
            for trace in ("sides", "shared_port"):
                want(judged(path(trace), judging) == f"{right} {len(port)}", f"{trace}: {judged(path(trace), judging)}")


@test
def a_bug_breaks_the_same_rule_on_both_sides_of_a_shared_port():
    for bug, (rule, _) in BUGS.items():
        # the sink of the third bug was granted to nobody on the port: its GrantAck belongs to no client, and stops the bench
        stops = bug == 3
        told, _, _ = both_sides([shared()], f"+bug={bug}", status=-6 if stops else 0)
        sides, port = judged(path("sides")), judged(path("shared_port"))
        want(sides.split()[-1] == rule if rule else sides.startswith("clean"), f"bug {bug}: {sides}")
        want(port == (sides.replace("H8", "L1") if stops else sides), f"bug {bug}: {sides}, and on the port {port}")
        want(("a beat of no client" in told) == stops, f"bug {bug}: {told}")


@test
def a_managers_bugs_are_found_on_both_sides_of_a_shared_port():
    for bug, rule in HOME_BUGS.items():
        both_sides([shared()], f"+home_bug={bug}")
        sides = judged(path("sides"), "coherent")
        want(sides.endswith(f" {rule}") and judged(path("shared_port"), "coherent") == sides, f"bug {bug}: {sides}")


@test
def checkers_stop_at_the_same_beat_on_both_sides_of_a_shared_port():
    want("agree" in run([shared_checked(), *RUN]), "a checker finds a fault")
    for bug, rule in [*((f"+bug={bug}", rule) for bug, (rule, _) in BUGS.items() if rule and bug != 3),
                      *((f"+home_bug={bug}", rule) for bug, rule in HOME_BUGS.items())]:
        told = run([shared_checked(), *RUN, bug], status=-6)
        lines = [line.split(": ", 1)[1] for line in told.splitlines() if f" breaks {rule}: " in line]
        want(len(lines) == 2 and len({line.split(": ")[2] for line in lines}) == 1, f"{bug}: {told}")


@test
def a_checker_may_be_bound_into_a_design():
    bound = with_library("bound", ["example/bind_checker.sv"], ["sv/tl_checker_dpi.cpp"], "-DSHARED")
    want("agree" in run([bound, *RUN]), "the checker finds a fault")
    want("bound: link 0 breaks H12: " in run([bound, *RUN, "+bug=5"], status=-6), "the checker finds no fault")
