"""The library from C and C++, and what a beat takes as a struct."""

import os

from harness import TLTOOL, compiled, least_times, measures, path, run, test, want
from simulations import checked, recorded, together


REFUSALS = ["-DREFUSALS", "-Wl,--wrap=malloc", "-Wl,--wrap=realloc"]
SANITIZERS = ["-fsanitize=address,undefined", "-fno-sanitize-recover=all"]


def c_test(name, *flags):
    """A test in C, built and run."""
    built = compiled(name + ("_san" if flags else ""), "gcc", f"tests/{name}.c", "-std=c11", *flags)
    want("0 failures" in run([built]), f"{name}.c")


@test
def the_library_from_c():
    c_test("test_monitor")


@test
def the_library_from_c_under_the_sanitizers():
    c_test("test_monitor", *SANITIZERS)


@test
def a_judge_of_all_links_from_c():
    c_test("test_judge")


@test
def a_judge_of_all_links_from_c_under_the_sanitizers():
    c_test("test_judge", *SANITIZERS)


@test
def wide_beats_from_c():
    c_test("test_wide")
    want("0 failures" in run([compiled("test_wide_refused", "gcc", "tests/test_wide.c", "-std=c11", *REFUSALS)]), "test_wide.c")


@test
def wide_beats_from_c_under_the_sanitizers():
    c_test("test_wide", *SANITIZERS)


@test
def stores_and_loads_from_c():
    c_test("test_commits")
    want("0 failures" in run([compiled("test_commits_refused", "gcc", "tests/test_commits.c", "-std=c11", *REFUSALS)]), "test_commits.c")


@test
def stores_and_loads_from_c_under_the_sanitizers():
    c_test("test_commits", *SANITIZERS)


@test
def stores_and_loads_on_wide_links_from_c():
    c_test("test_wide_commits")
    want("0 failures" in run([compiled("test_wide_commits_refused", "gcc", "tests/test_wide_commits.c", "-std=c11", *REFUSALS)]),
         "test_wide_commits.c")


@test
def stores_and_loads_on_wide_links_from_c_under_the_sanitizers():
    c_test("test_wide_commits", *SANITIZERS)


@test
def memory_that_was_zero_from_c():
    c_test("test_zero")
    want("0 failures" in run([compiled("test_zero_refused", "gcc", "tests/test_zero.c", "-std=c11", *REFUSALS)]), "test_zero.c")


@test
def memory_that_was_zero_from_c_under_the_sanitizers():
    c_test("test_zero", *SANITIZERS)


@test
def a_cover_from_c():
    c_test("test_cover")


@test
def a_cover_from_c_under_the_sanitizers():
    c_test("test_cover", *SANITIZERS)


@test
def a_client_from_c():
    c_test("test_client")


@test
def a_client_from_c_under_the_sanitizers():
    c_test("test_client", *SANITIZERS)


@test
def a_manager_from_c():
    c_test("test_manager")


@test
def a_manager_from_c_under_the_sanitizers():
    c_test("test_manager", *SANITIZERS)


@test
def the_library_from_cpp_under_the_sanitizers():
    want("0 failures" in run([compiled("test_cpp_san", "g++", "tests/test_monitor.cpp", "-std=c++17", *SANITIZERS)]), "test_monitor.cpp")


@test
@measures
def a_struct_takes_at_most_half_as_long_again_as_a_line():
    beats = 4_000_000
    trace = path("speed.trace")
    with open(trace, "w") as text:
        text.write("tltrace 1 C\n")
        text.write("00 A 4 0 3 00 00000000 ff - 0\n00 D 1 0 3 00 00 0 0000000000000000 0\n" * (beats // 2))
    speed = compiled("speed", "g++", "tests/speed.cpp", "-std=c++17", "-O2")
    least = least_times([TLTOOL, "monitor", trace], [speed, str(beats)], lambda least: least[1] <= 1.5 * least[0])
    line, struct = (spent / beats * 1e9 for spent in least)
    os.remove(trace)
    print(f"        a beat as a struct {struct:.0f} ns, as a line {line:.0f} ns")
    want(struct <= 1.5 * line, f"a struct {struct:.0f} ns, a line {line:.0f} ns")


def at_most(times, built, what):
    plus = ["+seed=3", "+cycles=300000"]
    without, beside = least_times([recorded(), *plus], [built, *plus], lambda least: least[1] <= times * least[0])
    print(f"        the bench {without:.2f} s, with {what} {beside:.2f} s")
    want(beside <= times * without, f"{without:.2f} s without, {beside:.2f} s with {what}")


@test
@measures
def checkers_of_links_at_most_double_the_benchs_time():
    at_most(2, checked(), "a checker on each link")


@test
@measures
def a_checker_of_all_links_at_most_triples_the_benchs_time():
    at_most(3, together(), "one of all links")
