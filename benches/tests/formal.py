"""The rules of a link for formal tools: their agreement with the monitor, the bugs of the example found by bounded search,
and the example proved."""

import os
import re
import sys

from harness import HERE, TLTOOL, path, run, test, want
from liberal import NEEDED
from shown import save, walk_page
from simulations import HOME_BUGS, liberal

FORMAL = os.path.join(HERE, "formal")
PATIENCE = 1800  # seconds of wall time, on a machine that does much else

# Each bug of the example's cache that a link shows, and the rule that it breaks. One needs beats of 8 bytes.
CACHE_BUGS = {1: "H11", 3: "H8", 4: "S1", 5: "H12", 6: "H5", 7: "H13", 8: "H10", 9: "H5"}
WIDE = {4: "tl_cache.toml"}

# Those of the cache that takes liberties. A search finds the sixth also where a copy to read is upgraded.
LIBERAL_CACHE_BUGS = {2: ["H8"], 3: ["H8"], 4: ["H10"], 5: ["H12"], 6: ["H12", "H13"]}


def formal(map_file, *words, status=0):
    return run([os.path.join(FORMAL, "tl-formal"), os.path.join(FORMAL, map_file), "--tool", TLTOOL, *words], status=status, timeout=PATIENCE)


def want_proved(count, map_file, *words):
    """So many rules have to be proved of the design of a map file."""
    told = formal(map_file, *words)
    want(len(re.findall(r"^\w+ +proved ", told, re.M)) == count, told)


def fault(told):
    """The rule that fails by the table, and the one that the command names on the trace of the design's own source."""
    failing = re.search(r"^(\w+) +fails at edge", told, re.M)
    judged = re.search(r"\.trace: line \d+ (\w+)$", told, re.M)
    return failing and failing[1], judged and judged[1]


@test
def the_rules_for_formal_tools_agree_with_the_monitor():
    told = run(["python3", os.path.join(FORMAL, "agreement/agree.py"), "--tool", TLTOOL], timeout=PATIENCE)
    want("51 of 51 wrong modules told apart" in told, told)


@test
def bounded_search_finds_the_bugs_of_the_cache():
    for bug, rule in CACHE_BUGS.items():
        told = formal(WIDE.get(bug, "tl_cache_small.toml"), "--set", f"bug={bug}", "--search", "300", "--block-bits", "2", status=1)
        want(fault(told) == (rule, rule), f"bug {bug}: {told}")


@test
def bounded_search_finds_the_bugs_of_the_manager_between_its_links():
    for bug, rule in HOME_BUGS.items():
        if rule in ("M1", "M4"):
            told = formal("tl_home_wide.toml", "--set", f"bug={bug}", "--search", "400", "--block-bits", "1", status=1)
            want(fault(told) == (rule, rule), f"bug {bug}: {told}")


@test
def bounded_search_finds_a_byte_that_the_third_bug_of_the_manager_drops():
    # of one link: data are given back, and a Get brings what was before
    told = formal("tl_home_one.toml", "--set", "bug=3", "--search", "400", "--block-bits", "1", "--memory", "--byte", "5", status=1)
    want(fault(told) == ("M3", "M3"), told)


@test
def bounded_search_finds_the_bugs_of_the_cache_that_takes_liberties():
    for bug, rules in LIBERAL_CACHE_BUGS.items():
        told = formal("tl_liberal_cache.toml", "--set", f"bug={bug}", "--search", "120", "--block-bits", "2", status=1)
        failing, judged = fault(told)
        want(failing == judged and failing in rules, f"bug {bug}: {told}")


@test
def the_cache_that_takes_liberties_is_proved():
    want_proved(16, "tl_liberal_cache.toml", "--search", "0", "--prove", "600", "--block-bits", "2")


@test
def the_modules_judge_the_cache_that_takes_liberties_as_the_reference_does():
    sys.path.insert(0, os.path.join(FORMAL, "agreement"))
    import agree
    trace = path("liberties.trace")
    run([liberal(), "+seed=1", "+cycles=1000", f"+trace={trace}"])
    for missing in (None, *NEEDED):
        case = agree.recorded(trace, set(NEEDED) - {missing})
        line, rule = agree.referred(case)
        found = agree.first_faults(agree.grouped([case]), agree.MODULES, 1).get(0, (line, None))
        want(found == (line, rule) and rule == NEEDED.get(missing),
             f"without {missing}: the modules {found}, reference.py {(line, rule)}")


@test
def the_device_is_proved():
    want_proved(16, "tl_device.toml", "--search", "5", "--prove", "400")


@test
def the_page_searches_and_proves_the_cache_and_finds_the_store_that_it_loses():
    walk_page("FORMAL.md", save("FORMAL.md", "formal_page"))


@test
def the_manager_with_one_link_is_proved():
    want_proved(13, "tl_home_one.toml", "--search", "0", "--prove", "1200", "--block-bits", "1")


@test
def a_design_that_yosys_cannot_read_has_status_2():
    told = formal("unreadable.toml", status=2)
    want("ERROR" in told and "docs/FORMAL.md" in told, told)
