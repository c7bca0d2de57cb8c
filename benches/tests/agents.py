"""A cache and a device under the proved manager, and long runs."""

from harness import SV, beat_lines, judged, over_library, path, run, test, verilator, want
from simulations import BUGS, checked, proved


def proved_manager_agrees(width):
    for seed in (1, 2, 3):
        told = run([proved(width), f"+seed={seed}", "+cycles=20000"])
        want("agree" in told and "faults: 0" in told and "refused: 0" in told, told)


@test
def a_cache_and_a_device_under_the_proved_manager_at_width_4():
    proved_manager_agrees(4)


@test
def a_cache_and_a_device_under_the_proved_manager_at_width_8():
    proved_manager_agrees(8)


@test
def a_cache_and_a_device_under_the_proved_manager_at_width_16():
    proved_manager_agrees(16)


@test
def all_links_together_are_coherent_under_the_proved_manager():
    told = run([proved(checkers="TOGETHER"), "+seed=1", "+cycles=20000"])
    want("agree" in told and "faults: 0" in told, told)


@test
def a_map_may_begin_anywhere():
    told = run([proved(base=0x8000_0000), "+seed=1", "+cycles=20000", f"+trace={path('based')}"])
    want("agree" in told and "faults: 0" in told and "refused: 0" in told, told)
    verdict = judged(path("based"), "coherent")
    want(verdict == f"coherent {len(beat_lines('based')) - 1}", verdict)
    want(beat_lines("based")[1].split()[6].startswith("8000"), beat_lines("based")[1])


def agents(client, manager, status=0):
    """What a client and a manager do whose maps begin there."""
    top = "test_agents"
    built = verilator(f"agents{client:x}_{manager:x}", top,
                      ["sv/tl_pkg.sv", "sv/tl_proved_manager.sv", "sv/tl_proved_client.sv", f"tests/{top}.sv"],
                      f"-DCLIENT_BASE=32'h{client:08x}", f"-DMANAGER_BASE=32'h{manager:08x}",
                      *over_library(["sv/tl_checker_dpi.cpp", "sv/tl_agents_dpi.cpp"]))
    return run([built], status=status)


@test
def the_proved_client_and_manager_are_new_behind_a_reset():
    told = agents(0x8000_0000, 0x8000_0000)
    want("before the reset: 0000000000001234" in told and "behind the reset: 0000000000000000" in told, told)


@test
def an_address_outside_of_the_map_is_told_as_such():
    told = agents(0x8000_0000, 0, status=-6)
    want("tl_proved_manager: link 0 breaks A1: channel 0 opcode 6 param 1\n"
         "    address 80000040 is outside of the map, 00000000 to 000003ff" in told, told)
    told = agents(0, 0, status=-6)
    want("tl_proved_client: address 80000048 is outside of the map, 00000000 to 000003ff" in told, told)


@test
def the_proved_client_asks_for_a_block_after_its_answer_to_a_probe():
    top = "test_early_acquire"
    built = verilator("early_client", top, SV + ["sv/tl_proved_client.sv", f"tests/{top}.sv"], "-DPROVED_CLIENT",
                      *over_library(["sv/tl_checker_dpi.cpp", "sv/tl_agents_dpi.cpp"]))
    run([built, f"+trace={path('early_client.trace')}"])
    want(judged(path("early_client.trace")) == "clean 29", judged(path("early_client.trace")))


@test
def each_bug_is_found_under_the_proved_manager():
    for bug, (rule, own) in BUGS.items():
        told = run([proved(), "+seed=1", "+cycles=20000", f"+bug={bug}"], status=None)
        if rule is None:
            want("faults: 0" in told and own in told, f"bug {bug}: {told}")
        else:
            want(f"tl_link_checker: link 0 breaks {rule}: " in told and "agree" not in told, f"bug {bug}: {told}")


def ten_million_cycles(built):
    for seed in (11, 12):
        told = run([built, f"+seed={seed}", "+cycles=5000000"])
        want("agree" in told and "faults: 0" in told, told)
        print(f"        seed {seed}: {next(line for line in told.splitlines() if 'agree' in line)}")


@test
def ten_million_cycles_long():
    ten_million_cycles(checked())


@test
def ten_million_cycles_under_the_proved_manager_long():
    ten_million_cycles(proved())
