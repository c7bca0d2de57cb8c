"""Verilator's -Wall finds nothing in recorders and checkers, nor in the proved client and what tl-conform has around a design,
whatever it is told of a bench."""

import os

from harness import CHECKERS, COMMIT_CHECKER, COMMIT_RECORDER, COMMIT_WATCH, HERE, INCLUDES, SV, WATCH, files, run, test, want

OF_CONFORMANCE = ["tl_random_client", "tl_random_processor", "tl_delay", "tl_never_taken", "tl_memory_only", "tl_probe_source", "tl_take_turns"]

LINTED = [
    ("tl_link_recorder", SV, []), ("tl_manager_recorder", SV, ["-GN=3", "-GTIMEOUT=5"]),
    ("tl_manager_recorder", SV, ["-GN=1", "-GW=16", "-GPENDING=1'b1", "-GCLIENTS=2", "-GFIRST_SOURCES=128'h0400", "-GLAST_SOURCES=128'h0703"]),
    ("tl_commit_recorder", WATCH + COMMIT_RECORDER, ["-GN=3", "-GCOMMITS=2", "-GCOMPLETE=16'h5", "-GZERO=1'b1"]),
    ("tl_commit_checker", WATCH + COMMIT_WATCH + COMMIT_CHECKER, ["-GN=3", "-GCOMMITS=2", "-GCOMPLETE=16'h5", "-GZERO=1'b1"]),
    ("tl_link_checker", WATCH + CHECKERS, []), ("tl_manager_checker", WATCH + CHECKERS, ["-GN=3", "-GW=4", "-GTIMEOUT=5"]),
    ("tl_link_recorder", SV, ["-GW=32", "-GADDRESS_BITS=64", "-GSOURCE_BITS=16", "-GTIMEOUT=5"]),
    ("tl_link_checker", WATCH + CHECKERS, ["-GW=64", "-GSINK_BITS=9"]), ("tl_manager_checker", WATCH + CHECKERS, ["-GN=2", "-GADDRESS_BITS=33"]),
    ("tl_proved_client", ["sv/tl_pkg.sv", "sv/tl_proved_client.sv"], []),
    *((it, ["sv/tl_pkg.sv", f"conformance/sv/{it}.sv"], ["-I" + os.path.join(HERE, "conformance/sv")]) for it in OF_CONFORMANCE),
]


@test
def verilators_lint_finds_nothing_in_the_modules():
    for top, sources, flags in LINTED:
        told = run(["verilator", "--lint-only", "--timing", "-Wall", INCLUDES, "--top-module", top, *flags, *files(sources)])
        want(told == "", f"{top} {flags}: {told}")
