"""The bench of docs/YOUR_CACHE.md, as the page has it: both simulators write one trace, and tltool says of it what the page shows."""

import os
import re
import subprocess

from harness import SV, TLTOOL, icarus, judged, path, run, test, verilator, want
from shown import save, text_of, without_indent

PAGE = "YOUR_CACHE.md"
FILES = SV + ["example/tl_cache.sv", "example/tl_home.sv"]


def shown(command):
    """What the page shows behind each time that it runs a command."""
    found = re.findall(rf"^    \$ {re.escape(command)}\n((?:    (?!\$ ).*\n)*)", text_of(PAGE), re.M)
    return [without_indent(text) for text in found]


def recorded(simulation, *words):
    """The trace that a simulation records, which writes it where it runs."""
    run([*simulation, *words], cwd=path("."))
    with open(path("link.trace")) as trace:
        return trace.read()


@test
def the_bench_of_your_cache_records_what_the_page_shows():
    file = os.path.join(save(PAGE, "your_cache"), "bench.sv")
    simulations = [["vvp", "-n", icarus("your_bench.vvp", "bench", FILES + [file])], [verilator("your_bench", "bench", FILES + [file])]]
    for words, verdict in zip([[], ["+bug=1"]], shown("tltool monitor link.trace"), strict=True):
        traces = [recorded(simulation, *words) for simulation in simulations]
        want(traces[0] == traces[1], f"{words}: the simulators record different traces")
        want(judged(path("link.trace")) == verdict.strip(), f"{words}: {judged(path('link.trace'))}")
        if not words:
            want([traces[0][: len(head)] for head in shown("head -n 3 link.trace")] == shown("head -n 3 link.trace"), "the first lines")
    explained = subprocess.run([TLTOOL, "explain", path("link.trace")], stdout=subprocess.PIPE, text=True, timeout=60).stdout
    want([explained] == shown("tltool explain link.trace"), explained)
