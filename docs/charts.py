#!/usr/bin/env python3
"""charts.py TOOL [--check]: makes the charts of the pages from the examples with TOOL, docs/chart_*.svg; with --check says
whether they are what TOOL writes today."""
import pathlib
import subprocess
import sys

DOCS = pathlib.Path(__file__).resolve().parent
EXAMPLES = DOCS.parent / "crates/tl_examples/data"
# The name of each chart, and the commands behind TOOL that make it, each reading what the one before it wrote.
CHARTS = {
    "chart_tutorial": ["run --trace schedules/a_writer_becomes_a_reader.schedule", "chart --block 000"],
    "chart_race": ["run --trace schedules/a_release_races_with_a_probe.schedule", "chart --block 000"],
    "chart_fault": ["chart --block 000 wrong_report.trace"],
}


def drawn(tool, commands):
    """What the last of the commands writes."""
    written = b""
    for command in commands:
        ran = subprocess.run([tool, *command.split()], cwd=EXAMPLES, input=written, capture_output=True)
        if ran.returncode > 1:
            sys.exit(f"{command}: {ran.stderr.decode()}")
        written = ran.stdout
    return written


def main():
    tool, stale = pathlib.Path(sys.argv[1]).resolve(), []
    for name, commands in CHARTS.items():
        file, chart = DOCS / f"{name}.svg", drawn(tool, commands)
        if "--check" not in sys.argv:
            file.write_bytes(chart)
        elif not file.exists() or file.read_bytes() != chart:
            stale.append(f"docs/{name}.svg is not what the command writes: run docs/charts.py TOOL")
    print("\n".join(stale) or f"charts: {len(CHARTS)}")
    return 1 if stale else 0


sys.exit(main())
