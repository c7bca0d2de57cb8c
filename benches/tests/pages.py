"""What docs/BENCHES.md shows: each module that it instantiates, with its parameters, fits the ports of that module."""

import os
import re
import subprocess

from harness import CHECKERS, COMMIT_CHECKER, COMMIT_RECORDER, INCLUDES, ROOT, SV, files, path, test, want

INSTANCE = re.compile(r"^    ((tl_\w+) #\(.*\) \w+ \(.*\);)$", re.M)
HEAD = re.compile(r"^module (\w+)( #\(.*?\n\) \(\n.*?\n\);)", re.M | re.S)


@test
def the_instances_of_the_page_fit_the_modules():
    with open(os.path.join(ROOT, "docs/BENCHES.md")) as page:
        instances = INSTANCE.findall(page.read())
    want(len(instances) > 3, f"{len(instances)} instances found")
    folder = os.path.join(ROOT, "benches/sv")
    for number, (instance, module) in enumerate(instances):
        with open(os.path.join(folder, f"{module}.sv")) as source:
            head = dict(HEAD.findall(source.read()))[module]
        around = path(f"around{number}.sv")
        # A module with the same ports, whose signals so have the names that `.*` asks for.
        with open(around, "w") as out:
            out.write(f"module around{head}\n{instance}\nendmodule\n")
        sources = files(SV + COMMIT_RECORDER + CHECKERS + COMMIT_CHECKER)
        own = os.path.join(folder, f"{module}.sv")
        told = subprocess.run(
            ["verilator", "--lint-only", "--timing", "-Wno-WIDTH", "-Wno-MULTITOP", INCLUDES, "--top-module", "around",
             *sources, *([own] if own not in sources else []), around],
            stdout=subprocess.PIPE, stderr=subprocess.STDOUT, text=True)
        want(told.returncode == 0, f"{instance}: {told.stdout}")
