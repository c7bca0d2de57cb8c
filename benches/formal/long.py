#!/usr/bin/env python3
"""long.py [--only WORD]: the long part of docs/FORMAL.md: the comparison over 20,000 traces, and longer proofs. Each
prints what it says and its processor time; the exit status is 1 where one ends otherwise than it should."""

import argparse
import os
import subprocess
import sys
from pathlib import Path

HERE = Path(__file__).resolve().parent


def formal(map_file, *words):
    return [str(HERE / "tl-formal"), str(HERE / map_file), *words]


PROOF = ["--search", "0", "--prove", "3600", "--block-bits"]
FOUR_LINES, SIXTEEN = ["--set", "INDEX_BITS=2"], ["--set", "BLOCKS=16"]

# Name, words, exit status.
RUNS = [
    ("agreement", ["python3", str(HERE / "agreement/agree.py"), "--long"], 0),
    ("cache, rule by rule", formal("tl_cache_small.toml", *PROOF, "2", "--each"), 0),
    ("cache, 2 lines, 4 blocks, 8 bytes a beat", formal("tl_cache.toml", *PROOF, "2", "--set", "INDEX_BITS=1"), 0),
    ("cache, 4 lines, 16 blocks, 16 bytes a beat", formal("tl_cache_small.toml", *PROOF, "4", *FOUR_LINES), 0),
    ("cache, 4 lines, 16 blocks, 8 bytes a beat", formal("tl_cache.toml", *PROOF, "4"), 0),
    ("cache, stores kept", formal("tl_cache_small.toml", "--search", "900", "--block-bits", "2", "--set", "CHECK_STORES=1"), 0),
    ("manager, 1 link, 16 blocks, 16 bytes a beat", formal("tl_home_one.toml", *PROOF, "4", *SIXTEEN), 0),
    ("manager, 2 links, 2 blocks, 16 bytes a beat", formal("tl_home_wide.toml", *PROOF, "1", "--blocks", "2"), 0),
    ("manager, 2 links, 16 blocks, searched", formal("tl_home_wide.toml", "--search", "900", "--block-bits", "4", *SIXTEEN), 0),
    ("manager, 2 links, bytes of memory, searched", formal("tl_home_wide.toml", "--search", "900", "--block-bits", "1", "--memory"), 0),
    ("manager, 2 links, bytes of memory, the third bug", formal("tl_home_wide.toml", "--search", "900", "--block-bits", "1", "--memory",
                                                                 "--set", "bug=3"), 1),
]


def main():
    words = argparse.ArgumentParser(description=__doc__.split(":")[0])
    words.add_argument("--only", default="")
    asked, wrong = words.parse_args(), 0
    for name, command, status in RUNS:
        if asked.only not in name:
            continue
        start = os.times()
        done = subprocess.run(command, stdout=subprocess.PIPE, stderr=subprocess.STDOUT, text=True)
        took = sum(os.times()[2:4]) - sum(start[2:4])
        wrong += done.returncode != status
        print(f"== {name}: status {done.returncode}, {took:.0f} s of processor time\n{done.stdout}", flush=True)
    sys.exit(1 if wrong else 0)


main()
