#!/usr/bin/env python3
"""seeds.py TOOL [SEEDS]: random schedules of SEEDS seeds (a thousand if none is said), each of a small world of its own, are
played by TOOL. Each has the lines that its words ask for and is written again alike, `run` of it has status 0, and the
trace of it is `clean` and `coherent`. Ends with 'seeds: N passed, M failed'."""
import concurrent.futures
import os
import pathlib
import sys

from traces.command import of, options_of

CLIENTS = ["C:2,C:2,C:2,UH:1", "C:1,C:1", "C:8,C:1,UL:2", "C:2,UH:2,UL:2", "UL:1,UH:8", ",".join(16 * ["C:2"]), "C:3"]
EVENTS = 200


def words_of(seed):
    """The options of a seed."""
    width, profile = ("4", "8", "16")[seed // 4 % 3], str(1 + seed // 3 % 2)
    return options_of(seed, EVENTS, CLIENTS[seed % len(CLIENTS)], width, "--profile", profile)


def slips(tool, seed):
    """What is wrong with a seed."""
    status, schedule = of(tool, "random", *words_of(seed))
    if status or schedule.count("\n") != EVENTS + 2 or not schedule.endswith("\ndrain\n"):
        yield f"random has status {status}, or other lines than it should"
    if of(tool, "random", *words_of(seed)) != (0, schedule):
        yield "the same words write another schedule"
    if of(tool, "run", text=schedule)[0]:
        yield "run has another status than 0"
    status, trace = of(tool, "run", "--trace", text=schedule)
    beats = trace.count("\n") - 1
    for command, verdict in ("monitor", "clean"), ("coherent", "coherent"):
        if status or of(tool, command, text=trace) != (0, f"{verdict} {beats}\n"):
            yield f"the trace isn't {verdict}"


def main():
    tool, seeds = pathlib.Path(sys.argv[1]).resolve(), int(sys.argv[2]) if len(sys.argv) > 2 else 1000
    with concurrent.futures.ThreadPoolExecutor(os.cpu_count()) as pool:
        found = list(pool.map(lambda seed: list(slips(tool, seed)), range(seeds)))
    for seed, wrong in enumerate(found):
        for it in wrong:
            print(f"seed {seed}: {it}: tltool random {' '.join(words_of(seed))}")
    failed = sum(map(bool, found))
    print(f"seeds: {seeds - failed} passed, {failed} failed")
    return 1 if failed else 0


if __name__ == "__main__":
    sys.exit(main())
