"""Bounded search and proof for all time, by berkeley-abc."""

import os
import re
import subprocess

READ = "read_aiger model.aig; fold; strash; scorr"


def spent():
    """The processor time of what has run so far."""
    times = os.times()
    return times.children_user + times.children_system


def abc(folder, seconds, commands, read=READ):
    """What abc writes, and the processor time that it took. It gets some more time than its own limit."""
    start = spent()
    try:
        done = subprocess.run(["berkeley-abc", "-c", f"{read}; {commands}"], cwd=folder, stdout=subprocess.PIPE, stderr=subprocess.STDOUT,
                              text=True, errors="replace", timeout=seconds + 60)
        told = done.stdout
    except subprocess.TimeoutExpired as late:
        told = (late.stdout or b"").decode(errors="replace")
    return told, spent() - start


def failed(told, rules):
    """The rule and the edge of the counterexample that abc tells."""
    output = re.search(r"Output (\d+) of miter", told)
    at = re.search(r"asserted in frame (\d+)", told)
    return (rules[int(output[1])], int(at[1])) if output and at else None


def last_frame(told):
    frames = re.findall(r"^ *(\d+) [+:]", told, re.M)
    return int(frames[-1]) if frames else 0


def bounded(folder, rules, seconds, edges):
    """The shortest counterexample of all (rule, edge), or the last edge up to which there is none; and the seconds."""
    told, took = abc(folder, seconds, f"bmc3 -g -v -T {seconds} -F {edges}; print_status; write_cex -a model.cex")
    fault = failed(told, rules)
    return fault, last_frame(told), took


def for_all_time(folder, rules, seconds):
    """Whether all is proved, and else the edge up to which there is no counterexample; a counterexample, if there is one; and
    the seconds."""
    told, took = abc(folder, seconds, f"pdr -v -T {seconds}; print_status; write_cex -a model.cex")
    return "Property proved" in told, max(0, last_frame(told) - 1), failed(told, rules), took


def folded(folder):
    """Writes the model with its assumptions folded in, from which one output after another is taken."""
    abc(folder, 600, "write_aiger folded.aig")


def alone(folder, output, name, seconds, edges, prove):
    """What is said of one output by itself: the edge at which it fails first, if it does, whether it is proved, the last edge
    up to which it doesn't fail, and the seconds."""
    start = spent()
    fault, edge, proved = None, 0, False
    one = f"read_aiger folded.aig; cone -s -a -O {output}; strash"
    if seconds:
        told, _ = abc(folder, seconds, f"bmc3 -g -v -T {seconds} -F {edges}; print_status; write_cex -a {name}.cex", one)
        fault, edge = failed(told, [name]), last_frame(told)
    if prove and not fault:
        told, _ = abc(folder, prove, f"scorr; pdr -T {prove}; print_status; write_cex -a {name}.cex", one)
        fault, proved = failed(told, [name]), "Property proved" in told
    return fault and fault[1], proved, edge, spent() - start


def reached(folder, covers, seconds):
    """The edge at which each cover is reached first, by name, and the processor time. Each is searched for by itself."""
    start, found = spent(), {}
    folded(folder)
    for output, name in enumerate(covers):
        words = f"read_aiger folded.aig; cone -s -O {output}; strash; bmc3 -g -T {seconds}"
        told = subprocess.run(["berkeley-abc", "-c", words], cwd=folder, stdout=subprocess.PIPE, stderr=subprocess.STDOUT, text=True).stdout
        at = re.search(r"asserted in frame +(\d+)", told)
        if at:
            found[name] = int(at[1])
    return found, spent() - start
