"""The library from Python, and what header, exports and Python say of it."""

import ctypes
import dataclasses
import json
import os
import re
import sys

from events import beat_of, commit_of, far, read_events, read_trace, renamed, traces_in
from harness import HERE, LIBRARY, ROOT, SHARED_LIBRARY, TLTOOL, enumerators, judged, path, python_module, run, test, want


@test
def the_headers_and_pythons_numbers_are_the_librarys():
    module = python_module()
    rules = enumerators("include/hefrudyl.h", r"\bTL_([LSHAM]\d+) = (\d+)")
    named = {module.rule_name(number) for number in range(256)} - {""}
    want({name for name, _ in rules} == named, f"{len(rules)} rules, wanted {len(named)}")
    for name, number in rules:
        want(module.rule_name(int(number)) == name, f"rule {number} is {module.rule_name(int(number))}, not {name}")
    header = dict(enumerators("include/hefrudyl.h", r"\bTL_([A-Z_]+) = (\d)"))
    for code in module.Code:
        want(int(header[code.name]) == code, code.name)
        want(module.error_text(code) != "", f"{code.name} has no text")
    want(module.error_text(len(module.Code)) == "", "a text beyond the codes")
    for level in module.Level:
        want(int(header[level.name]) == level, level.name)
    for channel in module.Channel:
        want(int(header["CHANNEL_" + channel.name]) == channel, channel.name)
    for kinds in (module.Operation, module.Outcome, module.Reception, module.Perm):
        for kind in kinds:
            want(int(header[kind.name]) == kind, kind.name)
    for kind in module.CommitKind:
        want(int(header["COMMIT_" + kind.name]) == kind, kind.name)


@test
def the_librarys_exports_are_the_headers():
    with open(os.path.join(HERE, "include/hefrudyl.h")) as text:
        declared = set(re.findall(r"\b(tl_[a-z_]+)\(", text.read()))
    symbols = run(["nm", "--defined-only", "--extern-only", LIBRARY])
    want(declared == set(re.findall(r" T (tl_[a-z_]+)$", symbols, re.MULTILINE)), "exports")


@test
def a_client_from_python():
    module = python_module()
    with module.Client(module.Level.C, 4) as client, module.Monitor([module.Level.C]) as monitor:
        reply = client.ask(module.Operation.ACQUIRE, block=1, param=0)
        want(reply.kind is module.Outcome.STARTED, reply)
        acquire = client.pop(module.Channel.A)
        want(acquire.address == 64 and client.pop(module.Channel.A) is None, acquire)
        want(monitor.push(0, dataclasses.replace(acquire, data=b"")), acquire)
        for place in range(8):
            received = client.offer(module.Beat(module.Channel.D, opcode=5, param=1, size=6, data=bytes([place] * 8)))
        want(received.kind is module.Reception.DONE_GRANTED and received.perm is module.Perm.BRANCH, received)
        want(client.held(1) is module.Perm.BRANCH and client.copy(1)[8:16] == bytes([1] * 8), "the copy")
        want(client.copy(2) is None and not client.closed(), "nothing else")
        want(client.offer(module.Beat(module.Channel.D, opcode=5, size=6, data=bytes(8))).rule == "H2", "an answer to nothing")


# The structures of the header, and what Python calls them.
STRUCTS = {
    "tl_beat": "BeatStruct", "tl_wide_beat": "WideBeatStruct", "tl_commit": "CommitStruct", "tl_answer": "Answer", "tl_monitor": "MonitorHandle",
    "tl_judge": "JudgeHandle", "tl_client": "ClientHandle", "tl_operation": "OperationStruct", "tl_outcome": "OutcomeStruct",
    "tl_reception": "ReceptionStruct", "tl_manager": "ManagerHandle", "tl_link_config": "LinkConfig", "tl_cover": "CoverHandle",
    "tl_tally": "TallyStruct", "tl_bin_tally": "BinTallyStruct",
}


@test
def the_headers_structs_are_pythons():
    python_module()
    from hefrudyl import _structs
    structs = [(name, getattr(_structs, kind)) for name, kind in STRUCTS.items()]
    source = path("layout.c")
    with open(source, "w") as text:
        text.write('#include <hefrudyl.h>\n#include <stdio.h>\nint main(void) {\n')
        for name, kind in structs:
            text.write(f'printf("{name} %zu\\n", sizeof({name}));\n')
            for field, _ in kind._fields_:
                text.write(f'printf("{name}.{field} %zu\\n", offsetof({name}, {field}));\n')
        text.write("return 0; }\n")
    built = path("layout")
    run(["gcc", "-I" + os.path.join(HERE, "include"), "-o", built, source])
    told = dict(line.split() for line in run([built]).splitlines())
    for name, kind in structs:
        want(int(told[name]) == ctypes.sizeof(kind), name)
        for field, _ in kind._fields_:
            want(int(told[f"{name}.{field}"]) == getattr(kind, field).offset, f"{name}.{field}")


def first_fault(lines, push):
    """The first line whose event breaks a rule, by the verdict that `push` gives on a line: `line N X`, or nothing."""
    for number, line in enumerate(lines, 2):
        verdict = push(line)
        if not verdict:
            return f"line {number} {verdict.rule}"
    return ""


def told_of_wide(module, kind, name, changed):
    """What the library says of a trace whose beats are pushed as wide ones, each changed so: `line N X`, or nothing."""
    (levels, width, profile, liberties), lines = read_trace(module, name)
    if liberties is None:
        liberties = module.Liberty.WRITER if profile == 2 else module.Liberty(0)
    with kind(levels, width, liberties) as judge:
        pushed = (beat_of(module, line) for line in lines)
        return first_fault(pushed, lambda beat: judge.push(beat[0], changed(beat[1])))


def told_of(module, kind, name):
    """What the library says of a trace, each beat as a struct and as a line: `line N X`, or nothing."""
    made, lines = read_trace(module, name)
    with kind(*made) as judge, kind(*made) as reader:
        for number, line in enumerate(lines, 2):
            verdict = judge.push(*beat_of(module, line))
            want(verdict == reader.push_line(line.encode() + b"\n"), f"{name}: line {number} as a beat and as a line")
            if not verdict:
                return f"line {number} {verdict.rule}"
    return ""


def told_of_lines(module, name):
    """What the library says of a trace with stores and loads, line by line, in the command's words."""
    made, lines = read_events(module, name)
    with module.CommitJudge(**made) as judge:
        return first_fault(lines, lambda line: judge.push_line(line.encode() + b"\n")) or f"coherent {len(lines)}"


def want_judged(name, by_monitor, by_judge):
    """A monitor and a judge of all links have to find the fault in a trace that the command finds; nothing where it finds none."""
    for told, command, right in ((by_monitor, "monitor", "clean"), (by_judge, "coherent", "coherent")):
        wanted = judged(name, command)
        want(wanted == told or wanted.startswith(right) and not told, f"{name}: {told}, and {command} says {wanted}")


@test
def python_judges_traces_as_the_command_does():
    """Every example trace of the rules and both traces beside them, link by link and all links together."""
    module = python_module()
    names = traces_in("rules", with_commits=False)
    want(len(names) >= 40, f"{len(names)} traces")
    for name in names:
        want_judged(name, told_of(module, module.Monitor, name), told_of(module, module.Judge, name))


@test
def python_judges_traces_with_stores_and_loads_as_the_command_does():
    """Every example trace with stores and loads or with memory that was zero, line by line."""
    module = python_module()
    names = traces_in("rules", with_commits=True)
    want(len(names) >= 32, f"{len(names)} traces")
    for name in names:
        told = told_of_lines(module, name)
        want(told == judged(name, "coherent"), f"{name}: {told}, and coherent says {judged(name, 'coherent')}")


@test
def python_judges_wide_beats_as_the_command_does():
    """Every example trace of wide beats alone, and those of the rules with other names: renaming changes nothing."""
    module = python_module()
    names = [(it, lambda beat: beat) for it in traces_in("wide", with_commits=False) if not it.endswith("narrow_line.trace")]
    want(len(names) >= 4, f"{len(names)} traces")
    names += [(it, renamed) for it in traces_in("rules", with_commits=False)]
    for name, changed in names:
        want_judged(name, *(told_of_wide(module, kind, name, changed) for kind in (module.WideMonitor, module.WideJudge)))


def told_of_wide_events(module, name, changed):
    """What the library says of a trace with stores and loads whose events are pushed on wide links, each changed so."""
    made, lines = read_events(module, name)
    with module.WideCommitJudge(**made) as judge:
        def push(line):
            is_commit = line[3] in "SLI"
            link, event = (commit_of if is_commit else beat_of)(module, line)
            return (judge.commit if is_commit else judge.push)(link, changed(event))

        return first_fault(lines, push) or f"coherent {len(lines)}"


@test
def python_judges_wide_beats_and_commits_as_the_command_does():
    """Every example of a wide trace with stores and loads, and those of the rules with other names: renaming changes nothing."""
    module = python_module()
    wide = traces_in("wide", with_commits=True)
    want(len(wide) >= 2, f"{len(wide)} traces")
    for name, changed in [(it, lambda event: event) for it in wide] + [(it, far) for it in traces_in("rules", with_commits=True)]:
        told = told_of_wide_events(module, name, changed)
        want(told == judged(name, "coherent"), f"{name}: {told}, and coherent says {judged(name, 'coherent')}")


@test
def python_judges_random_stores_and_loads_as_the_model_does():
    """Runs of right and wrong caches by bench/commits_trial.py; in every second one memory was zero. Also with other names."""
    module = python_module()
    folder = path("model")
    os.mkdir(folder)
    run([sys.executable, os.path.join(ROOT, "bench/commits_trial.py"), "--runs", "20", "--traces", folder])
    names = sorted(it.path for it in os.scandir(folder) if it.name.endswith(".trace"))
    heads = [open(it).readline() for it in names]
    want(sum(" zero " in it for it in heads) >= 20 and sum(" zero " not in it for it in heads) >= 20, f"{len(names)} traces")
    for name in names:
        with open(os.path.splitext(name)[0] + ".verdict") as verdict:
            wanted = verdict.read().strip()
        for told in told_of_lines(module, name), told_of_wide_events(module, name, far):
            want(told == wanted, f"{name}: {told}, and the model says {wanted}")


@test
def python_counts_situations_as_the_command_does():
    """Every example trace of the situations: names, sentences, counts and first lines, and the bins of each link."""
    module = python_module()
    folder = os.path.join(ROOT, "crates/tl_examples/data/situations")
    names = sorted(os.listdir(folder))
    want(len(names) == int(dict(enumerators("include/hefrudyl.h", r"\bTL_(SITUATIONS) = (\d+)"))["SITUATIONS"]), f"{len(names)} traces")
    for name in (os.path.join(folder, it) for it in names):
        (levels, width, _, liberties), lines = read_trace(module, name)
        with module.Cover(levels, width, liberties or 0) as cover:
            for line in lines:
                want(cover.push(*beat_of(module, line)), f"{name}: {line}")
            told = [dataclasses.asdict(it) for it in cover.situations()]
            bins = [cover.bins(link) for link in range(len(levels))]
        wanted = json.loads(run([TLTOOL, "cover", "--json", name]))
        want(told == wanted["situations"], f"{name}: {told}, and cover says {wanted['situations']}")
        counts = [{"name": of_all[0].name, "counts": [it.count if it.possible else None for it in of_all]} for of_all in zip(*bins)]
        want(counts == wanted["bins"], f"{name}: {counts}, and cover says {wanted['bins']}")


@test
def python_refuses_what_does_not_fit():
    module = python_module()
    for levels, width in (([], 8), ([module.Level.C] * 17, 8), ([3], 8), ([module.Level.C], 9)):
        try:
            module.Monitor(levels, width)
            want(False, f"{levels} {width} made a monitor")
        except ValueError:
            pass
    for kind, width, liberties in ((module.WideMonitor, 24, 0), (module.WideJudge, 24, module.Liberty.EARLY), (module.WideJudge, 32, 256),
                                   (module.Judge, 9, module.Liberty.EARLY), (module.Judge, 8, 256)):
        try:
            kind([module.Level.C], width, liberties=liberties)
            want(False, f"{width} {liberties} made a {kind.__name__}")
        except ValueError:
            pass
    one = [(module.Level.C, 1)]
    for links, blocks, trackers in (([], 4, 1), ([(module.Level.C, 9)], 4, 1), ([(3, 1)], 4, 1), (one, 0, 1), (one, 4, 9)):
        try:
            module.Manager(links, blocks, trackers)
            want(False, f"{links} {blocks} {trackers} made a manager")
        except ValueError:
            pass
    for liberties, sources in ((module.Liberty.EARLY, None), (module.Liberty.IDS, [1, 2])):
        try:
            module.Manager(one, 4, liberties=liberties, probe_sources=sources)
            want(False, f"{liberties} {sources} made a manager")
        except ValueError:
            pass
    with module.Monitor([module.Level.C]) as monitor:
        want(monitor.push(0, module.Beat(module.Channel.A, opcode=9)).code is module.Code.BAD_ARGUMENT, "opcode 9")
    want(monitor.push(0, module.Beat(module.Channel.E)).code is module.Code.BAD_ARGUMENT, "a closed monitor")


@test
def python_judges_stores_and_loads():
    """A dirty line that is dropped is M7, one of a link of which not all stores are judged is not; structs and lines."""
    module = python_module()
    beat, channel, commit, kind = module.Beat, module.Channel, module.Commit, module.CommitKind
    acquire = beat(channel.A, opcode=6, param=1, size=6, mask=0xFF)
    granted = [acquire, *[beat(channel.D, opcode=5, size=6, data=bytes(8))] * 8, beat(channel.E)]
    probe = beat(channel.B, opcode=6, param=2, size=6, mask=0xFF)
    dropped = beat(channel.C, opcode=4, param=1, size=6)
    for complete in (0, 1):
        with module.CommitJudge([module.Level.C] * 2, [complete, 1 - complete]) as judge:
            want(judge.try_commit(0, commit(kind.STORE, 2, 4, 5)).rule == "M5", "a store without a copy")
            want(all(judge.push(0, it) for it in granted), "a block of zeros")
            want(judge.commit(0, commit(kind.STORE, 2, 4, 0x12345678)), "a store")
            want(judge.push_line(b"00 L 3 00000000 1234567800000000\n"), "a load of it")
            want(judge.commit(0, commit(kind.BEGIN, 0, 0)), "a load begins")
            told = judge.try_commit(0, commit(kind.LOAD, 0, 4, 0x79))
            want(told.rule == ("M6" if complete else ""), f"a load of another byte: {told}")
            want(judge.push(0, probe), "a Probe")
            told = judge.push(0, dropped)
            want(told.rule == ("M7" if complete else ""), f"a dirty line is dropped: {told}")
            if complete:
                want(judge.commit(0, commit(kind.LOAD, 0, 0)).code is module.Code.CLOSED, "a closed judge")
            want(judge.try_commit(0, commit(kind.LOAD, 1, 1)).code is module.Code.BAD_ARGUMENT, "an address that isn't aligned")
    for judge in (module.CommitJudge, module.WideCommitJudge):
        for made in (([2], [], 8), ([2], [2], 8), ([2], [1], 9), ([3], [1], 8), *(([2], [1], 8, 0, zero) for zero in (2, 255, 256, -1))):
            try:
                judge(*made)
                want(False, f"{made} made a judge")
            except ValueError:
                pass
    with module.WideCommitJudge([module.Level.C], [1], 64) as judge:
        want(judge.commit(0, commit(kind.LOAD, 1, 1)).code is module.Code.BAD_ARGUMENT, "an address that isn't aligned")
        want(judge.commit(0, commit(kind.LOAD, 0, 2**64 - 1)).rule == "M5", "a load of the last byte without a copy")


@test
def a_manager_from_python_has_clients_with_liberties():
    module = python_module()
    beat, liberty = module.Beat, module.Liberty
    links = [(module.Level.C, 1)] * 2
    with module.Manager(links, 4, liberties=liberty.IDS | liberty.DROPS, probe_sources=[7, 0]) as manager:
        acquire = beat(module.Channel.A, opcode=6, param=1, size=6, mask=0xFF)
        for link in (0, 1):
            want(manager.offer(link, acquire).taken, f"an Acquire on link {link}")
            if link == 0:
                want(manager.offer(0, beat(module.Channel.E)).taken, "a GrantAck")
        want(manager.pop(0, module.Channel.B).source == 7, "the source of a Probe")
        dropped = beat(module.Channel.C, opcode=4, param=5, size=6, source=7)
        want(manager.offer(0, dropped).taken, "a ProbeAck NtoN")
        want(manager.next(1, module.Channel.D).opcode == 5, "a GrantData for the other client")


@test
def coroutines_drive_the_agents_a_clock_at_a_time():
    beside = {"HEFRUDYL_LIBRARY": SHARED_LIBRARY, "PYTHONPATH": os.path.join(HERE, "python")}
    told = run([sys.executable, os.path.join(HERE, "tests/test_clocked.py")], env={**os.environ, **beside})
    want(told.strip().endswith("0 failures"), told)


@test
def judging_goes_on_behind_a_fault_in_python():
    module = python_module()
    acquire = module.Beat(module.Channel.A, opcode=6, param=1, size=6, source=2, address=0x80, mask=0xFF)
    grant = module.Beat(module.Channel.D, opcode=5, size=6, source=2)
    for kind in (module.Monitor, module.Judge):
        with kind([module.Level.C]) as judging:
            rules = [judging.try_push(0, beat).rule for beat in (grant, acquire, acquire, grant)]
            want(rules == ["H2", "", "H1", ""], f"{kind.__name__}: {rules}")
