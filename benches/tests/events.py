"""The events of a trace, as the Python module has them."""

import dataclasses
import functools
import operator
import os

from harness import ROOT

MARKS = ("zero", "commits")


def beat_of(module, line):
    """The link and the beat that a line of a trace spells."""
    words = line.split()
    channel = module.Channel[words[1]]
    if channel == module.Channel.E:
        return int(words[0], 16), module.Beat(channel, sink=int(words[2], 16))
    number = [int(word, 16) if word != "-" else 0 for word in words[2:]]
    lanes = words[-2]
    fields = dict(opcode=number[0], param=number[1], size=number[2], source=number[3], corrupt=number[-1],
                  data=b"" if lanes == "-" else bytes.fromhex(lanes)[::-1])
    if channel == module.Channel.D:
        fields.update(sink=number[4], denied=number[5])
    else:
        fields.update(address=number[4])
    if channel in (module.Channel.A, module.Channel.B):
        fields.update(mask=number[5])
    return int(words[0], 16), module.Beat(channel, **fields)


def read_liberties(module, words):
    named = [module.Liberty[word.upper()] for word in words.split(",") if word != "none"]
    return functools.reduce(operator.or_, named, module.Liberty(0))


def read_trace(module, name):
    """What a trace's header names, as a judge or monitor is made, and the lines of its beats."""
    with open(name) as trace:
        lines = trace.read().splitlines()
    header = lines[0].split()
    version = int(header[1])
    width = int(header[2]) if version > 1 else 8
    profile = int(header[3]) if version == 3 else 1
    liberties = read_liberties(module, header[3]) if version > 3 else None
    return ([module.Level[level] for level in header[min(version, 3) + 1:]], width, profile, liberties), lines[1:]


def read_events(module, name):
    """What the header of a trace with stores and loads names, as a judge of these is made, and the lines of its events."""
    with open(name) as trace:
        header, *lines = trace.read().splitlines()
    _, _, width, liberties, *words = header.split()
    levels = [word for word in words if word not in MARKS]
    return dict(levels=[module.Level[level.rstrip("+")] for level in levels], complete=[level.endswith("+") for level in levels],
                width=int(width), liberties=read_liberties(module, liberties), zero="zero" in words), lines


def traces_in(folder, with_commits):
    """The example traces in a folder, those with stores and loads or with memory that was zero, or the others."""
    folder = os.path.join(ROOT, "crates/tl_examples/data", folder)
    heads = ((it.path, open(it.path).readline().split()) for it in sorted(os.scandir(folder), key=lambda it: it.name) if it.is_file())
    return [path for path, head in heads if any(word in MARKS or word.endswith("+") for word in head) == with_commits]


def renamed(beat):
    """The beat behind an address of more than 32 bits, with long ids: 0 is kept, since L2 asks for it."""
    return dataclasses.replace(beat, address=beat.address + 0x1_8000_0000 if beat.channel < 3 else 0,
                               source=beat.source and 0x100 + beat.source, sink=beat.sink and 0x300 + beat.sink)


def commit_of(module, line):
    """The link and the commit of a line."""
    link, letter, size, address, *value = line.split()
    kind = {"S": module.CommitKind.STORE, "L": module.CommitKind.LOAD, "I": module.CommitKind.BEGIN}[letter]
    return int(link, 16), module.Commit(kind, int(size, 16), int(address, 16), int(value[0], 16) if value else 0)


def far(event):
    """The beat or the commit behind an address of more than 32 bits; a beat has long ids."""
    return renamed(event) if hasattr(event, "channel") else dataclasses.replace(event, address=event.address + 0x1_8000_0000)
