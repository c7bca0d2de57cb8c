"""Hefrudyl for Python: the proved link monitor, judge of all links, cover, clients and manager over ctypes, for cocotb and for notebooks.

    from hefrudyl import Beat, Channel, Level, Monitor

    with Monitor([Level.C]) as monitor:
        verdict = monitor.push(0, Beat(Channel.E, sink=3))
        print(verdict.rule)     # H8

The library is where HEFRUDYL_LIBRARY says, beside this file as libhefrudyl.so, in the lib/ of the installation
that this file is part of, or where the loader finds libhefrudyl.so.1. docs/BENCHES.md says what is proved.
"""

from ._library import error_text, rule_name
from .agents import Client, Manager
from .coverage import Cover
from .judges import CommitJudge, Judge, Monitor, WideCommitJudge, WideJudge, WideMonitor
from .values import (
    Admitted, Beat, Bin, Channel, Code, Commit, CommitKind, Level, Liberty, Operation, Outcome, Perm, Received, Reception, Reply,
    Situation, Verdict,
)

__all__ = [
    "Admitted", "Beat", "Bin", "Channel", "Client", "Code", "Commit", "CommitJudge", "CommitKind", "Cover", "Judge", "Level", "Liberty",
    "Manager", "Monitor", "Operation", "Outcome", "Perm", "Received", "Reception", "Reply", "Situation", "Verdict", "WideCommitJudge",
    "WideJudge", "WideMonitor", "error_text", "rule_name",
]
