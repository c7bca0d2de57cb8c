"""Judges of beats, and of stores and loads."""

import ctypes

from ._handles import Agent
from ._library import LIBRARY, commit_struct, field, rule_name, struct_of, taken
from ._structs import JudgeHandle, MonitorHandle, WideBeatStruct
from .values import Code, Verdict


def _allowed(profile, liberties):
    """The ending of the call that makes a judge of links under a profile or under liberties, and the name and number of these."""
    return ("new", "profile", profile) if liberties is None else ("new_under", "liberties", int(liberties))


class _Judging(Agent):
    """What judges beats of 1 to 16 links, by the library's calls of a name. It is made of levels, of other lists of a number
    for each link, and of flags."""

    def __init__(self, name, handle, lists, width, new, kind, number, *flags):
        super().__init__(handle, getattr(LIBRARY, f"tl_{name}_free"), width)
        self._push, self._try_push, self._push_line = (
            getattr(LIBRARY, f"tl_{name}_{it}") for it in ("push", "try_push", "push_line"))
        self._make(getattr(LIBRARY, f"tl_{name}_{new}"), lists, kind, number, *flags)

    def push(self, link, beat):
        """Judges a beat of a link."""
        answer = self._push(self._handle, field(link, "link", 256), struct_of(beat))
        return Verdict(Code(answer.code), rule_name(answer.rule))

    def try_push(self, link, beat):
        """The same, but a beat that breaks a rule isn't taken, and the next is judged as if it weren't there."""
        answer = self._try_push(self._handle, field(link, "link", 256), struct_of(beat))
        return Verdict(Code(answer.code), rule_name(answer.rule))

    def push_line(self, line):
        """Judges the beat of a line of a trace, as bytes with the line feed."""
        answer = self._push_line(self._handle, line, len(line))
        return Verdict(Code(answer.code), rule_name(answer.rule))


class Judge(_Judging):
    """A judge of all links of one manager, of beats of `width` bytes, under profile 1 or 2 or, where they are given,
    under these liberties: each beat after the earlier beats of all links. Those of one clock edge come by channel, the A
    of each link, then B, C, D and E."""

    def __init__(self, levels, width=8, profile=1, liberties=None):
        super().__init__("judge", JudgeHandle(), [levels], width, *_allowed(profile, liberties))


class _Committing:
    """What judges commits."""

    def commit(self, link, commit):
        """Judges a commit of a link. Where there is no memory, the same commit may be pushed again."""
        answer = LIBRARY.tl_judge_commit(self._handle, field(link, "link", 256), commit_struct(commit))
        return Verdict(Code(answer.code), rule_name(answer.rule))


class CommitJudge(_Committing, _Judging):
    """A judge of beats and commits of all links of one manager, of beats of `width` bytes, under these liberties: each after
    the earlier ones of all links. `complete` says of each link whether all its stores will be judged, and `zero` whether memory
    was zero before the first beat. Of one clock edge those commits come first that see the copy as it is before the edge, then
    the beats, then those that use a beat of the edge."""

    def __init__(self, levels, complete, width=8, liberties=0, zero=False):
        super().__init__("judge", JudgeHandle(), [levels, complete], width, "new_commits_zero", "liberties", int(liberties), zero)

    def try_commit(self, link, commit):
        """The same, but a commit that breaks a rule isn't taken, and the next is judged as if it weren't there."""
        answer = LIBRARY.tl_judge_try_commit(self._handle, field(link, "link", 256), commit_struct(commit))
        return Verdict(Code(answer.code), rule_name(answer.rule))


class Monitor(_Judging):
    """A monitor of 1 to 16 links of these levels, of beats of `width` bytes, under profile 1 or 2 or, where they are
    given, under these liberties: each beat after the earlier beats of its own link."""

    def __init__(self, levels, width=8, profile=1, liberties=None):
        super().__init__("monitor", MonitorHandle(), [levels], width, *_allowed(profile, liberties))

    def entries(self, link):
        """How many keys are pending on a link, and how many blocks are held there, together."""
        told = ctypes.c_uint64()
        taken(LIBRARY.tl_monitor_entries(self._handle, field(link, "link", 256), told), "the link")
        return told.value


class _WideJudging(Agent):
    """What judges wide beats, of `width` bytes, of 1 to 16 links that have these liberties, by the library's calls of a name. It
    is made of levels, of other lists of a number for each link, and of flags."""

    def __init__(self, name, handle, lists, width, new, liberties, *flags):
        super().__init__(handle, getattr(LIBRARY, f"tl_{name}_free"), width)
        self._push = getattr(LIBRARY, f"tl_{name}_push_wide")
        self._make(getattr(LIBRARY, f"tl_{name}_{new}"), lists, "liberties", int(liberties), *flags)

    def push(self, link, beat):
        """Judges a wide beat of a link. Where there is no memory, the same beat may be pushed again."""
        answer = self._push(self._handle, field(link, "link", 256), struct_of(beat, WideBeatStruct))
        return Verdict(Code(answer.code), rule_name(answer.rule))


class WideJudge(_WideJudging):
    """A judge of all links of one manager, of wide beats of 4, 8, 16, 32 or 64 bytes, under these liberties."""

    def __init__(self, levels, width, liberties=0):
        super().__init__("judge", JudgeHandle(), [levels], width, "new_wide", liberties)


class WideCommitJudge(_Committing, _WideJudging):
    """A judge of wide beats and commits of all links of one manager, of beats of 4, 8, 16, 32 or 64 bytes, under these liberties.
    `complete`, `zero` and the order at one clock edge are those of CommitJudge."""

    def __init__(self, levels, complete, width, liberties=0, zero=False):
        super().__init__("judge", JudgeHandle(), [levels, complete], width, "new_wide_commits_zero", liberties, zero)


class WideMonitor(_WideJudging):
    """A monitor of 1 to 16 links of these levels, of wide beats of 4, 8, 16, 32 or 64 bytes, under these liberties."""

    def __init__(self, levels, width, liberties=0):
        super().__init__("monitor", MonitorHandle(), [levels], width, "new_wide", liberties)
