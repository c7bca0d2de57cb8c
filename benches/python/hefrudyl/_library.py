"""The library, with the types of its calls, and what goes between it and the values."""

import ctypes
import os

from ._structs import (
    Answer, BinTallyStruct, BeatStruct, ClientHandle, CommitStruct, CoverHandle, JudgeHandle, LinkConfig, ManagerHandle, MonitorHandle,
    OperationStruct, OutcomeStruct, ReceptionStruct, TallyStruct, WideBeatStruct,
)
from .values import Code

_BYTE, _SHORT, _SIZE, _TEXT = ctypes.c_uint8, ctypes.c_uint16, ctypes.c_size_t, ctypes.c_char_p
_FLAG, _BEAT = ctypes.POINTER(ctypes.c_uint8), ctypes.POINTER(BeatStruct)


def _found():
    """The name of the library for the loader."""
    here = os.path.dirname(os.path.abspath(__file__))
    near = [os.path.join(here, "libhefrudyl.so"), os.path.join(here, "../../../../lib/libhefrudyl.so.1")]
    return os.environ.get("HEFRUDYL_LIBRARY") or next(filter(os.path.exists, near), "libhefrudyl.so.1")


def _judges():
    """The calls of the monitor and of the judge of all links."""
    for name, handle in (("monitor", ctypes.POINTER(MonitorHandle)), ("judge", ctypes.POINTER(JudgeHandle))):
        new, push = [_TEXT, _SIZE, _BYTE, _BYTE], [_BYTE, _BEAT]
        yield f"tl_{name}", handle, {
            "new": new, "new_under": new, "new_wide": new, "push": push, "try_push": push, "push_line": [_TEXT, _SIZE],
            "push_wide": [_BYTE, ctypes.POINTER(WideBeatStruct)],
        }
    new, commit = [*[_TEXT, _SIZE] * 2, *[_BYTE] * 3], [_BYTE, ctypes.POINTER(CommitStruct)]
    yield "tl_judge", ctypes.POINTER(JudgeHandle), {
        "new_commits_zero": new, "new_wide_commits_zero": new, "commit": commit, "try_commit": commit,
    }
    yield "tl_monitor", ctypes.POINTER(MonitorHandle), {"entries": [_BYTE, ctypes.POINTER(ctypes.c_uint64)]}


def _cover():
    """The calls of what counts situations."""
    return "tl_cover", ctypes.POINTER(CoverHandle), {
        "new": [_TEXT, _SIZE, _BYTE, _BYTE], "push": [_BYTE, _BEAT], "count": [_BYTE, ctypes.POINTER(TallyStruct)],
        "bin": [_BYTE, _BYTE, ctypes.POINTER(BinTallyStruct)],
    }


def _client():
    """The calls of a client."""
    return "tl_client", ctypes.POINTER(ClientHandle), {
        "new": [_BYTE, _SHORT, _BYTE, _BYTE, _BYTE], "ask": [ctypes.POINTER(OperationStruct), ctypes.POINTER(OutcomeStruct)],
        "offer": [_BEAT, ctypes.POINTER(ReceptionStruct)], "stalls": [_BEAT, _FLAG], "next": [_BYTE, _BEAT], "pop": [_BYTE, _BEAT],
        "held": [_SHORT, _FLAG], "copy": [_SHORT, ctypes.POINTER(ctypes.c_uint8 * 64)], "closed": [_FLAG],
    }


def _manager():
    """The calls of a manager."""
    new = [ctypes.POINTER(LinkConfig), _SIZE, _SHORT, _BYTE, _BYTE, _BYTE]
    return "tl_manager", ctypes.POINTER(ManagerHandle), {
        "new": new, "new_under": [*new, _TEXT, _SIZE], "offer": [_BYTE, _BEAT, _FLAG], "stalls": [_BYTE, _BEAT, _FLAG],
        "next": [_BYTE, _BYTE, _BEAT], "pop": [_BYTE, _BYTE, _BEAT], "closed": [_BYTE, _FLAG],
    }


def _load():
    """The library, where each call has its types."""
    library = ctypes.CDLL(_found())
    for prefix, handle, calls in (*_judges(), _cover(), _client(), _manager()):
        for name, arguments in calls.items():
            call = getattr(library, f"{prefix}_{name}")
            call.restype, call.argtypes = Answer, [handle, *arguments]
        free = getattr(library, f"{prefix}_free")
        free.restype, free.argtypes = None, [handle]
    for name in ("rule_name", "error_text", "situation_name", "situation_text", "bin_name", "bin_text"):
        call = getattr(library, "tl_" + name)
        call.restype, call.argtypes = _SIZE, [_BYTE, _TEXT, _SIZE]
    return library


LIBRARY = _load()


def written(call, number):
    """The text that a call writes for a number."""
    text = ctypes.create_string_buffer(128)
    count = call(number, text, 128)
    return text.raw[:count].decode()


def rule_name(number):
    """The name of a rule; empty for a number that no rule has."""
    return written(LIBRARY.tl_rule_name, number)


def error_text(code):
    """The text of a code; empty for a number that is none."""
    return written(LIBRARY.tl_error_text, code)


def field(value, name, limit):
    """A number that is less than a limit."""
    if not 0 <= int(value) < limit:
        raise ValueError(f"{name} is {value}, wanted less than {limit}")
    return int(value)


def struct_of(beat, of=BeatStruct):
    """A beat as the library takes it."""
    shown = of()
    if len(beat.data) > len(shown.lanes):
        raise ValueError(f"data have {len(beat.data)} bytes, wanted {len(shown.lanes)} at most")
    shown.lanes[: len(beat.data)] = beat.data
    for name, kind in of._fields_[1:]:
        setattr(shown, name, field(getattr(beat, name), name, 1 << (8 * ctypes.sizeof(kind))))
    return shown


def commit_struct(commit):
    """A commit as the library takes it."""
    return CommitStruct(**{name: field(getattr(commit, name), name, 1 << (8 * ctypes.sizeof(kind))) for name, kind in CommitStruct._fields_})


def taken(answer, what):
    """The code of an answer, where the call was done."""
    if answer.code == Code.NO_MEMORY:
        raise MemoryError(f"hefrudyl: no memory for {what}")
    if answer.code == Code.BAD_ARGUMENT:
        raise ValueError(f"hefrudyl: {what} is out of range, or what is asked was closed")
    return Code(answer.code)
