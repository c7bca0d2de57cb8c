"""The structures of the library, as include/hefrudyl.h has them."""

import ctypes


class BeatStruct(ctypes.Structure):
    _fields_ = [
        ("lanes", ctypes.c_uint8 * 16),
        ("address", ctypes.c_uint32),
        ("mask", ctypes.c_uint16),
        ("channel", ctypes.c_uint8),
        ("opcode", ctypes.c_uint8),
        ("param", ctypes.c_uint8),
        ("size", ctypes.c_uint8),
        ("source", ctypes.c_uint8),
        ("sink", ctypes.c_uint8),
        ("denied", ctypes.c_uint8),
        ("corrupt", ctypes.c_uint8),
    ]


class WideBeatStruct(ctypes.Structure):
    _fields_ = [
        ("lanes", ctypes.c_uint8 * 64),
        ("address", ctypes.c_uint64),
        ("mask", ctypes.c_uint64),
        ("source", ctypes.c_uint16),
        ("sink", ctypes.c_uint16),
        ("channel", ctypes.c_uint8),
        ("opcode", ctypes.c_uint8),
        ("param", ctypes.c_uint8),
        ("size", ctypes.c_uint8),
        ("denied", ctypes.c_uint8),
        ("corrupt", ctypes.c_uint8),
    ]


class CommitStruct(ctypes.Structure):
    _fields_ = [("value", ctypes.c_uint64), ("address", ctypes.c_uint64), ("kind", ctypes.c_uint8), ("size", ctypes.c_uint8)]


class Answer(ctypes.Structure):
    _fields_ = [("code", ctypes.c_uint8), ("rule", ctypes.c_uint8)]


class Handle(ctypes.Structure):
    _fields_ = [("at", ctypes.c_void_p), ("full", ctypes.c_uint8)]


class MonitorHandle(Handle):
    """A handle of `tl_monitor`."""


class JudgeHandle(Handle):
    """A handle of `tl_judge`."""


class CoverHandle(Handle):
    """A handle of `tl_cover`."""


class TallyStruct(ctypes.Structure):
    _fields_ = [("count", ctypes.c_uint64), ("line", ctypes.c_uint64)]


class BinTallyStruct(ctypes.Structure):
    _fields_ = [("count", ctypes.c_uint64), ("line", ctypes.c_uint64), ("possible", ctypes.c_uint8)]


class OperationStruct(ctypes.Structure):
    _fields_ = [
        ("bytes", ctypes.c_uint8 * 64),
        ("value", ctypes.c_uint64),
        ("mask", ctypes.c_uint64),
        ("address", ctypes.c_uint32),
        ("block", ctypes.c_uint16),
        ("kind", ctypes.c_uint8),
        ("opcode", ctypes.c_uint8),
        ("param", ctypes.c_uint8),
        ("size", ctypes.c_uint8),
    ]


class OutcomeStruct(ctypes.Structure):
    _fields_ = [("value", ctypes.c_uint64), ("kind", ctypes.c_uint8), ("source", ctypes.c_uint8), ("busy", ctypes.c_uint8)]


class ReceptionStruct(ctypes.Structure):
    _fields_ = [
        ("bytes", ctypes.c_uint8 * 64),
        ("kind", ctypes.c_uint8),
        ("source", ctypes.c_uint8),
        ("size", ctypes.c_uint8),
        ("perm", ctypes.c_uint8),
    ]


class ClientHandle(Handle):
    """A handle of `tl_client`."""


class LinkConfig(ctypes.Structure):
    _fields_ = [("level", ctypes.c_uint8), ("sources", ctypes.c_uint8)]


class ManagerHandle(Handle):
    """A handle of `tl_manager`."""
