"""The C library by ctypes: its structures and calls."""
from __future__ import annotations

import ctypes
import os
from ctypes import POINTER, c_size_t, c_uint8, c_uint16, c_uint32, c_uint64, c_void_p
from pathlib import Path
from typing import Any, Union

from .errors import MISUSES, Errors


LIBRARY = "libafdx.so.2"
BytesLike = Union[bytes, bytearray, memoryview]


# pylint: disable=too-few-public-methods
class Handle(ctypes.Structure):
    """`afdx_end_system` and `afdx_port`."""

    _fields_ = [("at", c_void_p), ("held", c_uint8), ("mark", c_uint64)]


class LinkCounts(ctypes.Structure):
    """`afdx_counts`."""

    _fields_ = [("frames", c_uint64), ("bytes", c_uint64), ("messages", c_uint64), ("last", c_uint64)]


class FrameRelease(ctypes.Structure):
    """`afdx_released`."""

    _fields_ = [("vl", c_uint16), ("sub", c_uint8), ("number", c_uint8)]


class JudgeOptions(ctypes.Structure):
    """`afdx_judge_options`."""

    _fields_ = [("jitter", c_uint64), ("skew", c_uint64), ("late", c_uint8), ("fcs", c_uint8), ("arinc", c_uint8)]


class FindingRow(ctypes.Structure):
    """`afdx_finding`."""

    _fields_ = [("packet", c_uint64), ("at", c_uint64), ("seen", c_uint64), ("wanted", c_uint64), ("vl", c_uint32),
                ("network", c_uint8), ("kind", c_uint8), ("rule", c_uint8)]


class Captured(ctypes.Structure):
    """`afdx_captured`."""

    _fields_ = [("packets", c_uint64), ("at", c_uint64), ("end", c_uint8)]


class Judged(ctypes.Structure):
    """`afdx_judged`."""

    _fields_ = [("findings", c_size_t), ("a", Captured), ("b", Captured)]


def _library() -> ctypes.CDLL:
    package = Path(__file__).resolve().parent
    near = [path for folder in [package, *package.parents[:2]] if (path := folder / LIBRARY).exists()]
    return ctypes.CDLL(os.environ.get("AFDX_LIBRARY") or str([*near, LIBRARY][0]))


def _calls(library: ctypes.CDLL) -> None:
    handle, size = POINTER(Handle), c_size_t
    data, rows = [ctypes.c_char_p, size], [POINTER(FindingRow), size, POINTER(Judged)]
    calls: dict[str, list[Any]] = {
        "open": [handle, ctypes.c_char_p, size],
        "open_table": [handle, ctypes.c_char_p, size],
        "memory": [ctypes.c_char_p, size, POINTER(size)],
        "explain": [ctypes.c_char_p, size, c_void_p, size, POINTER(size)],
        "judge": [*data, POINTER(JudgeOptions), *data, *rows],
        "judge_pair": [*data, POINTER(JudgeOptions), *data, *data, *rows],
        "capture_lost": [*data, POINTER(c_uint64)],
        "port_of": [handle, c_uint16, handle],
        "send": [handle, ctypes.c_char_p, size],
        "accepted": [handle, POINTER(c_uint64)],
        "poll": [handle, c_uint64, POINTER(c_uint8)],
        "frames": [handle, c_uint8, POINTER(size)],
        "frame": [handle, c_uint8, size, c_void_p, size, POINTER(size)],
        "all_frames": [handle, c_uint8, c_void_p, size, POINTER(size), size, POINTER(size)],
        "release": [handle, c_uint8, size, POINTER(FrameRelease)],
        "next_due": [handle, POINTER(c_uint64)],
        "ports": [handle, POINTER(c_uint16), size, POINTER(size)],
        "links": [handle, POINTER(c_uint16), size, POINTER(size)],
        "fail": [handle, c_uint8],
        "close": [handle, c_uint16, c_uint8, POINTER(c_uint64)],
        "link_counts": [handle, c_uint16, POINTER(LinkCounts)],
        "give_back": [handle, handle],
        "gather": [handle],
        "is_done": [handle, POINTER(c_uint8)],
        "free": [handle],
        "free_port": [handle],
    }
    for name, arguments in calls.items():
        call = getattr(library, f"afdx_{name}")
        call.argtypes, call.restype = arguments, c_uint8
    library.afdx_version_number.argtypes, library.afdx_version_number.restype = [], c_uint32


lib = _library()
_calls(lib)


def want(answer: int, errors: Errors = MISUSES, more: str = "") -> None:
    """Raises the exception of an answer other than success, with this more in its text."""
    if answer:
        raise (errors.get(answer) or MISUSES[answer])(more)


def bytes_of(data: BytesLike) -> bytes:
    """The bytes of a bytes-like object. Raises TypeError for any other."""
    return data if isinstance(data, bytes) else bytes(memoryview(data))


def fits(value: int, bits: int) -> int:
    """Returns the value if it fits. ctypes would truncate it to `bits` bits."""
    if not 0 <= value < 1 << bits:
        raise OverflowError(f"{value} isn't a number of {bits} bits")
    return value
