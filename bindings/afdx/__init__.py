"""The transmitting AFDX end system (ARINC 664 Part 7) from Python, over libafdx.so and ctypes.

    from pathlib import Path
    from afdx import EndSystem

    with EndSystem(Path("plan.toml")) as it, it.port(10) as port:
        port.send(b"hello")
        for frame in it.poll(0).a:
            print(frame.hex())

An end system and each of its ports may be used by a thread of its own, one call at a time on each. Times are in
microseconds and don't go back. Frames run from the destination MAC address to the sequence number, without the frame
check sequence. Messages and texts are any bytes-like objects. Each answer of the C library other than success is an
exception named as in afdx.h, whose text says what it means; that of a refused plan has the lines of `explain`. A
number that doesn't fit its argument in afdx.h raises OverflowError.

`bash install/install.sh PREFIX` puts this package into PREFIX/lib/python, libafdx.so.2 into PREFIX/lib, and both as a wheel
into PREFIX/share/afdx, which pip installs. The library is the file that AFDX_LIBRARY names, else the one in this package,
beside it or in the folder above, or on the search path of the system.
"""
# Names are those of afdx.h, and __new__ takes what __init__ does:
# pylint: disable=invalid-name, redefined-builtin, unused-argument
from __future__ import annotations

import ctypes
import os
from contextlib import suppress
from ctypes import byref, c_size_t, c_uint8, c_uint16, c_uint64
from dataclasses import dataclass
from pathlib import Path
from types import TracebackType
from typing import Callable, Iterator, NamedTuple, Union

from . import errors
from ._findings import Finding, captured_of, finding_of
from ._library import BytesLike, FindingRow, FrameRelease, Handle, Judged, JudgeOptions, LinkCounts, bytes_of, fits, lib, want
from .errors import *
from .errors import (
    CONFIG_ERRORS, JUDGE_ERRORS, POLL_ERRORS, SEND_ERRORS, TABLE_ERRORS, AfdxError, BadCapture, ConfigError, Full, LostPackets, NotHeld,
    OutOfMemory, SmallBuffer,
)

__all__ = [
    "A", "B", "GREATEST_FRAME", "MOST_FRAMES", "MOST_LINKS", "MOST_PORTS", "NEVER", "BytesLike", "Counts", "EndSystem",
    "File", "Finding", "Poll", "Port", "Released", "explain", "judge", "library_version", "lost", "memory",
]
__all__ += errors.__all__
__version__ = "2.1.0"

A, B = 0, 1
GREATEST_FRAME, MOST_FRAMES = 1514, 64
MOST_LINKS, MOST_PORTS = 64, 256
NEVER = 2**64 - 1
File = Union[BytesLike, os.PathLike[str]]


def _read(data: File) -> bytes:
    return Path(data).read_bytes() if isinstance(data, os.PathLike) else bytes_of(data)


def _plan(text: str | File) -> bytes:
    return text.encode() if isinstance(text, str) else _read(text)


def explain(text: str | File) -> str:
    """The faults of a plan, a text or the path of one, in lines as `afdx_explain` writes them; "no faults" if there is
    none. Raises `OutOfMemory`."""
    data, length = _plan(text), c_size_t()
    answer = lib.afdx_explain(data, len(data), None, 0, byref(length))
    told = ctypes.create_string_buffer(length.value)
    if answer == SmallBuffer.number:
        answer = lib.afdx_explain(data, len(data), told, len(told), byref(length))
    want(answer)
    return told.raw.decode()


def memory(table: File) -> int:
    """The bytes that opening an end system from the table of a plan takes (docs/guide/embedding.md): its bytes or its path.
    Raises `TableError`, `ConfigError` or `OutOfMemory`."""
    data, taken = _read(table), c_size_t()
    want(lib.afdx_memory(data, len(data), byref(taken)), TABLE_ERRORS)
    return taken.value


def _want_plan(answer: int, data: bytes) -> None:
    """Raises the exception of a refused plan, with the lines of `explain`."""
    faults = ""
    if issubclass(CONFIG_ERRORS.get(answer, AfdxError), ConfigError):
        with suppress(OutOfMemory):
            faults = explain(data).rstrip("\n")
    want(answer, CONFIG_ERRORS, faults)


def judge(
    plan: str | File, capture: File, capture_b: File | None = None, *,
    jitter: int = 0, skew: int = 10_000, late: bool = False, fcs: bool = False, arinc: bool = False,
) -> list[Finding]:
    """What is wrong with a recording of an end system, by its plan (docs/guide/judge.md): nothing, if it keeps it. A
    capture is pcapng or pcap, its bytes or its path; with two, the first is of network A and the second of B. `jitter` and
    `skew` are in microseconds; `arinc` is for the frames of other makers. A finding prints itself. Raises `ConfigError`,
    `BadCapture` (with what was found), `LostPackets` (so too) if a recorder lost packets, or `OutOfMemory`."""
    text, how = _plan(plan), JudgeOptions(fits(jitter, 64), fits(skew, 64), late, fcs, arinc)
    captures = [_read(it) for it in (capture, capture_b) if it is not None]
    words = [word for data in captures for word in (data, len(data))]
    call = lib.afdx_judge if capture_b is None else lib.afdx_judge_pair
    answer, rows, judged = 0, (FindingRow * 0)(), Judged(findings=1_000)
    while len(rows) < judged.findings:
        rows = (FindingRow * judged.findings)()
        answer = call(text, len(text), byref(how), *words, rows, len(rows), byref(judged))
    if answer != BadCapture.number:
        _want_plan(answer, text)
    found = [finding_of(row) for row in rows[: judged.findings]]
    counts = [*map(lost, captures)]
    if answer or any(counts):
        seen = enumerate(zip((judged.a, judged.b), counts), 1)
        told = "\n".join(captured_of(number, row, count) for number, (row, count) in seen)
        raise (BadCapture if answer else LostPackets)(told, found)
    return found


def lost(capture: File) -> int:
    """How many packets the recorder of a capture lost, as it told, up to where the capture may be cut off or malformed
    (docs/guide/judge.md); `judge` raises `LostPackets` if any. A capture is its bytes or its path. Raises `OutOfMemory`."""
    data, count = _read(capture), c_uint64()
    answer = lib.afdx_capture_lost(data, len(data), byref(count))
    if answer != BadCapture.number:
        want(answer, JUDGE_ERRORS)
    return count.value


def library_version() -> str:
    """The version of the library that was loaded; `__version__` is that of the package."""
    number: int = lib.afdx_version_number()
    return f"{number // 10_000}.{number // 100 % 100}.{number % 100}"


class Released(NamedTuple):
    """What a frame carries: the identifier of its virtual link, its sub-VL, and its sequence number."""

    vl: int
    sub: int
    number: int


class Counts(NamedTuple):
    """What was sent of a virtual link: frames that at least one network accepted, the sum of their lengths in bytes, the
    messages whose last frame is among them, and the time of the last frame in microseconds, 0 before the first."""

    frames: int
    bytes: int
    messages: int
    last: int


@dataclass(frozen=True)
class Poll:
    """The frames of a poll for each network, and which networks are up after it."""

    a: list[bytes]
    b: list[bytes]
    a_is_up: bool
    b_is_up: bool

    def __iter__(self) -> Iterator[tuple[int, bytes]]:
        """All frames, each with its network."""
        yield from ((A, frame) for frame in self.a)
        yield from ((B, frame) for frame in self.b)


class Port:
    """A port of an end system. Used in `with`, it is returned to its end system at the end."""

    _handle: Handle

    def __new__(cls, home: EndSystem, id: int) -> Port:
        it = super().__new__(cls)
        it._handle = Handle()
        return it

    def __init__(self, home: EndSystem, id: int) -> None:
        """As `home.port(id)`. Raises `Held` of a port that is out."""
        want(lib.afdx_port_of(byref(home._handle), fits(id, 16), byref(self._handle)))
        self.id, self._home = id, home

    def send(self, message: BytesLike) -> None:
        """Sends a message of 1 byte up to the port's greatest. Raises `Empty`, `TooLong`, `Closed`, `Exhausted` or `Full`
        (poll, then try again)."""
        want(self._sent(message), SEND_ERRORS)

    def try_send(self, message: BytesLike) -> bool:
        """As `send`, but returns whether there was room in place of raising `Full`."""
        answer = self._sent(message)
        if answer != Full.number:
            want(answer, SEND_ERRORS)
        return answer != Full.number

    def _sent(self, message: BytesLike) -> int:
        data = bytes_of(message)
        answer: int = lib.afdx_send(byref(self._handle), data, len(data))
        return answer

    @property
    def accepted(self) -> int:
        """How many messages were accepted."""
        count = c_uint64()
        want(lib.afdx_accepted(byref(self._handle), byref(count)))
        return count.value

    def give_back(self) -> None:
        """Returns the port to its end system. It can be taken again."""
        self._home.give_back(self)

    def __enter__(self) -> Port:
        return self

    def __exit__(self, kind: type[BaseException] | None, error: BaseException | None, trace: TracebackType | None) -> None:
        with suppress(NotHeld):
            self.give_back()

    def __del__(self) -> None:
        lib.afdx_free_port(byref(self._handle))


class EndSystem:
    """An end system of a plan (docs/guide/plan.md), a text or the path of one. Raises `ConfigError` or `OutOfMemory`."""

    _handle: Handle

    def __new__(cls, text: str | File) -> EndSystem:
        it = super().__new__(cls)
        it._handle = Handle()
        return it

    def __init__(self, text: str | File) -> None:
        data = _plan(text)
        _want_plan(lib.afdx_open(byref(self._handle), data, len(data)), data)
        self._begin()

    @classmethod
    def of_table(cls, table: File) -> EndSystem:
        """The end system of the table of a plan (docs/guide/table.md), its bytes or its path. Raises `TableError`,
        `ConfigError` or `OutOfMemory`."""
        it, data = cls.__new__(cls, b""), _read(table)
        want(lib.afdx_open_table(byref(it._handle), data, len(data)), TABLE_ERRORS)
        it._begin()
        return it

    def _begin(self) -> None:
        self._buffer = ctypes.create_string_buffer(MOST_FRAMES * GREATEST_FRAME)
        self._lengths = (c_size_t * MOST_FRAMES)()

    def port(self, id: int) -> Port:
        """Takes the port with an identifier. Raises `NoPort` if there is none or it is out, `Gathered` after `gather`."""
        return Port(self, id)

    def poll(self, now: int) -> Poll:
        """Gives each virtual link its turn at a time in microseconds. Raises `TimeBack` or `BothDown`."""
        up = c_uint8()
        want(lib.afdx_poll(byref(self._handle), fits(now, 64), byref(up)), POLL_ERRORS)
        return Poll(self.frames(A), self.frames(B), bool(up.value & 1), bool(up.value & 2))

    def frames(self, network: int) -> list[bytes]:
        """The frames that the last poll made for a network, `A` or `B`. Raises `NoNetwork`."""
        count, frames, at = c_size_t(), [], ctypes.addressof(self._buffer)
        room = (self._buffer, len(self._buffer), self._lengths, MOST_FRAMES)
        want(lib.afdx_all_frames(byref(self._handle), fits(network, 8), *room, byref(count)))
        for length in self._lengths[: count.value]:
            frames.append(ctypes.string_at(at, length))
            at += length
        return frames

    def frame(self, network: int, k: int, size: int = GREATEST_FRAME) -> bytes:
        """Frame `k`, from 0, of those, which has at most `size` bytes. Raises `NoNetwork`, `NoFrame` or `SmallBuffer`."""
        length = c_size_t()
        room = fits(min(size, GREATEST_FRAME), 64)
        want(lib.afdx_frame(byref(self._handle), fits(network, 8), fits(k, 64), self._buffer, room, byref(length)))
        return ctypes.string_at(self._buffer, length.value)

    def release(self, network: int, k: int) -> Released:
        """What frame `k` of those carries. Raises `NoNetwork` or `NoFrame`."""
        released = FrameRelease()
        want(lib.afdx_release(byref(self._handle), fits(network, 8), fits(k, 64), byref(released)))
        return Released(released.vl, released.sub, released.number)

    @property
    def next_due(self) -> int | None:
        """The first time after the last poll, in microseconds, at which a virtual link becomes due that wasn't due then. A
        poller may sleep until this time or until a port has sent. None if no link becomes due."""
        at = c_uint64()
        want(lib.afdx_next_due(byref(self._handle), byref(at)))
        return None if at.value == NEVER else at.value

    @property
    def ports(self) -> list[int]:
        """The identifiers of all ports, in the order of the plan, whether or not a port is out."""
        return self._list(lib.afdx_ports, MOST_PORTS)

    @property
    def links(self) -> list[int]:
        """The identifiers of all virtual links, in the order of the plan."""
        return self._list(lib.afdx_links, MOST_LINKS)

    def _list(self, call: Callable[..., int], most: int) -> list[int]:
        ids, count = (c_uint16 * most)(), c_size_t()
        want(call(byref(self._handle), ids, most, byref(count)))
        return ids[: count.value]

    def fail(self, network: int) -> None:
        """A network, `A` or `B`, failed: its next frame fails, and it gets none after that. Raises `NoNetwork`."""
        want(lib.afdx_fail(byref(self._handle), fits(network, 8)))

    def close(self, vl: int, sub: int) -> int:
        """Closes a sub-VL: no message is accepted from then on. Returns how many were. Raises `NoSub` or `Gathered`."""
        total = c_uint64()
        want(lib.afdx_close(byref(self._handle), fits(vl, 16), fits(sub, 8), byref(total)))
        return total.value

    def counts(self, vl: int) -> Counts:
        """What was sent of a virtual link. Raises `NoLink`."""
        counts = LinkCounts()
        want(lib.afdx_link_counts(byref(self._handle), fits(vl, 16), byref(counts)))
        return Counts(counts.frames, counts.bytes, counts.messages, counts.last)

    def give_back(self, port: Port) -> None:
        """Takes back a port of this end system. Raises `Gathered`, or `NoPort` for a port of another."""
        want(lib.afdx_give_back(byref(self._handle), byref(port._handle)))

    def gather(self) -> None:
        """Starts draining: later polls send what is left; no port can be taken. Raises `PortMissing` if a port is out."""
        want(lib.afdx_gather(byref(self._handle)))

    @property
    def is_done(self) -> bool:
        """Whether all that was accepted has been transmitted. Raises `NotGathered` before `gather`."""
        done = c_uint8()
        want(lib.afdx_is_done(byref(self._handle), byref(done)))
        return bool(done.value)

    def free(self) -> None:
        """Frees the end system. Its ports may still be freed."""
        want(lib.afdx_free(byref(self._handle)))

    def __enter__(self) -> EndSystem:
        return self

    def __exit__(self, kind: type[BaseException] | None, error: BaseException | None, trace: TracebackType | None) -> None:
        with suppress(NotHeld):
            self.free()

    def __del__(self) -> None:
        lib.afdx_free(byref(self._handle))
