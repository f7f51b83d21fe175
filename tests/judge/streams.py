"""What the frames of a link on one network do wrong: the part of the model of `afdx_bench judge` that keeps what came."""
import struct
from typing import NamedTuple

Table = dict
ANY = "any"
ICMP = 1


class Options(NamedTuple):
    """The options of the command. With neither a constant field nor interface bytes, the profile's are wanted."""

    jitter: int = 0
    skew: int = 10_000
    late: bool = False
    fcs: bool = False
    arinc: bool = False
    constant: bytes | None = None
    interfaces: bytes | None = None

    def front(self) -> bytes:
        """The constant field of destination MAC addresses."""
        return self.constant or b"\3\0\0\0"

    def byte_11(self) -> dict[str, int]:
        """The interface bytes of the networks."""
        return dict(zip("AB", self.interfaces or b"\x20\x40", strict=True))

    def addresses(self) -> str:
        """What is printed of the addresses, if some are given."""
        a, b = self.byte_11().values()
        told = f"constant {self.front().hex(':')}, interfaces {a:02x},{b:02x}"
        return told if self.constant or self.interfaces else ""

    def words(self) -> list[str]:
        """The words of the command line."""
        words = [] if self.jitter == 0 else ["--jitter", str(self.jitter)]
        words += [] if self.skew == 10_000 else ["--skew", str(self.skew)]
        words += ["--late"] * self.late + ["--fcs"] * self.fcs
        words += ["--profile", "arinc"] * self.arinc
        if self.constant:
            # (either form, and digits of either case)
            text = self.constant.hex(":") if self.constant[3] % 2 else self.constant.hex()
            words += ["--constant", text.upper() if self.constant[2] % 2 else text]
        return words + (["--interfaces", self.interfaces.hex(",")] if self.interfaces else [])


def differ(seen: int, wanted: int) -> str:
    """What is said of two numbers."""
    return f"seen {seen}, wanted {wanted}"


def words(data: bytes) -> int:
    """The sum of 16-bit words, the last one filled up by a zero."""
    return sum(struct.unpack(f">{(len(data) + 1) // 2}H", data + bytes(len(data) % 2)))


def half(frame: bytes, at: int) -> int:
    """The 16-bit number at a byte."""
    return int.from_bytes(frame[at : at + 2], "big")


class Piece:
    """The fields of a frame that count for its message."""

    def __init__(self, frame: bytes) -> None:
        total, word = half(frame, 16), half(frame, 20)
        self.ident, self.number, self.size = half(frame, 18), frame[-1], len(frame)
        self.start, self.more = 8 * (word & 0x1FFF), bool(word & 0x2000)
        self.data, self.partition, self.destination = frame[34 : 14 + total], frame[29], frame[30:34]
        self.source, self.to, self.frame = half(frame, 34), half(frame, 36), frame
        self.is_icmp = frame[23] == ICMP


class Message:
    """The pieces of a message so far, from its first on: of a port of the plan, if one is known."""

    def __init__(self, port: Table, piece: Piece) -> None:
        self.port, self.first, self.data = port, piece, piece.data

    def fault(self, arinc: bool) -> tuple[str, str] | None:
        """What is wrong with it as a whole. A short first piece is followed by its padding. By ARINC 664 alone it may have no
        bytes, and a checksum though the plan has none."""
        header = self.first.frame[34:42]
        length, checksum, count = half(header, 4), half(header, 6), len(self.data)
        if length != count:
            return "UdpLength", differ(length, count)
        size = max(0, count - 8)
        if count < 8 or size > self.port["max"] or not (size or arinc):
            return "Size", differ(size, self.port["max"])
        pseudo = words(self.first.frame[26:34]) + 17 + count
        right = 65_535 - (pseudo + words(self.data) - checksum) % 65_535
        wanted = right if self.port.get("checksum") == "udp" else 0
        is_well = checksum == wanted or arinc and checksum == right
        return None if is_well else ("UdpChecksum", differ(checksum, wanted))


class Joining(NamedTuple):
    """What is known of the next piece of a sub-VL: its identification and where it begins, or ANY; the message, if its
    beginning was seen; and an identification that it doesn't have."""

    ident: int | str
    start: int | str
    message: Message | None = None
    not_ident: int | None = None


UNKNOWN = Joining(ANY, ANY)


class Stream:
    """A link on a network."""

    def __init__(self, link: Table, ports: list[Table], options: Options) -> None:
        self.link, self.ports, self.options = link, [port for port in ports if port["vl"] == link["id"]], options
        self.number, self.at, self.frames, self.bytes, self.messages = None, None, 0, 0, 0
        # The times in nanoseconds from each frame to the next one, 0 if that one's is earlier.
        self.gaps: list[int] = []
        # The least time at which the last frame may have been released, which may be before time 0.
        self.release: int | None = None
        self.joining = dict.fromkeys(range(4), UNKNOWN) if options.late else self.begun()
        # The sub-VLs whose last frame has a piece after it, and those that came after the last frame of each.
        self.due: set[int] = set()
        self.later: dict[int, set[int]] = {sub: set() for sub in range(4)}

    def deviations(self, at: int, piece: Piece) -> list[tuple[str, str, str]]:
        """What a frame does wrong, kinds 5 to 11, in order."""
        size = [("Size", "", differ(piece.size + 4, self.link["lmax"]))] if piece.size + 4 > self.link["lmax"] else []
        port = self.port_of(piece) if piece.start == 0 else None
        found = size + self.counted(piece) + self.spaced(at)
        # (a frame with ICMP gets here by ARINC 664 alone)
        found += [] if piece.is_icmp else self.followed(piece, port)
        if self.options.arinc and any(kind in ("Port", "Fragment") for kind, *_ in found):
            self.forget()
        self.number, self.at = piece.number, at
        self.frames, self.bytes = self.frames + 1, self.bytes + piece.size
        self.messages += not (piece.more or piece.is_icmp)
        return found

    def followed(self, piece: Piece, port: Table | None) -> list[tuple[str, str, str]]:
        """What a piece of a message does wrong, kinds 8 to 11, in order."""
        sub = self.sub_of(piece, port)
        turn = self.turned(piece, sub)
        strange = [("Port", "", f"seen {piece.source}")] if piece.start == 0 and port is None else []
        return strange + self.joined(piece, port, sub) + turn

    def counted(self, piece: Piece) -> list[tuple[str, str, str]]:
        """The sequence number. After another one nothing is known of the messages. A transmitter that starts again counts from
        0, and begins its messages; one whose count comes from 255 to 0 counts wrong."""
        wanted = 0 if self.number is None else self.number % 255 + 1
        if piece.number == wanted or (self.number is None and self.options.late):
            return []
        self.forget()
        if piece.number or self.number in (None, 255):
            return [("Number", "", differ(piece.number, wanted))]
        self.joining = self.begun()
        return [("Restart", "", differ(0, wanted))]

    def begun(self) -> dict[int, Joining]:
        """What is known of the messages of a transmitter that starts."""
        return {sub: Joining(ANY if self.options.arinc else sub, 0) for sub in range(4)}

    def forget(self) -> None:
        """Nothing is known of the messages."""
        self.joining = dict.fromkeys(range(4), UNKNOWN)
        self.due.clear()

    def sub_of(self, piece: Piece, port: Table | None) -> int | None:
        """The sub-VL of a piece: by ARINC 664 alone that of its port, or the one whose message has its identification and
        addresses (RFC 791)."""
        if not self.options.arinc:
            return piece.ident % 4
        ends = piece.partition, piece.destination
        open_ = {sub: it for sub, it in self.joining.items() if it.start not in (ANY, 0) and it.ident == piece.ident}
        same = (sub for sub, it in open_.items() if not it.message or ends == (it.message.first.partition, it.message.first.destination))
        return port["sub"] if port else next(same, None)

    def spaced(self, at: int) -> list[tuple[str, str, str]]:
        """The gap: releases are a BAG apart or more, each at most the jitter before its frame's time, and not after it."""
        jittered = at - 1000 * self.options.jitter
        if self.at is None:
            self.release = jittered
            return []
        due, gap = self.release + 10**6 * self.link["bag_ms"], max(0, at - self.at)
        self.gaps.append(gap)
        self.release = min(at, max(due, jittered))
        return [("Early", "", differ(gap, max(0, due - self.at)))] if due > at else []

    def turned(self, piece: Piece, own: int | None) -> list[tuple[str, str, str]]:
        """The turn: no sub-VL comes twice after a frame of one that has a piece left."""
        if own is None:
            return []
        late = sorted(sub for sub in self.due if sub != own and own in self.later[sub])
        if late:
            self.due.clear()
        for seen in self.later.values():
            seen.add(own)
        self.later[own] = set()
        (self.due.add if piece.more else self.due.discard)(own)
        return [("Turn", "", f"sub-VL {own}, between pieces of sub-VL {late[0]}")] if late else []

    def port_of(self, piece: Piece) -> Table | None:
        """The port of a first piece. By ARINC 664 alone, the identification doesn't say which sub-VL it is of."""
        subs = range(4) if self.options.arinc else [piece.ident % 4]
        multicast = f"224.224.{self.link['id'] >> 8}.{self.link['id'] & 255}"
        destination = ".".join(map(str, piece.destination))
        key = (piece.partition, piece.source, piece.to, destination)
        keys = [(it["partition"], it["source"], it["destination"], it.get("dest_ip", multicast)) for it in self.ports]
        return next((port for port, it in zip(self.ports, keys, strict=True) if it == key and port["sub"] in subs), None)

    def joined(self, piece: Piece, port: Table | None, sub: int | None) -> list[tuple[str, str, str]]:
        """The piece after those of its sub-VL. If that isn't known, the piece begins a message, unless one may be open on a sub-VL
        that the link has."""
        own = [self.joining[other] for other in range(self.link["sub_vls"])]
        other = UNKNOWN if UNKNOWN in own else Joining(ANY, 0)
        before, end = self.joining.get(sub, other), piece.start + len(piece.data)
        misfit = self.misfit(piece, before)
        message = before.message
        if piece.start == 0:
            message = Message(port, piece) if port else None
        elif message:
            message.data += piece.data
        fault = message.fault(self.options.arinc) if message and not piece.more and not misfit else None
        last = Joining(ANY, 0, None, piece.ident if piece.start else None) if self.options.arinc else Joining((piece.ident + 4) % 65_536, 0)
        if sub is not None:
            self.joining[sub] = UNKNOWN if misfit else Joining(piece.ident, end, message) if piece.more else last
        return [("Fragment", *misfit)] if misfit else [("Message", *fault)] if fault else []

    def misfit(self, piece: Piece, before: Joining) -> tuple[str, str] | None:
        """How a piece isn't the next one."""
        room, size = self.link["lmax"] - 39, len(piece.data)
        step, first = room // 8 * 8, before.message and before.message.first
        if before.start not in (ANY, piece.start):
            return "Offset", differ(piece.start, before.start)
        if before.ident not in (ANY, piece.ident):
            return "Identification", differ(piece.ident, before.ident)
        if piece.more and piece.ident == before.not_ident:
            return "Repeated", f"seen {piece.ident}"
        if first and (piece.partition, piece.destination) != (first.partition, first.destination):
            return "Addresses", ""
        if self.options.arinc:
            return None
        if piece.more and size <= room and size != step:
            return "Length", differ(size, step)
        if not piece.more and piece.start and size <= room - step:
            return "Length", differ(size, room - step + 1)
        return None
