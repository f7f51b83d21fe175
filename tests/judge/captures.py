"""Reads and writes captures, pcapng and pcap, from the formats' specifications (draft-ietf-opsawg-pcapng and -pcap) and what
`docs/guide/program.md` says is read of them."""
import random
import struct
from typing import NamedTuple

SECTION, INTERFACE, OBSOLETE, SIMPLE, STATISTICS, ENHANCED = 0x0A0D0D0A, 1, 2, 3, 5, 6
# if_name, if_tsresol, if_fcslen and if_tsoffset.
NAME, RESOLUTION, CHECK_LENGTH, OFFSET = 2, 9, 13, 14
# Bit 26 of the last word of a pcap header: the four highest bits count words of check sequences.
HAS_LENGTH = 1 << 26
# The options that count lost packets: of an enhanced packet block, and the two of an interface statistics block.
DROP_COUNT, IF_DROP, OS_DROP = 4, 5, 7
GREATEST = 2**64 - 1
MAGICS = {0xA1B2C3D4: 1000, 0xA1B23C4D: 1}
LONGEST, MOST_INTERFACES = 1 << 20, 256
SECOND = 10**9


class Packet(NamedTuple):
    """A packet: its network, its time in nanoseconds, its length on the network, the bytes that were captured, and whether it ends
    with its check sequence, if the capture says it."""

    network: str | None
    at: int | None
    original: int
    data: bytes
    fcs: bool | None = None


class End(NamedTuple):
    """How a capture ends: '' for whole, 'CutOff', or the name of a fault; and the byte at which its last unit begins."""

    fault: str
    at: int


class Malformed(Exception):
    """The name of what is wrong, and for another link type its number."""


class CutOff(Exception):
    """The bytes end before the unit does."""


def want(is_so: bool, fault: str) -> None:
    """Stops with a fault unless this is so."""
    if not is_so:
        raise Malformed(fault)


def counts_in(order: str, options: bytes) -> dict[int, int]:
    """The counts in options, by their codes: for each code that of its first option of 8 bytes. Option 0 ends the options, and so
    does one that runs past them."""
    counts, at = {}, 0
    while at + 4 <= len(options):
        code, length = struct.unpack_from(order + "HH", options, at)
        value, at = options[at + 4 : at + 4 + length], at + 4 + length + -length % 4
        if code == 0 or at > len(options):
            break
        if length == 8:
            counts.setdefault(code, *struct.unpack(order + "Q", value))
    return counts


class Interface:
    """An interface that a section describes."""

    def __init__(self, order: str, body: bytes) -> None:
        want(len(body) >= 8, "Length")
        link, _, self.limit = struct.unpack_from(order + "HHI", body)
        if link != 1:
            raise Malformed("LinkType", link)
        self.name, self.resolution, self.offset, self.fcs = None, 6, 0, None
        self.dropped, self.told = 0, {IF_DROP: 0, OS_DROP: 0}
        at = 8
        while at < len(body):
            want(at + 4 <= len(body), "BadOption")
            code, length = struct.unpack_from(order + "HH", body, at)
            value, after = body[at + 4 : at + 4 + length], at + 4 + length + -length % 4
            want(after <= len(body), "BadOption")
            if code == 0:
                break
            self.take(order, code, value)
            at = after

    def take(self, order: str, code: int, value: bytes) -> None:
        """Takes an option."""
        if code == NAME:
            self.name = {b"A": "A", b"B": "B"}.get(value)
        elif code == RESOLUTION:
            want(len(value) == 1, "BadOption")
            self.resolution = value[0]
        elif code == CHECK_LENGTH:
            want(len(value) == 1, "BadOption")
            self.fcs = {0: False, 4: True, 32: True}.get(value[0])
        elif code == OFFSET:
            want(len(value) == 8, "BadOption")
            (self.offset,) = struct.unpack(order + "q", value)

    def lost(self) -> int:
        """How many of its packets were lost, by its packets or by its last statistics, whichever tells more."""
        return max(self.dropped, sum(self.told.values()))

    def time(self, ticks: int) -> int:
        """The nanoseconds since 1970."""
        units = 2 ** (self.resolution - 128) if self.resolution >= 128 else 10**self.resolution
        nanos = ticks * SECOND // units + self.offset * SECOND
        want(nanos >= 0, "Time")
        return nanos


class Reader:
    """A capture's packets and its end."""

    def __init__(self, data: bytes) -> None:
        self.data, self.packets, self.interfaces = data, [], []
        # the interface of each packet, and the link type that ended the reading
        self.numbers, self.link = [], None
        # whether the records of pcap end with their check sequences
        self.fcs: bool | None = None
        # how many packets were lost in earlier sections, and in all
        self.lost_before = self.lost = 0
        self.step, self.at, self.order, self.unit = self.first, 0, "", 0
        is_known = False
        while True:
            try:
                self.step()
                is_known = True
            except CutOff:
                self.end = End("", self.at) if is_known and self.at == len(data) else End("CutOff", self.at)
                break
            except Malformed as fault:
                self.end = End(fault.args[0], self.at)
                self.link = fault.args[1] if fault.args[1:] else None
                break
        self.lost = min(self.lost_so_far(), GREATEST)

    def front(self, form: str, offset: int = 0) -> tuple:
        """Numbers of the first 12 bytes of the unit."""
        if self.at + 12 > len(self.data):
            raise CutOff
        return struct.unpack_from(form, self.data, self.at + offset)

    def take(self, size: int) -> bytes:
        """The unit of this length."""
        want(size <= LONGEST, "TooLong")
        if self.at + size > len(self.data):
            raise CutOff
        return self.data[self.at : self.at + size]

    def first(self) -> None:
        """Reads the first unit."""
        if self.front("<I") == (SECTION,):
            return self.block()
        found = [(order, MAGICS[magic]) for order in "<>" for (magic,) in [self.front(order + "I")] if magic in MAGICS]
        want(found, "Format")
        self.order, self.unit = found[0]
        header = self.take(24)
        want(struct.unpack_from(self.order + "H", header, 4) == (2,), "Version")
        (word,) = struct.unpack_from(self.order + "I", header, 20)
        link = word & 0xFFFF
        if link != 1:
            raise Malformed("LinkType", link)
        self.fcs = {0: False, 2: True}.get(word >> 28) if word & HAS_LENGTH else None
        self.at, self.step = self.at + 24, self.record
        return None

    def record(self) -> None:
        """Reads a record of pcap."""
        (captured,) = self.front(self.order + "I", 8)
        whole = self.take(16 + captured)
        seconds, part, _, original = struct.unpack_from(self.order + "IIII", whole)
        self.numbers.append(0)
        self.packets.append(Packet("A", seconds * SECOND + part * self.unit, original, whole[16:], self.fcs))
        self.at += len(whole)

    def block(self) -> None:
        """Reads a block of pcapng."""
        order = self.order
        if self.front("<I") == (SECTION,):
            orders = [order for order in "<>" if self.front(order + "I", 8) == (0x1A2B3C4D,)]
            want(orders, "ByteOrder")
            order = orders[0]
        kind, length = self.front(order + "II")
        want(length % 4 == 0 and length >= 12, "Length")
        whole = self.take(length)
        want(struct.unpack_from(order + "I", whole, length - 4) == (length,), "EndLength")
        body = whole[8:-4]
        if kind == SECTION:
            want(len(body) >= 16, "Length")
            want(struct.unpack_from(order + "H", body, 4) == (1,), "Version")
            self.lost_before = self.lost_so_far()
            self.interfaces, self.order, self.step = [], order, self.block
        else:
            self.body(kind, body)
        self.at += length

    def body(self, kind: int, body: bytes) -> None:
        """Reads the body of a block that isn't a section's."""
        order = self.order
        want(kind != OBSOLETE, "Obsolete")
        if kind == INTERFACE:
            want(len(body) < 8 or struct.unpack_from(order + "H", body) != (1,) or len(self.interfaces) < MOST_INTERFACES, "Interfaces")
            self.interfaces.append(Interface(order, body))
        elif kind == SIMPLE:
            want(len(body) >= 4, "Length")
            (original,) = struct.unpack_from(order + "I", body)
            first = self.known(0)
            captured = min(original, first.limit) if first.limit else original
            want(4 + captured <= len(body), "Captured")
            self.numbers.append(0)
            self.packets.append(Packet(self.network(0), None, original, body[4 : 4 + captured], first.fcs))
        elif kind == STATISTICS:
            number = struct.unpack_from(order + "I", body)[0] if len(body) >= 12 else len(self.interfaces)
            if number < len(self.interfaces):
                counts = counts_in(order, body[12:])
                self.interfaces[number].told |= {code: counts[code] for code in (IF_DROP, OS_DROP) if code in counts}
        elif kind == ENHANCED:
            want(len(body) >= 20, "Length")
            number, high, low, captured, original = struct.unpack_from(order + "IIIII", body)
            interface = self.known(number)
            want(20 + captured <= len(body), "Captured")
            at = interface.time(high << 32 | low)
            self.numbers.append(number)
            self.packets.append(Packet(self.network(number), at, original, body[20 : 20 + captured], interface.fcs))
            interface.dropped += counts_in(order, body[20 + captured + -captured % 4 :]).get(DROP_COUNT, 0)

    def lost_so_far(self) -> int:
        """How many packets were lost."""
        return self.lost_before + sum(it.lost() for it in self.interfaces)

    def known(self, number: int) -> Interface:
        """The interface of a number."""
        want(number < len(self.interfaces), "NoInterface")
        return self.interfaces[number]

    def network(self, number: int) -> str | None:
        """The network of an interface, by its name or by its number."""
        if any(it.name for it in self.interfaces):
            return self.interfaces[number].name
        return "AB"[number] if number < 2 else None


class Form(NamedTuple):
    """How a capture is written: pcapng or pcap, its order of bytes, the units of its times, whether its interfaces have names,
    whether it has other blocks, options and further sections, and what it says of the length of check sequences, by networks."""

    is_blocks: bool
    order: str
    resolution: int
    has_names: bool
    is_mixed: bool
    fcs: dict[str, bytes] = {}


PLAIN = Form(True, "<", 6, True, False)
# Resolutions of times by which each microsecond has a time of its own, and that time rounds down to it.
RESOLUTIONS = (6, 7, 9, 10, 12)


def random_form(rng: random.Random, networks: int) -> Form:
    """A form for captures of one network or of two."""
    is_blocks = networks > 1 or rng.random() < 0.5
    resolution = rng.choice(RESOLUTIONS) if is_blocks else rng.choice((6, 9))
    return Form(is_blocks, rng.choice("<>"), resolution, rng.random() < 0.5, rng.random() < 0.7)


def option(order: str, code: int, value: bytes) -> bytes:
    """An option, filled to a multiple of 4."""
    return struct.pack(order + "HH", code, len(value)) + value + bytes(-len(value) % 4)


def block(order: str, kind: int, body: bytes) -> bytes:
    """A block."""
    size = struct.pack(order + "I", 12 + len(body))
    return struct.pack(order + "I", kind) + size + body + size


def section(form: Form, names: str, rng: random.Random) -> bytes:
    """A section header and its interfaces."""
    more = option(form.order, 4, b"a writer") + option(form.order, 0, b"") if form.is_mixed else b""
    text = block(form.order, SECTION, struct.pack(form.order + "IHHq", 0x1A2B3C4D, 1, rng.choice((0, 2)), -1) + more)
    for name in names:
        options = option(form.order, NAME, name.encode()) if form.has_names else b""
        options += option(form.order, CHECK_LENGTH, form.fcs[name]) if name in form.fcs else b""
        if form.resolution != 6 or form.is_mixed:
            options += option(form.order, RESOLUTION, bytes([form.resolution]))
        options += option(form.order, 3, b"about it") if form.is_mixed else b""
        options += option(form.order, 0, b"") if rng.random() < 0.5 else b""
        text += block(form.order, INTERFACE, struct.pack(form.order + "HHI", 1, 0, 0) + options)
    return text


def written(packets: list[Packet], form: Form, rng: random.Random, names: str = "AB") -> bytes:
    """A capture of packets. One without a time is a simple packet block, of the first interface."""
    order, scale = form.order, 10**form.resolution
    if not form.is_blocks and all(it.at is not None for it in packets):
        magic = {6: 0xA1B2C3D4, 9: 0xA1B23C4D}[form.resolution]
        told = [HAS_LENGTH | (it[0] // 2 & 15) << 28 for it in form.fcs.values() if it]
        parts = [struct.pack(order + "IHHiIII", magic, 2, 4, 0, 0, 262_144, 1 | sum(told[:1]))]
        for it in packets:
            seconds, part = divmod(it.at * scale // SECOND, scale)
            parts.append(struct.pack(order + "IIII", seconds, part, len(it.data), it.original) + it.data)
        return b"".join(parts)
    parts = [section(form, names, rng)]
    for it in packets:
        if form.is_mixed and rng.random() < 0.05:
            other = block(order, rng.choice((4, 5, 10, 0x80000001)), rng.randbytes(4 * rng.randrange(9)))
            parts.append(other if rng.random() < 0.7 else section(form, names, rng))
        if it.at is None:
            parts.append(block(order, SIMPLE, struct.pack(order + "I", it.original) + it.data + bytes(-len(it.data) % 4)))
            continue
        ticks = it.at * scale // SECOND
        front = struct.pack(order + "IIIII", names.index(it.network), ticks >> 32, ticks & 0xFFFFFFFF, len(it.data), it.original)
        more = option(order, 2, bytes(4)) + option(order, 0, b"") if form.is_mixed and rng.random() < 0.2 else b""
        parts.append(block(order, ENHANCED, front + it.data + bytes(-len(it.data) % 4) + more))
    return b"".join(parts)


def merged(readers: list[Reader], is_piped: bool) -> list[tuple[int, str, Packet]]:
    """The packets of both networks by time, with their numbers in their files. A network's packets come in their order, as all do
    that come through a pipe. Those of other interfaces are left out; of two captures, the first is network A and the second B."""
    numbered = [[*enumerate(reader.packets, 1)] for reader in readers]
    if is_piped:
        return [(number, it.network, it) for number, it in numbered[0] if it.network]
    if len(readers) == 1:
        queues = [[(number, net, it) for number, it in numbered[0] if it.network == net] for net in "AB"]
    else:
        queues = [[(number, net, it) for number, it in packets] for net, packets in zip("AB", numbered, strict=True)]
    order, (a, b) = [], (queue[::-1] for queue in queues)
    while a or b:
        is_a = a and (not b or (a[-1][2].at or 0) <= (b[-1][2].at or 0))
        order.append((a if is_a else b).pop())
    return order
