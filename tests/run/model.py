"""What `afdx_bench run` must print of a plan without a fault and a script, and how it must end: a model made of lists, from
`docs/afdx.md`, `docs/frames.md`, `docs/guide/plan.md` and `docs/guide/program.md`."""
import re
import struct
import sys
import tomllib
import zlib
from collections.abc import Iterator

# A number may have thousands of leading zeros.
sys.set_int_max_str_digits(0)

FAULTS = ("", "Word", "Number", "Hex", "Extra", "Long")
# The greatest values of the numbers that follow the first word of a line.
NUMBERS = {b"send": (65_535,), b"at": (2**64 - 1,), b"close": (65_535, 255)}
# The networks, and byte 11 of their frames.
NETWORKS = {"A": 0x20, "B": 0x40}
Table = dict
Ended = tuple[int, str, str]  # exit status, standard output, standard error


def complement(data: bytes) -> int:
    """The number from 0 to 65,534 that makes the sum of the 16-bit words of these bytes a multiple of 65,535. (65,536 leaves 1,
    so their sum leaves what they leave as one number.)"""
    return -int.from_bytes(data + bytes(len(data) % 2), "big") % 65_535


def datagram(port: Table, addresses: bytes, message: bytes) -> bytes:
    """A message after its UDP header."""
    length = 8 + len(message)
    ports, checksum = struct.pack(">HHH", port["source"], port["destination"], length), 0
    if port.get("checksum") == "udp":
        checksum = complement(addresses + struct.pack(">HH", 17, length) + ports + message) or 65_535
    return ports + struct.pack(">H", checksum) + message


def packets(end_system: int, link: Table, port: Table, place: int, message: bytes) -> Iterator[bytes]:
    """The IPv4 packets of the pieces of a message that has this place among those of its sub-VL."""
    destination = port.get("dest_ip", f"224.224.{link['id'] >> 8}.{link['id'] & 255}")
    addresses = struct.pack(">BHB", 10, end_system, port["partition"]) + bytes(map(int, destination.split(".")))
    rest, offset, room = datagram(port, addresses, message), 0, link["lmax"] - 39
    while rest:
        more = len(rest) > room
        piece = rest[: room // 8 * 8] if more else rest
        rest = rest[len(piece) :]
        identification = (4 * place + port["sub"]) % 65_536
        front = struct.pack(">BBHHHBB", 0x45, 0, 20 + len(piece), identification, more << 13 | offset // 8, 1, 17)
        yield front + struct.pack(">H", complement(front + addresses)) + addresses + piece
        offset += len(piece)


def table_of(plan: Table) -> bytes:
    """The table of a plan, by `docs/guide/table.md`."""
    cells = [1, plan["end_system"]["id"], len(plan["vl"]), len(plan["port"])]
    for vl in plan["vl"]:
        cells += [vl[key] for key in ("id", "bag_ms", "lmax", "sub_vls", "capacity")] + [("both", "a", "b").index(vl.get("networks", "both"))]
    for port in plan["port"]:
        a, b, c, d = map(int, port.get("dest_ip", "0.0.0.0").split("."))
        cells += [port[key] for key in ("id", "vl", "sub", "partition")] + [("sampling", "queuing").index(port["kind"])]
        cells += [port[key] for key in ("source", "destination", "max")] + [256 * a + b, 256 * c + d, int(port.get("checksum") == "udp")]
    front = b"AFDXPLAN" + struct.pack(f">{len(cells)}H", *cells)
    return front + struct.pack(">I", zlib.crc32(front))


# What the numbers of a link and of a port may be, by `docs/guide/plan.md`.
LINK_NUMBERS = (range(65_536), (1, 2, 4, 8, 16, 32, 64, 128), range(64, 1519), range(1, 5), range(1, 257), range(3))
PORT_NUMBERS = (range(65_536), range(65_536), range(4), range(32), range(2), range(1, 65_536), range(1, 65_536), range(1, 8193),
                (0, *range(10 * 256, 11 * 256)), range(65_536), range(2))


def table_fault(table: bytes) -> str:
    """The fault of bytes that are no table of a plan whose numbers are in their ranges, or ''."""
    if len(table) < 20 or table[:8] != b"AFDXPLAN":
        return "NoTable"
    layout, _, links, ports = struct.unpack(">4H", table[8:16])
    if layout != 1:
        return "OtherLayout"
    if len(table) != 20 + 12 * links + 22 * ports:
        return "WrongLength"
    if int.from_bytes(table[-4:], "big") != zlib.crc32(table[:-4]):
        return "WrongSum"
    cells = struct.unpack(f">{6 * links + 11 * ports}H", table[16:-4])
    rows = [(cells[6 * k : 6 * k + 6], LINK_NUMBERS) for k in range(links)]
    rows += [(cells[6 * links + 11 * k :][:11], PORT_NUMBERS) for k in range(ports)]
    is_sound = all(number in may for row, allowed in rows for number, may in zip(row, allowed, strict=True))
    is_sound = is_sound and all(row[9] == 0 for row, allowed in rows if allowed is PORT_NUMBERS and row[8] == 0)
    return "" if is_sound else "WrongValue"


class SubVl:
    """A sub-VL: the messages in its queue, as lists of packets; the packets left of the one that is partly sent; how many it
    accepted; whether it is closed."""

    def __init__(self) -> None:
        self.queue: list[list[bytes]] = []
        self.left: list[bytes] = []
        self.accepted, self.closed = 0, False

    def take(self) -> bytes:
        """The next packet, or none."""
        if not self.left and self.queue:
            self.left = self.queue.pop(0)
        return self.left.pop(0) if self.left else b""


class Link:
    """A virtual link: its sub-VLs, which of them is first in turn, when it is due, and how many frames it has sent."""

    def __init__(self, table: Table) -> None:
        self.table, self.subs = table, [SubVl() for _ in range(table["sub_vls"])]
        self.first, self.due, self.sent = 0, 0, 0

    def release(self, now: int) -> bytes:
        """The frame of a poll after its 14 bytes of Ethernet header, or none."""
        order = [(self.first + turn) % len(self.subs) for turn in range(len(self.subs))] if now >= self.due else []
        for index in order:
            if packet := self.subs[index].take():
                number = (self.sent - 1) % 255 + 1 if self.sent else 0
                self.first, self.due, self.sent = index + 1, now + 1000 * self.table["bag_ms"], self.sent + 1
                return packet.ljust(45, b"\0") + bytes([number])
        return b""


class EndSystem:
    """An end system: its links and ports by identifier, the time of its last poll, and the lines of each network's frames. Of
    the networks, which are up, and which of them fail at their next frame; the frames of the last poll; the counts of each link
    on each network, as `afdx_counts` has them; whether a frame was lost."""

    def __init__(self, plan: Table) -> None:
        self.number, self.now = plan["end_system"]["id"], 0
        self.links = {link["id"]: Link(link) for link in plan["vl"]}
        self.ports = {port["id"]: port for port in plan["port"]}
        self.lines: dict[str, list[str]] = {name: [] for name in NETWORKS}
        self.up, self.failing, self.is_lost = dict.fromkeys(NETWORKS, True), set(), False
        self.made: dict[str, list[bytes]] = {name: [] for name in NETWORKS}
        self.counted = {(vl, name): (0, 0, 0, 0) for vl in self.links for name in NETWORKS}

    def send(self, number: int, message: bytes) -> str:
        """Sends a message. Returns a note, as the others do, or ''."""
        if number not in self.ports:
            return "refused NoPort"
        port = self.ports[number]
        link = self.links[port["vl"]]
        sub = link.subs[port["sub"]]
        if not message or len(message) > port["max"]:
            return "refused TooLong" if message else "refused Empty"
        if sub.closed or len(sub.queue) == link.table["capacity"]:
            return "refused Closed" if sub.closed else "refused Full"
        sub.queue.append([*packets(self.number, link.table, port, sub.accepted, message)])
        sub.accepted += 1
        return ""

    def carriers(self, link: Link) -> list[str]:
        """The networks that carry a link and are up."""
        on = link.table.get("networks", "both")
        return [name for name, is_up in self.up.items() if is_up and on in ("both", name.lower())]

    def hand(self, vl: int, name: str, frame: bytes) -> None:
        """Gives a link's frame to a network, which fails if it is to."""
        self.up[name] = name not in self.failing
        if self.up[name]:
            frame = struct.pack(">IHBHHBH", 0x0300_0000, vl, 2, 0, self.number, NETWORKS[name], 0x0800) + frame
            frames, size, messages, _ = self.counted[vl, name]
            self.counted[vl, name] = (frames + 1, size + len(frame), messages + (frame[20] & 0x20 == 0), self.now)
            self.made[name].append(frame)
            self.lines[name].append(f"{name} {self.now} {frame.hex()}\n")

    def at(self, moment: int) -> str:
        """Polls once."""
        if moment < self.now or not any(self.up.values()):
            return "refused TimeBack" if moment < self.now else "refused BothDown"
        self.now, self.made = moment, {name: [] for name in NETWORKS}
        for vl, link in self.links.items():
            on = self.carriers(link)
            frame = link.release(moment) if on else b""
            for name in on if frame else ():
                self.hand(vl, name, frame)
            self.is_lost |= bool(frame) and not self.carriers(link)
        return ""

    def close(self, vl: int, sub: int) -> str:
        """Closes a sub-VL."""
        if vl not in self.links or sub >= len(self.links[vl].subs):
            return "refused NoSub"
        closing = self.links[vl].subs[sub]
        closing.closed = True
        return f"closed {closing.accepted}"

    def obey(self, words: list[bytes]) -> str:
        """Obeys a line, by its words."""
        if words[0] == b"send":
            return self.send(int(words[1]), bytes.fromhex(words[2].decode().replace("-", "")))
        return getattr(self, words[0].decode())(*map(int, words[1:]))


def words_of(line: bytes) -> list[bytes]:
    """The words of a line, none if it has no effect."""
    words = [word for word in line.replace(b"\t", b" ").split(b" ") if word]
    return [] if words and words[0].startswith(b"#") else words


def fault_of(line: bytes, words: list[bytes]) -> int:
    """The number of a line's fault, or 0."""
    if len(line) > 20_000:
        return 5
    if not words:
        return 0
    limits, is_send = NUMBERS.get(words[0], ()), words[0] == b"send"
    count = 1 + len(limits) + is_send
    if not limits or len(words) < count:
        return 1
    if any(not word.isdigit() or int(word) > limit for word, limit in zip(words[1:], limits, strict=False)):
        return 2
    if is_send and not re.fullmatch(rb"-|(?:[0-9a-fA-F]{2})+", words[2]):
        return 3
    return 4 if len(words) > count else 0


def run(plan: str, script: bytes) -> Ended:
    """How a run ends, and what it prints. A byte order mark before the first line is no part of it."""
    end_system, notes, error = EndSystem(tomllib.loads(plan)), [], ""
    *lines, last = script.removeprefix(b"\xef\xbb\xbf").split(b"\n")
    lines = [line.removesuffix(b"\r") for line in lines] + [last] * bool(last)
    for number, line in enumerate(lines, 1):
        words = words_of(line)
        fault = fault_of(line, words)
        if number > 1_000_000:
            error = "script refused: too many lines\n"
        elif fault:
            error = f"script line {number}: {fault} {FAULTS[fault]}\n"
        if error:
            break
        note = end_system.obey(words) if words else ""
        notes += [f"line {number}: {note}\n"] if note else []
    status = 2 if error else 3 if any(": refused " in note for note in notes) else 0
    return status, "".join([*notes, *end_system.lines["A"], *end_system.lines["B"]]), error
