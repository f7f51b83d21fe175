"""Recordings of end systems that keep their plans."""
import random
from collections.abc import Iterator
from typing import NamedTuple

from captures import Packet
from model import EndSystem, Table, complement

MICRO = 1000


class Recording(NamedTuple):
    """A plan, and what two networks were recorded to carry, by time."""

    plan: Table
    packets: list[Packet]


def plan_of(rng: random.Random) -> Table:
    """A plan whose links are on each choice of networks, whose sub-VLs have a port or two each, and whose messages have up to
    a dozen fragments."""
    vl, port = [], []
    for vl_id in rng.sample((0, 1, 255, 256, 65535, *rng.sample(range(2, 255), 4)), rng.randint(1, 3)):
        link = {"id": vl_id, "bag_ms": rng.choice((1, 2, 4)), "lmax": rng.choice((64, 65, 71, 100, 301, 1518))}
        link |= {"sub_vls": rng.randint(1, 4), "capacity": 8, "networks": rng.choice(("both", "both", "a", "b"))}
        vl.append(link)
        for sub in [*range(link["sub_vls"]), rng.randrange(link["sub_vls"])]:
            number = len(port)
            table = {"id": 100 + number, "vl": vl_id, "sub": sub, "partition": rng.randrange(32), "kind": "queuing"}
            table |= {"source": 1001 * number + 1, "destination": rng.randint(1, 65535), "max": 12 * (link["lmax"] - 39) // 8 * 8}
            table |= {"dest_ip": f"10.{rng.randrange(256)}.{number}.{rng.randrange(256)}"} if rng.random() < 0.3 else {}
            port.append(table | {"checksum": rng.choice(("none", "udp")), "max": min(table["max"], 8192)})
    return {"version": 2, "end_system": {"id": rng.choice((0, 1, 0x1234, 65535))}, "vl": vl, "port": port}


def half(frame: bytes, at: int) -> int:
    """The 16-bit number at a byte."""
    return int.from_bytes(frame[at : at + 2], "big")


def put(frame: bytes, at: int, data: bytes) -> bytes:
    """A frame with other bytes at a place."""
    return frame[:at] + data + frame[at + len(data) :]


def summed(frame: bytes) -> bytes:
    """A frame with its header checksum put right."""
    return put(frame, 24, complement(frame[14:24] + frame[26:34]).to_bytes(2, "big"))


def frames_of(end_system: EndSystem) -> Iterator[Packet]:
    """What an end system has sent, as packets."""
    for name, lines in end_system.lines.items():
        for line in lines:
            _, at, text = line.split()
            yield Packet(name, int(at) * MICRO, len(text) // 2, bytes.fromhex(text))


def by_time(packets: list[Packet]) -> list[Packet]:
    """Packets in the order of their times, A's first among equals."""
    return sorted(packets, key=lambda it: (it.at, it.network))


def recorded(rng: random.Random, polls: int = 60) -> Recording:
    """A recording of a random end system, whose last frame comes after a while. A network may be behind by up to 5 ms."""
    plan = plan_of(rng)
    end_system, now, behind = EndSystem(plan), rng.choice((0, 7, 2**33)), {name: rng.choice((0, 0, 1, 4_999)) for name in "AB"}
    for turn in range(polls):
        now += 20_000 if turn == polls - 1 else 0
        for _ in range(rng.choice((1, 1, 3))):
            port = rng.choice(plan["port"])
            size = rng.choice((port["max"], rng.randint(1, port["max"]), rng.randint(1, min(port["max"], 60))))
            end_system.send(port["id"], rng.randbytes(size))
        end_system.at(now)
        now += rng.choice((500, 1000, 1000, 1001, 3999))
    packets = [it._replace(at=it.at + MICRO * behind[it.network]) for it in frames_of(end_system)]
    return Recording(plan, by_time(packets))


def rewritten(rng: random.Random, recording: Recording) -> Recording:
    """The recording as another maker's end system sends it: with any time to live, type of service and padding, with DF or
    without where a message is whole, and with identifications that count all messages, or those from a partition to an
    address; a sub-VL has none twice in turn."""
    seed, step, is_one, idents, counts, last = rng.random(), rng.choice((1, 3, 0xFFFF)), rng.random() < 0.5, {}, {}, {}
    packets = []
    for it in recording.packets:
        data, key = it.data, (half(it.data, 4), half(it.data, 18))
        ends = 0 if is_one else data[26:34]
        sub = key[0], key[1] % 4
        if key not in idents:
            taken = {None, last.get(sub)}
            while idents.get(key) in taken:
                counts[ends] = (counts.get(ends, rng.choice((0, 0xFFFD, rng.randrange(65_536)))) + step) % 65_536
                idents[key] = counts[ends]
            last[sub] = idents[key]
        own = random.Random(f"{seed} {data[:11]} {data[12:]}")
        data = put(put(put(data, 18, idents[key].to_bytes(2, "big")), 15, own.randbytes(1)), 22, own.randbytes(1))
        data = put(data, 20, own.choice((b"\0", b"\x40"))) if half(data, 20) == 0 else data
        end = 14 + half(data, 16)
        packets.append(it._replace(data=summed(put(data, end, own.randbytes(len(data) - 1 - end)))))
    return recording._replace(packets=packets)


def with_icmp(rng: random.Random, recording: Recording) -> Recording:
    """The recording with a frame of ICMP, or a piece of one, on a link: it comes a BAG after another frame, whose addresses it has,
    and has the number after that frame's. The later frames of the link come a BAG later."""
    it = rng.choice(recording.packets)
    vl, body, packets, seen = it.data[4:6], rng.randbytes(1480), [], dict.fromkeys("AB", False)
    bag = MICRO**2 * next(link["bag_ms"] for link in recording.plan["vl"] if link["id"] == half(vl, 0))

    def later(packet: Packet, data: bytes) -> Packet:
        number = bytes([packet.data[-1] % 255 + 1])
        return packet._replace(at=packet.at + bag, data=data[:-1] + number)

    for packet in recording.packets:
        data = packet.data
        packets.append(later(packet, data) if data[4:6] == vl and seen[packet.network] else packet)
        if data[:11] + data[12:] == it.data[:11] + it.data[12:] and not seen[packet.network]:
            seen[packet.network] = True
            end = 14 + half(data, 16)
            packets.append(later(packet, summed(put(data, 23, b"\1" + data[24:34] + body[: end - 34]))))
    return recording._replace(packets=by_time(packets))


def freed(rng: random.Random, recording: Recording) -> Recording:
    """The recording as a maker sends it who uses all of what ARINC 664 leaves free: messages of one frame have any
    identification, some have no bytes, and the plan allows longer frames than messages were cut for, and knows of no
    checksums."""
    seed, packets = rng.random(), []
    for it in recording.packets:
        data, own = it.data, random.Random(f"{seed} {it.data[:11]} {it.data[12:]}")
        if half(data, 20) % 0x4000 == 0:
            data = put(data, 18, own.choice((b"\0\0", own.randbytes(2))))
            if own.random() < 0.3:
                pseudo = data[26:34] + b"\0\x11\0\x08" + data[34:38] + b"\0\x08"
                checksum = (complement(pseudo) or 65_535) if half(data, 40) else 0
                data = put(put(data[:42], 16, b"\0\x1c"), 38, b"\0\x08" + checksum.to_bytes(2, "big")) + bytes(17) + data[-1:]
            data = summed(data)
        packets.append(it._replace(data=data, original=len(data)))
    links = [link | {"lmax": rng.randint(link["lmax"], 1518)} for link in recording.plan["vl"]]
    ports = [port | {"checksum": "none"} for port in recording.plan["port"]]
    return Recording(recording.plan | {"vl": links, "port": ports}, packets)
