"""Faults to plant in recordings: one at a time, each with the findings that it has to bring."""
import random
from collections.abc import Callable
from typing import NamedTuple

from captures import Packet
from model import NETWORKS, Table, complement
from recordings import MICRO, Recording, by_time, half, put, rewritten, summed
from trying import check

# A finding that has to come: its kind and rule, and the packet.
Wanted = tuple[str, str, Packet]


class Planted(NamedTuple):
    """A plan and packets with a fault, and the findings in their order."""

    plan: Table
    packets: list[Packet]
    wanted: list[Wanted]


class Unfit(Exception):
    """The recording has no place for the fault."""


def moved(packet: Packet, data: bytes) -> Packet:
    """A packet with other bytes."""
    return packet._replace(data=data, original=len(data))


class Frame:
    """The fields of a frame by which places are chosen."""

    def __init__(self, data: bytes) -> None:
        self.vl, self.sub, self.total = half(data, 4), half(data, 18) % 4, half(data, 16)
        self.more, self.start = bool(half(data, 20) & 0x2000), 8 * (half(data, 20) & 0x1FFF)
        self.size = self.total - 20


class Ground:
    """A recording in which a fault is planted, with `arinc` one of another maker's. An event is a frame of a link, by its
    packets on the networks that carry it."""

    def __init__(self, rng: random.Random, recording: Recording, arinc: bool = False, seed: int = 0) -> None:
        self.frames = [Frame(it.data) for it in recording.packets]
        recording = rewritten(rng, recording) if arinc else recording
        self.rng, self.plan, self.packets, self.arinc = rng, recording.plan, list(recording.packets), arinc
        self.seed = seed
        self.links = {link["id"]: link for link in self.plan["vl"]}
        streams: dict[int, dict[str, list[int]]] = {vl: {} for vl in self.links}
        for place, it in enumerate(self.packets):
            streams[half(it.data, 4)].setdefault(it.network, []).append(place)
        self.events = {vl: [*zip(*nets.values(), strict=True)] for vl, nets in streams.items()}

    def choose(self, fits: Callable[[int, int], bool]) -> tuple[int, int]:
        """A link and the place of an event that fits."""
        fit = [(vl, k) for vl, events in self.events.items() for k in range(len(events)) if fits(vl, k)]
        if not fit:
            raise Unfit
        return self.rng.choice(fit)

    def frame(self, vl: int, place: int) -> Frame:
        """The frame of an event."""
        return self.frames[self.events[vl][place][0]]

    def first(self, vl: int, place: int) -> bytes:
        """The bytes of an event's first frame."""
        return self.packets[self.events[vl][place][0]].data

    def rewrite(self, vl: int, place: int, change: Callable[[bytes], bytes]) -> list[int]:
        """Changes the frames of an event, and returns the places of its packets."""
        for it in self.events[vl][place]:
            self.packets[it] = moved(self.packets[it], change(self.packets[it].data))
        return list(self.events[vl][place])

    def planted(self, kind: str, rule: str, places: list[int]) -> Planted:
        """The recording with a finding for each of these packets."""
        packets = by_time(self.packets)
        wanted = [(kind, rule, self.packets[it]) for it in places]
        return Planted(self.plan, packets, sorted(wanted, key=lambda it: packets.index(it[2])))

    def inserted(self, kind: str, rule: str, after: int, packet: Packet) -> Planted:
        """The recording with one more packet."""
        self.packets.insert(after + 1, packet)
        return Planted(self.plan, self.packets, [(kind, rule, packet)])

    def any_packet(self, fits: Callable[[Packet], bool] = lambda _: True) -> tuple[int, Packet]:
        """A packet and its place."""
        fit = [(place, it) for place, it in enumerate(self.packets) if fits(it)]
        if not fit:
            raise Unfit
        return self.rng.choice(fit)

    def port_of(self, data: bytes) -> Table:
        """The port of a first piece."""
        key = half(data, 4), data[29], half(data, 34), half(data, 36)
        ports = [it for it in self.plan["port"] if (it["vl"], it["partition"], it["source"], it["destination"]) == key]
        return ports[0]

    def message_of(self, vl: int, place: int) -> list[int]:
        """The events of the message that begins with one, as far as they were recorded."""
        sub, events = self.frame(vl, place).sub, []
        for k in range(place, len(self.events[vl])):
            if self.frame(vl, k).sub == sub:
                events.append(k)
                if not self.frame(vl, k).more:
                    break
        return events


# How a copy of a frame is made to break a rule of the layout.
BREAKS: dict[str, Callable[[bytes], bytes]] = {
    "Length": lambda it: it[:59],
    "DestinationMac": lambda it: put(it, 3, b"\1"),
    "SourceMac": lambda it: put(it, 8, b"\1"),
    "Interface": lambda it: put(it, 11, b"\x30"),
    "EtherType": lambda it: put(it, 12, b"\x86\xdd"),
    "Version": lambda it: put(it, 14, b"\x46"),
    "TotalLength": lambda it: put(it, 16, b"\x08\0"),
    "TotalLength, by one": lambda it: summed(put(it, 16, (len(it) - 14).to_bytes(2, "big"))),
    "Fragment": lambda it: put(it, 20, b"\x1f\xff"),
    "Fragment, by DF and an offset": lambda it: summed(put(it, 20, b"\x40\1")),
    "Fragment, by DF and more fragments": lambda it: summed(put(it, 20, bytes([it[20] | 0x60]))),
    "Fragment, by 9 bytes before others": lambda it: summed(put(put(it[:59], 16, b"\0\x1d"), 20, b"\x20\0")) + it[-1:],
    "Fragment, by the reserved flag": lambda it: summed(put(it, 20, bytes([it[20] | 0x80]))),
    "Protocol": lambda it: put(it, 23, b"\6"),
    "HeaderSum": lambda it: put(it, 24, (half(it, 24) ^ 1).to_bytes(2, "big")),
    "SourceAddress": lambda it: summed(put(it, 29, b"\x20")),
    "DestinationAddress": lambda it: summed(put(it, 30, b"\xe1")),
    "Recorded": lambda it: it + b"\1\2\3\4",
}
# What only this project's frames may not have.
OWN = {"Version": lambda it: put(it, 15, b"\x04"), "Protocol": lambda it: put(it, 22, b"\x40")}
OWN["Fragment"] = lambda it: summed(put(it, 20, bytes([it[20] | 0x40])))


def broken(ground: Ground) -> Planted:
    """One more packet, which isn't a frame of the layout."""
    rng = ground.rng
    own = [] if ground.arinc else [*OWN, "Padding"]
    rules = [*BREAKS, "Snapped", "Time", *own]
    # (each third seed is of another maker, and has each rule in turn; so have the others)
    rule = rules[(ground.seed // 3 + 7 * (ground.seed % 3)) % len(rules)]
    if rule == "Time":
        place, it = ground.any_packet(lambda it: it.network == "A")
        return ground.inserted("Frame", rule, place, it._replace(at=None))
    if rule == "Snapped":
        place, it = ground.any_packet()
        return ground.inserted("Frame", rule, place, it._replace(data=it.data[: rng.randrange(len(it.data))]))
    if rule == "Padding":
        place, it = ground.any_packet(lambda it: 15 + half(it.data, 16) < 60)
        at = rng.randrange(14 + half(it.data, 16), 59)
        return ground.inserted("Frame", rule, place, moved(it, put(it.data, at, b"\1")))
    place, it = ground.any_packet()
    change = BREAKS[rule] if rule not in own or rng.random() < 0.5 else OWN[rule]
    return ground.inserted("Frame", rule.split(",")[0], place, moved(it, change(it.data)))


def of_another(ground: Ground) -> Planted:
    """One more frame, of another end system."""
    place, it = ground.any_packet()
    other = (half(it.data, 9) ^ 1 << ground.rng.randrange(16)).to_bytes(2, "big")
    return ground.inserted("Source", "", place, moved(it, summed(put(put(it.data, 9, other), 27, other))))


def of_no_link(ground: Ground) -> Planted:
    """One more frame, of a link that the plan hasn't."""
    place, it = ground.any_packet()
    vl = ground.rng.choice([vl for vl in range(300) if vl not in ground.links]).to_bytes(2, "big")
    data = put(it.data, 4, vl)
    return ground.inserted("Link", "", place, moved(it, data if data[30] == 10 else summed(put(data, 32, vl))))


def on_another(ground: Ground) -> Planted:
    """One more frame, on a network that doesn't carry its link or with the other's interface byte."""
    place, it = ground.any_packet()
    other = "B" if it.network == "A" else "A"
    if ground.links[half(it.data, 4)].get("networks", "both") != "both" and ground.rng.random() < 0.7:
        byte = NETWORKS[ground.rng.choice("AB")]
        return ground.inserted("Network", "", place, moved(it, put(it.data, 11, bytes([byte])))._replace(network=other))
    return ground.inserted("Network", "", place, moved(it, put(it.data, 11, bytes([NETWORKS[other]]))))


def too_long(ground: Ground) -> Planted:
    """A message that goes in one frame longer than Lmax."""
    def least(vl: int) -> int:
        return ground.links[vl]["lmax"] - 39 + 1

    def most(vl: int, k: int) -> int:
        return min(1479, 8 + ground.port_of(ground.first(vl, k))["max"])

    def fits(vl: int, k: int) -> bool:
        it = ground.frame(vl, k)
        return it.start == 0 and not it.more and least(vl) <= most(vl, k)

    vl, k = ground.choose(fits)
    port = ground.port_of(ground.first(vl, k))
    size = ground.rng.randint(least(vl), min(most(vl, k), least(vl) + 40))
    message = ground.rng.randbytes(size - 8)

    def change(data: bytes) -> bytes:
        udp = data[34:38] + size.to_bytes(2, "big")
        header = put(data[:34], 16, (20 + size).to_bytes(2, "big"))
        pseudo = header[26:34] + b"\0\x11" + size.to_bytes(2, "big") + udp + message
        checksum = complement(pseudo) or 65_535 if port["checksum"] == "udp" else 0
        return summed(header + udp + checksum.to_bytes(2, "big") + message).ljust(59, b"\0") + data[-1:]

    return ground.planted("Size", "", ground.rewrite(vl, k, change))


def miscounted(ground: Ground) -> Planted:
    """Sequence numbers that go on with another one than the next, which no frame had of late."""
    vl, k = ground.choose(lambda vl, k: True)
    more = ground.rng.randint(1, 200)
    for later in range(k, len(ground.events[vl])):
        number = (later + more - 1) % 255 + 1
        ground.rewrite(vl, later, lambda data, number=number: data[:-1] + bytes([number]))
    return ground.planted("Number", "", list(ground.events[vl][k]))


def hurried(ground: Ground) -> Planted:
    """A frame that comes too early on one network, by microseconds, and stays near its twin."""
    side = ground.rng.randrange(2)

    def its(vl: int, k: int) -> int:
        return ground.events[vl][k][side % len(ground.events[vl][k])]

    def latest(vl: int, k: int) -> int:
        return ground.packets[its(vl, k - 1)].at // MICRO + 1000 * ground.links[vl]["bag_ms"] - 1

    def fits(vl: int, k: int) -> bool:
        return k > 0 and ground.packets[its(vl, k)].at // MICRO - latest(vl, k) < 4_000

    vl, k = ground.choose(fits)
    place = its(vl, k)
    earliest = max(ground.packets[its(vl, k - 1)].at // MICRO + 1, ground.packets[place].at // MICRO - 4_900)
    ground.packets[place] = ground.packets[place]._replace(at=MICRO * ground.rng.randint(earliest, latest(vl, k)))
    return ground.planted("Early", "", [place])


def of_no_port(ground: Ground) -> Planted:
    """A message of UDP ports or a partition that no port has."""
    vl, k = ground.choose(lambda vl, k: ground.frame(vl, k).start == 0)
    keys = {(it["source"], it["destination"]) for it in ground.plan["port"]}
    pair = ground.rng.choice([it for it in [(2, 2), (2, 7), (3, 2)] if it not in keys])
    data = ground.first(vl, k)
    parts = {it["partition"] for it in ground.plan["port"]}
    change = ground.rng.choice((
        lambda it: put(it, 34, pair[0].to_bytes(2, "big") + pair[1].to_bytes(2, "big")),
        lambda it: put(it, 36, b"\0\0"),
        lambda it: summed(put(it, 29, bytes([min({*range(33)} - parts) % 32]))) if len(parts) < 32 else put(it, 36, b"\0\0"),
    ))
    check(change(data) != data)
    return ground.planted("Port", "", ground.rewrite(vl, k, change))


def misfit(ground: Ground) -> Planted:
    """A piece that isn't the next one."""
    rule = ground.rng.choice(("Offset", "Identification", "Addresses", "Length"))
    if rule == "Length":
        if ground.arinc:
            raise Unfit
        return cut_short(ground)
    first = ground.rng.random() < 0.5 and rule == "Identification"
    if first and ground.arinc:
        return repeated(ground)
    vl, k = ground.choose(lambda vl, k: first or ground.frame(vl, k).start > 0)
    it, turn = ground.frame(vl, k), 0x2000 if ground.arinc else ground.rng.choice((1, 2, 16_383))
    # (another maker's piece that goes on with no message has to begin one)
    told = "Offset" if ground.arinc else rule
    if rule == "Identification":
        ident = ((half(ground.first(vl, k), 18) + 4 * turn) % 65_536).to_bytes(2, "big")
        return ground.planted("Fragment", told, ground.rewrite(vl, k, lambda data: summed(put(data, 18, ident))))
    if rule == "Offset":
        offset = (it.more << 13 | it.start // 8 - 1).to_bytes(2, "big")
        return ground.planted("Fragment", rule, ground.rewrite(vl, k, lambda data: summed(put(data, 20, offset))))
    return ground.planted("Fragment", told, ground.rewrite(vl, k, lambda data: summed(put(data, 29, bytes([data[29] ^ 1])))))


def repeated(ground: Ground) -> Planted:
    """A message with the identification of the one before it, both cut, in a maker's numbering of its own."""
    def before(vl: int, k: int) -> list[int]:
        return [j for j in range(k) if ground.frame(vl, j).sub == ground.frame(vl, k).sub]

    def fits(vl: int, k: int) -> bool:
        it, earlier = ground.frame(vl, k), before(vl, k)
        return it.more and it.start == 0 and earlier and ground.frame(vl, earlier[-1]).start > 0

    vl, k = ground.choose(fits)
    ident = ground.first(vl, before(vl, k)[-1])[18:20]
    return ground.planted("Fragment", "Repeated", ground.rewrite(vl, k, lambda data: summed(put(data, 18, ident))))


def cut_short(ground: Ground) -> Planted:
    """A piece of 8 bytes less than fit, which the last piece of its message has."""
    def pair(vl: int, k: int) -> list[int]:
        return ground.message_of(vl, k)[:2]

    def fits(vl: int, k: int) -> bool:
        it, both = ground.frame(vl, k), pair(vl, k)
        if not it.more or it.size <= 8 or len(both) < 2:
            return False
        after = ground.frame(vl, both[1])
        return not after.more and after.size + 8 <= ground.links[vl]["lmax"] - 39

    vl, k = ground.choose(fits)
    second = pair(vl, k)[1]
    data = ground.first(vl, k)
    size = ground.frame(vl, k).size
    tail = data[34 + size - 8 : 34 + size]

    def shorter(it: bytes) -> bytes:
        whole = summed(put(it[: 34 + size - 8], 16, (12 + size).to_bytes(2, "big")))
        return whole.ljust(59, b"\0") + it[-1:]

    def longer(it: bytes) -> bytes:
        total, word = half(it, 16), half(it, 20)
        front = put(put(it[:34], 16, (total + 8).to_bytes(2, "big")), 20, (word - 1).to_bytes(2, "big"))
        return summed(front + tail + it[34 : 14 + total]).ljust(59, b"\0") + it[-1:]

    ground.rewrite(vl, second, longer)
    return ground.planted("Fragment", "Length", ground.rewrite(vl, k, shorter))


def misended(ground: Ground) -> Planted:
    """A message that is wrong as a whole."""
    def is_whole(vl: int, k: int) -> bool:
        return ground.frame(vl, k).start == 0 and not ground.frame(vl, ground.message_of(vl, k)[-1]).more

    vl, k = ground.choose(is_whole)
    first = ground.first(vl, k)
    port, last = ground.port_of(first), list(ground.events[vl][ground.message_of(vl, k)[-1]])
    rule = ground.rng.choice(("UdpLength", "Size", "UdpChecksum"))
    if rule == "Size":
        whole = [ground.first(vl, j) for j in range(len(ground.events[vl])) if is_whole(vl, j)]
        sizes = [half(it, 38) - 8 for it in whole if ground.port_of(it) is port]
        size = half(first, 38) - 8
        if size != max(sizes) or sizes.count(size) > 1 or size < 2:
            raise Unfit
        port["max"] = ground.rng.randint(max([it for it in sizes if it < size], default=1), size - 1)
        return ground.planted("Message", rule, last)
    if rule == "UdpLength":
        length = half(first, 38) + ground.rng.choice((-1, 1, 8))
        ground.rewrite(vl, k, lambda data: put(data, 38, length.to_bytes(2, "big")))
        return ground.planted("Message", rule, last)
    checksum = ground.rng.choice([it for it in (0, 1, 0x1234, 65_535) if it != half(first, 40)])
    ground.rewrite(vl, k, lambda data: put(data, 40, checksum.to_bytes(2, "big")))
    return ground.planted("Message", rule, last)


def out_of_turn(ground: Ground) -> Planted:
    """The last frame of a message before its turn: two frames of one sub-VL come between two pieces of another."""
    def fits(vl: int, k: int) -> bool:
        its = [ground.frame(vl, j) for j in range(k, min(k + 4, len(ground.events[vl])))]
        if len(its) < 4 or not its[0].more or its[3].more:
            return False
        return its[0].sub == its[2].sub != its[1].sub == its[3].sub

    vl, k = ground.choose(fits)
    for one, other in zip(ground.events[vl][k + 2], ground.events[vl][k + 3], strict=True):
        first, second = ground.packets[one].data, ground.packets[other].data
        ground.packets[one] = moved(ground.packets[one], second[:-1] + first[-1:])
        ground.packets[other] = moved(ground.packets[other], first[:-1] + second[-1:])
    return ground.planted("Turn", "", list(ground.events[vl][k + 2]))


def unlike(ground: Ground) -> Planted:
    """A byte of a message, which no checksum covers, that differs on one network."""
    def fits(vl: int, k: int) -> bool:
        it = ground.frame(vl, k)
        begins = [j for j in range(k + 1) if ground.frame(vl, j).sub == it.sub and ground.frame(vl, j).start == 0]
        port = ground.port_of(ground.first(vl, begins[-1]))
        return len(ground.events[vl][k]) == 2 and port["checksum"] == "none" and it.size > (0 if it.start else 8)

    vl, k = ground.choose(fits)
    it, places = ground.frame(vl, k), ground.events[vl][k]
    at = ground.rng.randrange(34 if it.start else 42, 34 + it.size)
    place = ground.rng.choice(places)
    data = ground.packets[place].data
    ground.packets[place] = moved(ground.packets[place], put(data, at, bytes([data[at] ^ 1 << ground.rng.randrange(8)])))
    return ground.planted("Twin", "", [max(places)])


def lost(ground: Ground) -> Planted:
    """The last frame of a link that ends early, which one network lacks. That network was recorded more than the skew before it,
    and more than the skew after it."""
    vl, k = ground.choose(lambda vl, k: len(ground.events[vl][k]) == 2)
    gone, left = ground.rng.sample(ground.events[vl][k], 2)
    kept = ground.packets[left]
    without = {gone, *(it for event in ground.events[vl][k + 1 :] for it in event)}
    left_over = [it for place, it in enumerate(ground.packets) if place not in without]
    others = [it.at for it in left_over if it.network != kept.network]
    if not others or kept.at - min(others) <= 10_000 * MICRO or max(others) - kept.at <= 10_000 * MICRO:
        raise Unfit
    return Planted(ground.plan, left_over, [("Missing", "", kept)])


def restarted(ground: Ground) -> Planted:
    """A transmitter that starts again after a while: the rest of its messages is gone, and its numbers begin again, in this
    project's frames also its identifications."""
    def left(vl: int, k: int) -> list[int]:
        gone = {frame for j in range(k) if not ground.frame(vl, j).start for frame in ground.message_of(vl, j)}
        return [j for j in range(k, len(ground.events[vl])) if j not in gone]

    def fits(vl: int, k: int) -> bool:
        return k > 0 and ground.first(vl, k - 1)[-1] != 255 and bool(left(vl, k))

    vl, k = ground.choose(fits)
    own, counts = left(vl, k), dict.fromkeys(range(4), -1)
    gone = {it for j in range(k, len(ground.events[vl])) if j not in own for it in ground.events[vl][j]}
    for place, j in enumerate(own):
        it, number = ground.frame(vl, j), (place - 1) % 255 + 1 if place else 0
        counts[it.sub] += it.start == 0
        ident = ground.first(vl, j)[18:20] if ground.arinc else (4 * counts[it.sub] + it.sub).to_bytes(2, "big")
        for packet in ground.rewrite(vl, j, lambda data, ident=ident, number=number: summed(put(data, 18, ident))[:-1] + bytes([number])):
            ground.packets[packet] = ground.packets[packet]._replace(at=ground.packets[packet].at + 1000**3)
    wanted = [("Restart", "", ground.packets[it]) for it in ground.events[vl][own[0]]]
    packets = by_time([it for place, it in enumerate(ground.packets) if place not in gone])
    return Planted(ground.plan, packets, sorted(wanted, key=lambda it: packets.index(it[2])))


def strayed(ground: Ground) -> Planted:
    """A piece of another maker's that goes on with no message, after each sub-VL of its link has begun one."""
    def fits(vl: int, k: int) -> bool:
        begun = {ground.frame(vl, j).sub for j in range(k) if ground.frame(vl, j).start == 0}
        return ground.frame(vl, k).start > 0 and len(begun) == ground.links[vl]["sub_vls"]

    vl, k = ground.choose(fits)
    ident = (half(ground.first(vl, k), 18) ^ 0x8000).to_bytes(2, "big")
    return ground.planted("Fragment", "Offset", ground.rewrite(vl, k, lambda data: summed(put(data, 18, ident))))


# A fault of each kind, in the order of the kinds.
PLANTS = [broken, of_another, of_no_link, on_another, too_long, miscounted, hurried, of_no_port, misfit, misended]
PLANTS += [out_of_turn, unlike, lost, restarted]
