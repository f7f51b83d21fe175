"""What `afdx_bench judge` must print of a plan and of captures, and how it must end: a model from `docs/afdx.md`,
`docs/frames.md` and `docs/guide/judge.md`, which joins messages from lists of pieces."""
import tomllib
import zlib
from typing import NamedTuple

from captures import SECOND, Packet, Reader, merged
from streams import ICMP, Options, Piece, Stream, Table, differ, half, words

KINDS = "Frame Source Link Network Size Number Early Port Fragment Message Turn Twin Missing Restart".split()
PRINTED = 100
FOREIGN_ROWS = 64
HEAD = " link net      frames         bytes    messages      bag-ns   least-gap-ns     lead-ns"
HEAD += "  greatest-gap-ns    mean-gap-ns  mean-lead-ns    used-%\n"
RECORD = "; record one interface, as tcpdump -i eth1 -w FILE does"


class Finding(NamedTuple):
    """A finding: its kind and rule, the packet, and what is said of it."""

    kind: str
    rule: str
    packet: int
    network: str
    at: int
    link: int | None
    told: str = ""

    def line(self) -> str:
        """The line that is printed."""
        vl = "-" if self.link is None else self.link
        name = f"{self.kind} {self.rule}" if self.rule else self.kind
        told = f": {self.told}" if self.told else ""
        return f"{self.packet} {self.network} {self.at // SECOND}.{self.at % SECOND:09} vl {vl} {name}{told}\n"


class Refused(Exception):
    """Why a packet is no frame of the plan: kind, rule, what is said, and the link if it is known."""


class Repeated(Exception):
    """One more frame with its check sequence, which was told once."""


def layout_fault(frame: bytes, options: Options) -> tuple[str, str] | None:
    """The first rule of the layout that a frame breaks, and what is said. By ARINC 664 alone, three fields may be anything, a
    whole datagram may have the flag DF, and a frame may carry ICMP."""
    arinc = options.arinc
    free = {8: frame[15:16], 9: frame[22:23]} if arinc else {8: b"\0", 9: b"\1"}
    if not 60 <= len(frame) <= 1514:
        return "Length", differ(len(frame), min(max(len(frame), 60), 1514))
    total, word = half(frame, 16), half(frame, 20)
    offset = 8 * (word & 0x1FFF)
    is_long = total >= 21 and len(frame) == max(60, 15 + total)
    is_flagged = word < 0x4000 or arinc and word == 0x4000
    is_piece = is_flagged and not (word & 0x2000 and (total - 20) % 8) and offset + total <= 8220
    is_address = frame[26] == 10 and frame[27:29] == frame[9:11] and frame[29] < 32
    is_destination = frame[30] == 10 or frame[30:34] == b"\xe0\xe0" + frame[4:6]
    rules = {
        "DestinationMac": (0, frame[:4] == options.front()),
        "SourceMac": (6, frame[6:9] == b"\2\0\0"),
        "Interface": (11, frame[11] in options.byte_11().values()),
        "EtherType": (12, frame[12:14] == b"\x08\0"),
        "Version": (14, frame[14:16] == b"\x45" + free[8]),
        "TotalLength": (16, is_long),
        "Fragment": (20, is_piece),
        "Protocol": (22, frame[22:24] == free[9] + b"\x11" or arinc and frame[23] == ICMP),
        "HeaderSum": (24, words(frame[14:34]) % 65_535 == 0),
        "SourceAddress": (26, is_address),
        "DestinationAddress": (30, is_destination),
    }
    broken = [(rule, f"byte {at}") for rule, (at, is_kept) in rules.items() if not is_kept]
    padding = [("Padding", f"byte {at}") for at in range(14 + total, len(frame) - 1) if frame[at] and not arinc]
    return next(iter(broken + padding), None)


class Waiting(NamedTuple):
    """A frame without its twin."""

    packet: int
    network: str
    at: int
    frame: bytes


class Judge:
    """A judge of packets."""

    def __init__(self, plan: Table, options: Options) -> None:
        self.options, self.end_system, self.links = options, plan["end_system"]["id"], {it["id"]: it for it in plan["vl"]}
        self.streams = {(vl, net): Stream(link, plan["port"], options) for vl, link in self.links.items() for net in self.nets(link)}
        self.waiting: dict[int, list[Waiting]] = {vl: [] for vl in self.links}
        # The times between twins, by the links.
        self.leads: dict[int, list[int]] = {vl: [] for vl in self.links}
        # The times of the first and the last packet of each network that has any.
        self.ends: dict[str, tuple[int, int]] = {}
        self.is_told, self.findings = False, []

    @staticmethod
    def nets(link: Table) -> str:
        """The networks that carry a link."""
        on = link.get("networks", "both")
        return "AB" if on == "both" else on.upper()

    def add(self, packet: tuple[int, str, int], link: int | None, kind: str, rule: str, told: str) -> None:
        """Adds a finding."""
        self.findings.append(Finding(kind, rule, *packet, link, told))

    def take(self, number: int, network: str, packet: Packet) -> None:
        """Judges a packet."""
        tag = number, network, packet.at or 0
        if packet.at is None:
            self.add(tag, None, "Frame", "Time", "")
            return
        first, last = self.ends.get(network, (packet.at, packet.at))
        self.ends[network] = min(first, packet.at), max(last, packet.at)
        try:
            frame = self.frame_of(packet)
            self.accept(frame, network)
        except Repeated:
            return
        except Refused as refused:
            link, *why = refused.args
            self.add(tag, link, *why)
            return
        vl, piece = half(frame, 4), Piece(frame)
        arrived = Waiting(*tag, frame)
        is_on_both = len(self.nets(self.links[vl])) == 2
        if is_on_both:
            self.part(vl, arrived)
        for kind, rule, told in self.streams[vl, network].deviations(packet.at, piece):
            self.add(tag, vl, kind, rule, told)
        if is_on_both:
            self.pair(vl, arrived)

    def frame_of(self, packet: Packet) -> bytes:
        """The frame of a packet, without its check sequence."""
        data = packet.data
        if len(data) < packet.original:
            raise Refused(None, "Frame", "Snapped", differ(len(data), packet.original))
        if self.options.fcs or packet.fcs:
            if len(data) < 4:
                raise Refused(None, "Frame", "Length", differ(len(data), 60))
            seen, wanted = int.from_bytes(data[-4:], "little"), zlib.crc32(data[:-4])
            if seen != wanted:
                raise Refused(None, "Frame", "CheckSequence", differ(seen, wanted))
            return data[:-4]
        if packet.fcs is None and 64 <= len(data) <= 1518 and len(data) == max(60, 15 + half(data, 16)) + 4:
            if self.is_told:
                raise Repeated
            self.is_told = True
            raise Refused(None, "Frame", "Recorded", differ(len(data), len(data) - 4))
        return data

    def accept(self, frame: bytes, network: str) -> None:
        """Refuses a frame that isn't of the layout, the end system, a link or the network."""
        fault = layout_fault(frame, self.options)
        if fault:
            raise Refused(None, "Frame", *fault)
        if half(frame, 9) != self.end_system:
            raise Refused(None, "Source", "", differ(half(frame, 9), self.end_system))
        vl = half(frame, 4)
        if vl not in self.links:
            raise Refused(vl, "Link", "", "")
        own, carries = self.options.byte_11()[network], network in self.nets(self.links[vl])
        if frame[11] != own or not carries:
            raise Refused(vl, "Network", "", differ(frame[11], own if carries else 0))

    def near(self, one: int, other: int) -> bool:
        """Whether two times are within the skew."""
        return abs(one - other) <= 1000 * self.options.skew

    def began(self, it: Waiting) -> bool:
        """Whether the other network was being recorded before a frame's twin could come: its first packet is earlier."""
        ends = self.ends.get("AB".replace(it.network, ""))
        return ends is not None and ends[0] < it.at - 1000 * self.options.skew

    def went_on(self, it: Waiting) -> bool:
        """Whether the other network was still being recorded after a frame's twin could come: its last packet is later."""
        ends = self.ends.get("AB".replace(it.network, ""))
        return ends is not None and ends[1] > it.at + 1000 * self.options.skew

    def missing(self, vl: int, it: Waiting) -> None:
        """Tells a frame that has no twin, unless it came before the other network was recorded."""
        if self.began(it):
            self.add(it[:3], vl, "Missing", "", f"seen {it.frame[-1]}")

    def part(self, vl: int, arrived: Waiting) -> None:
        """Lets the frames go that wait no longer. Those whose other network may have stopped wait on, until their own network
        comes to their number again."""
        def waits(it: Waiting) -> bool:
            if (it.network, it.frame[-1]) == (arrived.network, arrived.frame[-1]):
                return False
            return self.near(it.at, arrived.at) or (self.began(it) and not self.went_on(it))

        for it in self.waiting[vl]:
            if not waits(it):
                self.missing(vl, it)
        self.waiting[vl] = [*filter(waits, self.waiting[vl])]

    def pair(self, vl: int, arrived: Waiting) -> None:
        """Compares a frame with the one that waits for it within the skew, or lets it wait."""
        for place, it in enumerate(self.waiting[vl]):
            if it.network != arrived.network and it.frame[-1] == arrived.frame[-1] and self.near(it.at, arrived.at):
                del self.waiting[vl][place]
                self.leads[vl].append(abs(arrived.at - it.at))
                one, other = arrived.frame, it.frame
                if one[:11] + one[12:] != other[:11] + other[12:]:
                    both = range(min(len(one), len(other)))
                    byte = next((k for k in both if k != 11 and one[k] != other[k]), len(both))
                    self.add(arrived[:3], vl, "Twin", "", f"byte {byte}, packet {it.packet}")
                return
        self.waiting[vl].append(arrived)

    def end(self) -> None:
        """Ends the recording."""
        for vl, waiting in self.waiting.items():
            for it in filter(self.went_on, waiting):
                self.missing(vl, it)


def read_line(place: int, reader: Reader, is_only: bool) -> str:
    """What is printed of a capture as such."""
    others = sum(it.network is None for it in reader.packets) if is_only else 0
    text = f"capture {place}: {len(reader.packets)} packets"
    text += f", {others} of other interfaces" if others else ""
    text += f", {reader.lost} lost by the recorder" if reader.lost else ""
    if reader.end.fault:
        at = f"at byte {reader.end.at}"
        told = {"CutOff": f"cut off {at}", "Format": "neither pcapng nor pcap", "LinkType": f"link type {reader.link} {at}"}
        text += f", {told.get(reader.end.fault, f'malformed {at}: {reader.end.fault}')}"
    return text + "\n"


def row(judge: Judge, vl: int, net: str) -> str:
    """The row of a link on a network."""
    it, leads = judge.streams[vl, net], judge.leads[vl]
    bag = it.link["bag_ms"] * 10**6
    least, greatest, mean = ("-", "-", "-") if not it.gaps else (min(it.gaps), max(it.gaps), sum(it.gaps) // len(it.gaps))
    lead, mean_lead = ("-", "-") if not leads else (max(leads), sum(leads) // len(leads))
    text = f"{vl:>5}{net:>4}{it.frames:>12}{it.bytes:>14}{it.messages:>12}{bag:>12}{least:>15}{lead:>12}"
    return text + f"{greatest:>17}{mean:>15}{mean_lead:>14}{used(it, judge.ends.get(net)):>10}\n"


def used(stream: Stream, ends: tuple[int, int] | None) -> str:
    """The share of its bandwidth that a link used while its network was recorded, in percent, rounded up: what its frames took on
    the wire, of what frames of Lmax take that are sent at the first packet and then in each BAG up to the last."""
    if ends is None:
        return "-"
    sent = stream.bytes + (4 + 20) * stream.frames
    most = (stream.link["lmax"] + 20) * (1 + (ends[1] - ends[0]) // (stream.link["bag_ms"] * 10**6))
    whole, part = divmod(-(-10_000 * sent // most), 100)
    return f"{whole}.{part:02}"


def nothing_judged(place: int, reader: Reader) -> str:
    """The line on a file that is no capture."""
    told = {"Format": "is neither pcapng nor pcap", "LinkType": f"has link type {reader.link}, not Ethernet's, which is 1"}
    return f"nothing judged: capture {place} {told.get(reader.end.fault, 'ends before its first packet')}{RECORD}\n"


class Ways(NamedTuple):
    """How packets are judged: the plans of other end systems, whether a link without a frame is a finding, whether foreign frames
    are counted, and whether the network is what byte 11 says."""

    plans: tuple[str, ...] = ()
    all_links: bool = False
    foreign: bool = False
    by_byte: bool = False

    def words(self, names: list[str]) -> list[str]:
        """The words of the command, with the files of the plans."""
        flags = [f"--{name.replace('_', '-')}" for name in ("all_links", "foreign", "by_byte") if getattr(self, name)]
        return [word for name in names for word in ("--with", name)] + flags


def source_of(data: bytes) -> int | None:
    """The end system of a frame's source MAC address."""
    return half(data, 9) if len(data) >= 12 and data[6:9] == b"\2\0\0" else None


class Tap:
    """The judges of the plans of a network, what they found, which interface was which network, and foreign frames."""

    def __init__(self, plans: list[Table], options: Options, ways: Ways) -> None:
        self.judges, self.options, self.ways, self.findings, self.taken, self.foreign = [], options, ways, [], [], {}
        for plan in plans:
            self.judges.append(Judge(plan, options))
            self.judges[-1].findings = self.findings

    def take(self, number: int, network: str, packet: Packet, where: tuple[int, int]) -> None:
        """Takes a packet of an interface, which is the number of its capture and its own."""
        data, source = packet.data, source_of(packet.data)
        tag, own = (number, network, packet.at or 0), [it for it in self.judges if it.end_system == source]
        if self.ways.foreign and len(data) >= 14 and not own:
            key = data[6:12], half(data, 12)
            key = key if key in self.foreign or len(self.foreign) < FOREIGN_ROWS else None
            self.foreign[key] = self.foreign.get(key, 0) + 1
            return
        if self.ways.by_byte and len(data) >= 12:
            network = {byte: name for name, byte in self.options.byte_11().items()}.get(data[11])
            if network is None:
                self.findings.append(Finding("Network", "", *tag, None, differ(data[11], 0)))
                return
        taken = (network, *where)
        if taken not in self.taken:
            self.taken.append(taken)
        judges = self.judges if len(self.judges) == 1 else own
        if judges:
            judges[0].take(number, network, packet)
        else:
            told = differ(source or 0, self.judges[0].end_system)
            self.findings.append(Finding("Source", "", number, network, packet.at or 0, None, told))

    def silent(self, judge: Judge) -> list[tuple[int, str]]:
        """The links of a plan without a frame, and the networks."""
        return [(vl, net) for net in "AB" for vl, on in judge.streams if on == net and not judge.streams[vl, net].frames]

    def silence(self, judge: Judge) -> str:
        """The line of them."""
        silent, told = self.silent(judge), []
        for net in "AB":
            carried = [vl for vl, on in judge.streams if on == net]
            quiet = [vl for vl, on in silent if on == net]
            told += [f"network {net}"] if quiet == carried and carried else [f"link {vl} on {net}" for vl in quiet]
        whose = f"end system {judge.end_system}, " if len(self.judges) > 1 else ""
        return f"{whose}without a frame: {', '.join(told)}\n" if told else ""

    def summary(self) -> str:
        """The lines after those of the captures."""
        taken = [f"{net} is interface {interface} of capture {place}" for net, place, interface in sorted(self.taken, key=lambda it: it[0])]
        text = f"networks: {', '.join(taken)}\n" if taken else ""
        text += f"addresses: {self.options.addresses()}\n" if self.options.addresses() else ""
        text += "".join(map(self.silence, self.judges))
        for key, count in self.foreign.items():
            text += f"foreign: {count} of {key[0].hex(':')}, EtherType {key[1]:04x}\n" if key else ""
        text += f"foreign: {self.foreign[None]} of others\n" if None in self.foreign else ""
        for judge in self.judges:
            text += f"end system {judge.end_system}\n" if len(self.judges) > 1 else ""
            text += HEAD
            text += "".join(row(judge, vl, net) for vl, net in judge.streams)
        return text


def lines_of(found: list[Finding], silent: list[str]) -> str:
    """The lines of findings: the first hundred of each kind, how many more there are, and how many there are at all."""
    text, counts = "", dict.fromkeys([*KINDS, "Silent"], 0)
    for kind, line in [*((it.kind, it.line()) for it in found), *(("Silent", line) for line in silent)]:
        counts[kind] += 1
        text += line if counts[kind] <= PRINTED else ""
    more = ", ".join(f"{kind} {count - PRINTED}" for kind, count in counts.items() if count > PRINTED)
    text += f"and more: {more}\n" if more else ""
    total = sum(counts.values())
    line = f"{total} finding{'s' * (total != 1)}: " + ", ".join(f"{kind} {count}" for kind, count in counts.items() if count)
    return text + (f"{line}\n" if total else "no findings\n")


def judged(
    plan: str, captures: list[bytes], options: Options, is_piped: bool = False, ways: Ways = Ways()
) -> tuple[int, str, list[Finding]]:
    """The exit status, standard output, and all findings."""
    readers, plans = [*map(Reader, captures)], [tomllib.loads(it) for it in (plan, *ways.plans)]
    tap, is_only = Tap(plans, options, ways), len(captures) == 1
    for number, network, packet in merged(readers, is_piped):
        place = 0 if is_only else "AB".index(network)
        tap.take(number, network, packet, (place + 1, readers[place].numbers[number - 1]))
    for judge in tap.judges:
        judge.end()
    for place, reader in enumerate(readers, 1):
        if reader.end.fault and not reader.packets:
            return 2, nothing_judged(place, reader) + read_line(place, reader, is_only), tap.findings
    silent = [f"- {net} - vl {vl} Silent\n" for judge in tap.judges for vl, net in silent_of(tap, judge)] if ways.all_links else []
    text = lines_of(tap.findings, silent)
    text += "".join(read_line(place, reader, is_only) for place, reader in enumerate(readers, 1))
    is_found = bool(tap.findings or silent)
    return 2 if any(it.end.fault or it.lost for it in readers) else int(is_found), text + tap.summary(), tap.findings


def silent_of(tap: Tap, judge: Judge) -> list[tuple[int, str]]:
    """The links without a frame, in the order of the plan."""
    return sorted(tap.silent(judge), key=[*judge.streams].index)
