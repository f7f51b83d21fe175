"""What a judge finds in recordings, as `afdx_bench judge` prints it."""
from __future__ import annotations

from typing import NamedTuple

from ._library import Captured, FindingRow

KINDS = "Frame Source Link Network Size Number Early Port Fragment Message Turn Twin Missing Restart".split()
RULES = {
    "Frame": "Time Snapped CheckSequence Recorded Length DestinationMac SourceMac Interface EtherType Version TotalLength "
    "Fragment Protocol HeaderSum SourceAddress DestinationAddress Padding".split(),
    "Fragment": "Offset Identification Addresses Length Repeated".split(),
    "Message": "UdpLength Size UdpChecksum".split(),
}
FAULTS = (
    "Format ByteOrder Version Length TooLong EndLength LinkType BadOption Interfaces Obsolete NoInterface Captured Time".split()
)
NO_VL = 65_536
BOTH = ": seen {0}, wanted {1}"
# What is printed of the numbers of a kind, or of one of its rules, other than both.
NUMBERS = {
    "Frame": ": byte {0}", "Link": "", "Port": ": seen {0}", "Missing": ": seen {0}", "Frame Time": "", "Fragment Addresses": "",
    "Fragment Repeated": ": seen {0}",
    "Turn": ": sub-VL {0}, between pieces of sub-VL {1}", "Twin": ": byte {0}, packet {1}", "Frame Snapped": BOTH,
    "Frame CheckSequence": BOTH, "Frame Recorded": BOTH, "Frame Length": BOTH,
}


class Finding(NamedTuple):
    """What a packet of a recording does wrong (docs/guide/judge.md): the kind and its rule ("" for a kind without rules), the
    packet's number in its capture, its network, `A` or `B`, its time in nanoseconds since 1970, its link (None if unknown),
    and the numbers that were seen and wanted. `str` gives the line that `afdx_bench judge` prints."""

    kind: str
    rule: str
    packet: int
    network: int
    at: int
    vl: int | None
    seen: int
    wanted: int

    def __str__(self) -> str:
        name = f"{self.kind} {self.rule}" if self.rule else self.kind
        numbers = NUMBERS.get(name, NUMBERS.get(self.kind, BOTH)).format(self.seen, self.wanted)
        vl = "-" if self.vl is None else self.vl
        at = f"{self.at // 10**9}.{self.at % 10**9:09}"
        return f"{self.packet} {'AB'[self.network]} {at} vl {vl} {name}{numbers}"


def finding_of(row: FindingRow) -> Finding:
    """The finding of a row."""
    kind = KINDS[row.kind - 1]
    rule = RULES[kind][row.rule - 1] if row.rule else ""
    vl = None if row.vl == NO_VL else row.vl
    return Finding(kind, rule, row.packet, row.network, row.at, vl, row.seen, row.wanted)


def captured_of(number: int, row: Captured, lost: int) -> str:
    """What was read of a capture, as `afdx_bench judge` prints it."""
    ends = ["", f", cut off at byte {row.at}", *(f", malformed at byte {row.at}: {fault}" for fault in FAULTS)]
    no_captures = {"Format": ", neither pcapng nor pcap", "LinkType": f", another link type at byte {row.at}"}
    fault = FAULTS[row.end - 2] if row.end > 1 else ""
    losses = f", {lost} lost by the recorder" if lost else ""
    return f"capture {number}: {row.packets} packets{losses}{no_captures.get(fault, ends[row.end])}"
