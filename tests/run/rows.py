"""Scripts, and what `afdx_bench run` must print of them, as fixed texts. In both, `|` is the end of a line."""
import re
from collections.abc import Iterable, Iterator
from typing import NamedTuple

from trying import DEMO, ONE_FRAME, blocks, check

# A message of one byte: the time of its frame, its identification, and the byte.
OneByte = tuple[int, int, int]
FIRST: OneByte = (0, 0, 1)
LAST_TIME = 2**64 - 1
# Byte 11 of the frames of each network.
BYTE_11 = {"A": "20", "B": "40"}


class Row(NamedTuple):
    """A run: its name, its plan and its script; its exit status, standard output and standard error; how many messages it
    accepts, unless a fault ends it."""

    name: str
    plan: str
    script: bytes
    status: int
    out: str
    err: str = ""
    accepted: int | None = None


def lines(text: str) -> str:
    """A text with its lines apart."""
    return text.replace("|", "\n")


def row(name: str, plan: str, script: str, out: str, accepted: int) -> Row:
    """A run without a fault. Each character of the script is a byte."""
    return Row(name, plan, lines(script).encode("latin-1"), 3 if ": refused " in out else 0, out, accepted=accepted)


def demo(*changes: str) -> str:
    """The demonstration with each of these lines in place of the one with its key."""
    text = DEMO
    for line in changes:
        text = re.sub(rf"(?m)^{line.partition(' ')[0]} = .*", lines(line), text)
    return text


def plan_of(links: Iterable[tuple[int, int, int, int]], ports: Iterable[tuple[int, int, int]]) -> str:
    """A plan of links (id, lmax, sub_vls, capacity) and ports (id, vl, sub)."""
    text = "end_system = {id = 1}\n"
    for vl, lmax, sub_vls, capacity in links:
        text += f"[[vl]]\nid = {vl}\nbag_ms = 1\nlmax = {lmax}\nsub_vls = {sub_vls}\ncapacity = {capacity}\n"
    for port, vl, sub in ports:
        text += f"[[port]]\nid = {port}\nvl = {vl}\nsub = {sub}\npartition = 1\nkind = 'queuing'\n"
        text += f"source = {1000 + sub}\ndestination = 2000\nmax = 8192\n"
    return text


# A link of two sub-VLs with frames of 64 bytes, and a port on each.
IN_TURN = plan_of([(1, 64, 2, 2)], [(20, 1, 0), (21, 1, 1)])
# Two links of two sub-VLs, and a port on each sub-VL.
TWO_LINKS = plan_of([(1, 1518, 2, 2), (2, 1518, 2, 2)], [(10, 1, 0), (11, 1, 1), (20, 2, 0), (21, 2, 1)])


def one_byte(net: str, message: OneByte, before: int, vl: int = 1) -> str:
    """The line of a message of one byte on a network, after `before` frames of its link. The header checksum goes down by one
    for each one that the address and the identification go up."""
    at, ident, byte = message
    # (0 for the first one, and 1 to 255 in turn for the others)
    number = min(before, 1) + max(before - 1, 0) % 255
    header = f"03000000{vl:04x}0200000001{BYTE_11[net]}08004500001d{ident:04x}00000111{(0xCDEF - vl - ident) % 65535:04x}0a000101e0e0{vl:04x}"
    return f"{net} {at} {header}{1000 + ident % 4:04x}07d000090000{byte:02x}{0:032x}{number:02x}\n"


def frames(sent: Iterable[OneByte], nets: str = "AB") -> str:
    """The lines of messages of link 1."""
    return "".join(one_byte(net, message, place) for net in nets for place, message in enumerate(sent))


def packet_frames(*packets: str) -> str:
    """The lines of frames of link 1, a gap apart, by their IPv4 packets, which zeros pad to 45 bytes."""
    return "".join(
        f"{net} {1000 * k} 0300000000010200000001{byte_11}0800{packet:0<90}{k:02x}\n"
        for net, byte_11 in BYTE_11.items()
        for k, packet in enumerate(packets)
    )


def case(name: str, script: str, notes: str, sent: Iterable[OneByte], accepted: int, *changes: str) -> Row:
    """A run over the demonstration with changed lines: its notes, and the messages that are sent."""
    return row(name, demo(*changes), script, lines(notes) + frames(sent), accepted)


def basics() -> Iterator[Row]:
    """Scripts without a note."""
    # (the two lines of README.md)
    yield row("a message goes out on both networks", DEMO, "send 10 01|at 0|", ONE_FRAME, 1)
    yield row("the same after a comment and a blank line", DEMO, "# note\r||\r| send\t0010 01|at 0", ONE_FRAME, 1)
    mark = "\xef\xbb\xbf"
    yield row("the same after a byte order mark", DEMO, f"{mark}send 10 01|at 0|", ONE_FRAME, 1)
    yield row("a byte order mark alone", DEMO, mark, "", 0)
    script = "\r|  send\t10   01 \r|\t\t# \0\xff\xc3\xa9\r| \t \r| at \t 0\r|   at     1000"
    yield case("blanks, and a comment of odd bytes", script, "", [FIRST], 1)
    yield case("no line", "", "", [], 0)
    yield case("a poll of an empty queue", "at 0|", "", [], 0)
    yield case("no poll", "send 10 01|", "", [], 1)
    script, sent = "send 10 01|send 10 02|at 0|at 1999|at 2000|", [FIRST, (2000, 4, 2)]
    yield case("a link releases again after its gap and not before", script, "", sent, 2, "bag_ms = 2")
    script = "send 10 01|send 10 02|send 10 03|at 0|at 7000|at 8000|at 11000|"
    sent = [FIRST, (7000, 4, 2), (11000, 8, 3)]
    yield case("a link that is polled late does not catch up", script, "", sent, 3, "bag_ms = 4", "capacity = 3")
    script, sent = "".join(f"send 10 01|at {1000 * k}|" for k in range(257)), [(1000 * k, 4 * k, 1) for k in range(257)]
    yield case("numbers go on with 1 after 255", script, "", sent, 257)


def identifications() -> Iterator[Row]:
    """As many messages of sub-VL 3 as there are identifications for, and two more: they begin anew with 3."""
    sent = [(1000 * k, (4 * k + 3) % 65_536, k % 256) for k in range(16_386)]
    script = "".join(f"send 13 {byte:02x}|at {at}|" for at, _, byte in sent)
    yield row("16,386 messages", plan_of([(1, 1518, 4, 2)], [(13, 1, 3)]), script, frames(sent), len(sent))


def refusals() -> Iterator[Row]:
    """Scripts with lines that are refused."""
    script, notes = "send 10 01|send 10 02|send 10 03|at 0|send 10 03|at 1000|at 2000|", "line 3: refused Full|"
    yield case("a full queue refuses until a frame is sent", script, notes, [FIRST, (1000, 4, 2), (2000, 8, 3)], 3)
    script, notes = f"send 10 01|send 10 02|at {LAST_TIME}|at {LAST_TIME}|at 5|", "line 5: refused TimeBack|"
    yield case("an earlier time is refused and an equal one is not", script, notes, [(LAST_TIME, 0, 1)], 2)
    script = f"send 10 -|send 10 {'00' * 8193}|send 99 01|send 10 07|at 0|"
    notes = "line 1: refused Empty|line 2: refused TooLong|line 3: refused NoPort|"
    yield case("a refused message takes no identification", script, notes, [(0, 0, 7)], 1)
    yield case("a port of the greatest identifier", "send 65535 01|", "line 1: refused NoPort|", [], 0)


def closing() -> Iterator[Row]:
    """Scripts that close sub-VLs."""
    sent = [FIRST, (1000, 4, 2)]
    notes = "line 3: closed 2|line 4: refused Closed|line 5: closed 2|line 6: refused NoSub|"
    script = "send 10 01|send 10 02|close 1 0|send 10 03|close 1 0|close 1 1|at 0|at 1000|"
    yield case("a closed sub-VL sends what it accepted and accepts no more", script, notes, sent, 2)
    script = "send 10 01|send 10 02|\tclose\t001 \t000 |send 10 03|close 01 0\r| close 1  255|at 0|at 1000"
    yield case("the same with blanks", script, notes, sent, 2)
    script = "close 1 1|send 10 01|at 0|"
    yield case("a sub-VL that no port sends on closes with 0", script, "line 1: closed 0|", [FIRST], 1, "sub_vls = 2")
    script = "close 0 0|close 2 0|close 1 2|close 65535 255|send 10 01|at 0|"
    notes = "line 1: refused NoSub|line 2: refused NoSub|line 3: refused NoSub|line 4: refused NoSub|"
    yield case("a sub-VL that does not exist is not closed", script, notes, [FIRST], 1, "sub_vls = 2")
    script = "send 10 01|at 0|send 10 02|close 1 0|at 1000|close 1 0|at 2000|"
    yield case("a total counts messages that were sent too", script, "line 4: closed 2|line 6: closed 2|", sent, 2)


# Changed lines of the demonstration in version 2, a message, and its IPv4 packet.
DATAGRAMS = [
    ("max = 8192", "01", "4500001d000000000111cdee0a000101e0e0000103e807d00009000001"),
    ("max = 8192|dest_ip = '10.0.2.1'", "01", "4500001d000000000111a2cf0a0001010a00020103e807d00009000001"),
    ("max = 8192|checksum = 'none'", "01", "4500001d000000000111cdee0a000101e0e0000103e807d00009000001"),
    ("max = 8192|checksum = 'udp'", "01", "4500001d000000000111cdee0a000101e0e0000103e807d00009074201"),
    ("max = 8192|checksum = 'udp'", "0840", "4500001e000000000111cded0a000101e0e0000103e807d0000affff0840"),
]


def datagrams() -> Iterator[Row]:
    """Messages whose datagrams carry an address and a checksum, or zero."""
    for change, message, packet in DATAGRAMS:
        for version in ("version = 2\n", "") if "checksum" not in change else ("version = 2\n",):
            yield row(change, version + demo(change), f"send 10 {message}|at 0|", packet_frames(packet), 1)


def long_messages() -> Iterator[Row]:
    """A message that fills one frame, and one that takes two, of which the first has the checksum of both."""
    out = packet_frames("450005db000000000111c8300a000101e0e0000103e807d005c70000" + "aa" * 1471)
    check(len(out) == 2 * (len("A 0 ") + 2 * 1514 + 1))
    yield row("1,471 bytes", DEMO, f"send 10 {'aa' * 1471}|at 0|", out, 1)
    second = "4500001c000000b80111cd370a000101e0e00001aaaaaaaaaaaaaaaa"
    for checksum, plan in (("0000", DEMO), ("5219", "version = 2\n" + demo("max = 8192|checksum = 'udp'"))):
        first = f"450005d4000020000111a8370a000101e0e0000103e807d005c8{checksum}{'aa' * 1464}"
        yield row(f"1,472 bytes, {checksum}", plan, f"send 10 {'aa' * 1472}|at 0|at 1000|", packet_frames(first, second), 1)


# Sizes of messages over frames of 64 bytes, and their packets: a datagram of 25 bytes is sent whole, one of 26 is cut at 24,
# and a last piece may be longer than that.
CUTS = [
    (17, "4500002d000000000111cdde0a000101e0e0000103e807d000190000" + "aa" * 17),
    (18, "4500002c000020000111addf0a000101e0e0000103e807d0001a0000" + "aa" * 16, "45000016000000030111cdf20a000101e0e00001aaaa"),
    (41, "4500002c000020000111addf0a000101e0e0000103e807d000310000" + "aa" * 16, "4500002d000000030111cddb0a000101e0e00001" + "aa" * 25),
]


def cuts() -> Iterator[Row]:
    """Messages over frames of 64 bytes."""
    for size, *packets in CUTS:
        yield row(f"{size} bytes", demo("lmax = 64"), f"send 10 {'aa' * size}|at 0|at 1000|at 2000|", packet_frames(*packets), 1)


def networks() -> Iterator[Row]:
    """Links on both networks or on one."""
    for key, nets in (("", "AB"), ("|networks = 'both'", "AB"), ("|networks = 'a'", "A"), ("|networks = 'b'", "B")):
        yield row(key, "version = 2\n" + demo(f"capacity = 2{key}"), "send 10 01|at 0|", frames([FIRST], nets), 1)


# The IPv4 packets of the pieces of a message of 60 bytes on a link with frames of 64 bytes.
PIECES = (
    "4500002c000020000111addf0a000101e0e0000103e807d000440000aaaaaaaaaaaaaaaaaaaaaaaaaaaaaaaa",
    "4500002c000020030111addc0a000101e0e00001aaaaaaaaaaaaaaaaaaaaaaaaaaaaaaaaaaaaaaaaaaaaaaaa",
    "45000028000000060111cddd0a000101e0e00001aaaaaaaaaaaaaaaaaaaaaaaaaaaaaaaaaaaaaaaa",
)


def short_packets(byte: int, *idents: int) -> list[str]:
    """The IPv4 packets of messages of one byte of link 1, by their identifications."""
    return [f"4500001d{k:04x}00000111{0xCDEE - k:04x}0a000101e0e00001{1000 + k % 4:04x}07d000090000{byte:02x}" for k in idents]


# What two sub-VLs send in turn: that message, and two of one byte.
SENT_IN_TURN = packet_frames(PIECES[0], *short_packets(1, 1), PIECES[1], *short_packets(2, 5), PIECES[2])


def turns() -> Iterator[Row]:
    """Two sub-VLs that send piece by piece in turn, and closes among several sub-VLs."""
    long, polls = f"send 20 {'aa' * 60}|", "at 1000|at 2000|at 3000|at 4000|"
    yield row("in turn", IN_TURN, f"{long}send 21 01|send 21 02|at 0|{polls}", SENT_IN_TURN, 3)
    ports = [(30 + k, 1, k) for k in range(4)]
    short = "".join(f"send {port} 01|send {port} 02|" for port, _, _ in ports[1:])
    out = packet_frames(PIECES[0], *short_packets(1, 1, 2, 3), PIECES[1], *short_packets(2, 5, 6, 7), PIECES[2])
    script = f"send 30 {'aa' * 60}|{short}at 0|{polls}at 5000|at 6000|at 7000|at 8000|"
    yield row("four sub-VLs in turn", plan_of([(1, 64, 4, 2)], ports), script, out, 7)
    script = f"{long}send 21 01|at 0|close 1 0|send 21 02|send 20 03|close 1 1|send 21 04|{polls}at 5000|"
    notes = lines("line 4: closed 1|line 6: refused Closed|line 7: closed 2|line 8: refused Closed|")
    yield row("a closed sub-VL ends what it began to send", IN_TURN, script, notes + SENT_IN_TURN, 3)
    script = "send 10 01|close 1 0|send 10 02|send 11 03|send 20 04|send 21 05|close 2 1|send 21 06|send 20 07|send 11 08|"
    notes = lines("line 2: closed 1|line 3: refused Closed|line 7: closed 1|line 8: refused Closed|")
    sent = ((1, FIRST), (2, (0, 0, 4)), (1, (1000, 1, 3)), (2, (1000, 1, 5)), (1, (2000, 5, 8)), (2, (2000, 4, 7)))
    out = notes + "".join(one_byte(net, message, message[0] // 1000, vl) for net in "AB" for vl, message in sent)
    yield row("a close closes no other sub-VL", TWO_LINKS, script + "at 0|at 1000|at 2000|", out, 6)


def guide() -> Iterator[Row]:
    """The script of `docs/guide/program.md` over the plan of `docs/guide/plan.md`."""
    (plan, *_), (script, out, *_) = (blocks(f"docs/guide/{page}.md") for page in ("plan", "program"))
    note, *of_a = out.splitlines(keepends=True)
    # (they differ in byte 11 alone)
    of_b = [re.sub(r"^A (\d+ .{22})20", r"B \g<1>40", line) for line in of_a]
    yield row("the guide", plan, script, "".join([note, *of_a, *of_b]), 2)


def greatest() -> Iterator[Row]:
    """64 links of four sub-VLs with room for 256 messages, and a port on each: the greatest plan but for its frames. Each port
    sends 256 messages of one byte, which fill its queue, and one more. Then all are polled, a gap apart, once more than there
    are messages of a link. At poll k a link's sub-VLs take turns, so it releases message k / 4 of sub-VL k % 4."""
    plan = plan_of(((vl, 1518, 4, 256) for vl in range(1, 65)), ((4 + k, 1 + k // 4, k % 4) for k in range(256)))
    script = "".join(f"send {port} {min(k, 255):02x}\n" for port in range(4, 260) for k in range(257))
    script += "".join(f"at {1000 * k}\n" for k in range(1025))
    notes = "".join(f"line {257 * port}: refused Full\n" for port in range(1, 257))
    sent = "".join(one_byte(net, (1000 * k, k, k // 4), k, vl) for net in "AB" for k in range(1024) for vl in range(1, 65))
    yield row("the greatest plan", plan, script, notes + sent, 65_536)


# Lines with each fault, and with odd bytes.
FAULTY = {
    "1 Word": "sand 10 01,send,send 10,send x,at,Send 10 01,sendd 10 01,close,close 1,close x,closed 1 0,Close 1 0",
    "2 Number": "at x,at +1,at -1,at 1x,send 65536 01,send - 0g 01,at 18446744073709551616 0,at 100000000000000000000000,"
    "close x 0,close 1 x,close 1 -,close 65536 0,close 70000 0,close 1 256,close 1 256 0",
    "3 Hex": "send 10 0g,send 10 012,send 10 0x01,send 10 --,send 10 0g 01",
    "4 Extra": "at 0 0,send 10 01 02,close 1 0 0,close 1 0 # note,send 10 - # note",
}
ODD = {
    "1 Word": (b"\0", b"\xc3\xa9", b"\xff", b"at\0 0"),
    "2 Number": (b"at 0\0", b"at \xb2", b"at 0\r\r\n", b"at 0\r"),
    "3 Hex": (b"send 10 0\0", b"send 10 \xff\xff"),
}


def line_faults() -> Iterator[Row]:
    """Lines with a fault: after one that sends a message, and after two by which its frame is sent."""
    faulty = [(fault, line.encode()) for fault, texts in FAULTY.items() for line in texts.split(",")]
    faulty += [(fault, line) for fault, texts in ODD.items() for line in texts]
    faulty += [("5 Long", b" " * 20_001 + end) for end in (b"", b"\n", b"\r\n", b"at 1000\nat 2000\n")]
    faulty += [("5 Long", b" " * 20_000 + b"\r"), *(("5 Long", first + b" " * 20_000) for first in (b"#", b"x", b"at x "))]
    for fault, line in faulty:
        name = f"{line[:40]!r}"
        yield Row(name, DEMO, b"send 10 01\n" + line, 2, "", f"script line 2: {fault}\n")
        yield Row(name, DEMO, b"send 10 01\nat 0\r\n" + line, 2, ONE_FRAME, f"script line 3: {fault}\n")
    mark = b"\xef\xbb\xbf"
    for front in (mark[:1], mark[:2], b"\xef\xbb\xbe", b"\xff\xfe", 2 * mark, b" " + mark):
        yield Row(f"{front!r} before a line", DEMO, front + b"at 0\n", 2, "", "script line 1: 1 Word\n")
        yield Row(f"{front!r} alone", DEMO, front, 2, "", "script line 1: 1 Word\n")
    yield Row("a byte order mark before a later line", DEMO, b"send 10 01\n" + mark + b"at 0\n", 2, "", "script line 2: 1 Word\n")
    yield Row("a long line after a byte order mark", DEMO, mark + b" " * 20_001, 2, "", "script line 1: 5 Long\n")
    yield Row("one byte less", DEMO, mark + b" " * 20_000 + b"\nat 0 0", 2, "", "script line 2: 4 Extra\n")
    for end in ("", "\r\n", "\n"):
        yield row("20,000 blanks", DEMO, f"send 10 01|at 0\r|{' ' * 20_000}{end}", ONE_FRAME, 1)


def written_before() -> Iterator[Row]:
    """What is printed of the lines before a fault, and of too many lines."""
    script, out = lines("|send 99 01|send 10 01|at 0|send 10 02|send|at 1000|"), "line 2: refused NoPort\n" + ONE_FRAME
    yield Row("a note and a frame", DEMO, script.encode(), 2, out, "script line 6: 1 Word\n")
    script, out = lines("send 10 01|close 1 0|send 10 02|close 1 0 1|at 0|"), lines("line 2: closed 1|line 3: refused Closed|")
    yield Row("notes alone", DEMO, script.encode(), 2, out, "script line 4: 4 Extra\n")
    blank, error = b"\n" * 1_000_000, "script refused: too many lines\n"
    yield Row("1,000,000 lines", DEMO, blank, 0, "")
    yield Row("one more", DEMO, blank + b"at x", 2, "", error)
    yield Row("one more after a frame", DEMO, b"send 10 01\nat 0\n" + blank, 2, ONE_FRAME, error)


def prefixes() -> Iterator[Row]:
    """Each prefix of a script."""
    script, whole = b"send 10 01\nat 0\n", (0, 10, 11, 15, 16)
    for size in range(len(script) + 1):
        # the frame is written once the poll was read
        out = ONE_FRAME if size >= 15 else ""
        fault = "1: 3 Hex" if size == 9 else "1: 1 Word" if size < 9 else "2: 1 Word"
        if size in whole:
            yield row(f"{size} bytes", DEMO, script[:size].decode(), out, int(size >= 10))
        else:
            yield Row(f"{size} bytes", DEMO, script[:size], 2, out, f"script line {fault}\n")
