"""Texts that differ from the demonstration's in few places, each with the number of the fault that `check` reports of it, or 0."""
from collections.abc import Iterator

from trying import DEMO

# Its three parts, another link, and ports: a sampling one, of the demonstration's flow, on link 2 for partitions 1 and 2, on a
# missing link and on a missing sub-VL.
HEAD, LINK, PORT = DEMO[: DEMO.index("[[vl]]")], DEMO[DEMO.index("[[vl]]") : DEMO.index("[[port]]")], DEMO[DEMO.index("[[port]]") :]
LINK_2, SAMPLING = LINK.replace("id = 1", "id = 2"), PORT.replace('"queuing"', "'sampling'").replace("8192", "@")
SAME_FLOW = PORT.replace("id = 10", "id = 11")
ON_LINK_2, ON_LINK_9 = SAME_FLOW.replace("vl = 1", "vl = 2"), SAME_FLOW.replace("vl = 1", "vl = 9")
PARTITION_2, ON_SUB_1 = ON_LINK_2.replace("partition = 1", "partition = 2"), PORT.replace("id = 10", "id = 12").replace("sub = 0", "sub = 1")
ADDRESS, OTHER, CHECKSUM, ON_A = "dest_ip = '10.0.2.1'\n", "dest_ip = '10.0.2.2'\n", "checksum = 'udp'\n", "networks = 'a'\n"
VERSION_2, VERSIONS, ADDRESSES = "version = 2\n", "version = @\n" + DEMO, DEMO + "dest_ip = '@'\n"
CHECKSUMS, NETWORKS = VERSION_2 + DEMO + "checksum = @\n", VERSION_2 + HEAD + LINK + "networks = @\n" + PORT

# A text, a piece of it, what takes the place of that piece, with `|` between several, and the number of the fault of each.
CHANGES = [
    (DEMO, " = 8192", " =", 1),
    (DEMO, "id = 1\n", "id = 99999999999999999999\n", 1),
    (DEMO, "lmax = 1518\n", "", 2),
    (DEMO, "[end_system]\nid = 1\n", "", 2),
    (DEMO, "capacity = 2", "capacity = 2\nspeed = 1", 3),
    (DEMO, "[end_system]", "versions = 1\n[end_system]", 3),
    (DEMO, "[end_system]\nid = 1", '[end_system]\nid = "1"', 4),
    (DEMO, "max = 8192", "max = 8192.0", 4),
    (DEMO, "lmax = 1518", "lmax = 63", 5),
    (DEMO, "sub_vls = 1", "sub_vls = 5", 5),
    (DEMO, "sub = 0", "sub = 4", 5),
    (DEMO, "source = 1000", "source = 0", 5),
    (DEMO, "max = 8192", "max = 8193", 5),
    (DEMO, '"queuing"', '"Queuing"|""', 5),
    (DEMO, '"queuing"', "1", 4),
    (DEMO, "id = 10", "id = -1", 5),
    (DEMO, "bag_ms = 1", "bag_ms = 3|bag_ms = 9223372036854775807", 6),
    (DEMO, "\nvl = 1\n", "\nvl = 9\n", 9),
    (DEMO, "sub = 0", "sub = 1", 10),
    (DEMO, "capacity = 2", "capacity = 256", 0),
    # the ranges of TOML's integers are larger than those of the keys
    (DEMO, "capacity = 2", "capacity = 257|capacity = 4294967298|capacity = 9223372036854775807|capacity = -9223372036854775808", 5),
    (DEMO, "capacity = 2", "capacity = 9223372036854775808", 1),
    # a key appears once
    (DEMO, "id = 10\n", "id = 10\nid = 10\n", 1),
    (DEMO, "lmax = 1518", "lmax = 1518\nlmax = 64", 1),
    (DEMO, "[end_system]", "[end_system]\n[end_system]", 1),
    # a number is an integer
    (DEMO, "1518", "1518.0|1.518e3|inf|true|1979-05-27|[1518]", 4),
    (DEMO, "1518", "0x5ee|1_518", 0),
    (DEMO, "1518", "01518", 1),
    # a sampling port's message fits into one frame
    (HEAD + LINK + SAMPLING, "@", "1471", 0),
    (HEAD + LINK + SAMPLING, "@", "1472", 11),
    # a table that repeats another has the fault of the least number, in any order of the tables
    (DEMO, "", LINK, 7),
    (DEMO, "", LINK.replace("bag_ms = 1", "bag_ms = 3"), 6),
    (DEMO, "", PORT, 8),
    (DEMO, "", SAME_FLOW, 12),
    (HEAD + LINK + PORT, "", PORT + LINK, 7),
    (DEMO, "", ON_LINK_9 + ON_SUB_1, 9),
    (DEMO, "", ON_SUB_1 + ON_LINK_9, 9),
    # one unicast address of a partition is of one link
    (DEMO + ADDRESS + LINK_2 + ON_LINK_2, "", OTHER, 0),
    (DEMO + ADDRESS + LINK_2 + ON_LINK_2, "", ADDRESS, 13),
    (DEMO + ADDRESS + LINK_2 + PARTITION_2, "", ADDRESS, 0),
    # a plan has a port, and its port a link, and sections have their kinds
    ("port = []\n" + HEAD + LINK, "", "", 14),
    ("vl = []\n" + HEAD + PORT, "", "", 9),
    ("vl = []\nport = []\n" + HEAD, "", "", 14),
    ("", "", "|\n", 2),
    (HEAD + LINK, "", "", 2),
    (HEAD + "vl = 1\nport = 1\n", "", "", 2),
    ("end_system = 1\nvl = 1\nport = 1\n", "", "", 4),
    ("end_system = []\nvl = {}\nport = {}\n", "", "", 4),
    ("vl = [1]\nport = []\n" + HEAD, "", "", 4),
    ("vl = []\nport = []\nmore = 1\n" + HEAD, "", "", 3),
    # there are two versions; checksums and networks are keys of version 2 alone, each of its tables
    (VERSIONS, "@", "1|2", 0),
    (VERSIONS, "@", "3|0|-2|9223372036854775807", 5),
    (VERSIONS, "@", "'2'|2.0|[2]", 4),
    (CHECKSUMS, "@", "'none'|'udp'", 0),
    (CHECKSUMS, "@", "'crc'|'UDP'", 5),
    (CHECKSUMS, "@", "1|true", 4),
    (DEMO + "checksum = @\n", "@", "'udp'|'none'", 3),
    (VERSIONS + CHECKSUM, "@", "1|3|'2'", 3),
    (NETWORKS, "@", "'both'|'a'|'b'", 0),
    (NETWORKS, "@", "'c'|'A'|'ab'|''", 5),
    (NETWORKS, "@", "1|['a', 'b']", 4),
    (HEAD + LINK + "networks = @\n" + PORT, "@", "'a'|'both'", 3),
    ("version = @\n" + HEAD + LINK + ON_A + PORT, "@", "1|3", 3),
    (VERSION_2 + CHECKSUM + DEMO, "", "", 3),
    (VERSION_2 + ON_A + DEMO, "", "", 3),
    (VERSION_2 + HEAD + LINK + CHECKSUM + PORT, "", "", 3),
    (VERSION_2 + DEMO, "", VERSION_2, 3),
    # an address is four numbers, of which the first is 10
    (ADDRESSES, "@", "10.0.2.1", 0),
    (ADDRESSES, "@", "11.0.2.1|10.0.2|10.0.2.1.1||10.0.2.01|10.0.2.256|10.0.2.", 5),
    # blanks, line ends and comments are free
    (DEMO, " = ", "\t=\t|=", 0),
    (DEMO, "\n", "\r\n| # note\n|\n\n", 0),
    (DEMO, "", "# note|# note\n|  # note\r\n|\n\n\t \n", 0),
]

# Two changes, of the link and of the port, each with a fault, and the lesser number of the two.
PAIRS = [
    ("lmax = 1518", "lmax = 63", "\nmax", "\nspeed = 1\nmax", 3),
    ("lmax", "speed = 1\nlmax", "max = 8192", "max = 0", 3),
    ("lmax = 1518", "lmax = '1518'", "max = 8192", "", 2),
    ("lmax = 1518", "", "max = 8192", "max = '8192'", 2),
    ("bag_ms = 1", "bag_ms = 3", "sub = 0", "sub = 4", 5),
    ("bag_ms = 1", "bag_ms = 3", "sub = 0", "sub = 1", 6),
    ("vls = 1", "vls = 5", "\nvl = 1", "\nvl = 9", 5),
    ("lmax = 1518", "lmax = true", "max = 8192", "max =", 1),
]


def changed() -> Iterator[tuple[str, int]]:
    """Each text, and the number of its fault."""
    for text, old, news, number in CHANGES:
        yield from ((text.replace(old, new) if old else text + new, number) for new in news.split("|"))
    for old, new, old_of_port, new_of_port, number in PAIRS:
        link, port = LINK.replace(old, new), PORT.replace(old_of_port, new_of_port)
        yield from ((text, number) for text in (HEAD + link + port, port + link + HEAD))


def replaced() -> Iterator[bytes]:
    """The demonstration with one byte replaced, by each of sixteen."""
    text = DEMO.encode()
    for byte in b"\x00\x7f\x80\xff\n \"#-.09=[]a":
        yield from (text[:at] + bytes([byte]) + text[at + 1 :] for at in range(len(text)))
