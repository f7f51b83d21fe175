"""Tests `afdx_bench judge` on captures whose recorders tell that they lost packets: by options of packets and of statistics."""
import json
import os
import random
import re
import struct

from captures import DROP_COUNT, ENHANCED, GREATEST, IF_DROP, INTERFACE, OS_DROP, SECTION, STATISTICS
from captures import Form, Reader, block, option, random_form, written
from edges import page_in
from planting import text_of
from recordings import recorded
from trials import faults_of, run_judge
from verdict import Options


def count(order: str, code: int, number: int) -> bytes:
    """An option with a count."""
    return option(order, code, struct.pack(order + "Q", number))


def packet(order: str, interface: int, data: bytes, options: bytes) -> bytes:
    """An enhanced packet block at time 0."""
    front = struct.pack(order + "IIIII", interface, 0, 0, len(data), len(data))
    return block(order, ENHANCED, front + data + bytes(-len(data) % 4) + options)


def statistics(order: str, interface: int, options: bytes) -> bytes:
    """An interface statistics block."""
    return block(order, STATISTICS, struct.pack(order + "IQ", interface, 0) + options)


def head(order: str, interfaces: int = 2) -> bytes:
    """A section header and its interfaces, which have no names."""
    section = block(order, SECTION, struct.pack(order + "IHHq", 0x1A2B3C4D, 1, 0, -1))
    return section + block(order, INTERFACE, struct.pack(order + "HHI", 1, 0, 0)) * interfaces


def examples(order: str) -> list[tuple[str, bytes, int]]:
    """Captures of one section, with the number of packets that are told to be lost, counted by hand."""
    other = "<" if order == ">" else ">"

    def before(number: int) -> bytes:
        return count(order, DROP_COUNT, number)

    def told(interface: int, *options: bytes) -> bytes:
        return statistics(order, interface, b"".join(options))

    end, short, long = option(order, 0, b""), option(order, DROP_COUNT, bytes([9] * 4)), option(order, DROP_COUNT, bytes([9] * 12))
    past = struct.pack(order + "HH", DROP_COUNT, 12) + bytes([9] * 8)
    packets = packet(order, 0, b"12345", before(3)) + packet(order, 1, b"", before(5)) + packet(order, 0, b"1234", before(4) + end)
    by_both = [count(order, IF_DROP, 6), count(order, OS_DROP, 5)]
    both = told(0, *by_both)
    return [
        ("nothing is told", packet(order, 0, b"1", b"") + told(0), 0),
        ("packets of two interfaces", packets, 12),
        ("statistics", both, 11),
        ("statistics tell of more than packets", packets + both, 16),
        ("packets tell of more than statistics", packets + told(0, count(order, IF_DROP, 6)), 12),
        ("the last statistics hold", both + told(0, count(order, IF_DROP, 2), count(order, OS_DROP, 1)), 3),
        ("a count that isn't told again stays", both + told(0, count(order, IF_DROP, 2)), 7),
        ("two interfaces have statistics", both + told(1, count(order, OS_DROP, 20)), 31),
        ("an interface that isn't described", told(2, *by_both), 0),
        ("a statistics block that is too short", block(order, STATISTICS, struct.pack(order + "II", 0, 0)), 0),
        ("other options before it", packet(order, 0, b"12", option(order, 1, b"note") + option(order, 2, bytes(4)) + before(8)), 8),
        ("options of the other blocks", packet(order, 0, b"", b"".join(by_both)) + told(0, before(9)), 0),
        ("counts of 4 and of 12 bytes", packet(order, 0, b"", short + long), 0),
        ("a count of 8 bytes after one of 4", packet(order, 0, b"", short + before(8)), 8),
        ("the first of two counts", packet(order, 0, b"", before(8) + before(9)), 8),
        ("a count after the end", packet(order, 0, b"", end + before(8)), 0),
        ("a count past the block", packet(order, 0, b"", past) + told(0, past), 0),
        ("a count after one past the block", packet(order, 0, b"", struct.pack(order + "HH", 1, 99) + before(8)), 0),
        ("the other order of bytes", packet(order, 0, b"", option(order, DROP_COUNT, struct.pack(other + "Q", 1))), 2**56),
        ("more than are counted", packet(order, 0, b"", before(GREATEST)) * 2 + told(1, count(order, IF_DROP, GREATEST), *by_both[1:]), GREATEST),
    ]


def all_examples() -> list[tuple[str, bytes, int]]:
    """Captures in both orders, and of two sections in either order, with the number of packets that are told to be lost."""
    cases = [(name, head(order) + data, lost) for order in "<>" for name, data, lost in examples(order)]
    ones = {order: head(order) + examples(order)[3][1] for order in "<>"}
    cases += [(f"sections {a}{b}", ones[a] + ones[b], 32) for a in "<>" for b in "<>"]
    return [*cases, ("one interface", head("<", 1) + packet("<", 0, b"", count("<", DROP_COUNT, 1)), 1)]


def by_hand() -> list[str]:
    """What is wrong with the losses that are told of these captures."""
    faults, rng = [], random.Random(13)
    plan = text_of(recorded(rng, 3).plan, rng)
    for name, data, lost in all_examples():
        faults += faults_of(name, plan, [data], Options()) + faults_of(f"{name}, piped", plan, [data], Options(), is_piped=True)
        status, out, _ = run_judge(plan, [data], Options(), more=["--json"])
        it = json.loads(out)["recording"]
        told = [(row["lost"], row["whole"]) for row in it["captures"]]
        if Reader(data).lost != lost or told != [(lost, True)] or it["whole"] != (not lost) or lost and status != 2:
            faults.append(f"{name}: {told}, status {status} and {it['whole']} for {lost} lost")
    return faults


def losing(data: bytes, order: str, rng: random.Random) -> bytes:
    """A capture with options of losses, and with statistics, many of them malformed."""
    parts, at = [], 0
    while at < len(data):
        kind, size = struct.unpack_from(order + "II", data, at)
        body, at = data[at + 8 : at + size - 4], at + size
        if kind == ENHANCED and rng.random() < 0.3:
            captured = struct.unpack_from(order + "I", body, 12)[0]
            body = body[: 20 + captured + -captured % 4] + options_of(order, rng)
        parts.append(block(order, kind, body))
        if rng.random() < 0.1:
            parts.append(statistics(order, rng.choice((0, 0, 1, 2, 77)), options_of(order, rng)))
    return b"".join(parts)


def options_of(order: str, rng: random.Random) -> bytes:
    """Random options."""
    parts = []
    for _ in range(rng.randrange(5)):
        code, length = rng.choice((DROP_COUNT, DROP_COUNT, IF_DROP, OS_DROP, 2, 8, 0)), rng.choice((8, 8, 8, 8, 4, 0, 5, 16))
        value = rng.choice((0, 1, 300, 2**40, GREATEST)).to_bytes(8, "little" if order == "<" else "big")
        parts.append(option(order, code, value if length == 8 else rng.randbytes(length)))
    text = b"".join(parts)
    return text[: len(text) - 4 * rng.randrange(3)] if rng.random() < 0.2 and len(text) > 8 else text


def lost_by_recorders(seed: int) -> list[str]:
    """What is wrong with the verdicts on one capture or two whose recorders tell of losses, whole or cut off, and with the page."""
    rng, name = random.Random(f"losses {seed}"), f"{os.getpid()}-lost"
    recording = recorded(rng)
    forms = [random_form(rng, 2)._replace(is_blocks=True) for _ in range(rng.choice((1, 2)))]
    captures = [losing(written(part_of(recording.packets, place, forms), form, rng), form.order, rng) for place, form in enumerate(forms)]
    if rng.random() < 0.2:
        captures[0] = captures[0][: rng.randrange(len(captures[0]) + 1)]
    plan = text_of(recording.plan, rng)
    faults = faults_of(f"losses {seed}", plan, captures, Options())
    status, out, _ = run_judge(plan, captures, Options(), more=["--html", name])
    said = re.findall(r'<p id="verdict">(.*)</p>', page_in(name))
    is_whole = not any(it.lost or it.end.fault for it in map(Reader, captures))
    wanted = is_whole or out.startswith("nothing judged")
    return faults + ([] if [it.endswith("; the recording isn't whole") for it in said] == [not wanted] else [f"losses {seed}: {status}, {said}"])


def part_of(packets: list, place: int, forms: list[Form]) -> list:
    """The packets of one of the captures."""
    return [it for it in packets if len(forms) == 1 or it.network == "AB"[place]]
