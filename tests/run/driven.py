"""An end system by its calls, next to the model: each call has to answer as the model says, with networks that fail, links on
one network, closes and drains, opened from the plan's text or from its table. `tests/test_python.py` runs it."""
import random
import struct
import zlib
from collections.abc import Iterator

import model
import receivers
from test_run import random_line, random_plan, text_of
from trying import check

import afdx


# The faults that a plan may have beside those of its values.
PLAN_FAULTS = ("", "DuplicateVl", "DuplicatePort", "NoSuchVl", "NoSuchSub", "SamplingTooLong", "SameFlow", "SharedUnicast", "Limit")


def said(call, *words) -> str:
    """How a call is refused, or ''."""
    try:
        call(*words)
    except afdx.AfdxError as error:
        return f"refused {type(error).__name__}"
    return ""


class Driven(model.EndSystem):
    """The model and an end system of one plan, whose ports are all taken. It is opened from the plan's table or from its text."""

    def __init__(self, plan: model.Table, rng: random.Random, of_table: bool) -> None:
        super().__init__(plan)
        self.text = text_of(plan, rng)
        self.it = afdx.EndSystem.of_table(model.table_of(plan)) if of_table else afdx.EndSystem(self.text)
        self.out = {number: self.it.port(number) for number in self.ports}
        self.accepted = dict.fromkeys(self.ports, 0)
        self.recorded: dict[str, list[tuple[int, bytes]]] = {name: [] for name in model.NETWORKS}
        self.sent: dict[tuple[int, int], list[tuple[int, bytes]]] = {}

    def send(self, number: int, message: bytes) -> str:
        wanted = super().send(number, message)
        if number in self.out:
            told = said(self.out[number].send, message)
            self.accepted[number] += not told
            port = self.ports[number]
            self.sent.setdefault((port["vl"], port["sub"]), []).extend([] if told else [(port["source"], message)])
            check((told, self.out[number].accepted) == (wanted, self.accepted[number]), (number, told, wanted))
        return wanted

    def at(self, moment: int) -> str:
        wanted, polled = super().at(moment), []
        told = said(lambda: polled.append(self.it.poll(moment)))
        check(told == wanted, (moment, told, wanted))
        for name, frames in self.made.items():
            self.recorded[name] += [(moment, frame) for frame in frames if not told]
        check(told or polled == [afdx.Poll(*self.made.values(), *self.up.values())], (moment, polled, self.made, self.up))
        for vl in self.links:
            # (of the network that has more of its frames)
            counts, found = max(self.counted[vl, "A"], self.counted[vl, "B"], key=lambda of: of[0]), self.it.counts(vl)
            check(found == counts, (moment, vl, found, counts))
        due = min((link.due for link in self.links.values() if link.due > self.now and self.carriers(link)), default=afdx.NEVER)
        check(self.it.next_due == (due if due < afdx.NEVER else None), (moment, self.it.next_due, due))
        return wanted

    def close(self, vl: int, sub: int) -> str:
        wanted, totals = super().close(vl, sub), []
        told = said(lambda: totals.append(self.it.close(vl, sub)))
        check((told or f"closed {totals[0]}") == wanted, (vl, sub, told, totals, wanted))
        return wanted

    def fail(self, name: str) -> None:
        """Makes a network fail at its next frame."""
        self.it.fail("AB".index(name))
        self.failing.add(name)

    def is_done(self) -> bool:
        """Whether some network took each frame of each message."""
        return not self.is_lost and not any(sub.queue or sub.left for link in self.links.values() for sub in link.subs)

    def drain(self, step: int, polls: int) -> bool:
        """Takes back all ports and polls, some time apart, until all is sent, at most so often. Returns whether it is."""
        for port in self.out.values():
            port.give_back()
        self.it.gather()
        self.out.clear()
        for _ in range(polls):
            check(self.it.is_done == self.is_done())
            if self.is_done():
                break
            self.at(min(self.now + step, afdx.NEVER))
        check(self.it.is_done == self.is_done())
        return self.is_done()


def run(seed: int) -> bool:
    """A random run over a random plan, in which networks may fail before the drain and in it. Returns whether all was sent."""
    rng = random.Random(seed)
    plan, now = random_plan(rng), rng.choice((0, 0, 10**6, afdx.NEVER - 40_000))
    driven, fails_at = Driven(plan, rng, rng.random() < 0.5), {name: rng.randrange(240) for name in "AB"}
    for turn in range(120):
        for name in (name for name, at in fails_at.items() if at == turn):
            driven.fail(name)
        line = random_line(rng, plan, min(now, afdx.NEVER))
        now += rng.choice((0, 1, 500, 999, 1000, 1001, 3999)) if line.startswith("at") else 0
        if words := model.words_of(line.encode()):
            driven.obey(words)
    for name in rng.choice(("", "", "A", "B", "AB")):
        driven.fail(name)
    is_done = driven.drain(rng.choice((1000, 4000)), 60)
    receivers.receive(driven.recorded, {vl: link.table for vl, link in driven.links.items()}, driven.sent, is_done, rng)
    return is_done


def long_run() -> None:
    """A link whose numbers come twice, as receivers take it."""
    driven = Driven(size(1), random.Random(1), False)
    for at in range(0, 600_000, 1000):
        driven.send(0, bytes(1))
        driven.at(at)
    receivers.numbers(driven.recorded["A"], random.Random(2))


def damaged(seed: int, many: int) -> dict[str, int]:
    """Opens so many damaged tables of random plans. Returns how often each fault was told: none is opened, but those whose bytes
    are the table of another plan."""
    rng, told, whole = random.Random(seed), {}, b""
    for k in range(many):
        whole = whole if k % 20 else model.table_of(random_plan(rng))
        table = bytearray(whole)
        for _ in range(rng.choice((1, 1, 2, 5))):
            table[rng.randrange(len(table))] ^= rng.randrange(1, 256)
        table = table[: rng.randrange(len(table))] if rng.random() < 0.1 else table + bytes(rng.choice((0, 0, 0, 1, 22)))
        if rng.random() < 0.6 and len(table) > 20:
            # (with a check that is right)
            table[-4:] = struct.pack(">I", zlib.crc32(table[:-4]))
        fault = said(afdx.EndSystem.of_table, bytes(table)).removeprefix("refused ")
        wanted = model.table_fault(bytes(table))
        check(fault == wanted or (wanted == "" and fault in PLAN_FAULTS), (bytes(table).hex(), fault, wanted))
        told[fault] = told.get(fault, 0) + 1
    return told


def size(ports: int) -> model.Table:
    """A plan by its number of ports. Those of 1 to 256 have all numbers of links, 1 to 64, all numbers of sub-VLs and all
    capacities. Of 64, 160 and 256 each sub-VL of the last link has up to 64; the greatest has the most of all."""
    links, is_packed = (ports - 1) % 64 + 1, ports % 96 == 64
    sub_vls, capacity = max((ports - 1) // 64, ports % 4) + 1, 256 - ports if ports % 2 else ports
    vl = [{"id": k, "bag_ms": 1, "lmax": 1518, "sub_vls": sub_vls, "capacity": capacity} for k in range(links)]
    at = [(links - 1, k // 64) if is_packed else (k % links, k // links % sub_vls) for k in range(ports)]
    port = [{"id": k, "vl": link, "sub": sub, "partition": 0, "kind": "queuing", "source": k + 1} for k, (link, sub) in enumerate(at)]
    return {"end_system": {"id": 1}, "vl": vl, "port": [table | {"destination": 2000, "max": 8192} for table in port]}


def greatest() -> model.Table:
    """The greatest plan with a port on each sub-VL, whose queues have room for two messages."""
    plan = size(256)
    vl = [link | {"capacity": 2} for link in plan["vl"]]
    return plan | {"vl": vl, "port": [port | {"vl": port["id"] % 64, "sub": port["id"] // 64} for port in plan["port"]]}


def plans() -> Iterator[tuple[model.Table, list[tuple[int, bytes]]]]:
    """Plans of all sizes, each with messages of its ports: one of each length, and more than there is room for in all queues that
    have ports of the plan of 256 ports on a link."""
    lengths = iter(range(1, 8193))
    for ports in range(1, 256):
        yield size(ports), [(port, bytes((port,)) * next(lengths, 1)) for port in range(ports)]
    yield size(256), [(port, bytes((port,)) * (8192 if port == 255 else 1)) for port in range(256)] * 5
    yield greatest(), [(port, bytes((port,)) * (8192 - port)) for port in range(256)]


def capture(packets: list[tuple[int, bytes]]) -> bytes:
    """A capture of packets with their times in microseconds."""
    heads = (struct.pack("<IIII", *divmod(at, 10**6), len(data), len(data)) + data for at, data in packets)
    return struct.pack("<IHHIIII", 0xA1B2C3D4, 2, 4, 0, 0, 65_535, 1) + b"".join(heads)


def transmitted(it: afdx.EndSystem, sent: list[tuple[int, bytes]], last: int) -> dict[str, list[tuple[int, bytes]]]:
    """What an end system transmits of messages that its ports send at first, polled each millisecond up to the last time."""
    for number, message in sent:
        with it.port(number) as port:
            port.try_send(message)
    polls = [(at, it.poll(at)) for at in range(0, last + 1, 1000)]
    return {"A": [(at, frame) for at, poll in polls for frame in poll.a], "B": [(at, frame) for at, poll in polls for frame in poll.b]}


def sizes() -> None:
    """Runs over plans of all sizes, with messages of each length. End systems from the text and from the table transmit the same.
    The judge finds nothing in their recordings, and something in each packet of 160 bytes."""
    for plan, sent in plans():
        it = Driven(plan, random.Random(len(sent)), of_table=True)
        for number, message in sent:
            it.send(number, message)
        it.at(0)
        check(it.drain(1000, 2000), len(sent))
        with afdx.EndSystem(it.text) as other:
            check(transmitted(other, sent, it.now) == it.recorded, len(sent))
        check(not afdx.judge(it.text, *map(capture, it.recorded.values())), len(sent))
    for many in (65_536, 120_000):
        check(len(afdx.judge(it.text, capture([(0, bytes(160))] * many))) == many)
