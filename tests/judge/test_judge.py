#!/usr/bin/env python3
"""Tests `afdx_bench judge` from outside: what it prints of recordings, and how it ends.

    python3 tests/judge/test_judge.py [--all]

It runs what `rt ci` has built. `verdict.py` computes all that the program has to print of a plan and captures, and `breaking.py`
plants faults, one at a time, with the findings that each has to bring. With --all there are 10,000 runs, 300 faults of each kind,
10,000 recordings with many changes and 100,000 damaged captures. The last line is 'N passed, M failed'.
"""
import itertools
import os
import random
import subprocess
import sys
import tempfile
import zlib
from collections.abc import Iterator
from typing import NamedTuple

HERE = os.path.dirname(os.path.abspath(__file__))
ROOT = os.path.dirname(os.path.dirname(HERE))
sys.dont_write_bytecode = True
sys.path[:0] = [f"{ROOT}/tests", HERE, f"{ROOT}/tests/run", f"{ROOT}/tests/explain", f"{ROOT}/tests/report"]
import addresses  # noqa: E402
import breaking  # noqa: E402
import edges  # noqa: E402
import losses  # noqa: E402
import refusals  # noqa: E402
import refusals_wanted  # noqa: E402
import taps  # noqa: E402
import test_run  # noqa: E402
import trying  # noqa: E402
import verdict  # noqa: E402
from captures import PLAIN, Packet, Reader, random_form, written  # noqa: E402
from planting import text_of  # noqa: E402
from recordings import MICRO, by_time, freed, recorded, rewritten, with_icmp  # noqa: E402
from trials import PROGRAM, changed, faults_of, files_of, run_judge, tried  # noqa: E402
from verdict import KINDS, Options  # noqa: E402


class Counts(NamedTuple):
    """How many tries there are: runs, faults of each kind, recordings with many faults, damaged captures."""

    runs: int
    planted: int
    mixed: int
    damaged: int


# How many random recordings may have no place for a fault.
TURNS = 100
FEW, ALL = Counts(200, 8, 100, 800), Counts(10_000, 300, 10_000, 100_000)


def number_of(packets: list[Packet], packet: Packet, files: int) -> int:
    """The number of a packet in its file."""
    place = next(place for place, it in enumerate(packets) if it is packet)
    return 1 + sum(files == 1 or it.network == packet.network for it in packets[:place])


def clean_run(run: tuple[str, str, bytes]) -> list[str]:
    """What is wrong with the verdict on a run's capture: nothing is found."""
    name, plan, script = run
    names = [f"{os.getpid()}-{kind}" for kind in ("run", "script", "capture")]
    for path, data in zip(names, (plan.encode(), script), strict=False):
        with open(path, "wb") as file:
            file.write(data)
    subprocess.run([PROGRAM, "run", *names[:2], "--capture", names[2]], capture_output=True, check=False, timeout=60)
    with open(names[2], "rb") as file:
        return faults_of(name, plan, [file.read()], Options(), [])


def planted(case: tuple[int, int]) -> list[str]:
    """What is wrong with the verdict on one fault of a kind, in a random recording: every third one is another maker's."""
    kind, seed = case
    options = Options(arinc=seed % 3 == 0)
    for turn in range(TURNS):
        rng = random.Random(f"{kind} {seed} {turn}")
        try:
            it = breaking.PLANTS[kind](breaking.Ground(rng, recorded(rng), options.arinc, seed))
        except breaking.Unfit:
            continue
        captures = files_of(it.packets, rng)
        wanted = [(kind, rule, number_of(it.packets, packet, len(captures)), packet.network) for kind, rule, packet in it.wanted]
        return faults_of(f"{KINDS[kind]} {seed}", text_of(it.plan, rng), captures, options, wanted)
    return [f"{KINDS[kind]} {seed}: none of {TURNS} recordings has a place for the fault"]


def known_again(seed: int) -> list[str]:
    """What is wrong with the verdict on a piece of another maker's that goes on with no message, in a recording that began late:
    it is found once each sub-VL of its link has begun a message."""
    for turn in range(TURNS):
        rng = random.Random(f"known again {seed} {turn}")
        try:
            it = breaking.strayed(breaking.Ground(rng, recorded(rng), True))
        except breaking.Unfit:
            continue
        captures = files_of(it.packets, rng)
        wanted = [(kind, rule, number_of(it.packets, packet, len(captures)), packet.network) for kind, rule, packet in it.wanted]
        return faults_of(f"known again {seed}", text_of(it.plan, rng), captures, Options(late=True, arinc=True), wanted)
    return [f"known again {seed}: none of {TURNS} recordings has a place for the piece"]


def late(seed: int) -> list[str]:
    """What is wrong with the verdict on the end of a recording: nothing is found if the command knows that it began late."""
    rng = random.Random(f"late {seed}")
    options = Options(late=True, arinc=rng.random() < 0.5)
    recording = rewritten(rng, recorded(rng)) if options.arinc else recorded(rng)
    packets = recording.packets[rng.randrange(len(recording.packets) + 1) :]
    return faults_of(f"late {seed}", text_of(recording.plan, rng), files_of(packets, rng), options, [])


def jittered(seed: int) -> list[str]:
    """What is wrong with the verdicts on a recording in which each frame is delayed by up to the jitter: nothing is found. At
    half the BAG a link is early from its third frame on, whatever the jitter under a BAG."""
    rng = random.Random(f"jittered {seed}")
    recording, jitter = recorded(rng), rng.choice((1, 500, 999, 1_000, 1_001, 4_000, 60_000))
    latest, packets = {"A": 0, "B": 0}, []
    for it in recording.packets:
        at = max(latest[it.network], it.at + rng.choice((0, rng.randrange(1_000 * jitter + 1), 1_000 * jitter)))
        latest[it.network] = at
        packets.append(it._replace(at=at))
    plan, captures, options = text_of(recording.plan, rng), files_of(by_time(packets), rng), Options(jitter, 5_000 + jitter)
    faults = faults_of(f"jittered {seed}", plan, captures, options, [])
    vl, net = rng.choice([(breaking.half(it.data, 4), it.network) for it in packets])
    bag = next(it["bag_ms"] for it in recording.plan["vl"] if it["id"] == vl)
    own = [it for it in recording.packets if (breaking.half(it.data, 4), it.network) == (vl, net)]
    hasty = [it._replace(at=own[0].at + 500_000 * bag * place) for place, it in enumerate(own)]
    found = verdict.judged(plan, [written(hasty, PLAIN, rng)], Options(500 * bag))[2]
    early = [it.packet for it in found if it.kind == "Early"]
    faults += faults_of(f"hasty {seed}", plan, [written(hasty, PLAIN, rng)], Options(500 * bag))
    return faults + ([] if early == [*range(3, len(own) + 1)] else [f"hasty {seed}: {early}"])


def checked(seed: int) -> list[str]:
    """What is wrong with the verdicts on frames with their check sequences: nothing is found if the command knows of them, and
    else one finding. A wrong one is found."""
    rng = random.Random(f"checked {seed}")
    recording = recorded(rng)
    packets = [it._replace(data=it.data + zlib.crc32(it.data).to_bytes(4, "little"), original=it.original + 4) for it in recording.packets]
    plan, captures = text_of(recording.plan, rng), files_of(packets, rng)
    first = [("Frame", "Recorded", 1, packets[0].network)] if packets else []
    faults = faults_of(f"checked {seed}", plan, captures, Options(fcs=True), [])
    faults += faults_of(f"unchecked {seed}", plan, captures, Options(), first)
    at = rng.randrange(len(packets))
    bad = packets[at]._replace(data=packets[at].data[:-1] + bytes([packets[at].data[-1] ^ 1]))
    packets.insert(at, bad)
    wanted = [("Frame", "CheckSequence", at + 1, bad.network)]
    return faults + faults_of(f"wrong {seed}", plan, [written(packets, PLAIN, rng)], Options(fcs=True), wanted)


def told(seed: int) -> list[str]:
    """What is wrong with the verdicts on captures that say of each network whether its frames end with their check sequences:
    nothing is found if it is true. It may be wrong too, and a length that no check sequence has, or no length."""
    rng = random.Random(f"told {seed}")
    recording, has = recorded(rng), {net: rng.random() < 0.5 for net in "AB"}
    sums = [zlib.crc32(it.data).to_bytes(4, "little") if has[it.network] else b"" for it in recording.packets]
    packets = [it._replace(data=it.data + more, original=it.original + len(more)) for it, more in zip(recording.packets, sums, strict=True)]
    plan, is_one = text_of(recording.plan, rng), rng.random() < 0.5

    def captures(fcs: dict[str, bytes]) -> list[bytes]:
        if is_one:
            return [written(packets, random_form(rng, 2)._replace(fcs=fcs), rng)]
        parts = [[it for it in packets if it.network == net] for net in "AB"]
        return [written(part, random_form(rng, 1)._replace(fcs={net: fcs[net]} if net in fcs else {}), rng, net) for net, part in zip("AB", parts)]

    # (in pcap the length counts words of 16 bits, and 32 isn't one)
    true = {net: rng.choice((b"\4", b"\x20") if is_one else (b"\4",)) if has[net] else b"\0" for net in "AB"}
    true = {net: it for net, it in true.items() if has[net] or rng.random() < 0.7}
    faults = faults_of(f"told {seed}", plan, captures(true), Options(), [])
    faults += faults_of(f"told, and by hand {seed}", plan, captures(true), Options(fcs=True))
    wrong = {net: rng.choice((b"\0", b"\0", b"\2", b"\4", b"\x08", b"\x20", b"\xff", b"", b"\4\0")) for net in "AB" if rng.random() < 0.8}
    return faults + faults_of(f"told wrongly {seed}", plan, captures(wrong), Options())


def of_another_maker(seed: int) -> list[str]:
    """What is wrong with the verdicts on a recording of another maker's end system: nothing is found by ARINC 664 alone, and else
    each frame with another field or padding, and what their loss shows."""
    rng = random.Random(f"another {seed}")
    recording = with_icmp(rng, rewritten(rng, recorded(rng)))
    plan, captures = text_of(recording.plan, rng), files_of(recording.packets, rng)
    faults = faults_of(f"another maker {seed}", plan, captures, Options(arinc=True), [])
    faults += faults_of(f"as its own {seed}", plan, captures, Options())
    found = verdict.judged(plan, captures, Options())[2]
    pads = [it.data[14 + breaking.half(it.data, 16) : -1] for it in recording.packets]
    free = [it.data[15] > 0 or it.data[20] & 0x40 or it.data[22:24] != b"\1\x11" for it in recording.packets]
    others = sum(bool(field or any(pad)) for field, pad in zip(free, pads, strict=True))
    told = sum(it.kind == "Frame" and it.rule in ("Version", "Fragment", "Protocol", "Padding") for it in found)
    faults += [] if told == others else [f"another maker {seed}: {told} for {others}"]
    recording = freed(rng, recording)
    plan, captures = text_of(recording.plan, rng), files_of(recording.packets, rng)
    return faults + faults_of(f"free {seed}", plan, captures, Options(arinc=True), []) + faults_of(f"bound {seed}", plan, captures, Options())


def staggered(seed: int) -> list[str]:
    """What is wrong with the verdicts on a recording whose two recorders begin, and end, up to 200 ms apart: nothing is found. If
    a network lost one frame more, its twin is Missing exactly if that network's packets begin more than the skew before the twin
    and end more than the skew after it."""
    rng = random.Random(f"staggered {seed}")
    recording = recorded(rng, 400)
    first, last = recording.packets[0].at, recording.packets[-1].at
    later, earlier = rng.choice("AB"), rng.choice("AB")
    begin = first + MICRO * rng.choice((0, 50_000, rng.randrange(200_001)))
    end = last - MICRO * rng.choice((0, 50_000, rng.randrange(200_001)))
    packets = [it for it in recording.packets if (it.network != later or it.at >= begin) and (it.network != earlier or it.at <= end)]
    plan, captures = text_of(recording.plan, rng), files_of(packets, rng)
    options = Options(skew=rng.choice((10_000, 5_000, 60_000)), late=True)
    faults = faults_of(f"staggered {seed}", plan, captures, options, [])
    gone = rng.choice(packets)
    packets = [it for it in packets if it is not gone]
    both = [it for it in packets if it.network != gone.network and abs(it.at - gone.at) <= 5_000 * MICRO]
    twins = [it for it in both if (it.data[:11], it.data[12:]) == (gone.data[:11], gone.data[12:])]
    heard = [it.at for it in packets if it.network == gone.network]
    wanted = [it for it in twins if heard and min(heard) + MICRO * options.skew < it.at < max(heard) - MICRO * options.skew]
    captures = files_of(packets, rng)
    found = [(it.network, it.at) for it in verdict.judged(plan, captures, options)[2] if it.kind == "Missing"]
    faults += [] if found == [(it.network, it.at) for it in wanted] else [f"staggered {seed}: {found} for {wanted}"]
    return faults + faults_of(f"staggered, and lost {seed}", plan, captures, options)


def lost(seed: int) -> list[str]:
    """What is wrong with the verdict on a recording that one network lost a frame of: it lacks a number, unless it was the last
    one, and the other's frame has no twin."""
    rng = random.Random(f"lost {seed}")
    recording = recorded(rng)
    options = Options(arinc=rng.random() < 0.5)
    recording = rewritten(rng, recording) if options.arinc else recording
    gone = rng.choice(recording.packets)
    packets = [it for it in recording.packets if it is not gone]
    plan, captures = text_of(recording.plan, rng), files_of(packets, rng)
    found = verdict.judged(plan, captures, options)[2]
    kinds = sorted(it.kind for it in found)
    is_well = kinds in ([], ["Missing"], ["Number"], ["Missing", "Number"])
    return faults_of(f"lost {seed}", plan, captures, options) + ([] if is_well else [f"lost {seed}: {kinds}"])


def mixed(seed: int) -> list[str]:
    """What is wrong with the verdict on a recording with several changes, under random options."""
    rng = random.Random(f"mixed {seed}")
    recording = recorded(rng, rng.choice((3, 20, 60)))
    recording = rewritten(rng, recording) if rng.random() < 0.4 else recording
    packets = list(recording.packets)
    for _ in range(rng.choice((1, 2, 5, 40))):
        if packets:
            changed(packets, rng)
    packets = by_time(packets) if rng.random() < 0.5 else packets
    jitter, skew = rng.choice((0, 0, 1, 999, 1_000_000)), rng.choice((10_000, 0, 1, 4_999, 1_000_000))
    options = Options(jitter, skew, rng.random() < 0.3, rng.random() < 0.1, rng.random() < 0.5)
    captures = files_of(packets, rng)
    is_piped = len(captures) == 1 and rng.random() < 0.2
    return faults_of(f"mixed {seed}", text_of(recording.plan, rng), captures, options, is_piped=is_piped)


def unmerged(seed: int) -> list[str]:
    """What is wrong with the verdict on a capture that has the packets of one network after the other's: nothing is found."""
    rng = random.Random(f"unmerged {seed}")
    recording = recorded(rng)
    packets = sorted(recording.packets, key=lambda it: it.network, reverse=rng.random() < 0.5)
    return faults_of(f"unmerged {seed}", text_of(recording.plan, rng), [written(packets, random_form(rng, 2), rng)], Options(), [])


def damaged(seed: int) -> list[str]:
    """What is wrong with the verdict on a capture some of whose bytes are others, lacking or more."""
    rng = random.Random(f"damaged {seed % 200}")
    recording = recorded(rng, 12)
    captures = files_of(recording.packets, rng)
    rng = random.Random(f"damage {seed}")
    place = rng.randrange(len(captures))
    data = bytearray(captures[place])
    for _ in range(rng.choice((1, 1, 2, 6))):
        at, turn = rng.randrange(len(data) + 1) if rng.random() < 0.7 else rng.randrange(min(len(data), 100) + 1), rng.randrange(6)
        if turn == 0:
            del data[at : at + rng.choice((1, 4, 60))]
        elif turn == 1:
            data[at:at] = rng.randbytes(rng.choice((1, 4, 16)))
        elif at < len(data):
            data[at] = rng.choice((data[at] ^ 1 << rng.randrange(8), 0, 255, rng.randrange(256)))
    captures[place] = bytes(data)
    return faults_of(f"damaged {seed}", text_of(recording.plan, rng), captures, Options(late=rng.random() < 0.3))


def prefix(case: tuple[str, bytes, int]) -> list[str]:
    """What is wrong with the verdict on the first bytes of a capture."""
    plan, data, size = case
    return faults_of(f"{size} bytes", plan, [data[:size]], Options())


def prefixes(polls: int) -> Iterator[tuple[str, bytes, int]]:
    """Each prefix of a capture of each format."""
    for seed, form in enumerate((PLAIN, PLAIN._replace(is_blocks=False, order=">"))):
        rng = random.Random(seed)
        recording = recorded(rng, polls)
        packets = [it for it in recording.packets if form.is_blocks or it.network == "A"][: 2 * polls]
        data = written(packets, form, rng)
        yield from ((text_of(recording.plan, rng), data, size) for size in range(len(data) + 1))


def guide() -> list[str]:
    """What is wrong with the example of the guide: the run of `program.md` without the second frame of network B."""
    starts = {"plan": "version", "program": "send", "judge": "3 A"}
    pages = {name: trying.blocks(f"docs/guide/{name}.md") for name in starts}
    plan, script, wanted = (next(it for it in pages[name] if it.startswith(start)) for name, start in starts.items())
    files = {"guide.toml": plan, "guide.txt": script}
    for name, text in files.items():
        with open(name, "w", encoding="utf-8") as file:
            file.write(text)
    subprocess.run([PROGRAM, "run", *files, "--capture", "guide.pcapng"], capture_output=True, check=True)
    with open("guide.pcapng", "rb") as file:
        packets = Reader(file.read()).packets
    del packets[3]
    told = run_judge(plan, [written(packets, PLAIN, random.Random(0))], Options(skew=100))
    is_well = told == (1, wanted, "") and trying.JUDGED in pages["judge"]
    return [] if is_well else [f"{told} for {wanted}, or another text of no capture than {trying.JUDGED}"]


def crowd() -> list[str]:
    """What is wrong with a verdict of more findings than are printed."""
    faults = []
    for count in (1_000, 1_001, 2_500):
        rng = random.Random(count)
        recording = recorded(rng, 5)
        bad = breaking.moved(recording.packets[0], bytes(60))
        captures = files_of([*recording.packets, *[bad] * count], rng)
        faults += faults_of(f"{count} findings", text_of(recording.plan, rng), captures, Options())
    return faults


def refused() -> list[str]:
    """What is wrong with runs in each of which an allocation or a write fails, or standard output is closed."""
    rng = random.Random(3)
    recording = recorded(rng, 6)
    plan, captures = text_of(recording.plan, rng), files_of(recording.packets, rng, True)
    with open("judged.toml", "w", encoding="utf-8") as file:
        file.write(plan)
    with open("judged.pcapng", "wb") as file:
        file.write(captures[0])
    words, out = ["judge", "judged.toml", "judged.pcapng"], verdict.judged(plan, captures, Options())[1]
    bench = refusals.Bench(os.getcwd())
    cases = [refusals_wanted.command(words, out, many=many) for many in (1, 0)]
    faults = [fault for case in cases for fault in refusals.tried_case(bench, PROGRAM, case)[0]]
    return faults + refusals.tried_closed(bench, PROGRAM, words)[0] + refusals.tried_writes(bench, PROGRAM, words)[0]


def main() -> int:
    """Runs all tests."""
    counts = ALL if sys.argv[1:] == ["--all"] else FEW
    tries = trying.Tries()
    with tempfile.TemporaryDirectory() as folder:
        os.chdir(folder)
        name = f"{counts.runs} random scripts over random plans: nothing is found"
        tries.attempt(name, lambda: (tried(clean_run, test_run.random_runs(counts.runs)), ""))
        for kind, word in enumerate(KINDS):
            # (so each rule of the layout is broken)
            cases = [(kind, seed) for seed in range(counts.planted * (1 if kind else 8))]
            tries.attempt(f"{len(cases)} times {word} alone", lambda cases=cases: (tried(planted, cases), ""))
        for task in (known_again, late, jittered, checked, told, of_another_maker, staggered, lost, unmerged, mixed):
            tries.attempt(f"{task.__name__}, {counts.mixed} times", lambda task=task: (tried(task, range(counts.mixed)), ""))
        for task in (addresses.own_addresses, addresses.wrong_addresses, addresses.mixed_addresses):
            tries.attempt(f"{task.__name__}, {counts.mixed} times", lambda task=task: (tried(task, range(counts.mixed)), ""))
        tries.attempt("each prefix of a capture", lambda: (tried(prefix, prefixes(4 if counts is FEW else 60)), ""))
        tries.attempt(f"{counts.damaged} damaged captures", lambda: (tried(damaged, range(counts.damaged)), ""))
        tries.attempt("40 pages", lambda: (tried(edges.page, range(40)), ""))
        for task in (edges.unwritten, edges.no_capture, edges.restarts, edges.fallen_silent, edges.long, edges.great, edges.interrupted):
            tries.attempt(task.__name__, lambda task=task: (task(), ""))
        for task in (taps.several, taps.apart, taps.by_byte, taps.silent):
            tries.attempt(f"{task.__name__}, {counts.mixed} times", lambda task=task: (tried(task, range(counts.mixed)), ""))
        tries.attempt(f"losses, {counts.mixed} times", lambda: (tried(losses.lost_by_recorders, range(counts.mixed)), ""))
        for task in (losses.by_hand, taps.foreign, taps.live, taps.many):
            tries.attempt(task.__name__, lambda task=task: (task(), ""))
        tries.attempt("the example of the guide", lambda: (guide(), ""))
        tries.attempt("more findings than lines", lambda: (crowd(), ""))
        tries.attempt("refused memory and writes", lambda: (refused(), ""))
    return tries.end()


if __name__ == "__main__":
    sys.exit(main())
