"""Tests `afdx_bench judge` at a tap: several end systems, frames of other equipment, networks by byte 11, links without a frame, and
recordings that come as they are made."""
import os
import random
import re
import resource
import statistics
import subprocess
import time

import breaking
import trials
import trying
import verdict
from captures import PLAIN, Packet, random_form, written
from edges import twins_at
from planting import text_of
from recordings import MICRO, by_time, recorded
from trials import changed, faults_of, run_judge
from verdict import Options, Ways

# The packets of the recording whose time is measured.
PACKETS = 600_000
# The source MAC addresses and the types of frames of other equipment.
SOURCES = [b"\x00\x1b\x21\x0a\x0b\x0c", b"\2\0\1\0\1\x20", b"\3\0\0\0\1\x20", b"\2\0\0\xfe\xdc\x20"]
TYPES = [b"\x08\x06", b"\x88\xcc", b"\x86\xdd", b"\x08\x00"]


def renamed(rng: random.Random, end_system: int, least: int):
    """A random recording of an end system whose links have numbers from one on."""
    recording = recorded(rng, rng.choice((3, 12)))
    numbers = {it["id"]: least + place for place, it in enumerate(recording.plan["vl"])}
    plan = {**recording.plan, "end_system": {"id": end_system}}
    plan["vl"] = [{**it, "id": numbers[it["id"]]} for it in plan["vl"]]
    plan["port"] = [{**it, "vl": numbers[it["vl"]]} for it in plan["port"]]
    packets = []
    for it in recording.packets:
        data = breaking.put(it.data, 4, numbers[breaking.half(it.data, 4)].to_bytes(2, "big"))
        data = breaking.put(data, 9, end_system.to_bytes(2, "big"))
        data = breaking.put(data, 27, end_system.to_bytes(2, "big"))
        if data[30:32] == b"\xe0\xe0":
            data = breaking.put(data, 32, data[4:6])
        packets.append(breaking.moved(it, breaking.summed(data)))
    return plan, packets


def other_frame(rng: random.Random, at: int) -> Packet:
    """A frame of other equipment."""
    data = rng.randbytes(6) + rng.choice(SOURCES) + rng.choice(TYPES) + rng.randbytes(rng.randrange(90))
    return Packet(rng.choice("AB"), at, len(data), data[: rng.choice((len(data), len(data), 13, 11))])


def several(seed: int) -> list[str]:
    """What is wrong with the verdict on a tap of several end systems, whose findings are those of each plan's own judge over the
    packets of its source."""
    rng = random.Random(f"several {seed}")
    made = [renamed(rng, rng.randrange(1, 3) + 2 * k, 1 + 100 * k) for k in range(rng.randint(2, 4))]
    packets = [it for _, own in made for it in own]
    for _ in range(rng.choice((0, 0, 1, 5, 30))):
        if packets:
            changed(packets, rng)
    is_foreign = rng.random() < 0.5
    if packets and rng.random() < 0.7:
        packets += [other_frame(rng, rng.choice(packets).at or 0) for _ in range(rng.choice((1, 5, 300)))]
    packets = by_time(packets)
    plans = [text_of(plan, rng) for plan, _ in made]
    ways = Ways(tuple(plans[1:]), rng.random() < 0.3, is_foreign, rng.random() < 0.2)
    captures = trials.files_of(packets, rng)
    options = Options(late=rng.random() < 0.2, arinc=rng.random() < 0.3)
    return faults_of(f"several {seed}", plans[0], captures, options, ways=ways)


def apart(seed: int) -> list[str]:
    """What is wrong with the findings on a tap beside those of each end system alone: none is lost, and none is under another."""
    rng = random.Random(f"apart {seed}")
    made = [renamed(rng, 1 + k, 1 + 100 * k) for k in range(rng.randint(2, 5))]
    for _, own in made:
        for _ in range(rng.choice((0, 1, 3))):
            if own:
                changed(own, rng)
    made = [(plan, [it for it in own if len(it.data) >= 12 and verdict.source_of(it.data) == plan["end_system"]["id"]]) for plan, own in made]
    plans, alone = [text_of(plan, rng) for plan, _ in made], []
    packets = sorted((it for _, own in made for it in own), key=lambda it: it.at)
    for (_, own), plan in zip(made, plans, strict=True):
        own = [it for it in packets if any(it is one for one in own)]
        alone.append(sorted(it[:2] + it[3:] for it in verdict.judged(plan, [written(own, PLAIN, rng)], Options())[2] if not it.told.startswith("byte")))
    ways = Ways(tuple(plans[1:]))
    captures = [written(packets, PLAIN, rng)]
    faults = faults_of(f"apart {seed}", plans[0], captures, Options(), ways=ways)
    all_found = sorted(it[:2] + it[3:] for it in verdict.judged(plans[0], captures, Options(), ways=ways)[2] if not it.told.startswith("byte"))
    wanted = sorted(it for found in alone for it in found)
    return faults + ([] if all_found == wanted else [f"apart {seed}: {all_found} for {wanted}"])


def foreign() -> list[str]:
    """What is wrong with the counts of frames of more sources than have a row; with a frame of the plan's source that isn't of the
    layout, which is found; and with those that have no type, which are judged."""
    rng = random.Random(3)
    recording = recorded(rng, 6)
    plan, packets, faults = text_of(recording.plan, rng), list(recording.packets), []
    at = packets[0].at
    for k in range(200):
        data = bytes(6) + b"\4" + k.to_bytes(5, "big") + rng.choice(TYPES) + bytes(46)
        packets += [Packet("AB"[k % 2], at, len(data), data)] * (1 + k % 3)
    bad = breaking.moved(packets[0], breaking.put(packets[0].data, 12, b"\x08\x06"))
    for more, kinds in (([], 0), ([bad], 1), ([breaking.moved(packets[0], packets[0].data[:13])], 1)):
        capture = written(by_time([*more, *packets]), PLAIN, rng)
        faults += faults_of("foreign", plan, [capture], Options(), ways=Ways(foreign=True))
        told = run_judge(plan, [capture], Options(), ways=Ways(foreign=True))[1]
        rows = re.findall(r"(?m)^foreign: (\d+) of (\S+)", told)
        if len(rows) != 65 or rows[-1][1] != "others" or sum(int(count) for count, _ in rows) != 399:
            faults.append(f"{rows}")
        if ("Frame" in told) != bool(kinds):
            faults.append(f"a frame of the plan's source: {told[:300]}")
    return faults


def by_byte(seed: int) -> list[str]:
    """What is wrong with the verdict on networks that came by one interface, or by the other one's: nothing is found if the network
    is what byte 11 says."""
    rng = random.Random(f"byte {seed}")
    recording = recorded(rng)
    plan = text_of(recording.plan, rng)
    turn = {"A": "B", "B": "A"} if seed % 2 else {"A": "A", "B": "A"}
    packets = by_time([it._replace(network=turn[it.network]) for it in recording.packets])
    captures = [written(packets, random_form(rng, 2)._replace(has_names=seed % 3 > 0), rng)]
    faults = faults_of(f"by byte {seed}", plan, captures, Options(), [], ways=Ways(by_byte=True))
    at = rng.randrange(len(packets)) if packets else 0
    if packets:
        packets.insert(at, breaking.moved(packets[at], breaking.put(packets[at].data, 11, bytes([rng.choice((0, 0x21, 0x60, 255))]))))
        wanted = [("Network", "", at + 1, packets[at].network)]
        faults += faults_of(f"no network {seed}", plan, [written(packets, PLAIN, rng)], Options(), wanted, ways=Ways(by_byte=True))
    return faults


def silent(seed: int) -> list[str]:
    """What is wrong with what is told of links and networks without a frame."""
    rng = random.Random(f"silent {seed}")
    recording = recorded(rng, 5)
    packets = list(recording.packets)
    gone = rng.choice(["", "A", "B", "AB"])
    packets = [it for it in packets if it.network not in gone]
    numbers = {it["id"] for it in recording.plan["vl"] if rng.random() < 0.5}
    packets = [it for it in packets if breaking.half(it.data, 4) not in numbers]
    plan, captures, faults = text_of(recording.plan, rng), trials.files_of(packets, rng), []
    for all_links in (False, True):
        faults += faults_of(f"silent {seed}", plan, captures, Options(), ways=Ways(all_links=all_links))
    return faults


def live() -> list[str]:
    """What is wrong with a recording that comes as it is made: a finding is printed before the next packet comes, rows each second;
    and if the recorder is ended by a signal, the command reads to the end and prints its summary."""
    rng = random.Random(4)
    recording = recorded(rng, 40)
    plan = text_of(recording.plan, rng)
    packets = [breaking.moved(recording.packets[0], bytes(60)), *recording.packets]
    data, first = written(packets, PLAIN, random.Random(0)), len(written(packets[:1], PLAIN, random.Random(0)))
    with open("live.toml", "w", encoding="utf-8") as file:
        file.write(plan)
    faults, how = [], {"stdin": subprocess.PIPE, "stdout": subprocess.PIPE, "bufsize": 0}
    with subprocess.Popen([trials.PROGRAM, "judge", "live.toml", "-"], **how) as process:
        process.stdin.write(data[:first])
        line = process.stdout.readline().decode()
        faults += [] if " Frame " in line else [f"{line!r} before the next packet"]
        told = line + process.communicate(data[first:], timeout=60)[0].decode()
    wanted = verdict.judged(plan, [data], Options(), True)
    faults += [] if (process.returncode, told) == wanted[:2] else [f"{process.returncode}, {told} for {wanted}"]
    with open("live.pcapng", "wb") as file:
        file.write(data)
    # (a recorder that writes all it has, and then waits to be ended)
    recorder = "import signal, sys, time; signal.signal(15, lambda *_: sys.exit()); sys.stdout.buffer.write(open('live.pcapng', 'rb').read()); sys.stdout.flush(); time.sleep(60)"
    begun = time.monotonic()
    words = f"timeout 1 {os.path.realpath('/proc/self/exe')} -c \"{recorder}\" | {trials.PROGRAM} judge live.toml -"
    done = subprocess.run(["sh", "-c", words], capture_output=True, check=False, timeout=60)
    is_well = (done.returncode, done.stdout.decode()) == wanted[:2] and time.monotonic() - begun < 30
    return faults + ([] if is_well else [f"{done} for {wanted}"]) + every()


def every() -> list[str]:
    """What is wrong with the rows each second of a recording."""
    packets = [it for k in range(50) for it in twins_at(100_000 * MICRO * k, k)]
    done = run_judge(trying.DEMO, [written(packets, PLAIN, random.Random(0))], Options(), more=["--every", "2"])
    at = re.findall(r"(?m)^at (\S+): no findings$", done[1])
    rows = re.findall(r"(?m)^    1   A +(\d+)", done[1])
    return [] if (done[0], at, rows) == (0, ["2.000000000", "4.000000000"], ["21", "41", "50"]) else [f"{done}"]


def seconds_of(words: list[str], faults: list[str]) -> float:
    """The processor time of a verdict in which nothing is found, in seconds."""
    begun = resource.getrusage(resource.RUSAGE_CHILDREN).ru_utime
    done = subprocess.run([trials.PROGRAM, "judge", *words], capture_output=True, check=False, timeout=60)
    faults += [] if done.returncode == 0 and not done.stderr else [f"{done.returncode} {done.stdout[:300]}"]
    return resource.getrusage(resource.RUSAGE_CHILDREN).ru_utime - begun


def many() -> list[str]:
    """What is wrong with the time of 16 end systems of 64 links beside that of one, for as many packets: at most 1.3 times."""
    rng, faults = random.Random(6), []
    head = trying.DEMO[: trying.DEMO.index("[[vl]]")]
    link = trying.DEMO[trying.DEMO.index("[[vl]]") : trying.DEMO.index("[[port]]")]
    port = trying.DEMO[trying.DEMO.index("[[port]]") :]
    frame = bytes.fromhex(trying.ONE_FRAME.split()[2])
    files = {}
    for count in (1, 16):
        names, packets = [], []
        for k in range(count):
            text = "version = 2\n" + head.replace("id = 1", f"id = {k + 1}")
            for vl in range(64):
                text += link.replace("id = 1", f"id = {64 * k + vl + 1}").replace("bag_ms = 1\n", 'bag_ms = 128\nnetworks = "a"\n')
                text += port.replace("id = 10", f"id = {vl + 1}").replace("vl = 1", f"vl = {64 * k + vl + 1}")
            names.append(f"many{count}-{k}.toml")
            with open(names[-1], "w", encoding="utf-8") as file:
                file.write(text)
        for k in range(PACKETS):
            vl, turn = k % (64 * count), k // (64 * count)
            number, end_system = (turn - 1) % 255 + 1 if turn else 0, vl // 64 + 1
            data = bytearray(frame[:-1] + bytes([number]))
            data[4:6], data[9:11], data[27:29] = (vl + 1).to_bytes(2, "big"), end_system.to_bytes(2, "big"), end_system.to_bytes(2, "big")
            data[18:20], data[32:34] = (turn * 4 % 65_536).to_bytes(2, "big"), (vl + 1).to_bytes(2, "big")
            data = breaking.summed(bytes(data))
            packets.append(Packet("A", turn * 128_000 * MICRO + vl * MICRO, len(data), data))
        with open(f"many{count}.pcap", "wb") as file:
            file.write(written(packets, PLAIN._replace(is_blocks=False), rng, "A"))
        with open("none.pcap", "wb") as file:
            file.write(written([], PLAIN._replace(is_blocks=False), rng, "B"))
        files[count] = [names[0], f"many{count}.pcap", "none.pcap", *(word for name in names[1:] for word in ("--with", name))]
    # (a busy machine stretches single runs: the median of rounds in turn decides, and of three tries the first that holds)
    for _ in range(3):
        rounds = [{count: seconds_of(files[count], faults) for count in (1, 16)} for _ in range(7)]
        ratio = statistics.median(it[16] / it[1] for it in rounds)
        if ratio <= 1.3 or faults:
            return faults
    return [f"{ratio}: {rounds}"]
