"""Tests `afdx_bench judge` at its edges: pages, files that are no captures, long captures and blocks, pipes."""
import fcntl
import hashlib
import os
import random
import re
import subprocess
import termios
import time
from fractions import Fraction

import breaking
import picture
import trials
import trying
import verdict
from captures import LONGEST, PLAIN, Packet, Reader, random_form, written
from planting import text_of
from recordings import MICRO, recorded
from trials import changed, faults_of, files_of, run_judge, tried
from verdict import Options


def page_in(name: str) -> str:
    """The page in a file."""
    with open(name, encoding="utf-8") as file:
        return file.read()


def bar(scale: int, limit: int, value: str) -> list[tuple[str, Fraction, Fraction]]:
    """The bar of a time in nanoseconds, which is at most full."""
    part = min(scale, int(value)) if value.isdigit() else 0
    return picture.parts([Fraction(part)], Fraction(limit), Fraction(scale))


def micros(nanos: str) -> str:
    """A time in nanoseconds as the page has it, in microseconds."""
    return f"{int(nanos) // 1000}.{int(nanos) % 1000:03}\u00a0µs" if nanos.isdigit() else "–"


def page(seed: int) -> list[str]:
    """What is wrong with the page of a recording: its title, its verdict, where it comes from, its findings, and the table of the
    links with its bars, by the text. Every fourth recording is cut off."""
    rng = random.Random(f"page {seed}")
    recording, jitter = recorded(rng, 12), rng.choice((0, 0, 999))
    options = Options(jitter, rng.choice((10_000, 6_000, 250_000)))
    # (every fifth with the addresses of the profile, by hand)
    options = options._replace(arinc=True, interfaces=b"\x20\x40") if seed % 5 == 0 else options
    packets = list(recording.packets)
    for _ in range(rng.choice((0, 1, 3, 200))):
        changed(packets, rng)
    plan, capture, name = text_of(recording.plan, rng), written(packets, PLAIN, rng), f"{os.getpid()}-page"
    capture = capture[:-5] if seed % 4 == 3 else capture
    told, wanted = run_judge(plan, [capture], options, more=["--html", name]), verdict.judged(plan, [capture], options)
    if told != (*wanted[:2], ""):
        return [f"page {seed}: {told} for {wanted[:2]}"]
    lines = told[1].splitlines()
    cells = [row.split() for row in told[1].partition("used-%\n")[2].splitlines()]
    text, scale, number = page_in(name), 1000 * options.skew, recording.plan["end_system"]["id"]
    shown, title, rows, bars = picture.Page(text), f"Recording of end system {number}", [], []
    for vl, net, frames, _, _, bag, least, lead, greatest, mean, mean_lead, used in cells:
        is_short = least.isdigit() and int(least) < int(bag) - 1000 * jitter
        rows.append([(vl, ""), (net, ""), (frames, "" if int(frames) else "over"), (f"{int(bag) // 10**6}\u00a0ms", "")])
        rows[-1] += [(micros(least), "over" if is_short else ""), (micros(lead), "")]
        rows[-1] += [*picture.plain(micros(greatest), micros(mean), micros(mean_lead), "\u2013" if used == "-" else f"{used}\u00a0%")]
        bars.append([bar(2 * int(bag), int(bag), least), bar(scale, scale, lead)])
    head = ["link", "network", "frames", "BAG", "least gap", "lead", "gap", "lead", "greatest gap", "mean gap", "mean lead", "used"]
    faults = [*picture.table_faults(shown, f"links-{number}", head, rows, bars)]
    titles = [re.sub("<.*?>", "", it) for it in re.findall(r"<(?:title|h1)>.*</(?:title|h1)>", text)]
    faults += [] if titles == [title, title] else [f"{titles}"]
    said = re.findall(r'<p id="verdict">(.*)</p>', text)
    line = next(it for it in lines if re.match(r"no findings$|\d+ findings?: ", it)) + "; the recording isn't whole" * (seed % 4 == 3)
    faults += [] if said == [line] else [f"{said} for {line}"]
    listed = "".join(re.findall(r'(?s)<pre id="findings">\n(.*?)</pre>', text)).splitlines()
    faults += [] if listed == [it for it in lines if re.match(r"\d+ [AB] ", it)] else [f"{listed}"]
    times = [it.at for it in packets[: len(packets) - (seed % 4 == 3)] if it.at is not None]
    first, last = packets[0].at if packets else None, max(times, default=None)
    for key, at in (("first", min(times, default=None)), ("last", last)):
        is_well = at is None or shown.named.get(key) == f"{at // 10**9}.{at % 10**9:09}\u00a0s"
        faults += [] if is_well or key == "first" and first != at else [f"{key}: {shown.named.get(key)} for {at}"]
    profile = f"arinc, {options.addresses()}" if options.arinc else "own"
    faults += [] if shown.named["options"] == f"jitter {jitter} µs, skew {options.skew} µs, profile {profile}" else [shown.named["options"]]
    files = [f"{os.getpid()}-plan", hashlib.sha256(plan.encode()).hexdigest(), f"{os.getpid()}-0: {len(Reader(capture).packets)} packets"]
    faults += [f"no {it}" for it in files if f"<dd>{it}" not in text]
    return [f"page {seed}: {fault}" for fault in faults]


def unwritten() -> list[str]:
    """What is wrong with pages that can't be written: standard error names the file. A file that the command reads is left, under
    whatever name."""
    faults, rng = [], random.Random(7)
    files = {"own.toml": trying.DEMO.encode(), **{f"own.{net}": written([], PLAIN, rng, net) for net in "AB"}}
    for name, data in files.items():
        with open(name, "wb") as file:
            file.write(data)
    own = {f"./{name}": "the command reads this file, so name another" for name in files}
    for name, why in {"/dev/full": "No space left on device (os error 28)", **own}.items():
        ran = subprocess.run([trials.PROGRAM, "judge", *files, "--html", name], capture_output=True, check=False, timeout=60)
        if (ran.returncode, ran.stderr.decode()) != (4, f"write failed\n{name}: {why}\n"):
            faults.append(f"{name}: {ran}")
    for name, data in files.items():
        with open(name, "rb") as file:
            faults += [] if file.read() == data else [f"{name} is changed"]
    return faults


def no_capture() -> list[str]:
    """What is wrong with verdicts on files that are no capture of Ethernet frames: the first line and the page say so, and
    neither has findings. A capture without packets is one."""
    rng, faults, none = random.Random(5), [], Options()
    recording = recorded(rng, 6)
    plan, good = text_of(recording.plan, rng), files_of(recording.packets, rng, True)[0]
    records = written([it for it in recording.packets if it.network == "A"], PLAIN._replace(is_blocks=False), rng)
    # (link type 113 is that of captures of any interface)
    bad = [b"", b"no capture\n" * 9, breaking.put(good, 36, b"\x71"), breaking.put(records, 20, b"\x71"), records[:24] + b"\0"]
    for data in bad:
        for captures in ([data], [data, good], [good, data], [data, data]):
            faults += faults_of(f"no capture {data[:9]!r}", plan, captures, none)
            status, out, _ = run_judge(plan, captures, none, more=["--html", "none.html"])
            said = re.findall(r'<p id="verdict">(.*)</p>', page_in("none.html"))
            if status != 2 or "findings" in out or said != out.splitlines()[:1] or not out.startswith("nothing judged: "):
                faults.append(f"{data[:9]!r}: {status}, {said} and {out}")
    return faults + faults_of("no packets", plan, [written([], PLAIN, rng)], none, [])


def twins_at(at: int, place: int, more: int = 0) -> list[Packet]:
    """The packets of both networks at a time in nanoseconds, of the frame at a place of the demonstration's link. Its sequence
    number is `more` further."""
    first, number = bytes.fromhex(trying.ONE_FRAME.split()[2]), place + more
    ident = (4 * place % 65_536).to_bytes(2, "big")
    data = breaking.summed(breaking.put(first[:-1], 18, ident)) + bytes([(number - 1) % 255 + 1 if number else 0])
    return [Packet(net, at, len(it), it) for net, it in (("A", data), ("B", breaking.put(data, 11, b"\x40")))]


def runs_of(*runs: list[int]) -> list[Packet]:
    """The packets of both networks, of a transmitter that starts once for each list of numbers, with a frame each 100 ms."""
    rows = [(place, number) for run in runs for place, number in enumerate(run)]
    packets = [it for k, (place, _) in enumerate(rows) for it in twins_at(100_000 * MICRO * k, place)]
    numbers = [number for _, number in rows for _ in "AB"]
    return [it._replace(data=it.data[:-1] + bytes([number])) for it, number in zip(packets, numbers, strict=True)]


def restarts() -> list[str]:
    """What is wrong with the verdicts on numbers that are 0: the first one; after 255, which is a wrong count; after 0 and after
    others, on both networks or on one, also in recordings that began late."""
    faults, first = [], [*range(256)]
    cases = {(): [[0, 1, 2]], ("Restart", 3): [[0, 1, 2], [0, 1]], ("Restart", 1): [[0], [0, 1]]}
    cases |= {("Number", 256): [[*first, 0, 1]], ("Restart", 257): [[*first, 1], [0, 1]]}
    for options in (Options(), Options(late=True), Options(arinc=True), Options(late=True, arinc=True)):
        for told, runs in cases.items():
            wanted = [(told[0], "", 2 * told[1] + k, net) for k, net in ((1, "A"), (2, "B"))] if told else []
            faults += faults_of(f"restart {told}", trying.DEMO, [written(runs_of(*runs), PLAIN, random.Random(0))], options, wanted)
        again, on = runs_of([0, 1, 2], [0, 1]), runs_of([0, 1, 2, 3, 4])
        for net in "AB":
            packets = [one if one.network == net else other for one, other in zip(again, on, strict=True)]
            capture = written(packets, PLAIN, random.Random(0))
            found = [(it.packet, it.network) for it in verdict.judged(trying.DEMO, [capture], options)[2] if it.kind == "Restart"]
            faults += faults_of(f"restart on {net}", trying.DEMO, [capture], options)
            faults += [] if found == [(7 + (net == "B"), net)] else [f"restart on {net}: {found}"]
    return faults


def fallen_silent() -> list[str]:
    """What is wrong with the verdicts on a link of which network B has only the first 100 frames. Of 255 more on network A any
    twin may still come, and of 500 more the first 245 are Missing: their numbers come again."""
    faults = []
    for more, lost in ((255, 0), (500, 245)):
        packets = [it for place in range(100 + more) for it in twins_at(1000 * MICRO * place, place) if place < 100 or it.network == "A"]
        wanted = [("Missing", "", 201 + k, "A") for k in range(lost)]
        faults += faults_of(f"{more} more", trying.DEMO, [written(packets, PLAIN, random.Random(0))], Options(), wanted)
    return faults


def long() -> list[str]:
    """What is wrong with the verdict on 200,000 packets of one link, whose numbers go on with another one than the next from
    packet 150,001 on."""
    packets = [it for place in range(100_000) for it in twins_at(1000 * MICRO * place, place, int(place >= 75_000))]
    # (75,000 is 30 more than a multiple of 255; the model would take a minute)
    wanted = "".join(f"{150_001 + k} {net} 75.000000000 vl 1 Number: seen 31, wanted 30\n" for k, net in enumerate("AB"))
    wanted += "2 findings: Number 2\ncapture 1: 200000 packets\n"
    wanted += "networks: A is interface 0 of capture 1, B is interface 1 of capture 1\n"
    # (frames of 60 bytes take 84 on the wire, and those of Lmax 1,538, of which 100,000 have their place)
    wanted += verdict.HEAD + "".join(
        f"    1   {net}      100000       6000000      100000     1000000        1000000           0"
        f"          1000000        1000000             0      5.47\n" for net in "AB"
    )
    told = run_judge(trying.DEMO, [written(packets, PLAIN, random.Random(0))], Options())
    return [] if told == (1, wanted, "") else [f"{told} for {wanted}"]


def great() -> list[str]:
    """What is wrong with the verdicts on captures with a block or a record of up to 1 MiB, and of more."""
    rng, faults = random.Random(11), []
    recording = recorded(rng, 12)
    plan, at = text_of(recording.plan, rng), len(recording.packets) // 2
    for size in (65_536, LONGEST - 32, LONGEST - 31, LONGEST - 16, LONGEST - 15):
        packets = list(recording.packets)
        packets[at:at] = [breaking.moved(packets[at], rng.randbytes(size))] * 3
        faults += faults_of(f"a block of {size}", plan, [written(packets, PLAIN, rng)], Options())
        pair = [written([it for it in packets if it.network == net], PLAIN._replace(is_blocks=False), rng) for net in "AB"]
        faults += faults_of(f"a record of {size}", plan, pair, Options())
    return faults


def in_pieces(seed: int) -> list[str]:
    """What is wrong with the verdict on a capture that comes through a pipe in pieces, while signals interrupt each read that
    waits: nothing is found."""
    rng, name = random.Random(f"pieces {seed}"), f"{os.getpid()}-piped"
    recording = recorded(rng, 8)
    plan, data = text_of(recording.plan, rng), written(recording.packets, random_form(rng, 2), rng)
    with open(name, "w", encoding="utf-8") as file:
        file.write(plan)
    how = {"stdin": subprocess.PIPE, "stdout": subprocess.PIPE, "stderr": subprocess.STDOUT, "bufsize": 0}
    env = {"LD_PRELOAD": os.path.abspath("interrupt.so")}
    with subprocess.Popen([trials.PROGRAM, "judge", name, "/dev/stdin"], env=env, **how) as process:
        rest = data
        while rest:
            size = rng.choice((1, 11, 40, 900))
            process.stdin.write(rest[:size])
            rest = rest[size:]
            # (once it has read all of the pipe, it waits for more)
            while process.poll() is None and fcntl.ioctl(process.stdin, termios.FIONREAD, bytes(4)) != bytes(4):
                time.sleep(0.001)
            time.sleep(0.003)
        told = process.communicate(timeout=60)[0].decode()
    wanted = verdict.judged(plan, [data], Options(), True)[1]
    return [] if (process.returncode, told) == (0, wanted) else [f"pieces {seed}: {told} for {wanted}"]


def interrupted() -> list[str]:
    """What is wrong with the verdicts on captures that come in pieces."""
    words = ["-O2", "-shared", "-fPIC", "-o", "interrupt.so", f"{trying.ROOT}/tests/judge/interrupt.c"]
    subprocess.run([trying.compiler() or "cc", *words], check=True)
    return tried(in_pieces, range(24))
