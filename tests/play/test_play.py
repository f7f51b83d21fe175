#!/usr/bin/env python3
"""Tests `afdx_play` over two veth pairs: what the kernel's sockets get on each network, against the model of `tests/run`,
and what `afdx_bench judge` finds of its captures.

    python3 tests/play/test_play.py [PLAYER [MILLIS]]

It runs the player and the bench beside it that `install/install.sh --built` installs, in a network namespace of its own,
with the receivers of each network in another. Without root or veth pairs only the player's words are tried, and the rest
counts as skipped. MILLIS is how long the run of twelve links takes. The last line is 'N passed, M failed', or has
', K skipped' after that.
"""
import itertools
import os
import random
import re
import shutil
import signal
import subprocess
import sys
import tempfile
import time
from collections import Counter
from collections.abc import Callable, Iterator

HERE = os.path.dirname(os.path.abspath(__file__))
ROOT = os.path.dirname(os.path.dirname(HERE))
sys.dont_write_bytecode = True
sys.path[:0] = [f"{ROOT}/tests", f"{ROOT}/tests/run", HERE]
import model  # noqa: E402
import pcapng  # noqa: E402
import trying  # noqa: E402
from receiving import Receiver  # noqa: E402

NETWORKS = "AB"
BAG = 1_000_000
# How late a poll may be for the tests that need times, in nanoseconds: beyond it the machine is too busy to tell.
BUSY = 20_000_000
# How far the clock of the player and that of the kernel's times may drift apart in a BAG, in nanoseconds.
CLOCKS = 10_000
# How far the networks may be apart for the judge, in nanoseconds, unless polls were later.
SKEW = 20_000_000
USAGE = "usage: afdx_play PLAN SCRIPT INTERFACE_A INTERFACE_B"


def plan_of(links: int) -> str:
    """A plan of links of 1 to 4 ms, of one and two sub-VLs, the third one on network A alone, with long and short messages."""
    text = "version = 2\n[end_system]\nid = 1\n"
    for k in range(1, links + 1):
        text += f"[[vl]]\nid = {k}\nbag_ms = {1 << k % 3}\nlmax = {(1518, 200, 300)[k % 3]}\nsub_vls = {1 + k % 2}\ncapacity = 64\n"
        text += "networks = 'a'\n" if k == 3 else ""
        text += f"[[port]]\nid = {10 + k}\nvl = {k}\nsub = {k % 2}\npartition = {k}\nkind = 'queuing'\nsource = {1000 + k}\n"
        text += f"destination = {2000 + k}\nmax = 2000\n" + ("checksum = 'udp'\n" if k % 4 == 0 else "")
    return text


def script_of(links: int, millis: int, seed: int, gap: int = 1) -> str:
    """A script of this many milliseconds that sends a message in each `gap` milliseconds, in turn, and polls each half one."""
    rng, lines, turn = random.Random(seed), [], itertools.cycle(range(1, links + 1))
    for now in range(0, millis * 1000, 500):
        if now % (1000 * gap) == 0 and now < 900 * millis:
            lines.append(f"send {10 + next(turn)} {rng.randbytes(rng.choice((1, 18, 100, 500, 1400))).hex()}")
        lines.append(f"at {now}")
    return "\n".join([*lines, "send 99 00", "close 1 0", ""])


def stopped(command: list[str], by: int) -> subprocess.CompletedProcess:
    """A run that a signal stops after half a second."""
    process = subprocess.Popen(command, stdout=subprocess.PIPE, stderr=subprocess.PIPE, text=True)
    time.sleep(0.5)
    process.send_signal(by)
    return subprocess.CompletedProcess(command, process.wait(10), *process.communicate())


def stalled(command: list[str], stalls: int) -> subprocess.CompletedProcess:
    """A run that is held up for 50 milliseconds so many times, 150 milliseconds apart."""
    process = subprocess.Popen(command, stdout=subprocess.PIPE, stderr=subprocess.PIPE, text=True)
    for _ in range(stalls):
        time.sleep(0.15)
        process.send_signal(signal.SIGSTOP)
        time.sleep(0.05)
        process.send_signal(signal.SIGCONT)
    out, error = process.communicate(timeout=120)
    return subprocess.CompletedProcess(command, process.returncode, out, error)


def cut_off(command: list[str], receiver: Receiver, name: str) -> subprocess.CompletedProcess:
    """A run in which the peer of an interface is down for a fifth of a second."""
    process = subprocess.Popen(command, stdout=subprocess.PIPE, stderr=subprocess.PIPE, text=True)
    for state in ("down", "up"):
        time.sleep(0.2)
        inside_of = ["nsenter", "-t", str(receiver.process.pid), "-n"]
        subprocess.run([*inside_of, "ip", "link", "set", f"peer{name}", state], check=True)
    out, error = process.communicate(timeout=120)
    return subprocess.CompletedProcess(command, process.returncode, out, error)


def with_second(error: str) -> str:
    """The first line of a script's fault with the second one, which says what is wanted."""
    fault = re.fullmatch(r"script line (\d+): (.*)\n", error)
    if fault:
        return f"{error}script.txt:{fault[1]}: {trying.LINE_FORMS[fault[2]]}\n"
    return f"{error}script.txt: a script has at most 1000000 lines\n" if error else ""


class Played:
    """A run of the player: how it ended, what came on each network, and its capture."""

    def __init__(self, rig, plan: str, script: str, *words: str, stop: int = 0, by_clock: bool = False, stalls: int = 0,
                 cut: str = "") -> None:
        for name, text in (("plan.toml", plan), ("script.txt", script)):
            with open(name, "w", encoding="utf-8") as file:
                file.write(text)
        command = [rig.program, "plan.toml", "script.txt", "wireA", "wireB", "--capture", "frames.pcapng", *words]
        command += [] if by_clock else ["--as-written"]
        if cut:
            self.ran = cut_off(command, rig.receivers[cut], cut)
        else:
            self.ran = stopped(command, stop) if stop else stalled(command, stalls)
        time.sleep(0.3)
        self.came = {name: receiver.take() for name, receiver in rig.receivers.items()}
        status, out, error = model.run(plan, script.encode())
        self.wanted, self.transcript = (status, with_second(error)), out
        self.frames = {name: [(int(line.split()[1]), line.split()[2]) for line in out.splitlines() if line.startswith(f"{name} ")]
                       for name in NETWORKS}
        with open("frames.pcapng", "rb") as file:
            capture = pcapng.Capture(file.read())
        trying.check([it.resolution for it in capture.interfaces] == [9, 9])
        self.captured = {name: [(it.moment, it.data.hex()) for it in capture.packets if it.name == name] for name in NETWORKS}
        late = re.search(r"greatest (\d+)", self.ran.stdout)
        self.late = 1000 * int(late[1]) if late else BUSY
        self.skew = max(SKEW, self.late + 1000)
        self.bench = f"{os.path.dirname(rig.program)}/afdx_bench"

    def found(self) -> Counter:
        """What the judge finds of the capture, at the lateness that was printed: how many of each kind."""
        words = ["judge", "plan.toml", "frames.pcapng", "--jitter", str(self.late // 1000), "--skew", str(self.skew // 1000)]
        out = subprocess.run([self.bench, *words], capture_output=True, text=True, check=False).stdout
        line = re.search(r"(?m)^(?:no findings|\d+ findings?: (.*))$", out)
        trying.check(line, out)
        return Counter({kind: int(count) for kind, count in re.findall(r"(\w+) (\d+)", line[1] or "")})

    def differences(self, wanted: dict[str, list[str]]) -> list[str]:
        """What is wrong with the frames that came and those that were captured, which must be these."""
        faults = []
        for name in NETWORKS:
            for where, frames in (("came", self.came[name]["frames"]), ("were captured", self.captured[name])):
                found = [data for _, data in frames]
                if found != wanted[name]:
                    at = next((k for k, (one, other) in enumerate(zip(found, wanted[name])) if one != other), min(len(found), len(wanted[name])))
                    faults.append(f"network {name}: {len(found)} frames {where} for {len(wanted[name])}, the first other one is {at + 1}")
        return faults

    def least_gap(self, link: int, name: str) -> float:
        """The least gap of a link in a network by the kernel's times, in microseconds, as the last lines tell it."""
        row = re.search(rf"(?m)^link {link}: .*, least gap in microseconds:.*? {name} (\d+\.\d)", self.ran.stdout)
        trying.check(row, self.ran.stdout)
        return float(row[1])

    def said(self) -> list[str]:
        """What is wrong with the run's end and notes."""
        notes = "".join(f"{line}\n" for line in self.transcript.splitlines() if line.startswith("line "))
        is_well = (self.ran.returncode, self.ran.stderr) == self.wanted and self.ran.stdout.startswith(notes)
        return [] if is_well else [f"status {self.ran.returncode}: {self.ran.stdout[:500]}{self.ran.stderr[:500]}"]


def all_of(played: Played) -> dict[str, list[str]]:
    """The frames of the model."""
    return {name: [data for _, data in frames] for name, frames in played.frames.items()}


def messages_of(frames: list[str]) -> dict[str, list[str]]:
    """The messages whose fragments are all among these frames, by link and UDP port, as reassembly makes them."""
    parts, done = {}, {}
    for data in map(bytes.fromhex, frames):
        link, total = int.from_bytes(data[4:6], "big"), int.from_bytes(data[16:18], "big")
        key, piece = (link, data[18:20]), data[34 : 14 + total]
        parts[key] = parts.get(key, b"") + piece
        if not data[20] & 0x20:
            datagram = parts.pop(key)
            done.setdefault(f"{link}:{int.from_bytes(datagram[2:4], 'big')}", []).append(datagram[8:].hex())
    return done


def try_clean(played: Played) -> tuple[list[str], str]:
    """A run without faults on purpose: each frame and each message comes, none too early, and the counts are right."""
    wanted = all_of(played)
    faults = played.differences(wanted) + played.said()
    for name in NETWORKS:
        messages = messages_of(wanted[name])
        came = {word: found for word, found in played.came[name]["messages"].items() if found}
        faults += [] if came == messages else [f"network {name}: {sum(map(len, came.values()))} messages for {sum(map(len, messages.values()))}"]
        count = len(wanted[name])
        faults += [] if f"network {name}, wire{name}: took {count} of {count} frames\n" in played.ran.stdout else [played.ran.stdout]
        faults += gaps(played.captured[name], 10, played.late)
    for link in {data[8:12] for data in wanted["A"]}:
        own = [data for data in wanted["A"] if data[8:12] == link]
        row = f"link {int(link, 16)}: frames {len(own)}, bytes {sum(map(len, own)) // 2}, messages "
        faults += [] if row in played.ran.stdout else [f"not said: {row}"]
    for name, frames in played.came.items():
        faults += wrong_gaps(played, name, frames["frames"])
    found = played.found()
    faults += [f"the judge finds {dict(found)}"] if found else []
    late = re.search(r"(?m)^polls (\d+), late in microseconds: half (\d+), 99.99 % (\d+), greatest (\d+)$", played.ran.stdout)
    faults += [] if late and int(late[2]) <= int(late[3]) <= int(late[4]) else ["lateness isn't said"]
    return faults, late[0] if late else ""


def wrong_gaps(played: Played, name: str, came: list[tuple[int, str]]) -> list[str]:
    """What is wrong with the least gaps that are told, beside those at the receiver: its kernel has the time of each frame a
    little after the sender's."""
    last, least = {}, {}
    for at, data in came:
        link = int(data[8:12], 16)
        if link in last:
            least[link] = min(least.get(link, at), at - last[link])
        last[link] = at
    far = {link: (played.least_gap(link, name), gap / 1000) for link, gap in least.items()}
    return [f"network {name}, link {link}: a least gap of {told} us told, of {seen} seen"
            for link, (told, seen) in far.items() if abs(told - seen) > max(300, played.late / 1000)]


def gaps(captured: list[tuple[int, str]], links: int, late: int) -> list[str]:
    """What is wrong with the times of captured frames: those of a link are a BAG apart, but for how late polls were."""
    last, faults = {}, []
    for at, data in captured:
        link = int(data[8:12], 16)
        least = BAG * (1 << link % 3) - late
        if link in last and at - last[link] < least:
            faults.append(f"link {link}: {at - last[link]} ns after the last frame, of at least {least}")
        last[link] = at
    return faults


def changed(frames: list[str], word: str, first: int, second: str = "") -> list[str]:
    """The frames with a fault on purpose; one that isn't sent is empty."""
    frames, k = list(frames), first - 1
    if word == "lose":
        frames[k] = ""
    elif word == "repeat":
        frames.insert(k, frames[k])
    elif word == "swap":
        other = int(second) - 1
        frames[k], frames[other] = frames[other], frames[k]
    elif word == "number":
        frames[k] = f"{frames[k][:-2]}{int(second):02x}"
    elif word == "flip":
        data = bytearray.fromhex(frames[k])
        data[int(second, 16)] ^= 255
        frames[k] = data.hex()
    elif word == "down":
        del frames[k:]
    return frames


# What the judge finds of each fault, beside frames without a twin: how many of each kind.
TRACES = {
    "lose": {"Number": 1},
    "repeat": {"Number": 1, "Early": 1},
    "swap": {"Number": 3},
    "number": {"Number": 2},
    "early": {"Early": 1},
    "flip": {"Frame": 1, "Number": 1},
    "down": {},
}


def too_early(times: list[int], gap: int, jitter: int) -> int:
    """How many frames no release times explain, a gap apart or more, each at most the jitter before its frame's time. After
    such a frame they count from its time."""
    count, least = 0, 0
    for at in times:
        release = max(least, at - jitter)
        count += release > at
        least = min(release, at) + gap
    return count


def misjudged(played: Played, text: str) -> list[str]:
    """What is wrong with the findings of a run with a fault: they are its trace, and nothing else."""
    word, network, first, *second = text.split()
    own, other, k = played.captured[network], played.captured["AB".replace(network, "")], int(first) - 1
    alone = {"repeat": own[k + 1 : k + 2], "number": own[k : k + 1]}.get(word, [])
    twinless = {"lose": other[k : k + 1], "number": other[k : k + 1], "flip": other[k : k + 1], "down": other[k:]}.get(word, [])

    def missed(frames: list[tuple[int, str]], twins: list[tuple[int, str]]) -> int:
        """How many frames came more than the skew after the first frame of the other network, and before its last."""
        times = [at for at, _ in twins]
        return sum(bool(times) and min(times) + played.skew < at < max(times) - played.skew for at, _ in frames)

    wanted, found = Counter(TRACES[word], Missing=missed(alone, other) + missed(twinless, own)), played.found()
    # (a poll that is late brings a copy nearer to the next frame, and a frame that is less early than polls are late isn't early)
    judged = own[:k] + own[k + 1 :] if word == "flip" else own
    early = sum(too_early([at for at, _ in frames], 2 * BAG, played.late) for frames in (judged, other))
    by = 1000 * int(second[0]) if word == "early" else 2 * BAG
    if wanted["Early"] > early and by > played.late:
        return [f"{early} frames without release times, late {played.late}"]
    wanted["Early"] = early
    return [] if +found == +wanted else [f"the judge finds {dict(found)} for {dict(wanted)}, late {played.late}"]


def try_fault(rig, text: str) -> tuple[list[str], str]:
    """A run with a fault on purpose: that frame of that network is changed, and nothing else."""
    played = Played(rig, plan_of(1), script_of(1, 60, 7), "--fault", text)
    word, network, first, *second = text.split()
    wanted = all_of(played)
    wanted[network] = [*filter(None, changed(wanted[network], word, int(first), *second))]
    faults = played.differences(wanted) + played.said()
    is_last = played.ran.stdout.splitlines()[-1] == f"faults on purpose, after the library: {text}"
    faults += [] if is_last else [played.ran.stdout[-200:]]
    if word == "early":
        at = int(first) - 1
        for name in NETWORKS:
            early = (played.frames[name][at][0] - played.frames[name][at - 1][0]) * 1000 - (int(second[0]) * 1000 if name == network else 0)
            gap = played.captured[name][at][0] - played.captured[name][at - 1][0]
            faults += [] if abs(gap - early) <= played.late else [f"network {name}: a gap of {gap} ns for {early}, late {played.late}"]
            faults += wrong_gaps(played, name, played.came[name]["frames"])
    return faults + misjudged(played, text), ""


def try_more(rig, came_true: list[str], others: list[str]) -> tuple[list[str], str]:
    """A run with faults on purpose, some of which don't come true: frames are changed by those that do, and swapped as they are
    then. The last lines name both, and the status is 3 if there are others."""
    played = Played(rig, plan_of(1), script_of(1, 60, 7), *(it for text in others + came_true for it in ("--fault", text)))
    wanted = all_of(played)
    for word, network, *more in sorted((text.split() for text in came_true), key=lambda words: words[0] == "swap"):
        wanted[network] = changed(wanted[network], word, int(more[0]), *more[1:])
    wanted = {name: [*filter(None, frames)] for name, frames in wanted.items()}
    fronts = (("faults on purpose, after the library:", came_true), ("faults that weren't made:", others))
    last = "".join(f"{front} {', '.join(texts)}\n" for front, texts in fronts if texts)
    is_told = "".join(played.ran.stdout.partition("faults ")[1:]) == last
    played.wanted = (3 if others else played.wanted[0], played.wanted[1])
    return played.differences(wanted) + played.said() + ([] if is_told else [played.ran.stdout[-200:]]), ""


MORE = [
    ([], ["lose A 999999"]),
    (["lose A 10"], ["lose B 999999", "flip A 20 5e9", "swap A 5 999999", "early B 888888 800"]),
    (["lose A 5", "swap A 5 6"], []),
    (["down A 20", "early A 12 300"], []),
    (["flip A 5 1a", "flip A 5 1b"], []),
    (["number A 5 200", "swap A 5 6"], []),
    (["swap A 5 6", "flip A 6 1a", "number A 6 7"], []),
    (["swap A 5 6", "swap A 6 7"], []),
    (["early A 12 300", "number A 12 200"], []),
]


def try_stop(rig, by: int, by_clock: bool) -> tuple[list[str], str]:
    """A run that a signal stops prints its last lines, ends with 128 and the signal's number, and keeps what it captured. The
    fault of a line that it didn't reach isn't told."""
    # (few messages, so that by the clock, too, none finds its queue full)
    played = Played(rig, plan_of(1), f"{script_of(1, 2000, 8, 12)}at x\n", stop=by, by_clock=by_clock)
    frames, captured = all_of(played)["A"], [data for _, data in played.captured["A"]]
    is_cut = captured == frames[: len(captured)] == [data for _, data in played.came["A"]["frames"]] and 0 < len(captured) < len(frames) // 2
    is_told = re.fullmatch(r"(line .*\n)*link .*\n(network .*\n){2}lines refused .*\npolls .*\n", played.ran.stdout)
    is_well = is_cut and is_told and (played.ran.returncode, played.ran.stderr) == (128 + by, "")
    return [] if is_well else [f"{played.ran}, {len(captured)} frames of {len(frames)}"], ""


def of_links(frames: list[str]) -> dict[str, list[str]]:
    """The frames of each link, in their order."""
    links = {}
    for data in frames:
        links.setdefault(data[8:12], []).append(data)
    return links


def try_clock(rig, stalls: int) -> tuple[list[str], str]:
    """By the clock each link's frames are those of the script, but for the last ones, and no gap is short, by the player's
    times and by the receivers', also if the player was held up."""
    played = Played(rig, plan_of(3), script_of(3, 600, 11, 4), by_clock=True, stalls=stalls)
    faults = played.said()
    for name in NETWORKS:
        came, wanted = of_links([data for _, data in played.captured[name]]), of_links(all_of(played)[name])
        for link, frames in wanted.items():
            got = came.get(link, [])
            is_front = got == frames[: len(got)] and len(got) + 60 * stalls + played.late // BAG + 5 >= len(frames)
            faults += [] if is_front else [f"network {name}, link {link}: {len(got)} frames of {len(frames)}"]
        faults += gaps(played.captured[name], 3, CLOCKS) + gaps(played.came[name]["frames"], 3, CLOCKS)
    return faults, ""


def try_written(rig) -> tuple[list[str], str]:
    """As written, a player that was held up catches up, and sends frames of a link too close together."""
    played = Played(rig, plan_of(3), script_of(3, 600, 11, 4), stalls=2)
    short = close_gaps(played.captured["A"])
    return played.differences(all_of(played)) + ([] if short > 6 else [f"{short} gaps under half a BAG"]), f"{short} close gaps"


def close_gaps(captured: list[tuple[int, str]]) -> int:
    """How many frames of the plan of three links came less than half a BAG after the last one of their link."""
    last, short = {}, 0
    for at, data in captured:
        link = int(data[8:12], 16)
        short += link in last and at - last[link] < BAG * (1 << link % 3) // 2
        last[link] = at
    return short


FAULTS = ["lose A 14", "lose B 1", "repeat B 7", "swap A 5 6", "number A 14 200", "early A 12 300", "flip B 20 1a", "down A 30", "down B 1"]


def try_down(rig) -> tuple[list[str], str]:
    """An interface that is taken down fails, and the other gets each frame."""
    subprocess.run(["ip", "link", "set", "wireB", "down"], check=True)
    played = Played(rig, plan_of(1), script_of(1, 30, 8))
    subprocess.run(["ip", "link", "set", "wireB", "up"], check=True)
    wanted = all_of(played) | {"B": []}
    faults = played.differences(wanted)
    is_told = played.ran.returncode == 4 and played.ran.stderr == "write failed\nwireB: Network is down\n"
    return faults + ([] if is_told else [f"{played.ran}"]), ""


def try_closed(rig) -> tuple[list[str], str]:
    """With standard output closed no socket takes its place: the frames are those of the script alone, and the status is 4."""
    plan, script = plan_of(1), script_of(1, 30, 8)
    for name, text in (("plan.toml", plan), ("script.txt", script)):
        with open(name, "w", encoding="utf-8") as file:
            file.write(text)
    words, how = ["plan.toml", "script.txt", "wireA", "wireB", "--as-written"], {"stderr": subprocess.PIPE, "text": True}
    ran = subprocess.run([rig.program, *words], check=False, preexec_fn=lambda: os.close(1), **how)
    time.sleep(0.3)
    lines, faults = model.run(plan, script.encode())[1].splitlines(), []
    for name, receiver in rig.receivers.items():
        came = [data for _, data in receiver.take()["frames"]]
        wanted = [line.split()[2] for line in lines if line.startswith(f"{name} ")]
        faults += [] if came == wanted else [f"network {name}: {len(came)} frames for {len(wanted)}"]
    is_told = (ran.returncode, ran.stderr) == (4, "write failed\nstandard output: Bad file descriptor\n")
    return faults + ([] if is_told else [f"{ran}"]), ""


def try_lost_carrier(rig) -> tuple[list[str], str]:
    """A carrier that is lost for a while: the interface takes all frames, and sends some of them. The last lines tell how many
    it lost, and the status is 4."""
    played = Played(rig, plan_of(1), script_of(1, 600, 8, 12), by_clock=True, cut="B")
    sent = {name: len(played.came[name]["frames"]) for name in NETWORKS}
    lines = {name: re.search(rf"(?m)^network {name}, .*: took (\d+) of \1 frames$", played.ran.stdout) for name in NETWORKS}
    took = {name: int(it[1]) for name, it in lines.items() if it}
    if len(took) < len(NETWORKS):
        return [f"{played.ran}, came {sent}"], ""
    line = f"network B, wireB: lost {took['B'] - sent['B']} of these, by its counters: sent {sent['B']}, "
    is_told = line in played.ran.stdout and "wireA: lost" not in played.ran.stdout
    is_well = is_told and played.ran.returncode == 4 and sent["A"] == took["A"] and 5 < took["B"] - sent["B"] < took["B"] - 5
    return [] if is_well else [f"{played.ran}, came {sent}"], f"{took['B'] - sent['B']} of {took['B']} frames lost"


def try_repeat(rig) -> tuple[list[str], str]:
    """Three rounds of a script are one of its lines three times, each round from the last time of the one before. A script of
    one time is played once."""
    lines, faults = script_of(2, 60, 9).splitlines()[:-2], []
    last = max(int(line.split()[1]) for line in lines if line.startswith("at "))
    longer = [f"at {int(line.split()[1]) + k * last}" if line.startswith("at ") else line for k in range(3) for line in lines]
    for text, wanted in (("\n".join(lines), "\n".join(longer)), ("send 11 00\nat 5\n", "send 11 00\nat 5\n")):
        played = Played(rig, plan_of(2), text, "--repeat", "3")
        status, out, _ = model.run(plan_of(2), wanted.encode())
        frames = {name: [line.split()[2] for line in out.splitlines() if line.startswith(f"{name} ")] for name in NETWORKS}
        faults += played.differences(frames) + ([] if played.ran.returncode == status else [f"{played.ran}"])
    return faults, f"{len(frames['A'])} frames at one time"


def try_traffic(rig) -> tuple[list[str], str]:
    """With `--traffic` the player plays the script that `schedule` makes of the same words; by the clock each link's frames are
    those of the script, but for the last ones, which are due after the last poll."""
    plan, words = plan_of(2), ["--traffic", "traffic.csv", "--seconds", "1", "--seed", "5"]
    for name, text in (("plan.toml", plan), ("traffic.csv", "port;period_us\n11;20000\n12;50000\n")):
        with open(name, "w", encoding="utf-8") as file:
            file.write(text)
    bench, faults = f"{os.path.dirname(rig.program)}/afdx_bench", []
    script = subprocess.run([bench, "schedule", "plan.toml", *words], capture_output=True, check=True).stdout
    status, out, error = model.run(plan, script)
    for more in (["--as-written"], []):
        ran = subprocess.run([rig.program, "plan.toml", "wireA", "wireB", *words, *more], capture_output=True, text=True, check=False)
        time.sleep(0.3)
        faults += [] if (ran.returncode, ran.stderr) == (status, error) == (0, "") else [f"{more}: {ran}"]
        for name, receiver in rig.receivers.items():
            wanted = [line.split()[2] for line in out.splitlines() if line.startswith(f"{name} ")]
            came = [data for _, data in receiver.take()["frames"]]
            # (on a busy machine polls are late, and so are all frames after them)
            is_busy = int(re.search(r"greatest (\d+)", ran.stdout)[1]) > 2000
            links, least = of_links(came), len(wanted) if more else len(wanted) * (5 if is_busy else 9) // 10
            is_well = all(links.get(link, []) == frames[: len(links.get(link, []))] for link, frames in of_links(wanted).items())
            faults += [] if is_well and least <= len(came) <= len(wanted) else [f"{more}, network {name}: {len(came)} frames for {len(wanted)}"]
    return faults, f"{len(wanted)} frames"


def try_speed(rig) -> tuple[list[str], str]:
    """Four times as fast, a script of 400 ms takes 100 ms, and the frames are the same."""
    faults = []
    for words, least in (([], 0.4), (["--speed", "4"], 0.1)):
        played = Played(rig, plan_of(2), script_of(2, 400, 9), *words)
        times = sorted(at for frames in played.captured.values() for at, _ in frames)
        wanted = [at for frames in played.frames.values() for at, _ in frames]
        took, span = (times[-1] - times[0]) / 1e9, (max(wanted) - min(wanted)) / 1e6 * least / 0.4
        faults += played.differences(all_of(played))
        faults += [] if abs(took - span) <= played.late / 1e9 else [f"{words}: the frames took {took} s for {span}"]
    return faults, ""


def try_full(rig) -> tuple[list[str], str]:
    """A capture, and an output, for which there is no room: the run goes on to its end, which says which of them failed."""
    faults = []
    for more, path, wanted in (([], "/dev/full", "standard output"), (["--capture", "/dev/full"], "out.txt", "/dev/full")):
        with open(path, "w", encoding="utf-8") as out:
            ran = subprocess.run([rig.program, "demo.toml", "short.txt", "wireA", "wireB", *more], stdout=out, stderr=subprocess.PIPE, text=True, check=False)
        is_well = (ran.returncode, ran.stderr) == (4, f"write failed\n{wanted}: {NO_ROOM}\n")
        faults += [] if is_well and [len(it.take()["frames"]) for it in rig.receivers.values()] == [1, 1] else [f"{ran}"]
    return faults, ""


def try_ends(rig) -> tuple[list[str], str]:
    """A line's fault ends a run, after the lines before it; a byte order mark before the script is none."""
    faults = []
    begun = "send 11 01\nat 0\n"
    for script in ("\ufeffsend 11 01\nat 0\nat x\nsend 11 02\n", "send 11 01\r\nat 0\r\nat 5 6\r\n", "", "\n" * 1_000_001, "send 11 01\nat 9\nat 8\n",
                   f"{begun}frob\n", f"{begun}send 11 0\n", begun + "#" * 20_001):
        played = Played(rig, plan_of(1), script)
        wanted = model.run(plan_of(1), script.removeprefix("\ufeff").encode())
        played.wanted = (wanted[0], with_second(wanted[2]))
        played.frames = {name: [(0, line.split()[2]) for line in wanted[1].splitlines() if line.startswith(f"{name} ")] for name in NETWORKS}
        played.transcript = wanted[1]
        faults += played.differences(all_of(played)) + played.said()
    return faults, ""


NO_FILE, NO_ROOM = "No such file or directory", "No space left on device"
OF_BOTH = "is wanted, where NETWORK is A or B"
# The form that is wanted of a fault on purpose, by its first word, and texts that lack it.
NO_FAULTS = {
    f"lose NETWORK FRAME {OF_BOTH} and FRAME is 1 or more":
        ["lose", "lose A", "lose C 1", "lose A 0", "lose A 1 2", "lose A x", "lose A -1", "lose A +1", "lose A 18446744073709551616"],
    f"repeat NETWORK FRAME {OF_BOTH} and FRAME is 1 or more": ["repeat", "repeat A 1 1"],
    f"down NETWORK FRAME {OF_BOTH} and FRAME is 1 or more": ["down A 1 1"],
    f"swap NETWORK FRAME OTHER {OF_BOTH}, FRAME is 1 or more and OTHER is a later frame up to 4294967295":
        ["swap A 6 5", "swap A 5", "swap A 1 -1", "swap A 1 4294967296"],
    f"number NETWORK FRAME NUMBER {OF_BOTH}, FRAME is 1 or more and NUMBER is 0 to 255": ["number A 1 256", "number A 1 -1"],
    f"early NETWORK FRAME MICROS {OF_BOTH}, FRAME is 1 or more and MICROS is 0 to 4294967295": ["early A 1", "early A 1 4294967296"],
    f"flip NETWORK FRAME INDEX {OF_BOTH}, FRAME is 1 or more and INDEX is hexadecimal, 0 to 5e9":
        ["flip A 1 zz", "flip A 1 5ea", "flip A 1 -1"],
    "lose, repeat, swap, number, early, flip or down is wanted first": ["", "frob A 1", "loser A 1", "los A 1"],
}


def wrong_words() -> Iterator[tuple[list[str], str]]:
    """Words that the player refuses, and the line that it prints before the usage."""
    run, made = ["demo.toml", "short.txt", "lo", "lo"], ["demo.toml", "lo", "lo", "--traffic", "none.csv", "--seconds", "1"]
    for count in (0, 1, 2, 3):
        seen = f"{count} word is seen" if count == 1 else f"{count} words are seen"
        yield run[:count], f"PLAN, SCRIPT and two interfaces are wanted, and {seen}"
    yield [*run, "more"], "PLAN, SCRIPT and two interfaces are wanted, and 5 words are seen"
    yield [*run, *made[3:]], "with --traffic, PLAN and two interfaces are wanted, and 4 words are seen"
    yield made[:5], "--traffic needs --seconds"
    yield [*run, "--seconds", "1"], "--seconds needs --traffic"
    yield [*run, "--seed", "1"], "--seed needs --traffic"
    yield ["--frob"], "--frob: afdx_play has no such option"
    for word in ("--speed", "--fault", "--capture", "--repeat", "--traffic", "--seconds", "--seed"):
        yield [*run, word], f"{word}: a value is missing"
    for text in ("", "0", "x", "1001", "2x", "-1", "nan"):
        yield [*run, "--speed", text], f'--speed: a number from 0.001 to 1000 is wanted, and "{text}" is seen'
    for text in ("", "x", "2x", "-1", "+1", "18446744073709551616"):
        yield [*run, "--repeat", text], f'--repeat: a whole number from 0 to 18446744073709551615 is wanted, and "{text}" is seen'
    for wanted, texts in NO_FAULTS.items():
        yield from (([*run, "--fault", text], f'--fault: {wanted}, and "{text}" is seen') for text in texts)
    many = [it for k in range(17) for it in ("--fault", f"lose A {k + 1}")]
    yield [*run, *many], '--fault: at most 16 are wanted, and "lose A 17" is one more'
    clashes = [("down A 20", "early A 25 800"), ("lose A 12", "early A 12 300"), ("lose B 12", "number B 12 200"), ("down A 9", "swap A 5 9"),
               ("early A 9 1", "early A 9 2"), ("number A 9 1", "number A 9 2"), ("repeat A 9", "repeat A 9"), ("flip A 9 1", "flip A 9 1")]
    for first, second in clashes:
        for one, other in ((first, second), (second, first)):
            by, last = (one, other) if first[:5] == second[:5] else (first, second)
            yield [*run, "--fault", one, "--fault", other], f"--fault {last}: with `{by}` it can't be made"


def try_words(program: str) -> Iterator[tuple[str, list[str]]]:
    """Words that the player refuses, and files that it can't use."""
    for name, text in (("wrong.toml", trying.DEMO.replace("bag_ms = 1", "bag_ms = 3")), ("demo.toml", trying.DEMO), ("short.txt", trying.SCRIPT)):
        with open(name, "w", encoding="utf-8") as file:
            file.write(text)
    with open("great.txt", "wb") as file:
        file.truncate(2**32 + 1)
    rest, made = ["short.txt", "lo", "lo"], ["lo", "lo", "--traffic", "none.csv", "--seconds", "1"]
    rows = [(words, 2, f"{told}\n{USAGE}") for words, told in wrong_words()]
    rows += [(["none.toml", *rest], 4, f"read failed\nnone.toml: {NO_FILE}\n"), (["wrong.toml", *rest], 2, "configuration refused: 6 BadBag\n"),
             (["demo.toml", "none.txt", "lo", "lo"], 4, f"read failed\nnone.txt: {NO_FILE}\n"),
             ([".", *rest], 4, "read failed\n.: Is a directory\n"),
             (["demo.toml", "great.txt", "lo", "lo"], 4, "read failed\ngreat.txt: it has more than 4 GiB, the most that is read\n"),
             (["demo.toml", "short.txt", "nowhere", "lo"], 4, "write failed\nnowhere: No such device\n"),
             (["demo.toml", *rest, "--capture", "short.txt"], 4, "write failed\nshort.txt: the command reads"),
             (["demo.toml", *made], 4, f"read failed\nnone.csv: {NO_FILE}")]
    for words, status, start in rows:
        ran = subprocess.run([program, *words], capture_output=True, text=True, check=False)
        is_well = ran.returncode == status and ran.stderr.startswith(start) and not ran.stdout
        yield f"afdx_play {' '.join(words)}: status {status}", [] if is_well else [f"{ran}"]
    told = subprocess.run([program, "--help"], capture_output=True, text=True, check=False)
    lacks = [word for word in ("--as-written", "--speed", "--repeat", "--traffic", "--capture", "--fault", "--priority", *(it.split()[0] for it in FAULTS)) if word not in told.stdout]
    yield "afdx_play --help", [f"it lacks {lacks}: {told}"] if lacks or told.returncode or told.stderr else []
    version = subprocess.run([program, "--version"], capture_output=True, text=True, check=False).stdout
    yield "afdx_play --version", [] if version == f"afdx_play {re.search('AFDX_VERSION .(.*).', trying.text_of('crates/afdx/afdx.h'))[1]}\n" else [version]
    yield from try_surroundings(program, ["demo.toml", *rest], ["demo.toml", *made])


def try_surroundings(program: str, run: list[str], made: list[str]) -> Iterator[tuple[str, list[str]]]:
    """Runs that lack something of the system: the bench, descriptors, the right to open sockets, or room for the output."""
    os.mkdir("alone")
    alone = shutil.copy(program, "alone/afdx_play")
    without_right = ["setpriv", "--bounding-set", "-net_raw"] if os.geteuid() == 0 else []
    rows = [("without afdx_bench", [alone, *made], {"PATH": "/nowhere"}, "read failed\nafdx_bench is neither beside afdx_play nor on the PATH\n"),
            ("without descriptors", ["sh", "-c", 'ulimit -n 4; exec "$0" "$@"', program, *made], {},
             "read failed\na pipe to afdx_bench: Too many open files\n"),
            ("without the right to open packet sockets", [*without_right, program, *run], {},
             "write failed\nlo: Operation not permitted; packet sockets need root or CAP_NET_RAW\n"),
            ("--help without room", ["sh", "-c", 'exec "$0" --help > /dev/full', program], {}, f"write failed\nstandard output: {NO_ROOM}\n")]
    for name, command, more, wanted in rows:
        if not shutil.which(command[0]):
            continue
        ran = subprocess.run(command, env={**os.environ, **more}, capture_output=True, text=True, check=False)
        yield f"afdx_play {name}", [] if (ran.returncode, ran.stdout, ran.stderr) == (4, "", wanted) else [f"{ran}"]


class Rig:
    """The player, and the receivers of both networks."""

    def __init__(self, program: str, links: int) -> None:
        self.program, self.receivers = program, {name: Receiver(name, links) for name in NETWORKS}


def patient(tries: trying.Tries, name: str, tried: Callable[[], tuple[list[str], str]]) -> None:
    """Shows a try in real time, of up to three the first without faults: a busy machine delays frames, and their times."""

    def told() -> tuple[list[str], str]:
        for left in (2, 1, 0):
            faults, more = tried()
            if not faults or not left:
                break
            print(f"    again, for {faults[0][:300]}", flush=True)
        return faults, more

    tries.attempt(name, told)


def inside(program: str, millis: int) -> int:
    """The tests that need networks, in a namespace of their own."""
    tries = trying.Tries()
    for name, faults in try_words(program):
        tries.show(name, faults)
    rig = Rig(program, 12)
    try:
        patient(tries, f"{millis} ms of twelve links", lambda: try_clean(Played(rig, plan_of(12), script_of(12, millis, 1))))
        for text in FAULTS:
            patient(tries, f"--fault '{text}'", lambda text=text: try_fault(rig, text))
        for row in MORE:
            patient(tries, f"faults {row}", lambda row=row: try_more(rig, *row))
        for by, by_clock in itertools.product((signal.SIGINT, signal.SIGTERM), (False, True)):
            name = f"stopped by {by.name}, {'by the clock' if by_clock else 'as written'}"
            patient(tries, name, lambda by=by, by_clock=by_clock: try_stop(rig, by, by_clock))
        for stalls in (0, 2):
            patient(tries, f"by the clock, held up {stalls} times", lambda stalls=stalls: try_clock(rig, stalls))
        patient(tries, "as written, held up twice", lambda: try_written(rig))
        tries.attempt("an interface that is down", lambda: try_down(rig))
        tries.attempt("standard output closed", lambda: try_closed(rig))
        patient(tries, "a carrier that is lost", lambda: try_lost_carrier(rig))
        patient(tries, "--repeat 3", lambda: try_repeat(rig))
        patient(tries, "--traffic", lambda: try_traffic(rig))
        patient(tries, "--speed 4", lambda: try_speed(rig))
        tries.attempt("ends", lambda: try_ends(rig))
        patient(tries, "no room for the capture or the output", lambda: try_full(rig))
    finally:
        for receiver in rig.receivers.values():
            receiver.end()
    return tries.end()


def main() -> int:
    """Installs the player, and tries it where networks can be made."""
    if sys.argv[1:2] == ["--inside"]:
        return inside(sys.argv[2], int(sys.argv[3]))
    with tempfile.TemporaryDirectory(prefix="play-") as room:
        program = os.path.abspath(sys.argv[1]) if sys.argv[1:] else f"{room}/prefix/bin/afdx_play"
        if not sys.argv[1:]:
            subprocess.run(["bash", f"{ROOT}/install/install.sh", "--built", f"{room}/prefix"], check=True)
        os.chdir(room)
        has_tools = os.geteuid() == 0 and all(map(shutil.which, ("ip", "unshare")))
        veth = ["unshare", "--net", "ip", "link", "add", "one", "type", "veth", "peer", "name", "two"]
        if has_tools and subprocess.run(veth, capture_output=True, check=False).returncode == 0:
            millis = sys.argv[2] if sys.argv[2:] else "3000"
            return subprocess.run(["unshare", "--net", sys.executable, "-B", __file__, "--inside", program, millis], check=False).returncode
        tries = trying.Tries()
        tries.skip("no root, ip, unshare or veth pairs")
        for name, faults in try_words(program):
            tries.show(name, faults)
        return tries.end()


if __name__ == "__main__":
    sys.exit(main())
