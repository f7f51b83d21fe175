#!/usr/bin/env python3
"""Compares `afdx_play` with `examples/c/example.c` on a loaded machine, over two veth pairs: how many frames of each are early
by `afdx_bench judge`, at several jitters.

    python3 tests/play/beside_example.py [--built] [ROUNDS [SECONDS]]

As root. In each of ROUNDS rounds (5) both send for SECONDS seconds (10) over twelve links that always have a message, the
player from a script and the example from its threads, while a busy loop runs for each processor. The kernel's times of
the frames on the receiving interfaces are judged. It prints how many frames each sends in a second, and a row for each
jitter: the early frames of each, in all and by round, and of how many. A jitter passes if the player has no more early frames for each frame than the example, but
for three standard deviations of chance. The last line is 'N passed, M failed'. The programs are those that
`install/install.sh --built` installs. It is no part of the gate, because its result depends on what else runs.
"""
import math
import os
import re
import struct
import subprocess
import sys
import tempfile
import time

HERE = os.path.dirname(os.path.abspath(__file__))
ROOT = os.path.dirname(os.path.dirname(HERE))
sys.dont_write_bytecode = True
sys.path[:0] = [f"{ROOT}/tests", HERE]
import trying  # noqa: E402
from receiving import Receiver  # noqa: E402

LINKS, JITTERS = 12, (0, 50, 100, 200, 500, 1000)
NETWORKS = "AB"


def bag_of(link: int) -> int:
    """The BAG of a link in milliseconds: 1, 2 or 4."""
    return 1 << link % 3


def plan() -> str:
    """A plan of twelve links, each with a port and the deepest queue."""
    text = "[end_system]\nid = 1\n"
    for k in range(1, LINKS + 1):
        text += f"[[vl]]\nid = {k}\nbag_ms = {bag_of(k)}\nlmax = 200\nsub_vls = 1\ncapacity = 256\n"
        text += f"[[port]]\nid = {10 + k}\nvl = {k}\nsub = 0\npartition = 1\nkind = 'queuing'\nsource = {1000 + k}\n"
        text += f"destination = {2000 + k}\nmax = 100\n"
    return text


def script(millis: int) -> str:
    """A script in which each link gets a message in each of its BAGs."""
    lines = []
    for now in range(millis):
        lines += [f"send {10 + k} {'5a' * 100}" for k in range(1, LINKS + 1) if now % bag_of(k) == 0]
        lines.append(f"at {1000 * now}")
    return "\n".join(lines) + "\n"


def save_capture(path: str, frames: list[tuple[int, str]]) -> None:
    """Writes frames with their times in nanoseconds as a pcap file."""
    with open(path, "wb") as file:
        file.write(struct.pack("<IHHiIII", 0xA1B23C4D, 2, 4, 0, 0, 65535, 1))
        for at, data in frames:
            frame = bytes.fromhex(data)
            file.write(struct.pack("<IIII", at // 10**9, at % 10**9, len(frame), len(frame)) + frame)


def early_frames(bench: str, jitter: int) -> int:
    """How many frames of the two captures are early."""
    words = ["judge", "plan.toml", "A.pcap", "B.pcap", "--jitter", str(jitter), "--skew", "1000000"]
    out = subprocess.run([bench, *words], capture_output=True, text=True, check=False).stdout
    verdict = re.search(r"(?m)^(?:no findings|\d+ findings?: (.*))$", out)
    trying.check(verdict, out[-2000:])
    counts = {kind: int(count) for kind, count in re.findall(r"(\w+) (\d+)", verdict[1] or "")}
    trying.check(counts.keys() <= {"Early"}, counts)
    return counts.get("Early", 0)


def sent_by(command: list[str], receivers: dict[str, Receiver], seconds: int, bench: str) -> tuple[int, float, dict[int, int]]:
    """How many frames a program sends, how many in a second, and how many of them are early at each jitter."""
    ran = subprocess.run(command, capture_output=True, text=True, timeout=10 * seconds + 60, check=False)
    # (the player ends with 3 if a queue was full, which is no fault here)
    trying.check(ran.returncode in (0, 3), f"{command[0]}: {ran.returncode}: {ran.stdout[-500:]}{ran.stderr[-500:]}")
    time.sleep(0.5)
    times = []
    for name, receiver in receivers.items():
        frames = receiver.take()["frames"]
        times += [at for at, _ in frames]
        save_capture(f"{name}.pcap", frames)
    rate = len(times) * 1e9 / (max(times) - min(times))
    return len(times), rate, {jitter: early_frames(bench, jitter) for jitter in JITTERS}


def is_no_worse(player: tuple[int, int], example: tuple[int, int]) -> bool:
    """Whether the first has no more early frames for each frame than the second, but for chance."""
    (few, of_few), (many, of_many) = player, example
    share = (few + many) / (of_few + of_many)
    return few / of_few - many / of_many <= 3 * math.sqrt(share * (1 - share) * (1 / of_few + 1 / of_many))


def inside(folder: str, rounds: int, seconds: int) -> int:
    """The rounds, in a network namespace of their own."""
    tries, bench = trying.Tries(), f"{folder}/prefix/bin/afdx_bench"
    words = [f"{10 + k}:{1000 * seconds // bag_of(k)}:100" for k in range(1, LINKS + 1)]
    commands = {"player": [f"{folder}/prefix/bin/afdx_play", "plan.toml", "script.txt", "wireA", "wireB"],
                "example": [f"{folder}/prefix/share/afdx/examples/c/example", "plan.toml", "wireA", "wireB", *words]}
    for name, text in (("plan.toml", plan()), ("script.txt", script(1000 * seconds))):
        with open(name, "w", encoding="utf-8") as file:
            file.write(text)
    receivers = {name: Receiver(name, 0) for name in NETWORKS}
    busy = [subprocess.Popen([sys.executable, "-c", "while True: pass"]) for _ in os.sched_getaffinity(0)]
    runs: dict[str, list[tuple[int, float, dict[int, int]]]] = {name: [] for name in commands}
    try:
        for _ in range(rounds):
            for name, command in commands.items():
                runs[name].append(sent_by(command, receivers, seconds, bench))
    finally:
        for process in busy:
            process.kill()
            process.wait()
        for receiver in receivers.values():
            receiver.end()
    for name, of in runs.items():
        print(f"{name}: frames in a second {[round(rate) for _, rate, _ in of]}", flush=True)
    for jitter in JITTERS:
        sums = {name: (sum(early[jitter] for *_, early in of), sum(count for count, *_ in of)) for name, of in runs.items()}
        told = [f"{name} {early} of {count} {[it[jitter] for *_, it in runs[name]]}" for name, (early, count) in sums.items()]
        line = f"jitter {jitter}: early frames by {', '.join(told)}"
        tries.show(line, [] if is_no_worse(sums["player"], sums["example"]) else ["the player has more"])
    return tries.end()


def main() -> int:
    words = [it for it in sys.argv[1:] if it != "--built"]
    if words[:1] == ["--inside"]:
        return inside(words[1], int(words[2]), int(words[3]))
    rounds, seconds = [*words, "5", "10"][:1] + [*words[1:], "10"][:1]
    with tempfile.TemporaryDirectory(prefix="beside-") as room:
        subprocess.run(["bash", f"{ROOT}/install/install.sh", "--built", f"{room}/prefix"], check=True, stdout=subprocess.DEVNULL)
        subprocess.run(["bash", f"{room}/prefix/share/afdx/examples/c/build.sh"], check=True)
        inner = [sys.executable, "-B", os.path.abspath(__file__), "--inside", room, rounds, seconds]
        return subprocess.run(["unshare", "--net", *inner], cwd=room, check=False).returncode


if __name__ == "__main__":
    sys.exit(main())
