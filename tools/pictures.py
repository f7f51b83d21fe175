#!/usr/bin/env python3
"""Makes the pictures of README.md and the guides from the tree's examples, by the program that is built.

    python3 tools/pictures.py [--write]

Prints the names of those in `docs/pictures` that differ, with exit status 1. `--write` writes them anew instead, and
the parts of pages that show one. Without `tshark` the picture of Wireshark is left as it is.
"""
import os
import re
import shutil
import subprocess
import sys
import tempfile
from collections.abc import Callable

# (no compiled copy is left beside the scripts)
sys.dont_write_bytecode = True
sys.path.append(f"{os.path.dirname(os.path.dirname(os.path.abspath(__file__)))}/tests")
from diagrams import BAG, JITTER, RECORDED, Frame, gap, message, queue, released
from svg_page import Drawn
from trying import ROOT, built, started, text_of

FOLDER = "docs/pictures"
# The interface document of the pictures, which is the traffic file, too.
DOCUMENT = f"{ROOT}/examples/bench/interface.csv"
# Two ports of a link of it send, and one of them again after 16 ms.
FIRST, LONG = f"send 1 {'11' * 64}\n", f"send 3 {'33' * 300}\n"
SCRIPT = f"{FIRST}{LONG}at 0\nat 8000\n{FIRST}at 16000\nat 24000\n"
REPORT = """The page that afdx_bench report writes. The verdict: loads, jitter and queues are within limits, and a
deadline is missed. The load and the jitter of networks A and B, as bars beside their limits. The longest wait of each
port by its period and by its queue, as a bar beside its deadline. The longest wait of one port, turn by turn. The ways
from partitions over ports, sub-VLs and links to the networks."""
JUDGE = """The page that afdx_bench judge writes of a recording in which a frame is lost and another one is early. The
findings; the least gap of each link, as a bar beside its BAG; the greatest time between a frame and its twin."""


class Bench:
    """A folder with the plan of the interface document, in which the program runs."""

    def __init__(self, program: str, folder: str) -> None:
        self.program, self.folder = program, folder
        self.save("plan.toml", self.ran("import", DOCUMENT).encode())

    def ran(self, *words: str) -> str:
        """Returns what the program prints."""
        how = {"stdout": subprocess.PIPE, "stderr": subprocess.STDOUT, "text": True}
        return started(self.program, words, cwd=self.folder, **how).stdout

    def save(self, name: str, data: bytes) -> None:
        """Writes a file."""
        with open(f"{self.folder}/{name}", "wb") as file:
            file.write(data)

    def read(self, name: str) -> bytes:
        """Returns the bytes of a file."""
        with open(f"{self.folder}/{name}", "rb") as file:
            return file.read()

    def frames(self) -> list[Frame]:
        """Returns the frames of the script."""
        self.save("few.txt", SCRIPT.encode())
        lines = self.ran("run", "plan.toml", "few.txt").splitlines()
        rows = [it.split() for it in lines if it.startswith(("A ", "B "))]
        return [(network, int(at), bytes.fromhex(frame)) for network, at, frame in rows]

    def record(self) -> None:
        """Writes a recording of a second in which the ports send at their periods, with two faults."""
        script = self.ran("schedule", "plan.toml", "--traffic", DOCUMENT, "--seconds", "1", "--seed", "1")
        self.save("script.txt", script.encode())
        self.ran("run", "plan.toml", "script.txt", "--capture", "run.pcapng")
        self.save("faulty.pcapng", with_faults(self.read("run.pcapng")))


def blocks_of(capture: bytes) -> list[bytes]:
    """Returns the blocks of a capture of ours: a section, two interfaces, and the packets."""
    blocks, at = [], 0
    while at < len(capture):
        size = int.from_bytes(capture[at + 4 : at + 8], "little")
        blocks.append(capture[at : at + size])
        at += size
    return blocks


def recorded(block: bytes, micros: int) -> bytes:
    """Returns a packet with this time."""
    return block[:16] + micros.to_bytes(4, "little") + block[20:]


def with_faults(capture: bytes) -> bytes:
    """Returns a capture of ours without a frame of link 101 on network B, and with one on network A half a millisecond
    early, which is to come a BAG of 4 ms after the one before it."""
    blocks = blocks_of(capture)
    # The network, the link and the time in microseconds of each block, of which the first three are no packets.
    heads = [(it[8], int.from_bytes(it[32:34], "big"), int.from_bytes(it[16:20], "little")) for it in blocks]
    later = range(60, len(blocks))
    lost = next(k for k in later if heads[k][:2] == (1, 101))
    early = next(k for k in later if k > lost and heads[k][:2] == (0, 101) and heads[k - 1][2] < heads[k][2]
                 and (0, 101, heads[k][2] - 4000) in heads)
    blocks[early] = recorded(blocks[early], heads[early][2] - 500)
    return b"".join(blocks[:lost] + blocks[lost + 1 :])


def report(bench: Bench) -> str:
    """Returns the page of a report."""
    bench.ran("report", "plan.toml", "--traffic", DOCUMENT, "--html", "report.html")
    page = bench.read("report.html").decode()
    return Drawn(page, "The page of a report", REPORT, ("Queues", "Links", "Memory")).made()


def judge(bench: Bench) -> str:
    """Returns the page on the recording."""
    bench.ran("judge", "plan.toml", "faulty.pcapng", "--html", "judge.html")
    return Drawn(bench.read("judge.html").decode(), "The page on a recording", JUDGE).made()


def wireshark(bench: Bench) -> str | None:
    """Returns the frame after the lost one, as tshark shows it: the dissector's own tree, and the bytes. What tshark
    says of the other protocols depends on its version."""
    if not shutil.which("tshark"):
        return None
    words = ["-X", f"lua_script:{ROOT}/bindings/afdx.lua", "-o", "afdx.plan:plan.toml", "-r", "faulty.pcapng"]
    words += ["-Y", "afdx.seq.gap", "-O", "afdx", "-x"]
    ran = subprocess.run(["tshark", *words], cwd=bench.folder, capture_output=True, text=True, check=True)
    tree, shown = ran.stdout[ran.stdout.index("AFDX, ") :].split("\n\n")[:2]
    return f"{tree}\n\n{shown.rstrip()}\n"


def gaps(bench: Bench) -> str:
    """Returns the gap rule with jitter. The judge has to find the frames early that the rule does."""
    plan, times = f"{ROOT}/examples/c/demo.toml", [at for at in RECORDED for _ in "AB"]
    bench.save("gaps.txt", "".join(f"send 10 01\nat {BAG * k}\n" for k in range(len(RECORDED))).encode())
    bench.ran("run", plan, "gaps.txt", "--capture", "gaps.pcapng")
    blocks = blocks_of(bench.read("gaps.pcapng"))
    bench.save("gaps.pcapng", b"".join([*blocks[:3], *map(recorded, blocks[3:], times)]))
    told = bench.ran("judge", plan, "gaps.pcapng", "--jitter", str(JITTER))
    found = [int(it) for it in re.findall(r"(?m)^(\d+) [AB] .* Early:", told)]
    wanted = [2 * k + net for k, (_, early) in enumerate(released(RECORDED)) if early for net in (1, 2)]
    if found != wanted:
        raise RuntimeError(f"the judge finds {found} early, and the rule {wanted}")
    return gap()


PICTURES: dict[str, Callable[[Bench], str | None]] = {
    "report.svg": report, "judge.svg": judge, "wireshark.txt": wireshark,
    "message.svg": lambda bench: message(bench.frames()), "queue.svg": lambda _: queue(), "gap.svg": gaps,
}


def made(program: str) -> dict[str, str | None]:
    """Returns each picture by its name, or none if it takes tshark, and that isn't there."""
    with tempfile.TemporaryDirectory(prefix="pictures-") as folder:
        bench = Bench(program, folder)
        bench.record()
        return {name: make(bench) for name, make in PICTURES.items()}


def is_kept(name: str, text: str) -> bool:
    """Returns whether the tree has this picture."""
    path = f"{FOLDER}/{name}"
    return os.path.exists(f"{ROOT}/{path}") and text_of(path) == text


def main() -> int:
    if sys.argv[1:] not in ([], ["--write"]):
        print("usage: pictures.py [--write]", file=sys.stderr)
        return 2
    pictures = {name: text for name, text in made(built("afdx_bench")["LLVM"]).items() if text is not None}
    stale = [name for name, text in pictures.items() if not is_kept(name, text)]
    if not sys.argv[1:]:
        print("".join(f"{FOLDER}/{name} isn't what the tree yields: run tools/pictures.py with --write\n" for name in stale), end="")
        return 1 if stale else 0
    os.makedirs(f"{ROOT}/{FOLDER}", exist_ok=True)
    for name in stale:
        with open(f"{ROOT}/{FOLDER}/{name}", "w", encoding="utf-8") as file:
            file.write(pictures[name])
    return subprocess.run([sys.executable, "-B", f"{ROOT}/tools/pages.py", "--write"], check=False).returncode


if __name__ == "__main__":
    sys.exit(main())
