#!/usr/bin/env python3
"""Tests bindings/afdx.lua by tshark on a capture of the program, as it is and with a fault planted in it, with and
without a plan and frame check sequences. Each fault has its own expert info and no other. Without tshark all is
skipped. The last line is 'N passed, M failed' or 'N passed, M failed, K skipped'."""
import shutil
import struct
import subprocess
import sys
import tempfile
import zlib
from collections.abc import Callable

# (no compiled copy is left beside the scripts)
sys.dont_write_bytecode = True
from trying import ROOT, Tries, text_of

HEADER = 92
# Wireshark's own notes on a time to live of 1 and on the byte after the padding, which the guide says how to silence.
QUIET = [word for it in ("ip.ttl.too_small", "eth.padding_bad") for word in ("-o", f'uat:expert_severity:"{it}","Comment"')]

Packet = tuple[int, int, bytes]


def packets_of(data: bytes) -> list[Packet]:
    """The network, the time and the bytes of each packet of a capture."""
    found, at = [], HEADER
    while at < len(data):
        length, network, high, low, size = struct.unpack_from("<IIIII", data, at + 4)
        found.append((network, high << 32 | low, data[at + 28 : at + 28 + size]))
        at += length
    return found


def data_of(header: bytes, packets: list[Packet]) -> bytes:
    """A capture of these packets."""
    for network, at, frame in packets:
        size, filled = len(frame), -(-len(frame) // 4) * 4
        header += struct.pack("<IIIIIII", 6, 32 + filled, network, at >> 32, at & 0xFFFFFFFF, size, size)
        header += frame + bytes(filled - size) + struct.pack("<I", 32 + filled)
    return header


def infos(path: str, *words: str, shown: str = "afdx.note") -> list[str]:
    """The expert infos of this dissector, each with the number of its frame."""
    command = ["tshark", "-X", f"lua_script:{ROOT}/bindings/afdx.lua", *words, "-r", path, "-Y", shown, "-T", "fields"]
    ran = subprocess.run([*command, "-e", "frame.number", "-e", "_ws.expert.message"], capture_output=True, text=True, check=True)
    return [line.partition("\t")[0] + ": " + line.rpartition(",")[2].rpartition("\t")[2] for line in ran.stdout.splitlines()]


def gap(packets: list[Packet]) -> None:
    del packets[100]


def again(packets: list[Packet]) -> None:
    network, at, frame = packets[102]
    packets.insert(104, (network, at, frame))


def bag(packets: list[Packet]) -> None:
    network, at, frame = packets[101]
    packets[101] = packets[100]
    packets[100] = (network, at - 1, frame)


def twin(packets: list[Packet]) -> None:
    network, at, frame = packets[201]
    packets[201] = (network, at, frame[:50] + b"\1" + frame[51:])


def ends(packets: list[Packet]) -> None:
    del packets[201::2]


def pauses(packets: list[Packet]) -> None:
    del packets[201:281:2]


def late(packets: list[Packet]) -> None:
    """The recorder of A is started after 300 frames."""
    del packets[:600:2]


def reset(packets: list[Packet]) -> None:
    """The end system starts again, and the recorder of B is started after that."""
    again = [(network, at + 600_000, frame) for network, at, frame in packets]
    packets[:] = packets[::2] + again


def longer(packets: list[Packet]) -> None:
    network, at, frame = packets[100]
    packets[100] = (network, at, frame + bytes(2))


def shorter(packets: list[Packet]) -> None:
    """Only the front of a longer frame was recorded."""
    network, at, frame = packets[100]
    packets[100] = (network, at, frame[:16] + (80).to_bytes(2, "big") + frame[18:])


def unknown(packets: list[Packet]) -> None:
    network, at, frame = packets[1198]
    packets[1198] = (network, at, frame[:5] + b"\x09" + frame[6:])


def checked(plant: Callable[[list[Packet]], None] | None) -> Callable[[list[Packet]], None]:
    """The same, recorded with the frame check sequence of each frame."""

    def planted(packets: list[Packet]) -> None:
        if plant:
            plant(packets)
        packets[:] = [(network, at, frame + zlib.crc32(frame).to_bytes(4, "little")) for network, at, frame in packets]

    planted.__name__ = f"{plant.__name__ if plant else 'good'} with check sequences"
    return planted


GAP = ["102: Sequence number 51 follows 49"]
TWIN = ["202: Differs from frame 201 in more than the interface"]
ENDS = "208: No frame of virtual link 1 on network B since frame 200"
ROWS: list[tuple[Callable[[list[Packet]], None] | None, list[str]]] = [
    (None, []),
    (gap, GAP),
    (again, ["105: Sequence number 51 repeats that of frame 103"]),
    (bag, ["101: 999 us after frame 100 (BAG 1 ms)"]),
    (twin, TWIN),
    (ends, [ENDS]),
    (pauses, [ENDS, "242: Sequence number 140 follows 99"]),
    (late, []),
    (reset, ["601: Sequence number 0 follows 89"]),
    (longer, ["101: The sequence number is byte 60 of 62"]),
    (shorter, ["101: The sequence number is byte 95 of 60", "103: Sequence number 51 follows 49"]),
    (checked(None), []),
    (checked(gap), GAP),
    (checked(twin), TWIN),
    (unknown, []),
]

# Plans, each with what is planted in a capture of the demonstration plan, and how many frames have which text.
DEMO = text_of("examples/c/demo.toml")
ALONE = "version = 2\n" + DEMO.replace("lmax", 'networks = "a" # alone\nlmax')
OTHER = DEMO.replace("id = 1\nbag_ms", "bag_ms").replace("lmax", " id=1 # of the link\n\tlmax")
PLANS: list[tuple[str, str, Callable[[list[Packet]], None] | None, int, str]] = [
    ("plan", DEMO, None, 0, ""),
    ("plan in another layout", OTHER, None, 0, ""),
    ("plan and check sequences", DEMO, checked(None), 0, ""),
    ("plan with a BAG of 2 ms", DEMO.replace("bag_ms = 1", "bag_ms = 2"), None, 1198, "(BAG 2 ms)"),
    ("plan with Lmax 64", DEMO.replace("1518", "64"), None, 2, "65 bytes with the frame check sequence (Lmax 64)"),
    ("plan with Lmax 65", DEMO.replace("1518", "65"), checked(None), 0, ""),
    ("plan with A alone", ALONE, None, 600, "is on network A alone"),
    ("plan with A alone, B ends", ALONE, ends, 100, "is on network A alone"),
    ("plan with both, B ends", DEMO, ends, 1, ENDS.partition(": ")[2]),
    ("plan without the link", DEMO, unknown, 1, "The plan has no virtual link 9"),
    ("no plan", "", None, 1, "No virtual link is read from the plan"),
]


def main() -> int:
    tries = Tries()
    if not shutil.which("tshark"):
        tries.skip("no tshark")
        return tries.end()
    with tempfile.TemporaryDirectory() as room:
        with open(f"{room}/script.txt", "w", encoding="utf-8") as file:
            # (message 300 is of 18 bytes, whose frame has 61)
            file.write("".join(f"send 10 {k % 256:02x}{'00' * 17 * (k == 300)}\nat {1000 * k}\n" for k in range(600)))
        words = ["run", f"{ROOT}/examples/c/demo.toml", f"{room}/script.txt", "--capture", f"{room}/good.pcapng"]
        subprocess.run([f"{ROOT}/crates/afdx_bench/out/afdx_bench", *words], stdout=subprocess.DEVNULL, check=True)
        with open(f"{room}/good.pcapng", "rb") as file:
            good = file.read()
        def found(plant: Callable[[list[Packet]], None] | None, *words: str, shown: str = "afdx.note") -> list[str]:
            packets = packets_of(good)
            if plant:
                plant(packets)
            with open(f"{room}/planted.pcapng", "wb") as file:
                file.write(data_of(good[:HEADER], packets))
            return infos(f"{room}/planted.pcapng", *words, shown=shown)

        results = [(plant.__name__ if plant else "good", notes == wanted, notes) for plant, wanted in ROWS for notes in [found(plant)]]
        for name, plan, plant, count, text in PLANS:
            with open(f"{room}/plan.toml", "w", encoding="utf-8") as file:
                file.write(plan)
            notes = found(plant, "-o", f"afdx.plan:{room}/plan.toml")
            results.append((name, len(notes) == count and all(text in it for it in notes), notes))
        notes = found(None, "-o", "afdx.bags:1=2")
        results.append(("a BAG of 2 ms for link 1", len(notes) == 1198, notes))
        results.append(("no network ends", found(ends, "-o", "afdx.behind:0") == [], []))
        notes = found(None, *QUIET, shown='_ws.expert.severity > "Comment"')
        results.append(("Wireshark's own notes", notes == [], notes))
        for name, is_well, notes in results:
            tries.show(name, [] if is_well else notes[:5] or ["no notes"])
    return tries.end()


if __name__ == "__main__":
    sys.exit(main())
