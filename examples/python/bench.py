"""A test bench: sends through ports, checks sequence numbers and gaps, and writes a capture for Wireshark.

    python3 bench.py PLAN CAPTURE PORT..
"""
import struct
import sys
import tomllib

from afdx import EndSystem


def block(kind: int, body: bytes) -> bytes:
    """A block of a pcapng file."""
    body += bytes(-len(body) % 4)
    length = struct.pack("<I", 12 + len(body))
    return struct.pack("<I", kind) + length + body + length


def want(is_well: bool, told: str) -> None:
    """Ends the bench with a message if a condition doesn't hold."""
    if not is_well:
        sys.exit(told)


def main(plan: str, capture: str, *ports: str) -> None:
    with open(plan, encoding="utf-8") as file:
        text = file.read()
    gaps = {link["id"]: 1000 * link["bag_ms"] for link in tomllib.loads(text)["vl"]}
    last: dict[tuple[int, int], tuple[int, int]] = {}
    with EndSystem(text) as it, open(capture, "wb") as out:
        out.write(block(0x0A0D0D0A, struct.pack("<IHHq", 0x1A2B3C4D, 1, 0, -1)))
        for name in b"AB":
            out.write(block(1, struct.pack("<HHIHHBxxxI", 1, 0, 1514, 2, 1, name, 0)))
        senders = [it.port(int(port)) for port in ports]
        for now in range(0, 1_000_000, 250):
            for port in senders:
                port.try_send(b"%d at %d" % (port.id, now))
            for network, frame in it.poll(now):
                link, number = int.from_bytes(frame[4:6], "big"), frame[-1]
                if (network, link) in last:
                    before, at = last[network, link]
                    want(number == before % 255 + 1, f"link {link}: number {number} after {before}")
                    want(now - at >= gaps[link], f"link {link}: {now - at} microseconds after the last frame")
                else:
                    want(number == 0, f"link {link}: the first number is {number}")
                last[network, link] = number, now
                out.write(block(6, struct.pack("<IIIII", network, now >> 32, now & 0xFFFFFFFF, len(frame), len(frame)) + frame))
    for (network, link), (number, _) in sorted(last.items()):
        print(f"link {link} on {'AB'[network]}: last number {number}")


if __name__ == "__main__":
    if len(sys.argv) < 4:
        sys.exit("usage: python3 bench.py PLAN CAPTURE PORT..")
    main(*sys.argv[1:])
