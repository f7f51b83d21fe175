#!/usr/bin/env python3
"""Reads a capture in the pcapng format, strictly, and says what is wrong with it.

    python3 tests/pcapng.py FILE [--compare TRANSCRIPT]

It is written from the format's specification (draft-ietf-opsawg-pcapng) and shares nothing with the program
that writes captures. It prints a line for each packet, `A 0 <hex>`: the interface's name, the timestamp in the
units of the interface, and the bytes. With --compare it compares the packets of each interface, in order,
with the lines of such a form in a transcript of `afdx_bench run`. Each block, the order of the packets and each
comparison count; the last line is 'N passed, M failed', and the exit status 0 exactly if nothing failed.
"""
import argparse
import struct
import sys

SECTION, INTERFACE, PACKET = 0x0A0D0D0A, 1, 6
ORDERS = {b"\x4d\x3c\x2b\x1a": "<", b"\x1a\x2b\x3c\x4d": ">"}
ETHERNET = 1
# The codes of options.
END, NAME, RESOLUTION = 0, 2, 9


class Malformed(Exception):
    """What is wrong, in words."""


def want(is_so, why):
    if not is_so:
        raise Malformed(why)


def filled(length):
    """The length up to a multiple of 4."""
    return -(-length // 4) * 4


def options_of(order, data):
    """The options, as pairs of a code and a value. If there are any, an option ends them."""
    found, at = [], 0
    while at < len(data):
        want(at + 4 <= len(data), "an option is cut off")
        code, length = struct.unpack_from(order + "HH", data, at)
        at += 4
        if code == END:
            want(length == 0, "the end of the options has a length")
            want(at == len(data), f"{len(data) - at} bytes after the end of the options")
            return found
        want(at + filled(length) <= len(data), f"option {code} is longer than its block")
        want(not any(data[at + length : at + filled(length)]), f"the padding of option {code} isn't zero")
        found.append((code, data[at : at + length]))
        at += filled(length)
    want(not found, "the options have no end")
    return found


class Interface:
    def __init__(self, order, body):
        want(len(body) >= 8, "an interface is too short")
        link, reserved, self.snap = struct.unpack_from(order + "HHI", body)
        want(link == ETHERNET, f"link type {link}")
        want(reserved == 0, "a reserved field isn't zero")
        options = options_of(order, body[8:])
        names = [value for code, value in options if code == NAME]
        want(len(names) == 1, f"{len(names)} names of an interface")
        self.name = names[0].decode("utf-8")
        units = [value[0] for code, value in options if code == RESOLUTION and len(value) == 1]
        want(len(units) == len([code for code, _ in options if code == RESOLUTION]) <= 1, "no resolution of times")
        self.resolution = units[0] if units else 6


class Packet:
    def __init__(self, order, body, interfaces):
        want(len(body) >= 20, "a packet is too short")
        number, high, low, captured, original = struct.unpack_from(order + "IIIII", body)
        want(number < len(interfaces), f"interface {number} isn't described")
        self.name, snap = interfaces[number].name, interfaces[number].snap
        self.moment = high << 32 | low
        want(captured == original, f"{captured} of {original} bytes were captured")
        want(snap == 0 or captured <= snap, f"{captured} bytes, but at most {snap} are captured")
        want(20 + filled(captured) <= len(body), "a packet is longer than its block")
        self.data = body[20 : 20 + captured]
        want(not any(body[20 + captured : 20 + filled(captured)]), "the padding of a packet isn't zero")
        options_of(order, body[20 + filled(captured) :])

    def line(self):
        return f"{self.name} {self.moment} {self.data.hex()}"


class Capture:
    """The blocks of a file, each of which is checked; the order of bytes is that of the section header."""

    def __init__(self, data):
        self.interfaces, self.packets, self.blocks, self.order = [], [], 0, None
        at = 0
        while at < len(data):
            try:
                at += self.block(data, at)
            except Malformed as fault:
                raise Malformed(f"block {self.blocks} at byte {at}: {fault}") from None
        want(self.order, "there is no section")

    def block(self, data, at):
        want(at + 12 <= len(data), f"{len(data) - at} bytes are no block")
        if data[at : at + 4] == b"\x0a\x0d\x0d\x0a":
            self.begin(data[at + 8 : at + 12])
        want(self.order, "a block before the first section")
        kind, length = struct.unpack_from(self.order + "II", data, at)
        want(length % 4 == 0 and length >= 12, f"length {length}")
        want(at + length <= len(data), f"length {length}, but {len(data) - at} bytes are left")
        (again,) = struct.unpack_from(self.order + "I", data, at + length - 4)
        want(again == length, f"length {length} in front and {again} at the end")
        self.take(kind, data[at + 8 : at + length - 4])
        self.blocks += 1
        return length

    def begin(self, magic):
        want(magic in ORDERS, f"byte order magic {magic.hex()}")
        want(self.order is None, "a second section")
        self.order = ORDERS[magic]

    def take(self, kind, body):
        if kind == SECTION:
            want(len(body) >= 16, "a section header is too short")
            major, minor, length = struct.unpack_from(self.order + "HHq", body, 4)
            want((major, minor) == (1, 0), f"version {major}.{minor}")
            want(length == -1, f"section length {length}")
            options_of(self.order, body[16:])
        elif kind == INTERFACE:
            self.interfaces.append(Interface(self.order, body))
        elif kind == PACKET:
            self.packets.append(Packet(self.order, body, self.interfaces))
        else:
            raise Malformed(f"type {kind:#x}")


def compared(packets, transcript):
    """For each interface, whether its packets are the lines of its name, in their order."""
    with open(transcript, encoding="utf-8") as file:
        lines = file.read().splitlines()
    found = [(it.name, it.line()) for it in packets]
    return [[line for of, line in found if of == name] == [it for it in lines if it[:2] == f"{name} "] for name in "AB"]


def checks(path, transcript=None):
    """What is checked of a capture: whether each is passed. Times rise, and of one time A's packets come first."""
    with open(path, "rb") as file:
        capture = Capture(file.read())
    want([it.name for it in capture.interfaces] == ["A", "B"], "the interfaces aren't A and B")
    want(all(it.resolution == 6 for it in capture.interfaces), "moments aren't in microseconds")
    order = [(packet.moment, packet.name) for packet in capture.packets]
    results = [True] * capture.blocks + [order == sorted(order)]
    if not results[-1]:
        print("the packets aren't in order", file=sys.stderr)
    return results + (compared(capture.packets, transcript) if transcript else [])


def main():
    parser = argparse.ArgumentParser(description=__doc__.partition("\n")[0])
    parser.add_argument("file")
    parser.add_argument("--compare", metavar="TRANSCRIPT")
    words = parser.parse_args()
    try:
        results = checks(words.file, words.compare)
        with open(words.file, "rb") as file:
            print(*(packet.line() for packet in Capture(file.read()).packets), sep="\n")
    except (OSError, UnicodeDecodeError, Malformed) as fault:
        print(fault, file=sys.stderr)
        results = [False]
    print(f"{sum(results)} passed, {results.count(False)} failed")
    return 1 if False in results else 0


if __name__ == "__main__":
    sys.exit(main())
