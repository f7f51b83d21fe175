"""Tests `afdx_bench judge` on recordings of makers whose frames have another constant field or other interface bytes."""
import random
import zlib

import breaking
from captures import PLAIN, Packet, random_form, written
from planting import text_of
from recordings import put, recorded, rewritten
from trials import changed, faults_of, files_of
from verdict import Options, Ways

# Constant fields and interface bytes, of which some are those of the profile in other places.
CONSTANTS = [b"\3\0\0\0", b"\0\3\0\0", b"\x01\x00\x5e\x00", b"\3\0\0\1", b"\xff\xff\xff\xff", b"\2\0\0\0", b"\xab\xcd\xef\x01"]
INTERFACES = [b"\x20\x40", b"\x40\x20", b"\x40\x60", b"\x60\x20", b"\x20\x21", b"\x41\x40", b"\x21\x41", b"\0\1", b"\1\0", b"\xff\x20"]


def random_options(rng: random.Random) -> Options:
    """Options with a constant field, with interface bytes, or with both."""
    options = Options(arinc=True, constant=rng.choice([*CONSTANTS, rng.randbytes(4)]))
    options = options._replace(interfaces=rng.choice([*INTERFACES, bytes(rng.sample(range(256), 2))]))
    turn = rng.randrange(4)
    return options._replace(constant=None) if turn == 0 else options._replace(interfaces=None) if turn == 1 else options


def addressed(packets: list[Packet], options: Options) -> list[Packet]:
    """Packets of frames of the profile, with the addresses of the options."""
    own = {0x20: options.byte_11()["A"], 0x40: options.byte_11()["B"]}
    return [it._replace(data=put(put(it.data, 0, options.front()), 11, bytes([own[it.data[11]]]))) for it in packets]


def sealed(packets: list[Packet]) -> list[Packet]:
    """Packets with the check sequences of their frames."""
    return [it._replace(data=it.data + zlib.crc32(it.data).to_bytes(4, "little"), original=it.original + 4) for it in packets]


def own_addresses(seed: int) -> list[str]:
    """What is wrong with the verdicts on a recording with a maker's addresses: nothing is found if they are given, whether the
    frames end with check sequences, by the words or by the capture, or not, and whatever says the network. If they aren't given,
    each frame with others than the profile's is found."""
    rng = random.Random(f"addresses {seed}")
    recording, options = rewritten(rng, recorded(rng, 20)), random_options(rng)
    plan, packets = text_of(recording.plan, rng), addressed(recording.packets, options)
    captures, ways = files_of(packets, rng), Ways(foreign=rng.random() < 0.5, by_byte=rng.random() < 0.5)
    faults = faults_of(f"addresses {seed}", plan, captures, options, [], ways=ways)
    faults += faults_of(f"checked {seed}", plan, files_of(sealed(packets), rng), options._replace(fcs=True), [], ways=ways)
    form = random_form(rng, 2)._replace(fcs=dict.fromkeys("AB", b"\4"))
    faults += faults_of(f"told as checked {seed}", plan, [written(sealed(packets), form, rng)], options, [], ways=ways)
    plain = options._replace(constant=None, interfaces=None)
    front = options.front() != plain.front()
    found = [front or it.data[11] != plain.byte_11()[it.network] for it in packets]
    wanted = None
    if all(found):
        rule = {it.data[11]: "Interface" for it in packets if it.data[11] not in plain.byte_11().values()}
        wanted = [("Frame", "DestinationMac" if front else rule.get(it.data[11], ""), at, it.network) for at, it in enumerate(packets, 1)]
        wanted = [it if it[1] else ("Network", *it[1:]) for it in wanted]
    return faults + faults_of(f"not given {seed}", plan, [written(packets, PLAIN, rng)], plain, wanted)


def wrong_addresses(seed: int) -> list[str]:
    """What is wrong with the verdict on a recording with a maker's addresses in which one frame has others: the profile's
    constant field, one wrong byte in its own, or the other network's interface byte, its profile's, or any."""
    rng = random.Random(f"wrong addresses {seed}")
    recording, options = rewritten(rng, recorded(rng, 20)), random_options(rng)
    plan, packets = text_of(recording.plan, rng), addressed(recording.packets, options)
    at, bytes_11 = rng.randrange(len(packets)), options.byte_11()
    bad, turn = packets[at], rng.randrange(5)
    wanted = ("Frame", "DestinationMac")
    if turn == 0 and options.front() != Options().front():
        data = put(bad.data, 0, Options().front())
    elif turn < 2:
        place = rng.randrange(4)
        data = put(bad.data, place, bytes([bad.data[place] ^ 1 << rng.randrange(8)]))
    else:
        others = {2: [bytes_11["AB".replace(bad.network, "")]], 3: [0x20, 0x40], 4: range(256)}[turn]
        byte = rng.choice([it for it in others if it != bad.data[11]])
        data, wanted = put(bad.data, 11, bytes([byte])), ("Network", "") if byte in bytes_11.values() else ("Frame", "Interface")
    packets.insert(at, bad._replace(data=data))
    form, is_sealed = PLAIN, rng.random() < 0.3
    captures = [written(sealed(packets) if is_sealed else packets, form, rng)]
    return faults_of(f"wrong addresses {seed}", plan, captures, options._replace(fcs=is_sealed), [(*wanted, at + 1, bad.network)])


def mixed_addresses(seed: int) -> list[str]:
    """What is wrong with the verdict on a recording with a maker's addresses and several changes, under random options."""
    rng = random.Random(f"mixed addresses {seed}")
    recording, options = rewritten(rng, recorded(rng, rng.choice((3, 20)))), random_options(rng)
    packets = addressed(recording.packets, options)
    for _ in range(rng.choice((1, 2, 5, 40))):
        if packets:
            changed(packets, rng)
    if packets and rng.random() < 0.5:
        it = rng.choice(packets)
        packets.append(breaking.moved(it, put(it.data, 0, rng.choice(CONSTANTS))))
    is_sealed = rng.random() < 0.4
    if is_sealed:
        # (the check sequences of some are wrong, and some have none)
        packets = sealed(packets)
        for at in rng.sample(range(len(packets)), min(len(packets), rng.choice((0, 1, 5)))):
            data = packets[at].data
            packets[at] = packets[at]._replace(data=rng.choice((data[:-1] + bytes([data[-1] ^ 1]), data[:3])))
    options = options._replace(late=rng.random() < 0.3, fcs=is_sealed)
    ways = Ways(foreign=rng.random() < 0.3, by_byte=rng.random() < 0.5)
    return faults_of(f"mixed addresses {seed}", text_of(recording.plan, rng), files_of(packets, rng), options, ways=ways)
