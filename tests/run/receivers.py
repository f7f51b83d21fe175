"""What receives the frames of an end system, by `docs/guide/laws.md`: receivers, a switch's policer, and an integrator who counts
turns. Each is written from ARINC 664 Part 7 and RFC 791. `driven.py` gives them what its runs recorded."""
import itertools
import random
from collections.abc import Iterable, Iterator

from trying import check

Frame = bytes
Stream = list[tuple[int, Frame]]  # frames of a link with the times of their release


def half(frame: Frame, at: int) -> int:
    """The number in two bytes of a frame."""
    return int.from_bytes(frame[at : at + 2], "big")


def ahead(last: int, number: int) -> int:
    """How many numbers one is after another: 1 is after 255, and nothing comes before 0."""
    return (number - last - 1) % 255 + 1 if number else 256


def accepted(arrivals: Iterable[tuple[str, Frame]], window: int) -> Iterator[Frame]:
    """What a receiver accepts of the frames that come from both networks: of each network the next two numbers are valid, and
    of these so many after the one accepted last are new."""
    seen: dict[str, int] = {}
    last = None
    for network, frame in arrivals:
        number = frame[-1]
        is_valid = number == 0 or network not in seen or ahead(seen[network], number) <= 2
        seen[network] = number
        if is_valid and (last is None or ahead(last, number) <= window):
            last = number
            yield frame


class Buffer:
    """The bytes of a datagram that came, by their places, and its length once it is known."""

    def __init__(self) -> None:
        self.bytes: dict[int, int] = {}
        self.length = 8_201

    def put(self, frame: Frame) -> bytes | None:
        """Adds a fragment. Returns the message of the datagram if that is whole, and begins anew."""
        start = 8 * (half(frame, 20) & 0x1FFF)
        piece = frame[34 : 14 + half(frame, 16)]
        self.bytes |= dict(enumerate(piece, start))
        if not frame[20] & 0x20:
            self.length = start + len(piece)
        if self.length > len(self.bytes):
            return None
        datagram = bytes(self.bytes[at] for at in range(self.length))
        self.__init__()
        return datagram[8:]


def messages_in(frames: Iterable[Frame]) -> dict[int, list[tuple[int, bytes]]]:
    """The messages of each sub-VL, with their UDP source ports, by one buffer for each."""
    buffers: dict[int, tuple[Buffer, list[int]]] = {}
    found: dict[int, list[tuple[int, bytes]]] = {}
    for frame in frames:
        buffer, source = buffers.setdefault(half(frame, 18) % 4, (Buffer(), []))
        source += [] if half(frame, 20) & 0x1FFF else [half(frame, 34)]
        if (message := buffer.put(frame)) is not None:
            found.setdefault(half(frame, 18) % 4, []).append((source.pop(), message))
    return found


def merged(streams: dict[str, list[Frame]], near: int, rng: random.Random) -> Iterator[tuple[str, Frame]]:
    """The frames of two networks, each in order, neither of them more than so many ahead of one that has more to come."""
    at = dict.fromkeys(streams, 0)
    while left := [net for net in streams if at[net] < len(streams[net])]:
        net = rng.choice([net for net in left if all(at[net] < at[it] + near for it in left if it != net)])
        yield net, streams[net][at[net]]
        at[net] += 1


def arrive(streams: dict[str, Stream], sent: dict[int, list[tuple[int, bytes]]], is_all: bool, rng: random.Random) -> None:
    """A receiver gets of each sub-VL the first messages that it accepted, in order, each once: those whose fragments one network
    carried; after a whole drain all of them."""
    frames = {net: [frame for _, frame in stream] for net, stream in streams.items()}
    longest = max(frames.values(), key=len)
    for window in (1, 2):
        got = messages_in(accepted(merged(frames, 255 - window, rng), window))
        for sub, messages in sent.items():
            count = sum(half(frame, 18) % 4 == sub and not frame[20] & 0x20 for frame in longest)
            check(got.get(sub, []) == messages[:count], (window, sub, count))
            check(not is_all or count == len(messages), (sub, count))


def losses(streams: dict[str, Stream], rng: random.Random) -> None:
    """Of a link on both networks, one of which loses, repeats and exchanges frames after the first, all is accepted once in order
    with a window of 1, since the other network carries it."""
    for whole, other in (("A", "B"), ("B", "A")):
        frames = {net: [frame for _, frame in streams[net]] for net in streams}
        poor = [frame for frame in frames[other] for _ in range(rng.choice((0, 1, 1, 2)))]
        for at in range(2, len(poor), 7):
            poor[at - 1 : at + 1] = poor[at - 1 : at + 1][::-1]
        frames[other] = frames[other][:1] + poor
        came = accepted(merged(frames, 60, rng), 1)
        check([frame[-1] for frame in came] == [frame[-1] for frame in frames[whole]], (whole, len(poor)))


def shuffled(stream: Stream, rng: random.Random) -> None:
    """The fragments of each message give it back in any order, however often each comes, and not before the last."""
    of_one = itertools.groupby(sorted((half(frame, 18), at) for at, (_, frame) in enumerate(stream)), key=lambda it: it[0])
    for _, places in of_one:
        frames = [stream[at][1] for _, at in places]
        if len(frames) == 1 or frames[-1][20] & 0x20:
            continue
        (_, message), = messages_in(frames)[half(frames[0], 18) % 4]
        last = rng.choice(frames)
        others = [frame for frame in frames if frame is not last for _ in range(rng.choice((1, 1, 2)))]
        rng.shuffle(others)
        buffer = Buffer()
        check(all(buffer.put(frame) is None for frame in others) and buffer.put(last) == message, len(frames))


def passed(arrivals: Stream, bag: int, most: int, jitter: int, by_frames: bool) -> list[bool]:
    """Which of the frames of a link pass a policer, whose account fills by the longest frame in each BAG."""
    full = account = most * (bag + jitter)
    passes, before = [], 0
    for at, frame in arrivals:
        account = min(full, account + most * (at - before))
        before = at
        cost = bag * (most if by_frames else len(frame) + 4)
        passes.append(cost <= account)
        account -= cost if passes[-1] else 0
    return passes


def policed(stream: Stream, bag: int, lmax: int, rng: random.Random) -> None:
    """A policer with the link's BAG, Lmax and jitter drops none of its frames. It drops the second of two longest frames that are
    less than a BAG apart, and of a crowd passes no more than its rule allows."""
    for by_frames in (False, True):
        jitter, late, arrivals = rng.choice((0, 1, 500, bag, 5 * bag)), 0, []
        for at, frame in stream:
            late = max(late, at + rng.choice((0, jitter, rng.randint(0, jitter))))
            arrivals.append((late, frame))
        check(all(passed(arrivals, bag, lmax, jitter, by_frames)), (bag, jitter))
        longest = bytes(lmax - 4)
        check(passed([(5, longest), (4 + bag, longest)], bag, lmax, 0, by_frames) == [True, False], bag)
        crowd = [(at, longest) for at in sorted(rng.randrange(20 * bag) for _ in range(200))]
        count, spent = sum(passed(crowd, bag, lmax, jitter, by_frames)), crowd[-1][0] - crowd[0][0]
        check(count <= (spent + bag + jitter) / bag, (count, spent))


def in_turn(stream: Stream, sub_vls: int) -> None:
    """The next fragment of a message is among the next frames of its link, as many as the link has sub-VLs."""
    last: dict[int, int] = {}
    for at, (_, frame) in enumerate(stream):
        sub = half(frame, 18) % 4
        check(not half(frame, 20) & 0x1FFF or at - last[sub] <= sub_vls, (at, sub))
        last[sub] = at


def twins(a: Stream, b: Stream) -> None:
    """If all links are on both networks, the shorter list is the twins of the longer's beginning."""
    check(all(one == (at, frame[:11] + b"\x20" + frame[12:]) for one, (at, frame) in zip(a, b, strict=False)))


def numbers(stream: Stream, rng: random.Random) -> None:
    """Of a long stream each frame is accepted once, in order, if neither network is more than 255 - window frames ahead. With one
    frame more an old one passes as new. With a window of 2 a loss isn't made good on the network that is ahead."""
    frames = [frame for _, frame in stream]
    both = {net: frames for net in "AB"}
    for window in (1, 2, 100):
        check([*accepted(merged(both, 255 - window, rng), window)] == frames, window)
        clash = [("A", frame) for frame in frames[: 257 - window]] + [("B", frames[0]), ("B", frames[1])]
        check(len([*accepted(clash, window)]) == (257 - window) + 1, window)
    ahead_of = [("A", frames[0]), ("A", frames[1]), ("A", frames[3])] + [("B", frame) for frame in frames[:4]]
    check([*accepted(ahead_of, 2)] == [frames[0], frames[1], frames[3]] and [*accepted(ahead_of, 1)] == frames[:4])


def receive(recorded: dict[str, Stream], tables: dict[int, dict], sent: dict, is_all: bool, rng: random.Random) -> None:
    """What was recorded of a run, link by link. `sent` has the accepted messages of each sub-VL, with their UDP source ports."""
    if all(table.get("networks", "both") == "both" for table in tables.values()):
        twins(*recorded.values())
    for vl, table in tables.items():
        streams = {net: [(at, frame) for at, frame in recorded[net] if half(frame, 4) == vl] for net in recorded}
        longest = max(streams.values(), key=len)
        arrive(streams, {sub: messages for (link, sub), messages in sent.items() if link == vl}, is_all, rng)
        if len(streams["A"]) == len(streams["B"]):
            losses(streams, rng)
        shuffled(longest, rng)
        policed(longest, 1000 * table["bag_ms"], table["lmax"], rng)
        in_turn(longest, table["sub_vls"])
