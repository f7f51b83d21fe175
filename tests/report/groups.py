"""An independent model of the waits by traffic: the groups of sub-VLs of a link, the wait of a message in each, and the places
that a queue needs. And a model of a link in which all ports keep their periods, with an adversary that looks for long waits.

A flow is the fragments of a message, a period and a jitter. `flows` has a list of them for each sub-VL with a port, or None if
one of its ports has no period. `turn` is a BAG and the lateness.
"""
import itertools
import random
from collections.abc import Iterator
from fractions import Fraction

Flow = tuple[int, int, int]
Flows = dict[int, list[Flow] | None]
LIMIT = 65_536


def times_of(period: int, jitter: int, end: int) -> list[int]:
    """When a port hands messages over from 0 to before an end, as often as it may: those that are planned before 0 come at 0,
    as late as the jitter allows, and the others on time."""
    return [max(planned, 0) for planned in range(-jitter, end, period)]


def come(flows: list[Flow], end: int) -> int:
    """How many fragments are handed over before an end."""
    return sum(size * len(range(-jitter, end, period)) for size, period, jitter in flows)


def share_of(flows: list[Flow], turn: int) -> Fraction:
    """The share of its turns that a group takes for ever."""
    return sum((Fraction(size * turn, period) for size, period, _ in flows), Fraction())


def busy_rounds(flows: list[Flow], turn: int) -> int | None:
    """The first number of rounds in which as many fragments go out as come before their end, up to the limit."""
    rounds = 1
    while rounds <= LIMIT:
        before, rounds = rounds, come(flows, rounds * turn)
        if before == rounds:
            return rounds
    return None


def wait_in(own: list[Flow], rest: list[Flow], turn: int) -> int | None:
    """The greatest wait in the longest busy time of a group that sends a fragment each `turn`. All that the rest hands over by
    its end, also at that very time, goes out before the message."""
    if share_of(own + rest, turn) > 1 or (rounds := busy_rounds(own + rest, turn)) is None:
        return None
    longest, sent = 0, 0
    for t in sorted({t for _, period, jitter in own for t in times_of(period, jitter, rounds * turn + 1)}):
        mine = come(own, t + 1)
        while sent < (wanted := mine + come(rest, sent * turn + 1)):
            sent = wanted
        longest = max(longest, sent * turn - t)
    return longest if longest <= LIMIT * turn else None


def groups_of(flows: Flows, sub: int) -> Iterator[tuple[list[Flow], int]]:
    """The flows of the others in each group of a sub-VL, and the number of turns in which the group sends a fragment."""
    others = [other for other in flows if other != sub]
    for count in range(len(others) + 1):
        for mates in itertools.combinations(others, count):
            if all(flows[mate] is not None for mate in mates):
                yield [flow for mate in mates for flow in flows[mate]], 1 + len(others) - count


def wait_of(flows: Flows, sub: int, turn: int) -> int | None:
    """The wait by traffic of a sub-VL: the least of its groups."""
    waits = [wait_in(flows[sub], rest, turns * turn) for rest, turns in groups_of(flows, sub)]
    return min((wait for wait in waits if wait is not None), default=None)


def need_of(flows: Flows, sub: int, turn: int) -> int | str:
    """The places that the queue of a sub-VL needs: the less of two bounds. A message that comes at t finds those that have come
    and aren't begun, by fragments of the greatest size, in the turns of the sub-VL alone; and none is older than a wait."""
    own, wait, alone = flows[sub], wait_of(flows, sub, turn), len(flows) * turn
    if wait is None:
        over = all(share_of(own + rest, turns * turn) > 1 for rest, turns in groups_of(flows, sub))
        return "overloaded" if over else "unknown"

    def handed(t: int) -> int:
        return sum(len(range(-jitter, t + 1, period)) for _, period, jitter in own)

    if wait_in(own, [], alone) is None:
        return handed(wait)
    greatest, rounds = max(size for size, _, _ in own), busy_rounds(own, alone)
    times = {t for _, period, jitter in own for t in times_of(period, jitter, rounds * alone + 1)}
    return min(max(handed(t) - -(-(max(t - 1, 0) // alone) // greatest) for t in times), handed(wait))


def arrivals(flows: Flows, starts: dict[int, int], end: int) -> list[tuple[int, int, int]]:
    """The messages of all sub-VLs up to an end, as time, sub-VL and place of the flow. Each sub-VL begins at its start to send
    as often as it may, the greatest messages first."""
    return sorted(
        ((starts[sub] + t, sub, place) for sub in flows for place, (_, period, jitter) in enumerate(flows[sub])
         for t in times_of(period, jitter, end - starts[sub])),
        key=lambda it: (it[0], it[1], -flows[it[1]][it[2]][0]),
    )


def waits_in(flows: Flows, sub: int, turn: int, starts: dict[int, int], last: int, end: int) -> int:
    """The longest wait of a message of a sub-VL on a link that sends a fragment each turn. At the start it has just served sub-VL
    `last`. A message that comes at the very time of a poll comes before it, but those of `sub` come after it."""
    subs, due, left, longest = sorted(flows), arrivals(flows, starts, end), {other: [] for other in flows}, 0
    late = [it for it in due if it[1] == sub]
    early = [it for it in due if it[1] != sub]
    for now in range(turn, end, turn):
        while early and early[0][0] <= now:
            _, other, place = early.pop(0)
            left[other].append([0, flows[other][place][0]])
        while late and late[0][0] < now:
            time, _, place = late.pop(0)
            left[sub].append([time, flows[sub][place][0]])
        place = subs.index(last)
        for other in subs[place + 1 :] + subs[: place + 1]:
            if left[other]:
                last, left[other][0][1] = other, left[other][0][1] - 1
                if not left[other][0][1]:
                    time, _ = left[other].pop(0)
                    longest = max(longest, now - time) if other == sub else longest
                break
        if now > max(starts.values()) and not any(left.values()):
            break
    return longest


def worst_start(rng: random.Random, flows: Flows, sub: int, turn: int, bound: int) -> tuple[int, dict[int, int], int]:
    """The longest wait that an adversary finds, with the starts and the last sub-VL: all ports at once, the sub-VL some turns
    after the others, and by chance."""
    subs, best = sorted(flows), (0, {}, 0)
    tries = [dict.fromkeys(subs, 0) | {sub: turn * count} for count in (0, 1, 2, 3, 5, 8, 13, 21, 34, 55)]
    tries += [{other: turn * rng.randint(0, 40) for other in subs} for _ in range(20)]
    for starts in tries:
        for last in subs:
            if best[0] < bound:
                best = max(best, (waits_in(flows, sub, turn, starts, last, 600 * turn), starts, last), key=lambda it: it[0])
    return best
