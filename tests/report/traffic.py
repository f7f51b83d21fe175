"""The traffic of `afdx_bench report`: its rows by the model of `groups.py`, texts with faults, and runs of the end system in
which polls come as late as they may. Each port of a sub-VL keeps its period with its jitter, and the other sub-VLs of its link
are always full, or keep theirs.
"""
import csv
import io
import random
from collections.abc import Iterator

from groups import Flows, arrivals, need_of, times_of, wait_of

from trying import seen

Plan = dict
PORTS = "port,name,period_us,deadline_us\n"
JITTERS = "port,period_us,jitter_us\n"
LIMIT = 1_000_000_000_000
# The demand of a port without one: name, period, deadline, jitter.
NONE = ("", None, None, 0)
# The columns of the CSV file: those of a port, and after them those of a sub-VL.
HEAD = "port name link sub_vl fragments period_us deadline_us wait_queue_us wait_traffic_us holds slack_us".split()
HEAD += ["missed", "capacity", "ports", "greatest", "bytes", "need", "suffices", "partitions", "jitter_us"]

# Traffic texts of the demonstration, whose one port is 10, and the faults that are printed of them.
FAULTS = {
    "": ["line 1: a header is missing"],
    "\n\n": ["line 1: a header is missing"],
    "name\n": ["line 1, port: the column is missing"],
    "port,port\n": ["line 1, port: the column occurs twice"],
    "port" + ",name" * 100_000 + "\nx\n": ["line 1, name: the column occurs twice"],
    "Period_US;Port\n\n1,5;10\n;\n;x": ['line 3, period_us: 1 to 1000000000000 is wanted, and "1,5" is seen', 'line 5, port: 0 to 65535 is wanted, and "x" is seen'],
    PORTS + "10,a,1\n": ["line 2: the number of cells is 3, and that of the header 4"],
    **{PORTS + f"{cell},a,1,1\n": [f"line 2, port: 0 to 65535 is wanted, and {seen(cell)}"] for cell in ("x", "65536", "", "1.50", "y" * 40, "y" * 41)},
    PORTS + "11,a,1,1\n": ["line 2, port: the plan has no port 11"],
    PORTS + "10,a,1,1\n10,b,1,1\n": ["line 3, port: port 10 already has a row, line 2"],
    **{
        PORTS + f"10,a,{period}, {deadline}\n": [
            f"line 2, {column}: 1 to {LIMIT} is wanted, and {seen(cell)}" for column, cell in (("period_us", period), ("deadline_us", deadline))
        ]
        for period, deadline in (("0", "0.0"), (str(LIMIT + 1), "1.5"), ("-1", "+1"), ("é", "\x1b[2J"))
    },
    JITTERS + "10,1000,1001\n": ['line 2, jitter_us: 0 to 1000 is wanted, and "1001" is seen'],
    JITTERS + "10,1000,-1\n": ['line 2, jitter_us: 0 to 1000 is wanted, and "-1" is seen'],
    JITTERS + "10,,1.0\n": ['line 2, jitter_us: 0 is wanted without a period, and "1.0" is seen'],
    JITTERS + "10,,x\n": ['line 2, jitter_us: 0 is wanted without a period, and "x" is seen'],
    JITTERS + "10,0,5\n": ['line 2, period_us: 1 to 1000000000000 is wanted, and "0" is seen'],
    JITTERS + f"10,1.5,{LIMIT + 1}\n": [
        'line 2, period_us: 1 to 1000000000000 is wanted, and "1.5" is seen',
        'line 2, jitter_us: 0 to 1000000000000 is wanted, and "1000000000001" is seen',
    ],
    "jitter_us,port,Jitter_US\n0,10,0\n": ["line 1, jitter_us: the column occurs twice"],
    # (the last two are a byte that isn't UTF-8, and a name that is one byte too long)
    **{
        PORTS + f"10,{name},1,1\n": [f"line 2, name: at most 64 bytes of text without control characters are wanted, and {seen(name)}"]
        for name in ("\0", "a\x07", "\x1b[2J", "\x1fa", "a\x7fb", "\x80", "a\x9b", "\udcff", "a" * 65)
    },
    PORTS + '10,"a\nb",1,1\nx,,,\n': [
        'line 2, name: at most 64 bytes of text without control characters are wanted, and "a\\x0ab" is seen',
        'line 4, port: 0 to 65535 is wanted, and "x" is seen',
    ],
}


def crowds() -> Iterator[tuple[str, list[str]]]:
    """Traffic texts with as many faults as are printed, with one more and with many more, of one and of several in a row,
    and all faults of each."""
    for count in (1000, 1001, 20_000):
        yield PORTS + "x,,,\n" * count, [f'line {k + 2}, port: 0 to 65535 is wanted, and "x" is seen' for k in range(count)]
    kinds = [*(f'{column}: 1 to {LIMIT} is wanted, and "0" is seen' for column in ("period_us", "deadline_us")), "port: the plan has no port 9"]
    yield PORTS + "9,,0,0\n" * 5000, [f"line {k + 2}, {kind}" for k in range(5000) for kind in kinds]


def flows_of(plan: Plan, demands: dict[int, tuple], sizes: dict[int, int], link: Plan) -> Flows:
    """The flows of each sub-VL of a link with a port: the fragments of a message, the period and the jitter of each of its ports.
    None for a sub-VL with a port without a period."""
    flows: Flows = {}
    for port in plan["port"]:
        if port["vl"] == link["id"]:
            _, period, _, jitter = demands.get(port["id"], NONE)
            mates = flows.setdefault(port["sub"], [])
            flows[port["sub"]] = None if None in (mates, period) else [*mates, (sizes[port["id"]], period, jitter)]
    return flows


def queues_of(plan: Plan, demands: dict[int, tuple], tables: dict, lateness: int) -> list[list[str]]:
    """A row for each sub-VL: link, sub-VL, capacity, the places that it needs, and whether it suffices."""
    sizes, rows = {int(row[0]): int(row[3]) for row in tables["ports"]}, []
    for link in plan["vl"]:
        flows = flows_of(plan, demands, sizes, link)
        for sub in range(link["sub_vls"]):
            row = [str(link["id"]), str(sub), str(link["capacity"]), "", ""]
            if flows.get(sub):
                need = need_of(flows, sub, 1000 * link["bag_ms"] + lateness)
                row[3:] = [str(need), "yes" if isinstance(need, int) and need <= link["capacity"] else "no"]
            rows.append(row)
    return rows


def sentence_of(plan: Plan, queues: list[list[str]]) -> str:
    """What a verdict says of the queues."""
    used = len({(port["vl"], port["sub"]) for port in plan["port"]})
    judged, full = [row for row in queues if row[4]], [row for row in queues if row[4] == "no"]
    if not judged:
        return "queues not judged"
    overloaded = len([row for row in full if row[3] == "overloaded"])
    parts = [f"queues may get full: {len(full)} of {used}" if full else "queues suffice"]
    parts += [f"overloaded: {overloaded}"] * (overloaded > 0) + [f"not judged: {used - len(judged)}"] * (used > len(judged))
    return "; ".join(parts)


def rows_of(plan: Plan, demands: dict[int, tuple], tables: dict, lateness: int) -> list[list[str]]:
    """The rows of a CSV file: `demands` has name, period, deadline and jitter by port, `tables` the rows of the report."""
    links, rows = {link["id"]: link for link in plan["vl"]}, []
    sizes = {int(row[0]): int(row[3]) for row in tables["ports"]}
    flows = {number: flows_of(plan, demands, sizes, link) for number, link in links.items()}
    waits: dict[tuple[int, int], int | None] = {}
    for port, row in zip(plan["port"], tables["ports"], strict=True):
        of, turn = flows[port["vl"]], 1000 * links[port["vl"]]["bag_ms"] + lateness
        if (place := (port["vl"], port["sub"])) not in waits:
            waits[place] = wait_of(of, port["sub"], turn) if of[port["sub"]] else None
        wait, queue = waits[place], int(row[4])
        name, period, deadline, jitter = demands.get(port["id"], NONE)
        least = queue if wait is None else min(wait, queue)
        end = ["", ""] if deadline is None else [str(deadline - least), "yes" if least > deadline else "no"]
        numbers = ["" if number is None else str(number) for number in (period, deadline, queue, wait)]
        late = "" if period is None else str(jitter)
        rows.append([row[0], name, row[1], row[2], row[3], *numbers, "queue" if least == queue else "traffic", *end, late])
    return rows


def sheet_of(rows: list[list[str]], subs: list[list[str]], queues: list[list[str]], total: int) -> list[list[str]]:
    """All rows of a CSV file: those of the ports, those of the sub-VLs, and the bytes of the end system."""
    ports = [[*row[:-1], *[""] * 7, row[-1]] for row in rows]
    sheet = [["", "", *sub[:2], *[""] * 8, *sub[2:4], *sub[5:], *queue[3:], sub[4], ""] for sub, queue in zip(subs, queues, strict=True)]
    return [*ports, *sheet, [*[""] * 15, str(total), *[""] * 4]]


def text_row(row: list[str]) -> list[str]:
    """The words of a row of the text, by that of the CSV file."""
    cells = [cell or "-" for cell in [row[0], *row[5:-1]]]
    return cells + row[1].split()


def random_demands(rng: random.Random, plan: Plan, every: bool) -> dict[int, tuple]:
    """Names, periods, deadlines and jitters for ports of a plan; a period for each, or for some; in half of the plans no jitter."""
    links, demands, late = {link["id"]: link for link in plan["vl"]}, {}, rng.random() < 0.5
    for port in plan["port"]:
        if every or rng.random() < 0.9:
            bag = 1000 * links[port["vl"]]["bag_ms"]
            period = rng.choice((rng.randint(1, 400 * bag), rng.randint(20, 400) * bag, bag * rng.randint(1, 64), LIMIT, 2**32 + rng.randrange(9)))
            name = rng.choice(("", "engine", "left wing", "Ä, \"7\""))
            jitter = rng.choice((0, 1, period, period - 1, rng.randint(0, period))) if late else 0
            demands[port["id"]] = (name, period, rng.choice((None, 1, LIMIT, rng.randint(1, 500 * bag))), jitter)
    return demands


def text_of(rng: random.Random, demands: dict[int, tuple]) -> str:
    """A traffic text, with its columns and its rows in any order."""
    out, columns = io.StringIO(), ["port", "name", "period_us", "deadline_us"]
    columns += ["jitter_us"] * any(jitter for _, _, _, jitter in demands.values())
    rng.shuffle(columns)
    writer = csv.writer(out, lineterminator=rng.choice(("\n", "\r\n")))
    writer.writerow(columns)
    for port in rng.sample(sorted(demands), len(demands)):
        name, period, deadline, jitter = demands[port]
        cells = {"port": port, "name": name, "period_us": period, "deadline_us": "" if deadline is None else deadline}
        cells["jitter_us"] = jitter or rng.choice(("", 0))
        writer.writerow([cells[column] for column in columns])
    return out.getvalue()


def script_of(
    plan: Plan, port: Plan, demands: dict[int, tuple], lateness: int, busy: int, before: int
) -> tuple[list[str], list[int]]:
    """A run in which the ports of a sub-VL begin to send, for a busy time, as often as they may, and those of the others send
    always. If the port first sends a message, of `before` fragments, they begin just after its last one; otherwise just
    after the sub-VL in turn after theirs was served. The second value has the times at which the sub-VL accepts its
    messages; of that first message it has the time of its last fragment."""
    pause = 1000 * plan["vl"][0]["bag_ms"] + lateness
    mates = [other for other in plan["port"] if other["sub"] == port["sub"]]
    others = [other for other in plan["port"] if other["sub"] != port["sub"]]
    subs = sorted({other["sub"] for other in others})
    place = sum(sub < port["sub"] for sub in subs)
    start = pause * (place + (before - 1) * (len(subs) + 1) if before else place % max(len(subs), 1))
    due = sorted((start + t, other["id"], other["max"]) for other in mates for t in times_of(*demands[other["id"]][1::2], busy))
    lines, accepted = ([f"send {port['id']} {'5a' * port['max']}"], [start]) if before else ([], [])
    for poll in range(0, start + busy + pause, pause):
        while due and due[0][0] < poll:
            moment, number, size = due.pop(0)
            lines.append(f"send {number} {'5a' * size}")
            accepted.append(moment)
        lines += [f"send {other['id']} {'5a' * other['max']}" for other in others] + [f"at {poll}"]
    return lines, accepted


def kept_script(plan: Plan, flows: Flows, starts: dict[int, int], last: int, turn: int, sub: int) -> tuple[list[str], list[int]]:
    """A run in which each sub-VL begins at its start to send as often as its ports may. Before, `last` is served alone, so that
    the sub-VLs after it are next. The second value has the times at which the port's sub-VL accepts its messages."""
    ports = {other: [port for port in plan["port"] if port["sub"] == other] for other in flows}
    first = ports[last][0]
    lines, accepted, end = [f"send {first['id']} 5a", "at 0"], [0] * (last == sub), 600 * turn
    due = sorted(arrivals(flows, starts, end), key=lambda it: it[0] + (it[1] == sub) / 2)
    for now in range(turn, end, turn):
        while due and (due[0][0] < now or due[0][0] == now and due[0][1] != sub):
            time, other, place = due.pop(0)
            lines.append(f"send {ports[other][place]['id']} {'5a' * ports[other][place]['max']}")
            accepted += [time] * (other == sub)
        lines.append(f"at {now}")
    return lines, accepted


def full_script(plan: Plan, port: Plan, demands: dict[int, tuple], lateness: int, busy: int, before: int) -> list[str]:
    """A run as in `script_of`, in which the port first sends a message of `before` fragments, just after whose last one the
    ports of its sub-VL begin, the greatest messages first. What is due at the time of a poll is sent before it."""
    pause = 1000 * plan["vl"][0]["bag_ms"] + lateness
    mates = sorted((other for other in plan["port"] if other["sub"] == port["sub"]), key=lambda other: -other["max"])
    others = [other for other in plan["port"] if other["sub"] != port["sub"]]
    subs = sorted({other["sub"] for other in others})
    start = pause * (sum(sub < port["sub"] for sub in subs) + (before - 1) * (len(subs) + 1))
    due = sorted((start + t, place) for place, other in enumerate(mates) for t in times_of(*demands[other["id"]][1::2], busy + 1))
    lines = [f"send {port['id']} {'5a' * port['max']}"]
    for poll in range(0, start + busy + pause + 1, pause):
        while due and due[0][0] <= poll and poll > start:
            other = mates[due.pop(0)[1]]
            lines.append(f"send {other['id']} {'5a' * other['max']}")
        lines += [f"send {other['id']} {'5a' * other['max']}" for other in others] + [f"at {poll}"]
    return lines


def full_ports(printed: str, script: list[str]) -> list[int]:
    """The ports whose messages were refused as full, by the transcript of a script."""
    refused = [line.split() for line in printed.splitlines() if line.endswith("refused Full")]
    return [int(script[int(words[1].rstrip(":")) - 1].split()[1]) for words in refused]


def waits_of(printed: str, sub: int, accepted: list[int]) -> Iterator[int]:
    """The wait of each message of a sub-VL that was wholly released in a run, by its transcript."""
    for line in printed.splitlines():
        words = line.split()
        if words[0] in "AB" and int(words[2][36:40], 16) % 4 == sub and not int(words[2][40:44], 16) & 0x2000:
            yield int(words[1]) - accepted[int(words[2][36:40], 16) // 4]
