#!/usr/bin/env python3
"""Tests `afdx_bench report`: its text and its CSV file against numbers that are computed here from the plan, its page
against a model of each number, bar, mark and line (`picture.py`), its waits against runs of the end system, and its ends when
an allocation or a write fails. And what `afdx_bench check` prints of the same plans. `fixed.py` has plans with fixed texts.
The last line is 'N passed, M failed'.

    python3 tests/report/test_report.py [PLANS]

PLANS small plans, 500 by default, are run as scripts, in each of which one message meets the worst that the others can
send. It is released at exactly its printed wait. In many plans some sub-VLs have no port. As many are run to fill a queue.
"""
import csv
import os
import random
import re
import statistics
import subprocess
import sys
import tempfile
import tomllib
from collections.abc import Iterator
from fractions import Fraction

HERE = os.path.dirname(os.path.abspath(__file__))
ROOT = os.path.dirname(os.path.dirname(HERE))
PROGRAM = f"{ROOT}/crates/afdx_bench/out/afdx_bench"
sys.dont_write_bytecode = True
sys.path[:0] = [f"{ROOT}/tests", HERE]
import fixed  # noqa: E402
import groups  # noqa: E402
import picture  # noqa: E402
import refusals  # noqa: E402
import refusals_wanted  # noqa: E402
import traffic  # noqa: E402
from expected import Plan, Tables, check_of, heaviest, jitter_of, memory_of, partitions_of, pieces, wanted  # noqa: E402
from trying import DEMO, text_of  # noqa: E402


VERSION = re.search('AFDX_VERSION "(.*)"', text_of("crates/afdx/afdx.h"))[1]
# Names of a plan's file and dates, some with what HTML gives a meaning or with control characters; and a long path.
FOLDER = "a folder whose name is longer than that of the plan"
NAMES = ("plan.toml", "a&b <c>.toml", "'\"Ä.toml", f"{FOLDER}/plan.toml", "\x01a\x1b[31m\x7f\x9b.toml")
DATES = (None, "2026-11-28 06:25 UTC", "<script>&amp;\"'</script>", "a\x07\x1b[2J\x7f\x80")


def ran(command: str, text: str, *words: str, name: str = "plan.toml") -> subprocess.CompletedProcess[str]:
    """Runs a command on a configuration's text, in a file of this name."""
    save(name, text)
    return subprocess.run([PROGRAM, command, name, *words], capture_output=True, text=True, check=False, timeout=60)


def report(text: str, *words: str, name: str = "plan.toml") -> subprocess.CompletedProcess[str]:
    """Runs a report of a configuration's text. `page.html` is the page."""
    return ran("report", text, *words, name=name)


def text_faults(command: str, text: str, wanted: str, *words: str) -> Iterator[str]:
    """What is wrong with what a command prints of a configuration's text."""
    done = ran(command, text, *words)
    if (done.returncode, done.stdout, done.stderr) != (0, wanted, ""):
        yield f"{done} for\n{wanted}"


def fixed_faults() -> Iterator[str]:
    """What is wrong with the plans of `fixed.py`."""
    for text, wanted in fixed.checks():
        yield from text_faults("check", text, wanted)
    for (text, lateness), wanted in fixed.ANALYSES.items():
        yield from text_faults("report", text, wanted, "--lateness", str(lateness))


def tables_of(text: str) -> Tables:
    """The tables of a report's text."""
    heads, name, tables = {"link": "links", "network": "networks", "port": "ports"}, "", {}
    for line in text.splitlines():
        words = line.split()
        if words[0] in heads:
            marks = {"period-us": "traffic", "bytes": "memory", "need": "queues"}
            name = next((marks[word] for word in words if word in marks), heads[words[0]])
            tables[name] = []
        elif name and words[0] not in ("jitter", "memory"):
            tables[name].append(words)
    return tables


def faults_of(text: str, lateness: int) -> Iterator[str]:
    """What is wrong with the report of a configuration's text, with its page, and with what `check` prints."""
    plan = tomllib.loads(text)
    yield from text_faults("check", text, check_of(plan))
    done = report(text, "--lateness", str(lateness), "--html", "page.html")
    if done.returncode:
        yield f"status {done.returncode}: {done.stderr}"
        return
    jitter = jitter_of(plan)
    line = f"jitter {jitter} ns of 500000" + (", exceeded" if jitter > 500_000 else "")
    if line not in done.stdout.splitlines():
        yield f"no line {line}"
    notes = [f", 64 MiB or more: link {row[0]} sub {row[1]} holds the most" for row in heaviest(plan)] or [""]
    if done.stdout.splitlines()[-1] not in [f"memory {memory_of(plan)} bytes{note}" for note in notes]:
        yield f"last line {done.stdout.splitlines()[-1]}, and {memory_of(plan)} bytes are wanted, {notes}"
    exceeded = any(row[3] == "yes" for row in wanted(plan, lateness)["networks"])
    kept = {False: "within limits", True: "exceeded"}
    verdict = f"loads {kept[exceeded]}, jitter {kept[jitter > 500_000]}, deadlines not given, queues not judged, {partitions_of(plan)}"
    first = [verdict, f"end system {plan['end_system']['id']}, polls up to {lateness} us late"]
    if done.stdout.splitlines()[:2] != first:
        yield f"first lines {done.stdout.splitlines()[:2]}"
    strict = report(text, "--lateness", str(lateness), "--strict")
    if (strict.returncode, strict.stdout) != (1 if "exceeded" in verdict or "several" in verdict else 0, done.stdout):
        yield f"strict: {strict.returncode}"
    told = tables_of(done.stdout)
    for name, rows in wanted(plan, lateness).items():
        yield from (f"text, {name}: {is_} for {to_be}" for is_, to_be in zip(told.get(name, []), rows, strict=False) if is_ != to_be)
        if told.get(name) != rows:
            yield f"{name} differ: {len(told.get(name, []))} rows"
    yield from page_faults(text, {}, "", lateness)


def page_faults(text: str, demands: dict[int, tuple], given: str, lateness: int) -> Iterator[str]:
    """What is wrong with the page of a plan and its traffic. A second run must write the same bytes."""
    rng = random.Random(text)
    file, date = rng.choice(NAMES), rng.choice(DATES)
    save("traffic.csv", given)
    words = ["--lateness", str(lateness), "--html", "page.html"] + ["--traffic", "traffic.csv"] * bool(given) + (["--date", date] if date else [])
    pages = []
    for _ in range(2):
        done = report(text, *words, name=file)
        with open("page.html", encoding="utf-8", newline="") as page:
            pages.append(page.read())
    if done.returncode or pages[0] != pages[1]:
        yield f"{done}, or two runs differ"
        return
    plan, tables = tomllib.loads(text), wanted(tomllib.loads(text), lateness)
    rows, verdict = traffic.rows_of(plan, demands, tables, lateness), done.stdout.splitlines()[0]
    name, date = picture.safe(os.path.basename(file)), date and picture.safe(date)
    queues = traffic.queues_of(plan, demands, tables, lateness)
    late = any(jitter for _, _, _, jitter in demands.values())
    source = picture.Source(plan, lateness, bool(demands), tables, rows, queues, verdict, name, text, VERSION, date, late)
    yield from picture.faults_of(pages[0], source)


def configuration(links: list[Plan], ports: list[Plan]) -> str:
    """The text of a configuration."""
    parts = ["version = 2", "[end_system]", "id = 1"]
    for name, tables in (("vl", links), ("port", ports)):
        for table in tables:
            parts += [f"[[{name}]]", *(f'{key} = "{v}"' if isinstance(v, str) else f"{key} = {v}" for key, v in table.items())]
    return "\n".join(parts) + "\n"


def port_of(number: int, vl: int, sub: int, size: int) -> Plan:
    """A queuing port."""
    common = {"partition": number % 32, "kind": "queuing", "source": 1000 + number, "destination": 2000}
    return {"id": number, "vl": vl, "sub": sub, **common, "max": size}


def greatest() -> str:
    """The greatest plan: 64 links of four sub-VLs, and 256 ports."""
    kinds = ("both", "a", "b")
    links = [
        {"id": 65535 - k, "bag_ms": 2 ** (k % 8), "lmax": (1518, 64)[k % 2], "sub_vls": 4, "capacity": 256, "networks": kinds[k % 3]}
        for k in range(64)
    ]
    return configuration(links, [port_of(p, 65535 - p // 4, p % 4, 8192 - 31 * (p % 4)) for p in range(256)])


def greatest_traffic() -> tuple[str, dict[int, tuple], str, int]:
    """The greatest plan, with a period and a deadline for each of its ports."""
    plan = tomllib.loads(greatest())
    demands = traffic.random_demands(random.Random(0), plan, True)
    return greatest(), demands, traffic.text_of(random.Random(0), demands), 1_000_000


def random_plan(rng: random.Random, capacity: int = 3) -> tuple[str, list[Plan], Plan]:
    """A plan of one small link, its ports, and one of them."""
    link = {"id": 7, "bag_ms": rng.choice((1, 2, 4)), "lmax": rng.choice((64, 72, 100, 200))}
    link |= {"sub_vls": rng.randint(1, 4), "capacity": rng.randint(1, 3) if capacity == 3 else capacity, "networks": rng.choice(("both", "a", "b"))}
    subs = range(link["sub_vls"])
    few = [port_of(10 + sub, 7, sub, rng.randint(1, 300)) for sub in subs if sub == 0 or rng.random() < 0.7]
    more = [port_of(20 + i, 7, rng.choice(few)["sub"], rng.randint(1, 300)) for i in range(rng.randint(0, 3))]
    return configuration([link], few + more), few + more, rng.choice(few + more)


def worst_wait(text: str, ports: list[Plan], port: Plan, lateness: int, rng: random.Random) -> tuple[int, int]:
    """The printed wait of a port, and that of one of its messages in a run in which the others send the most."""
    printed = next(int(row[4]) for row in tables_of(report(text, "--lateness", str(lateness)).stdout)["ports"] if row[0] == str(port["id"]))
    link = tomllib.loads(text)["vl"][0]

    def send(sender: Plan) -> str:
        return f"send {sender['id']} {'5a' * sender['max']}"

    mates = [other for other in ports if other["sub"] == port["sub"]]
    big = max(mates, key=lambda other: other["max"])
    others = [other for other in ports if other["sub"] != port["sub"]]
    # its sub-VL sends the first frame of a greatest message, and then its queue is filled, with this message last
    script = [send(big), "at 0", *[send(big)] * (link["capacity"] - 1), send(port)]
    for turn in range(1, printed // (1000 * link["bag_ms"] + lateness) + 1):
        script += [send(other) for other in rng.sample(others, len(others))] + [send(big)]
        script.append(f"at {turn * (1000 * link['bag_ms'] + lateness)}")
    with open("script.txt", "w", encoding="utf-8") as file:
        file.write("\n".join(script) + "\n")
    ran = subprocess.run([PROGRAM, "run", "plan.toml", "script.txt"], capture_output=True, text=True, check=False, timeout=60)
    mark, last = 4 * link["capacity"] + port["sub"], -1
    for line in ran.stdout.splitlines():
        words = line.split()
        # the identification of its datagram, and its last fragment
        if words[0] in "AB" and int(words[2][36:40], 16) == mark and not int(words[2][40:44], 16) & 0x2000:
            last = int(words[1])
    return printed, last


def wait_faults(seed: int) -> Iterator[str]:
    """What is wrong with the wait of a random plan."""
    rng = random.Random(seed)
    text, ports, port = random_plan(rng)
    lateness = rng.choice((0, 0, 1, 250, 999))
    yield from text_faults("check", text, check_of(tomllib.loads(text)))
    printed, last = worst_wait(text, ports, port, lateness, rng)
    if last != printed:
        yield f"plan {seed}: port {port['id']} is done at {last}, and its wait is {printed}\n{text}"


def save(name: str, text: str) -> None:
    """Writes a text as it is. A lone surrogate is a byte that isn't UTF-8."""
    with open(name, "w", encoding="utf-8", errors="surrogateescape", newline="") as file:
        file.write(text)


def traffic_rows(text: str, demands: dict[int, tuple], given: str, lateness: int) -> Iterator[str]:
    """What is wrong with a report of a plan and its traffic, as text and as a CSV file."""
    plan = tomllib.loads(text)
    save("traffic.csv", given)
    done = report(text, "--lateness", str(lateness), "--traffic", "traffic.csv", "--csv", "rows.csv", "--strict")
    rows = traffic.rows_of(plan, demands, wanted(plan, lateness), lateness)
    given_to, missed = [row for row in rows if row[11]], [row for row in rows if row[11] == "yes"]
    queues = traffic.queues_of(plan, demands, wanted(plan, lateness), lateness)
    deadlines = f"missed: {len(missed)} of {len(given_to)}" if missed else "kept of accepted messages" if given_to else "not given"
    ends = f", deadlines {deadlines}, {traffic.sentence_of(plan, queues)}, {partitions_of(plan)}"
    first = done.stdout.splitlines()[0] if done.stdout else ""
    if not first.endswith(ends) or done.returncode != (1 if missed or any(word in first for word in ("exceeded", "may get full", "several")) else 0):
        yield f"{done.returncode} {first}, and {ends} is wanted; {done.stderr}"
        return
    with open("rows.csv", encoding="utf-8", newline="") as file:
        head, *written = csv.reader(file)
    sheet = traffic.sheet_of(rows, wanted(plan, lateness)["memory"], queues, memory_of(plan))
    if len(written) != len(sheet) or head != traffic.HEAD:
        yield f"CSV: {len(written)} rows for {len(sheet)}, head {head}"
    yield from (f"CSV: {is_} for {to_be}" for is_, to_be in zip(written, sheet, strict=False) if is_ != to_be)
    shown = tables_of(done.stdout)["traffic"]
    yield from (f"text: {is_} for {to_be}" for is_, to_be in zip(shown, map(traffic.text_row, rows), strict=True) if is_ != to_be)
    if tables_of(done.stdout)["queues"] != [[cell or "-" for cell in row] for row in queues]:
        yield f"queues: {tables_of(done.stdout)['queues']} for {queues}"
    yield from page_faults(text, demands, given, lateness)


def wide_faults(seed: int) -> Iterator[str]:
    """What is wrong with a report of a random plan of several links, as text, CSV file and page."""
    rng = random.Random(seed)
    links = [
        {"id": number, "bag_ms": 2 ** rng.randrange(8), "lmax": rng.choice((64, 65, 200, 1000, 1518)), "sub_vls": rng.randint(1, 4)}
        | {"capacity": rng.choice((1, 2, 64)), "networks": rng.choice(("both", "a", "b"))}
        for number in rng.sample(range(65536), rng.randint(1, 9))
    ]
    ports = []
    for number in rng.sample(range(65536), rng.randint(1, 30)):
        link = rng.choice(links)
        port = port_of(number, link["id"], rng.randrange(link["sub_vls"]), rng.choice((1, 20, 300, 8192)))
        ports.append(port | {"source": 1 + number % 65535, "partition": rng.randrange(32)})
    text, lateness = configuration(links, ports), rng.choice((0, 250, 1_000_000))
    demands = traffic.random_demands(rng, tomllib.loads(text), seed % 2 > 0) if seed % 5 else {}
    rows = traffic_rows(text, demands, traffic.text_of(rng, demands), lateness) if demands else faults_of(text, lateness)
    yield from (f"plan {seed}: {fault}" for fault in rows)


def kept_plan(rng: random.Random, capacity: int) -> tuple[str, Plan, dict[int, tuple], Plan, groups.Flows, int]:
    """A plan of one small link, all of whose ports have periods: its text and tables, the demands, a port, the flows of the
    sub-VLs, and the lateness."""
    text, _, port = random_plan(rng, capacity)
    plan, lateness = tomllib.loads(text), rng.choice((0, 0, 1, 250, 999))
    link = plan["vl"][0]
    demands = traffic.random_demands(rng, plan, True)
    flows = traffic.flows_of(plan, demands, {other["id"]: pieces(link, other["max"]) for other in plan["port"]}, link)
    return text, plan, demands, port, flows, lateness


def traffic_faults(seed: int) -> Iterator[str]:
    """What is wrong with the waits by traffic of a random plan, and with a run in which a port waits as long as it may beside
    sub-VLs that are always full."""
    rng = random.Random(seed)
    text, ports, port = random_plan(rng, 256)
    lateness, plan = rng.choice((0, 0, 1, 250, 999)), tomllib.loads(text)
    demands = traffic.random_demands(rng, plan, seed % 3 > 0)
    yield from (f"plan {seed}: {fault}" for fault in traffic_rows(text, demands, traffic.text_of(rng, demands), lateness))
    used, pause = len({other["sub"] for other in ports}), 1000 * plan["vl"][0]["bag_ms"] + lateness
    mates = [other for other in ports if other["sub"] == port["sub"]]
    if any(other["id"] not in demands for other in mates):
        return
    flows = [(pieces(plan["vl"][0], other["max"]), *demands[other["id"]][1::2]) for other in mates]
    wait = groups.wait_in(flows, [], used * pause)
    if wait is None:
        return
    busy = groups.busy_rounds(flows, used * pause) * used * pause
    if busy > 400 * pause:
        return
    for before in (0, pieces(plan["vl"][0], port["max"])):
        script, accepted = traffic.script_of(plan, port, demands, lateness, busy, before)
        longest = max(traffic.waits_of(run_of(text, script), port["sub"], accepted))
        if longest != wait - (0 if before or used == 1 else pause):
            yield f"plan {seed}: port {port['id']} waits {longest} after {before}, and its wait by traffic is {wait}, a turn {pause}\n{text}"


def run_of(text: str, script: list[str]) -> str:
    """The transcript of a script."""
    save("script.txt", "\n".join(script) + "\n")
    save("plan.toml", text)
    done = subprocess.run([PROGRAM, "run", "plan.toml", "script.txt"], capture_output=True, text=True, check=False, timeout=60)
    return done.stdout


def kept_faults(ports: int) -> Iterator[str]:
    """What is wrong with the waits by traffic of links on which all ports keep their periods, beside the longest that an adversary
    finds: none is longer than its bound, and half of them are at least 95 % of it."""
    seen, seed = [], 0
    while len(seen) < ports:
        seed += 1
        rng = random.Random(seed)
        text, plan, demands, port, flows, lateness = kept_plan(rng, 256)
        sub, turn = port["sub"], 1000 * plan["vl"][0]["bag_ms"] + lateness
        bound = groups.wait_of(flows, sub, turn) if len(flows) > 1 else None
        if bound is None or bound > 400 * turn:
            continue
        longest, starts, last = groups.worst_start(rng, flows, sub, turn, bound)
        script, accepted = traffic.kept_script(plan, flows, starts, last, turn, sub)
        waits = max(traffic.waits_of(run_of(text, script), sub, accepted))
        seen.append(Fraction(longest, bound))
        if longest > bound or waits != longest:
            yield f"plan {seed}: port {port['id']} waits {waits}, {longest} in the model, and its bound is {bound}\n{text}{demands}"
    if statistics.median(seen) < Fraction(95, 100):
        yield f"the median of the longest waits is {float(statistics.median(seen))} of their bounds"


def full_run(text: str, plan: Plan, demands: dict[int, tuple], port: Plan, flows: groups.Flows, lateness: int) -> tuple[int | str, bool]:
    """The places that a port's sub-VL needs, and whether one of its messages is refused as full in a run that brings the most.
    The other sub-VLs are always full, or send as often as their flows may."""
    link, sub, turn = plan["vl"][0], port["sub"], 1000 * plan["vl"][0]["bag_ms"] + lateness
    need, alone = groups.need_of(flows, sub, turn), len(flows) * turn
    if None in [flows[other] for other in flows if other != sub]:
        rounds = groups.busy_rounds(flows[sub], alone)
        script = traffic.full_script(plan, port, demands, lateness, min(rounds or 400, 400) * alone, pieces(link, port["max"]))
    else:
        script, _ = traffic.kept_script(plan, flows, dict.fromkeys(flows, 0), sub, turn, None)
    mates = [other["id"] for other in plan["port"] if other["sub"] == sub]
    return need, any(number in mates for number in traffic.full_ports(run_of(text, script), script))


def full_faults(plans: int) -> Iterator[str]:
    """What is wrong with the needs of random plans: a queue with the places that it needs is never full, and of those with
    fewer at least half are in a run that brings the most."""
    fewer = met = 0
    for seed in range(plans):
        rng = random.Random(seed)
        text, plan, _, port, _, lateness = kept_plan(rng, rng.choice((3, 3, 1, 2, 4, 5)))
        link = plan["vl"][0]
        bag, capacity = 1000 * link["bag_ms"], link["capacity"]
        periods = {other["id"]: rng.choice((rng.randint(1, 400 * bag), bag * rng.randint(1, 64))) for other in plan["port"]}
        demands = {other: ("", period, None, rng.choice((0, 0, period, rng.randint(0, period)))) for other, period in periods.items()}
        flows = traffic.flows_of(plan, demands, {other["id"]: pieces(link, other["max"]) for other in plan["port"]}, link)
        if seed % 2:
            flows |= dict.fromkeys((other for other in flows if other != port["sub"]), None)
        need, is_full = full_run(text, plan, demands, port, flows, lateness)
        if is_full and isinstance(need, int) and need <= capacity:
            yield f"plan {seed}: port {port['id']} finds a queue of {capacity} full, and {need} are needed\n{text}{demands}"
        fewer += isinstance(need, str) or need > capacity
        met += is_full and (isinstance(need, str) or need > capacity)
    if 2 * met < fewer or fewer < plans // 10:
        yield f"of {fewer} queues with too few places {met} are full in a run"


def queue_faults() -> Iterator[str]:
    """What is wrong with reports on plans that lose messages, each with the end of its verdict and rows of its queues."""
    busy = {"id": 1, "bag_ms": 8, "lmax": 64, "sub_vls": 1, "capacity": 4}
    many = [{"id": k, "bag_ms": 128, "lmax": 64, "sub_vls": 1, "capacity": 1} for k in range(1, 41)]
    # (a sub-VL takes 60 % of this link, and the other one 10 %)
    uneven = [{"id": 1, "bag_ms": 1, "lmax": 64, "sub_vls": 2, "capacity": 4}]
    pair = [port_of(k, k, 0, 20) for k in range(1, 41)] + [port_of(41, 40, 0, 20)]
    three, close = [port_of(k, 1, 0, 1) for k in (10, 11, 12)], {10: 23_386, 11: 26_277, 12: 22_633}
    for links, ports, periods, ends, row in [
        ([busy], [port_of(10, 1, 0, 1)], {10: 500}, "queues may get full: 1 of 1; overloaded: 1", ["1", "0", "4", "overloaded", "no"]),
        ([busy], [port_of(10, 1, 0, 1)], {10: 8000}, "queues suffice", ["1", "0", "4", "2", "yes"]),
        ([busy | {"capacity": 1}], [port_of(10, 1, 0, 1)], {10: 8001}, "queues suffice", ["1", "0", "1", "1", "yes"]),
        (many, pair, dict.fromkeys(range(1, 42), 1_000_000), "queues may get full: 1 of 40", ["40", "0", "1", "2", "no"]),
        (many, pair, dict.fromkeys(range(1, 41), 1_000_000), "queues suffice; not judged: 1", ["40", "0", "1", "-", "-"]),
        ([busy], three, close, "queues may get full: 1 of 1", ["1", "0", "4", "unknown", "no"]),
        (uneven, [port_of(10, 1, 0, 1), port_of(11, 1, 1, 137)], {10: 10_000, 11: 10_000}, "queues suffice", ["1", "1", "4", "1", "yes"]),
    ]:
        text, given = configuration(links, ports), traffic.PORTS + "".join(f"{k},,{period},100000000\n" for k, period in periods.items())
        save("traffic.csv", given)
        done = report(text, "--traffic", "traffic.csv", "--strict")
        shown = tables_of(done.stdout).get("queues", [[]])[-1]
        ends = f", {ends}, {partitions_of(tomllib.loads(text))}"
        if not done.stdout.splitlines()[0].endswith(ends) or shown != row or done.returncode != ("full" in ends or "several" in ends):
            yield f"{done.returncode} {done.stdout.splitlines()[0]}, {shown}, and {ends}, {row} are wanted"
    save("plan.toml", configuration(many, pair))
    script = [line for k in range(3) for line in ("send 40 5a", "send 41 5a", f"at {1_000_000 * k}")]
    save("script.txt", "\n".join(script) + "\n")
    ran = subprocess.run([PROGRAM, "run", "plan.toml", "script.txt"], capture_output=True, text=True, check=False, timeout=60)
    if traffic.full_ports(ran.stdout, script) != [41, 41, 41]:
        yield f"the port gets a message out: {ran.stdout}"


def speed_faults() -> Iterator[str]:
    """What is wrong with the processor time of a report on 256 ports that load their link to 99.94 %: a tenth of a second is
    usual, and what is computed for each port anew takes over two."""
    rng = random.Random(3)
    links = [{"id": 1, "bag_ms": 1, "lmax": 1518, "sub_vls": 4, "capacity": 256}]
    text, shares = configuration(links, [port_of(k, 1, k // 64, 1) for k in range(256)]), [rng.random() + 0.01 for _ in range(64)]
    periods = [int(4000 * sum(shares) / share / 0.9994) + 1 for share in shares]
    save("traffic.csv", traffic.PORTS + "".join(f"{k},,{periods[k % 64]},\n" for k in range(256)))
    before = os.times()
    done = report(text, "--traffic", "traffic.csv")
    after = os.times()
    spent = after.children_user + after.children_system - before.children_user - before.children_system
    if spent > 0.5 or ", queues suffice, " not in done.stdout.splitlines()[0]:
        yield f"{spent} s for {done.stdout.splitlines()[:1]}"


def traffic_text_faults() -> Iterator[str]:
    """What is wrong with the reports of traffic texts that have faults."""
    for given, faults in [*traffic.FAULTS.items(), *traffic.crowds()]:
        save("traffic.csv", given)
        done = report(DEMO, "--traffic", "traffic.csv", "--csv", "unmade.csv")
        head, more = f"{len(faults)} fault{'s' * (len(faults) > 1)} of the traffic", [f"and {len(faults) - 1000} more"] * (len(faults) > 1000)
        told = "\n".join([head, *(f"traffic.csv: {fault}" for fault in faults[:1000]), *more, ""])
        if (done.returncode, done.stdout, done.stderr) != (2, "", told) or os.path.exists("unmade.csv"):
            yield f"{str(done)[:1000]} for {given[:1000]!r}"
    save("traffic.csv", traffic.PORTS)
    for name in ("traffic.csv", "plan.toml"):
        done = report(DEMO, "--traffic", "traffic.csv", "--csv", name)
        if done.returncode != 4 or open("traffic.csv", encoding="utf-8").read() != traffic.PORTS:
            yield f"rows in the place of {name}: {done}"


def file_faults() -> Iterator[str]:
    """What is wrong with the files of a report of which one can't be made or written, and with two names of one file. The
    page is written first, and rows never take its place."""
    twice, old = "write failed\n{}: the command already writes this file, so name another\n", "old"
    for there, page, rows, told, left in [
        (False, "nowhere/x", "made", "write failed\nnowhere/x: No such file or directory (os error 2)\n", None),
        (False, "made", "nowhere/x", "write failed\nnowhere/x: No such file or directory (os error 2)\n", "page"),
        (False, "made", "/dev/full", "write failed\n/dev/full: No space left on device (os error 28)\n", "page"),
        (False, "/dev/full", "made", "write failed\n/dev/full: No space left on device (os error 28)\n", None),
        *((False, one, other, twice.format(other), "page") for one, other in (("./made", "made"), ("./made", "soft"), ("soft", "made"))),
        *((True, one, other, twice.format(other), old) for one, other in (("./made", "made"), ("hard", f"{FOLDER}/../made"), ("made", "soft"))),
    ]:
        for name in ("made", "hard", "soft"):
            if os.path.lexists(name):
                os.remove(name)
        os.symlink("made", "soft")
        if there:
            save("made", old)
            os.link("made", "hard")
        done = report(DEMO, "--html", page, "--csv", rows)
        text = open("made", encoding="utf-8").read() if os.path.exists("made") else None
        is_page = text is not None and text.startswith("<!DOCTYPE html>") and text.endswith("</html>\n")
        if (done.returncode, done.stdout, done.stderr, "page" if is_page else text) != (4, "", told, left):
            yield f"{done}, and left is {text and text[:40]!r}"


def refusal_faults(text: str, *more: str) -> Iterator[str]:
    """What is wrong with runs of a report in each of which an allocation or a write fails, or whose standard output is a
    closed pipe."""
    words = ["report", "plan.toml", *more]
    answer = report(text, *more).stdout
    bench = refusals.Bench(os.getcwd())
    with open("plan.toml", "w", encoding="utf-8") as file:
        file.write(text)
    yield from refusals.tried_case(bench, PROGRAM, refusals_wanted.command(words, answer))[0]
    yield from refusals.tried_case(bench, PROGRAM, refusals_wanted.command(words, answer, many=0))[0]
    yield from refusals.tried_writes(bench, PROGRAM, words)[0]
    yield from refusals.tried_closed(bench, PROGRAM, words)[0]


def main() -> int:
    """Runs all tests."""
    plans = int(sys.argv[1]) if sys.argv[1:] else 500
    four = [port_of(10 + i, 1, sub, size) for i, (sub, size) in enumerate(((0, 10), (0, 1000), (1, 200), (2, 8192), (3, 1), (3, 5000)))]
    link = {"id": 1, "bag_ms": 2, "lmax": 200, "sub_vls": 4, "capacity": 3}
    lone = {"id": 2, "bag_ms": 128, "lmax": 65, "sub_vls": 1, "capacity": 1, "networks": "b"}
    full = [{"id": k, "bag_ms": 1, "lmax": 1518, "sub_vls": 1, "capacity": 1, "networks": "a"} for k in range(9)]
    tries = {
        "plans with fixed texts": fixed_faults,
        "the demonstration": lambda: faults_of(DEMO, 0),
        "a page of unequal ports": lambda: faults_of(fixed.UNEQUAL, 250),
        "four sub-VLs of unequal ports, and a link on one network": lambda: faults_of(
            configuration([link, lone], [*four, port_of(30, 2, 0, 41)]), 250
        ),
        "a network that is exceeded": lambda: faults_of(configuration(full, [port_of(k, k, 0, 8192) for k in range(9)]), 0),
        "the greatest plan": lambda: faults_of(greatest(), 1_000_000),
        "a page in the place of its configuration": lambda: (
            [] if report(DEMO, "--html", "plan.toml").returncode == 4 and open("plan.toml", encoding="utf-8").read() == DEMO else ["it is made"]
        ),
        "refused memory and writes": lambda: refusal_faults(DEMO),
        "refused memory and writes, with a page": lambda: refusal_faults(DEMO, "--html", "page.html"),
        "the greatest plan with its periods": lambda: traffic_rows(*greatest_traffic()),
        "traffic with faults": traffic_text_faults,
        "plans that lose messages": queue_faults,
        "256 ports that nearly overload their link": speed_faults,
        "files that can't be made, and one file named twice": file_faults,
        "refused memory and writes, with traffic": lambda: refusal_faults(DEMO, "--traffic", "demo.csv", "--csv", "rows.csv"),
        f"{plans // 5} plans of several links": lambda: (fault for seed in range(plans // 5) for fault in wide_faults(seed)),
        f"{plans * 4 // 5} waits of ports beside others that keep their periods": lambda: kept_faults(plans * 4 // 5),
        f"{plans} waits by traffic": lambda: (fault for seed in range(plans) for fault in traffic_faults(seed)),
        f"{plans} queues of plans that bring the most": lambda: full_faults(plans),
        f"{plans} waits": lambda: (fault for seed in range(plans) for fault in wait_faults(seed)),
    }
    failed = 0
    with tempfile.TemporaryDirectory() as folder:
        os.chdir(folder)
        os.mkdir(FOLDER)
        save("demo.csv", traffic.PORTS + "10,engine,1000000,5\n")
        for name, faults in tries.items():
            found = list(faults())
            failed += bool(found)
            print(f"{name}: {'FAILED' if found else 'ok'}", *found[:4], sep="\n    " if found else "", flush=True)
    print(f"{len(tries) - failed} passed, {failed} failed")
    return 1 if failed else 0


if __name__ == "__main__":
    sys.exit(main())
