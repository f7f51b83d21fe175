#!/usr/bin/env python3
"""Tests the documents that `--json` prints: each has what the text has, read from that.

    python3 tests/test_json.py

It runs what `rt ci` has built. The last line is 'N passed, M failed'.
"""
import json
import os
import random
import re
import subprocess
import sys
import tempfile
from decimal import Decimal

HERE = os.path.dirname(os.path.abspath(__file__))
# (no compiled copy is left beside the scripts)
sys.dont_write_bytecode = True
sys.path[:0] = [HERE, *(f"{HERE}/{name}" for name in ("judge", "run", "explain", "report"))]
import trying
import verdict
from planting import plan_of, text_of
from recordings import recorded
from trials import changed, files_of

PROGRAM = f"{trying.ROOT}/crates/afdx_bench/out/afdx_bench"
# The words for addresses that aren't the profile's.
OWN = ["--profile", "arinc", "--constant", "03:00:00:0A", "--interfaces", "40,0b"]
TRAFFIC = "port,name,period_us,deadline_us\n"


def ran(*words):
    """A run, its status and its standard output. Nothing goes to standard error."""
    done = subprocess.run([PROGRAM, *words], capture_output=True, text=True, check=False, timeout=60)
    trying.check(not done.stderr, f"{words}: {done.stderr}")
    return done.returncode, done.stdout


def both(*words):
    """The lines of a command, and its document. The status is the same with and without it."""
    status, text = ran(*words)
    other, document = ran(*words, "--json")
    read = json.loads(document, parse_float=Decimal)
    trying.check(status == other and read["version"] == 1 and document.endswith("}\n"), f"{words}: {status}, {other}, {document[:99]}")
    return text.splitlines(), read


def shown(value, digits=None):
    """A value as the text has it."""
    if isinstance(value, bool):
        return "yes" if value else "no"
    if value is None:
        return "-"
    return f"{value:.{digits}f}" if digits else str(value)


def save(name, text):
    """Writes a file."""
    with open(name, "w", encoding="utf-8") as file:
        file.write(text)
    return name


def checked(plan, lines):
    """What is wrong with the document of a plan beside the lines of `check`."""
    networks = {"A+B": "", "A": ", network A", "B": ", network B"}
    told = [f"end system {plan['end_system']}"]
    for it in plan["links"]:
        size = f"bag {it['bag_ms']} ms, lmax {it['lmax']}, sub-VLs {it['sub_vls']}, capacity {it['capacity']}"
        told.append(f"link {it['link']}: {size}{networks[it['networks']]}")
    for it in plan["ports"]:
        way = f"link {it['link']} sub {it['sub']}, partition {it['partition']}, {it['kind']}"
        last = f"{it['address'] or 'multicast'}" + (f", checksum {it['checksum']}" if it["checksum"] else "")
        told.append(f"port {it['port']}: {way}, {it['source']} to {it['destination']}, max {it['max']}, {last}")
    exceeded = ", exceeded" * plan["jitter_exceeded"]
    told.append(f"jitter {plan['jitter_ns']} ns, limit {plan['jitter_limit_ns']}{exceeded}")
    return [] if told == lines else [f"{told} for {lines}"]


def check(seed):
    """What is wrong with the documents of `check` on plans."""
    rng = random.Random(f"check {seed}")
    name = save("plan.toml", text_of(plan_of(rng, rng.randint(1, 9), rng.randint(1, 20), rng.choice((None, 2))), rng))
    lines, read = both("check", name)
    (plan,) = read["plans"]
    return checked(plan, lines) + ([] if plan["file"] == name else [plan["file"]])


def explain(seed):
    """What is wrong with the documents of `explain` on plans with faults, also on one line or in an unusual form."""
    rng = random.Random(f"explain {seed}")
    plan = plan_of(rng, rng.randint(1, 9), rng.randint(1, 20))
    for _ in range(rng.randrange(4)):
        table = rng.choice([*plan["vl"], *plan["port"]])
        table[rng.choice(list(table))] = rng.choice([-1, "x", 70_000, 'a: b "c"', True])
    text = text_of(plan, rng) if rng.random() < 0.8 else json.dumps(plan)
    name = save(rng.choice(("plan.toml", "a: b.toml", "7:8: 9.toml")), text)
    (head, *lines), read = both("explain", name)
    told = [f"{name}{'' if it['line'] is None else ':' + str(it['line'])}: {it['number']} {it['name']}: {it['told']}" for it in read["faults"]]
    count = read["count"]
    faults = [] if head == f"{count or 'no'} fault{'s' * (count != 1)}" and read["file"] == name else [f"{head}, {count}"]
    return faults + ([] if told == lines else [f"{told} for {lines}"])


def tables_of(lines):
    """The tables of a report, by the last word of their headers; and the other lines."""
    tables, others, rows = {}, [], None
    for line in lines:
        words = line.split()
        if words[0] in ("link", "network", "port") and not re.search(r"\d", line.replace("/s", "")):
            rows = tables.setdefault(words[-1], [])
        elif rows is not None and words[0] not in ("jitter", "memory", "network"):
            rows.append(words)
        else:
            others.append(line)
            rows = None
    return tables, others


def rows_of(rows, *keys):
    """Rows of a document as the text has them: a key may end with the number of its decimals."""
    return [[shown(row[key], digits) for key, digits in keys] for row in rows]


def columns(text):
    """The keys of columns, each with the number of its decimals."""
    return [(word.partition(".")[0], int(word.partition(".")[2] or 0)) for word in text.split()]


def reported(plan, lines):
    """What is wrong with the document of a plan beside the lines of its report."""
    tables, others = tables_of(lines)
    told = {
        "jitter-ns": [*rows_of(plan["links"], *columns("link bag_ms lmax subs nets load_kbit_s.3 share_percent.2 jitter_ns")),
                      *rows_of(plan["networks"], *columns("network load_kbit_s.3 share_percent.2 exceeded jitter_ns"))],
        "messages/s": rows_of(plan["ports"], *columns("port link sub fragments wait_us messages_s.3")),
        "bytes": rows_of(plan["memory"]["sub_vls"], *columns("link sub capacity ports partitions greatest bytes")),
    }
    if plan["traffic"] is not None:
        keys = columns("port period_us deadline_us wait_queue_us wait_traffic_us holds slack_us missed")
        names = [it["name"] for it in plan["traffic"]]
        told["name"] = [row + name.split() for row, name in zip(rows_of(plan["traffic"], *keys), names, strict=True)]
        told["suffices"] = [[*map(shown, (it["link"], it["sub"], it["capacity"])), it["unknown"] or shown(it["need"]), shown(it["suffices"])] for it in plan["queues"]]
    jitter = f"jitter {plan['jitter_ns']} ns of {plan['jitter_limit_ns']}" + ", exceeded" * (plan["jitter_ns"] > plan["jitter_limit_ns"])
    memory, held = f"memory {plan['memory']['bytes']} bytes", plan["memory"]["heaviest"]
    memory += f", 64 MiB or more: link {held[0]} sub {held[1]} holds the most" if held else ""
    rest = [", ".join(plan["verdict"]), f"end system {plan['end_system']}, polls up to {plan['lateness_us']} us late", jitter, memory]
    faults = [] if others == rest else [f"{rest} for {others}"]
    return faults + ([] if tables == told else [f"{told} for {tables}"])


def report(seed):
    """What is wrong with the documents of `report`."""
    rng = random.Random(f"report {seed}")
    plan = plan_of(rng, rng.randint(1, 9), rng.randint(1, 20), rng.choice((None, 2)))
    name, words = save("plan.toml", text_of(plan, rng)), ["--lateness", str(rng.choice((0, 999)))]
    if rng.random() < 0.7:
        some = [port["id"] for port in plan["port"] if rng.random() < 0.9]
        periods = {port: rng.choice((1000, 20_000, 10**6, None)) for port in some}
        jitters = {port: period and rng.choice((0, 1, period)) for port, period in periods.items()}
        rows = "".join(f"{port},a name,{periods[port] or ''},{rng.choice(('', 5000, 10**7))},{jitters[port] or ''}\n" for port in some)
        words += ["--traffic", save("traffic.csv", TRAFFIC.replace("\n", ",jitter_us\n") + rows)]
    if rng.random() < 0.5:
        words.append("--strict")
    lines, read = both("report", name, *words)
    (told,) = read["plans"]
    sums = [{key: row[key] for key in ("network", "load_kbit_s", "share_percent", "exceeded")} for row in told["networks"]]
    late = [(row["port"], row["period_us"], row["jitter_us"]) for row in told["traffic"] or []]
    if late != [(port, periods.get(port), jitters.get(port)) for port, _, _ in late]:
        return [f"jitters: {late} for {jitters}"]
    faults = [] if sums == read["networks"] and told["file"] == name else [f"{read['networks']} for {sums}"]
    return faults + reported(told, lines)


def network(seed):
    """What is wrong with `check` and `report` on several plans: each is told as if alone, and the loads are added. Plans that share
    an end system or a link are refused, with both files and lines."""
    rng, names, plans, faults = random.Random(f"network {seed}"), [], [], []
    for k in range(rng.randint(2, 4)):
        plan = plan_of(rng, rng.randint(1, 5), rng.randint(1, 6))
        plan["end_system"]["id"] = 300 + k
        for table, key in [*((it, "id") for it in plan["vl"]), *((it, "vl") for it in plan["port"])]:
            table[key] += 1000 * k
        plans.append(plan)
        names.append(save(f"plan{k}.toml", text_of(plan, rng)))
    alone = [[ran(word, name)[1] for name in names] for word in ("check", "report")]
    lines, read = both("check", *names)
    links = sum(len(plan["vl"]) for plan in plans)
    faults += [] if "\n".join(lines) + "\n" == "".join(alone[0]) + f"network: {len(plans)} end systems, {links} links\n" else [f"{lines}"]
    for plan, text in zip(read["plans"], alone[0], strict=True):
        faults += checked(plan, text.splitlines())
    lines, read = both("report", *names)
    for plan, text in zip(read["plans"], alone[1], strict=True):
        faults += reported(plan, text.splitlines())
    for place, row in enumerate(read["networks"]):
        load = sum(plan["networks"][place]["load_kbit_s"] for plan in read["plans"])
        share = Decimal(-(-int(load * 1000) // 10_000)) / 100
        faults += [] if (row["load_kbit_s"], row["share_percent"], row["exceeded"]) == (load, share, load > 100_000) else [f"{row}, {load}"]
    told = rows_of(read["networks"], *columns("network load_kbit_s.3 share_percent.2 exceeded"))
    tail = [f"network of {len(plans)} end systems", "network load-kbit/s share-% exceeded", *map(" ".join, told)]
    faults += [] if lines[:-4] == "".join(alone[1]).splitlines() and [" ".join(it.split()) for it in lines[-4:]] == tail else [f"{lines[-4:]} for {tail}"]
    return faults + clash(rng, names, plans)


def clash(rng, names, plans):
    """What is wrong with the refusal of plans that share an end system and a link."""
    first, second = sorted(rng.sample(range(len(plans)), 2))
    one, other = plans[first], plans[second]
    at, to = rng.randrange(len(one["vl"])), rng.randrange(len(other["vl"]))
    old, other["vl"][to]["id"] = other["vl"][to]["id"], one["vl"][at]["id"]
    for port in other["port"]:
        port["vl"] = other["vl"][to]["id"] if port["vl"] == old else port["vl"]
    other["end_system"]["id"] = one["end_system"]["id"]
    for name, plan in zip(names, plans, strict=True):
        heads = [f"[end_system]\nid = {plan['end_system']['id']}\n"]
        heads += ["[[vl]]\n" + "".join(f"{key} = {json.dumps(value)}\n" for key, value in it.items()) for it in plan["vl"]]
        heads += ["[[port]]\n" + "".join(f"{key} = {json.dumps(value)}\n" for key, value in it.items()) for it in plan["port"]]
        save(name, "".join(heads))
    vl, end_system = one["vl"][at]["id"], one["end_system"]["id"]
    lines = [1 + text_in(name).split("[[port]]")[0].splitlines().index(f"id = {vl}") for name in (names[first], names[second])]
    wanted = f"2 faults of the network\n{names[second]}:2: end system {end_system} is also in {names[first]}:2\n"
    wanted += f"{names[second]}:{lines[1]}: link {vl} is also in {names[first]}:{lines[0]}\n"
    faults = []
    for words in (["check", *names], ["report", *names], ["check", *names, "--json"], ["judge", names[first], "none", *(it for k, name in enumerate(names) if k != first for it in ("--with", name))]):
        if words[0] == "judge":
            save("none", "")
        done = subprocess.run([PROGRAM, *words], capture_output=True, text=True, check=False, timeout=60)
        is_well = words[0] == "judge" and first > 0 or done.stderr == wanted
        faults += [] if (done.returncode, done.stdout) == (2, "") and is_well else [f"{words}: {done} for {wanted}"]
    return faults


def text_in(name):
    """The text of a file."""
    with open(name, encoding="utf-8") as file:
        return file.read()


def finding_line(it):
    """The beginning of the line of a finding, and what it may end with."""
    seconds, nanos = divmod(it["time_ns"], 10**9)
    link = "-" if it["link"] is None else it["link"]
    kind = it["kind"] + (f" {it['rule']}" if it["rule"] else "")
    return f"{it['packet']} {it['network']} {seconds}.{nanos:09} vl {link} {kind}"


def judge(seed):
    """What is wrong with the documents of `judge` on recordings with faults, on damaged ones, and on files that are none."""
    rng = random.Random(f"judge {seed}")
    recording = recorded(rng, rng.choice((3, 20)))
    packets = list(recording.packets)
    for _ in range(rng.choice((0, 1, 5, 200))):
        if packets:
            changed(packets, rng)
    plan, captures = save("plan.toml", text_of(recording.plan, rng)), files_of(packets, rng)
    if rng.random() < 0.3:
        captures[0] = captures[0][: rng.randrange(len(captures[0]) + 1)]
    names = []
    for k, data in enumerate(captures):
        names.append(f"capture{k}")
        with open(names[-1], "wb") as file:
            file.write(data)
    lines, read = both("judge", plan, *names, *rng.choice(([], ["--all-links"], ["--foreign"], OWN)))
    it = read["recording"]
    if not it["judged"]:
        (place,) = [row["capture"] for row in it["captures"] if lines[1].startswith(f"capture {row['capture']}: ")]
        told = next(row["told"] for row in it["captures"] if row["capture"] == place)
        return [] if lines == [it["verdict"], f"capture {place}: {told}"] and not it["whole"] else [f"{it} for {lines}"]
    shown_lines = [line for line in lines if re.match(r"\d+ [AB] \d", line)]
    faults = [f"{line} for {row}" for line, row in zip(shown_lines, it["findings"], strict=False) if not (line + ":").startswith(finding_line(row) + ":")]
    faults += [f"{line} for {row}" for line, row in zip(shown_lines, it["findings"], strict=False) for name in ("seen", "wanted") for number in re.findall(rf"{name} (\d+)", line) if int(number) != row[name]]
    faults += [] if len(shown_lines) == len(it["findings"]) else [f"{len(it['findings'])} findings for {len(shown_lines)}"]
    total = ", ".join(f"{row['kind']} {row['count']}" for row in it["kinds"])
    faults += [] if it["verdict"] in lines and it["verdict"].partition(": ")[2] == total else [f"{it['verdict']}, {total}"]
    told = [f"capture {row['capture']}: {row['told']}" for row in it["captures"]]
    faults += [] if told == [line for line in lines if line.startswith("capture ")] else [f"{told}"]
    faults += [] if all(row["told"].startswith(f"{row['packets']} packets") for row in it["captures"]) else [f"{it['captures']}"]
    networks = ", ".join(f"{row['network']} is interface {row['interface']} of capture {row['capture']}" for row in sorted(it["networks"], key=lambda row: row["network"]))
    faults += [] if not networks or f"networks: {networks}" in lines else [networks]
    own = it["addressing"]
    told = [f"addresses: constant {own['constant']}, interfaces {own['interface_a']:02x},{own['interface_b']:02x}"] if own else []
    faults += [] if told == [line for line in lines if line.startswith("addresses: ")] else [f"{own}"]
    head = next(place for place, line in enumerate(lines) if line.startswith(" link net"))
    rows = rows_of(it["plans"][0]["links"], *columns("link net frames bytes messages bag_ns least_gap_ns lead_ns greatest_gap_ns mean_gap_ns mean_lead_ns used_percent.2"))
    return faults + ([] if rows == [line.split() for line in lines[head + 1 :]] else [f"{rows} for {lines[head + 1:]}"])


def keys_of(value, path=""):
    """All keys of a document."""
    if isinstance(value, dict):
        return {key for name, it in value.items() for key in {name, *keys_of(it)}}
    return {key for it in value for key in keys_of(it)} if isinstance(value, list) else set()


def documented():
    """The keys that a document has and `docs/guide/json.md` hasn't."""
    page, faults = trying.text_of("docs/guide/json.md"), []
    plan = save("plan.toml", trying.DEMO)
    save("traffic.csv", TRAFFIC + "10,a,1000,1000\n")
    save("bad.toml", trying.DEMO.replace("bag_ms = 1", "bag_ms = 3"))
    recording = recorded(random.Random(1), 3)
    save("recorded.toml", text_of(recording.plan, random.Random(1)))
    with open("one", "wb") as file:
        file.write(files_of([it._replace(data=bytes(60)) for it in recording.packets], random.Random(1), True)[0])
    for words in (["check", plan], ["explain", "bad.toml"], ["report", plan, "--traffic", "traffic.csv"], ["judge", "recorded.toml", "one", "--foreign", *OWN]):
        told = keys_of(json.loads(ran(*words, "--json")[1]))
        part = page[page.index(f"## `{words[0]}`") :].partition("\n## ")[0] + page.partition("\n## ")[0]
        faults += [f"{words[0]}: {key} isn't on the page" for key in sorted(told) if not re.search(rf"[`.]{key}\b", part)]
    return faults


def main():
    """Runs all tests."""
    tries = trying.Tries()
    with tempfile.TemporaryDirectory() as folder:
        os.chdir(folder)
        for task, count in ((check, 60), (explain, 150), (report, 100), (network, 40), (judge, 150)):
            tries.attempt(f"{task.__name__}, {count} times", lambda task=task, count=count: ([f"{k}: {it}" for k in range(count) for it in task(k)], ""))
        tries.attempt("the keys on the page", lambda: (documented(), ""))
    return tries.end()


if __name__ == "__main__":
    sys.exit(main())
