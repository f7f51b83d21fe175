#!/usr/bin/env python3
"""Tests `afdx_bench run` from outside: what it prints and how it ends.

    python3 tests/run/test_run.py [RUNS]

It runs what `rt ci` has built. `rows.py` has scripts with fixed transcripts, `model.py` computes the transcript of any: of all
scripts of one to five lines out of five, and of RUNS random ones over random plans, 400 by default. Each must be the
program's, byte by byte, and the model is held to the fixed ones too. The last line is 'N passed, M failed'.
"""
import itertools
import os
import random
import re
import subprocess
import sys
import tempfile
import threading
import tomllib
from collections.abc import Callable, Iterable, Iterator
from concurrent.futures import ThreadPoolExecutor

HERE = os.path.dirname(os.path.abspath(__file__))
ROOT = os.path.dirname(os.path.dirname(HERE))
PROGRAM = f"{ROOT}/crates/afdx_bench/out/afdx_bench"
sys.dont_write_bytecode = True
sys.path[:0] = [f"{ROOT}/tests", HERE, f"{ROOT}/tests/explain"]
import model  # noqa: E402
import rows  # noqa: E402
import trying  # noqa: E402
from planting import plan_of, text_of  # noqa: E402
from rows import Row  # noqa: E402


def ran(plan: str, script: bytes) -> model.Ended:
    """Runs the program on a plan and a script, in files of this thread's own."""
    names = [f"{kind}-{threading.get_ident()}" for kind in ("plan", "script")]
    for name, text in zip(names, (plan.encode(), script), strict=True):
        with open(name, "wb") as file:
            file.write(text)
    done = subprocess.run([PROGRAM, "run", *names], capture_output=True, check=False, timeout=60)
    return done.returncode, done.stdout.decode(), done.stderr.decode()


def differences(name: str, plan: str, script: bytes, told: model.Ended, wanted: model.Ended) -> list[str]:
    """What is wrong with a run: its end, or the first line that it doesn't print as it has to."""
    if told == wanted:
        return []
    pairs = itertools.zip_longest(told[1].splitlines(), wanted[1].splitlines())
    line = next((f"\n    {is_}\nfor {to_be}" for is_, to_be in pairs if is_ != to_be), "")
    ends = f"{told[0]}, {told[2]!r} for {wanted[0]}, {wanted[2]!r}"
    return [f"{name}: {ends}{line}\nof the script\n{script[:500].decode(errors='replace')}\nover the plan\n{plan[:900]}"]


def closes(plan: str) -> bytes:
    """Lines that close all sub-VLs."""
    return "".join(f"\nclose {vl['id']} {sub}" for vl in tomllib.loads(plan)["vl"] for sub in range(vl["sub_vls"])).encode()


def row_faults(row: Row) -> list[str]:
    """What is wrong with the program's run of a row, or the model's."""
    name, plan, script, *wanted, accepted = row
    told = [("the program", ran(plan, script)), ("the model", model.run(plan, script))]
    faults = [fault for who, ended in told for fault in differences(f"{who}, {name}", plan, script, ended, tuple(wanted))]
    if accepted is not None:
        more = closes(plan)
        totals = re.findall(r"(?m)^line \d+: closed (\d+)$", ran(plan, script + more)[1])[-more.count(b"\n") :]
        faults += [] if sum(map(int, totals)) == accepted else [f"{name}: accepted {totals} for {accepted}"]
    return faults


def model_faults(run: tuple[str, str, bytes]) -> list[str]:
    """What is wrong with a run, by its name, its plan and its script, that the model has too."""
    _, plan, script = run
    return differences(*run, ran(plan, script), model.run(plan, script))


def all_faults(tried: Callable[..., list[str]], runs: Iterable[tuple]) -> list[str]:
    """What is wrong with runs."""
    with ThreadPoolExecutor(len(os.sched_getaffinity(0))) as pool:
        return [fault for found in pool.map(tried, runs) for fault in found]


def every_script() -> Iterator[tuple[str, str, bytes]]:
    """All 3,905 scripts of one to five lines out of five, over a link of two sub-VLs. Closes at their ends print what was
    accepted."""
    some, end = (b"send 20 01", b"send 21 02", b"at 0", b"at 1000", b"close 1 0"), closes(rows.IN_TURN)
    for count in range(1, 6):
        for lines in itertools.product(some, repeat=count):
            yield "a short script", rows.IN_TURN, b"\n".join(lines) + end


def random_plan(rng: random.Random) -> model.Table:
    """A plan whose links are on each choice of networks, and whose ports have each choice of address and checksum."""
    ids = rng.sample((0, 1, 255, 256, 65535, *rng.sample(range(2, 255), 4)), rng.randint(1, 4))
    vl = [{"id": k, "bag_ms": rng.choice((1, 2, 4)), "lmax": rng.choice((64, 65, 71, 72, 73, 100, 301, 1518))} for k in ids]
    vl = [link | {"sub_vls": rng.randint(1, 4), "capacity": rng.randint(1, 3)} for link in vl]
    port = []
    for k, number in enumerate(rng.sample(range(65536), rng.randint(1, 9))):
        link, sampling = rng.choice(vl), rng.random() < 0.3
        size = link["lmax"] - 47 if sampling else rng.choice((1, 2, 17, 18, 41, 300, 2000, 8192))
        port.append({"id": number, "vl": link["id"], "sub": rng.randrange(link["sub_vls"]), "partition": rng.randrange(32)})
        port[k] |= {"kind": "sampling" if sampling else "queuing", "source": 1 + 6000 * k, "destination": rng.randint(1, 65535)}
        port[k] |= {"max": size} | ({"dest_ip": f"10.{rng.randrange(256)}.{k}.{rng.randrange(256)}"} if rng.random() < 0.3 else {})
    for table, key, words in [(t, "networks", ("both", "a", "b")) for t in vl] + [(t, "checksum", ("none", "udp", "udp")) for t in port]:
        table |= {key: rng.choice(words)} if rng.random() < 0.8 else {}
    return {"version": 2, "end_system": {"id": rng.choice((0, 1, 0x1234, 65535))}, "vl": vl, "port": port}


def random_line(rng: random.Random, plan: model.Table, now: int) -> str:
    """A line that polls, sends or closes; now and then one that is refused or has no effect. `now` is the time of a poll."""
    port, vl, turn = rng.choice(plan["port"]), rng.choice(plan["vl"]), rng.randrange(60)
    few = {
        0: f"close {vl['id']} {rng.randrange(vl['sub_vls'])}",
        1: f"close {rng.choice((vl['id'], 77))} {rng.choice((vl['sub_vls'], 255))}",
        2: f"send {rng.randrange(65536)} 0b",
        3: f"at {max(now - rng.choice((0, 1, 1000)), 0)}",
        4: rng.choice(("", " \t ", "# at 5", "\t#send 1 2")),
    }
    if turn not in few and rng.random() < 0.5:
        size = rng.choice((port["max"], port["max"], rng.randint(0, port["max"] + 1), min(port["max"], rng.randint(1, 60))))
        word = rng.randbytes(size).hex() or "-"
        return f"send {port['id']:0{rng.randint(1, 8)}} {word.upper() if rng.random() < 0.1 else word}"
    return few.get(turn, f"at {now}")


def random_runs(count: int) -> Iterator[tuple[str, str, bytes]]:
    """Random scripts over random plans. Some begin shortly before the last time, and some have a fault."""
    faulty = [line for texts in rows.FAULTY.values() for line in texts.split(",")]
    for seed in range(count):
        rng = random.Random(seed)
        plan, now, lines = random_plan(rng), rng.choice((0, 0, 1, 10**6, rows.LAST_TIME - 40_000)), []
        for _ in range(rng.randint(10, 250)):
            line = random_line(rng, plan, min(now, rows.LAST_TIME))
            now += rng.choice((0, 1, 500, 999, 1000, 1001, 3999)) if line.startswith("at") else 0
            lines.append(line)
        text = text_of(plan, rng)
        lines += [rng.choice(faulty), "at 5"] if rng.random() < 0.2 else closes(text).decode().split("\n")
        end = rng.choice(("\n", "\r\n"))
        yield f"run {seed}", text, end.join([*lines, ""]).encode()


def checksums() -> Iterator[tuple[str, str, bytes]]:
    """Messages of each length up to 1,474 bytes, over frames of 64 bytes and of 1,518 bytes, each message of two bytes, and
    messages of up to 8,192 bytes in rooms that had others."""
    text, rng = rows.plan_of([(1, 64, 1, 2), (2, 1518, 1, 2)], [(10, 1, 0), (20, 2, 0)]), random.Random("checksums")
    for kind in ("udp", "none"):
        plan = "version = 2\n" + text.replace("max = 8192", f"max = 8192\nchecksum = '{kind}'")
        for first in range(1, 1475, 67):
            now, lines = 0, []
            for size in range(first, first + 67):
                lines += [f"send {port} {rng.randbytes(size).hex()}" for port in (10, 20)]
                # (a frame of 64 bytes carries 24 bytes of a datagram, and the last one up to 25)
                polls = max(1, -(-(size + 8 - 25) // 24) + 1)
                lines += [f"at {now + 1000 * k}" for k in range(polls)]
                now += 1000 * polls
            yield f"{first} to {first + 66} bytes, {kind}", plan, "\n".join(lines).encode()
    plan = "version = 2\n" + text.replace("max = 8192", "max = 8192\nchecksum = 'udp'")
    for first in range(0, 65_536, 4096):
        lines = (f"send 20 {first + k:04x}\nat {1000 * k}\n" for k in range(4096))
        yield f"two bytes from {first:04x} on", plan, "".join(lines).encode()
    # (two ports, of which one has checksums, in the rooms of one queue)
    text = rows.plan_of([(2, 1518, 1, 2)], [(10, 2, 0), (11, 2, 0)])
    text = text.replace("partition = 1", "partition = 2", 1).replace("max = 8192", "max = 8192\nchecksum = 'udp'", 1)
    plan, lines = "version = 2\n" + text, []
    for k in range(400):
        size = rng.randint(1, 40 if k % 3 else 8192)
        message = rng.choice((rng.randbytes(size), b"\xff" * size, bytes(size)))
        lines += [f"send {rng.choice((10, 11))} {message.hex()}", *(f"at {6000 * k + 1000 * p}" for p in range(6))]
    yield "long and short messages, with and without", plan, "\n".join(lines).encode()


def table_faults(plan: model.Table, rng: random.Random) -> list[str]:
    """What is wrong with the table of a plan, as bytes and in a file of C, and with the ends of both commands."""
    with open("table.toml", "w", encoding="utf-8") as file:
        file.write(text_of(plan, rng))
    wanted = model.table_of(plan)
    told = [subprocess.run([PROGRAM, "compile", "table.toml", *more], capture_output=True, check=False) for more in ([], ["--c", "table.c"])]
    with open("table.c", encoding="ascii") as file:
        source = file.read()
    listed = bytes(int(number, 16) for number in re.findall(r"0x([0-9a-f]{2}),", source))
    ends = [(it.returncode, it.stdout, it.stderr) for it in told]
    is_well = ends == [(0, wanted, b""), (0, b"", b"")] and listed == wanted and "const uint8_t afdx_plan_table[] = {\n" in source
    return [] if is_well else [f"{ends}\n{source[:500]}\nfor {wanted.hex()}"]


def tables() -> list[str]:
    """What is wrong with the tables of 40 random plans and of one with the most links and ports."""
    rng = random.Random("tables")
    plans = [*(random_plan(rng) for _ in range(40)), plan_of(rng, 64, 256, 2)]
    return [fault for plan in plans for fault in table_faults(plan, rng)]


def main() -> int:
    """Runs all tests."""
    count = int(sys.argv[1]) if sys.argv[1:] else 400
    fixed = {
        "scripts without notes": rows.basics(),
        "refused lines": rows.refusals(),
        "closes": rows.closing(),
        "addresses and checksums": rows.datagrams(),
        "messages of one frame and of two": rows.long_messages(),
        "messages over frames of 64 bytes": rows.cuts(),
        "as many messages as identifications": rows.identifications(),
        "links on both networks and on one": rows.networks(),
        "sub-VLs in turn": rows.turns(),
        "the guide": rows.guide(),
        "the greatest plan": rows.greatest(),
        "lines with faults": rows.line_faults(),
        "what is printed before a fault": rows.written_before(),
        "prefixes of a script": rows.prefixes(),
    }
    tries = trying.Tries()
    with tempfile.TemporaryDirectory() as folder:
        os.chdir(folder)
        for name, some in fixed.items():
            tries.attempt(name, lambda some=some: (all_faults(row_faults, some), ""))
        tries.attempt("each script of one to five lines", lambda: (all_faults(model_faults, every_script()), ""))
        tries.attempt(f"{count} random scripts over random plans", lambda: (all_faults(model_faults, random_runs(count)), ""))
        tries.attempt("messages of each length, and of each two bytes", lambda: (all_faults(model_faults, checksums()), ""))
        tries.attempt("tables of 40 random plans and of one with the most links", lambda: (tables(), ""))
    return tries.end()


if __name__ == "__main__":
    sys.exit(main())
