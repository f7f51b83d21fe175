"""Runs `afdx_bench judge` on plans and captures, beside the model of `verdict.py`."""
import itertools
import os
import random
import subprocess
from collections.abc import Callable, Iterable, Sequence
from concurrent.futures import ProcessPoolExecutor

import breaking
import trying
import verdict
from captures import PLAIN, Packet, random_form, written
from recordings import MICRO
from verdict import Options, Ways

PROGRAM = f"{trying.ROOT}/crates/afdx_bench/out/afdx_bench"
Verdict = tuple[int, str, str]


def run_judge(
    plan: str, captures: list[bytes], options: Options, is_piped: bool = False, more: Sequence[str] = (), ways: Ways = Ways()
) -> Verdict:
    """Runs the program on plans and captures, in files of this process's own. Returns its status and what it prints."""
    others = [f"{os.getpid()}-with-{place}" for place in range(len(ways.plans))]
    for name, text in zip(others, ways.plans, strict=True):
        with open(name, "w", encoding="utf-8") as file:
            file.write(text)
    names = [f"{os.getpid()}-{kind}" for kind in ("plan", *range(len(captures)))]
    for name, data in zip(names, (plan.encode(), *captures), strict=True):
        with open(name, "wb") as file:
            file.write(data)
    how = {"input": captures[0]} if is_piped else {"stdin": subprocess.DEVNULL}
    words = [PROGRAM, "judge", names[0], *(["-"] if is_piped else names[1:]), *options.words(), *ways.words(others), *more]
    done = subprocess.run(words, capture_output=True, check=False, timeout=60, **how)
    return done.returncode, done.stdout.decode(), done.stderr.decode()


def faults_of(
    name: str, plan: str, captures: list[bytes], options: Options, wanted: list | None = None, is_piped: bool = False, ways: Ways = Ways()
) -> list[str]:
    """What is wrong with a verdict, beside the model's; and with the findings, if some are wanted: kind, rule, number of the
    packet and network."""
    status, out, found = verdict.judged(plan, captures, options, is_piped, ways)
    told, faults = run_judge(plan, captures, options, is_piped, ways=ways), []
    if told != (status, out, ""):
        pairs = itertools.zip_longest(told[1].splitlines(), out.splitlines())
        line = next((f"\n    {is_}\nfor {to_be}" for is_, to_be in pairs if is_ != to_be), "")
        faults.append(f"{name}, {options}: {told[0]}, {told[2]!r} for {status}{line}\nover the plan\n{plan[:900]}")
    findings = [(it.kind, it.rule, it.packet, it.network) for it in found]
    if wanted is not None and findings != wanted:
        faults.append(f"{name}: {findings[:5]} for {wanted}")
    return faults


def tried(task: Callable[..., list[str]], cases: Iterable) -> list[str]:
    """What is wrong in cases, which other processes try."""
    with ProcessPoolExecutor(len(os.sched_getaffinity(0))) as pool:
        return [fault for found in pool.map(task, cases, chunksize=8) for fault in found]


def files_of(packets: list[Packet], rng: random.Random, plain: bool = False) -> list[bytes]:
    """Packets as one capture or as two."""
    if plain:
        return [written(packets, PLAIN, rng)]
    if rng.random() < 0.6:
        return [written(packets, random_form(rng, 2), rng)]
    return [written([it for it in packets if it.network == net], random_form(rng, 1), rng, net) for net in "AB"]


def changed(packets: list[Packet], rng: random.Random) -> None:
    """Changes packets in one way."""
    at = rng.randrange(len(packets))
    it, turn = packets[at], rng.randrange(9)
    if turn == 0:
        del packets[at]
    elif turn == 1:
        packets.insert(rng.randrange(len(packets)), it)
    elif turn == 2:
        other = rng.randrange(len(packets))
        packets[at], packets[other] = packets[other], it
    elif turn == 3:
        packets[at] = it._replace(at=max(0, it.at + MICRO * rng.choice((-20_000, -999, -1, 1, 999, 20_000))))
    elif turn == 4:
        packets[at] = it._replace(network="B" if it.network == "A" else "A")
    elif turn == 5:
        packets[at] = it._replace(data=it.data[: rng.randrange(len(it.data) + 1)])
    elif turn == 6 and it.data:
        packets[at] = breaking.moved(it, it.data[:-1] + bytes([(it.data[-1] + rng.choice((1, 254, 256 - it.data[-1]))) % 256]))
    elif it.data:
        place = rng.choice((rng.randrange(len(it.data)), rng.randrange(min(len(it.data), 48))))
        data = breaking.put(it.data, place, bytes([it.data[place] ^ 1 << rng.randrange(8)]))
        packets[at] = breaking.moved(it, breaking.summed(data) if turn == 7 and len(data) > 34 else data)
