#!/usr/bin/env python3
"""Refuses requests for memory of the built programs, and writes of the bench or its standard output.

    python3 tests/refusals.py

It runs what `rt ci` has built, the programs `afdx_bench`, and `part_calls`, which makes each call of the library that
takes memory and then those that take none, as each compiler makes them, with `tests/refuse.c` preloaded: a run for each
request for memory or for a thread, which is refused, until a run makes fewer requests. Each run has to end as is
promised, with no signal. Likewise each write of the bench fails once, and it may try no other after it. Each run has to
free all its memory, and for 10,000 messages more it makes few requests but one for each. The last line is 'N passed,
M failed', and the exit status 0 exactly if nothing failed.
"""
import errno
import os
import signal
import struct
import subprocess
import sys
import tempfile
from concurrent.futures import ThreadPoolExecutor
from itertools import pairwise

# (no compiled copy is left beside the scripts)
sys.dont_write_bytecode = True
from refusals_wanted import CLOSED, COMMANDS, FILES, WRITTEN, part_calls
from trying import ROOT, Tries, built, compiler, started

# How many runs are begun together, and after how many requests something is wrong.
BATCH = 32
LIMIT = 20_000


class Ran:
    """How a run ended, what it wrote, how many requests it made, whether one of them was refused, and how many blocks of memory
    it didn't free."""

    def __init__(self, status, out, err, requests, left, number):
        self.status, self.out, self.err = status, out, err
        self.requests, self.is_refused, self.left = requests, requests >= number, left

    def ended(self, status, out, err=""):
        return (self.status, self.out, self.err) == (status, out, err)

    def __str__(self):
        counts = f"{self.requests} requests, {self.left} blocks left"
        return f"status {self.status}, {counts}, standard output {self.out!r}, standard error {self.err!r}"


class Bench:
    """The folder in which the programs run, and what is preloaded."""

    def __init__(self, room):
        self.room, self.library = room, f"{room}/refuse.so"
        words = ["-O2", "-shared", "-fPIC", "-o", self.library, f"{ROOT}/tests/refuse.c", "-ldl"]
        subprocess.run([compiler() or "cc", *words], check=True)
        for name, text in FILES.items():
            with open(f"{room}/{name}", "w", encoding="utf-8") as file:
                file.write(text)

    def run(self, program, words, given, number, many, **more):
        """Runs a program, of which `many` requests from this number on are refused; 0: all.
        `more` has what else its environment has."""
        with tempfile.NamedTemporaryFile(dir=self.room) as count:
            count.write(bytes(16))
            count.flush()
            refuse = {"REFUSE_FROM": str(number), "REFUSE_MANY": str(many), "REFUSE_COUNT": count.name}
            # (or else the C library keeps a block of each thread that has ended)
            refuse["GLIBC_TUNABLES"] = "glibc.pthread.stack_cache_size=0"
            how = {"cwd": self.room, "env": {"LD_PRELOAD": self.library, **refuse, **more}, "input": given}
            ran = started(program, words, capture_output=True, **how)
            count.seek(0)
            requests, left = struct.unpack("=Qq", count.read(16))
        out, err = ran.stdout.decode(errors="replace"), ran.stderr.decode(errors="replace")
        return Ran(ran.returncode, out, err, requests, left, number)


def sweep(bench, program, case):
    """A run for each request, until one makes fewer than were to be. The runs, in order."""
    with ThreadPoolExecutor(len(os.sched_getaffinity(0))) as pool:
        for first in range(1, LIMIT, BATCH):
            numbers = range(first, first + BATCH)
            for ran in [*pool.map(lambda it: bench.run(program, case.words, case.given, it, case.many), numbers)]:
                yield ran
                if not ran.is_refused:
                    return
    raise RuntimeError(f"over {LIMIT} requests")


def tried_case(bench, program, case):
    """Sweeps through a case: why its runs aren't what it promises, and how many ended in each way."""
    faults, ways = [], {}
    for number, ran in enumerate(sweep(bench, program, case), 1):
        way = case.way(ran)
        # (a storm that has no memory ends before its threads do)
        if way is None or (ran.left and (way, case.words[:1]) != ("out of memory", ["storm"])):
            faults.append(f"request {number} refused: {ran}")
        ways[way] = ways.get(way, 0) + 1
    if not ran.requests:
        faults.append("no request was made")
    if case.way(ran) != "answered":
        faults.append(f"no run without a refusal has the answer: {ran}")
    faults += [f"no run ended so: {way}" for way in case.ways if way not in ways]
    return faults, ", ".join(f"{count} {way}" for way, count in ways.items() if way)


def tried_closed(bench, program, words):
    """A command whose standard output is a pipe without a reader ends with its failure, and no signal."""
    reader, writer = os.pipe()
    os.close(reader)
    # (a write to a closed pipe ends a program, as a shell starts it, unless it says otherwise)
    how = {"stderr": subprocess.PIPE, "preexec_fn": lambda: signal.signal(signal.SIGPIPE, signal.SIG_DFL)}
    try:
        ran = started(program, words, cwd=bench.room, env={}, stdin=subprocess.DEVNULL, stdout=writer, **how)
    finally:
        os.close(writer)
    is_well = (ran.returncode, ran.stderr) == (4, b"write failed\n")
    return [] if is_well else [f"status {ran.returncode}, standard error {ran.stderr!r}"], ""


def tried_writes(bench, program, words):
    """Runs of a command, in each of which one write fails: it tries no write after that, and names the file that it
    writes then."""
    files = [file for word, file in pairwise(words) if word in ("--html", "--csv", "--capture")]
    why = f"{os.strerror(errno.ENOSPC)} (os error {errno.ENOSPC})"
    ends = {"write failed\n", *(f"write failed\n{file}: {why}\n" for file in files)}
    faults, ended = [], set()
    for number in range(1, LIMIT):
        ran = bench.run(program, words, b"", number, 1, REFUSE_WRITES="1")
        if not ran.is_refused:
            faults += [] if ran.status == 0 and not ran.err and not ran.left else [f"no write was refused: {ran}"]
            faults += [f"no run ended so: {end}" for end in ends - ended]
            return faults if number > 1 else ["nothing was written"], f"{number - 1} refused"
        ended.add(ran.err)
        if (ran.requests, ran.status, ran.left) != (number, 4, 0) or ran.err not in ends:
            faults.append(f"write {number} refused: {ran}")
    raise RuntimeError(f"over {LIMIT} writes")


def tried_growth(bench, program):
    """A run of 10,000 messages more makes a request for each, which is for the line's message, a storm none, and both few for
    lists of frames, which grow by doubling."""
    def ran(count):
        script = "".join(f"send 10 01\nat {1000 * place}\n" for place in range(count))
        storm = ["storm", "plan.toml", "--messages", str(count), "--turns", "1000000000"]
        return [bench.run(program, words, given, 0, 0) for words, given in (([], script.encode()), (storm, b""))]

    pairs = [*zip(ran(10_000), ran(20_000))]
    more = [twice.requests - once.requests - lines for (once, twice), lines in zip(pairs, (10_000, 0))]
    is_well = all(0 <= it <= 8 for it in more) and not any(ran.status for pair in pairs for ran in pair)
    return [] if is_well else [f"requests for lists: {more}, {[ran.err for pair in pairs for ran in pair]}"], ""


def main():
    tries = Tries()
    with tempfile.TemporaryDirectory(prefix="refusals-") as room:
        bench = Bench(room)
        for build, program in built("part_calls").items():
            tries.attempt(f"part_calls by {build}", lambda: tried_case(bench, program, part_calls()))
        for build, program in built("afdx_bench").items():
            for case in COMMANDS:
                tries.attempt(f"{case.name} by {build}", lambda: tried_case(bench, program, case))
        for build, program in built("afdx_bench").items():
            tries.attempt(f"10,000 messages more by {build}", lambda: tried_growth(bench, program))
            for words in CLOSED:
                tries.attempt(f"{' '.join(words)} into a closed pipe by {build}", lambda: tried_closed(bench, program, words))
            for words in WRITTEN:
                tries.attempt(f"writes of {' '.join(words)} by {build}", lambda: tried_writes(bench, program, words))
    return tries.end()


if __name__ == "__main__":
    sys.exit(main())
