#!/usr/bin/env python3
"""Tests bindings/afdx and the test bench as `install/install.sh` installs them into a folder of their own. The last
line is 'N passed, M failed' or 'N passed, M failed, K skipped'."""
import os
import re
import resource
import shutil
import struct
import subprocess
import sys
import tempfile
import threading
import time
import tomllib
import zlib
from collections.abc import Iterator
from contextlib import contextmanager, suppress
from pathlib import Path
from unittest import SkipTest

sys.dont_write_bytecode = True
from trying import DEMO, ROOT, Tries, check, text_of

PREFIX = tempfile.TemporaryDirectory(prefix="afdx-python-")
PYTHON = f"{PREFIX.name}/lib/python"

os.environ.pop("AFDX_LIBRARY", None)
subprocess.run(["bash", f"{ROOT}/install/install.sh", "--built", PREFIX.name], check=True)
sys.path[:0] = [PYTHON, f"{ROOT}/tests/judge", f"{ROOT}/tests/run"]
import afdx
from afdx import A, B, EndSystem

SECOND = DEMO[DEMO.index("[[port]]") :].replace("id = 10", "id = 11").replace("1000", "1001")


# Two ports of a second virtual link, with one unicast address in one partition as the first has.
LINK = DEMO[DEMO.index("[[vl]]") : DEMO.index("[[port]]")]
SHARED = DEMO + LINK.replace("id = 1", "id = 2") + SECOND.replace("vl = 1", "vl = 2")
SHARED = SHARED.replace("max = 8192", 'max = 8192\ndest_ip = "10.0.0.1"')
# The greatest plan: opening it takes more memory than the process has free.
GREAT = "[end_system]\nid = 1\n" + "".join(
    LINK.replace("id = 1", f"id = {k}").replace("= 1518\nsub_vls = 1", "= 1518\nsub_vls = 4").replace("capacity = 2", "capacity = 256")
    for k in range(64)
) + DEMO[DEMO.index("[[port]]") :]
RAISED: set[str] = set()


def raises(error: type[Exception], call, *words) -> str:
    """The text of the error that a call has to raise. One of the library's begins with the sentence of its class."""
    try:
        call(*words)
    except error as raised:
        RAISED.add(type(raised).__name__)
        if isinstance(raised, afdx.AfdxError):
            check(str(raised).startswith(f"{type(raised).__doc__}"), raised)
        return str(raised)
    raise AssertionError(f"{call} didn't raise {error.__name__}")


@contextmanager
def no_more_memory() -> Iterator[None]:
    """Limits the memory of the process to what it has."""
    soft, hard = resource.getrlimit(resource.RLIMIT_AS)
    with open("/proc/self/statm", encoding="ascii") as file:
        resource.setrlimit(resource.RLIMIT_AS, (int(file.read().split()[0]) * resource.getpagesize(), hard))
    try:
        yield
    finally:
        resource.setrlimit(resource.RLIMIT_AS, (soft, hard))


def first_message() -> None:
    """The frames of the demonstration message are those of the stored run of the program."""
    with EndSystem(DEMO) as it, it.port(10) as port:
        port.send(b"\x01")
        lines = [f"{'AB'[network]} 0 {frame.hex()}\n" for network, frame in it.poll(0)]
        check("".join(lines) == text_of("crates/afdx_bench/stdout"), lines)
        check(port.accepted == 1 and it.counts(1) == (1, 60, 1, 0))


def names() -> None:
    """Each answer of the header has an exception with its name and number."""
    header = re.sub(r"/\*.*?\*/", "", text_of("crates/afdx/afdx.h"), flags=re.DOTALL)
    errors = [afdx.TABLE_ERRORS, afdx.SEND_ERRORS, afdx.POLL_ERRORS, afdx.JUDGE_ERRORS, afdx.MISUSES]
    found = {error.__name__: number for table in errors for number, error in table.items()}
    wanted = {}
    for name, number in re.findall(r"\bAFDX_(\w+) = (\d+)", header):
        is_other = name.startswith(("LINE_", "SAYS_"))
        if not is_other and name not in ("OK", "A", "B", "A_STANDS", "B_STANDS", "GREATEST_FRAME", "MOST_FRAMES"):
            words = name.removeprefix("CONFIG_").split("_")
            wanted["OutOfMemory" if name == "MEMORY" else "".join(it.capitalize() for it in words)] = int(number)
    check(found == wanted, set(found.items()) ^ set(wanted.items()))


def configurations() -> None:
    """Each fault of a configuration is raised."""
    for old, new, error in [
        ("[", "", afdx.Toml), ("[end_system]\nid = 1", "", afdx.MissingKey), ("lmax", "more = 1\nlmax", afdx.UnknownKey),
        ("1518", '"1518"', afdx.WrongKind), ("1518", "63", afdx.OutOfRange), ("bag_ms = 1", "bag_ms = 3", afdx.BadBag),
        ("vl = 1", "vl = 9", afdx.NoSuchVl), ("sub = 0", "sub = 1", afdx.NoSuchSub), ("queuing", "sampling", afdx.SamplingTooLong),
        ("id = 11", "id = 10", afdx.DuplicatePort), ("1001", "1000", afdx.SameFlow), ("[[port]]", LINK + "[[port]]", afdx.DuplicateVl),
        ("[[port]]", "".join(LINK.replace("id = 1", f"id = {k}") for k in range(2, 66)) + "[[port]]", afdx.Limit),
    ]:
        text = (DEMO + SECOND).replace(old, new, 1)
        told = raises(error, EndSystem, text)
        check(told == f"{error.__doc__}\n{afdx.explain(text)}".rstrip("\n") and f"\n{error.number} {error.__name__}: " in told, told)
    raises(afdx.SharedUnicast, EndSystem, SHARED)
    check(afdx.explain(DEMO) == "no faults\n")
    wanted = "1 fault\n5 OutOfRange: vl 1 (id 1), lmax is 63: 64 to 1518\n"
    check(afdx.explain(DEMO.replace("1518", "63")) == wanted)
    lines = afdx.explain("".join(f"k{k} = 1\n" for k in range(1002)) + DEMO).splitlines()
    check((len(lines), lines[0], lines[-1]) == (1002, "1002 faults", "and 2 more"))
    with tempfile.TemporaryDirectory() as room:
        plan = Path(room, "plan.toml")
        raises(FileNotFoundError, EndSystem, plan)
        plan.write_text(DEMO, encoding="utf-8")
        with EndSystem(plan) as it:
            check(it.ports == [10] and afdx.explain(plan) == "no faults\n")
    with no_more_memory():
        check(raises(afdx.OutOfMemory, EndSystem, GREAT) == "An allocation failed.")


def tables() -> None:
    """A table is opened as its plan; each fault of a table is raised, and that of its plan."""
    import model
    table = model.table_of(tomllib.loads(DEMO) | {"version": 2})
    check(afdx.memory(table) == 207953 + 304 + 424 + 312 + 40 * 2 + (2 + 1 + 1) * 8192)
    raises(afdx.NoTable, afdx.memory, b"")
    with EndSystem.of_table(table) as it, EndSystem(DEMO) as other:
        for end in (it, other):
            end.port(10).send(b"\x01")
        check(it.poll(0) == other.poll(0) and it.frames(0) == other.frames(0) != [])
    checked = lambda data: data + zlib.crc32(data).to_bytes(4, "big")
    for wrong, error in [
        (b"", afdx.NoTable), (b"afdxplan" + table[8:], afdx.NoTable), (table[:9] + b"\2" + table[10:], afdx.OtherLayout),
        (table + b"\0", afdx.WrongLength), (table[:-1], afdx.WrongLength), (table[:-1] + bytes([table[-1] ^ 1]), afdx.WrongSum),
        (checked(table[:18] + b"\0\3" + table[20:-4]), afdx.WrongValue), (checked(table[:30] + b"\0\2" + table[32:-4]), afdx.NoSuchVl),
    ]:
        raises(error, EndSystem.of_table, wrong)


def answers() -> None:
    """Each other answer is raised, but for the one that takes 2^40 sends."""
    it, other = EndSystem(DEMO + SECOND), EndSystem(DEMO)
    raises(afdx.Held, it.__init__, DEMO)
    port = it.port(10)
    raises(afdx.Held, port.__init__, it, 11)
    raises(afdx.Empty, port.send, b"")
    raises(afdx.TooLong, port.send, bytes(8193))
    port.send(b"1")
    port.send(b"2")
    raises(afdx.Full, port.send, b"3")
    raises(afdx.NoPort, it.port, 10)
    raises(afdx.NoPort, it.port, 12)
    raises(afdx.NoPort, other.give_back, port)
    raises(afdx.WrongHandle, it.give_back, other)
    raises(afdx.NoSub, it.close, 1, 1)
    raises(afdx.NoLink, it.counts, 2)
    for call, words in ((it.fail, (2,)), (it.frames, (2,)), (it.release, (2, 0))):
        raises(afdx.NoNetwork, call, *words)
    check(it.close(1, 0) == 2)
    raises(afdx.Closed, port.send, b"3")
    raises(afdx.NotGathered, lambda: it.is_done)
    raises(afdx.PortMissing, it.gather)
    (frame,) = it.poll(5).a
    raises(afdx.TimeBack, it.poll, 4)
    check(it.frame(A, 0) == it.frame(A, 0, 60) == frame)
    raises(afdx.SmallBuffer, it.frame, A, 0, 59)
    raises(afdx.NoFrame, it.frame, B, 1)
    raises(afdx.NoFrame, it.release, B, 1)
    check(it.release(B, 0) == afdx.Released(1, 0, 0) and it.release(A, 0).number == frame[-1])
    for call, words in ((it.port, (65546,)), (it.poll, (-1,)), (it.fail, (256,)), (it.close, (1, 256)), (it.counts, (-1,))):
        raises(OverflowError, call, *words)
    port.give_back()
    raises(afdx.NotHeld, port.send, b"3")
    it.gather()
    raises(afdx.Gathered, it.port, 10)
    check(not it.is_done)
    it.fail(A)
    it.fail(B)
    check(not it.poll(1005).a_is_up)
    raises(afdx.BothDown, it.poll, 2005)
    it.free()
    raises(afdx.NotHeld, it.poll, 3005)


def judging() -> None:
    """`judge` finds what the model of `afdx_bench judge` finds, and prints it so; it says what can't be judged."""
    import calls
    for case in calls.cases(4):
        found, captured = [], []
        try:
            found = afdx.judge(case.plan, *case.captures, **case.words())
        except afdx.BadCapture as error:
            found, captured = error.findings, str(error).splitlines()[1:]
        check([f"{it}\n" for it in found] == [it.line() for it in case.found], case.name)
        check(captured == [re.sub(r", \d+ of other interfaces", "", line) for line in case.captured], case.name)
    frames: dict[int, list[tuple[int, bytes]]] = {A: [], B: []}
    with EndSystem(DEMO) as it, it.port(10) as port:
        for at in range(3):
            port.send(b"1")
            sent = it.poll(1000 * at)
            for network, each in ((A, sent.a), (B, sent.b)):
                frames[network] += [(at, frame) for frame in each]
    header = struct.pack("<IHHIIII", 0xA1B2C3D4, 2, 4, 0, 0, 65535, 1)
    # (network A's first frame, its three a second apart, and B's without the second)
    sent, on_a, on_b = (header + b"".join(struct.pack("<IIII", at, 0, len(it), len(it)) + it for at, it in rows)
                        for rows in (frames[A][:1], frames[A], frames[B][::2]))
    with tempfile.TemporaryDirectory() as room:
        for name, data in (("plan", DEMO.encode()), ("capture", sent)):
            Path(room, name).write_bytes(data)
        check(afdx.judge(Path(room, "plan"), Path(room, "capture")) == afdx.judge(bytearray(DEMO.encode()), memoryview(sent)) == [])
        raises(FileNotFoundError, afdx.judge, DEMO, Path(room, "none"))
    found = afdx.judge(DEMO, on_a, on_b)
    check(found == [("Missing", "", 2, A, 10**9, 1, 1, 0), ("Number", "", 2, B, 2 * 10**9, 1, 2, 1)], found)
    check([f"{it}" for it in found] == ["2 A 1.000000000 vl 1 Missing: seen 1", "2 B 2.000000000 vl 1 Number: seen 2, wanted 1"])
    lossy(on_a)
    told = raises(afdx.Toml, afdx.judge, "[", sent)
    check(told == f"{afdx.Toml.__doc__}\n{afdx.explain('[')}".rstrip("\n"), told)
    check(raises(afdx.BadCapture, afdx.judge, DEMO, sent, b"").endswith("\ncapture 1: 1 packets\ncapture 2: 0 packets, cut off at byte 0"))
    for wrong in ({"jitter": -1}, {"skew": 1 << 64}):
        raises(OverflowError, lambda wrong=wrong: afdx.judge(DEMO, sent, **wrong))
    raises(TypeError, afdx.judge, DEMO, "capture.pcap")
    many = header + bytes(16) * 4_000_000
    with no_more_memory():
        raises(afdx.OutOfMemory, afdx.judge, DEMO, many)
        raises(afdx.OutOfMemory, afdx.lost, many)


def lossy(whole: bytes) -> None:
    """A recording whose recorder lost packets isn't judged as if it were whole, on whichever network that was."""
    import losses
    check(afdx.lost(whole) == 0)
    for name, data, count in losses.all_examples():
        check(afdx.lost(data) == count, name)
        for captures in ((data,), (data, whole), (whole, data)):
            if count:
                line = raises(afdx.LostPackets, afdx.judge, DEMO, *captures).splitlines()[1 + captures.index(data)]
                check(line.endswith(f" packets, {count} lost by the recorder"), f"{name}: {line}")
            else:
                afdx.judge(DEMO, *captures)
    cut = losses.all_examples()[3][1] + b"\n"
    told = raises(afdx.BadCapture, afdx.judge, DEMO, cut)
    check(told.startswith(f"{afdx.BadCapture.__doc__}") and afdx.lost(cut) == 16, told)
    check(told.endswith(f", 16 lost by the recorder, cut off at byte {len(cut) - 1}"), told)


def bytes_like() -> None:
    """Texts and messages are any bytes-like objects; what is none is refused and changes nothing."""
    message = bytes(range(100))
    alike = [message, bytearray(message), memoryview(message), memoryview(message * 2)[:100], memoryview(message).cast("I"),
             memoryview(bytes(it for byte in message for it in (byte, 0)))[::2]]
    for text in (DEMO.encode(), bytearray(DEMO.encode()), memoryview(DEMO.encode())):
        check(afdx.explain(text) == "no faults\n")
        with EndSystem(text) as it, it.port(10) as port:
            for k, data in enumerate(alike):
                port.send(data)
                (frame,) = it.poll(1000 * k).a
                check(frame[42:142] == message, data)
            for wrong in ("text", 5, None, [1, 2]):
                raises(TypeError, port.send, wrong)
                raises(TypeError, port.try_send, wrong)
            check(port.accepted == len(alike))
    for wrong in (5, None, [1, 2]):
        raises(TypeError, EndSystem, wrong)


def tries() -> None:
    """`try_send` returns whether there was room, and raises what isn't about room."""
    with EndSystem(DEMO) as it, it.port(10) as port:
        check([port.try_send(b"1") for _ in range(4)] == [True, True, False, False] and port.accepted == 2)
        it.poll(0)
        check(port.try_send(bytearray(b"2")) is True and port.try_send(b"3") is False)
        raises(afdx.Empty, port.try_send, b"")
        raises(afdx.TooLong, port.try_send, bytes(8193))
        it.close(1, 0)
        raises(afdx.Closed, port.try_send, b"4")
        check(port.accepted == 3)


def no_memory() -> None:
    """A send needs none: a queue takes as many messages of 8,192 bytes as it has places when none is left."""
    check(afdx.OutOfMemory not in {*afdx.SEND_ERRORS.values(), *afdx.POLL_ERRORS.values()})
    with EndSystem(DEMO.replace("capacity = 2", "capacity = 256")) as it, it.port(10) as port:
        message = bytes(8192)
        with no_more_memory():
            sent = [port.try_send(message) for _ in range(257)]
        check(sent == [True] * 256 + [False] and port.accepted == 256)


def version() -> None:
    """The version is the header's, and what is exported is there."""
    check(f'"{afdx.__version__}"' in text_of("crates/afdx/afdx.h") and afdx.library_version() == afdx.__version__)
    check(all(hasattr(afdx, name) for name in afdx.__all__) and len({*afdx.__all__}) == len(afdx.__all__))


def read_by(*words: str) -> None:
    """A program that reads Python finds nothing wrong with the package and the examples."""
    if not shutil.which(words[0]):
        raise SkipTest(f"no {words[0]}")
    sources = ["afdx", *(f"{PREFIX.name}/share/afdx/examples/python/{name}.py" for name in ("main", "bench"))]
    ran = subprocess.run([*words, *sources], cwd=PYTHON, capture_output=True, text=True, check=False)
    check(ran.returncode == 0, ran.stdout[-2000:] + ran.stderr[-2000:])


def mypy() -> None:
    """The package and the examples are clean under `mypy --strict`."""
    read_by("mypy", "--strict", "--cache-dir", os.devnull)


def pylint() -> None:
    """The package and the examples are rated over 9.5 by pylint."""
    read_by("pylint", "--fail-under=9.5", "--max-line-length=140")


def lists() -> None:
    """The ports, the virtual links, and when the next of them is due."""
    with EndSystem(SHARED.replace("10.0.0.1", "10.0.0.2", 1)) as it, it.port(11) as port:
        check(it.ports == [10, 11] and it.links == [1, 2])
        check(it.next_due is None)
        port.send(b"1")
        (frame,) = it.poll(5).b
        check(it.next_due == 1005 and it.frames(B) == [it.frame(B, 0)] == [frame])
        check(not it.poll(1004).a and it.next_due == 1005)


def all_raised() -> None:
    """The tests before have raised each exception but one."""
    tables = (afdx.TABLE_ERRORS, afdx.SEND_ERRORS, afdx.POLL_ERRORS, afdx.JUDGE_ERRORS, afdx.MISUSES)
    unmet = {error.__name__ for table in tables for error in table.values()} - RAISED
    check(unmet == {"Exhausted"}, unmet)


def threads() -> None:
    """Ports that send from threads of their own lose nothing, and each one's messages stay in order, up to a close. What that
    returns is what was accepted, and comes out."""
    plan = DEMO + "".join(SECOND.replace("id = 11", f"id = {k}").replace("1001", f"{1000 + k}") for k in (11, 12, 13))
    for closed_at, most in ((4000, 4000), (500, 502)):
        with EndSystem(plan) as it:
            ports = {1000 if k == 10 else 1000 + k: it.port(k) for k in (10, 11, 12, 13)}
            def send(port: afdx.Port) -> None:
                with suppress(afdx.Closed):
                    for k in range(1000):
                        while not port.try_send(k.to_bytes(2, "big")):
                            time.sleep(0)
            workers = [threading.Thread(target=send, args=(port,)) for port in ports.values()]
            for worker in workers:
                worker.start()
            came, total = dict.fromkeys(ports, 0), -1
            for now in range(0, 10**9, 1000):
                for frame in it.poll(now).b:
                    source = int.from_bytes(frame[34:36], "big")
                    check(int.from_bytes(frame[42:44], "big") == came[source], source)
                    came[source] += 1
                total = it.close(1, 0) if total < 0 and sum(came.values()) >= closed_at else total
                if sum(came.values()) == total:
                    break
                time.sleep(0)
            for worker in workers:
                worker.join()
            check(closed_at <= total <= most and it.close(1, 0) == total)
            check({source: port.accepted for source, port in ports.items()} == came)


def driven_runs() -> None:
    """Random runs over random plans, with networks that fail, and plans of every size answer as the model says. Receivers and
    switches get what the laws promise."""
    import driven
    driven.long_run()
    done = [driven.run(seed) for seed in range(400)]
    check(50 < sum(done) < 350, sum(done))
    told = driven.damaged(7, 20_000)
    check({"NoTable", "OtherLayout", "WrongLength", "WrongSum", "WrongValue", "", "NoSuchVl", "SamplingTooLong"} <= told.keys(), told)
    driven.sizes()


def bench() -> None:
    """The test bench of two ports runs, and its capture can be read."""
    with tempfile.TemporaryDirectory() as room:
        with open(f"{room}/plan.toml", "w", encoding="utf-8") as file:
            file.write(DEMO + SECOND)
        program = f"{PREFIX.name}/share/afdx/examples/python/bench.py"
        words = [sys.executable, "-B", program, f"{room}/plan.toml", f"{room}/frames.pcapng", "10", "11"]
        ran = subprocess.run(words, capture_output=True, text=True, check=True, env={**os.environ, "PYTHONPATH": PYTHON})
        check(ran.stdout == "link 1 on A: last number 234\nlink 1 on B: last number 234\n", ran.stdout)
        read = subprocess.run([sys.executable, "-B", f"{ROOT}/tests/pcapng.py", f"{room}/frames.pcapng"], capture_output=True, text=True, check=False)
        check(read.returncode == 0 and read.stdout.endswith("2004 passed, 0 failed\n"), read.stdout[-200:])


def speed() -> None:
    """100,000 messages of 100 bytes take less than ten seconds."""
    with EndSystem(DEMO) as it, it.port(10) as port:
        begun, message = time.monotonic(), bytes(100)
        for k in range(100_000):
            port.send(message)
            it.poll(1000 * k)
        took = time.monotonic() - begun
        print(f"100,000 messages of 100 bytes: {took:.1f} s")
        check(took < 10, took)


def main() -> int:
    done = Tries()
    for test in (first_message, names, configurations, tables, answers, judging, lists, all_raised, bytes_like, tries, no_memory, version,
                 mypy, pylint, threads, driven_runs, bench, speed):
        try:
            test()
            done.show(test.__name__)
        except SkipTest as why:
            done.skip(f"{why}")
        except Exception as error:  # noqa: BLE001 (a test may fail in any way)
            done.show(test.__name__, [repr(error)])
    return done.end()


if __name__ == "__main__":
    sys.exit(main())
