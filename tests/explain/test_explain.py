#!/usr/bin/env python3
"""Tests `afdx_bench explain` from outside: plants faults in texts, and compares what it prints with what is expected.

    python3 tests/explain/test_explain.py [TEXTS]

It runs what `rt ci` has built. The expected output is computed here, from the tables of `docs/guide/plan.md` and the
lines of `docs/guide/program.md`: all of it, for each text that is TOML. TEXTS texts, 2,000 by default, have one to three planted
faults each, and each must be reported at its place. `layouts.py` writes texts of random layouts, and knows the line of each
fault. For any text, the first line must count the others, and the first
fault must be the one that `check` reports, which prints nothing else then. The last line is 'N passed, M failed'.
"""
import os
import random
import re
import subprocess
import sys
import tempfile
import threading
import time
import tomllib
from collections.abc import Iterable
from concurrent.futures import ThreadPoolExecutor

ROOT = os.path.dirname(os.path.dirname(os.path.dirname(os.path.abspath(__file__))))
PROGRAM = f"{ROOT}/crates/afdx_bench/out/afdx_bench"
sys.dont_write_bytecode = True
sys.path[:0] = [f"{ROOT}/tests", os.path.dirname(os.path.abspath(__file__))]
import changes  # noqa: E402
import refusals  # noqa: E402
import refusals_wanted  # noqa: E402
import trying  # noqa: E402
from layouts import laid_out  # noqa: E402
from planting import bad_values, plan_of, planted, text_of  # noqa: E402
from wanted import FIELDS, GAPS, NAMES, OPTIONAL, SAME, explanation, subject  # noqa: E402


def ran(command: str, text: bytes) -> subprocess.CompletedProcess[bytes]:
    """Runs the program on a text, in a file of this thread's own."""
    path = f"plan-{threading.get_ident()}.toml"
    with open(path, "wb") as file:
        file.write(text)
    return subprocess.run([PROGRAM, command, path], capture_output=True, check=False, timeout=60)


# What a line of a fault begins with: the file's name, and the number of a line, if that is known.
PLACE = re.compile(r"(?m)^plan-\d+\.toml:(\d+:)? ")


def without_places(told: str) -> str:
    """What is told without the files and lines that lines of faults begin with. Each of them has to begin so."""
    head, *rest = told.splitlines(keepends=True) or [""]
    lacks = [line for line in rest if not PLACE.match(line) and not re.fullmatch(r"and \d+ more\n", line)]
    return "".join(f"no place: {line}" for line in lacks) + head + PLACE.sub("", "".join(rest))


def document_of(raw: bytes) -> dict:
    """The document of a text. Its whole numbers have 64 bits."""
    if any(not -(2**63) <= int(it) < 2**63 for it in re.findall(rb"= (-?\d+)\n", raw)):
        raise tomllib.TOMLDecodeError
    return tomllib.loads(raw.decode())


def second_of(told: bytes) -> bytes:
    """What `check` has after its first line: the first fault of an explanation, and how to see the others, if there are any."""
    first, *others = told.splitlines(keepends=True)[1:]
    file = first.partition(b":")[0]
    return first + b"%s: for all faults and their places, run `afdx_bench explain %s`\n" % (file, file) * bool(others)


def faults_of(text: str | bytes, lines: Iterable[str] = (), whole: str | None = None) -> list[str]:
    """What is wrong with the explanation of a text. It must have lines with these starts, and be `whole` if that is given."""
    raw = text.encode() if isinstance(text, str) else text
    explained, checked = ran("explain", raw), ran("check", raw)
    told, faults = without_places(explained.stdout.decode()), []
    try:
        wanted = whole or explanation(document_of(raw))
    except (tomllib.TOMLDecodeError, UnicodeDecodeError):
        wanted = told if re.fullmatch(r"1 fault\n1 Toml: line \d+, column \d+: [^\n]+\n", told) else "a fault of the text"
    head, *rest = told.splitlines() or [""]
    first = rest[0].partition(":")[0] if rest else ""
    answer = (2, f"configuration refused: {first}\n".encode() + second_of(explained.stdout)) if rest else (0, b"")
    faults += [f"told:\n{told}    wanted:\n{wanted}"] if told != wanted else []
    faults += [f"not told: {line}" for line in lines if not any(is_.startswith(line) for is_ in rest)]
    more = re.fullmatch(r"and (\d+) more", rest[-1]) if len(rest) == 1001 else None
    count = 1000 + int(more[1]) if more else len(rest)
    faults += [f"the first line is {head}"] if head != f"{count or 'no'} fault{'s' * (count != 1)}" else []
    is_told = (checked.returncode, checked.stderr) == answer and bool(checked.stdout) != bool(rest)
    faults += [] if is_told else [f"check: {checked}, explain: {explained}"]
    is_ended = (explained.returncode, explained.stderr) == (1 if rest else 0, b"")
    faults += [] if is_ended else [f"status {explained.returncode}, {explained.stderr!r}"]
    return [f"{fault}\nof the text\n{raw.decode(errors='replace')[:1500]}" for fault in faults]


def all_faults(texts: Iterable[tuple]) -> list[str]:
    """What is wrong with the explanations of texts."""
    with ThreadPoolExecutor(len(os.sched_getaffinity(0))) as pool:
        return [fault for found in pool.map(lambda words: faults_of(*words), texts) for fault in found]


# A text of two links and three ports without faults.
THREE = """\
version = 2
end_system = {id = 1}
vl = [{id = 7, bag_ms = 1, lmax = 200, sub_vls = 2, capacity = 4}, {id = 8, bag_ms = 2, lmax = 64, sub_vls = 1, capacity = 5}]
[[port]]
id = 20
vl = 7
sub = 1
partition = 3
kind = "sampling"
source = 1000
destination = 2000
max = 153
checksum = "udp"
[[port]]
id = 21
vl = 8
sub = 0
partition = 3
kind = "queuing"
source = 1001
destination = 2001
max = 8000
dest_ip = "10.1.2.3"
[[port]]
id = 22
vl = 7
sub = 0
partition = 3
kind = "queuing"
source = 1002
destination = 2000
max = 1
"""
# The table of a small link, the keys that are printed for a table, and changes of the text, each with its expected lines.
SMALL, HEADS = "{{id = {}, bag_ms = 1, lmax = 64, sub_vls = 1, capacity = 1}}, ", "version end_system vl port"
AND_NEXT = "7 DuplicateVl: vl 3 (id 9) and vl 1 (id 9): the same id"
LAST = THREE.rpartition("id = 22")[2]
LINK_KEYS = "id bag_ms lmax sub_vls capacity networks"
PORT_KEYS, LATER = "id vl sub partition kind source destination max dest_ip", "only if version = 2, and version is missing"
NO_ADDRESS, NO_LMAX = "5 OutOfRange: port 2 (id 21), dest_ip is ", "5 OutOfRange: vl 2 (id 8), lmax is 63: 64 to 1518"
CHANGES = [
    ("id = 20\n", "", "2 MissingKey: port 1, id is missing: 0 to 65535"),
    ("lmax = 64, ", "", "2 MissingKey: vl 2 (id 8), lmax is missing: 64 to 1518"),
    ("{id = 1}", "{}", "2 MissingKey: end_system.id is missing: 0 to 65535"),
    ("end_sys", "Sys", "2 MissingKey: end_system is missing: a table", f"3 UnknownKey: System is a table: the keys are {HEADS}"),
    ("sub_vls = 1,", "sub_vls = 1, a = 'x',", f'3 UnknownKey: vl 2 (id 8), a is "x": the keys are {LINK_KEYS}'),
    ("version = 2", "'a\\b' = true\nversion = 2", f"3 UnknownKey: a\\x5cb is a boolean: the keys are {HEADS}"),
    ("{id = 1}", "{id = 1, ID = 1979-05-27}", "3 UnknownKey: end_system.ID is a datetime: the keys are id"),
    ("max = 153", "max = 153\na.c = 2", f"3 UnknownKey: port 1 (id 20), a is a table: the keys are {PORT_KEYS} checksum"),
    ("lmax = 64", "lmax = 64, lmx = 2.5", f"3 UnknownKey: vl 2 (id 8), lmx is a float: the keys are {LINK_KEYS}; did you mean lmax?"),
    ("version = 2\n", "", f'3 UnknownKey: port 1 (id 20), checksum is "udp": {LATER}'),
    ("version = 2", "networks = 'a'", f'3 UnknownKey: networks is "a": the keys are {HEADS}', f'3 UnknownKey: port 1 (id 20), checksum is "udp": {LATER}'),
    ("lmax = 64", "lmax = 64, checksum = 'udp'", f'3 UnknownKey: vl 2 (id 8), checksum is "udp": the keys are {LINK_KEYS}'),
    ("{id = 1}", "{id = '1'}", '4 WrongKind: end_system.id is "1": a whole number is wanted'),
    ("capacity = 4", "capacity = [1, 2]", "4 WrongKind: vl 1 (id 7), capacity is an array of 2: a whole number is wanted"),
    ('"sampling"', "1.5", "4 WrongKind: port 1 (id 20), kind is a float: a text is wanted"),
    ("vl = [", "vl = [3, ", "4 WrongKind: vl is an array of 3: an array of tables is wanted"),
    ("capacity = 4", "capacity = 257", "5 OutOfRange: vl 1 (id 7), capacity is 257: 1 to 256"),
    ("max = 8000", "max = 0", "5 OutOfRange: port 2 (id 21), max is 0: 1 to 8192"),
    ("10.1.2.3", "10.1.2.03", '5 OutOfRange: port 2 (id 21), dest_ip is "10.1.2.03": an address in 10.0.0.0/8, without leading zeros'),
    ("10.1.2.3", "q\\\\", f'{NO_ADDRESS}"q\\x5c": an address in 10.0.0.0/8, without leading zeros'),
    ("10.1.2.3", "0123456789" * 4 + "1", f'{NO_ADDRESS}"{"0123456789" * 4}...": an address in 10.0.0.0/8, without leading zeros'),
    ("partition = 3", "partition = -1", "5 OutOfRange: port 1 (id 20), partition is -1: 0 to 31"),
    ("id = 20", "id = 65536", "5 OutOfRange: port 1 (id 65536), id is 65536: 0 to 65535"),
    ("bag_ms = 2, lmax = 64", "bag_ms = 0, lmax = 63", NO_LMAX, "6 BadBag: vl 2 (id 8), bag_ms is 0: 1, 2, 4, 8, 16, 32, 64 or 128"),
    ("bag_ms = 1", "bag_ms = 3", "6 BadBag: vl 1 (id 7), bag_ms is 3: 1, 2, 4, 8, 16, 32, 64 or 128"),
    ("bag_ms = 1", "bag_ms = 256", "6 BadBag: vl 1 (id 7), bag_ms is 256: 1, 2, 4, 8, 16, 32, 64 or 128"),
    ("bag_ms = 2", "bag_ms = -2", "6 BadBag: vl 2 (id 8), bag_ms is -2: 1, 2, 4, 8, 16, 32, 64 or 128"),
    ("}]", "}, " + SMALL.format(7) + "]", "7 DuplicateVl: vl 3 (id 7) and vl 1 (id 7): the same id"),
    ("vl = [", f"vl = [{SMALL.format(9) * 3}", "7 DuplicateVl: vl 2 (id 9) and vl 1 (id 9): the same id", AND_NEXT),
    ("id = 21", "id = 20", "8 DuplicatePort: port 2 (id 20) and port 1 (id 20): the same id"),
    ("id = 22", "id = 21", "8 DuplicatePort: port 3 (id 21) and port 2 (id 21): the same id"),
    ("vl = 7", "vl = 9", "9 NoSuchVl: port 1 (id 20), vl is 9: no vl has this id"),
    ("vl = 8", "vl = 0", "9 NoSuchVl: port 2 (id 21), vl is 0: no vl has this id"),
    ("sub = 1", "sub = 2", "10 NoSuchSub: port 1 (id 20), sub is 2: below sub_vls of its vl; vl 1 (id 7), sub_vls is 2"),
    ("sub = 0", "sub = 1", "10 NoSuchSub: port 2 (id 21), sub is 1: below sub_vls of its vl; vl 2 (id 8), sub_vls is 1"),
    ("max = 153", "max = 154", "11 SamplingTooLong: port 1 (id 20), max is 154: at most lmax - 47 of its vl; vl 1 (id 7), lmax is 200"),
    ("queuing", "sampling", "11 SamplingTooLong: port 2 (id 21), max is 8000: at most lmax - 47 of its vl; vl 2 (id 8), lmax is 64"),
    ("source = 1002", "source = 1000", f"12 SameFlow: port 3 (id 22) and port 1 (id 20): {SAME[12]}"),
    ("max = 1\n", f"max = 1\n[[port]]\nid = 23{LAST}", f"12 SameFlow: port 4 (id 23) and port 3 (id 22): {SAME[12]}"),
    ("source = 1002", "source = 1002\ndest_ip = '10.1.2.3'", f"13 SharedUnicast: port 3 (id 22) and port 2 (id 21): {SAME[13]}"),
    ("id = 20", "id = 20\ndest_ip = '10.1.2.3'", f"13 SharedUnicast: port 2 (id 21) and port 1 (id 20): {SAME[13]}"),
    ("vl = [", "vl = [" + "".join(map(SMALL.format, range(100, 163))), "14 Limit: vl is an array of 65: 1 to 64 tables"),
]
# Texts that aren't TOML, and the line and column of the first error.
STOPS = [
    ("=", 1, 1),
    ("a = 1 b = 2", 1, 7),
    ("a b = 1", 1, 3),
    ("\n\n]", 3, 1),
    ('"\u00e9" = ?', 1, 7),
    ('a = "\u00e9\U0001f600" b', 1, 10),
    ("a = 1\na = 2", 2, 1),
    ("[a", 1, 3),
    ("a = [1,", 1, 8),
    ('x = """\n\n', 3, 1),
    ("a = 1\r\n\tb = ?", 2, 6),
    ("a = 1\n\nb = ?", 3, 5),
    (b'a = 1\n"\xc3\xa9" = "\xff"', 2, 8),
]


def wanted_lines(lines: tuple[str, ...]) -> str:
    """The text of all faults, in lines."""
    return "\n".join([f"{len(lines)} fault{'s' * (len(lines) != 1)}", *lines, ""])


def numbers() -> Iterable[tuple]:
    """Texts with each fault, at two places or more, with all expected lines."""
    yield THREE, (), "no faults\n"
    for old, new, *lines in CHANGES:
        yield THREE.replace(old, new, 1), (), wanted_lines(tuple(lines))
    no_port = ("2 MissingKey: port is missing: an array of tables", f"3 UnknownKey: other is a table: the keys are {HEADS}")
    yield trying.DEMO.replace("[[port]]", "[other]"), (), wanted_lines(no_port)
    rng = random.Random(14)
    yield text_of(plan_of(rng, 8, 257), rng), (), wanted_lines(("14 Limit: port is an array of 257: 1 to 256 tables",))
    crowd = [f"14 Limit: port {k} (id {999 + k}), sub is {k - 129}: at most 64 ports of one sub-VL" for k in (129, 130)]
    yield text_of(plan_of(rng, 1, 130), rng), (), wanted_lines(tuple(crowd))
    yield text_of(plan_of(rng, 8, 3) | {"vl": []}, rng), ["14 Limit: vl is an array of 0: 1 to 64 tables"]
    yield text_of(plan_of(rng, 8, 3) | {"port": []}, rng), (), wanted_lines(("14 Limit: port is an array of 0: 1 to 256 tables",))
    for text, line, column in STOPS:
        yield text, [f"1 Toml: line {line}, column {column}: "]


def crowds() -> Iterable[tuple]:
    """Texts with as many unknown keys as lines are printed, with one more, and with many more."""
    for count in (1000, 1001, 20_000):
        lines = [f"3 UnknownKey: k{k} is {k}: the keys are {HEADS}" for k in range(10_000, 10_000 + count)]
        more = [f"and {count - 1000} more"] if count > 1000 else []
        text = "".join(f"k{k} = {k}\n" for k in range(10_000, 10_000 + count)) + THREE
        yield text, (), "\n".join([f"{count} faults", *lines[:1000], *more, ""])


def late_lines() -> list[str]:
    """What is wrong with the lines that are told of faults far down in a text, and of the last that are printed."""
    text = trying.DEMO + "\n" * (9_500 - trying.DEMO.count("\n")) + "".join(f"k{k} = {k}\n" for k in range(1000, 2001))
    told, place = ran("explain", text.encode()).stdout.decode(), f"plan-{threading.get_ident()}.toml"
    lines = [f"{place}:{8_501 + k}: 3 UnknownKey: port 1 (id 10), k{k} is {k}: the keys are {PORT_KEYS}" for k in range(1000, 2000)]
    return [] if told == "\n".join(["1001 faults", *lines, "and 1 more", ""]) else [f"{told[:500]} .. {told[-500:]}"]


def keys() -> Iterable[tuple]:
    """Texts in which one key of a table is missing, of another kind, out of its range, or at one of its ends."""
    rng = random.Random(2)
    for name, known in FIELDS.items():
        for key, content in known.items():
            found = 6 if content is GAPS else 5
            faults = (4, found) if not isinstance(content, str) else (4,)
            bad = [(fault, value) for fault in faults for value in bad_values(content, fault)]
            good = [content[0], content[-1]] if isinstance(content, (range, list, tuple)) else []
            for fault, value in [(2, None), *bad, *((0, value) for value in good)]:
                document = plan_of(rng, 2, 5, 2)
                table = document[name][1] if name in ("vl", "port") else document[name] if name else document
                table.pop(key, None)
                table |= {key: value} if fault != 2 else {}
                at = (name, 2 if name in ("vl", "port") else 0)
                told = fault and not (fault == 2 and key in OPTIONAL)
                yield text_of(document, rng), [f"{fault} {NAMES[fault]}: {subject(document, at, key)}: "] if told else []


def few_changes() -> Iterable[tuple]:
    """The texts of `changes.py`, with the number of the first fault."""
    return ((text, [f"{number} "] if number else [], None if number else "no faults\n") for text, number in changes.changed())


def layout_faults(seed: int) -> list[str]:
    """What is wrong with the lines that are told of a text of a random layout."""
    rng = random.Random(seed)
    text, wanted = laid_out(rng)
    told = ran("explain", text.encode()).stdout.decode()
    found = {}
    for line in told.splitlines()[1:]:
        place, fault = re.fullmatch(r"plan-\d+\.toml:(?:(\d+):)? (.*)", line).groups()
        found[fault.partition(": ")[2]] = int(place) if place else None
    lines = {what: line for what, line in found.items() if any(what.startswith(start) for start in wanted)}
    missing = [start for start in wanted if not any(what.startswith(start) for what in found)]
    wrong = [f"{what}: line {line}" for what, line in lines.items() if {line} != {at for start, at in wanted.items() if what.startswith(start)}]
    return [f"{wrong or missing} of seed {seed}, wanted {wanted}, told\n{told}\nof\n{text[:3000]}"] if wrong or missing else []


def layouts(count: int) -> tuple[list[str], str]:
    """The lines of faults in texts of random layouts."""
    with ThreadPoolExecutor(len(os.sched_getaffinity(0))) as pool:
        return [fault for found in pool.map(layout_faults, range(count)) for fault in found], ""


def refused(text: str, status: int) -> list[str]:
    """What is wrong with runs in each of which an allocation or a write fails, or standard output is closed."""
    answer = re.sub(r"plan-\d+\.toml", "plan.toml", ran("explain", text.encode()).stdout.decode())
    words, bench = ["explain", "plan.toml"], refusals.Bench(os.getcwd())
    with open("plan.toml", "w", encoding="utf-8") as file:
        file.write(text)
    cases = [refusals_wanted.command(words, answer, many=many, status=status) for many in (1, 0)]
    faults = [fault for case in cases for fault in refusals.tried_case(bench, PROGRAM, case)[0]]
    faults += refusals.tried_closed(bench, PROGRAM, words)[0]
    return faults + (refusals.tried_writes(bench, PROGRAM, words)[0] if not status else [])


def times() -> tuple[list[str], str]:
    """The times of `check` and `explain` on the greatest text with a hundred faults: the least of eleven runs each."""
    rng = random.Random(5)
    document = plan_of(rng, 64, 256)
    for k in range(50):
        document["vl"][k]["lmax"], document["port"][5 * k]["partition"] = 1519, 32
    raw, least = text_of(document, rng).encode(), {}
    for command in ("check", "explain") * 11:
        begun = time.perf_counter()
        head = ran(command, raw).stdout.partition(b"\n")[0]
        least[command] = min(least.get(command, 9e9), (time.perf_counter() - begun) * 1000)
    faults = ["explain takes 50 ms more"] if least["explain"] - least["check"] >= 50 else []
    faults += [] if head == b"100 faults" else [f"the first line is {head!r}"]
    return faults, ", ".join(f"{command} {ms:.1f} ms" for command, ms in least.items())


def documented() -> list[str]:
    """The tests cover exactly the keys in the table of `docs/guide/plan.md`."""
    cells = re.findall(r"(?m)^\| (`[a-z_`., ]+) \|", trying.text_of("docs/guide/plan.md"))
    told = {word for cell in cells for word in re.findall(r"`([^`]+)`", cell)}
    tried = {f"{name}.{key}" for name in FIELDS if name for key in FIELDS[name]} | {"version"}
    return [f"{word} is told or tried alone" for word in sorted(told ^ tried)]


def main() -> int:
    """Runs all tests."""
    count = int(sys.argv[1]) if sys.argv[1:] else 2_000
    tries, rng = trying.Tries(), random.Random(0)
    demo = trying.text_of("examples/c/demo.toml").encode()
    with tempfile.TemporaryDirectory() as folder:
        os.chdir(folder)
        tries.show("the documented keys", documented())
        tries.show("each number", all_faults(numbers()))
        tries.show("more faults than lines", all_faults(crowds()))
        tries.show("lines past 9,999", late_lines())
        tries.show("each key", all_faults(keys()))
        tries.show("few changes", all_faults(few_changes()))
        tries.show("each byte replaced", all_faults((text,) for text in changes.replaced()))
        tries.show("each prefix", all_faults((demo[:size],) for size in range(len(demo) + 1)))
        tries.show(f"{count} texts with planted faults", all_faults(planted(seed) for seed in range(count)))
        sound = [(text_of(plan_of(rng, k % 8 + 1, k + 1, (None, 1, 2)[k % 3]), rng), (), "no faults\n") for k in range(65)]
        tries.show("65 plans without a fault", all_faults(sound))
        tries.attempt(f"the lines of {count // 4} texts of random layouts", lambda: layouts(count // 4))
        tries.attempt("refused memory and writes, no fault", lambda: (refused(trying.DEMO, 0), ""))
        tries.attempt("refused memory, two faults", lambda: (refused(trying.DEMO.replace("bag_ms = 1", "bag_ms = 3\nx = 1"), 1), ""))
        tries.attempt("refused memory, no TOML", lambda: (refused(trying.DEMO + "=", 1), ""))
        tries.attempt("64 links and 256 ports, 100 faults", times)
    return tries.end()


if __name__ == "__main__":
    sys.exit(main())
