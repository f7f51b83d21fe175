#!/usr/bin/env python3
"""Tests `afdx_bench import` and `schedule`, and interface documents as the traffic of `report`, against models in
`documents.py` and here. The last line is 'N passed, M failed'.

    python3 tests/interface/test_interface.py [MUTATED]

MUTATED documents, 5,000 by default, have bytes, cells and rows changed: each is refused by row, or gives a plan that
`check` accepts.
"""
import os
import random
import re
import subprocess
import sys
import tempfile
import tomllib
from collections.abc import Iterator

HERE = os.path.dirname(os.path.abspath(__file__))
ROOT = os.path.dirname(os.path.dirname(HERE))
PROGRAM = f"{ROOT}/crates/afdx_bench/out/afdx_bench"
sys.dont_write_bytecode = True
sys.path[:0] = [f"{ROOT}/tests", f"{ROOT}/tests/report", HERE]
import documents  # noqa: E402
from expected import check_of  # noqa: E402
from trying import DEMO, Tries, seen  # noqa: E402

HEAD = ",".join(documents.COLUMNS)
ROW = "1,,8,200,2,4,,10,,0,1,sampling,1000,2000,64,,,1,,,"
# Documents with faults, and what standard error says of each.
FAULTS = {
    "": ["row 1: a header is missing"],
    "\n ,;\n": ["row 2, {}: the column is missing".format(it) for it in documents.COLUMNS if it not in documents.OPTIONAL],
    HEAD.replace("lmax", "l max") + "\n": ["row 1, lmax: the column is missing"],
    HEAD + ",LMAX\n" + ROW + ",\n": ["row 1, lmax: the column occurs twice"],
    HEAD + "\n": ["row 1: a row of a port is missing"],
    HEAD + "\n" + ROW + ",\n1,2\n": ["row 2: the number of cells is 22, and that of the header 21", "row 3: the number of cells is 2, and that of the header 21"],
    HEAD + "\n" + ROW + "\n\n" + ROW.replace("10,,0", "11,,0") + "\n": ['row 4, destination: "2000" is seen, and row 2 has the same vl, partition, source, destination and dest_ip'],
    HEAD + "\n" + ROW + "\n" + ROW.replace("1000", "1001").replace("8,200,2", "4,,2") + "\n": [
        'row 3, bag_ms: "4" is seen, and row 2 has "8" for the same link', 'row 3, lmax: the cell is empty, and row 2 has "200" for the same link',
        'row 3, port: "10" is seen, and row 2 has the same port',
    ],
    HEAD + "\n" + ROW.replace("1,,,", '1,,"1\n\n",') + "\n" + ROW.replace("1,,8", "2,,8").replace("10,,0", "11,,2").replace("64,,,1", "154,,,2") + "\n": [
        'row 3, sub: a number below sub_vls, which is 2, is wanted, and "2" is seen',
        'row 3, max: at most lmax - 47 is wanted of a sampling port, where lmax is 200, and "154" is seen',
        'row 3, end_system: "2" is seen, and row 2 has "1" for the same end system',
    ],
    HEAD + "\n" + ROW.replace("64,,", "64,10.1.1.1,") + "\n" + ROW.replace("1,,8", "2,,8").replace("10,,0", "11,,0").replace("64,,", "64,10.1.1.1,") + "\n": [
        'row 3, dest_ip: "10.1.1.1" is seen, and row 2 has the same partition and dest_ip, but another vl'
    ],
    HEAD + "\n" + "".join(ROW.replace("10,,0", f"{k},,0").replace("1000", f"{k}") + "\n" for k in range(1, 67)): [
        f'row {row}, sub: at most 64 ports of one sub-VL are wanted, and "0" has one more' for row in (66, 67)
    ],
    HEAD + "\n" + "".join(f"{k}," + ROW[2:].replace("10,,0", f"{k},,0") + "\n" for k in range(67)): ['row 66, vl: at most 64 links are wanted, and "64" is one more'],
    HEAD + "\n" + "".join(f"{k % 50}," + ROW[2:].replace("10,,0", f"{k},,0").replace("1000", f"{k + 1}") + "\n" for k in range(300)): [
        "row 258: at most 256 rows of ports are wanted, and this is one more"
    ],
}


def save(name: str, text: str | bytes) -> None:
    """Writes a file into the folder of the tests."""
    with open(name, "wb") as file:
        file.write(text.encode() if isinstance(text, str) else text)


def ran(*words: str) -> subprocess.CompletedProcess[bytes]:
    """Runs a command."""
    return subprocess.run([PROGRAM, *words], capture_output=True, check=False, timeout=120)


def imported(text: str | bytes) -> tuple[int, str, list[str]]:
    """Imports a document: the status, what is printed, and the lines of standard error."""
    save("document.csv", text)
    done = ran("import", "document.csv")
    return done.returncode, done.stdout.decode(), done.stderr.decode().splitlines()


def left_alone(columns: list[str]) -> list[str]:
    """The line of the columns that are left alone."""
    shown = ", ".join(seen(it).removesuffix(" is seen") for it in columns)
    return [f"document.csv: columns that are left alone: {shown}"] * bool(columns)


def told(faults: list[str]) -> list[str]:
    """The lines of standard error for all faults of a document."""
    more = [f"and {len(faults) - 1000} more"] * (len(faults) > 1000)
    return [f"{len(faults)} fault{'s' * (len(faults) != 1)} of the interface document", *(f"document.csv: {it}" for it in faults[:1000]), *more]


def fault_faults() -> Iterator[str]:
    """What is wrong with how documents with faults are told."""
    rows = documents.document(random.Random(5), 4, 12)
    cases = [*FAULTS.items(), *((documents.plain(changed), lines) for changed, lines in documents.value_faults(rows))]
    cases.append((HEAD + "\n" + "\n".join(["x," * 18 + "x"] * 5000), [f"row {k + 2}: the number of cells is 19, and that of the header {len(documents.COLUMNS)}" for k in range(5000)]))
    for text, lines in cases:
        done = imported(text)
        others = [";"] if text == "\n ,;\n" else ["l max"] if "l max" in text else []
        wanted = left_alone(others) + told(lines)
        if done != (2, "", wanted):
            yield f"{text[-300:]!r}: {done}, and {wanted} is wanted"


def plan_faults(seed: int) -> Iterator[str]:
    """What is wrong with the plan of a valid document, and with what `check` says of it."""
    rng = random.Random(seed)
    links = rng.choice((1, 2, 5, 64))
    rows = documents.document(rng, links, rng.randint(links, min(256, 8 * links)))
    text, others = documents.laid_out(rng, rows)
    status, printed, lines = imported(text)
    if (status, lines) != (0, left_alone(others)):
        yield f"seed {seed}: status {status}, {lines[:5]}"
        return
    if tomllib.loads(printed) != documents.plan_of(rows):
        yield f"seed {seed}: {tomllib.loads(printed)} for {documents.plan_of(rows)}"
    if [it for it in printed.splitlines() if it.startswith("#")] != documents.names_of(rows):
        yield f"seed {seed}: other comments"
    save("plan.toml", printed)
    checked = ran("check", "plan.toml")
    if (checked.returncode, checked.stdout.decode(), checked.stderr) != (0, check_of(documents.plan_of(rows)), b""):
        yield f"seed {seed}: check says {checked}"
    columns = ("port", "name", "period_us", "jitter_us", "deadline_us")
    save("traffic.csv", ",".join(columns) + "\n" + "".join(",".join(documents.quoted(row[it], ",") for it in columns) + "\n" for row in rows))
    reports = [ran("report", "plan.toml", "--traffic", it) for it in ("document.csv", "traffic.csv")]
    if reports[0].stdout != reports[1].stdout or reports[0].returncode or reports[0].stderr.decode().splitlines() != left_alone(others):
        yield f"seed {seed}: {reports[0]}, and by a file of its own {reports[1]}"


def pcg(state: int, stream: int) -> Iterator[int]:
    """The words of PCG's generator of 32 bits, XSH RR."""
    mask, step, inc = 2**64 - 1, 6364136223846793005, (stream << 1 | 1) & (2**64 - 1)
    now = ((inc + state) * step + inc) & mask
    while True:
        word, turn = ((now >> 18 ^ now) >> 27) & (2**32 - 1), now >> 59
        yield (word >> turn | word << (-turn & 31)) & (2**32 - 1)
        now = (now * step + inc) & mask


def script_of(rows: list[documents.Row], seconds: int, seed: int) -> list[str]:
    """The lines that a schedule has to have."""
    lines, sends = [], []
    for place, row in enumerate(rows):
        name = f", {row['name']}" * bool(row["name"])
        if not row["period_us"]:
            lines.append(f"# port {row['port']}{name}: nothing, as it has no period")
            continue
        period, words = int(row["period_us"]), pcg(seed, int(row["port"]))
        first = (next(words) | next(words) << 32) % period if seed else 0
        lines.append(f"# port {row['port']}{name}: {row['max']} bytes each {period} us, from {first} us on")
        for number, at in enumerate(range(first, 1_000_000 * seconds + 1, period)):
            size = int(row["max"])
            sends.append((at, place, f"send {row['port']} {number.to_bytes(4, 'big')[-size:].hex()}{'00' * (size - 4)}"))
    sends.sort(key=lambda it: it[:2])
    done = 0
    for poll in range(0, 1_000_000 * seconds + 1, 1000):
        while done < len(sends) and sends[done][0] <= poll:
            lines.append(sends[done][2])
            done += 1
        lines.append(f"at {poll}")
    return lines


def schedule_faults(seed: int) -> Iterator[str]:
    """What is wrong with the schedule of a document's plan, and with a run of it."""
    rng = random.Random(seed)
    rows = documents.document(rng, 3, rng.randint(3, 9))
    for row in rows:
        row["period_us"], row["jitter_us"] = rng.choice(("", "1000", "999", str(rng.randint(300, 5_000_000)))), ""
        row["max"] = rng.choice(("1", "3", "5", row["max"])) if row["kind"] == "queuing" else row["max"]
    save("document.csv", documents.plain(rows))
    save("plan.toml", ran("import", "document.csv").stdout)
    number, seconds = rng.choice((0, 1, 7, 2**64 - 1)), rng.randint(1, 3)
    words = ["--seed", str(number)] if number or rng.random() < 0.5 else []
    done = ran("schedule", "plan.toml", "--traffic", "document.csv", "--seconds", str(seconds), *words)
    if (done.returncode, done.stdout.decode().splitlines(), done.stderr) != (0, script_of(rows, seconds, number), b""):
        yield f"seed {seed}: {done.returncode}, {done.stderr}, another script"
    save("script.txt", done.stdout)
    run = ran("run", "plan.toml", "script.txt")
    notes = {line.rpartition(" ")[2] for line in run.stdout.decode().splitlines() if line.startswith("line")}
    if run.returncode not in (0, 3) or notes - {"Full"} or run.stderr:
        yield f"seed {seed}: the run ends with {run.returncode}, {notes}, {run.stderr}"


def refusal_faults() -> Iterator[str]:
    """What is wrong with the ends of `import` and `schedule` that print nothing."""
    save("demo.toml", DEMO)
    save("wrong.toml", DEMO.replace("bag_ms = 1", "bag_ms = 3"))
    save("fast.csv", "port,period_us\n10,1\n")
    save("bad.csv", "port;period_us\n10;1,5\n9;1\n")
    save("long.csv", HEAD + "\n" + ROW + "\n" + " " * 2**24)
    save("good.csv", "PORT;period_us;Unit\r\n\r\n 10 ;500000.0;x\r\n;;\r\n")
    too_long = "the script would have more than 1000000 lines: give fewer --seconds\n"
    bad = "2 faults of the traffic\n" + f'bad.csv: line 2, period_us: 1 to 1000000000000 is wanted, and {seen("1,5")}\n' + "bad.csv: line 3, port: the plan has no port 9\n"
    schedule = ["schedule", "demo.toml", "--traffic"]
    for words, status, error in (
        ([*schedule, "fast.csv", "--seconds", "1"], 2, too_long),
        ([*schedule, "bad.csv", "--seconds", "1"], 2, bad),
        ([*schedule, "none.csv", "--seconds", "1"], 4, "read failed\nnone.csv: No such file or directory (os error 2)\n"),
        (["schedule", "wrong.toml", "--traffic", "fast.csv", "--seconds", "1"], 2,
         "configuration refused: 6 BadBag\nwrong.toml:6: 6 BadBag: vl 1 (id 1), bag_ms is 3: 1, 2, 4, 8, 16, 32, 64 or 128\n"),
        (["import", "none.csv"], 4, "read failed\nnone.csv: No such file or directory (os error 2)\n"),
        (["import", "long.csv"], 4, "read failed\nlong.csv: it has more than 16 MiB, the most that is read\n"),
    ):
        done = ran(*words)
        if (done.returncode, done.stdout) != (status, b"") or error is not None and done.stderr.decode() != error:
            yield f"{words}: {done}"
    for words in ([*schedule, "good.csv"], [*schedule, "good.csv", "--seconds", "0"], [*schedule, "good.csv", "--seconds", "1000"],
                  ["schedule", "demo.toml", "--seconds", "1"], ["import"], [*schedule, "good.csv", "--seconds", "1", "--seed", "-1"],
                  [*schedule, "good.csv", "--seconds", "1", "--seed", str(2**64)]):
        done = ran(*words)
        if (done.returncode, done.stdout) != (2, b"") or b"try '--help'" not in done.stderr:
            yield f"{words}: {done}"
    done = ran(*schedule, "good.csv", "--seconds", "1")
    if (done.returncode, done.stdout.count(b"\nsend 10 "), done.stderr) != (0, 3, b'good.csv: columns that are left alone: "Unit"\n'):
        yield f"good.csv: {done.returncode}, {done.stderr}"
    with open("/dev/full", "w", encoding="utf-8") as full:
        save("document.csv", HEAD + "\n" + ROW + "\n")
        for words in (["import", "document.csv"], [*schedule, "good.csv", "--seconds", "1"]):
            run = subprocess.run([PROGRAM, *words], stdout=full, stderr=subprocess.PIPE, check=False, timeout=60)
            if run.returncode != 4 or b"write failed\n" not in run.stderr:
                yield f"{words} to a full device: {run}"


def bench_faults() -> Iterator[str]:
    """What is wrong with a bench day: a document of 40 links and 120 ports becomes a plan, a report, a script of ten
    seconds, and a run whose capture the judge accepts."""
    rows = documents.bench()
    save("document.csv", documents.plain(rows))
    save("plan.toml", ran("import", "document.csv").stdout)
    report = ran("report", "plan.toml", "--traffic", "document.csv", "--strict", "--html", "report.html")
    if report.returncode or b"deadlines kept" not in report.stdout.splitlines()[0]:
        yield f"report: {report.returncode}, {report.stdout[:200]}, {report.stderr}"
    save("script.txt", ran("schedule", "plan.toml", "--traffic", "document.csv", "--seconds", "10", "--seed", "1").stdout)
    with open("script.txt", encoding="utf-8") as file:
        if file.read().splitlines() != script_of(rows, 10, 1):
            yield "another script"
    run = ran("run", "plan.toml", "script.txt", "--capture", "run.pcapng")
    if run.returncode or run.stderr or b"refused" in run.stdout:
        yield f"run: {run.returncode}, {run.stderr}"
    judged = ran("judge", "plan.toml", "run.pcapng")
    if judged.returncode or not judged.stdout.startswith(b"no findings"):
        yield f"judge: {judged.returncode}, {judged.stdout[:500]}"


def mutant_faults(count: int) -> Iterator[str]:
    """What is wrong with what comes of mutated documents."""
    rng = random.Random(29)
    texts = [documents.plain(documents.document(rng, 2, 6)).encode() for _ in range(20)]
    accepted = 0
    for k in range(count):
        text = documents.mutated(rng, rng.choice(texts))
        save("document.csv", text)
        done = ran("import", "document.csv")
        lines = [it for it in done.stderr.decode().splitlines() if not it.startswith("document.csv: columns that are left alone: ")]
        if done.returncode == 0 and not lines:
            save("plan.toml", done.stdout)
            checked = ran("check", "plan.toml")
            accepted += 1
            if checked.returncode or checked.stderr:
                yield f"mutant {k}, {text!r}: check says {checked}"
        elif done.returncode != 2 or done.stdout or not lines or not re.fullmatch(r"\d+ faults? of the interface document", lines[0]):
            yield f"mutant {k}, {text!r}: {done}"
        elif not all(re.match(r"document\.csv: row \d+(, [a-z_]+)?: ", it) for it in lines[1:] if not it.startswith("and ")):
            yield f"mutant {k}, {text!r}: {lines}"
        elif int(lines[0].split()[0]) != len(lines) - 1:
            yield f"mutant {k}, {text!r}: {lines[0]}, and {len(lines) - 1} lines"
    if not count // 20 < accepted < count:
        yield f"{accepted} of {count} are accepted"


def main() -> int:
    """Runs the tests in a folder of their own."""
    tries, count = Tries(), int(sys.argv[1]) if len(sys.argv) > 1 else 5000
    with tempfile.TemporaryDirectory(prefix="interface-") as folder:
        os.chdir(folder)
        tries.show("documents with faults", list(fault_faults()))
        tries.show("plans, and documents as traffic", [it for seed in range(120) for it in plan_faults(seed)])
        tries.show("schedules", [it for seed in range(60) for it in schedule_faults(seed)])
        tries.show("refusals", list(refusal_faults()))
        tries.show("a bench day", list(bench_faults()))
        tries.show(f"{count} mutated documents", list(mutant_faults(count)))
        os.chdir(ROOT)
    return tries.end()


if __name__ == "__main__":
    sys.exit(main())
