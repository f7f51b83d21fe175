"""What calls cost, beside the numbers of docs/guide/embedding.md: the stack of each by a painted stack, its instructions by
valgrind. tests/c/c_library.py runs it."""
import os
import re
import shutil

from trying import ROOT, text_of

PAGE = "docs/guide/embedding.md"
SOURCE = "tests/c/costs.c"


def rows():
    """The page's numbers of each case: bytes of stack, and instructions."""
    found = re.findall(r"(?m)^\| `(\w+)` \|.*\| ([\d,]+) \| ([\d,]+) \|$", text_of(PAGE))
    return {name: tuple(int(it.replace(",", "")) for it in numbers) for name, *numbers in found}


def cases():
    """The names of the cases."""
    return set(re.findall(r"CASE\((\w+), \w+, afdx_", text_of(SOURCE)))


def above(measured, index):
    """The cases that cost more than the page says, or nothing, or that one of both lacks."""
    told = rows()
    lost = [f"{name}: not on both" for name in sorted(told.keys() ^ measured.keys())]
    return lost + [f"{name}: {cost}, not {told[name][index]}" for name, cost in measured.items() if name in told and not 0 < cost <= told[name][index]]


def dearer(measured):
    """A poll of messages with UDP checksums that costs over 1.15 of the same poll without. Each send has summed its message, so
    a poll has to add some words of headers alone."""
    first, summed = (measured[name] for name in ("poll_64_first", "poll_64_first_summed"))
    return [f"poll_64_first_summed: {summed}, poll_64_first: {first}"] if summed > 1.15 * first else []


def stack_of(run):
    """The bytes of stack of each case, by what the program printed."""
    return {name: int(cost) for name, cost in re.findall(r"(?m)^(\w+) (\d+)$", run.stdout)}


def steps_of(path):
    """The instructions of each case, and of what it calls, in a file of callgrind whose names aren't compressed."""
    costs, name, is_called = dict.fromkeys(cases(), 0), None, False
    with open(path, encoding="utf-8") as file:
        for line in file:
            if line.startswith("fn="):
                name, is_called = line[3:].strip().removeprefix("case_"), False
            elif name in costs and re.match(r"[\d+*-]+ \d+$", line):
                costs[name] += int(line.split()[1])
    return costs


def try_costs(tries, room, compiled, ran, is_proved):
    """Shows the stack and the instructions of each case. A library with run-time checks has other ones, so there the
    cases only run."""
    path = compiled(tries, room, "costs", f"{ROOT}/{SOURCE}", ["-Wl,-z,now"])
    if path is None:
        return
    run = ran([path, "stack"], room)
    names = sorted(cases() ^ stack_of(run).keys())
    tries.show(f"{len(cases())} cases of calls", [run.stderr] if run.returncode else names)
    if not is_proved or os.uname().machine != "x86_64":
        tries.skip("stack and instructions: not the library of a proof on x86-64")
        return
    tries.show(f"stack of {len(cases())} cases", above(stack_of(run), 0))
    if not shutil.which("valgrind"):
        tries.skip("no valgrind")
        return
    out = f"{room}/callgrind.out"
    run = ran(["valgrind", "--tool=callgrind", "--compress-strings=no", "--compress-pos=no", f"--callgrind-out-file={out}", path, "steps"], room, 3600)
    measured = {} if run.returncode else steps_of(out)
    tries.show(f"instructions of {len(cases())} cases", above(measured, 1) if measured else [run.stderr[-2000:]])
    tries.show("instructions of a poll with UDP checksums", dearer(measured) if measured else ["not measured"])
