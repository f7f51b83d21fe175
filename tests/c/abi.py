#!/usr/bin/env python3
"""The binary interface of the C library, as a compiler sees its headers, against `install/abi.txt`.

    python3 tests/c/abi.py [--write]

A line for each call with the types of its arguments, each struct with its size, each field with its offset and size, and
each constant with its number, after a line of the version. tests/c/c_library.py refuses headers whose interface is another
than the file's. With --write the file is made anew, if the version allows it: a line that is gone or changed wants a new first
number, and lines that are only added want a new second one.
"""
import os
import re
import subprocess
import sys
import tempfile
from glob import glob

sys.dont_write_bytecode = True
sys.path.append(os.path.dirname(os.path.dirname(os.path.abspath(__file__))))
from trying import ROOT, compiler, text_of

PLACE = "install/abi.txt"
HEADERS = ("crates/afdx/afdx.h", "crates/afdx/afdx_judge.h")


def shown(header):
    """What a header declares: its calls as lines, and the names of its structs with their fields, and of its constants."""
    text = re.sub(r"/\*.*?\*/", "", header, flags=re.DOTALL)
    calls = []
    for result, name, words in re.findall(r"(?m)^(\w+) (afdx_\w+)\(([^)]*)\);", text):
        kinds = [re.sub(r"\w+$", "", " ".join(it.split())).strip() if it.strip() != "void" else "void" for it in words.split(",")]
        calls.append(f"call {result} {name}({', '.join(kinds)})")
    structs = {name: re.findall(r"(\w+);", body) for body, name in re.findall(r"typedef struct \{(.*?)\} (\w+);", text, re.DOTALL)}
    constants = [name for body in re.findall(r"enum \{(.*?)\}", text, re.DOTALL) for name in re.findall(r"AFDX_\w+", body)]
    constants += re.findall(r"(?m)^#define (AFDX_\w+) (?:\d|UINT64_MAX)", text)
    return calls, structs, [it for it in constants if not it.startswith("AFDX_VERSION")]


def interface(room):
    """The lines of the headers' interface, which a compiled program measures."""
    calls, structs, constants = map(list, zip(*(shown(text_of(it)) for it in HEADERS)))
    rows = []
    for name, fields in (it for of_header in structs for it in of_header.items()):
        rows.append(f'printf("struct {name}: %zu bytes\\n", sizeof({name}));')
        rows += [f'printf("field {name}.{it}: at %zu, %zu bytes\\n", offsetof({name}, {it}), sizeof((({name} *)0)->{it}));' for it in fields]
    rows += [f'printf("constant {it}: %llu\\n", (unsigned long long){it});' for of_header in constants for it in of_header]
    with open(f"{room}/abi.c", "w", encoding="utf-8") as file:
        file.write('#include "afdx_judge.h"\n#include <stdio.h>\nint main(void) {\n' + "\n".join(rows) + "\n}\n")
    words = [compiler() or "cc", f"-I{ROOT}/crates/afdx", f"{room}/abi.c", "-o", f"{room}/abi"]
    subprocess.run(words, check=True)
    measured = subprocess.run([f"{room}/abi"], capture_output=True, text=True, check=True).stdout.splitlines()
    return sorted(it for of_header in calls for it in of_header) + measured


def version():
    """The version of the header."""
    return re.search('AFDX_VERSION "(.*)"', text_of(HEADERS[0]))[1]


def refusal(old_version, old, new_version, new):
    """Why an interface may not take the place of another one, or None."""
    was, now = ([int(it) for it in number.split(".")] for number in (old_version, new_version))
    gone, more = sorted({*old} - {*new}), sorted({*new} - {*old})
    if now < was:
        return f"version {new_version} comes before {old_version}"
    if gone and now[0] == was[0]:
        return f"{gone[0]} is gone or changed: version {was[0] + 1}.0.0 is the least"
    if more and now[:2] <= was[:2]:
        return f"{more[0]} is new: version {was[0]}.{was[1] + 1}.0 is the least"
    return None


def written():
    """The version and the lines of the file."""
    first, *lines = text_of(PLACE).splitlines()
    return first.removeprefix("version "), lines


def faults(room):
    """What is wrong with the file, by the headers."""
    new_version, new = version(), interface(room)
    old_version, old = written()
    told = refusal(old_version, old, new_version, new)
    if told is None and (old_version, old) != (new_version, new):
        told = f"{PLACE} is of version {old_version}: python3 tests/c/abi.py --write"
    return [] if told is None else [told]


def rule_faults():
    """What the rule of versions answers other than it should."""
    rows = [("2.0.0", "ab", "2.0.0", "ab", True), ("2.0.0", "ab", "2.0.1", "ab", True), ("2.0.0", "ab", "2.0.1", "abc", False),
            ("2.0.0", "ab", "2.1.0", "abc", True), ("2.1.0", "ab", "2.2.0", "ac", False), ("2.1.0", "ab", "3.0.0", "ac", True),
            ("2.1.0", "ab", "2.2.0", "a", False), ("2.1.0", "ab", "2.0.0", "ab", False), ("2.9.0", "ab", "2.10.0", "abc", True)]
    return [f"{row}" for row in rows if (refusal(*row[:4]) is None) != row[4]]


def listed_answers():
    """The answers that a contract lists whole, by the name of the call."""
    texts = "".join(text_of(it) for it in sorted(glob("crates/afdx/src/*.rt", root_dir=ROOT)))
    contracts = {name: contract for name, contract in re.findall(r'pub extern "C" fn (\w+)(.*?)\n\{\n', texts, re.DOTALL)}
    found = {name: re.search(r"answers \{ IsOneOf result \((DONE [\w ∷]+)∷ \[\]\) \}", it) for name, it in contracts.items()}
    return {name: ["AFDX_OK", *(f"AFDX_{it}" for it in re.findall(r"\w+", it[1])[1:])] for name, it in found.items() if it}


def answer_faults():
    """The calls whose comment in a header has other answers than the contract lists, or has them in another order."""
    headers, listed = "".join(map(text_of, HEADERS)), listed_answers()
    told = {name: re.findall(r"AFDX_\w+", text.rpartition("@return")[2])
            for text, name in re.findall(r"/\*\*((?:(?!\*/).)*)\*/\nuint8_t (\w+)\(", headers, re.DOTALL)}
    wrong = [f"{name}: {told.get(name)}, by its contract {wanted}" for name, wanted in listed.items() if told.get(name) != wanted]
    return wrong if listed else ["no contract lists answers"]


def main():
    with tempfile.TemporaryDirectory() as room:
        lines = interface(room)
        if "--write" in sys.argv:
            told = refusal(*written(), version(), lines) if os.path.exists(f"{ROOT}/{PLACE}") else None
            if told is None:
                with open(f"{ROOT}/{PLACE}", "w", encoding="utf-8") as file:
                    file.write("\n".join([f"version {version()}", *lines]) + "\n")
        else:
            told = (faults(room) or [None])[0]
    print(told or f"{len(lines)} lines of version {version()}")
    return 1 if told else 0


if __name__ == "__main__":
    sys.exit(main())
