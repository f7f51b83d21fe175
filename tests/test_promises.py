#!/usr/bin/env python3
"""Tests tools/promises.py: in a copy of the tree each mistake that it has to find is planted, alone, and told. The last line
is 'N passed, M failed'."""
import os
import re
import shutil
import subprocess
import sys
import tempfile

# (no compiled copy is left beside the scripts)
sys.dont_write_bytecode = True
from trying import ROOT, Tries

MATRIX = "docs/assurance/promises.toml"
MUX = "crates/redundant_mux/src/mux.rt"
EDIT = "crates/redundant_mux/must-fail/new_begins_with_b_down.edit"
# A file, a text that it has, the text in its place, and what has to be told.
MISTAKES = {
    "a promise is a premise": (MUX, "ensures stays_down {", "requires stays_down {", "redundant_mux::Mux::hand has no clause stays_down"),
    "a clause of Unit": (MUX, r"(ensures b_failures) \{.*\}", r"\1 { Unit }", "redundant_mux::Mux::into_networks: its clause b_failures says nothing"),
    "an empty clause": (MUX, r"(ensures b_failures) \{.*\}", r"\1 { }", "redundant_mux::Mux::into_networks: its clause b_failures says nothing"),
    "an empty clause of two lines": (MUX, r"(ensures b) \{ Handing [^}]*\}", "\\1 {\n        Unit }", "redundant_mux::Mux::hand: its clause b says nothing"),
    "a clause is gone": (MUX, r"(?m)^ +ensures stays_down .*\n", "", "redundant_mux::Mux::hand has no clause stays_down"),
    "an edit that changes nothing": (EDIT, r"(?m)^old:(.*)\nnew:.*", r"old:\1\nnew:\1", "the edit redundant_mux/new_begins_with_b_down changes nothing"),
    "an edit of blanks": (EDIT, r"(?m)^old:(.*)\nnew:.*", r"old:\1\nnew:  \1", "the edit redundant_mux/new_begins_with_b_down changes nothing"),
    "an edit without texts": (EDIT, r"(?m)^(old|new):.*\n?", "", "the edit redundant_mux/new_begins_with_b_down changes nothing"),
    "a row that nothing shows": (MATRIX, r'(?m)^by = \[$((?:\n    .*)+\n\])\n(?:(?:edits|tests) = .*\n)+', r"by = [\1\n", "neither an edit nor a test"),
    "a tested row without a test": (MATRIX, r'by = "tested"\ntests = .*', 'by = "tested"\ntests = []', "no clause and no test"),
    "an unknown test": (MATRIX, r'tests = \["', 'tests = ["tests/no.py::such", "', "no test tests/no.py::such"),
    "an edit in no row": (MATRIX, "redundant_mux/new_begins_with_b_down", "redundant_mux/outbox_fails_once", "no row has the edit redundant_mux/new_begins_with_b_down"),
}


def told(tree: str) -> tuple[int, str]:
    """The exit status of the script in a tree, and what it prints."""
    ran = subprocess.run([sys.executable, f"{tree}/tools/promises.py"], capture_output=True, text=True, check=False)
    return ran.returncode, ran.stdout


def planted(tree: str, path: str, old: str, new: str) -> tuple[int, str]:
    """What the script says with a mistake in a file, which is then as it was."""
    with open(f"{tree}/{path}", encoding="utf-8") as file:
        text = file.read()
    with open(f"{tree}/{path}", "w", encoding="utf-8") as file:
        file.write(re.sub(old, new, text, count=1))
    answer = told(tree)
    with open(f"{tree}/{path}", "w", encoding="utf-8") as file:
        file.write(text)
    return answer


def main() -> int:
    tries = Tries()
    with tempfile.TemporaryDirectory() as room:
        tree = f"{room}/tree"
        shutil.copytree(ROOT, tree, ignore=shutil.ignore_patterns("out", ".git"))
        status, lines = told(tree)
        tries.show("the tree as it is", [] if status == 0 else lines.splitlines())
        for name, (path, old, new, wanted) in MISTAKES.items():
            status, lines = planted(tree, path, old, new)
            is_told = any(line.endswith(wanted) for line in lines.splitlines())
            tries.show(name, [] if status == 1 and is_told else [f"{status}, {lines[-500:]}"])
    return tries.end()


if __name__ == "__main__":
    os.chdir(ROOT)
    sys.exit(main())
