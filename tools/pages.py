#!/usr/bin/env python3
"""Makes the parts of pages that are read from the tree: which crate stands on which, contracts of public functions,
texts.

    python3 tools/pages.py [--write]

Such a part is a block under a line `<!-- the drawing of crates.txt -->`, `<!-- contracts of FILE: NAME, NAME -->` or
`<!-- the text of FILE -->`.
Prints the pages in which a block isn't what the tree yields, with exit status 1. `--write` writes the blocks instead.
"""
import os
import re
import sys
from glob import glob

ROOT = os.path.dirname(os.path.dirname(os.path.abspath(__file__)))
NAMED = r"the drawing of crates.txt|the text of (?P<text>\S+)|contracts of (?P<source>\S+): (?P<names>.*?)"
PART = re.compile(rf"(?s)(?P<head><!-- (?:{NAMED}) -->\n```(?:rust)?\n).*?(?P<end>```\n)")


def text_of(path: str) -> str:
    with open(f"{ROOT}/{path}", encoding="utf-8") as file:
        return file.read()


def libraries() -> dict[str, list[str]]:
    """Each crate with the libraries that it stands on, as crates.txt has them."""
    rows = [line.partition(":") for line in text_of("crates.txt").splitlines() if not line.startswith("#")]
    return {name.split()[0]: rest.split() for name, _, rest in rows}


def below(crates: dict[str, list[str]], crate: str) -> set[str]:
    """All crates that one stands on, directly or not."""
    direct = [it for it in crates[crate] if it in crates]
    return set(direct).union(*(below(crates, it) for it in direct))


def drawing() -> str:
    """A row for each crate, a column for each crate that another one stands on, and the kit's libraries."""
    crates = libraries()
    # (the highest first: a crate is above all that it stands on)
    order = sorted(crates, key=lambda it: (-len(below(crates, it)), it))
    columns = [it for it in order if any(it in others for others in crates.values())]
    width = max(map(len, order))
    lines = [f"{'':{width + 4}}{' '.join(f'{k:2}' for k in range(1, len(columns) + 1))}"]
    for crate in order:
        own = [it for it in crates[crate] if it in crates]
        implied = set().union(*(below(crates, it) for it in own))
        marks = ["  " if it not in own else " o" if it in implied else " #" for it in columns]
        number = columns.index(crate) + 1 if crate in columns else ""
        kit = " ".join(it for it in crates[crate] if it not in crates)
        lines.append(f"{number:2} {crate:{width}} {' '.join(marks)}  {kit}".rstrip())
    return "\n".join(lines) + "\n"


def contract(path: str, name: str) -> str:
    """What a source says of a public function: its comment, its signature and its clauses."""
    found = re.search(rf"(?m)^((?: *///.*\n| *#\[.*\n)*)( *pub fn {name}\b(?:.*\n)*?) *\{{\n", text_of(path))
    if not found:
        raise ValueError(f"{path} has no public function {name}")
    comment = [line for line in found[1].splitlines() if line.lstrip().startswith("///")]
    indent = found[2].index("pub")
    return "".join(f"{line[indent:]}\n" for line in [*comment, *found[2].splitlines()])


def made(found: re.Match) -> str:
    """A part of a page, as the tree yields it."""
    if found["text"]:
        part = text_of(found["text"])
    elif found["source"]:
        part = "\n".join(contract(found["source"], name) for name in found["names"].split(", "))
    else:
        part = drawing()
    return found["head"] + part + found["end"]


def main() -> int:
    if sys.argv[1:] not in ([], ["--write"]):
        print("usage: pages.py [--write]", file=sys.stderr)
        return 2
    stale = 0
    for page in sorted([*glob("docs/**/*.md", root_dir=ROOT, recursive=True), *glob("crates/*/*.md", root_dir=ROOT)]):
        text = text_of(page)
        wanted = PART.sub(made, text)
        if text == wanted:
            continue
        if not sys.argv[1:]:
            print(f"{page}: a part isn't what the tree yields: run tools/pages.py with --write")
            stale = 1
        else:
            with open(f"{ROOT}/{page}", "w", encoding="utf-8") as file:
                file.write(wanted)
    return stale


if __name__ == "__main__":
    sys.exit(main())
