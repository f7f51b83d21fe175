#!/usr/bin/env python3
"""Counts the comments of sources and definitions that have a shape that makes them hard to read.

    python3 tools/comments.py

Prints each such comment with its place and its shapes, and last their number, with exit status 1 if that is over LIMIT.
"""
import os
import re
import sys
from glob import glob

ROOT = os.path.dirname(os.path.dirname(os.path.abspath(__file__)))
LIMIT = 40
COMMENT = re.compile(r"\s*(?:///?|//!|--)(?: (.*))?$")
FUNCTION = re.compile(r' *(?:pub(?:\(\w+\))? )?(?:const )?(?:extern "C" )?fn \w')
SHAPES = {
    "begins with a question": re.compile(r"(?i)(?:What|Where|Whose|Whether|How|Which|Why|That)\b"),
    "leans on the one above": re.compile(r"(?i)(?:The same|These|Those|This|It|Its|They|Their|And|So|Such|As above)\b"),
    "possessive with of": re.compile(r"(?i).*\b(?:(?:those|these|is|are|the same) of|of which|of whom)\b"),
}
# A function's comment begins with a verb in the third person: a word in -s that isn't one of these.
NO_VERBS = set("As Bytes Frames Its Less Links Messages Networks Numbers Plus Ports Units Unless".split())


def comments(text: str):
    """Each comment: its first line's number, its words, the attributes after it, and the lines after these."""
    start, words, attributes, lines = 0, [], "", [*text.splitlines(), ""]
    for number, line in enumerate(lines, 1):
        if comment := COMMENT.match(line):
            start = start if words else number
            words.append(comment[1] or "")
        elif words and line.lstrip().startswith("#["):
            attributes += line
        elif words:
            yield start, " ".join(words).lstrip("("), attributes, lines[number - 1 :]
            words, attributes = [], ""


def lacks_verb(path: str, words: str, attributes: str, code: list[str]) -> bool:
    """Whether a comment should begin with a verb, and doesn't. A test's or a law's is a statement: a law is a function
    in a file of laws, or one with an empty body."""
    if not FUNCTION.match(code[0]) or "#[test]" in attributes or path.endswith("laws.rt"):
        return False
    body = next((line for line in code if re.match(r"(?! *//).*(\{\}?|;)$|$", line)), "")
    first = re.match(r"\w*", words)[0]
    return not body.endswith("{}") and (not first.endswith("s") or first in NO_VERBS)


def hard(path: str):
    """Each comment of a file in a hard shape: its first line's number, its shapes, and its words."""
    with open(f"{ROOT}/{path}", encoding="utf-8") as file:
        text = file.read()
    for start, words, attributes, code in comments(text):
        found = [name for name, shape in SHAPES.items() if shape.match(words)]
        found += ["no verb"] * lacks_verb(path, words, attributes, code)
        if found:
            yield start, ", ".join(found), words


def main() -> int:
    count = 0
    for pattern in ("crates/*/src/**/*.rt", "crates/*/specs/**/*.antt"):
        for path in sorted(glob(pattern, root_dir=ROOT, recursive=True)):
            for line, shapes, words in hard(path):
                print(f"{path}:{line}: {shapes}: {words[:100]}")
                count += 1
    print(f"{count} comments in a hard shape, at most {LIMIT} allowed")
    return int(count > LIMIT)


if __name__ == "__main__":
    sys.exit(main())
