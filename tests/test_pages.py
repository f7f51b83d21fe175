#!/usr/bin/env python3
"""Tests what README.md and the guides show: the program prints what they say of the same plan, script and recording,
code that they quote and names that they use stand in the tree, their pictures are what the tree yields, and their paths
and links lead to files, and to headings there. And no line of a source or of definitions is wider than CONTRIBUTING.md says, and their
comments have the shape that it asks for (`tools/comments.py`). The last line is 'N passed, M failed', with
', K skipped' without tshark."""
import os
import re
import subprocess
import sys
import tempfile
from glob import glob

sys.dont_write_bytecode = True
from trying import ROOT, Tries, blocks, built, started, text_of

sys.path.append(f"{ROOT}/tools")
import pictures

PAGES = ["README.md", "CONTRIBUTING.md", *sorted(glob("docs/**/*.md", root_dir=ROOT, recursive=True)), *sorted(glob("crates/*/*.md", root_dir=ROOT))]
# A plan with the faults that program.md shows.
FAULTY = """[end_system]\nid = "1"\n\n[[vl]]\nid = 6\nbag_ms = 1\nlmax = 64\nsub_vls = 1\ncapacity = 1
[[vl]]\nid = 7\nlmax = 63\nbag_ms = 3\nsub_vls = 1\ncapacity = 2
[[port]]\nid = 20\nvl = 6\nsub = 0\npartition = 1\nkind = "queuing"\nsource = 1\ndestination = 2\nmax = 3\n"""


def without_packet(capture, k):
    """A capture of ours without packet k, from 1: its first three blocks are the section and two interfaces."""
    at = ends = 0
    for _ in range(3 + k):
        at, ends = ends, ends + int.from_bytes(capture[ends + 4 : ends + 8], "little")
    return capture[:at] + capture[ends:]


def shown(program, folder):
    """Commands that pages show, each with its run and what they say that it prints."""
    def ran(*words, **how):
        how = {"stdout": subprocess.PIPE, "stderr": subprocess.STDOUT, "text": True, **how}
        return started(program, words, cwd=folder, **how).stdout

    def write(name, data):
        with open(f"{folder}/{name}", "wb") as file:
            file.write(data)

    quick, wanted, *_ = blocks("README.md")
    yield "README.md", ran(input=re.search("'(.*)'", quick)[1].encode().decode("unicode_escape")), wanted
    script, transcript, document, refused, scheduled, faults, storm, _ = blocks("docs/guide/program.md")
    _, traffic, queues, memory, shared = blocks("docs/guide/report.md")
    plan = blocks("docs/guide/plan.md")[0]
    for name, text in {"plan.toml": plan, "script.txt": script, "traffic.csv": traffic}.items():
        write(name, text.encode())
    table = next(it for it in blocks("docs/guide/table.md") if "AFDXPLAN" in it)
    numbers = "".join(re.findall(r"(?m)^([0-9a-f ]+?)  ", table)).replace(" ", "")
    yield "compile", ran("compile", "plan.toml", text=False).hex(), numbers
    # (the pages show the lines of A, from which those of B differ in byte 11)
    others = re.sub("(?m)^A (.* .{22})20", r"B \g<1>40", transcript.partition("\n")[2])
    yield "run", ran("run", "plan.toml", "script.txt", "--capture", "run.pcapng"), transcript + others
    verdict = "loads within limits, jitter within limits, deadlines kept of accepted messages, queues suffice, partitions apart"
    told = ran("report", "plan.toml", "--traffic", "traffic.csv")
    yield "report", told.partition("\n")[0], verdict
    yield "report, queues", told[-len(queues) :], queues
    yield "report, memory", ran("report", "plan.toml")[-len(memory) :], memory
    for name in "ab":
        write(f"{name}.toml", text_of("examples/c/demo.toml").encode())
    yield "check, two plans", ran("check", "a.toml", "b.toml"), shared
    write("interface.csv", document.encode())
    yield "import", ran("import", "interface.csv"), refused
    yield "schedule", ran("schedule", "plan.toml", "--traffic", "traffic.csv", "--seconds", "1", "--seed", "1")[: len(scheduled)], scheduled
    yield "storm", ran("storm", "plan.toml", "--messages", "1000", "--turns", "1000000000"), storm
    with open(f"{folder}/run.pcapng", "rb") as file:
        write("run.pcapng", without_packet(file.read(), 4))
    wanted = next(it for it in blocks("docs/guide/judge.md") if " findings: " in it)
    yield "judge", ran("judge", "plan.toml", "run.pcapng", "--skew", "100"), wanted
    write("plan.toml", FAULTY.encode())
    yield "explain", ran("explain", "plan.toml"), faults


def bench_day(program, folder):
    """The commands of the page on a bench day, each with its run and what the page says that it prints."""
    def ran(*words):
        return started(program, words, cwd=folder, stdout=subprocess.PIPE, stderr=subprocess.STDOUT, text=True).stdout

    def save(name, text):
        with open(f"{folder}/{name}", "w", encoding="utf-8") as file:
            file.write(text)

    document, plan, refused, begins, judged = blocks("docs/guide/bench.md")
    save("interface.csv", document.replace("trim,1", "trim,2").replace("queuing,1002", "queing,1002"))
    yield "bench day, faults", ran("import", "interface.csv"), refused
    save("interface.csv", document)
    save("plan.toml", ran("import", "interface.csv"))
    yield "bench day, import", ran("import", "interface.csv"), plan
    report = ran("report", "plan.toml", "--traffic", "interface.csv", "--html", "report.html")
    yield "bench day, report", report, blocks("docs/guide/report.md")[0]
    save("script.txt", ran("schedule", "plan.toml", "--traffic", "interface.csv", "--seconds", "10", "--seed", "1"))
    with open(f"{folder}/script.txt", encoding="utf-8") as file:
        yield "bench day, schedule", file.read()[: len(begins)], begins
    yield "bench day, run", ran("run", "plan.toml", "script.txt", "--capture", "run.pcapng")[:2], "A "
    yield "bench day, judge", ran("judge", "plan.toml", "run.pcapng"), judged


def dead_links(page):
    """The links and the paths in a page that lead nowhere."""
    for path in re.findall(r"`((?:crates|tests|tools|bindings|install|examples|bench)/[\w./]+)`", text_of(page)):
        if not re.search("NAME|/a/", path) and not os.path.exists(f"{ROOT}/{path}"):
            yield f"{page}: {path}"
    for link in re.findall(r"\]\((?!https?:)([^)]+)\)", text_of(page)):
        path, _, heading = link.partition("#")
        target = os.path.normpath(f"{os.path.dirname(page)}/{path}") if path else page
        is_there = os.path.exists(f"{ROOT}/{target}")
        titles = re.findall(r"(?m)^#+ (.*)$", text_of(target)) if is_there and heading else []
        anchors = [re.sub(r"[^\w -]", "", it.lower()).replace(" ", "-") for it in titles]
        if not is_there or heading and heading not in anchors:
            yield f"{page}: {link}"


def not_in_tree(page):
    """The texts in Rattle that a page shows, and that stand in no source and no definition."""
    files = glob("crates/*/src/*.rt", root_dir=ROOT) + glob("crates/*/specs/*.antt", root_dir=ROOT)
    written = "\n".join(re.sub(r"(?m)^ *#\[.*\n|^ +", "", text_of(it)) for it in files)
    for block in re.findall(r"(?ms)^```rust\n(.*?)^```$", text_of(page)):
        for part in block.split("\n\n"):
            if re.sub(r"(?m)^ +", "", part.strip("\n")) not in written:
                yield f"{page}: {part[:200]}"


def words_of_tree():
    """The words of all files that aren't pages, of what is committed."""
    words = set()
    for folder, folders, files in os.walk(ROOT):
        folders[:] = [it for it in folders if it not in (".git", "out", "docs", "target", "__pycache__")]
        for name in files:
            if not name.endswith(".md"):
                with open(f"{folder}/{name}", encoding="utf-8", errors="replace") as file:
                    words.update(re.findall(r"\w+", file.read()))
    return words


def unknown_names(page, words):
    """The names in backticks on a page with a word that no other file has: of functions, clauses, keys, files."""
    for name in re.findall(r"`([A-Za-z_][\w:.]*(?:\([^`\n]*\))?)`", re.sub(r"(?ms)^```.*?^```$", "", text_of(page))):
        if any(it not in words and not it.isdigit() for it in re.findall(r"\w+", name)):
            yield f"{page}: {name}"


def too_wide(path):
    """The lines of a source or of definitions that have over 120 columns: imports, tactics and texts may."""
    is_in_text = False
    for number, line in enumerate(text_of(path).splitlines(), 1):
        is_code = not re.match(r" *(//|--|(ghost |unfoldable |pub )*use |#\[tactic)", line)
        is_text = is_in_text or line.lstrip().startswith('"')
        if is_code and len(re.findall(r"""(?<![\\'])\"""", line)) % 2:
            is_in_text = not is_in_text
        if len(line) > 120 and not is_text and not re.match(r" *((ghost |unfoldable |pub )*use |#\[tactic)", line):
            yield f"{path}:{number}: {len(line)} columns"


def tried(program):
    """Which of the commands that pages show prints something else."""
    with tempfile.TemporaryDirectory(prefix="pages-") as folder:
        rows = [*shown(program, folder), *bench_day(program, folder)]
        return [f"{name}: printed {printed}, shown {wanted}" for name, printed, wanted in rows if printed != wanted], ""


def tried_pictures(tries, program):
    """The pictures that aren't what the tree yields, or too large, or not shown."""
    shown_by_pages = " ".join(text_of(page) for page in PAGES)
    for name, text in pictures.made(program).items():
        if text is None:
            tries.skip(f"no tshark for {name}")
        elif not pictures.is_kept(name, text):
            yield f"{name} isn't what the tree yields: run tools/pictures.py with --write"
        elif len(text.encode()) > 40_000 or "href" in text:
            yield f"{name}: {len(text.encode())} bytes, or something from elsewhere"
        elif f"pictures/{name}" not in shown_by_pages:
            yield f"{name}: no page shows it"


def main():
    tries = Tries()
    tries.show("paths and links", [link for page in PAGES for link in dead_links(page)])
    tries.show("texts in Rattle", [part for page in PAGES for part in not_in_tree(page)])
    # (tools/promises.py checks the names in promises.md, and shortens them there)
    words, named = words_of_tree(), [page for page in PAGES if not page.endswith("/promises.md")]
    tries.show("names", [name for page in named for name in unknown_names(page, words)])
    sources = glob("crates/*/src/*.rt", root_dir=ROOT) + glob("crates/*/specs/*.antt", root_dir=ROOT)
    tries.show("widths", [line for path in sorted(sources) for line in too_wide(path)])
    for name, tool in {"parts that tools/pages.py makes": "pages.py", "shapes of comments": "comments.py"}.items():
        words = [sys.executable, "-B", f"{ROOT}/tools/{tool}"]
        made = subprocess.run(words, capture_output=True, text=True, check=False)
        tries.show(name, [f"{made.stdout}{made.stderr}"] if made.returncode else [])
    for build, program in built("afdx_bench").items():
        tries.attempt(f"commands by {build}", lambda: tried(program))
        tries.attempt(f"pictures by {build}", lambda: ([*tried_pictures(tries, program)], ""))
    return tries.end()


if __name__ == "__main__":
    sys.exit(main())
