#!/usr/bin/env python3
"""Checks the matrix of promises against the tree, or writes its pages.

    python3 tools/promises.py [--write]

`docs/assurance/promises.toml` states each promise with the clauses that carry it, the edits that must fail, and tests.
Each name in it must exist, each clause must be an `ensures` that says something, and each row but a trusted one must
have an edit or a test. Each public function with a contract and each edit must be in it, and each edit must change its
text. The pages next to it must be what it yields; `--write` writes them. The last line is 'N passed, M failed', the exit
status 0 if nothing failed.
"""
import os
import re
import sys
import tomllib
from glob import glob
from graphlib import TopologicalSorter

# (no compiled copy is left beside the scripts)
sys.dont_write_bytecode = True
sys.path.append(f"{os.path.dirname(os.path.dirname(os.path.abspath(__file__)))}/tests")
from trying import ROOT, text_of

FOLDER = "docs/assurance"
BLOCK = re.compile(r"(?:pub )?(?:impl|(trait))\b(?:<.*?>)? (?:(.+) for )?(\w+)")
FUNCTION = re.compile(r' *(pub(?:\(\w+\))? )?(?:const )?(extern "C" )?fn (\w+)')
FUNCTION_NAMED = re.compile(r"(\w+)::((?:\w+::)?)(\w+)(.*)")
CLAUSE = re.compile(r"\s+(ensures|requires)\*? (\w*) ?\{")
# The bodies of clauses that say nothing.
NOTHING = ("", "Unit", "Unit {0}", "⊤")
USE = re.compile(r"(?m)^(?:pub )?use Rattle\.(\w+)\.specs\.(\w+)\.\{(.*)\}")
DEFINITION = re.compile(r"(?m)^(?:pub )?(?:abbrev|record|data|unfoldable) (?:pub )?(?=\w)")
NO_DEFINITION = re.compile(r"(?m)^(?:(?:pub )?use |\s*--).*\n|^\s*\n")


def texts(pattern):
    """The text of each file that matches, by its path."""
    return {path: text_of(path) for path in sorted(glob(pattern, root_dir=ROOT, recursive=True))}


def body_of(text):
    """The body of a clause: the text up to the brace that closes it."""
    depth = 1
    for brace in re.finditer(r"[{}]", text):
        depth += 1 if brace[0] == "{" else -1
        if depth == 0:
            return " ".join(text[: brace.start()].split())
    return ""


def functions_of(crate, sources):
    """Each function with a contract, by its path: the clauses that it ensures with their bodies, and whether other crates
    can call it."""
    lib, found = sources[f"crates/{crate}/src/lib.rt"], {}
    modules = set(re.findall(r"(?m)^pub mod (\w+)", lib))
    shown = {word for use in re.findall(r"(?m)^pub use ([^;]*)", lib) for word in re.findall(r"\w+", use)}
    for path, text in sources.items():
        module, owner, of_trait, name = os.path.basename(path)[:-3], "", None, ""
        at = 0
        for line in text.splitlines(keepends=True):
            at += len(line)
            line = line.removesuffix("\n")
            if block := BLOCK.match(line):
                of_trait, owner = block[1] or block[2], f"{block[3]}::"
            elif line.startswith("}"):
                owner = ""
            if function := FUNCTION.match(line):
                word = owner[:-2] or function[3]
                inner = f"{module}::" if module in modules and word not in shown else ""
                is_public = function[2] or (function[1] == "pub " or owner and of_trait) and (inner or word in shown)
                name = "" if line.endswith("{") else f"{crate}::{inner}{owner}{function[3]}"
            elif line.strip() == "{":
                name = ""
            elif name and (clause := CLAUSE.match(line)):
                clauses = found.setdefault(name, ([], bool(is_public)))[0]
                if clause[1] == "ensures":
                    clauses.append((clause[2], body_of(text[at - len(line) - 1 + clause.end() :])))
    return found


def read_tree():
    """What a row may name: functions with their clauses, edits with their texts, and tests of the crates."""
    functions, tests = {}, set()
    for lib in texts("crates/*/src/lib.rt"):
        sources = texts(f"{os.path.dirname(lib)}/**/*.rt")
        named = re.findall(r"#\[test\]\s+fn (\w+)", "\n".join(sources.values()))
        tests.update(named)
        functions |= {} if named else functions_of(lib.split("/")[1], sources)
    return functions, {"/".join(it[:-5].split("/")[1::2]): text for it, text in texts("crates/*/must-fail/*.edit").items()}, tests


def changes(edit):
    """Whether an edit replaces each of its texts by another one."""
    old, new = (re.findall(rf"(?m)^{word}:(.*)", edit) for word in ("old", "new"))
    return 0 < len(old) == len(new) and all(one.split() != other.split() for one, other in zip(old, new))


def is_test(name, tests):
    """Whether it is a test of a crate, a function of a script (`file::function`), or a file."""
    file, _, function = name.rpartition("::")
    if not file:
        return name in tests or os.path.isfile(f"{ROOT}/{name}")
    return os.path.isfile(f"{ROOT}/{file}") and re.search(rf"(?m)^(?:\w+ )*{function}\(", text_of(file)) is not None


def findings(source, functions, edits, tests):
    """What is wrong with each name of the matrix, and which names it lacks: '' if all is well."""
    rows = [row for group in source["group"] for row in group["row"]]
    named, edited = set(), {edit for row in rows for edit in row.get("edits", [])}
    for row in rows:
        it, by = f"'{row['says'][:60]}'", row.get("by")
        if not by or isinstance(by, str):
            yield "" if by == "trusted" or by == "tested" and row.get("tests") else f"{it}: no clause and no test"
            by = []
        elif not row.get("edits") and not row.get("tests"):
            yield f"{it}: neither an edit nor a test"
        for path, _, clauses in (text.rstrip("]").partition(" [") for text in by):
            named.add(path)
            has = [clause for clause, _ in functions.get(path, ([],))[0]]
            yield "" if has else f"{it}: no function with a contract: {path}"
            yield from ("" if clause in has or not has else f"{it}: {path} has no clause {clause}" for clause in clauses.split())
        yield from ("" if edit in edits else f"{it}: no edit {edit}" for edit in row.get("edits", []))
        yield from ("" if is_test(test, tests) else f"{it}: no test {test}" for test in row.get("tests", []))
    for path in (path for group in source["supporting"] for path in group["functions"]):
        yield "" if path in functions and path not in named else f"supporting: no function with a contract, or in a row: {path}"
        named.add(path)
    yield from ("" if path in named else f"no row has the public function {path}" for path, (_, public) in functions.items() if public)
    yield from ("" if edit in edited else f"no row has the edit {edit}" for edit in sorted(edits))
    yield from ("" if changes(text) else f"the edit {edit} changes nothing" for edit, text in sorted(edits.items()))
    empty = ((path, clause) for path, (clauses, _) in functions.items() for clause, body in clauses if body in NOTHING)
    yield from (f"{path}: its clause {clause} says nothing" for path, clause in empty)


def cell(names, home):
    """Clauses in a cell: a function without its crate if that is the group's, and without its crate and its type if the
    one before it has them. `f/g [clauses]` are those of each."""
    shown, before = [], ["", "", ""]
    for name in names:
        crate, owner, last, clauses = FUNCTION_NAMED.fullmatch(name).groups()
        if clauses and [crate, owner, clauses] == before:
            shown[-1] = f"{shown[-1].removesuffix(clauses)}/{last}{clauses}"
        elif [crate, owner] == before[:2]:
            shown.append(f"{last}{clauses}")
        else:
            shown.append(name.removeprefix(f"{home}::") if before[0] in ("", home) or crate != home else name)
        before = [crate, owner, clauses]
    return f"`{', '.join(shown)}`"


def shortest(name, names):
    """The first words of a name, two at least, with which none of the other names begins."""
    words = name.split("_")
    starts = ("_".join(words[:count]) for count in range(2, len(words)))
    return next((it for it in starts if sum(other.startswith(it) for other in names) == 1), name)


def test_cell(row, tests):
    """Tests in a cell: a function after its file's name, which the one before it in that file has for both."""
    shown, last = [], ""
    for name in row.get("tests", []):
        file, _, function = name.rpartition("::")
        stem = os.path.basename(file).partition(".")[0].removeprefix("test_")
        shown.append(function if file and file == last else f"{stem}::{function}" if file else shortest(name, tests))
        last = file
    return f"`{', '.join(shown)}`" if shown else ""


def promises_page(source, edits, tests):
    """The matrix, a table for each group, which has in its heading the crate that most of its functions are of."""
    lines, wrongs = ["# Promises", "", source["about"].strip()], [it.partition("/")[2] for it in edits]
    for group in source["group"]:
        crates = [it.partition("::")[0] for row in group["row"] if not isinstance(row["by"], str) for it in row["by"]]
        home = max(crates, key=crates.count, default="")
        lines += ["", f"## {group['name']}{home and f' (`{home}`)'}", "", "Promise|By|Edits|Tests", "-|-|-|-"]
        for row in group["row"]:
            by = row["by"] if isinstance(row["by"], str) else cell(row["by"], home)
            wrong = ", ".join(shortest(it.partition("/")[2], wrongs) for it in row.get("edits", []))
            lines.append("|".join([row["says"], by, wrong and f"`{wrong}`", test_cell(row, tests)]).rstrip("|"))
    count = sum(len(it["functions"]) for it in source["supporting"])
    lines += ["", f"Of {count} more public functions with a contract `promises.toml` says why no row has them.", ""]
    return "\n".join(lines)


def headline_page(source, results):
    """The headline's reading list: of each clause the definitions that no clause before it has, lowest first."""
    modules = {f"{it.split('/')[1]}.{os.path.basename(it)[:-5]}": text for it, text in texts("crates/*/specs/*.antt").items()}
    uses = {it: [(f"{crate}.{file}", names.split(", ")) for crate, file, names in USE.findall(text)] for it, text in modules.items()}
    parts = [(it, part) for it, text in modules.items() for part in DEFINITION.split(NO_DEFINITION.sub("", text))[1:]]
    bodies = {(it, re.match(r"\w+", part)[0]): part for it, part in parts}
    order = [*TopologicalSorter({it: [used for used, _ in pairs] for it, pairs in uses.items()}).static_order()]
    listed, lines = set(), ["# What the headline rests on", "", source["reading"].strip()]
    for clause in source["headline"]:
        todo, before = [tuple(it.rsplit(".", 1)) for it in clause["rests"]], {*listed}
        results += ["" if it in bodies else f"headline: no definition {'.'.join(it)}" for it in todo]
        while todo:
            name = todo.pop()
            if name in bodies and name not in listed:
                listed.add(name)
                words = {*re.findall(r"\w+", bodies[name])}
                # (a name may stand for another here: `used as name`)
                todo += [(it, used.split()[0]) for it, names in [(name[0], words), *uses[name[0]]] for used in names if used.split()[-1] in words]
            elif name not in bodies:
                # (a `pub use` of another module's)
                todo += [(it, name[1]) for it, names in uses.get(name[0], []) if name[1] in names]
        new = [it for it in bodies if it in listed - before]
        lines += ["", f"**{clause['says']}** {sum(bodies[it].count(chr(10)) for it in new)} lines, {len(new)} definitions.", ""]
        of = {it.replace(".", "/"): [name for module, name in new if module == it] for it in order if it in dict(new)}
        # (after the first clause definitions are counted alone)
        if before:
            lines.append(", ".join(f"`{it}` {len(names)}" for it, names in of.items()))
        else:
            lines += [f"- `{it}`: {', '.join(names)}" for it, names in of.items()]
    return "\n".join([*lines, ""])


def main():
    source = tomllib.loads(text_of(f"{FOLDER}/promises.toml"))
    functions, edits, tests = read_tree()
    results = [*findings(source, functions, edits, tests)]
    pages = {"promises.md": promises_page(source, edits, tests), "headline.md": headline_page(source, results)}
    for name, text in pages.items():
        if "--write" in sys.argv:
            with open(f"{ROOT}/{FOLDER}/{name}", "w", encoding="utf-8") as file:
                file.write(text)
        results.append("" if text_of(f"{FOLDER}/{name}") == text else f"{FOLDER}/{name} isn't what promises.toml yields: run tools/promises.py with --write")
    faults = [it for it in results if it]
    print("".join(f"{it}\n" for it in faults), end="")
    print(f"{len(results) - len(faults)} passed, {len(faults)} failed")
    return 1 if faults else 0


if __name__ == "__main__":
    sys.exit(main())
