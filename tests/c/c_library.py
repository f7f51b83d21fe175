#!/usr/bin/env python3
"""Tries the C library as C sees it: the header, each call, and the example.

    python3 tests/c/c_library.py [--built] [--full]

Of what `rt ci` has left it takes the libraries of the crates and the program `afdx_bench`, and it takes a C compiler:
`CC`, or `cc`. It builds the C library first, which `rt ci` only proves, as `rt lib` does but without proving all below
it once more. With --built it takes the library that is there. The tests of the calls (`c_calls.c`, `owners.c`,
`memory.c`, `threads.c`, `lines.c`, `judging.c`) and the example are compiled with all warnings as errors, as they are
and with the sanitizers of addresses, leaks and undefined behaviour; `stack.c` and `costs.c` without these, which take
stack. If `tools/unproved.py` made the library, sanitizers
see its own accesses too, and `threads.c` runs with the sanitizer of threads. That test sends a million messages, but
20,000 with sanitizers and under valgrind; with --full a million there too. What the example prints with `--dump` has to
be what `afdx_bench run` prints. The last line is 'N passed, M failed', with ', K skipped' if a tool is missing, and the
exit status 0 exactly if nothing failed.
"""
import os
import re
import shutil
import subprocess
import sys
import tempfile
from glob import glob
from itertools import zip_longest

# (no compiled copy is left beside the scripts)
sys.dont_write_bytecode = True
sys.path.append(os.path.dirname(os.path.dirname(os.path.abspath(__file__))))
from trying import OTHER_CC, OTHER_LIBRARY, OTHER_RUNS, ROOT, Tries, compiler, other_lacks, text_of

sys.path += [f"{ROOT}/tests/judge", f"{ROOT}/tests/c"]
import abi
import calls
import costs

CRATE = f"{ROOT}/crates/afdx"
LIBRARY = f"{CRATE}/out/libafdx.a"
BENCH = f"{ROOT}/crates/afdx_bench/out/afdx_bench"
EXAMPLE = f"{ROOT}/examples/c"
WARNINGS = ["-Wall", "-Wextra", "-Werror", "-Wpedantic", "-g", "-O2"]
WRAPPED = ["-Wl,--wrap=malloc", "-Wl,--wrap=realloc", "-Wl,--wrap=free"]
SANITIZER = ["-fsanitize=address,undefined", "-fno-sanitize-recover"]
THREADS = ["-fsanitize=thread", "-DHAS_NO_TSAN_MEMCPY"]
VALGRIND = ["valgrind", "-q", "--fair-sched=yes", "--leak-check=full", "--show-leak-kinds=all", "--error-exitcode=9"]
# How many messages threads send together with the sanitizers and under valgrind.
FEW = [] if "--full" in sys.argv else ["20000"]

# What the example is to send: a configuration, and the words for its ports. All messages have room before the first poll.
SENDING = [
    ("demo.toml", ["10"]),
    ("demo.toml", ["10:2:8192"]),
    ("demo.toml", ["10:2:1472"]),
    ("demo.toml", ["10:2:1471"]),  # frames of 1,514 bytes, the greatest
    ("wire.toml", ["10:4:1000", "11:4:4000", "12:4:600"]),
    ("wire.toml", ["12:3:153", "11:1:1"]),
    ("wire.toml", ["11:0:1"]),
]


def kit():
    """The folder of the Rattle kit."""
    ran = subprocess.run(["rt", "doc"], capture_output=True, text=True, check=True)
    return os.path.dirname(ran.stdout.strip())


def libraries():
    """The names of the libraries that the library uses, and the folder of each that is built in the tree."""
    (named,) = re.findall(r"(?m)^afdx staticlib:(.*)$", text_of("crates.txt"))
    return named.split(), {os.path.basename(it)[: -len(".rlib")]: os.path.dirname(it) for it in glob(f"{ROOT}/crates/*/out/rlib/*.rlib")}


def build_words():
    """The command that proves and builds the library over the libraries below it, as `rattle build --help` states it."""
    of_kit, (named, own) = kit(), libraries()
    words = [f"{of_kit}/bin/rattle", "build", "--crate-name", "afdx", "src/lib.rt", "--crate-type", "staticlib"]
    words += [it for name in ["std", *named] for it in ("--extern", f"{name}={own.get(name, f'{of_kit}/rlibs')}/{name}.rlib")]
    words += [it for folder in sorted({f"{of_kit}/rlibs", *own.values()}) for it in ("-L", f"dependency={folder}")]
    words += ["--antt-project", f"{of_kit}/rattle/logic/antt-project.json", "--logic-built", f"{of_kit}/logic_built"]
    words += ["--toolchain", f"{of_kit}/toolchain", "--backend", "llvm", "--jobs", str(len(os.sched_getaffinity(0)))]
    return [*words, "-o", LIBRARY]


def ran(words, room=CRATE, timeout=600):
    """A run of a command, and what it wrote."""
    return subprocess.run(words, cwd=room, capture_output=True, text=True, timeout=timeout, check=False)


def said(it):
    """How a run ended, for a fault."""
    return f"status {it.returncode}: {it.stdout[-2000:]}{it.stderr[-2000:]}"


def is_built(tries):
    """Builds the library anew, and returns whether it could."""
    os.makedirs(os.path.dirname(LIBRARY), exist_ok=True)
    if os.path.exists(LIBRARY):
        os.remove(LIBRARY)
    named, own = libraries()
    if not own.keys() >= set(named):
        # (where `rt ci` has kept all crates, their libraries aren't there)
        ran(["rt", "lib"], timeout=None)
    build = ran(build_words(), timeout=None)
    is_there = build.returncode == 0 and os.path.isfile(LIBRARY)
    tries.show("building libafdx.a", [] if is_there else [said(build)])
    return is_there


def compiled(tries, room, name, source, flags):
    """The path of a program, compiled with these flags; `None` if the compiler refused it."""
    path = f"{room}/{name}"
    kinds = [it for flag in flags for it in re.findall(r"^-fsanitize=(\w+)", flag)]
    sanitized = f"{LIBRARY[:-2]}-{kinds[0]}.a" if kinds else ""
    archives = [sanitized if os.path.isfile(sanitized) else LIBRARY, f"{kit()}/c/liblibc_c.a", "-lpthread"]
    made = ran([compiler() or "cc", "-std=gnu11", *WARNINGS, *flags, f"-I{CRATE}", source, *archives, "-o", path])
    tries.show(f"compiling {name}", [made.stderr] if made.returncode else [])
    return None if made.returncode else path


def try_header(tries, room):
    """The header alone, as strict C99 and as C++."""
    source = f"{room}/header.c"
    with open(source, "w", encoding="utf-8") as file:
        file.write('#include "afdx_judge.h"\n#include "afdx_judge.h"\nint main(void) { return AFDX_A; }\n')
    ways = [(compiler(), ["-std=c99"]), (compiler("CXX", ("c++", "g++", "clang++")), ["-x", "c++", "-std=c++11"])]
    for program, flags in ways:
        if program is None:
            tries.skip("no C++ compiler")
            continue
        made = ran([program, *flags, "-pedantic-errors", *WARNINGS, f"-I{CRATE}", "-fsyntax-only", source])
        tries.show(f"the header, {' '.join(flags)}", [made.stderr] if made.returncode else [])


def try_calls(tries, room, name, source, flags, words=()):
    """Tests of the calls, whose last line counts them."""
    path = compiled(tries, room, name, f"{ROOT}/{source}", [*WRAPPED, *flags])
    if path is not None:
        try_counted(tries, room, name, [path, *words])


def try_target(tries, room):
    """Tests of the calls for another processor, under an emulator."""
    if other_lacks():
        tries.skip(f"no {other_lacks()}")
        return
    for name in ("c_calls", "owners", "memory", "lines", "judging", "stack"):
        path = f"{room}/{name}-other"
        sources = [f"{ROOT}/tests/c/{name}.c", f"{ROOT}/install/hook.c"]
        made = ran([OTHER_CC, "-std=gnu11", *WARNINGS, *WRAPPED, f"-I{CRATE}", *sources, OTHER_LIBRARY, "-lpthread", "-o", path])
        tries.show(f"compiling {name} by {OTHER_CC}", [made.stderr] if made.returncode else [])
        if made.returncode == 0:
            try_counted(tries, room, f"{name} under {OTHER_RUNS[0]}", [*OTHER_RUNS, path])


def try_counted(tries, room, name, words):
    """A program whose last line counts what it tested."""
    calls = ran(words, room, 3600)
    counts = re.fullmatch(r"([1-9]\d*) passed, 0 failed", calls.stdout.strip().rpartition("\n")[2])
    is_well = counts is not None and calls.returncode == 0 and not calls.stderr
    tries.show(f"{name}: {counts[0] if counts else 'no counts'}", [] if is_well else [said(calls)])


def try_memory(tries, room):
    """The memory that `afdx_bench report` prints of a plan is what the library takes."""
    plans = re.findall(r"(?m)^plan (\d+): (\d+ bytes)$", ran([f"{room}/memory", room], room).stdout)
    told = [ran([BENCH, "report", f"{room}/{plan}.toml"], room) for plan, _ in plans]
    faults = [said(it) for it, (_, held) in zip(told, plans) if not re.search(f"(?m)^memory {held}(, |$)", it.stdout)]
    tries.show(f"the memory of {len(plans)} plans by the bench", faults[:5] if plans else ["no plans"])


def try_threads(tries, room):
    """Threads that send, under valgrind, and with the sanitizer of threads if the library has it."""
    if shutil.which(VALGRIND[0]):
        try_counted(tries, room, "threads under valgrind", [*VALGRIND, f"{room}/threads", *FEW])
    else:
        tries.skip("no valgrind")
    if os.path.isfile(f"{LIBRARY[:-2]}-thread.a"):
        try_calls(tries, room, "threads-of-threads", "tests/c/threads.c", THREADS, FEW)


def finding_lines(case, room, program):
    """What `judging` prints of a recording, and how it ended."""
    files = {"plan": case.plan.encode(), **{f"capture{k}": data for k, data in enumerate(case.captures)}}
    for name, data in files.items():
        with open(f"{room}/{name}", "wb") as file:
            file.write(data)
    plan, *captures = files
    return ran([program, plan, *(str(int(it)) for it in case.words().values()), *captures], room)


def is_found(case, room, program):
    """Whether a recording's findings are the model's."""
    done = finding_lines(case, room, program)
    told = [line.split(" ", 4) for line in done.stdout.splitlines()]
    wanted = [[it.packet, it.network, it.at, -1 if it.link is None else it.link, f"{it.kind} {it.rule}".strip()] for it in case.found]
    names = [it.rsplit(" ", 2) for *_, it in told]
    is_same = [[*map(str, it)] for it in wanted] == [[*line[:4], name[0]] for line, name in zip(told, names)]
    has_numbers = all({*re.findall(r"\d+", it.told)} <= {*name[1:]} for it, name in zip(case.found, names))
    return is_same and has_numbers and not done.stderr and done.returncode == (45 if case.captured else 0)


def try_judging(tries, room, name):
    """What is found in recordings is what the model of `afdx_bench judge` finds."""
    faults = [case.name for case in calls.cases(4) if not is_found(case, room, f"{room}/{name}")]
    tries.show(f"{name}: recordings", faults[:5])


def in_python(names, room):
    """The names of findings by the Python package, over a shared library of its own."""
    os.environ["AFDX_LIBRARY"] = f"{room}/libafdx.so"
    archives = [LIBRARY, f"{kit()}/c/liblibc_c.a"]
    made = ran([compiler() or "cc", "-shared", "-Wl,--whole-archive", *archives, "-Wl,--no-whole-archive", "-o", os.environ["AFDX_LIBRARY"]])
    if made.returncode:
        raise RuntimeError(made.stderr)
    sys.path.append(f"{ROOT}/bindings")
    from afdx._findings import finding_of
    from afdx._library import FindingRow
    found = [finding_of(FindingRow(kind=kind, rule=rule)) for kind, rule in names]
    return [f"{it.kind} {it.rule}".strip() for it in found]


def try_findings(tries, room):
    """Each kind of findings and each rule has the judge's own name in C, C++ and Python, and no other number has one."""
    lists = dict(re.findall(r"(?ms)^pub enum (\w+) \{\n(.*?)^\}", text_of("crates/judge/src/finding.rt") + text_of("crates/afdx_frame/src/layout.rt")))
    names = {}
    for k, (kind, of) in enumerate(re.findall(r"(?m)^    (\w+)(?:\((\w+)\))?,$", lists["FindingKind"]), 1):
        rules = re.findall(r"(?m)^    (\w+),$", lists.get(of, ""))
        names |= {(k, 0): kind, **{(k, rule): f"{kind} {name}" for rule, name in enumerate(rules, 1)}}
    of_all = [names.get((k >> 8, k & 255), names.get((k >> 8, 0), "unknown finding")) for k in range(65_536)]
    for language, program in (("c", compiler()), ("c++", compiler("CXX", ("c++", "g++", "clang++")))):
        if program is not None:
            made = ran([program, *WARNINGS, f"-I{CRATE}", "-x", language, f"{ROOT}/tests/c/findings.c", "-o", f"{room}/findings"])
            told = [] if made.returncode else ran([f"{room}/findings"]).stdout.splitlines()
            rows = enumerate(zip_longest(told, of_all))
            wrong = [f"kind {k >> 8} rule {k & 255}: {it} for {wanted}" for k, (it, wanted) in rows if it != wanted]
            tries.show(f"{len(names)} names of findings, {language}", [made.stderr] * (made.returncode != 0) + wrong)
    tries.attempt("names of findings, Python", lambda: ([] if in_python(names, room) == [*names.values()] else [f"{in_python(names, room)}"], ""))


def script_of(words, last):
    """The script of what the example sends by these words, with a poll each 1,000 microseconds up to the last."""
    lines = []
    for word in words:
        port, messages, size = [*map(int, word.split(":")), 1, 1][:3]
        lines += [f"send {port} {bytes((k + 1 + i) % 256 for i in range(size)).hex()}" for k in range(messages)]
    return "\n".join([*lines, *(f"at {at}" for at in range(0, last + 1, 1000))]) + "\n"


def try_dump(tries, room, name, program, config, words):
    """What the example prints is what the bench prints."""
    dump = ran([program, "--dump", f"{EXAMPLE}/{config}", *words], room)
    times = [int(line.split(" ")[1]) for line in dump.stdout.splitlines()]
    script = f"{room}/script.txt"
    with open(script, "w", encoding="utf-8") as file:
        file.write(script_of(words, max(times, default=0)))
    wanted = ran([BENCH, "run", f"{EXAMPLE}/{config}", script], room)
    is_well = (dump.returncode, wanted.returncode, dump.stdout) == (0, 0, wanted.stdout)
    tries.show(f"{name} --dump {config} {' '.join(words)}, {len(times)} lines", [] if is_well else [said(dump), said(wanted)])


def try_full(tries, room, name, program):
    """More messages than there is room for: each is transmitted once, in order."""
    dump = ran([program, "--dump", f"{EXAMPLE}/demo.toml", "10:300:1"], room)
    lines = [line.split(" ") for line in dump.stdout.splitlines()]
    wanted = [((k + 1) % 256, 0 if k == 0 else 1 + (k - 1) % 255) for k in range(300)]
    for net in "AB":
        frames = [bytes.fromhex(words[2]) for words in lines if words[0] == net]
        is_well = [(frame[42], frame[-1]) for frame in frames] == wanted
        tries.show(f"{name}: 300 messages in order on {net}", [] if is_well else [f"{len(frames)} frames", said(dump)])


def try_words(tries, room, name, program):
    """Words that the example refuses."""
    demo = f"{EXAMPLE}/demo.toml"
    rows = [([], 2), (["--dump"], 2), (["--dump", "none.toml", "10"], 1), (["--dump", demo, "11"], 1),
            (["--dump", demo, "10", "10"], 1), (["--dump", demo, "10:1:1:1"], 1), (["--dump", demo, "10:1:8193"], 1)]
    for words, status in rows:
        refused = ran([program, *words], room)
        is_well = refused.returncode == status and refused.stderr and "Sanitizer" not in refused.stderr
        shown = " ".join(os.path.basename(word) for word in words)
        tries.show(f"{name} {shown}: status {status}", [] if is_well else [said(refused)])


def main():
    tries = Tries()
    with tempfile.TemporaryDirectory(prefix="c-library-") as room:
        try_header(tries, room)
        tries.attempt("the binary interface is the one of its version", lambda: (abi.faults(room) + abi.rule_faults(), ""))
        tries.attempt("answers of calls in the headers and in contracts", lambda: (abi.answer_faults(), ""))
        if "--built" not in sys.argv and not is_built(tries):
            return tries.end()
        for name in ("c_calls", "owners", "memory", "threads", "lines", "judging"):
            try_calls(tries, room, name, f"tests/c/{name}.c", [])
            try_calls(tries, room, f"{name}-sanitized", f"tests/c/{name}.c", SANITIZER, FEW if name == "threads" else ())
        try_calls(tries, room, "stack", "tests/c/stack.c", [])
        costs.try_costs(tries, room, compiled, ran, not os.path.isfile(f"{LIBRARY[:-2]}-address.a"))
        try_target(tries, room)
        try_threads(tries, room)
        try_memory(tries, room)
        try_judging(tries, room, "judging")
        try_findings(tries, room)
        for name, flags in (("example", ["-Wconversion"]), ("example-sanitized", SANITIZER)):
            program = compiled(tries, room, name, f"{EXAMPLE}/example.c", flags)
            if program is None:
                continue
            try_full(tries, room, name, program)
            try_words(tries, room, name, program)
            for config, words in SENDING:
                try_dump(tries, room, name, program, config, words)
    return tries.end()


if __name__ == "__main__":
    sys.exit(main())
