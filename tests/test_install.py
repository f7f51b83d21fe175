#!/usr/bin/env python3
"""Installs the library into a folder, moves that, and tests from an empty folder what a user gets from it alone.

    python3 tests/test_install.py

The program, and the examples for C, C++, CMake and Python must print what the program's stored run prints, those for C and
C++ also with the address and the undefined behaviour sanitizer, and all again in a root that has the system's programs and
the folder, and neither this tree nor the toolchain. The headers must compile without a warning in each version of C and
C++. The man page and the completions must have each word of the program's help. It uses `CC` or `cc`. What needs a program
that is missing, or root, is named and counted as skipped. The last line is 'N passed, M failed' or 'N passed, M failed, K skipped'.
"""
import hashlib
import os
import re
import shutil
import subprocess
import sys
import tarfile
import tempfile
from glob import glob

sys.dont_write_bytecode = True
ROOT = os.path.dirname(os.path.dirname(os.path.abspath(__file__)))
from trying import ONE_FRAME, OTHER, OTHER_CC, OTHER_RUNS, Tries, compiler, other_lacks, text_of

WARNINGS = ["-Wall", "-Wextra", "-Werror", "-Wpedantic", "-Wconversion", "-g", "-O1"]
SANITIZERS = ["-fsanitize=address,undefined", "-fno-sanitize-recover=all"]
VERSION = re.search('AFDX_VERSION "(.*)"', text_of("crates/afdx/afdx.h"))[1]
FILES = f"""\
bin/afdx_bench bin/afdx_play include/afdx.h include/afdx_judge.h include/afdx.hpp
lib/libafdx.a lib/libafdx_core.a lib/libafdx.so lib/libafdx.so.2 lib/pkgconfig/afdx.pc lib/cmake/afdx/afdxConfig.cmake lib/cmake/afdx/afdxConfigVersion.cmake
lib/python/afdx/__init__.py lib/python/afdx/_findings.py lib/python/afdx/_library.py lib/python/afdx/errors.py
lib/python/afdx/py.typed share/afdx/afdx-{VERSION}-py3-none-manylinux_2_14_x86_64.whl share/afdx/afdx.lua
share/bash-completion/completions/afdx_bench share/zsh/site-functions/_afdx_bench
share/bash-completion/completions/afdx_play share/zsh/site-functions/_afdx_play share/fish/vendor_completions.d/afdx_play.fish
share/fish/vendor_completions.d/afdx_bench.fish share/man/man1/afdx_bench.1 share/man/man1/afdx_play.1 share/doc/afdx/LICENSE-MIT
share/doc/afdx/LICENSE-APACHE share/doc/afdx/CHANGELOG.md share/doc/afdx/bench.md share/doc/afdx/c.md share/doc/afdx/plan.md
share/doc/afdx/embedding.md share/doc/afdx/json.md share/doc/afdx/judge.md share/doc/afdx/laws.md share/doc/afdx/player.md share/doc/afdx/program.md share/doc/afdx/report.md share/doc/afdx/speed.md share/doc/afdx/table.md
share/doc/afdx/pictures/gap.svg share/doc/afdx/pictures/judge.svg share/doc/afdx/pictures/report.svg share/afdx/examples/bench/interface.csv share/afdx/examples/c/build.sh share/afdx/examples/c/receive.py share/afdx/examples/c/wire.sh
share/afdx/examples/c/wire.toml
share/afdx/examples/c/demo.toml share/afdx/examples/c/example.c share/afdx/examples/cmake/CMakeLists.txt
share/afdx/examples/cmake/main.c share/afdx/examples/cpp/main.cpp share/afdx/examples/bare/main.c
share/afdx/examples/play/main.c share/afdx/examples/play/script.c share/afdx/examples/play/faults.c share/afdx/examples/play/gaps.c
share/afdx/examples/play/stamps.c share/afdx/examples/play/tell.c share/afdx/examples/play/wire.c share/afdx/examples/play/words.c share/afdx/examples/play/play.h
share/afdx/examples/python/bench.py share/afdx/examples/python/main.py
share/afdx/rust/Cargo.toml share/afdx/rust/build.rs share/afdx/rust/src/error.rs share/afdx/rust/src/lib.rs share/afdx/rust/src/raw.rs
share/afdx/rust/examples/main.rs""".split()


class Tried:
    """An installed library, and the empty folder in which it is tested."""

    def __init__(self, tries, room):
        self.tries, self.room = tries, room
        self.prefix = f"{room}/moved/prefix"
        self.examples = f"{self.prefix}/share/afdx/examples"
        self.config = f"{self.examples}/c/demo.toml"
        self.cc, self.cxx = compiler() or "cc", compiler("CXX", ("c++", "g++", "clang++"))
        found = {"PKG_CONFIG_PATH": "lib/pkgconfig", "CMAKE_PREFIX_PATH": "", "PYTHONPATH": "lib/python"}
        self.variables = {name: f"{self.prefix}/{folder}" for name, folder in found.items()}

    def ran(self, words, **more):
        """Runs a command in the empty folder. It knows the prefix only by the variables."""
        kept = {name: value for name, value in os.environ.items() if name in ("PATH", "HOME", "LANG", "TMPDIR", "CC", "CXX")}
        return subprocess.run(words, cwd=f"{self.room}/empty", env={**kept, **self.variables, **more}, capture_output=True,
                              text=True, timeout=300, check=False)

    def show(self, name, it, wanted=None):
        """Shows a run, which must succeed and print this. Returns whether it did."""
        is_well = it.returncode == 0 and not it.stderr and wanted in (None, it.stdout)
        self.tries.show(name, [] if is_well else [f"status {it.returncode}: {it.stdout[-1000:]}{it.stderr[-1000:]}"])
        return is_well

    def lacks(self, what, program):
        """Returns whether a program is missing, and prints that."""
        if program is None:
            self.tries.skip(f"no {what}")
        return program is None


def install(tried):
    """Installs, and moves the folder. Returns whether the files are there."""
    words = ["bash", f"{ROOT}/install/install.sh"]
    for more, status in (([], 2), (["--frob"], 2), (["--target"], 2), (["--cpu", "x86-64"], 2), (["--built"], 2), (["a", "b"], 2), ([""], 2), (["--help"], 0), (["-h"], 0)):
        told = subprocess.run([*words, *more], cwd=tried.room, capture_output=True, text=True, check=False)
        is_well = told.returncode == status and "install.sh [--built] PREFIX" in (told.stderr if status else told.stdout)
        is_well = is_well and not os.listdir(tried.room)
        tried.tries.show(f"install.sh {' '.join(more)}: status {status}", [] if is_well else [f"{told}"])
    # (a tree in which nothing is built)
    shutil.copytree(f"{ROOT}/install", f"{tried.room}/tree/install")
    for name, told in (("install", "crates/afdx/out/libafdx.a isn't there: run install.sh without --built\n"),
                       ("release", "crates/afdx/out/libafdx.a isn't there: run release.sh without --built\n")):
        ran = subprocess.run(["bash", f"tree/install/{name}.sh", "--built", "made"], cwd=tried.room, capture_output=True, text=True, check=False)
        is_well = (ran.returncode, ran.stdout, ran.stderr) == (1, "", told) and os.listdir(tried.room) == ["tree"]
        tried.tries.show(f"{name}.sh --built, nothing built", [] if is_well else [f"{ran}"])
    shutil.rmtree(f"{tried.room}/tree")
    made = subprocess.run([*words, "--built", "not there/prefix"], cwd=tried.room, capture_output=True, text=True, check=False)
    if made.returncode:
        tried.tries.show("install.sh", [made.stdout[-1000:] + made.stderr[-1000:]])
        return False
    os.rename(f"{tried.room}/not there", f"{tried.room}/moved")
    found = [os.path.relpath(f"{folder}/{name}", tried.prefix) for folder, _, names in os.walk(tried.prefix) for name in names]
    tried.tries.show("install.sh: its files", [] if sorted(found) == sorted(FILES) else [str(sorted(set(found) ^ set(FILES)))])
    os.mkdir(f"{tried.room}/empty")
    return True


def try_pictures(tried):
    """The pictures of the guides are where these look for them."""
    pages = f"{tried.prefix}/share/doc/afdx"
    lost = []
    for page in glob(f"{pages}/*.md"):
        with open(page, encoding="utf-8") as file:
            names = re.findall(r"!\[[^]]+\]\(([^)]+)\)", file.read())
        lost += [f"{os.path.basename(page)}: {it}" for it in names if not os.path.isfile(f"{pages}/{it}")]
    tried.tries.show("pictures of the guides", lost)


def try_headers(tried):
    """The headers alone, in each version of C and C++, by each compiler that is installed."""
    ways = [("afdx_judge.h", name, "c", it) for name in ("gcc", "clang") for it in ("c99", "c11", "c17")]
    ways += [(header, name, "c++", it) for header in ("afdx_judge.h", "afdx.hpp") for name in ("g++", "clang++") for it in ("c++11", "c++17", "c++20")]
    for header, name, language, version in ways:
        if not tried.lacks(name, shutil.which(name)):
            source = f"{tried.room}/empty/header.c"
            with open(source, "w", encoding="utf-8") as file:
                file.write(f"#include <{header}>\n#include <{header}>\nint main(void) {{ return AFDX_OK; }}\n")
            words = ["-x", language, f"-std={version}", *WARNINGS, *(["-Wold-style-cast"] if language == "c++" else []), "-pedantic-errors", f"-I{tried.prefix}/include", "-fsyntax-only"]
            tried.show(f"{header}: {name} -std={version}", tried.ran([name, *words, source]), "")


def try_readers(tried):
    """What doxygen and clang-tidy find in the headers and the examples, where these are installed."""
    settings = f"INPUT={tried.prefix}/include/afdx.h {tried.prefix}/include/afdx_judge.h\nGENERATE_LATEX=NO\nQUIET=YES\nHAVE_DOT=NO\nEXTRACT_STATIC=YES\nOPTIMIZE_OUTPUT_FOR_C=YES\n"
    with open(f"{tried.room}/empty/Doxyfile", "w", encoding="utf-8") as file:
        file.write(f"{settings}OUTPUT_DIRECTORY={tried.room}/pages\n")
    os.mkdir(f"{tried.room}/pages")
    if not tried.lacks("doxygen", shutil.which("doxygen")):
        tried.show("doxygen", tried.ran(["doxygen", "Doxyfile"]), "")
    if not tried.lacks("clang-tidy", shutil.which("clang-tidy")):
        # (_GNU_SOURCE is reserved; two numbers beside each other are what the calls take)
        checks = "bugprone-*,performance-*,-bugprone-reserved-identifier,-bugprone-easily-swappable-parameters"
        for source, version in (("c/example.c", "gnu11"), *((f"play/{it}.c", "gnu11") for it in ("main", "script", "faults", "gaps", "wire")), ("cmake/main.c", "c99"),
                                ("cpp/main.cpp", "c++11")):
            words = ["clang-tidy", "--quiet", "--header-filter=.*", "--warnings-as-errors=*", f"--checks=-*,{checks}", f"{tried.examples}/{source}"]
            read = tried.ran([*words, "--", f"-std={version}", f"-I{tried.prefix}/include"])
            tried.tries.show(f"clang-tidy {source}", [] if read.returncode == 0 else [read.stdout[-2000:] + read.stderr[-1000:]])


def try_misra(tried):
    """The headers break no rule of MISRA C:2012 that cppcheck tests, but these, which are advisory."""
    advisory = {"2.4": "tags that aren't used", "2.5": "macros that aren't used", "12.1": "precedence", "12.3": "commas", "15.5": "one return"}
    if tried.lacks("cppcheck", shutil.which("cppcheck")):
        return
    with open(f"{tried.room}/empty/header.c", "w", encoding="utf-8") as file:
        file.write("#include <afdx_judge.h>\nint main(void) { return AFDX_OK; }\n")
    read = tried.ran(["cppcheck", "--addon=misra", f"-I{tried.prefix}/include", "header.c"])
    found = re.findall(r"(\w+\.h:\d+):.*\[misra-c2012-([\d.]+)\]", read.stderr)
    broken = [f"{place}: rule {rule}" for place, rule in found if rule not in advisory]
    tried.tries.show(f"cppcheck: MISRA, {len(found)} remarks", broken if found else [f"no remark: {read.stdout}{read.stderr}"])


def try_names(tried):
    """The name of each answer, and the version."""
    header = re.sub(r"/\*.*?\*/", "", text_of("crates/afdx/afdx.h"), flags=re.DOTALL)
    listed = [enum for enum in re.findall(r"enum \{(.*?)\}", header, re.DOTALL) if not re.search("STANDS|AFDX_A|GREATEST|CALL|SAYS", enum)]
    calls = {"AFDX_CONFIG_": "OPEN", "AFDX_NO_TABLE": "OPEN", "AFDX_EMPTY": "SEND", "AFDX_BOTH_DOWN": "POLL", "AFDX_LINE_": "LINE"}
    rows = []
    for enum in listed:
        (call,) = [word for start, word in calls.items() if start in enum] or ["OTHER"]
        rows += [f'    {{AFDX_CALL_{call}, {name}, "{name}"}},' for name in re.findall(r"AFDX_\w+(?= =)", enum)]
    rows += [f'    {{AFDX_CALL_{call}, {number}, "unknown answer"}},' for call, number in
             (("OPEN", 21), ("SEND", 6), ("POLL", 2), ("LINE", 6), ("OTHER", 1), ("OPEN", 31), ("SEND", 255))]
    with open(f"{tried.room}/empty/names.c", "w", encoding="utf-8") as file:
        file.write("#include <afdx.h>\n#include <stdio.h>\n#include <string.h>\n"
                   "static const struct { afdx_call call; uint8_t answer; const char *name; } rows[] = {\n" + "\n".join(rows) + "\n};\n"
                   "int main(void) {\n    int wrong = 0;\n    for (size_t k = 0; k < sizeof rows / sizeof *rows; k++)\n"
                   "        wrong += strcmp(afdx_answer_name(rows[k].call, rows[k].answer), rows[k].name) != 0;\n"
                   '    printf("%s %d.%d.%d\\n", afdx_version(), AFDX_VERSION_MAJOR, AFDX_VERSION_MINOR, AFDX_VERSION_PATCH);\n'
                   "    return wrong + (afdx_version_number() != AFDX_VERSION_NUMBER);\n}\n")
    made = tried.ran([tried.cc, *WARNINGS, f"-I{tried.prefix}/include", "names.c", f"{tried.prefix}/lib/libafdx.a", "-o", "names"])
    if made.returncode == 0:
        made = tried.ran(["./names"])
    tried.show(f"{len(rows)} names of answers", made, f"{VERSION} {VERSION}\n")


def linked(tried):
    """The words for a compiler, by pkg-config if that is installed."""
    asked = shutil.which("pkg-config")
    if tried.lacks("pkg-config", asked):
        return [f"-I{tried.prefix}/include", f"{tried.prefix}/lib/libafdx.a"]
    tried.show("pkg-config --modversion afdx", tried.ran([asked, "--modversion", "afdx"]), f"{VERSION}\n")
    return tried.ran([asked, "--cflags", "--libs", "afdx"]).stdout.split()


def try_program(tried, words, name, source, more, wanted=ONE_FRAME, says=""):
    """A program of one file, compiled by these words, prints what is expected."""
    made = tried.ran([*words[:1], *WARNINGS, *words[1:], source, *more, "-o", "main"])
    if made.returncode or made.stderr:
        tried.show(name, made)
        return
    run = tried.ran(["./main", *(["--dump", tried.config, "10"] if "example.c" in source else [tried.config])])
    run.stderr = run.stderr.removeprefix(says)
    tried.show(name, run, wanted)


def try_play(tried, more):
    """The player builds where it is installed, without a warning and with sanitizers, and says its words."""
    sources = sorted(glob(f"{tried.examples}/play/*.c"))
    for flags in ([], SANITIZERS):
        made = tried.ran([tried.cc, "-std=gnu11", *flags, *WARNINGS, *sources, *more, "-o", "play"])
        tried.show(f"afdx_play{' with sanitizers' if flags else ''}", made, "")
        tried.show("afdx_play --version", tried.ran(["./play", "--version"]), f"afdx_play {VERSION}\n")
    with open(f"{tried.prefix}/share/man/man1/afdx_play.1", encoding="utf-8") as file:
        page = file.read().replace("\\-", "-")
    told = tried.ran([f"{tried.prefix}/bin/afdx_play", "--help"]).stdout
    lost = [word for word in re.findall(r"--\w+", told) if word not in page]
    tried.tries.show("afdx_play.1 has the words of its help", [f"it lacks {lost}"] if lost or not told else [])


def try_c(tried, more):
    """The examples for C, as they are and with sanitizers."""
    example = "port 10: 1 accepted of 1\nnetwork A: 1 frames\nnetwork B: 1 frames\n"
    for flags in ([], SANITIZERS):
        how = " with sanitizers" if flags else ""
        try_program(tried, [tried.cc, "-std=c99", *flags], f"C{how}", f"{tried.examples}/cmake/main.c", more)
        try_program(tried, [tried.cc, "-std=gnu11", *flags], f"C, example.c{how}", f"{tried.examples}/c/example.c", more, says=example)


def try_musl(tried):
    """The example for C over the archive, linked statically with musl."""
    if tried.lacks("musl-gcc", shutil.which("musl-gcc")):
        return
    words = ["-static", f"-I{tried.prefix}/include", f"{tried.examples}/cmake/main.c", f"{tried.prefix}/lib/libafdx.a", "-o", "musl"]
    if tried.show("C, musl", tried.ran(["musl-gcc", *WARNINGS, *words]), ""):
        tried.show("C, musl: it runs", tried.ran(["./musl", tried.config]), ONE_FRAME)


def try_bare(tried):
    """The example without a C library prints one frame, out of a table. What it links has none of the calls that read texts."""
    made = tried.ran([f"{tried.prefix}/bin/afdx_bench", "compile", tried.config, "--c", "table.c"])
    if not tried.show("afdx_bench compile --c", made, "") or tried.lacks("x86-64", os.uname().machine == "x86_64" or None):
        return
    words = ["-O2", "-ffreestanding", "-fno-tree-loop-distribute-patterns", "-nostdlib", "-static", "-Wl,--gc-sections", *WARNINGS]
    words += [f"-I{tried.prefix}/include", f"{tried.examples}/bare/main.c", "table.c", f"-L{tried.prefix}/lib", "-lafdx_core", "-lgcc"]
    made = tried.ran([shutil.which("gcc") or tried.cc, *words, "-o", "bare"])
    if tried.show("without a C library", made, ""):
        tried.show("without a C library: it runs", tried.ran(["./bare"]), ONE_FRAME)
        try_size(tried)
    listed = tried.ran(["nm", "-g", f"{tried.prefix}/lib/libafdx_core.a"]).stdout
    text = {name for name in ("open", "explain", "script_line", "judge", "judge_pair", "capture_lost") if re.search(rf" T afdx_{name}$", listed, re.MULTILINE)}
    wanted = {"memcpy", "memmove", "memset", "rattle_alloc", "rattle_dealloc", "rattle_realloc"}
    imports = set(re.findall(r" U (\w+)", listed)) - {"__udivti3"}
    tried.tries.show("libafdx_core.a: what it has and imports", [] if not text and imports == wanted else [f"{text}, {imports}"])
    written = re.findall(r" ([BbCDdGgSs]) (\S+)$", tried.ran(["nm", f"{tried.prefix}/lib/libafdx_core.a"]).stdout, re.MULTILINE)
    registers = set(re.findall(r"%(?:[yz]mm|mm|st)\b|%(?:[yz]mm|mm)\d+", tried.ran(["objdump", "-d", f"{tried.prefix}/lib/libafdx_core.a"]).stdout))
    tried.tries.show("libafdx_core.a: no data that is written, no other registers than SSE's", [f"{written}, {registers}"] if written or registers else [])


def try_size(tried):
    """The example without a C library, and libafdx_core.a with all its calls, have no more code than the guide says, and the example
    less than 40 KB. `size` counts code and constants in its first column: all that is loaded and never written."""
    if os.path.isfile(f"{ROOT}/crates/afdx/out/libafdx-address.a"):
        tried.tries.skip("size of the code: not the library of a proof")
        return
    said = re.search(r"main\.c` has (\d+) KB of code and constants then\. All calls of `libafdx_core\.a` together have (\d+) KB", text_of("docs/guide/embedding.md"))
    for path, most in (("bare", said[1]), (f"{tried.prefix}/lib/libafdx_core.a", said[2])):
        text = int(tried.ran(["size", path]).stdout.splitlines()[1].split()[0])
        is_well = text <= 1024 * int(most) and (path != "bare" or text < 1024 * 40)
        tried.tries.show(f"{os.path.basename(path)}: {text} bytes of code and constants", [] if is_well else [f"more than {most} KB"])


def try_cpp(tried, more):
    """The example for C++ and the test of afdx.hpp, as they are and with sanitizers."""
    if tried.lacks("C++ compiler", tried.cxx):
        return
    for version, flags in (("c++11", []), ("c++20", []), ("c++11", SANITIZERS), ("c++20", SANITIZERS)):
        how = f"C++, {version}{' with sanitizers' if flags else ''}"
        words = [tried.cxx, f"-std={version}", *flags, "-pthread"]
        try_program(tried, words, how, f"{tried.examples}/cpp/main.cpp", more)
        if (version == "c++20") == bool(flags):
            try_program(tried, words, f"{how}: test.cpp", f"{ROOT}/tests/c/test.cpp", more, None)


def try_cmake(tried):
    """The CMake project of six lines, with the static and with the shared library, and a version that is missing."""
    cmake = shutil.which("cmake")
    if tried.lacks("CMake", cmake):
        return
    project = f"{tried.room}/empty/project"
    lines = text_of("examples/cmake/CMakeLists.txt")
    for name, old, new, is_found in (("", "", "", True), (", shared", "afdx::afdx", "afdx::shared", True), (", version 3", "afdx 2", "afdx 3", False)):
        shutil.copytree(f"{tried.examples}/cmake", project)
        with open(f"{project}/CMakeLists.txt", "w", encoding="utf-8") as file:
            file.write(lines.replace(old, new))
        made = tried.ran([cmake, "-S", project, "-B", "built"])
        if is_found and made.returncode == 0:
            made = tried.ran([cmake, "--build", "built"])
        if not is_found:
            is_refused = made.returncode != 0 and 'compatible with requested version "3"' in " ".join(made.stderr.split())
            tried.tries.show(f"CMake{name}: refused", [] if is_refused else [made.stdout + made.stderr])
        elif made.returncode:
            tried.show(f"CMake{name}", made)
        else:
            tried.show(f"CMake{name}", tried.ran(["built/main", tried.config]), ONE_FRAME)
        for folder in (project, f"{tried.room}/empty/built"):
            shutil.rmtree(folder)


def try_shared(tried):
    """The shared library exports exactly the calls of the headers, and a program linked with it finds it by its version."""
    listed, read = shutil.which("nm"), shutil.which("readelf")
    if tried.lacks("binutils", listed and read):
        return
    exported = {line.split()[-1] for line in tried.ran([listed, "-D", "--defined-only", f"{tried.prefix}/lib/libafdx.so"]).stdout.splitlines()}
    headers = text_of("crates/afdx/afdx.h") + text_of("crates/afdx/afdx_judge.h")
    wanted = set(re.findall(r"^(?!static|typedef)\w+ (afdx_\w+)\(", headers, re.MULTILINE))
    tried.tries.show(f"libafdx.so exports {len(wanted)} calls", [] if exported == wanted else [str(sorted(exported ^ wanted))])
    for it, tag in ((f"{tried.prefix}/lib/libafdx.so", "SONAME"), (f"{tried.room}/empty/shared", "NEEDED")):
        if tag == "NEEDED":
            words = [f"-I{tried.prefix}/include", f"{tried.examples}/cmake/main.c", f"-L{tried.prefix}/lib", "-lafdx", "-o", "shared"]
            tried.show("C, -lafdx", tried.ran([tried.cc, *words]), "")
            tried.show("C, shared", tried.ran(["./shared", tried.config], LD_LIBRARY_PATH=f"{tried.prefix}/lib"), ONE_FRAME)
        names = re.findall(rf"\({tag}\).*\[(libafdx.*)\]", tried.ran([read, "-d", it]).stdout)
        tried.tries.show(f"{tag} {names}", [] if names == ["libafdx.so.2"] else [str(names)])


def try_python(tried):
    """The example for Python, by the prefix and by AFDX_LIBRARY."""
    program = f"{tried.examples}/python/main.py"
    tried.show("Python", tried.ran([sys.executable, "-B", program, tried.config]), ONE_FRAME)
    library, other = f"{tried.prefix}/lib/libafdx.so.2", f"{tried.room}/empty/other.so"
    os.rename(library, other)
    tried.show("Python, AFDX_LIBRARY", tried.ran([sys.executable, "-B", program, tried.config], AFDX_LIBRARY=other), ONE_FRAME)
    os.rename(other, library)
    target, wheel = f"{tried.room}/empty/site", glob(f"{tried.prefix}/share/afdx/*.whl")
    quiet = {"PIP_ROOT_USER_ACTION": "ignore", "PIP_DISABLE_PIP_VERSION_CHECK": "1"}
    pip = tried.ran([sys.executable, "-m", "pip", "install", "--quiet", "--no-index", "--target", target, *wheel], **quiet)
    if pip.returncode and "No module named pip" in pip.stderr:
        tried.tries.skip("no pip")
        return
    tried.show("pip install", pip)
    tried.show("Python, installed by pip", tried.ran([sys.executable, "-B", program, tried.config], PYTHONPATH=target), ONE_FRAME)


def try_rust(tried):
    """The installed crate, found by pkg-config and by AFDX_LIBDIR: its example, and the tests of its calls. No network is used."""
    if tried.lacks("cargo", shutil.which("cargo")):
        return
    crate = f"{tried.room}/empty/rust"
    shutil.copytree(f"{tried.prefix}/share/afdx/rust", crate)
    shutil.copytree(f"{ROOT}/bindings/rust/tests", f"{crate}/tests")
    words = ["--offline", "--quiet", f"--manifest-path={crate}/Cargo.toml", f"--target-dir={tried.room}/empty/rust-built"]
    found = {} if shutil.which("pkg-config") else {"AFDX_LIBDIR": f"{tried.prefix}/lib"}
    tried.show("Rust", tried.ran(["cargo", "run", *words, "--example", "main", "--", tried.config], **found), ONE_FRAME)
    found = {"AFDX_LIBDIR": f"{tried.prefix}/lib", "AFDX_DEMO": tried.config}
    made = tried.ran(["cargo", "test", *words], **found)
    is_well = made.returncode == 0 and "test result: ok. 4 passed" in made.stdout
    tried.tries.show("Rust: tests of its calls", [] if is_well else [made.stdout[-2000:] + made.stderr[-1000:]])
    names = {name: number for name, number in re.findall(r"(AFDX_\w+) = (\d+)", text_of("crates/afdx/afdx.h"))}
    told = re.findall(r"\b([A-Z]\w+) = (\d+)", text_of("bindings/rust/src/error.rs"))
    flat = {re.sub("^(AFDX|CONFIG)_", "", re.sub("^AFDX_", "", name)).replace("_", "").lower(): number for name, number in names.items()}
    wrong = [f"{name} = {number}" for name, number in told if flat.get(name.lower()) != number]
    tried.tries.show(f"Rust: {len(told)} numbers of afdx.h", wrong if told else ["none"])


def help_words(tried):
    """The commands of the program, each with the options of its help; those without a command are of `None`."""
    bench = f"{tried.prefix}/bin/afdx_bench"
    commands = re.findall(r"(?m)^  (\w+)  ", tried.ran([bench, "--help"]).stdout)
    texts = {it: tried.ran([bench, *([it] if it else []), "--help"]).stdout for it in [None, *commands]}
    return {it: re.findall(r"(?m)^ +(?:-\w, |    )(--[\w-]+)", text) for it, text in texts.items()}


def try_bench(tried):
    """The installed program, its man page, and its completions."""
    bench, share = f"{tried.prefix}/bin/afdx_bench", f"{tried.prefix}/share"
    tried.show("afdx_bench", tried.ran(["sh", "-c", f"printf 'send 10 01\\nat 0\\n' | '{bench}'"]), ONE_FRAME)
    words = help_words(tried)
    page, bash = f"{share}/man/man1/afdx_bench.1", f"{share}/bash-completion/completions/afdx_bench"
    flat = sorted({*filter(None, words)} | {option.strip("-") for options in words.values() for option in options})
    for path in (page, bash, f"{share}/zsh/site-functions/_afdx_bench", f"{share}/fish/vendor_completions.d/afdx_bench.fish"):
        with open(path, encoding="utf-8") as file:
            text = file.read().replace("\\-", "-")
        lost = [f"it lacks {it}" for it in flat if not re.search(rf"\b{it}\b", text)]
        tried.tries.show(f"{os.path.relpath(path, share)} has {len(flat)} words", lost)
    if not tried.lacks("man", shutil.which("man") and shutil.which("groff")):
        for it in ("afdx_bench", "afdx_play"):
            tried.show(f"man {it}", tried.ran(["groff", "-man", "-Tutf8", "-ww", "-z", f"{share}/man/man1/{it}.1"]), "")
    for command, options in words.items():
        line = ["afdx_bench", *([command] if command else []), "-"]
        told = tried.ran(["bash", "-c", f'. "{bash}"; COMP_WORDS=({" ".join(line)}); COMP_CWORD={len(line) - 1}; _afdx_bench; echo "${{COMPREPLY[@]}}"'])
        tried.show(f"bash completes {' '.join(line)}", told, f"{' '.join(options)}\n")
    told = tried.ran(["bash", "-c", f'. "{bash}"; COMP_WORDS=(afdx_bench re); COMP_CWORD=1; _afdx_bench; echo "${{COMPREPLY[@]}}"'])
    tried.show("bash completes afdx_bench re", told, "report\n")
    for shell, text in (("zsh", f"{share}/zsh/site-functions/_afdx_bench"), ("fish", f"{share}/fish/vendor_completions.d/afdx_bench.fish")):
        if not tried.lacks(shell, shutil.which(shell)):
            tried.show(f"{shell} reads its completions", tried.ran([shell, "-n", text]), "")
    try_play_words(tried, share)


def try_play_words(tried, share):
    """The completions of the player have the words of its help, and no other."""
    words = sorted({*re.findall(r"--[a-z][\w-]*", tried.ran([f"{tried.prefix}/bin/afdx_play", "--help"]).stdout)} | {"--help", "--version"})
    bash, zsh = f"{share}/bash-completion/completions/afdx_play", f"{share}/zsh/site-functions/_afdx_play"
    told = tried.ran(["bash", "-c", f'. "{bash}"; COMP_WORDS=(afdx_play -); COMP_CWORD=1; _afdx_play; printf "%s\\n" "${{COMPREPLY[@]}}" | sort'])
    tried.show("bash completes afdx_play -", told, "".join(f"{it}\n" for it in words))
    for shell, path, word in (("zsh", zsh, r"--[\w-]+"), ("fish", f"{share}/fish/vendor_completions.d/afdx_play.fish", r"-l ([\w-]+)")):
        with open(path, encoding="utf-8") as file:
            found = sorted(f"--{it.lstrip('-')}" for it in re.findall(word, file.read()))
        tried.tries.show(f"{shell}'s words of afdx_play", [] if found == words else [f"{found} for {words}"])
        if not tried.lacks(shell, shutil.which(shell)):
            tried.show(f"{shell} reads its completions of afdx_play", tried.ran([shell, "-n", path]), "")


def try_target(tried):
    """An installation for another target has the archives and the headers, and its programs run under an emulator."""
    if other_lacks():
        tried.tries.skip(f"no {other_lacks()}")
        return
    prefix = f"{tried.room}/empty/other"
    made = subprocess.run(["bash", f"{ROOT}/install/install.sh", "--built", "--target", OTHER, prefix], capture_output=True, text=True, check=False)
    tried.show(f"install.sh --built --target {OTHER}", made)
    found = [os.path.relpath(f"{folder}/{name}", prefix) for folder, _, names in os.walk(prefix) for name in names]
    lost = {"include/afdx.h", "lib/libafdx.a", "lib/libafdx_core.a", "share/afdx/examples/bare/main.c"} - {*found}
    tried.tries.show("its files are among those of an installation", sorted(lost | {*found} - {*FILES}))
    words = [f"-I{prefix}/include", f"{tried.examples}/cmake/main.c", f"{prefix}/lib/libafdx.a", "-o", "other-main"]
    if tried.show(f"C, {OTHER_CC}", tried.ran([OTHER_CC, *WARNINGS, *words]), ""):
        tried.show(f"C, {OTHER_RUNS[0]}", tried.ran([*OTHER_RUNS, "./other-main", tried.config]), ONE_FRAME)


def try_release(tried):
    """A release has its files, each with its digest; the archive holds what is installed, and the same again from a second run."""
    words = ["bash", f"{ROOT}/install/release.sh"]
    usage, there = "release.sh [--built] FOLDER", f"{tried.room} is there already: name a new folder\n"
    for more, status, wanted in (([], 2, usage), (["--frob"], 2, usage), ([tried.room], 2, there), (["--help"], 0, usage)):
        told = tried.ran([*words, *more])
        is_well = told.returncode == status and wanted in (told.stderr if status else told.stdout)
        tried.tries.show(f"release.sh {' '.join(more)}: status {status}", [] if is_well else [f"{told}"])
    made = [subprocess.run([*words, "--built", f"{tried.room}/release{k}"], capture_output=True, text=True, check=False) for k in range(2)]
    if any(it.returncode for it in made):
        tried.tries.show("release.sh --built", [it.stderr[-1000:] for it in made])
        return
    names = {"KIT", "SHA256SUMS", "libafdx.a", "libafdx_core.a", "afdx_bench", "afdx_play", f"afdx-{VERSION}-x86_64-linux.tar.gz",
             f"afdx-{VERSION}-py3-none-manylinux_2_14_x86_64.whl"}
    found = [{it: open(f"{tried.room}/release{k}/{it}", "rb").read() for it in os.listdir(f"{tried.room}/release{k}")} for k in range(2)]
    tried.tries.show("release.sh --built: its files, twice", [] if found[0] == found[1] and found[0].keys() == names else [f"{sorted(found[0])}"])
    sums = dict(reversed(line.split("  ")) for line in found[0].get("SHA256SUMS", b"").decode().splitlines())
    wrong = {it for it, data in found[0].items() if it != "SHA256SUMS" and sums.get(it) != hashlib.sha256(data).hexdigest()}
    with tarfile.open(f"{tried.room}/release0/afdx-{VERSION}-x86_64-linux.tar.gz") as archive:
        held = {it.name.split("/", 1)[1] for it in archive.getmembers() if not it.isdir()}
    tried.tries.show("release.sh --built: digests, and the archive's files", sorted(wrong | (held ^ set(FILES))))


def try_wire(tried):
    """The example for the wire builds where it is installed, and the kernel's sockets receive what it sends."""
    build = tried.ran(["bash", f"{tried.examples}/c/build.sh"])
    tried.show("build.sh", build, "")
    if tried.lacks("root, ip, unshare and nsenter", os.geteuid() == 0 and all(map(shutil.which, ("ip", "unshare", "nsenter"))) or None):
        return
    if tried.ran(["unshare", "--net", "ip", "link", "add", "one", "type", "veth", "peer", "name", "two"]).returncode:
        tried.tries.skip("no veth pairs")
        return
    wire = tried.ran(["bash", f"{tried.examples}/c/wire.sh", "20"])
    tried.tries.show("wire.sh 20", [] if wire.returncode == 0 else [wire.stdout[-1000:] + wire.stderr[-1000:]])


# Runs in a root of its own: the system's programs, Python, and the installed folder, read-only, and an empty folder.
ALONE = """\
set -eu
root=$1 prefix=$2 python=$3
mkdir -p "$root/usr" "$root/prefix" "$root/python" "$root/tmp" "$root/dev" "$root/etc"
for it in bin lib lib64; do ln -s "usr/$it" "$root/$it"; done
touch "$root/dev/null"
mount --bind /dev/null "$root/dev/null"
for it in usr:/usr prefix:"$prefix" python:"$python"; do
    mount --bind "${it#*:}" "$root/${it%%:*}"
    mount -o remount,bind,ro "$root/${it%%:*}"
done
[ ! -e /etc/alternatives ] || cp -a /etc/alternatives "$root/etc"
exec chroot "$root" /usr/bin/env -i PATH=/usr/bin:/bin PYTHONPATH=/prefix/lib/python sh -eu -c '
cd /tmp
of=/prefix/share/afdx/examples
printf "send 10 01\\nat 0\\n" | /prefix/bin/afdx_bench
cc $of/cmake/main.c -I/prefix/include /prefix/lib/libafdx.a -o main && ./main $of/c/demo.toml
cc $of/cmake/main.c -I/prefix/include -L/prefix/lib -lafdx -o shared && LD_LIBRARY_PATH=/prefix/lib ./shared $of/c/demo.toml
[ ! -x /usr/bin/c++ ] || { c++ $of/cpp/main.cpp -I/prefix/include /prefix/lib/libafdx.a -o cpp && ./cpp $of/c/demo.toml; }
/python/bin/python3 -B $of/python/main.py $of/c/demo.toml
echo alone'
"""


def try_alone(tried):
    """All that was installed, in a root without this tree and without the toolchain."""
    alone = f"{tried.room}/alone"
    os.mkdir(alone)
    words = ["unshare", "--mount", "bash", "-c", ALONE, "alone", alone, tried.prefix, sys.base_prefix]
    if tried.lacks("root and unshare", os.geteuid() == 0 and shutil.which("unshare") or None):
        return
    if tried.ran(["unshare", "--mount", "true"]).returncode or not os.path.islink("/bin"):
        tried.tries.skip("no mount namespace, or no merged /usr")
        return
    ways = 5 if os.path.exists("/usr/bin/c++") else 4
    tried.show(f"{ways} ways in a root of its own", tried.ran(words), f"{ONE_FRAME * ways}alone\n")


def main():
    tries = Tries()
    with tempfile.TemporaryDirectory(prefix="install-") as room:
        tried = Tried(tries, room)
        if install(tried):
            try_pictures(tried)
            try_headers(tried)
            try_readers(tried)
            try_misra(tried)
            try_names(tried)
            more = linked(tried)
            try_c(tried, more)
            try_musl(tried)
            try_bare(tried)
            try_play(tried, more)
            try_cpp(tried, more)
            try_cmake(tried)
            try_shared(tried)
            try_python(tried)
            try_rust(tried)
            try_bench(tried)
            try_target(tried)
            try_release(tried)
            try_wire(tried)
            try_alone(tried)
    return tries.end()


if __name__ == "__main__":
    sys.exit(main())
