"""What the scripts that try built programs share: where these are, how one is started, how tries are counted, and texts."""
import os
import re
import shutil
import subprocess

ROOT = os.path.dirname(os.path.dirname(os.path.abspath(__file__)))
# The compilers, and how the name of what each makes ends. The second may leave a program to the first.
BUILDS = {"LLVM": "", "Rattle": ".by-rattle"}


def text_of(path):
    """The text of a file of the repository."""
    with open(f"{ROOT}/{path}", encoding="utf-8") as file:
        return file.read()


def blocks(page):
    """The texts that a page shows, but for those in a language."""
    return [text for language, text in re.findall(r"(?ms)^```(\w*)\n(.*?)^```$", text_of(page)) if not language]


# The demonstration plan, a script of one message, and what the program prints of them.
DEMO = text_of("examples/c/demo.toml")
SCRIPT = text_of("crates/afdx_bench/stdin")
ONE_FRAME = text_of("crates/afdx_bench/stdout")
REPORT = """\
end system 1
link 1: bag 1 ms, lmax 1518, sub-VLs 1, capacity 2
port 10: link 1 sub 0, partition 1, queuing, 1000 to 2000, max 8192, multicast
jitter 163040 ns, limit 500000
"""
# What `judge` prints of a text that is no capture.
JUDGED = """nothing judged: capture 1 is neither pcapng nor pcap; record one interface, as tcpdump -i eth1 -w FILE does
capture 1: 0 packets, neither pcapng nor pcap
"""
HELP = """\
A transmitting AFDX end system. Without words it runs a script from standard input.

Usage: afdx_bench [COMMAND]

Commands:
  run       Runs a script over a plan and prints the frames of both networks
  check     Prints a plan and its jitter; `explain` locates its faults
  explain   Prints the faults of a plan, each with its place and what is allowed there
  import    Prints the plan of an interface document, a CSV file with a row for each port
  compile   Prints the table of a plan, which an end system opens without its text
  report    Prints the loads, the jitter and the longest waits of a plan
  schedule  Prints a script in which the ports of a plan send at their periods
  judge     Prints what is wrong with a recording of an end system
  storm     Sends through all ports of a plan at once, and prints the counts

Options:
  -h, --help     Print help
  -V, --version  Print version
"""
STORM_HELP = """\
Sends through all ports of a plan at once, and prints the counts

Usage: afdx_bench storm --messages <messages> --turns <turns> <config>

Arguments:
  <config>  The file of the plan

Options:
      --messages <messages>  The number of messages that each port sends, each about 3 KB of memory
      --turns <turns>        The number of times that each thread may try
  -h, --help                 Print help
"""
WRONG = """\
error: unrecognized subcommand 'frob'

Usage: afdx_bench [COMMAND]

For more information, try '--help'.
"""


def seen(cell):
    """What a line says that a cell of a CSV file has: its first 40 bytes."""
    data = cell.encode("utf-8", "surrogateescape")
    shown = "".join(chr(it) if 32 <= it <= 126 and it not in b'"\\' else f"\\x{it:02x}" for it in data[:40])
    return f'"{shown}{"..." if len(data) > 40 else ""}" is seen' if cell else "the cell is empty"


def totals(messages, networks="equal", links=(1,)):
    """What a storm prints whose ports send `messages` messages of six bytes on each link."""
    lines = "".join(f"link {vl}: frames {messages}, bytes {60 * messages}, messages {messages}\n" for vl in links)
    return f"accepted {messages * len(links)}\n{lines}networks {networks}\nwatcher never back\n"


# The second line on standard error about a script's line, by the fault that the first one names.
LINE_FORMS = {
    "1 Word": "a line is `send PORT HEX`, `at MICROS` or `close VL SUB`",
    "2 Number": "decimal digits are wanted: up to 65535 for a port or a link, 255 for a sub-VL, 2^64 - 1 for a time",
    "3 Hex": "bytes are an even number of hexadecimal digits, or `-`",
    "4 Extra": "nothing may follow `send PORT HEX`, `at MICROS` or `close VL SUB` on a line",
    "5 Long": "a line has at most 20000 bytes",
}

# The other target that is tried, if its compiler and an emulator are there, and the library for it is built.
OTHER = "aarch64-unknown-linux-gnu"
OTHER_LIBRARY = f"{ROOT}/crates/afdx/out/libafdx-{OTHER}.a"
OTHER_CC, OTHER_RUNS = "aarch64-linux-gnu-gcc", ["qemu-aarch64", "-L", "/usr/aarch64-linux-gnu"]


def other_lacks():
    """What is missing to try the other target, or None."""
    programs = [it for it in (OTHER_CC, OTHER_RUNS[0]) if not shutil.which(it)]
    return programs[0] if programs else None if os.path.isfile(OTHER_LIBRARY) else f"library for {OTHER}: install.sh --target {OTHER} builds it"


def compiler(variable="CC", names=("cc", "gcc", "clang")):
    """The compiler that a variable names, or the first of these that is there; `None` if none is."""
    return os.environ.get(variable) or next(filter(None, map(shutil.which, names)), None)


def built(name):
    """What each compiler has made of a program, by the compiler's name. LLVM makes each."""
    paths = {build: f"{ROOT}/crates/{name}/out/{name}{ending}" for build, ending in BUILDS.items()}
    return {build: path for build, path in paths.items() if build == "LLVM" or os.path.isfile(path)}


def started(program, words, timeout=60, **how):
    """A run of a program under its own name, whichever compiler made it."""
    name = os.path.basename(program).partition(".")[0]
    return subprocess.run([name, *words], executable=program, timeout=timeout, check=False, **how)


def check(is_well, told=""):
    """Raises an error if a condition doesn't hold. An `assert` of Python's is dropped by `python3 -O`."""
    if not is_well:
        raise AssertionError(told)


class Tries:
    """Counts what was tried, how often it was as it has to be, and what couldn't be tried here."""

    def __init__(self):
        self.passed, self.failed, self.skipped = 0, 0, 0

    def skip(self, why):
        """Counts a test that can't run here, and prints why."""
        print(f"{why}: skipped", flush=True)
        self.skipped += 1

    def show(self, name, faults=(), more=""):
        """Prints a try with the first of its faults, of which there are none if all is as it has to be."""
        print(f"{name}: {'FAILED' if faults else 'ok'}{more and ': '}{more}", flush=True)
        for fault in faults[:8]:
            print(f"    {fault[:2000]}", flush=True)
        self.passed, self.failed = self.passed + (not faults), self.failed + bool(faults)

    def attempt(self, name, tried):
        """Shows a try by what it returns, its faults and what is to be said of it, or by the error that stopped it."""
        try:
            faults, more = tried()
        except (OSError, RuntimeError, subprocess.SubprocessError) as error:
            faults, more = [str(error)], ""
        self.show(name, faults, more)

    def end(self):
        """Prints the counts, and returns the exit status."""
        more = f", {self.skipped} skipped" if self.skipped else ""
        print(f"{self.passed} passed, {self.failed} failed{more}")
        return 1 if self.failed or not self.passed + self.skipped else 0
