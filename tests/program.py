#!/usr/bin/env python3
"""Runs the program with words, files, streams and captures of many kinds.

    python3 tests/program.py

It runs what `rt ci` has built, the program `afdx_bench` as each compiler makes it: each exit status with its text,
which of two faults is reported, words and numbers that are none, lines and plans of the greatest length, standard
streams that are closed or full, a storm and failures whose standard error is a terminal, and captures, which
`tests/pcapng.py` reads. The last line is 'N passed, M failed', the exit status 0 exactly if nothing failed.
"""
import os
import pty
import re
import subprocess
import sys
import tempfile
import termios
import time
import tty

# (no compiled copy is left beside the scripts)
sys.dont_write_bytecode = True
import pcapng
import storms
from trying import DEMO, HELP, JUDGED, LINE_FORMS, ONE_FRAME, REPORT, ROOT, SCRIPT, STORM_HELP, WRONG, Tries, built, started, text_of, totals

sys.path.append(f"{ROOT}/tests/report")
from fixed import ANALYSES

# A second link, on network B alone, and a port of it.
LINK, PORT = DEMO[DEMO.index("[[vl]]") : DEMO.index("[[port]]")], DEMO[DEMO.index("[[port]]") :]
SECOND = LINK.replace("id = 1", 'id = 2\nnetworks = "b"').replace("bag_ms = 1", "bag_ms = 2")
TWO = f"version = 2\n{DEMO}\n{SECOND}{PORT.replace('id = 10', 'id = 20').replace('vl = 1', 'vl = 2')}"
# Messages of one and of six frames, and polls up to times of 33 bits.
LONG = "".join(
    f"send 10 {'5a' * (1 + 977 * place % 8192)}\nsend 20 {place:02x}\n" for place in range(40)
) + "".join(f"at {at}\n" for at in range(0, 600_000, 500)) + "at 4294967299\nat 8589934592\n"
# A line that is refused while running.
FULL, FULL_NOTED = "send 10 01\nsend 10 02\nsend 10 03\nat 0\n", "line 3: refused Full\n" + ONE_FRAME
# The most bytes of a plan, and of a line of a script.
TEXT_LIMIT, LINE_LIMIT = 16 * 2**20, 20_000
FILES = {
    "six.toml": DEMO.replace("max = 8192", "max = 6"), **storms.PLANS,
    "demo.toml": DEMO, "wrong.toml": DEMO.replace("bag_ms = 1", "bag_ms = 3"), "worse.toml": DEMO.replace("bag_ms = 1", "bag_ms = 3") + PORT, "small.toml": DEMO.replace("max = 8192", "max = 5"),
    "two.toml": TWO.replace("capacity = 2", "capacity = 100"), "old.pcapng": "\0" * 100_000,
    "short.txt": SCRIPT, "long.txt": LONG, "faulty.txt": SCRIPT + "at x\n", "full.txt": FULL, "lines.txt": "\n" * 1_000_001,
}
RUN, JUDGE, CHECK = ["run", "demo.toml", "short.txt"], ["judge", "demo.toml", "short.txt"], ["check", "demo.toml"]
ARINC = [*JUDGE, "--profile", "arinc"]
STORM = ["storm", "demo.toml", "--messages", "2", "--turns", "1000"]
LATE = ["storm", "demo.toml", "--messages", "3", "--turns", "1"]
CAPTURED = [*RUN, "--capture", "frames.pcapng"]
VERSION = re.search('AFDX_VERSION "(.*)"', text_of("crates/afdx/afdx.h"))[1]
BAD_BAG = "configuration refused: 6 BadBag\n"
# The second line of some failures.
NOT_THERE, UNREAD = "No such file or directory (os error 2)\n", "it can't be read, or has more than 16 MiB\n"
NO_ROOM, WRITTEN = "No space left on device (os error 28)\n", "the command already writes this file, so name another\n"
FOUND = "wrong.toml:6: 6 BadBag: vl 1 (id 1), bag_ms is 3: 1, 2, 4, 8, 16, 32, 64 or 128\n"
SEE_EXPLAIN = "worse.toml: for all faults and their places, run `afdx_bench explain worse.toml`\n"
EXPLAIN, ANALYSE, ANALYSIS = ["explain", "demo.toml"], ["report", "demo.toml"], ANALYSES[DEMO, 0]
EXPLAINED = f"1 fault\n{FOUND}"
NO_TEXT = WRONG.replace("unrecognized subcommand 'frob'", "a word is not UTF-8")

# Words, and how a run of them ends: its status, standard output and standard error. Standard input is empty.
ROWS = [
    (RUN, 0, ONE_FRAME, ""),
    (CHECK, 0, REPORT, ""),
    (STORM, 0, totals(2), ""),
    (["storm", "--turns", "1000000000", "--messages=002", "demo.toml"], 0, totals(2), ""),
    (["run", "--capture=frames.pcapng", "demo.toml", "short.txt"], 0, ONE_FRAME, ""),
    ([*JUDGE, "--jitter", "1000000", "--skew=07", "--late", "--fcs", "--profile=arinc"], 2, JUDGED, ""),
    (["--help"], 0, HELP, ""), (["storm", "--help"], 0, STORM_HELP, ""),
    (["--version"], 0, f"afdx_bench {VERSION}\n", ""),
    (EXPLAIN, 0, "no faults\n", ""),
    (["explain", "wrong.toml"], 1, EXPLAINED, ""),
    ([*ANALYSE, "--lateness=0000"], 0, ANALYSIS, ""),
    ([*ANALYSE, "--html", "made.html"], 0, ANALYSIS, ""),
    (JUDGE, 2, JUDGED, ""),
    (["frob"], 2, "", WRONG),
    ([b"\xff"], 2, "", NO_TEXT),
    ([*CHECK, b"\xff"], 2, "", NO_TEXT),
    (["check", "wrong.toml"], 2, "", BAD_BAG + FOUND),
    (["check", "worse.toml"], 2, "", BAD_BAG + FOUND.replace("wrong", "worse") + SEE_EXPLAIN),
    (["storm", "wrong.toml", *STORM[2:]], 2, "", BAD_BAG + FOUND),
    (["run", "demo.toml", "faulty.txt"], 2, ONE_FRAME, "script line 3: 2 Number\n"),
    (["run", "demo.toml", "lines.txt"], 2, "", "script refused: too many lines\n"),
    (["storm", "small.toml", *STORM[2:]], 2, "", "storm refused: a port's max is below 6\n"),
    (["run", "demo.toml", "full.txt"], 3, FULL_NOTED, ""),
    (["check", "none.toml"], 4, "", "read failed\n"),
    (["run", "demo.toml", "."], 4, "", "read failed\n"),
    (["storm", "none.toml", *STORM[2:]], 4, "", "read failed\n"),
    (["explain", "none.toml"], 4, "", f"read failed\nnone.toml: {NOT_THERE}"),
    (["explain", "."], 4, "", f"read failed\n.: {UNREAD}"),
    (["report", "."], 4, "", f"read failed\n.: {UNREAD}"),
    (["judge", "demo.toml", "."], 4, "", "read failed\n.: it can't be read\n"),
    ([*JUDGE, "none.pcap"], 4, "", f"read failed\nnone.pcap: {NOT_THERE}"),
    ([*JUDGE, "--html", "made.html"], 2, JUDGED, ""),
    ([*JUDGE, "--html", "nowhere/unmade"], 4, "", f"write failed\nnowhere/unmade: {NOT_THERE}"),
    ([*JUDGE, "--html", "./short.txt"], 4, "", "write failed\n./short.txt: the command reads this file, so name another\n"),
    ([*JUDGE, "full.txt", "--html", "full.txt"], 4, "", "write failed\nfull.txt: the command reads this file, so name another\n"),
    (["judge", "wrong.toml", "none.pcap", "--html", "unmade"], 2, "", BAD_BAG + FOUND),
    (LATE, 5, "", "turns used up\n"),
    *storms.ROWS,
    # the configuration is read before the script, and both are opened before a capture is made
    (["run", "wrong.toml", "none.txt", "--capture", "unmade"], 2, "", BAD_BAG + FOUND),
    (["run", "demo.toml", "none.txt", "--capture", "unmade"], 4, "", "read failed\n"),
    ([*RUN, "--capture", "nowhere/unmade"], 4, "", f"write failed\nnowhere/unmade: {NOT_THERE}"),
    (["report", "wrong.toml", "--html", "unmade"], 2, "", BAD_BAG + FOUND),
    (["report", "none.toml", "--html", "unmade"], 4, "", f"read failed\nnone.toml: {NOT_THERE}"),
    ([*ANALYSE, "--html", "nowhere/unmade"], 4, "", f"write failed\nnowhere/unmade: {NOT_THERE}"),
    ([*ANALYSE, "--html", "./demo.toml"], 4, "", "write failed\n./demo.toml: the command reads this file, so name another\n"),
    ([*ANALYSE, "--html", "made.html", "--csv", "./made.html"], 4, "", f"write failed\n./made.html: {WRITTEN}"),
    ([*ANALYSE, "--html", "/dev/full"], 4, "", f"write failed\n/dev/full: {NO_ROOM}"),
    ([*ANALYSE, "--csv", "/dev/full"], 4, "", f"write failed\n/dev/full: {NO_ROOM}"),
    ([*RUN, "--capture", "/dev/full"], 4, ONE_FRAME, f"write failed\n/dev/full: {NO_ROOM}"),
]

# What a terminal is shown of a failure whose text is one line elsewhere: that line, and the file, why, and what next.
LINE_FAULTS = {
    "word.txt": ("frob\n", "1 Word"),
    "number.txt": ("at x\n", "2 Number"),
    "hex.txt": ("send 10 0\n", "3 Hex"),
    "extra.txt": ("at 0 0\n", "4 Extra"),
    "line.txt": ("#" * (LINE_LIMIT + 1), "5 Long"),
}
SHORT_MAX = ["storm", "small.toml", *STORM[2:]]
TERMINAL = [
    (["check", "none.toml"], 4, "read failed\n", f"none.toml: {NOT_THERE}"),
    (["check", "."], 4, "read failed\n", f".: {UNREAD}"),
    (["check", "wrong.toml"], 2, BAD_BAG, FOUND),
    (["run", "wrong.toml", "none.txt"], 2, BAD_BAG, FOUND),
    (["run", "none.toml", "none.txt"], 4, "read failed\n", f"none.toml: {NOT_THERE}"),
    (["run", "demo.toml", "none.txt"], 4, "read failed\n", f"none.txt: {NOT_THERE}"),
    (["run", "demo.toml", "."], 4, "read failed\n", ".: it can't be read\n"),
    (["run", "demo.toml", "lines.txt"], 2, "script refused: too many lines\n", "lines.txt: a script has at most 1000000 lines\n"),
    ([*RUN, "--capture", "nowhere/unmade"], 4, "write failed\n", f"nowhere/unmade: {NOT_THERE}"),
    ([*RUN, "--capture", "short.txt"], 4, "write failed\n", "short.txt: the command reads this file, so name another\n"),
    ([*RUN, "--capture", "/dev/full"], 4, "write failed\n", f"/dev/full: {NO_ROOM}"),
    (["storm", "none.toml", *STORM[2:]], 4, "read failed\n", f"none.toml: {NOT_THERE}"),
    (["storm", "wrong.toml", *STORM[2:]], 2, BAD_BAG, FOUND),
    (SHORT_MAX, 2, "storm refused: a port's max is below 6\n", "small.toml: a storm's messages have 6 bytes, so give each port a max of 6 or more\n"),
    (LATE, 5, "turns used up\n", "demo.toml: give more --turns, or fewer --messages\n"),
    (["report", "wrong.toml"], 2, BAD_BAG, FOUND),
    (RUN, 0, "", ""),
]

# Words that print something: the status, and what.
PRINTED = [
    (RUN, 0, ONE_FRAME),
    (CAPTURED, 0, ONE_FRAME),
    (CHECK, 0, REPORT),
    (STORM, 0, totals(2)),
    (EXPLAIN, 0, "no faults\n"),
    (["explain", "wrong.toml"], 1, EXPLAINED),
    (ANALYSE, 0, ANALYSIS),
    (JUDGE, 2, JUDGED),
    (["--help"], 0, HELP),
    (["--version"], 0, f"afdx_bench {VERSION}\n"),
]

# What is no number of decimal digits alone, or lies outside of both ranges.
NO_NUMBERS = ["+5", " 5", "5 ", "-5", "", "0x5", "5.0", "1_000", "+", "٥", "0", "00", "18446744073709551617"]

# Lines of words that are no command's, with commas between them.
NO_COMMANDS = """help,chekc demo.toml,check,check --all demo.toml,check --version,run demo.toml,
run demo.toml short.txt long.txt,run demo.toml short.txt --capture,run demo.toml short.txt --capture c --capture d,
check demo.toml --capture c.pcapng,explain,explain demo.toml demo.toml,explain demo.toml --html made.html,report,
report demo.toml demo.toml --html made.html,report demo.toml --lateness 1000001,report demo.toml --html,report demo.toml --html made.html --csv made.html,report demo.toml --capture c.pcapng,
judge demo.toml,judge demo.toml b c d,judge demo.toml b --jitter,judge demo.toml b --jitter 1000001,judge demo.toml b --profile none,judge demo.toml b --with,judge demo.toml b --every 0,judge demo.toml b --every 1000,storm demo.toml,
storm demo.toml --messages 1,storm demo.toml --messages 65536 --turns 1,storm demo.toml --messages 1 --turns 1000000001"""

# What is no constant field, and what are no two different interface bytes.
NO_CONSTANTS = ["", "3000000", "0300000", "030000000", "03:00:00", "03:00:00:00:", "03:00:0000", "0:3:00:00", "+3000000", "0x030000", "03 00 00 00", "03-00-00-00", "gg000000"]
NO_BYTES = ["", "21", "21,", ",21", "21,21", "2a,2A", "21,41,61", "2141", "1,2", "0x21,41", "21:41", "21, 41", "-1,41", "321,41"]

# The standard streams that are closed before a run, in each way.
CLOSED = [[0], [1], [2], [0, 1], [0, 2], [1, 2], [0, 1, 2]]

# What a terminal is shown of a storm.
SHOWN = re.compile(rb"\raccepted (\d+) of (\d+), frames (\d+)")


class Room:
    """A program in a folder with the files of its runs, and what wasn't as it has to be."""

    def __init__(self, folder, program):
        self.folder, self.program, self.faults = folder, program, []
        for name, text in FILES.items():
            self.write(name, text)

    def write(self, name, text):
        with open(f"{self.folder}/{name}", "w", encoding="utf-8") as file:
            file.write(text)

    def read(self, name):
        with open(f"{self.folder}/{name}", "rb") as file:
            return file.read()

    def want(self, is_well, what):
        if not is_well:
            self.faults.append(f"{what}")

    def start(self, *words, **how):
        how = how if {"stdin", "input"} & {*how} else {"stdin": subprocess.DEVNULL, **how}
        how = {"stdout": subprocess.PIPE, "stderr": subprocess.PIPE, **how}
        return started(self.program, words, cwd=self.folder, text=True, **how)

    def ends(self, words, status, out, err, **how):
        """A run of these words has to end so."""
        ran = self.start(*words, **how)
        self.want((ran.returncode, ran.stdout or "", ran.stderr) == (status, out, err), f"{how or ''} {ran}")

    def is_refused(self, *words):
        """These words have to be refused."""
        ran = self.start(*words)
        self.want(ran.returncode == 2 and not ran.stdout and "--help" in ran.stderr, ran)

    def is_captured(self, name, transcript):
        """A reader has to take a capture, whose packets are the lines of a transcript."""
        self.write("transcript", transcript)
        try:
            results = pcapng.checks(f"{self.folder}/{name}", f"{self.folder}/transcript")
            self.want(all(results), f"{name} isn't of its transcript")
        except pcapng.Malformed as fault:
            self.want(False, fault)


def rows(room):
    """Each exit status, with what is printed."""
    for row in ROWS:
        room.ends(*row)
    room.want(not os.path.exists(f"{room.folder}/unmade"), "a capture was made")


def standard_input(room):
    """Without words the script comes from standard input."""
    for given, *row in [(SCRIPT, 0, ONE_FRAME, ""), (FULL, 3, FULL_NOTED, ""), ("at x\n", 2, "", "script line 1: 2 Number\n")]:
        room.ends([], *row, input=given)
    room.ends([b"\xff"], 2, "", NO_TEXT, input=SCRIPT)
    room.ends([], 4, "", "read failed\n", preexec_fn=lambda: os.close(0))


def numbers(room):
    """Numbers are decimal digits alone, and each command has its own words."""
    for it in NO_NUMBERS:
        for words in (["--messages", it, "--turns", "9"], ["--messages", "2", "--turns", it], [f"--messages={it}", "--turns", "9"]):
            room.is_refused("storm", "demo.toml", *words)
        if it.strip("0"):
            room.is_refused(*ANALYSE, "--lateness", it)
            room.is_refused(*JUDGE, "--jitter", it)
            room.is_refused(*JUDGE, "--skew", it)
    for it in NO_CONSTANTS:
        room.is_refused(*ARINC, "--constant", it)
        room.is_refused(*ARINC, "--constant", it, "--interfaces", "21,41")
    for it in NO_BYTES:
        room.is_refused(*ARINC, "--interfaces", it)
    for more in (["--constant", "03000001"], ["--interfaces", "21,41"], ["--interfaces", "21,41", "--profile", "own"]):
        room.is_refused(*JUDGE, *more)
    for line in NO_COMMANDS.split(","):
        room.is_refused(*line.split())


def closed_streams(room):
    """A standard stream that is closed fails, and no file of the run takes its place: a capture has its blocks alone."""
    for closed in CLOSED:
        is_lost = 1 in closed
        err = "write failed\n" if is_lost and 2 not in closed else ""
        for words, status, out in PRINTED:
            how = {"preexec_fn": lambda: [os.close(it) for it in closed]}
            room.ends(words, 4 if is_lost else status, "" if is_lost else out, err, **how)
        if is_lost:
            room.want(room.read("frames.pcapng") == b"", f"a capture without {closed}")
        else:
            room.is_captured("frames.pcapng", ONE_FRAME)


def full_output(room):
    """Standard output without room fails."""
    with open("/dev/full", "w", encoding="utf-8") as full:
        for words, _, _ in PRINTED:
            room.ends(words, 4, "", "write failed\n", stdout=full)


def long_lines(room):
    """A line has at most its length, wherever it begins."""
    for before in (0, 1000, LINE_LIMIT):
        for size in (LINE_LIMIT - 1, LINE_LIMIT, LINE_LIMIT + 1):
            line = "send 10".ljust(size - 2) + "01"
            room.write("line.txt", f"#{' ' * (before - 2)}\n"[:before] + f"{line}\nat 0\n")
            fault = (2, "", f"script line {2 if before else 1}: 5 Long\n")
            room.ends(["run", "demo.toml", "line.txt"], *(fault if size > LINE_LIMIT else (0, ONE_FRAME, "")))


def great_plans(room):
    """A plan of 16 MiB is read, and one of a byte more is not."""
    for more in (0, 1):
        room.write("great.toml", "#" * (TEXT_LIMIT - len(DEMO) - 1 + more) + "\n" + DEMO)
        for words, status, out in PRINTED:
            if "demo.toml" in words:
                words = [word.replace("demo.toml", "great.toml") for word in words]
                told = "read failed\ngreat.toml: it has more than 16 MiB, the most that is read\n"
                room.ends(words, *((4, "", told) if more else (status, out, "")))


def captures(room):
    """A run with a capture prints what it prints without one, and its capture has these frames: of two links, fragments
    and times of 33 bits among them, and of the lines before a fault. A file that is there is replaced, and a link that
    leads nowhere is followed."""
    os.symlink("made.pcapng", f"{room.folder}/link")
    for config, script, name, to in [
        ("two.toml", "long.txt", "long.pcapng", "long.pcapng"),
        ("demo.toml", "faulty.txt", "faulty.pcapng", "faulty.pcapng"),
        ("demo.toml", "short.txt", "old.pcapng", "old.pcapng"),
        ("demo.toml", "short.txt", "link", "made.pcapng"),
    ]:
        plain = room.start("run", config, script)
        room.ends(["run", config, script, "--capture", name], plain.returncode, plain.stdout, plain.stderr)
        room.want(plain.stdout, f"{script} prints nothing")
        room.is_captured(to, plain.stdout)
    # frames at the greatest times of 32 and 64 bits
    times = (0, 2**32 - 1, 2**32 + 1000, 2**64 - 1)
    room.write("times.txt", "".join(f"send 10 01\nat {at}\n" for at in times))
    ran = room.start("run", "demo.toml", "times.txt", "--capture", "times.pcapng")
    told = [line.split()[:2] for line in ran.stdout.splitlines()]
    room.want(told == [[name, str(at)] for name in "AB" for at in times], ran)
    room.is_captured("times.pcapng", ran.stdout)
    packets = pcapng.Capture(room.read("long.pcapng")).packets
    room.want(len(packets) > 200 and any(packet.data[20] & 0x20 for packet in packets), "no fragments")


def own_files(room):
    """A capture that is the configuration or the script, by whatever name or as standard input, is refused, and both are left."""
    os.mkdir(f"{room.folder}/inner")
    for name in ("demo.toml", "short.txt"):
        os.link(f"{room.folder}/{name}", f"{room.folder}/inner/hard-{name}")
        os.symlink(f"../{name}", f"{room.folder}/inner/soft-{name}")
    def refused(name):
        return 4, "", f"write failed\n{name}: the command reads this file, so name another\n"

    for name in ("demo.toml", "short.txt"):
        for way in ("", "./", "inner/../", "inner/hard-", "inner/soft-", f"{room.folder}/"):
            room.ends([*RUN, "--capture", way + name], *refused(way + name))
    room.ends(["run", "inner/soft-demo.toml", "inner/hard-short.txt", "--capture", "short.txt"], *refused("short.txt"))
    with open(f"{room.folder}/short.txt", encoding="utf-8") as script:
        room.ends(["run", "demo.toml", "/dev/stdin", "--capture", "short.txt"], *refused("short.txt"), stdin=script)
    room.want((room.read("demo.toml"), room.read("short.txt")) == (DEMO.encode(), SCRIPT.encode()), "a file was changed")


def is_at_work(process, seconds):
    """Whether a process has taken less than so many seconds of a processor, and its first thread isn't the only one left."""
    with open(f"/proc/{process.pid}/stat", encoding="utf-8") as stat:
        words = stat.read().rpartition(")")[2].split()
    taken = (int(words[11]) + int(words[12])) / os.sysconf("SC_CLK_TCK")
    return taken < seconds and (taken < 0.1 or words[17] != "1")


def on_terminal(room, words, stopped=0):
    """A run whose standard error is a terminal: its status, its standard output, and what the terminal was shown. A
    terminal that is stopped takes nothing until the run has worked for so many seconds, or has one thread left."""
    terminal, theirs = pty.openpty()
    tty.setraw(theirs)
    if stopped:
        termios.tcflow(theirs, termios.TCOOFF)
    name = os.path.basename(room.program).partition(".")[0]
    how = {"executable": room.program, "cwd": room.folder, "stdin": subprocess.DEVNULL, "stdout": subprocess.PIPE}
    shown = b""
    with subprocess.Popen([name, *words], stderr=theirs, **how) as process:
        until = time.monotonic() + 60
        while stopped and is_at_work(process, stopped) and time.monotonic() < until:
            time.sleep(0.05)
        termios.tcflow(theirs, termios.TCOON)
        os.close(theirs)
        try:
            while part := os.read(terminal, 65536):
                shown += part
        except OSError:
            # (so a terminal ends)
            pass
        out = process.stdout.read().decode()
    os.close(terminal)
    return process.returncode, out, shown


def progress(room):
    """A storm on a terminal shows how far it has come, on one line that it ends; nothing in its first tenth of a second,
    so that a short one is followed by a longer one. One that is refused shows its failure alone."""
    for messages in (500, 1000, 2000, 4000):
        begun = time.monotonic()
        words = ["storm", "many.toml", "--messages", str(messages), "--turns", "1000000000"]
        status, out, shown = on_terminal(room, words)
        room.want((status, out) == (0, totals(storms.MANY * messages)), f"status {status}, {out!r}")
        if shown:
            break
    counts = [tuple(map(int, it)) for it in SHOWN.findall(shown)]
    is_whole = re.fullmatch(b"(?:" + SHOWN.pattern + b")+\n", shown) is not None
    rises = all(list(it) == sorted(it) for it in zip(*counts))
    in_range = all(max(it) <= storms.MANY * messages and it[1] % messages == 0 for it in counts)
    room.want(is_whole and rises and in_range and len(counts) <= 10 * (time.monotonic() - begun), repr(shown))
    room.want(on_terminal(room, STORM) == (0, totals(2), b""), "a short storm on a terminal")


def many_turns(room):
    """A worker of a storm tries far more than a million times if that is allowed, as while the poller waits for its
    terminal; with a million it gives up."""
    room.write("one.toml", DEMO.replace("capacity = 2", "capacity = 1"))
    for turns, stopped, wanted in ((1_000_000_000, 3, (0, totals(60_000))), (1_000_000, 30, (5, ""))):
        status, out, shown = on_terminal(room, ["storm", "one.toml", "--messages", "60000", "--turns", str(turns)], stopped)
        # (a storm of a tenth of a second doesn't meet its terminal)
        room.want((status, out) == wanted or not shown, f"{turns} turns: {status}, {out!r}, {shown[-100:]}")


def second_lines(room):
    """On a terminal a failure has a second line: the file, why, and what to do next."""
    for words, status, first, second in TERMINAL:
        ended, _, shown = on_terminal(room, words)
        room.want((ended, shown.decode()) == (status, first + second), f"{words}: {ended}, {shown}")
    for name, (text, fault) in LINE_FAULTS.items():
        room.write(name, SCRIPT + text)
        line = SCRIPT.count("\n") + 1
        ended, _, shown = on_terminal(room, ["run", "demo.toml", name])
        room.want((ended, shown.decode()) == (2, f"script line {line}: {fault}\n{name}:{line}: {LINE_FORMS[fault]}\n"), f"{name}: {ended}, {shown}")


CASES = [rows, standard_input, numbers, closed_streams, full_output, long_lines, great_plans, captures, own_files, progress, many_turns, second_lines]


def tried(case, program):
    """What came of a case, in a folder of its own."""
    with tempfile.TemporaryDirectory(prefix="program-") as folder:
        room = Room(folder, program)
        case(room)
        return room.faults, ""


def main():
    tries = Tries()
    for build, program in built("afdx_bench").items():
        for case in CASES:
            tries.attempt(f"{case.__name__} by {build}", lambda: tried(case, program))
    return tries.end()


if __name__ == "__main__":
    sys.exit(main())
