"""What runs of the built program may come to when requests for memory are refused: each way to end, by its name."""
import sys
import tomllib

from trying import DEMO, HELP, ONE_FRAME, REPORT, ROOT, SCRIPT, WRONG, text_of, totals

sys.path += [f"{ROOT}/tests/run", f"{ROOT}/tests/report"]
import expected
import model

# A script of a hundred messages of one byte, each of which is polled for, and what is printed of it.
LONG = "".join(f"send 10 {place:02x}\nat {1000 * place}\n" for place in range(100))
LONG_FRAMES = model.run(DEMO, LONG.encode())[1]
# A line of each kind, and a message that has no room at first.
LINES = "# note\nsend 10 01\nsend 10 0123456789abcdef\nsend 10 03\nat 0\nsend 10 03\nsend 10 -\nat 1000\nclose 1 0\nat 2000\n"
LINES_STATUS, LINES_TOLD, _ = model.run(DEMO, LINES.encode())
# Two ports on each of two sub-VLs, and two ports of one flow, which is one of the last faults that are looked for.
LINK = "end_system = { id = 1 }\nvl = [{ id = 1, bag_ms = 1, lmax = 1518, sub_vls = 2, capacity = 256 }]\nport = [\n"
PORT = "kind = 'queuing', source = 1000, destination = 2000, max = 64 },\n"
PORTS = "".join([LINK, *(f"{{ id = {k}, vl = 1, sub = {(k - 1) // 2}, partition = {k}, {PORT}" for k in range(1, 5)), "]\n"])
FLOW = "".join([LINK, *(f"{{ id = {k}, vl = 1, sub = {k - 1}, partition = 1, {PORT}" for k in (1, 2)), "]\n"])
# The files of the folder in which the programs run.
FILES = {
    "plan.toml": DEMO, "ports.toml": PORTS, "flow.toml": FLOW, "broken.toml": "lmax =", "script.txt": SCRIPT,
    "long.txt": LONG, "lines.txt": LINES, "hex.txt": "send 10 0g\n", "extra.txt": "send 10 01 02\n",
}


class Case:
    """Runs of a program with some words, in which `many` requests are refused; 0: all from the first one on.
    `outputs` has what a run may write, by the name of the way in which it ends, and `early` the ways of runs
    that end with a failure; those of `seen` must each come, besides the answer. The answer comes with `status`
    and `err` on standard error."""

    def __init__(self, name, words, outputs, seen, early=(), given=b"", many=1, status=0, err=""):
        self.name = name if many == 1 else f"{name} ({many or 'all from there on'} refused)"
        self.words, self.outputs, self.early = words, outputs, early
        self.ways, self.given, self.many = [*seen, "answered"], given, many
        self.status, self.err = status, err

    def way(self, ran):
        """The way in which a run ended, or None if that isn't promised."""
        for name, ends in self.early:
            if ran.is_refused and ends(ran):
                return name
        for name, outputs in self.outputs.items():
            if any(ran.ended(self.status, out, self.err) for out in outputs):
                return name if ran.is_refused or name == "answered" else None
        return None


class Shown(Case):
    """Runs in which each refusal shows: calls that take no memory make no request."""

    def way(self, ran):
        name = super().way(ran)
        return None if ran.is_refused and name == "answered" else name


def part_calls():
    """Calls of the library: one that is out of memory is made once more, and then has the answer that is wanted."""
    text = text_of("crates/part_calls/stdout")
    names = [line.partition(":")[0] for line in text.splitlines()]
    again = {f"{name} again": [text.replace(f"{name}:", f"{name}: out of memory\n{name}:")] for name in names}
    return Shown("part_calls", [], {"answered": [text], **again}, again)


def command(words, text, given=b"", others=None, many=1, status=0, err=""):
    """A command of the program, and what it writes; without memory it ends so once it has written a beginning of that."""
    early = ("out of memory", lambda ran: text.startswith(ran.out) and ran.ended(4, ran.out, "out of memory\n"))
    outputs = {"answered": [text], **(others or {})}
    return Case(" ".join(["afdx_bench", *words]), words, outputs, ["out of memory"], [early], given, many, status, err)


RUN, LONG_RUN = ["run", "plan.toml", "script.txt"], ["run", "plan.toml", "long.txt"]
CAPTURED, CHECK = [*RUN, "--capture", "frames.pcapng"], ["check", "plan.toml"]
STORM = ["storm", "plan.toml", "--messages", "2", "--turns", "1000"]


def commands(many):
    """All commands, and words that name none."""
    others = {"a network went down": [totals(2, "differ")]} if many == 1 else None
    return [
        command([], ONE_FRAME, given=SCRIPT.encode(), many=many),
        command(CHECK, REPORT, many=many),
        command(RUN, ONE_FRAME, many=many),
        command(CAPTURED, ONE_FRAME, many=many),
        command(STORM, totals(2), others=others, many=many),
        command(["--help"], HELP, many=many),
        command(["frob"], "", many=many, status=2, err=WRONG),
    ]


def refused(plan, fault, line):
    """A plan that `check` refuses. The line of its first fault is what `explain` has, which without memory is named alone."""
    head = f"configuration refused: {fault}\n"
    brief = f"{head}{plan}: for all faults and their places, run `afdx_bench explain {plan}`\n"
    case = command(["check", plan], "", status=2, err=f"{head}{plan}{line}\n")
    case.early.append(("told in brief", lambda ran: ran.ended(2, "", brief)))
    case.ways.append("told in brief")
    return case


def storm(many):
    """Threads of four ports, which send 100 messages each."""
    text = "accepted 400\nlink 1: frames 400, bytes 24000, messages 400\nnetworks equal\nwatcher never back\n"
    others = {"a network went down": [text.replace("equal", "differ")]} if many == 1 else None
    return command(["storm", "ports.toml", "--messages", "100", "--turns", "1000"], text, others=others, many=many)


COMMANDS = [
    *commands(1),
    command(LONG_RUN, LONG_FRAMES),
    command(["run", "plan.toml", "lines.txt"], LINES_TOLD, status=LINES_STATUS),
    command(["run", "plan.toml", "hex.txt"], "", status=2, err="script line 1: 3 Hex\n"),
    command(["run", "plan.toml", "extra.txt"], "", status=2, err="script line 1: 4 Extra\n"),
    command(["check", "ports.toml"], expected.check_of(tomllib.loads(PORTS))),
    refused("flow.toml", "12 SameFlow", ": 12 SameFlow: port 2 (id 2) and port 1 (id 1): the same vl, partition, source, destination and dest_ip"),
    refused("broken.toml", "1 Toml", ":1: 1 Toml: line 1, column 7: invalid value, expected a string, number, boolean, date-time, array or inline table"),
    storm(1),
    *commands(0),
    storm(0),
]
# The commands whose standard output is closed early, and those whose writes are made to fail.
CLOSED = [RUN, LONG_RUN, CAPTURED, CHECK, STORM, ["--help"]]
WRITTEN = [*CLOSED, [*LONG_RUN, "--capture", "frames.pcapng"]]
