"""The pictures that explain: the way of a message, the steps of the queue, and the gap rule with jitter.

Their numbers are those of a run of the program, of a model of the queue's steps, and of the rule.
"""
from collections.abc import Iterator

from svg_page import MARGIN, WIDTH, Picture

# The colors: of the first sender or sub-VL, of the second, of a receiver, of what is wrong, of what is free.
COLORS = {"one": "#2f6fab", "two": "#8a5a00", "three": "#1a7f37", "wrong": "#b3361f", "free": "#f3f5f7"}
STYLE = "".join(f".{name}{{fill:{it}}}" for name, it in COLORS.items()) + ".white{fill:#fff}"
LINE = "#57606a"

# A frame of a run: its network, its time in microseconds, its bytes.
Frame = tuple[str, int, bytes]

MESSAGE = """Two ports of link 100 send. A message is copied into the queue of its sub-VL. A poll cuts it into pieces;
the regulator of the link takes a piece each BAG of 8 ms, from the sub-VLs in turn; the frame gets the next number of
the link, and goes to network A and to network B. Below, the frames on both networks against time."""


def message(frames: list[Frame]) -> str:
    """Returns the way of messages of two ports to the networks, from their frames at 0, 8, 16 and 24 ms."""
    it = Picture("The way of a message", MESSAGE, STYLE)
    for x, width, title in ((12, 150, "threads of partitions"), (330, WIDTH - 342, "one poll of the emitter")):
        it.text(x + 6, 26, title, "bold")
        it.rect(x, 34, width, 176, "", fill="none", stroke=LINE, stroke_dasharray="4 4", rx="6")
    it.text(192, 26, "queues", "bold")
    pieces = sum(network == "A" and sub_of(frame) == 1 for network, _, frame in frames)
    way_to_regulator(it, 78, ["port 1", "airspeed", "64 bytes"], 0, "into 1 piece")
    way_to_regulator(it, 164, ["port 3", "sensor status", "300 bytes"], 1, f"into {pieces} pieces")
    box(it, 472, 88, 142, 66, ["regulator of link 100", "a frame each 8 ms,", "sub-VLs in turn"])
    arrow(it, 614, 121, 634, 121)
    box(it, 636, 88, 88, 66, ["number", "0, 1 to 255,", "1 to 255, .."])
    for name, y in (("A", 62), ("B", 144)):
        (byte,) = {frame[11] for network, _, frame in frames if network == name}
        arrow(it, 724, 121, 752, y + 18)
        box(it, 754, y, 88, 36, [f"network {name}", f"byte 11: 0x{byte:x}"])
    frames_in_time(it, frames)
    return it.made(378)


def sub_of(frame: bytes) -> int:
    """Returns the sub-VL of a frame, which its identification has."""
    return frame[19] % 4


def box(it: Picture, x: float, y: float, width: float, height: float, lines: list[str]) -> None:
    """Adds a box with lines of text, the first one bold."""
    it.rect(x, y, width, height, "white", stroke=LINE, rx="4")
    top = y + height / 2 - 7.5 * len(lines) + 11
    for k, line in enumerate(lines):
        it.text(x + width / 2, top + 15 * k, line, "middle" if k else "middle bold", 11.5)


def arrow(it: Picture, x1: float, y1: float, x2: float, y2: float) -> None:
    """Adds an arrow."""
    it.line(x1, y1, x2, y2)
    it.add("path", "", d=f"M{x2 - 7:g} {y2 - 4:g}L{x2:g} {y2:g}L{x2 - 7:g} {y2 + 4:g}")


def way_to_regulator(it: Picture, y: float, port: list[str], sub: int, cut: str) -> None:
    """Adds the way of a port's message through the queue of its sub-VL, and its cutting."""
    for k, line in enumerate(port):
        it.text(24, y - 11 + 16 * k, line, "" if k else "bold", 12 if k else 13)
    arrow(it, 116, y, 188, y)
    it.text(138, y - 6, "send", "quiet middle", 11)
    it.text(192, y - 20, f"sub-VL {sub}", "quiet", 11)
    for k, kind in enumerate(["free", "free", "free", ("one", "two")[sub]]):
        it.rect(192 + 27 * k, y - 14, 25, 28, kind, stroke=LINE)
    arrow(it, 300, y, 346, y)
    box(it, 348, y - 20, 92, 40, ["cut", cut])
    arrow(it, 440, y, 470, 121 + (y - 121) / 3)


def frames_in_time(it: Picture, frames: list[Frame]) -> None:
    """Adds the frames of both networks against time, of which a frame has more color than it takes."""
    it.text(MARGIN, 244, "Frames of link 100", "bold")
    tops = {"A": 262, "B": 308}
    for name, y in tops.items():
        it.text(MARGIN, y + 22, f"network {name}")
        it.line(110, y + 37, WIDTH - MARGIN, y + 37)
    for name, at, frame in frames:
        x, y, sub = 116 + at * 0.02275, tops[name], sub_of(frame)
        told = f"sensor status, piece {1 if frame[20] & 0x20 else 2}" if sub else "airspeed"
        it.rect(x, y, 168, 37, ("one", "two")[sub], rx="3")
        it.text(x + 84, y + 16, f"number {frame[-1]}, {len(frame) + 4} bytes", "middle bold white", 11)
        it.text(x + 84, y + 30, told, "middle white", 11)
        if name == "B":
            it.text(x, 362, f"{at // 1000} ms", "quiet", 12)


# ROOM says that there is room if it is greater than this.
NO_ROOM = 2**32
# The thread that takes each step of the picture: sender 0 or 1, or the receiver.
STEPS = [0, 1, 1, 0, 1, 0, 0, 2, 0, 0, 0, 1, 2, 2, 0, 0, 0, 0]
QUEUE = """A table. Each row is an atomic step of one of two senders or of the receiver of a queue of two slots, with
what it finds; then the words ROOM, TAIL and READY, and the rooms, after it. Both senders have a message accepted. The
receiver finds nothing ready until place 0 is. A third send is refused as full, and accepted when tried again after a
take."""


class Queue:
    """A queue of two slots: its words, and its rooms, each with the sender of the message in it."""

    def __init__(self) -> None:
        self.words = {"ROOM": NO_ROOM + 2, "TAIL": 0, "READY 0": 0, "READY 1": 0}
        # The rooms of sender 0, sender 1, slot 0, slot 1 and the receiver.
        self.rooms: list[tuple[str, int | None]] = [(name, None) for name in "abcde"]
        self.taken = 0

    def exchange(self, one: int, other: int) -> None:
        """Exchanges two rooms."""
        self.rooms[one], self.rooms[other] = self.rooms[other], self.rooms[one]

    def add(self, word: str, more: int) -> int:
        """Adds to a word, and returns what it was."""
        self.words[word] += more
        return self.words[word] - more

    def send(self, sender: int) -> Iterator[tuple[str, str]]:
        """Yields the atomic steps of a send, each with what it finds."""
        yield "load TAIL", f"{self.words['TAIL']}: the queue is open"
        before = self.add("ROOM", -1)
        yield "fetch_sub ROOM 1", f"it was {sum_of(before)}: {'room' if before > NO_ROOM else 'no room'}"
        if before <= NO_ROOM:
            self.add("ROOM", 1)
            yield "fetch_add ROOM 1", "refused: Full"
            return
        self.rooms[sender] = (self.rooms[sender][0], sender)
        place = self.add("TAIL", 1)
        yield "copy, fetch_add TAIL 1", f"accepted, at place {place}"
        self.exchange(sender, 2 + place % 2)
        self.words[f"READY {place % 2}"] = place + 1
        yield f"exchange, READY[{place % 2}] = {place + 1}", "Ok: it can be taken"

    def take(self) -> Iterator[tuple[str, str]]:
        """Yields the atomic steps of a take. The message in the receiver's room has been sent by then."""
        slot = self.taken % 2
        ready = self.words[f"READY {slot}"]
        is_ready = ready == self.taken + 1
        yield f"load READY[{slot}]", f"{ready}: {f'place {self.taken} is ready' if is_ready else 'nothing is ready'}"
        if is_ready:
            self.rooms[4] = (self.rooms[4][0], None)
            self.exchange(4, 2 + slot)
            self.add("ROOM", 1)
            self.taken += 1
            yield "exchange, fetch_add ROOM 1", f"place {self.taken - 1} is taken"

    def steps(self, thread: int) -> Iterator[tuple[str, str]]:
        """Yields the steps of a thread that goes on for ever."""
        while True:
            yield from self.take() if thread == 2 else self.send(thread)


def sum_of(value: int) -> str:
    """Returns a value of ROOM, as a sum."""
    more = value - NO_ROOM
    return "2\u00b3\u00b2" + (f"{more:+d}".replace("-", "\u2212") if more else "")


def queue() -> str:
    """Returns the steps of two senders and the receiver of a queue, as the model takes them."""
    it, run = Picture("The steps of the queue", QUEUE, STYLE), Queue()
    lanes, top = (62, 113, 164), 66
    upper = {87: "sender", 164: "receiver", 548: "ROOM", 598: "TAIL", 660: "READY"}
    upper |= {737: "senders", 791: "slots", 832: "rec."}
    lower = dict(zip((62, 113, 642, 678, 724, 751, 778, 805), "01010101", strict=True))
    for y, heads in ((30, upper), (46, lower)):
        for x, head in heads.items():
            it.text(x, y, head, "quiet middle", 11)
    it.text(198, 30, "step", "quiet", 11)
    it.text(384, 30, "finds", "quiet", 11)
    for x in lanes:
        it.line(x, 54, x, top + 25 * len(STEPS) + 10, "rule")
    queue_row(it, top, run, run.words)
    it.text(198, top + 4, "(at first)", "quiet", 12)
    threads = [run.steps(thread) for thread in range(3)]
    for k, thread in enumerate(STEPS, 1):
        y, before = top + 25 * k, dict(run.words)
        step, finds = next(threads[thread])
        kind = ("one", "two", "three")[thread]
        it.add("circle", kind, cx=lanes[thread], cy=y, r=6)
        it.text(30, y + 4, str(k), "quiet middle", 11)
        it.text(198, y + 4, step, f"{kind} code", 11)
        is_wrong = finds.endswith(("no room", "Full"))
        it.text(384, y + 4, finds, "wrong bold" if is_wrong else "bold" if "accepted" in finds else "", 12)
        queue_row(it, y, run, before)
    end = top + 25 * len(STEPS) + 34
    told = "a to e: the five rooms. A filled one holds a message, in the color of its sender."
    it.text(MARGIN, end, told, "quiet", 12)
    return it.made(end + 16)


def queue_row(it: Picture, y: float, run: Queue, before: dict[str, int]) -> None:
    """Adds the words of the queue, those that a step changed in bold, and the rooms."""
    it.line(20, y + 12.5, WIDTH - 20, y + 12.5, "rule")
    for x, (name, value) in zip((548, 598, 642, 678), run.words.items(), strict=True):
        kind = "middle" if before[name] == value else "middle bold"
        it.text(x, y + 4, sum_of(value) if name == "ROOM" else str(value), kind, 12)
    for k, (name, sender) in enumerate(run.rooms):
        x, kind = 712 + 27 * k, "free" if sender is None else ("one", "two")[sender]
        it.rect(x, y - 9, 24, 18, kind, stroke=LINE, rx="3")
        it.text(x + 12, y + 4, name, "middle" if sender is None else "middle white", 12)


# The BAG and the jitter of a link, and when its frames are recorded, in microseconds.
BAG, JITTER, RECORDED = 1000, 500, [600, 1300, 2500, 3500, 4200, 4800, 5900, 7200]
GAP = """Eight frames of a link against time. Above, the least times at which they may have been released, a BAG apart
or more. Below, the times at which they were recorded, each at most the jitter later. Frame 6 is early: it was recorded
before a BAG had passed since the release of frame 5. A table has the numbers."""


def released(times: list[int]) -> list[tuple[int, int]]:
    """Returns the least time at which each frame may have been released, and by how much it is early. An early frame
    counts as released when it was recorded."""
    found: list[tuple[int, int]] = []
    for at in times:
        due = max(at - JITTER, found[-1][0] + BAG) if found else at - JITTER
        found.append((min(due, at), max(0, due - at)))
    return found


def gap() -> str:
    """Returns the release times that explain recorded ones, of which one is early."""
    it = Picture("The gap rule with jitter", GAP, STYLE)
    start, scale = 112, 0.094
    for y, name in ((70, "released"), (130, "recorded")):
        it.text(MARGIN, y + 4, name, "bold")
        it.line(100, y, WIDTH - MARGIN, y, "rule")
    it.line(100, 166, WIDTH - MARGIN, 166)
    for k in range(8):
        it.line(start + BAG * k * scale, 166, start + BAG * k * scale, 172)
        it.text(start + BAG * k * scale, 186, f"{k} ms", "quiet middle", 11)
    for k, (at, (release, early)) in enumerate(zip(RECORDED, released(RECORDED), strict=True), 1):
        x, kind = start + at * scale, "wrong" if early else "one"
        it.rect(x - JITTER * scale, 139, JITTER * scale, 6, kind, opacity="0.3")
        it.line(start + release * scale, 70, x, 130, stroke_dasharray="3 3")
        it.add("circle", kind, cx=start + release * scale, cy=70, r=5)
        it.add("circle", kind, cx=x, cy=130, r=5)
        it.text(x, 160, str(k), "quiet middle", 11)
        if early:
            due = x + early * scale
            it.add("circle", "", cx=due, cy=70, r=5, fill="none", stroke=COLORS["wrong"], stroke_width="2")
            it.text(due, 34, f"due {early} \u00b5s after it was recorded", "wrong bold middle", 12)
            it.add("line", "", x1=due, y1=40, x2=due, y2=62, style=f"stroke:{COLORS['wrong']}")
    told = f"BAG {BAG} \u00b5s, jitter {JITTER} \u00b5s."
    it.text(MARGIN, 212, f"{told} Each bar is the jitter before its frame, which was released in it.", "quiet", 12)
    return it.made(gap_table(it))


def gap_table(it: Picture) -> float:
    """Adds the numbers of each frame, in microseconds, and returns the height of the picture."""
    columns = {66: "frame", 160: "recorded t", 290: "gap before it", 440: "r before + BAG", 580: "t \u2212 jitter",
               690: "released r"}
    for x, head in columns.items():
        it.text(x, 242, head, "quiet bold end", 12)
    before = None
    for k, (at, (release, early)) in enumerate(zip(RECORDED, released(RECORDED), strict=True), 1):
        y = 244 + 20 * k
        after = [at - before[0], before[1] + BAG] if before else ["\u2013", "\u2013"]
        it.line(MARGIN, y - 15, WIDTH - MARGIN, y - 15, "rule")
        for x, cell in zip(columns, [k, at, *after, at - JITTER, release], strict=True):
            it.text(x, y, str(cell), "wrong bold end" if early else "end", 12)
        if early:
            it.text(712, y, "early, so r is t", "wrong bold", 12)
        before = (at, release)
    return 262 + 20 * len(RECORDED)
