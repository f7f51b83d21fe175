"""The page of a report, against an independent model of it: its verdict, where its numbers come from, each cell of its
tables, each bar, mark and label, the time line of a wait, and the flow from partitions to networks.

A position of a drawing is rounded down to one of its 10,000 units; one on the logarithmic scale is less than two off.
"""
import hashlib
import html.parser
import re
from collections.abc import Iterator
from dataclasses import dataclass, field
from decimal import Decimal, localcontext
from fractions import Fraction
from itertools import accumulate, pairwise

from expected import heaviest, memory_of

Plan = dict
# Of a link's load, in bits per second, and of a jitter, in nanoseconds: the marks.
RATE, JITTER = 10**8, 500_000
WIDTH = 10_000
# What the prose says of them, and of a frame.
PROSE = ["100\u00a0Mbit/s", "500\u00a0\u00b5s.", "1,518 bytes", "100\u00a0Mbit/s."]
# The most turns of a time line at its begin and at its end.
FIRST, LAST = 12, 36
UNITS = {"s": 10**9, "ms": 10**6, "\u00b5s": 10**3, "ns": 1}
COLUMNS = {"partition": 8, "port": 29, "sub-VL": 50, "link": 71, "network": 92}


@dataclass
class Drawing:
    """An SVG: its attributes, its rectangles, lines and texts."""

    words: dict[str, str]
    shapes: list[tuple[str, dict[str, str]]] = field(default_factory=list)
    texts: list[str] = field(default_factory=list)


@dataclass
class Cell:
    """A cell of a table."""

    kind: str
    text: str = ""
    drawings: list[Drawing] = field(default_factory=list)


@dataclass
class Source:
    """What a report was made of. `rows` are those of its CSV file, `tables` and `queues` those of its text."""

    plan: Plan
    lateness: int
    has_traffic: bool
    tables: dict[str, list[list[str]]]
    rows: list[list[str]]
    queues: list[list[str]]
    verdict: str
    file: str
    text: str
    version: str
    date: str | None = None
    has_jitter: bool = False


class Page(html.parser.HTMLParser):
    """What is on a page."""

    def __init__(self, text: str) -> None:
        super().__init__()
        self.named: dict[str, str] = {}
        self.tables: dict[str, tuple[dict, list[list[Cell]]]] = {}
        self.drawings: dict[str, list[Drawing]] = {}
        self.verdict: list[Cell] = []
        self.style, self.prose, self.elsewhere, self.parts = "", "", [], []
        self.cell: Cell | None = None
        self.rows: list[list[Cell]] | None = None
        self.name, self.within = "", ""
        self.feed(text)

    def handle_starttag(self, tag: str, attrs: list[tuple[str, str | None]]) -> None:
        words = {key: value or "" for key, value in attrs}
        self.elsewhere += [key for key in words if key in ("src", "href")] + ([tag] if tag == "script" else [])
        self.within = tag
        self.name = words.get("id", "") if tag in ("span", "b", "dd", "ul") else ""
        kind = words.get("class", "")
        if tag == "table":
            self.rows = []
            self.tables[words["id"]] = (words, self.rows)
        elif tag in ("thead", "tbody"):
            self.parts.append(tag)
        elif tag == "tr":
            self.rows.append([])
        elif tag in ("th", "td", "li"):
            self.cell = Cell(kind)
            (self.verdict if tag == "li" else self.rows[-1]).append(self.cell)
        elif tag == "h2":
            self.drawings["h2"] = []
            self.cell = None
        elif tag == "svg":
            drawing = Drawing(words)
            (self.cell.drawings if self.cell else self.drawings["h2"]).append(drawing)
            self.drawing = drawing
        elif tag in ("rect", "line", "text"):
            self.drawing.shapes.append((tag, words))

    def handle_endtag(self, tag: str) -> None:
        self.name, self.within = "", ""
        if tag in ("table", "ul"):
            self.cell = self.rows = None

    def handle_data(self, data: str) -> None:
        if self.within == "style":
            self.style += data
        elif self.within == "p":
            self.prose += data + "\n"
        elif self.within == "text":
            self.drawing.texts.append(data.strip())
        elif self.within == "h2":
            self.drawings = {**self.drawings, data.split(" of port ")[0].strip(): self.drawings["h2"]}
        elif self.cell is not None:
            self.cell.text += data.strip()
        if self.name:
            self.named[self.name] = self.named.get(self.name, "") + data.strip("\n")


def grouped(number: int) -> str:
    """A number with its digits in groups of three."""
    return f"{number:,}"


def decimal(text: str) -> str:
    """A decimal of the text of a report, with the digits before its point in groups."""
    whole, part = text.split(".")
    return f"{grouped(int(whole))}.{part}"


def time(nanoseconds: int) -> str:
    """A time in the greatest unit of which it has one, in as many digits as it needs."""
    unit = next((it for it in UNITS if nanoseconds >= UNITS[it]), "\u00b5s")
    whole, rest = divmod(nanoseconds, UNITS[unit])
    digits = f"{rest:0{len(str(UNITS[unit])) - 1}}".rstrip("0") if rest else ""
    return grouped(whole) + ("." + digits if digits else "") + "\u00a0" + unit


def micros(text: str) -> str:
    """A time in microseconds of the text, or a dash."""
    return time(1000 * int(text)) if text else "\u2013"


def safe(text: str) -> str:
    """A text whose control characters are replaced."""
    return re.sub(r"[\0-\x1f\x7f-\x9f]", "\ufffd", text)


def percent(part: int, whole: int) -> str:
    """A coordinate."""
    return f"{part * 10_000 // whole / 100:.2f}%"


def off(is_: Fraction | int, to_be: Fraction | Decimal) -> Fraction | Decimal:
    """How far a position is from where it belongs."""
    return abs(is_ - to_be)


def bar_faults(drawing: Drawing, wanted: list[tuple[str, Fraction, Fraction]], most: int = 1) -> Iterator[str]:
    """What is wrong with the rectangles of a drawing. Each has a class, a start and an end, as parts of its width; a mark
    ends at its place."""
    rects = [words for tag, words in drawing.shapes if tag == "rect"]
    if (drawing.words.get("viewbox"), drawing.words.get("preserveaspectratio")) != ("0 0 10000 100", "none"):
        yield f"the drawing is {drawing.words}"
    if [rect["class"] for rect in rects] != [kind for kind, _, _ in wanted] or any(rect["height"] != "100" for rect in rects):
        yield f"rectangles {[rect['class'] for rect in rects]} for {[kind for kind, _, _ in wanted]}"
        return
    for rect, (kind, start, end) in zip(rects, wanted, strict=True):
        left, width = int(rect["x"]), int(rect["width"])
        right = left + width
        if kind == "mark":
            if not 0 < width <= WIDTH / 100 or (off(right, end * WIDTH) > most and left > 0) or (left == 0 and end * WIDTH > width + most):
                yield f"the mark is {rect} for {float(end * WIDTH)}"
        elif off(left, start * WIDTH) > most or off(right, end * WIDTH) > most:
            yield f"{kind} is {left} to {right} for {float(start * WIDTH)} to {float(end * WIDTH)}"


def parts(values: list[Fraction], limit: Fraction, scale: Fraction) -> list[tuple[str, Fraction, Fraction]]:
    """A track, parts of two colors in turn, and a mark."""
    ends = [Fraction(), *accumulate(values)]
    bars = [(("one", "two")[k % 2], start / scale, end / scale) for k, (start, end) in enumerate(pairwise(ends))]
    return [("track", Fraction(), Fraction(1)), *bars, ("mark", Fraction(), limit / scale)]


def table_faults(page: Page, name: str, head: list[str], rows: list[list[tuple[str, str]]], bars: list[list[list]], most: int = 1) -> Iterator[str]:
    """What is wrong with a table: its head, its cells, each a text and a class, and its bars, in order."""
    _, found = page.tables.get(name, ({}, [[]]))
    if [cell.text for cell in found[0]] != head:
        yield f"{name}: head {[cell.text for cell in found[0]]} for {head}"
    cells = [[(cell.text, cell.kind) for cell in row if cell.kind != "bar"] for row in found[1:]]
    if cells != rows:
        yield from (f"{name}: {is_} for {to_be}" for is_, to_be in zip(cells, rows, strict=False) if is_ != to_be)
        yield f"{name}: {len(cells)} rows for {len(rows)}"
    for row, wanted in zip(found[1:], bars, strict=False):
        drawings = [cell.drawings for cell in row if cell.kind == "bar"]
        if [len(it) for it in drawings] != [1 if it else 0 for it in wanted]:
            yield f"{name}, {row[0].text}: {[len(it) for it in drawings]} bars"
            continue
        for (drawing,), bar in zip((it for it in drawings if it), (it for it in wanted if it), strict=True):
            yield from (f"{name}, {row[0].text}: {fault}" for fault in bar_faults(drawing, bar, most))


def plain(*texts: str) -> list[tuple[str, str]]:
    """Cells without a class."""
    return [(text, "") for text in texts]


def network_faults(page: Page, source: Source) -> Iterator[str]:
    """What is wrong with the table of the networks."""
    links = source.tables["links"]
    loads = {name: [Fraction(row[5]) * 1000 for row in links if name in row[4]] for name in "AB"}
    jitters = {name: [40_000, *(int(row[7]) for row in links if name in row[4])] for name in "AB"}
    whole = [40_000, *(int(row[7]) for row in links)]
    most, top = Fraction(max(RATE, *map(sum, loads.values()))), Fraction(max(JITTER, sum(whole)))
    rows, bars = [], []
    for name, load, share, exceeded, jitter in source.tables["networks"]:
        rows.append([(name, ""), (decimal(load), "over" if exceeded == "yes" else ""), *plain(decimal(share), time(int(jitter)))])
        bars.append([parts(loads[name], Fraction(RATE), most), parts([*map(Fraction, jitters[name])], Fraction(JITTER), top)])
    rows.append([*plain("all links", "\u2013", "\u2013"), (time(sum(whole)), "over" if sum(whole) > JITTER else "")])
    bars.append([[], parts([*map(Fraction, whole)], Fraction(JITTER), top)])
    yield from table_faults(page, "networks", ["network", "load kbit/s", "share %", "", "jitter", ""], rows, bars)


def link_faults(page: Page, source: Source) -> Iterator[str]:
    """What is wrong with the table of the links."""
    rows, bars = [], []
    for row in source.tables["links"]:
        bag = int(row[1])
        rows.append(plain(row[0], time(bag * 10**6), grouped(int(row[2])), *row[3:5], decimal(row[5]), decimal(row[6]), time(int(row[7]))))
        whole = Fraction(8000 * (1518 + 20), bag)
        bars.append([[("track", Fraction(), Fraction(1)), ("one", Fraction(), Fraction(row[5]) * 1000 / whole)]])
    head = ["link", "BAG", "Lmax bytes", "sub-VLs", "on", "load kbit/s", "share %", "jitter", ""]
    yield from table_faults(page, "links", head, rows, bars)


def memory_faults(page: Page, source: Source) -> Iterator[str]:
    """What is wrong with the table of the sub-VLs, and with the note on much memory."""
    rows = [plain(*row[:5], *(grouped(int(it)) for it in row[5:])) for row in source.tables["memory"]]
    for row, cells in zip(source.tables["memory"], rows, strict=True):
        cells[4] = (row[4], "over" * (int(row[4]) > 1))
    rows.append(plain("end system", *["\u2013"] * 5, grouped(memory_of(source.plan))))
    yield from table_faults(page, "memory", ["link", "sub-VL", "capacity", "ports", "partitions", "greatest", "bytes"], rows, [])
    notes = [f"link {row[0]} sub-VL {row[1]}" for row in heaviest(source.plan)] or [None]
    if page.named.get("heaviest") not in notes:
        yield f"the note on memory names {page.named.get('heaviest')}"


def wait_faults(page: Page, source: Source) -> Iterator[str]:
    """What is wrong with the table of the ports, and with its logarithmic scale."""
    times = [(int(row[7]), min(int(row[7]), int(row[8] or row[7])), row[6]) for row in source.rows]
    values = [1000 * int(it) for queue, wait, deadline in times for it in (queue, wait, *([deadline] if deadline else []))]
    low = next(k for k in range(20) if 10 ** (k + 1) >= min(values))
    decades = next(k for k in range(20) if 10 ** (low + k) >= max(values))
    with localcontext() as context:
        context.prec = 40

        def place(microseconds: int) -> Fraction:
            return Fraction((Decimal(1000 * microseconds).log10() - low) / decades)

        bars = []
        for queue, wait, deadline in times:
            mark = [("mark", Fraction(), place(int(deadline)))] if deadline else []
            bars.append([[("two", Fraction(), place(queue)), ("one", Fraction(), place(wait)), *mark]])
    rows = []
    for row, port in zip(source.rows, source.tables["ports"], strict=True):
        first, last = plain(row[0]), plain(micros(row[7]))
        if source.has_traffic:
            first.append((row[1], "name"))
            slack = "" if not row[10] else ("\u2212" if int(row[10]) < 0 else "") + time(1000 * abs(int(row[10])))
            last = [*plain(micros(row[5]), micros(row[6]), micros(row[7]), micros(row[8])), (slack or "\u2013", "over" if row[11] == "yes" else "")]
        rows.append([*first, *plain(*row[2:5], decimal(port[5])), *last])
    more = ["period", "deadline", "wait by queue", "by traffic", "slack"] if source.has_traffic else ["wait"]
    head = ["port", *["name"] * source.has_traffic, "link", "sub-VL", "fragments", "messages/s", *more, ""]
    yield from table_faults(page, "ports", head, rows, bars, 2)
    words, found = page.tables["ports"]
    if (words["style"], words["class"]) != (f"--decades:{decades}", "with" if source.has_traffic else "without"):
        yield f"the ports are {words}, and {decades} decades are wanted"
    step = -(-decades // 4)
    labels = [(percent(k, decades), time(10 ** (low + k))) for k in range(0, decades, step) if k + step <= decades]
    yield from label_faults("the scale", found[0][-1].drawings, labels)


def queue_faults(page: Page, source: Source) -> Iterator[str]:
    """What is wrong with the table of the queues, which only a page with traffic has."""
    if not source.has_traffic:
        yield from ["there are queues"] * ("queues" in page.tables)
        return
    rows = []
    for *front, need, word in source.queues:
        rows.append([*plain(*front), (need or "\u2013", "over" if word == "no" else ""), *plain(word or "\u2013")])
    yield from table_faults(page, "queues", ["link", "sub-VL", "capacity", "need", "suffices"], rows, [])


def label_faults(what: str, drawings: list[Drawing], wanted: list[tuple[str, str]]) -> Iterator[str]:
    """What is wrong with the labels of an axis."""
    if len(drawings) != 1 or drawings[0].words != {"class": "axis"}:
        yield f"{what}: {drawings}"
        return
    labels = [(words["x"], text) for (_, words), text in zip(drawings[0].shapes, drawings[0].texts, strict=True)]
    if labels != wanted or any(words["y"] != "11" for _, words in drawings[0].shapes):
        yield f"{what}: labels {labels} for {wanted}"


def line_faults(page: Page, source: Source) -> Iterator[str]:
    """What is wrong with the time line: of the port with the least slack, or with the longest wait if none has a deadline."""
    waits = [min(int(row[7]), int(row[8] or row[7])) for row in source.rows]
    given = [k for k, row in enumerate(source.rows) if row[6]]
    worst = min(given, key=lambda k: int(source.rows[k][6]) - waits[k]) if given else max(range(len(waits)), key=lambda k: waits[k])
    row, wait = source.rows[worst], waits[worst]
    link = next(it for it in source.plan["vl"] if str(it["id"]) == row[2])
    used = len({port["sub"] for port in source.plan["port"] if port["vl"] == link["id"]})
    turn, own = 1000 * link["bag_ms"] + source.lateness, int(row[4])
    # the end of each turn, backwards from the message's last fragment
    ends = [wait - k * turn for k in range(-(-wait // turn))]
    kinds = [("track" if k % used else "one" if k // used < own else "two", end) for k, end in enumerate(ends)][::-1]
    left_out = len(kinds) - FIRST - LAST if len(kinds) > FIRST + 1 + LAST else 0
    drawn = kinds if not left_out else [*kinds[:FIRST], None, *kinds[-LAST:]]
    width = Fraction(1, len(drawn))
    bars = [(it[0], k * width, k * width + width * 86 / 100) for k, it in enumerate(drawn) if it]
    drawings = page.drawings.get("The longest wait", [])
    if len(drawings) < 2:
        yield f"no time line: {list(page.drawings)}"
        return
    yield from (f"time line: {fault}" for fault in bar_faults(drawings[0], bars, 2))
    step, whole = len(drawn) // 5 + 1, len(drawn)
    labels = [(percent(k, whole), time(1000 * drawn[k - 1][1])) for k in range(step, whole, step) if drawn[k - 1]]
    yield from label_faults("time line", drawings[1:2], labels)
    before = len([it for it in kinds if it[0] == "two"])
    named = {"port": row[0], "turn": time(1000 * turn), "round": str(used), "before": grouped(before)}
    named |= {"left-out": grouped(left_out)} if left_out else {}
    if {key: page.named.get(key) for key in ("port", "turn", "round", "before", "left-out") if key in page.named} != named:
        yield f"time line: {page.named} for {named}"
    legend = [[(kind, Fraction(), Fraction(1))] for kind in ("one", "two", *["track"] * (used > 1))]
    if len(drawings[2:]) != len(legend):
        yield f"time line: legend {drawings[2:]}"
    yield from (f"legend: {fault}" for drawing, bar in zip(drawings[2:], legend, strict=False) for fault in bar_faults(drawing, bar, 0))


def flow_faults(page: Page, source: Source) -> Iterator[str]:
    """What is wrong with the flow: its lines must lead from each partition by its ports to the networks."""
    drawings = page.drawings.get("From partitions to networks", [])
    if len(drawings) != 1:
        yield f"{len(drawings)} pictures of the flow"
        return
    shapes, texts = drawings[0].shapes, iter(drawings[0].texts)
    labels = {(words["x"], int(words["y"])): next(texts) for tag, words in shapes if tag == "text"}
    heads = {(f"{x}%", 10): name for name, x in COLUMNS.items()}
    if heads.items() - labels.items() or len(labels) != len([tag for tag, _ in shapes if tag == "text"]):
        yield f"heads {[it for it in labels.items() if it[0][1] == 10]}, or labels over others"
    height = int(re.fullmatch(r"height:(\d+)px", drawings[0].words["style"])[1])
    rows = sum(max(1, sum(port["vl"] == link["id"] for port in source.plan["port"])) for link in source.plan["vl"])
    if height != 34 + 16 * max(2, rows):
        yield f"the flow is {height} high, with {rows} rows"
    for x in COLUMNS.values():
        ys = sorted(y for at, y in labels if at == f"{x}%")
        if any(b - a < 16 for a, b in pairwise(ys)) or ys[-1] > height - 8:
            yield f"labels at {ys} of {height}"
    after: dict[tuple[str, int], list[tuple[str, int]]] = {}
    for words in (words for tag, words in shapes if tag == "line"):
        start = (f"{int(words['x1'][:-1]) - 5}%", int(words["y1"]))
        end = (f"{int(words['x2'][:-1]) + 5}%", int(words["y2"]))
        if not {start, end} <= labels.keys():
            yield f"the line {words} joins no labels"
            return
        after.setdefault(start, []).append(end)

    def ways(at: tuple[str, int]) -> Iterator[tuple[str, ...]]:
        if at not in after:
            yield (labels[at],)
        for end in after.get(at, []):
            yield from ((labels[at], *way) for way in ways(end))

    found = sorted(way for at in labels if at[0] == "8%" and at[1] != 10 for way in ways(at))
    wanted, alone = [], []
    for link in source.plan["vl"]:
        networks = {"both": "AB", "a": "A", "b": "B"}[link.get("networks", "both")]
        ports = [port for port in source.plan["port"] if port["vl"] == link["id"]]
        alone += [(str(link["id"]), name) for name in networks]
        wanted += [(*(str(port[key]) for key in ("partition", "id", "sub")), str(link["id"]), name) for port in ports for name in networks]
    if found != sorted(wanted):
        yield f"the flow is {found[:4]} .., and {sorted(wanted)[:4]} .. is wanted"
    if sorted(way for at in labels if at[0] == "71%" and at[1] != 10 for way in ways(at)) != sorted(alone):
        yield "the links lead to other networks"


def faults_of(text: str, source: Source) -> Iterator[str]:
    """What is wrong with a page."""
    if not (text.startswith("<!DOCTYPE html>") and text.endswith("</html>\n")):
        yield f"the page is {text[:40]} .. {text[-40:]}"
    page = Page(text)
    sentences = source.verdict.split(", ")
    over, open_ = ("exceeded", "missed", "may get full", "several partitions"), ("deadlines not given", "queues not judged")
    kinds = ["over" if any(word in it for word in over) else "" if it in open_ else "kept" for it in sentences]
    if [(cell.text, cell.kind) for cell in page.verdict] != list(zip(sentences, kinds, strict=True)):
        yield f"the verdict is {page.verdict}"
    named = {"end-system": str(source.plan["end_system"]["id"]), "plan": source.file, "version": f"afdx_bench {source.version}"}
    named |= {"digest": hashlib.sha256(source.text.encode()).hexdigest(), "lateness": time(1000 * source.lateness)}
    named |= {"date": source.date} if source.date is not None else {}
    if {key: page.named.get(key) for key in (*named, "date") if key in page.named} != named:
        yield f"the page names {page.named}, and {named} is wanted"
    yield from (f"the page has {what}" for what in page.elsewhere)
    if re.findall(r"\d[\d,]*\s\S+", page.prose) != PROSE + ["64\u00a0MiB"] * bool(heaviest(source.plan)):
        yield f"the prose is {page.prose}"
    kept = "if two messages of a port are at least its period apart"
    if source.has_jitter:
        kept = "if a port's messages are planned at least its period apart, and each one is accepted at most the port's jitter after its planned time"
    if source.has_traffic != (f"{kept}. A message that a full queue" in page.prose):
        yield f"the premise of the wait by traffic is {not source.has_traffic}: {page.prose}"
    title = f"End system {source.plan['end_system']['id']}: {source.file}"
    if html.unescape(re.findall("<title>(.*)</title>", text)[0]) != title or safe(text.replace("\n", "")) != text.replace("\n", ""):
        yield f"the page isn't titled {title}, or has control characters"
    if page.parts != ["thead", "tbody"] * (5 if source.has_traffic else 4):
        yield f"the tables have {page.parts}"
    for check in (network_faults, wait_faults, queue_faults, line_faults, link_faults, memory_faults, flow_faults):
        yield from check(page, source)
    for kind in ("track", "one", "two", "mark"):
        color = re.search(rf"\.{kind}{{fill:var\(--(\w+)\)", page.style)
        if not color or page.style.count(f"--{color[1]}:#") != 2:
            yield f"{kind} has no color in light and dark"
