"""An SVG in the making, and a page of `afdx_bench` drawn as one: its headings, verdict, tables, bars and lines.

A text is drawn as text, so its width depends on the reader's fonts. Columns and line ends go by those of a wide font.
"""
import html
import re
from html.parser import HTMLParser

WIDTH, MARGIN = 860, 24
INNER = WIDTH - 2 * MARGIN
# The elements that the start of one ends, where the page leaves out their end tags.
ENDS = {"li": {"li"}, "dt": {"dt", "dd"}, "dd": {"dt", "dd"}, "tr": {"tr", "td", "th"}, "td": {"td", "th"},
        "th": {"td", "th"}, "tbody": {"thead", "tr", "td", "th"}}
# Widths of letters as parts of the size of the font.
WIDTHS = dict.fromkeys("ijl.,:;'|!", 0.34) | dict.fromkeys("frt()[]/- \u00a0", 0.42) | dict.fromkeys("mwMW%", 0.97)
STYLE = ("text{fill:#1b1f24}.quiet{fill:#57606a}.bold{font-weight:600}.end{text-anchor:end}.middle{text-anchor:middle}"
         ".code{font-family:monospace}line,path{stroke:#57606a;fill:none}.rule{stroke:#d8dee4}")


def number(value: float) -> str:
    """Returns a coordinate with one decimal at most."""
    return f"{round(value, 1):g}"


def width_of(text: str, size: float) -> float:
    """Returns how wide a text is at most."""
    return size * sum(WIDTHS.get(it, 0.72 if it.isupper() else 0.62) for it in text)


def wrapped(text: str, size: float, width: float) -> list[str]:
    """Returns the lines of a text that is at most so wide, if no word is wider."""
    lines = [""]
    for word in text.split(" "):
        longer = f"{lines[-1]} {word}".strip(" ")
        if width_of(longer, size) <= width or not lines[-1]:
            lines[-1] = longer
        else:
            lines.append(word)
    return lines


class Picture:
    """An SVG in the making, on a ground of its own, with a title and a description for readers who don't see it."""

    def __init__(self, title: str, description: str, style: str = "") -> None:
        self.title, self.style, self.parts = title, STYLE + style, []
        self.description = description.replace("\n", " ")

    def add(self, tag: str, kind: str, *, inside: str | None = None, **words: float | str) -> None:
        """Adds an element with a class and attributes."""
        told = {key.replace("_", "-"): it if isinstance(it, str) else number(it) for key, it in words.items()}
        told = {**told, **({"class": kind} if kind else {})}
        attributes = "".join(f' {key}="{html.escape(it)}"' for key, it in told.items())
        end = "/>" if inside is None else f">{html.escape(inside, False)}</{tag}>"
        self.parts.append(f"<{tag}{attributes}{end}")

    def text(self, x: float, y: float, text: str, kind: str = "", size: float = 13) -> None:
        """Adds a text, whose base line is at y."""
        self.add("text", kind, inside=text, x=x, y=y, **({} if size == 13 else {"font_size": size}))

    def rect(self, x: float, y: float, width: float, height: float, kind: str, **words: float | str) -> None:
        """Adds a rectangle."""
        self.add("rect", kind, x=x, y=y, width=width, height=height, **words)

    def line(self, x1: float, y1: float, x2: float, y2: float, kind: str = "", **words: float | str) -> None:
        """Adds a line."""
        self.add("line", kind, x1=x1, y1=y1, x2=x2, y2=y2, **words)

    def made(self, height: float) -> str:
        """Returns the text of the SVG."""
        high = round(height)
        size = f'width="{WIDTH}" height="{high}" viewBox="0 0 {WIDTH} {high}"'
        ground = f'<rect x=".5" y=".5" width="{WIDTH - 1}" height="{high - 1}" rx="8" fill="#fff" stroke="#d8dee4"/>'
        return "\n".join([
            f'<svg xmlns="http://www.w3.org/2000/svg" {size} role="img" font-family="sans-serif" font-size="13">',
            f"<title>{html.escape(self.title, False)}</title>", f"<desc>{html.escape(self.description, False)}</desc>",
            f"<style>{self.style}</style>", ground, *self.parts, "</svg>\n"])


class Node:
    """An element of a page."""

    def __init__(self, tag: str, words: dict[str, str]) -> None:
        self.tag, self.words, self.inside = tag, words, []
        self.kind = words.get("class", "")

    def text(self) -> str:
        """Returns the text in it, without those of drawings."""
        parts = (it if isinstance(it, str) else it.text() if it.tag != "svg" else "" for it in self.inside)
        return re.sub(r"[ \n]+", " ", "".join(parts)).strip(" ")

    def all(self, *tags: str) -> list["Node"]:
        """Returns the elements in it with one of these tags, in their order."""
        found = []
        for it in self.inside:
            if isinstance(it, Node):
                found += ([it] if it.tag in tags else []) + it.all(*tags)
        return found


class Page(HTMLParser):
    """A page, whose elements are in `root`."""

    def __init__(self, text: str) -> None:
        super().__init__()
        self.root = Node("", {})
        self.stack = [self.root]
        self.feed(text)

    def handle_starttag(self, tag: str, attrs: list[tuple[str, str | None]]) -> None:
        while self.stack[-1].tag in ENDS.get(tag, ()):
            self.stack.pop()
        node = Node(tag, {key: value or "" for key, value in attrs})
        self.stack[-1].inside.append(node)
        if tag not in ("meta", "wbr"):
            self.stack.append(node)

    def handle_endtag(self, tag: str) -> None:
        if any(it.tag == tag for it in self.stack):
            while self.stack.pop().tag != tag:
                pass

    def handle_data(self, data: str) -> None:
        self.stack[-1].inside.append(data)


class Drawn:
    """A page drawn as a picture, from above, without the sections of these headings and without their prose."""

    def __init__(self, text: str, title: str, description: str, without: tuple[str, ...] = ()) -> None:
        page = Page(text).root
        style = page.all("style")[0].text()
        shades = dict(re.findall(r"--(\w+):(#\w+)", style.partition("@media")[0]))
        classes = re.findall(r"\.(\w+)\{(?:fill|color):var\(--(\w+)\)", style)
        rules = "".join(f".{name}{{fill:{shades[it]}}}line.{name}{{stroke:{shades[it]}}}" for name, it in classes)
        self.picture, self.y = Picture(title, description, rules), 20.0
        left = False
        for node in page.all("body")[0].inside:
            if isinstance(node, Node):
                left = left if node.tag != "h2" else node.text() in without
                if not left and hasattr(self, f"draw_{node.tag}"):
                    getattr(self, f"draw_{node.tag}")(node)
        if without:
            self.y += 20
            self.picture.text(MARGIN, self.y, f"Also on the page: {', '.join(without)}.", "quiet", 12)

    def made(self) -> str:
        """Returns the text of the picture."""
        return self.picture.made(self.y + 22)

    def draw_h1(self, node: Node) -> None:
        self.y += 26
        self.picture.text(MARGIN, self.y, node.text(), "bold", 21)
        self.y += 6

    def draw_h2(self, node: Node) -> None:
        self.y += 34
        self.picture.text(MARGIN, self.y, node.text(), "bold", 16)
        self.y += 8

    def draw_p(self, node: Node) -> None:
        """Only the verdict: the picture is without prose."""
        if node.words.get("id") == "verdict":
            self.words([(node.text(), node.kind)])

    def draw_ul(self, node: Node) -> None:
        """The verdict in a row, with its signs. Other lists have a line for each item."""
        if node.words.get("id") == "verdict":
            signs = {"kept": "\u2713 ", "over": "\u2715 "}
            self.words([(signs.get(it.kind, "") + it.text(), it.kind) for it in node.all("li")])
        else:
            for it in node.all("li"):
                self.y += 17
                self.picture.text(MARGIN, self.y, it.text(), it.kind, 12)

    def draw_pre(self, node: Node) -> None:
        for line in "".join(it for it in node.inside if isinstance(it, str)).strip().splitlines():
            self.y += 17
            self.picture.text(MARGIN, self.y, line, "code", 12)

    def words(self, parts: list[tuple[str, str]]) -> None:
        """Adds texts with their classes, one after another, in as many lines as they need."""
        x = MARGIN
        self.y += 20
        for text, kind in parts:
            width = 1.08 * width_of(text, 13)
            if x > MARGIN and x + width > WIDTH - MARGIN:
                x, self.y = MARGIN, self.y + 20
            self.picture.text(x, self.y, text, f"{kind} bold".strip())
            x += width + 22
        self.y += 6

    def draw_dl(self, node: Node) -> None:
        width = max(width_of(it.text(), 12) for it in node.all("dt"))
        for it in node.all("dt", "dd"):
            self.y += 17 if it.tag == "dt" else 0
            x = MARGIN + (0 if it.tag == "dt" else width + 14)
            self.picture.text(x, self.y, it.text(), "quiet" if it.tag == "dt" else "", 12)

    def draw_table(self, node: Node) -> None:
        rows = [it.all("th", "td") for it in node.all("tr")]
        most = max(map(len, rows))
        rows = [row + [Node("td", {})] * (most - len(row)) for row in rows]
        columns = self.columns(rows)
        told = re.search(r"--decades:(\d+)", node.words.get("style", ""))
        decades = int(told[1]) if told else 0
        # (bars that have too little room are drawn below their row, as the page does in a narrow window)
        is_below = any(it.kind == "bar" and size < 150 for it, (_, size) in zip(rows[0], columns, strict=True))
        if is_below:
            columns = self.columns(rows, is_below=True)
        for row in rows:
            self.row(row, columns, is_head=row is rows[0])
            for cell, (x, size) in zip(row, columns, strict=True):
                if cell.kind == "bar":
                    self.y += 18 if is_below else 0
                    at = (MARGIN, INNER) if is_below else (x + 16, size - 16)
                    self.bar(cell, *at, self.y - 10, 0 if row is rows[0] else decades)
                    if is_below and cell.text():
                        self.picture.text(MARGIN, self.y, cell.text(), "quiet bold", 12)
            self.picture.line(MARGIN, self.y + 7, WIDTH - MARGIN, self.y + 7, "rule")
            self.y += 22
        self.y -= 8

    def columns(self, rows: list[list[Node]], *, is_below: bool = False) -> list[tuple[float, float]]:
        """Returns where each column begins, and its width. Bars have the room that texts leave, or are below."""
        def wanted(cell: Node) -> float:
            words = cell.text().split(" ") if cell.tag == "th" else [cell.text()]
            return max(width_of(it, 13 if cell.tag == "th" else 12) for it in words)

        bars = [k for k, cell in enumerate(rows[0]) if cell.kind == "bar"]
        texts = [k for k in range(len(rows[0])) if k not in bars]
        sizes = {k: 12 + max(wanted(row[k]) for row in rows) for k in texts}
        sharing = bars if bars and not is_below else texts
        more = (INNER - sum(sizes.values())) / len(sharing)
        sizes = [sizes.get(k, 0) + (more if k in sharing else 0) for k in range(len(rows[0]))]
        return [(MARGIN + sum(sizes[:k]), it) for k, it in enumerate(sizes)]

    def row(self, row: list[Node], columns: list[tuple[float, float]], *, is_head: bool) -> None:
        """Adds the texts of a row: numbers end at the ends of their columns. A head has as many lines as it needs."""
        pairs = zip(row, columns, strict=True)
        cells = [wrapped(it.text(), 13, size - 12) if is_head else [it.text()] for it, (_, size) in pairs]
        self.y += 15 * max(map(len, cells)) + 2 if is_head else 0
        for k, (cell, lines, (x, size)) in enumerate(zip(row, cells, columns, strict=True)):
            if not size:
                # (a bar that is drawn below)
                continue
            is_left = k == 0 or "name" in cell.kind
            kinds = ["quiet bold" if is_head else cell.kind.replace("name", ""), "" if is_left else "end"]
            for up, line in enumerate(reversed(lines)):
                at = x + (12 if k else 0) if is_left else x + size
                self.picture.text(at, self.y - 15 * up, line, " ".join(filter(None, kinds)), 12)

    def bar(self, node: Node, x: float, width: float, y: float, decades: int = 0, height: float = 11) -> None:
        """Adds the rectangles and the texts of the drawings in an element, which have 10,000 units or 100 %."""
        for k in range(decades):
            self.picture.line(x + k * width / decades, y - 3, x + k * width / decades, y + height + 3, "rule")
        for it in node.all("rect"):
            left, size = (int(it.words[key]) * width / 10_000 for key in ("x", "width"))
            if it.kind == "mark":
                self.picture.rect(x + left + size - 3, y - 2, 3, height + 4, it.kind)
            elif size:
                self.picture.rect(x + left, y, size, height, it.kind)
        for it in node.all("text"):
            at = x + float(it.words["x"][:-1]) * width / 100
            self.picture.text(at, y + height - 1, it.text(), "quiet end" if node.tag == "svg" else "quiet", 11)

    def draw_figure(self, node: Node) -> None:
        """A time line, the times at the ends of its turns, and what its colors mean."""
        time_line, axis, *_ = node.all("svg")
        self.bar(time_line, MARGIN, INNER, self.y + 8, height=24)
        self.bar(axis, MARGIN, INNER, self.y + 32, height=16)
        self.y += 70
        x = MARGIN
        for it in node.all("span"):
            self.bar(it, x, 12, self.y - 11, height=12)
            self.picture.text(x + 18, self.y, it.text(), "", 12)
            x += 18 + width_of(it.text(), 12) + 16

    def draw_svg(self, node: Node) -> None:
        """The ways from partitions to networks, across as many pixels as the page has for them."""
        def at(text: str) -> float:
            return MARGIN + float(text[:-1]) * 0.01 * 704

        for it in node.all("line"):
            x1, y1, x2, y2 = (it.words[key] for key in ("x1", "y1", "x2", "y2"))
            self.picture.line(at(x1), self.y + int(y1), at(x2), self.y + int(y2), it.kind, stroke_width="1.5")
        for it in node.all("text"):
            self.picture.text(at(it.words["x"]), self.y + int(it.words["y"]) + 4, it.text(), "middle", 12)
        self.y += int(re.findall(r"height:(\d+)px", node.words["style"])[0])
