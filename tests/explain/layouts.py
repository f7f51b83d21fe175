"""Texts of random layouts, each with the line of each of its faults: of an unknown key, a missing one, and a wrong value."""
import random

BLANKS = ("", "", "  ", "\t", "# [[vl]]", "  # id = 1", "\t", "#")
LINK = {"id": 7, "bag_ms": 1, "lmax": 200, "sub_vls": 1, "capacity": 4}
PORT = {"id": 20, "vl": 7, "sub": 0, "partition": 3, "kind": '"queuing"', "source": 1000, "destination": 2000, "max": 100}
# Values that go on on the next line, or may: after such a line, and after one of another form, no line is known.
OPEN = ("[1, 2]", "[\n  1,\n  # [[vl]]\n]", '"""\n[[vl]]\nid = 5\n"""', "'''\n[[port]]\n'''", "{a = 1}", "{}")
CLOSED = ("true", "1.5", "'[[vl]]'", '"# no comment"', "1979-05-27", '""', "''", '"a = [1"')


class Text:
    """A text that grows, the line of each fault, and whether its lines are known so far."""

    def __init__(self, rng: random.Random) -> None:
        self.rng, self.text, self.faults, self.is_usual = rng, rng.choice(("", "", "\ufeff")), {}, True
        self.end = rng.choice(("\n", "\r\n"))

    def line(self) -> int | None:
        """The number of the next line, if it is to be told."""
        return self.text.count("\n") + 1 if self.is_usual else None

    def add(self, line: str) -> None:
        """Adds a line, with blanks before it and at its ends."""
        rng = self.rng
        while rng.random() < 0.3:
            self.text += rng.choice(BLANKS) + self.end
        before, after = rng.choice(("", "", " ", "\t ")), rng.choice(("", "", "  ", " # [[port]]"))
        self.text += before + line + (after if "\n" not in line else "") + self.end

    def add_key(self, key: str, value: str) -> int | None:
        """Adds a key. Returns its line, if that is to be told."""
        while self.rng.random() < 0.3:
            self.text += self.rng.choice(BLANKS) + self.end
        line, is_open = self.line(), value in OPEN
        quote = self.rng.choice(("", "", "", '"', "'"))
        before, equal = self.rng.choice(("", " ")), self.rng.choice((" = ", "=", "  =\t"))
        self.text += f"{before}{quote}{key}{quote}{equal}{value}{self.end}"
        self.is_usual = self.is_usual and not is_open
        return line

    def add_dotted(self, key: str) -> None:
        """Adds a key of an unusual form, or a header of one."""
        self.add(f"{key}.b = 1")
        self.is_usual = False


def add_table(text: Text, name: str, place: str, values: dict) -> None:
    """Adds a table, perhaps with a fault of each kind. `place` is how a fault's line begins that is in it."""
    rng, head = text.rng, text.line()
    text.add(name)
    if text.is_usual:
        head = text.text.rstrip("\r\n").count("\n") + 1
    pairs = [(key, str(value), None) for key, value in values.items()]
    if rng.random() < 0.4:
        at = rng.randrange(1, len(pairs)) if len(pairs) > 1 else 0
        if pairs[at][0] not in ("vl", "sub", "sub_vls"):
            pairs[at] = (pairs[at][0], rng.choice(("true", "-1.5")), f"{place}{pairs[at][0]} is ")
    missing = pairs.pop(rng.randrange(1, len(pairs)))[0] if len(pairs) > 3 and rng.random() < 0.3 else None
    if rng.random() < 0.3:
        key = f"k{rng.randrange(9)}"
        pairs.append((key, rng.choice(OPEN + CLOSED * 2), f"{place}{key} is "))
    rng.shuffle(pairs)
    for key, value, fault in pairs:
        if rng.random() < 0.01:
            text.add_dotted(f"d{rng.randrange(10**6)}")
        line = text.add_key(key, value)
        if fault:
            text.faults[fault] = line if line is not None else head
    if missing:
        text.faults[f"{place}{missing} is missing"] = head


def laid_out(rng: random.Random) -> tuple[str, dict[str, int | None]]:
    """A text, and the line of each fault by the beginning of what is told of it, `None` if none is to be told."""
    text = Text(rng)
    if rng.random() < 0.5:
        text.add_key("version", "2")
    if rng.random() < 0.3:
        key = f"top{rng.randrange(9)}"
        text.faults[f"{key} is "] = text.add_key(key, rng.choice(OPEN[:1] + CLOSED))
    tables = ["vl", "port", *rng.choices(("vl", "port"), k=rng.randint(0, 6))]
    tables.insert(rng.randint(0, len(tables)), "end_system")
    if rng.random() < 0.3:
        tables.insert(rng.randint(0, len(tables)), "other")
    counts = {"vl": 0, "port": 0}
    for name in tables:
        if name == "end_system":
            add_table(text, "[end_system]", "end_system.", {"id": 1})
        elif name == "other":
            text.add("[other]")
            at = text.text.rstrip("\r\n").count("\n") + 1
            text.faults["other is a table"] = at if text.is_usual else None
            text.add_key("id", "5")
        else:
            counts[name] += 1
            k, values = counts[name], dict(LINK if name == "vl" else PORT)
            values["id"] += k - 1
            values |= {"source": 1000 + k} if name == "port" else {}
            add_table(text, f"[[{name}]]", f"{name} {k} (id {values['id']}), ", values)
    return text.text, text.faults
