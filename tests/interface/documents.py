"""Interface documents for the tests: valid ones in any layout, with the plan that each has to give; single faults, with the
line that tells each; and mutated ones."""
import random
from collections.abc import Iterator

from trying import seen

COLUMNS = ("vl vl_name bag_ms lmax sub_vls capacity networks port name sub partition kind source destination max dest_ip "
           "checksum end_system period_us jitter_us deadline_us").split()
LINK = ["vl_name", "bag_ms", "lmax", "sub_vls", "capacity", "networks"]
OPTIONAL = ["vl_name", "networks", "name", "dest_ip", "checksum", "period_us", "jitter_us", "deadline_us"]
NUMBERS = {"vl": (0, 65535), "bag_ms": (1, 128), "lmax": (64, 1518), "sub_vls": (1, 4), "capacity": (1, 256), "port": (0, 65535),
           "sub": (0, 3), "partition": (0, 31), "source": (1, 65535), "destination": (1, 65535), "max": (1, 8192),
           "end_system": (0, 65535)}
# What is wanted in the cells of a column, if that isn't two numbers.
WANTED = {"bag_ms": "1, 2, 4, 8, 16, 32, 64 or 128", "networks": "both, a or b", "kind": "sampling or queuing",
          "dest_ip": "an address in 10.0.0.0/8, without leading zeros,", "checksum": "none or udp",
          "name": "text of at most 64 bytes without control characters", "vl_name": "text of at most 64 bytes without control characters"}
NAMES = ("", "engine", "left wing", "a, b; c", 'the "old" one', "Ölpumpe", "#1", "x" * 64)
Row = dict[str, str]


def document(rng: random.Random, links: int, ports: int) -> list[Row]:
    """The rows of a valid document: each column as a text. Each link has a port, and each port a flow of its own."""
    rows, numbers = [], rng.sample(range(65536), links)
    of_links = [{
        "vl": str(vl), "vl_name": rng.choice(NAMES), "bag_ms": str(2 ** rng.randrange(8)), "lmax": str(rng.randint(64, 1518)),
        "sub_vls": str(rng.randint(1, 4)), "capacity": str(rng.randint(1, 256)), "networks": rng.choice(("", "both", "a", "b")),
    } for vl in numbers]
    end_system = str(rng.randrange(65536))
    for place, port in enumerate(rng.sample(range(65536), ports)):
        link = of_links[place if place < links else rng.randrange(links)]
        kind = rng.choice(("sampling", "queuing"))
        most = int(link["lmax"]) - 47 if kind == "sampling" else 8192
        period = rng.choice(("", str(rng.randint(1, 10**6))))
        jitter = rng.choice(("", "0", str(rng.randint(0, int(period))))) if period else rng.choice(("", "0"))
        rows.append({
            **link, "port": str(port), "name": rng.choice(NAMES), "sub": str(rng.randrange(int(link["sub_vls"]))),
            "partition": str(rng.randrange(32)), "kind": kind, "source": str(1000 + place), "destination": str(rng.randint(1, 65535)),
            "max": str(rng.randint(1, most)), "dest_ip": rng.choice(("", f"10.{place // 250}.2.{place % 250}")),
            "checksum": rng.choice(("", "none", "udp")), "end_system": end_system,
            "period_us": period, "jitter_us": jitter, "deadline_us": rng.choice(("", str(rng.randint(1, 10**6)))),
        })
    return rng.sample(rows, len(rows))


def bench() -> list[Row]:
    """The document of a bench day: 40 links and 120 ports, whose queues suffice for their periods."""
    rows = []
    for port in range(120):
        link, sub = port % 40, port // 40 % 2
        rows.append({
            "vl": str(100 + link), "vl_name": f"unit {link}", "bag_ms": str(2 ** (link % 4)), "lmax": str(100 + 10 * (link % 5)),
            "sub_vls": "2", "capacity": "8", "networks": ("both", "both", "a", "b")[link % 4], "port": str(1000 + port),
            "name": f"signal {port}", "sub": str(sub), "partition": str(port % 5), "kind": ("sampling", "queuing")[port % 2],
            "source": str(2000 + port), "destination": "3000", "max": str(20 + port % 30 + 90 * (port % 2)), "dest_ip": "", "checksum": ("none", "udp")[port % 2],
            "end_system": "7", "period_us": str(100_000 + 10_000 * (port % 7)), "jitter_us": "", "deadline_us": "200000",
        })
    return rows


def plan_of(rows: list[Row]) -> dict:
    """The plan that a document has to give, as `tomllib` reads it."""
    def table(row: Row, keys: dict[str, str]) -> dict:
        values = {key: row[column] for column, key in keys.items() if row[column]}
        return {key: value if key in ("kind", "networks", "dest_ip", "checksum") else int(value) for key, value in values.items()}

    first = {row["vl"]: row for row in reversed(rows)}
    order = dict.fromkeys(row["vl"] for row in rows)
    links = {"vl": "id", **{it: it for it in LINK if it != "vl_name"}}
    ports = {it: it for it in "vl sub partition kind source destination max dest_ip checksum".split()} | {"port": "id"}
    return {"version": 2, "end_system": {"id": int(rows[0]["end_system"])}, "vl": [table(first[vl], links) for vl in order],
            "port": [table(row, ports) for row in rows]}


def names_of(rows: list[Row]) -> list[str]:
    """The comments of a plan: names of links and of ports, in the order of their tables."""
    links = {row["vl"]: row["vl_name"] for row in rows}
    return [f"# {name}" for name in [*links.values(), *(row["name"] for row in rows)] if name]


def plain(rows: list[Row]) -> str:
    """A document in the plainest layout."""
    return ",".join(COLUMNS) + "\n" + "".join(",".join(quoted(row[it], ",") for it in COLUMNS) + "\n" for row in rows)


def quoted(cell: str, separator: str, always: bool = False) -> str:
    """A cell as CSV has it."""
    doubled = cell.replace('"', '""')
    return f'"{doubled}"' if always or any(it in cell for it in f'{separator}"\r\n') else cell


def laid_out(rng: random.Random, rows: list[Row]) -> tuple[str, list[str]]:
    """A document in some layout, and the columns in it that aren't of one."""
    separator, end = rng.choice(",;\t"), rng.choice(("\n", "\r\n"))
    others = rng.sample(["unit", "Comment", "rate [Hz]", "vlan"], rng.randrange(3))
    columns = [it for it in COLUMNS if it not in OPTIONAL or any(row[it] for row in rows) or rng.random() < 0.5] + others

    def cell(text: str, column: str) -> str:
        if text.isdigit() and rng.random() < 0.2:
            text = rng.choice((f"{text}.0", f"{text}.000", f"0{text}", f"00{text}.0"))
        if rng.random() < 0.3 and not any(it in text for it in '";,'):
            text = rng.choice((f" {text}", f"{text} ", f" {text}  ")) if separator == "\t" else f" {text}\t"
        return quoted(text, separator, rng.random() < 0.2)

    rng.shuffle(columns)
    capital = rng.choice((str, str.upper, str.capitalize))
    lines = [separator.join(cell(capital(it) if it in COLUMNS else it, it) for it in columns)]
    for row in rows:
        while rng.random() < 0.1:
            lines.append(rng.choice(("", separator * (len(columns) - 1), separator.join([" "] * len(columns)))))
        lines.append(separator.join(cell(row.get(it, f"any {it}"), it) for it in columns))
    return rng.choice(("", "\ufeff")) + end.join(lines) + rng.choice(("", end)), [it for it in columns if it in others]


def value_faults(rows: list[Row]) -> Iterator[tuple[list[Row], list[str]]]:
    """Documents with one bad cell in a port's row, or in all rows of a link, and the lines that tell it."""
    bad = {**{it: ["x", "-1", "1.5", "1e3", "9" * 30, "+1", str(most + 1), *[str(least - 1)] * (least > 0)] for it, (least, most) in NUMBERS.items()},
           "bag_ms": ["3", "0", "129", "x", "8.5"], "networks": ["c", "A", "1"], "kind": ["", "Queuing", "x" * 50], "checksum": ["crc", "0"],
           "dest_ip": ["11.0.0.1", "10.0.0", "10.0.0.01", "x"], "name": ["x" * 65, "a\nb", "\x1b[2J"], "vl_name": ["\x7f"]}
    for column, cells in bad.items():
        wanted = WANTED.get(column) or "{} to {}".format(*NUMBERS[column])
        for cell in [*cells, *[""] * (column in NUMBERS)]:
            k = len(rows) // 2
            of_link = column in (*LINK, "end_system")
            hit = [i for i, row in enumerate(rows) if i == k or of_link and (column == "end_system" or row["vl"] == rows[k]["vl"])]
            changed = [{**row, column: cell} if i in hit else row for i, row in enumerate(rows)]
            told = hit[:1] if of_link and column != "vl_name" else hit
            yield changed, [f"row {i + 2}, {column}: {wanted} is wanted, and {seen(cell)}" for i in told]


def mutated(rng: random.Random, text: bytes) -> bytes:
    """A text with some of its bytes, cells and lines changed."""
    for _ in range(rng.randint(1, 4)):
        lines = text.split(b"\n")
        k, at = rng.randrange(len(lines)), rng.randrange(len(text) + 1)
        cells = lines[k].split(b",")
        j = rng.randrange(len(cells))
        kind = rng.randrange(9)
        if kind == 0:
            text = text[:at] + bytes([rng.randrange(256)]) + text[at + rng.randrange(2) :]
        elif kind == 1:
            text = text[:at] + text[at + rng.randint(1, 20) :]
        elif kind == 2:
            text = text[:at] + rng.choice((b'"', b'""', b",", b";", b"\n", b"\r", b"\0", b"\xef\xbb\xbf", b"0", b".0", b"-")) + text[at:]
        elif kind == 3:
            cells[j] = rng.choice((b"", b"0", b"65535", b"65536", b"x", b"9" * 20, b"\xff", b"10.0.0.1", b"4", b'"', b"1 "))
        elif kind == 4:
            cells[j], cells[0] = cells[0], cells[j]
        elif kind == 5:
            cells = cells[:j] + cells[j + 1 :]
        elif kind == 6:
            lines = lines[:k] + lines[k + 1 :]
        elif kind == 7:
            lines.insert(k, rng.choice(lines))
        else:
            other = rng.choice(lines).split(b",")
            cells[j] = other[j % len(other)]
        if kind in (3, 4, 5, 8):
            lines[k] = b",".join(cells)
        if kind >= 3:
            text = b"\n".join(lines)
    return text
