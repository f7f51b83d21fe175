"""The expected output of `afdx_bench explain` for a text that is TOML, from the tables of `docs/guide/plan.md` and the
lines of `docs/guide/program.md`."""
import re
from collections.abc import Iterable

NAMES = ("", "Toml", "MissingKey", "UnknownKey", "WrongKind", "OutOfRange", "BadBag", "DuplicateVl", "DuplicatePort", "NoSuchVl")
NAMES += ("NoSuchSub", "SamplingTooLong", "SameFlow", "SharedUnicast", "Limit")
# The values that a key may have: a range, a list, a tuple of words, a pattern, or the name of a kind.
ID, TEXT = range(65536), "a text"
GAPS, ADDRESS = [1, 2, 4, 8, 16, 32, 64, 128], re.compile(r"10(\.(0|[1-9][0-9]?|1[0-9][0-9]|2[0-4][0-9]|25[0-5])){3}", re.ASCII)
FIELDS = {
    "": {"version": range(1, 3), "end_system": "a table", "vl": "an array of tables", "port": "an array of tables"},
    "end_system": {"id": ID},
    "vl": {"id": ID, "bag_ms": GAPS, "lmax": range(64, 1519), "sub_vls": range(1, 5), "capacity": range(1, 257)}
    | {"networks": ("both", "a", "b")},
    "port": {"id": ID, "vl": ID, "sub": range(4), "partition": range(32), "kind": ("sampling", "queuing")}
    | {"source": range(1, 65536), "destination": range(1, 65536), "max": range(1, 8193)}
    | {"dest_ip": ADDRESS, "checksum": ("none", "udp")},
}
OPTIONAL, IN_VERSION_2 = ("version", "networks", "dest_ip", "checksum"), ("networks", "checksum")
MOST_LINES = 1000
SAME = {12: "the same vl, partition, source, destination and dest_ip", 13: "the same partition and dest_ip, but another vl"}
Table = dict
Place = tuple[str, int]  # the name of a table, and its number in its array


def cut(text: str) -> str:
    """The first 40 bytes of a text as they are printed."""
    raw = text.encode()
    return "".join(chr(b) if 32 <= b <= 126 and b not in b'"\\' else f"\\x{b:02x}" for b in raw[:40]) + "..." * (len(raw) > 40)


def shown(table: Table, key: str) -> str:
    """The value of a key as it is printed."""
    value = table.get(key)
    kinds = {type(None): "missing", bool: "a boolean", float: "a float", dict: "a table"}
    if type(value) is int:
        return str(value)
    if isinstance(value, list):
        return f"an array of {len(value)}"
    return f'"{cut(value)}"' if isinstance(value, str) else kinds.get(type(value), "a datetime")


def kind_of(content) -> str:
    """The kind of value that a key must have."""
    return content if isinstance(content, str) else "a whole number" if isinstance(content, (range, list)) else TEXT


def allowed(content) -> str:
    """The values that are allowed."""
    if isinstance(content, range):
        return f"{content[0]} to {content[-1]}"
    if content is ADDRESS:
        return "an address in 10.0.0.0/8, without leading zeros"
    words = [str(word) for word in content] if not isinstance(content, str) else []
    return f"{', '.join(words[:-1])} or {words[-1]}" if words else content


def fault_of(content, value) -> int:
    """The number of a value's fault, or 0."""
    kind = kind_of(content)
    if content == "a table":
        return 0 if isinstance(value, dict) else 4
    if isinstance(content, str):
        return 0 if isinstance(value, list) and all(isinstance(item, dict) for item in value) else 4
    if type(value) is not (str if kind == TEXT else int):
        return 4
    if content is ADDRESS:
        return 0 if ADDRESS.fullmatch(value) else 5
    return 0 if value in content else 6 if content is GAPS else 5


def rows(document: Table, name: str) -> list[Table]:
    """The tables of an array."""
    value = document.get(name)
    return [item for item in value if isinstance(item, dict)] if isinstance(value, list) else []


def fields(document: Table, name: str) -> Table:
    """The keys that a table may have."""
    return {k: v for k, v in FIELDS[name].items() if known("", document).get("version") == 2 or k not in IN_VERSION_2}


def place(document: Table, at: Place) -> str:
    """A place as it is printed."""
    name, k = at
    if not k:
        return name
    value = rows(document, name)[k - 1].get("id")
    return f"{name} {k}" + (f" (id {value})" if type(value) is int else "")


def subject(document: Table, at: Place, key: str) -> str:
    """A key of a place and its value, as they are printed."""
    name, k = at
    table = rows(document, name)[k - 1] if k else document[name] if name else document
    return place(document, at) + (", " if k else "." if name else "") + f"{cut(key)} is {shown(table, key)}"


def edits(one: str, other: str) -> int:
    """How many letters have to be put in, left out or changed between two words."""
    row = list(range(len(other) + 1))
    for i, letter in enumerate(one, 1):
        before, row[0] = row[0], i
        for j, it in enumerate(other, 1):
            before, row[j] = row[j], min(row[j] + 1, row[j - 1] + 1, before + (letter != it))
    return row[-1]


def meant(key: str, known: Iterable[str]) -> str:
    """Which key may be meant by another one: the first of the nearest, if it is near for the length of the word."""
    near = min(((edits(key, it), place, it) for place, it in enumerate(known)), default=(9, 0, ""))
    size = len(key.encode())
    return f"; did you mean {near[2]}?" if size <= 40 and near[0] < min(3, (size + 1) // 2) else ""


def value_lines(document: Table, fault: int) -> Iterable[str]:
    """The lines of a fault from 2 to 6."""
    sites: list[tuple[Place, Table]] = [(("", 0), document)]
    sites += [(("end_system", 0), document["end_system"])] if isinstance(document.get("end_system"), dict) else []
    sites += [((name, k), table) for name in ("vl", "port") for k, table in enumerate(rows(document, name), 1)]
    newer = False
    for at, table in sites:
        known = fields(document, at[0])
        for key, content in known.items():
            found = fault_of(content, table[key]) if key in table else 0 if key in OPTIONAL else 2
            if found == fault:
                kind = f"{kind_of(content)} is wanted" + f": write [[{key}]]" * (content == "an array of tables" and isinstance(table.get(key), dict))
                yield f"{subject(document, at, key)}: " + (kind if found == 4 else allowed(content))
        if fault == 3:
            others = sorted((key for key in table if key not in known), key=str.encode)
            keys = f"the keys are {' '.join(known)}"
            for key in others:
                if key not in FIELDS[at[0]]:
                    yield f"{subject(document, at, key)}: {keys}{meant(key, known)}"
                elif not newer:
                    newer = True
                    yield f"{subject(document, at, key)}: only if version = 2" + ", and version is missing" * ("version" not in document)


def known(name: str, table: Table) -> Table:
    """The values of a table without fault; an optional one that is left out is empty."""
    values = {key: table[key] for key, content in FIELDS[name].items() if key in table and not fault_of(content, table[key])}
    return {key: "" for key in OPTIONAL if key not in table} | values


def first_clash(fault: int, tables: list[Table], k: int) -> int | None:
    """The index of the first table before the k-th that clashes with it."""
    same = {12: ("vl", "partition", "source", "destination", "dest_ip"), 13: ("partition", "dest_ip")}.get(fault, ("id",))
    last = tables[k]
    for j, table in enumerate(tables[:k]):
        both_known = all(key in table and key in last for key in (*same, *(("vl",) if fault == 13 else ())))
        if both_known and all(table[key] == last[key] for key in same):
            if fault != 13 or last["dest_ip"] and table["vl"] != last["vl"]:
                return j
    return None


def plan_lines(document: Table, fault: int) -> Iterable[str]:
    """The lines of a fault from 7 to 14."""
    links, ports = [known("vl", t) for t in rows(document, "vl")], [known("port", t) for t in rows(document, "port")]
    arrays = known("", document)
    if fault in (7, 8, 12, 13):
        name, tables = ("vl", links) if fault == 7 else ("port", ports)
        for k in range(len(tables)):
            if (j := first_clash(fault, tables, k)) is not None:
                yield f"{place(document, (name, k + 1))} and {place(document, (name, j + 1))}: {SAME.get(fault, 'the same id')}"
    if fault == 14:
        for name, tables, most in (("vl", links, 64), ("port", ports, 256)):
            if name in arrays and not 1 <= len(tables) <= most:
                yield f"{subject(document, ('', 0), name)}: 1 to {most} tables"
    for k, port in enumerate(ports):
        at, vl = ("port", k + 1), port.get("vl")
        number_of, link = next(((n, t) for n, t in enumerate(links, 1) if vl is not None and t.get("id") == vl), (0, {}))
        if fault == 9 and vl is not None and not number_of and "vl" in arrays and all("id" in t for t in links):
            yield f"{subject(document, at, 'vl')}: no vl has this id"
        if fault == 10 and "sub" in port and "sub_vls" in link and port["sub"] >= link["sub_vls"]:
            yield f"{subject(document, at, 'sub')}: below sub_vls of its vl; {subject(document, ('vl', number_of), 'sub_vls')}"
        if fault == 11 and port.get("kind") == "sampling" and "max" in port and "lmax" in link and port["max"] > link["lmax"] - 47:
            yield f"{subject(document, at, 'max')}: at most lmax - 47 of its vl; {subject(document, ('vl', number_of), 'lmax')}"
        if fault == 14 and vl is not None and "sub" in port:
            if sum(p.get("vl") == vl and p.get("sub") == port["sub"] for p in ports[:k]) >= 64:
                yield f"{subject(document, at, 'sub')}: at most 64 ports of one sub-VL"


def explanation(document: Table) -> str:
    """The whole expected output for a document."""
    lines = [f"{f} {NAMES[f]}: {line}" for f in range(2, 15) for line in (value_lines if f < 7 else plan_lines)(document, f)]
    more = [f"and {len(lines) - MOST_LINES} more"] if len(lines) > MOST_LINES else []
    return "\n".join([f"{len(lines) or 'no'} fault{'s' * (len(lines) != 1)}", *lines[:MOST_LINES], *more, ""])
