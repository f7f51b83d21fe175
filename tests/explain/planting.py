"""Plans without faults, faults to plant in them, and their texts."""
import random
from collections.abc import Callable

from wanted import ADDRESS, FIELDS, GAPS, ID, IN_VERSION_2, NAMES, OPTIONAL, Table, fields, kind_of, known, place, rows, subject


def written(value) -> str:
    """A value as TOML."""
    if isinstance(value, str):
        return '"' + "".join(c if c.isprintable() and c not in '"\\' else f"\\u{ord(c):04x}" for c in value) + '"'
    if isinstance(value, list):
        return f"[{', '.join(map(written, value))}]"
    if isinstance(value, dict):
        return "{" + ", ".join(f"{written(k)} = {written(v)}" for k, v in value.items()) + "}"
    return str(value).lower()


def text_of(document: Table, rng: random.Random) -> str:
    """The text of a document: tables of both arrays mixed, keys in any order."""
    arrays = {k: v for k, v in document.items() if k in ("vl", "port") and isinstance(v, list) and v and rows(document, k) == v}
    parts = [f"{written(k)} = {written(v)}" for k, v in document.items() if k not in arrays]
    turns = [name for name, array in arrays.items() for _ in array]
    rng.shuffle(turns)
    left = {name: iter(array) for name, array in arrays.items()}
    for name in turns:
        table = list(next(left[name]).items())
        rng.shuffle(table)
        parts += [f"[[{name}]] # {name}", *(f"{written(k)} = {written(v)}" for k, v in table)]
    return "\n".join(parts) + "\n"


def plan_of(rng: random.Random, links: int, ports: int, version: int | None = None) -> Table:
    """A plan without a fault: the identifiers of its links are 100 and more, and those of its ports 1,000 and more."""
    vl = [{"id": 100 + k, "bag_ms": rng.choice(GAPS), "lmax": rng.randint(300, 1518)} for k in range(links)]
    vl = [link | {"sub_vls": rng.randint(2, 4), "capacity": rng.randint(1, 256)} for link in vl]
    port = [{"id": 1000 + k, "vl": 100 + k % links, "sub": k % 2, "partition": k % 32} for k in range(ports)]
    port = [p | {"kind": rng.choice(FIELDS["port"]["kind"]), "source": p["id"], "destination": 2000} for p in port]
    port = [p | {"max": rng.randint(1, 253)} for p in port]
    for table, key in [(t, "networks") for t in vl] + [(t, "checksum") for t in port] if version == 2 else []:
        table |= {key: rng.choice(FIELDS["vl" if key == "networks" else "port"][key])} if rng.random() < 0.5 else {}
    for k in rng.sample(range(ports), ports // 3):
        port[k]["dest_ip"] = f"10.0.{k % 256}.255"
    return ({"version": version} if version else {}) | {"end_system": {"id": rng.choice(ID)}, "vl": vl, "port": port}


def bad_values(content, fault: int) -> list:
    """Values with a fault of 4 to 6 for a key of this kind."""
    if fault == 4:
        other = [7, -9] if kind_of(content) != "a whole number" else ["7", "é" * 20, 'q"\\\n\x7f' * 9, "x" * 40, "x" * 41]
        return [*other, 2.5, True, [1, 2], *([{"id": 1}] if not isinstance(content, str) else [[{}, 1]] if "array" in content else [[{}]])]
    if isinstance(content, range):
        return [content[0] - 1, content[-1] + 1, -(2**63), 2**63 - 1]
    texts = ["10.0.0", "10.0.0.256", "10.0.0.01", "11.0.0.1", "10.0.0.1.1"] if content is ADDRESS else ["A", "both ", "Queuing"]
    return [0, 3, -1, 129, 256] if content is GAPS else [*texts, ""]


def plant(rng: random.Random, document: Table, fault: int, free: dict[str, list[int]]) -> list[Callable[[], str]]:
    """Plants a fault in tables that are free. Returns functions for the starts of its lines, once all are planted."""
    def take(name: str, count: int = 1) -> list[int]:
        taken = sorted(rng.sample(free[name], count))
        free[name] = [k for k in free[name] if k not in taken]
        return taken

    vl, port = document["vl"], document["port"]
    head = f"{fault} {NAMES[fault]}: "
    if fault < 7:
        name = "vl" if fault == 6 else rng.choice(("vl", "port"))
        (k,) = take(name)
        table, format_ = document[name][k], fields(document, name)
        # (of the keys that only version 2 has, one is told)
        is_told = any(key in it for other in ("vl", "port") for it in document[other] for key in IN_VERSION_2 if key in FIELDS[other])
        newer = [key for key in IN_VERSION_2 if key not in format_ and not (is_told and key in FIELDS[name])]
        unknown = ["extra", "Id", "x" * 41, 'q"\u00e9', "checksums", *newer]
        few = {2: [key for key in format_ if key not in OPTIONAL], 3: unknown, 6: ["bag_ms"]}
        key = rng.choice(few.get(fault, [key for key in format_ if fault == 4 or key != "bag_ms"]))
        table[key] = rng.choice(bad_values(format_[key], fault)) if fault > 3 else 7
        if fault == 2:
            del table[key]
        return [lambda: f"{head}{subject(document, (name, k + 1), key)}: "]
    if fault in (7, 8, 12, 13):
        name = "vl" if fault == 7 else "port"
        # (two to four tables, and four are left for other faults)
        first, *others = take(name, rng.randint(2, max(2, min(4, len(free[name]) - 4))))
        a, tables = document[name][first], document[name]
        keys = {12: ["vl", "partition", "source", "destination"], 13: ["partition"]}.get(fault, ["id"])
        a |= {"dest_ip": f"10.255.{first}.0"} if fault > 11 else {}
        for turn, other in enumerate(others):
            tables[other] |= {key: a[key] for key in [*keys, *(["dest_ip"] if fault > 11 else [])]}
            tables[other] |= {"vl": 100 + (a["vl"] - 99 + turn % (len(vl) - 1)) % len(vl)} if fault == 13 else {}
        return [(lambda other=other: f"{head}{place(document, (name, other + 1))} and {place(document, (name, first + 1))}: ") for other in others]
    (link,), (k,) = take("vl"), take("port")
    port[k] |= {9: {"vl": 60_000 + k}, 10: {"vl": 100 + link, "sub": 3}, 11: {"vl": 100 + link, "kind": "sampling"}}.get(fault, {})
    if fault == 10:
        vl[link]["sub_vls"] = rng.randint(1, 3)
    elif fault == 11:
        port[k]["max"] = vl[link]["lmax"] - 46
    elif fault == 14:
        port += [port[k] | {"id": 3000 + n, "source": 3000 + n, "vl": 100 + link} for n in range(65)]
        k = len(port) - 1
    key = {9: "vl", 10: "sub", 11: "max", 14: "sub"}[fault]
    # (any link may be the one that is named, if the identifier of one is faulty)
    is_told = (lambda: all("id" in known("vl", table) for table in vl)) if fault == 9 else lambda: True
    return [lambda: f"{head}{subject(document, ('port', k + 1), key)}: " if is_told() else ""]


def planted(seed: int) -> tuple[str, list[str]]:
    """A text with one to three planted faults, and the starts of their lines."""
    rng = random.Random(seed)
    document = plan_of(rng, rng.randint(6, 8), rng.randint(6, 12), rng.choice((None, 1, 2)))
    free = {name: list(range(len(document[name]))) for name in ("vl", "port")}
    # (the first one goes through all numbers)
    lines = [plant(rng, document, f, free) for f in (2 + seed % 13, *(rng.randint(2, 13) for _ in range(seed // 13 % 3)))]
    return text_of(document, rng), [line() for told in lines for line in told]
