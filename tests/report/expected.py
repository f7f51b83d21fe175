"""What `afdx_bench report` and `afdx_bench check` must print of a plan, computed independently."""
from fractions import Fraction

Plan = dict
Tables = dict[str, list[list[str]]]


def up(value: Fraction) -> int:
    """The least whole number that isn't below a value."""
    return -(-value.numerator // value.denominator)


def decimal(value: int, digits: int) -> str:
    """A number of parts as a decimal with `digits` digits after the point."""
    return f"{value // 10**digits}.{value % 10**digits:0{digits}}"


def pieces(link: Plan, size: int) -> int:
    """How many fragments a message has. Each frame has 14 + 20 + 1 + 4 bytes of its own."""
    room, datagram, count = link["lmax"] - 39, size + 8, 1
    while datagram > room:
        datagram, count = datagram - room // 8 * 8, count + 1
    return count


def wanted(plan: Plan, lateness: int) -> Tables:
    """The rows of a report."""
    links = {link["id"]: link for link in plan["vl"]}
    load = {link["id"]: Fraction(8000 * (link["lmax"] + 20), link["bag_ms"]) for link in plan["vl"]}
    carried = {"A": ("both", "a"), "B": ("both", "b")}
    tables: Tables = {"links": [], "networks": [], "ports": []}
    for link in plan["vl"]:
        bits, name = load[link["id"]], {"both": "A+B", "a": "A", "b": "B"}[link.get("networks", "both")]
        tables["links"].append(
            [*(str(link[key]) for key in ("id", "bag_ms", "lmax", "sub_vls")), name, decimal(up(bits), 3), decimal(up(bits / 10_000), 2)]
            + [str(80 * (link["lmax"] + 20))]
        )
    for name, kinds in carried.items():
        links_on = [link for link in plan["vl"] if link.get("networks", "both") in kinds]
        bits = sum((load[link["id"]] for link in links_on), Fraction())
        exceeded, jitter = "yes" if bits > 10**8 else "no", str(jitter_of({"vl": links_on}))
        tables["networks"].append([name, decimal(up(bits), 3), decimal(up(bits / 10_000), 2), exceeded, jitter])
    for port in plan["port"]:
        link = links[port["vl"]]
        own = pieces(link, port["max"])
        most = max(pieces(link, other["max"]) for other in plan["port"] if (other["vl"], other["sub"]) == (port["vl"], port["sub"]))
        used = len({other["sub"] for other in plan["port"] if other["vl"] == port["vl"]})
        wait = used * (link["capacity"] * most - 1 + own) * (1000 * link["bag_ms"] + lateness)
        often = decimal(10**6 // (link["bag_ms"] * own), 3)
        tables["ports"].append([*(str(port[key]) for key in ("id", "vl", "sub")), str(own), str(wait), often])
    return tables | {"memory": memory_rows(plan)}


def memory_rows(plan: Plan) -> list[list[str]]:
    """The rows of the sub-VLs, each with the bytes that it holds."""
    rows = []
    for link in plan["vl"]:
        for sub in range(link["sub_vls"]):
            sizes = [port["max"] for port in plan["port"] if (port["vl"], port["sub"]) == (link["id"], sub)]
            partitions = {port["partition"] for port in plan["port"] if (port["vl"], port["sub"]) == (link["id"], sub)}
            capacity, ports, greatest = link["capacity"], len(sizes), max(sizes, default=0)
            held = 312 + 40 * capacity + (capacity + 1 + ports) * greatest
            rows.append([str(number) for number in (link["id"], sub, capacity, ports, len(partitions), greatest, held)])
    return rows


def partitions_of(plan: Plan) -> str:
    """What a verdict says of the partitions."""
    shared = sum(int(row[4]) > 1 for row in memory_rows(plan))
    return f"sub-VLs of several partitions: {shared}" if shared else "partitions apart"


def memory_of(plan: Plan) -> int:
    """The bytes of an end system, by the formula of docs/guide/c.md."""
    links, ports = len(plan["vl"]), len(plan["port"])
    own = 207953 + 280 * links + 24 * max(4, links) + 392 * ports + 32 * max(4, ports)
    return own + sum(int(row[-1]) for row in memory_rows(plan))


def heaviest(plan: Plan) -> list[list[str]]:
    """The rows of the sub-VLs that hold the most, if the end system holds 64 MiB or more."""
    rows = memory_rows(plan)
    most = max(int(row[-1]) for row in rows)
    return [row for row in rows if int(row[-1]) == most and memory_of(plan) >= 64 * 2**20]


def jitter_of(plan: Plan) -> int:
    """The jitter of a plan, in nanoseconds."""
    return 40_000 + sum(80 * (link["lmax"] + 20) for link in plan["vl"])


def check_of(plan: Plan) -> str:
    """What `check` prints of a plan."""
    lines = [f"end system {plan['end_system']['id']}"]
    for link in plan["vl"]:
        on = {"both": "", "a": ", network A", "b": ", network B"}[link.get("networks", "both")]
        size = f"bag {link['bag_ms']} ms, lmax {link['lmax']}, sub-VLs {link['sub_vls']}, capacity {link['capacity']}"
        lines.append(f"link {link['id']}: {size}{on}")
    for port in plan["port"]:
        way = f"link {port['vl']} sub {port['sub']}, partition {port['partition']}, {port['kind']}"
        flow = f"{port['source']} to {port['destination']}, max {port['max']}, {port.get('dest_ip', 'multicast')}"
        lines.append(f"port {port['id']}: {way}, {flow}" + ", checksum udp" * (port.get("checksum") == "udp"))
    jitter = jitter_of(plan)
    return "\n".join([*lines, f"jitter {jitter} ns, limit 500000" + ", exceeded" * (jitter > 500_000), ""])
