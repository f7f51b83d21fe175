"""Storms that `tests/program.py` runs: files of their plans, their words, and how each ends."""
import os
import sys

from trying import DEMO, ROOT, totals

sys.path.append(os.path.join(ROOT, "tests", "run"))
from rows import plan_of  # noqa: E402

PORT = DEMO[DEMO.index("[[port]]") :]
# How many ports one plan has, with little room.
MANY = 64


def crowd(count, sub_vls, capacity):
    """The demonstration with so many ports, spread over its sub-VLs. Ports of one partition have UDP ports of their own."""
    text = DEMO[: -len(PORT)].replace("sub_vls = 1", f"sub_vls = {sub_vls}").replace("capacity = 2", f"capacity = {capacity}")
    for k in range(count):
        port = PORT.replace("id = 10", f"id = {k + 1}").replace("sub = 0", f"sub = {k * sub_vls // count}")
        text += port.replace("partition = 1", f"partition = {(k + 1) % 32}").replace("1000", f"{1000 + (k + 1) // 32}")
    return text


FOUR = crowd(4, 2, 256)
PLANS = {
    "many.toml": crowd(MANY, 1, 1), "four.toml": FOUR, "tight.toml": crowd(4, 2, 2),
    # the third port has too small a max
    "third.toml": "max = 5".join(FOUR.rsplit("max = 8192", 2)[:2]) + FOUR[FOUR.rindex("max = 8192") :],
    "most.toml": plan_of(((vl, 64, 4, 2) for vl in range(64)), ((k, k // 4, k % 4) for k in range(256))),
}


def storm(name, messages, turns):
    """The words of a storm over a plan: how many messages each port sends, and how often each thread may try."""
    return ["storm", name, "--messages", str(messages), "--turns", str(turns)]


ROWS = [
    (storm("four.toml", 100, 1000), 0, totals(400), ""),
    (storm("tight.toml", 20, 100_000_000), 0, totals(80), ""),
    (storm("four.toml", 100, 1), 5, "", "turns used up\n"),
    (storm("four.toml", 1, 1), 5, "", "turns used up\n"),
    (storm("third.toml", 100, 1000), 2, "", "storm refused: a port's max is below 6\n"),
    (storm("six.toml", 2, 1000), 0, totals(2), ""),
    # one of the links is on B alone
    (storm("two.toml", 10, 1000), 0, totals(10, links=(1, 2)), ""),
    (storm("most.toml", 20, 100_000_000), 0, totals(80, links=range(64)), ""),
]
