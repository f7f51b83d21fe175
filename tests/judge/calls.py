"""Recordings for the tests of the calls that judge from C and Python: those on which `test_judge.py` tries the command."""
import os
import re
import sys
from collections.abc import Iterator
from typing import NamedTuple
from unittest import mock

HERE = os.path.dirname(os.path.abspath(__file__))
sys.path.append(HERE)
import test_judge  # noqa: E402
import verdict  # noqa: E402


class Case(NamedTuple):
    """A plan, captures and options; the findings of the model, and the lines of the captures that aren't whole."""

    name: str
    plan: str
    captures: list[bytes]
    options: verdict.Options
    found: list[verdict.Finding]
    captured: list[str]

    def words(self) -> dict[str, int]:
        """The options that the calls have, in their order: other addresses are the command's alone."""
        return {name: it for name, it in self.options._asdict().items() if name not in ("constant", "interfaces")}


def case_of(name: str, plan: str, captures: list[bytes], options: verdict.Options) -> Case:
    """A case with what the model says of it."""
    _, _, found = verdict.judged(plan, captures, options)
    readers = [*map(verdict.Reader, captures)]
    captured = [verdict.read_line(place, reader, len(captures) == 1).strip() for place, reader in enumerate(readers, 1)]
    # (the calls don't say which other link type a capture has)
    captured = [re.sub(r"link type \d+ at", "another link type at", line) for line in captured]
    return Case(name, plan, captures, options, found, captured if any(it.end.fault for it in readers) else [])


def cases(count: int) -> Iterator[Case]:
    """Faults of each kind, planted alone; recordings that began late, have check sequences, lost a frame or aren't in the
    order of time; ones with many changes, damaged captures, and more findings than the command prints."""
    taken: list[Case] = []

    def take(name: str, plan: str, captures: list[bytes], options: verdict.Options, *_: object, is_piped: bool = False) -> list[str]:
        taken.extend([] if is_piped else [case_of(name, plan, captures, options)])
        return []

    with mock.patch.object(test_judge, "faults_of", take):
        for kind in range(len(verdict.KINDS)):
            for seed in range(count):
                test_judge.planted((kind, seed))
        for task in (test_judge.late, test_judge.checked, test_judge.told, test_judge.lost, test_judge.unmerged, test_judge.mixed, test_judge.damaged):
            for seed in range(8 * count):
                task(seed)
        test_judge.crowd()
    yield from taken
