"""The answers of the C library other than success, each an exception named as in afdx.h."""
from __future__ import annotations

from typing import TYPE_CHECKING, Sequence

if TYPE_CHECKING:
    from ._findings import Finding

__all__ = [
    "AfdxError", "OutOfMemory", "ConfigError", "Toml", "MissingKey", "UnknownKey", "WrongKind", "OutOfRange",
    "BadBag", "DuplicateVl", "DuplicatePort", "NoSuchVl", "NoSuchSub", "SamplingTooLong", "SameFlow",
    "SharedUnicast", "Limit", "TableError", "NoTable", "OtherLayout", "WrongLength", "WrongSum", "WrongValue", "SendError", "Empty", "TooLong", "Closed", "Exhausted", "Full", "PollError",
    "BothDown", "Misuse", "NotHeld", "WrongHandle", "Held", "TimeBack", "NoPort", "NoSub", "NoLink",
    "NoNetwork", "NoFrame", "SmallBuffer", "PortMissing", "Gathered", "NotGathered", "JudgeError",
    "BadCapture", "LostPackets", "CONFIG_ERRORS", "TABLE_ERRORS", "SEND_ERRORS", "POLL_ERRORS", "JUDGE_ERRORS", "MISUSES",
]


class AfdxError(Exception):
    """An answer other than success. `number` is the answer. The text says what it means."""

    number = 0

    def __init__(self, more: str = "") -> None:
        """The text is the sentence of the class, and then `more`."""
        meaning = type(self).__doc__ or type(self).__name__
        super().__init__(f"{meaning}\n{more}" if more else meaning)


class OutOfMemory(AfdxError):
    """An allocation failed."""

    number = 15


class ConfigError(AfdxError):
    """The plan is refused: the fault of the least number. The text ends in the lines of `explain`."""


class Toml(ConfigError):
    """The text isn't TOML, or its bytes aren't UTF-8."""

    number = 1


class MissingKey(ConfigError):
    """A table or a required key of one is missing."""

    number = 2


class UnknownKey(ConfigError):
    """A table or key is unknown, or a key of version 2 is in a text of version 1."""

    number = 3


class WrongKind(ConfigError):
    """A value isn't of its kind."""

    number = 4


class OutOfRange(ConfigError):
    """A value is out of its range."""

    number = 5


class BadBag(ConfigError):
    """`bag_ms` is no bandwidth allocation gap."""

    number = 6


class DuplicateVl(ConfigError):
    """Two virtual links have one identifier."""

    number = 7


class DuplicatePort(ConfigError):
    """Two ports have one identifier."""

    number = 8


class NoSuchVl(ConfigError):
    """A port names a virtual link that isn't there."""

    number = 9


class NoSuchSub(ConfigError):
    """A port names a sub-VL that its virtual link doesn't have."""

    number = 10


class SamplingTooLong(ConfigError):
    """A sampling port's greatest message doesn't fit one frame."""

    number = 11


class SameFlow(ConfigError):
    """Two ports agree in virtual link, partition, both UDP ports and destination."""

    number = 12


class SharedUnicast(ConfigError):
    """Two ports on different virtual links agree in partition and unicast address."""

    number = 13


class Limit(ConfigError):
    """There are too few or too many virtual links or ports."""

    number = 14


class TableError(AfdxError):
    """The bytes aren't the table of a plan."""


class NoTable(TableError):
    """The bytes don't begin as a table does."""

    number = 16


class OtherLayout(TableError):
    """The table has another version of the layout."""

    number = 17


class WrongLength(TableError):
    """The bytes are more or fewer than the numbers of links and of ports want."""

    number = 18


class WrongSum(TableError):
    """The check isn't that of the bytes before it."""

    number = 19


class WrongValue(TableError):
    """A number is none that the table of a plan has there."""

    number = 20


class SendError(AfdxError):
    """The message is refused, and isn't queued."""


class Empty(SendError):
    """The message has no byte."""

    number = 1


class TooLong(SendError):
    """The message is longer than the port's greatest."""

    number = 2


class Closed(SendError):
    """The sub-VL is closed."""

    number = 3


class Exhausted(SendError):
    """The port has requested a slot 2^40 times."""

    number = 4


class Full(SendError):
    """The queue is full: poll, then try again. Each such refusal uses one of the port's 2^40 slot requests."""

    number = 5


class PollError(AfdxError):
    """The poll does nothing."""


class BothDown(PollError):
    """Both networks had failed before the poll."""

    number = 1


class Misuse(AfdxError):
    """A call that the end system or the port can't do now."""


class NotHeld(Misuse):
    """The end system was freed, or the port was given back."""

    number = 32


class WrongHandle(Misuse):
    """A port is passed for an end system, or the other way round."""

    number = 33


class Held(Misuse):
    """The end system or the port is open already."""

    number = 34


class TimeBack(Misuse):
    """The time is before that of an earlier poll."""

    number = 35


class NoPort(Misuse):
    """There is no such port, it is out already, or it isn't one of this end system."""

    number = 36


class NoSub(Misuse):
    """There is no such virtual link, or no such sub-VL of it."""

    number = 37


class NoLink(Misuse):
    """There is no such virtual link."""

    number = 38


class NoNetwork(Misuse):
    """Neither `A` nor `B`."""

    number = 39


class NoFrame(Misuse):
    """The last poll made fewer frames for this network."""

    number = 40


class SmallBuffer(Misuse):
    """The frame is longer than the given size."""

    number = 41


class PortMissing(Misuse):
    """A port of the plan is out."""

    number = 42


class Gathered(Misuse):
    """The end system is draining: `gather` was called."""

    number = 43


class NotGathered(Misuse):
    """`gather` hasn't been called yet."""

    number = 44


class JudgeError(AfdxError):
    """The recording isn't judged to its end."""


class BadCapture(JudgeError):
    """A capture is cut off or malformed, and was judged up to there."""

    number = 45

    def __init__(self, more: str = "", findings: Sequence[Finding] = ()) -> None:
        """The text has a line for each capture, and `findings` what was found."""
        super().__init__(more)
        self.findings = [*findings]


class LostPackets(BadCapture):
    """The recorder of a capture lost packets, so the recording isn't whole."""


Errors = dict[int, type[AfdxError]]


def _errors(kind: type[AfdxError], *more: type[AfdxError]) -> Errors:
    errors: list[type[AfdxError]] = [*more, *kind.__subclasses__()]
    return {error.number: error for error in errors}


# A send and a poll allocate nothing.
SEND_ERRORS, POLL_ERRORS = _errors(SendError), _errors(PollError)
CONFIG_ERRORS, JUDGE_ERRORS, MISUSES = (_errors(kind, OutOfMemory) for kind in (ConfigError, JudgeError, Misuse))
# A table has the faults of its plan too.
TABLE_ERRORS = CONFIG_ERRORS | _errors(TableError)
