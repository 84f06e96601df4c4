"""What a sidecar may answer in place of what was asked for, and that it may not answer at all."""

from typing import Any, ClassVar, Mapping


class SidecarError(Exception):
    """The sidecar did not do what was asked for."""


class CallRefused(SidecarError):
    """The call is not permitted: don't make it, and wait before you ask again."""


class Trouble(SidecarError):
    """The sidecar says nothing about the guarded service. What becomes of the call is the caller's choice."""


class NoAnswer(Trouble):
    """No answer came, or none that can be used. What was asked for may have been done."""


class TicketLost(Trouble):
    """The ticket was issued before the sidecar was started anew, and went with it."""


class WithNumber(SidecarError):
    """An answer with the number and the name of a refusal."""

    number: ClassVar[int] = 0

    def __init__(self, status: int, answer: Mapping[str, Any]) -> None:
        self.status = status
        self.error = int(answer["error"])
        self.name = str(answer["name"])
        self.slot: int | None = answer.get("slot")
        at_slot = "" if self.slot is None else f" slot {self.slot}"
        super().__init__(f"{status} {self.name}{at_slot}")


class CallNotPermitted(CallRefused, WithNumber):
    """The breaker permits no call."""

    number = 31


class BulkheadFull(CallRefused, WithNumber):
    """As many calls are made as may be at once."""

    number = 32


class Refused(Trouble, WithNumber):
    """Any other refusal."""


class TicketNotOpen(Refused):
    """The ticket was never issued, or has ended."""


class NoTicket(TicketNotOpen):
    """The ticket was never issued."""

    number = 33


class TicketSpent(TicketNotOpen):
    """The ticket has ended."""

    number = 34


class JournalFull(Refused):
    """The journal has no entry left: nobody keeps it."""

    number = 37


class OutOfMemory(Refused):
    """The sidecar has no memory for what was asked."""

    number = 38


class NoService(Refused):
    """The sidecar has no service of this name."""

    number = 60


class BadOutcome(ValueError):
    """A value of an outcome is of the wrong kind or out of its range, so that the sidecar would refuse it."""


_NUMBERED: tuple[type[WithNumber], ...] = (
    CallNotPermitted,
    BulkheadFull,
    NoTicket,
    TicketSpent,
    JournalFull,
    OutOfMemory,
    NoService,
)
_BY_NUMBER = {kind.number: kind for kind in _NUMBERED}


def refusal(status: int, answer: Mapping[str, Any]) -> WithNumber:
    """Returns the error for an answer that is a refusal."""
    return _BY_NUMBER.get(int(answer["error"]), Refused)(status, answer)
