"""A client of the circuit breaker sidecar: asks before a call, and reports the outcome behind it.

    breaker = delvoumi.breaker("127.0.0.1:8080", "pay", delvoumi.FAIL_OPEN)
    with breaker.call() as call:
        call.response(requests.get(url, timeout=5))
"""

import logging

from .breaker import FAIL_CLOSED, FAIL_OPEN, Breaker, Call, Choice, breaker
from .errors import (
    BadOutcome,
    BulkheadFull,
    CallNotPermitted,
    CallRefused,
    JournalFull,
    NoAnswer,
    NoService,
    Refused,
    SidecarError,
    TicketLost,
    TicketNotOpen,
    Trouble,
)
from .kinds import kind_of
from .outcomes import Outcome, outcome, outcome_of_response
from .sidecar import Report, Sidecar, Ticket

__all__ = [
    "FAIL_CLOSED",
    "FAIL_OPEN",
    "BadOutcome",
    "Breaker",
    "BulkheadFull",
    "Call",
    "CallNotPermitted",
    "CallRefused",
    "Choice",
    "JournalFull",
    "NoAnswer",
    "NoService",
    "Outcome",
    "Refused",
    "Report",
    "Sidecar",
    "SidecarError",
    "Ticket",
    "TicketLost",
    "TicketNotOpen",
    "Trouble",
    "breaker",
    "kind_of",
    "outcome",
    "outcome_of_response",
]

# A program that wants to see what goes wrong gives this logger, or the root, a handler.
logging.getLogger("delvoumi").addHandler(logging.NullHandler())
