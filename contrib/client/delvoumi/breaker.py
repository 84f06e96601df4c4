"""Guards calls: a ticket before the call, its end behind it, however the call ends."""

import asyncio
import enum
import functools
import inspect
import logging
import sys
import threading
import time
from collections.abc import Callable, Mapping
from types import TracebackType
from typing import Any, ParamSpec, Self, TypeVar

from .errors import BadOutcome, Refused, SidecarError, TicketLost, TicketNotOpen, Trouble
from .kinds import kind_of
from .outcomes import Outcome, outcome, outcome_of_response
from .sidecar import SECONDS_OF_SIDECAR, Report, Sidecar, Ticket

logger = logging.getLogger("delvoumi")

Arguments = ParamSpec("Arguments")
Result = TypeVar("Result")
Answer = TypeVar("Answer")
Errors = type[BaseException] | tuple[type[BaseException], ...]

WORK_LATER: tuple[Callable[[object], bool], ...] = (
    inspect.isgeneratorfunction,
    inspect.iscoroutinefunction,
    inspect.isasyncgenfunction,
)


class Choice(enum.Enum):
    """What becomes of a call where the sidecar neither permits nor refuses it: it can't be reached, doesn't answer in
    time, has no such service, or its journal or its memory is full."""

    FAIL_OPEN = "fail-open"
    FAIL_CLOSED = "fail-closed"


FAIL_OPEN = Choice.FAIL_OPEN
FAIL_CLOSED = Choice.FAIL_CLOSED


class Breaker:
    """Guards the calls of one service. All threads of a program may share it."""

    def __init__(self, sidecar: Sidecar, choice: Choice | str) -> None:
        self.sidecar = sidecar
        self.choice = Choice(choice)
        self._told_trouble = ""

    def call(self, *, attempt: int | None = None, method: str | None = None, release_on: Errors = ()) -> "Call":
        """Returns a guard for one call: `with breaker.call() as call:`.

        An error of `release_on` says nothing about the service that is called: it makes no outcome."""
        return Call(self, attempt, method, release_on)

    def guarded(self, function: Callable[Arguments, Result]) -> Callable[Arguments, Result]:
        """Guards each call of a function: a decorator. What it returns may be a response of `requests` or `httpx`.

        A generator and a coroutine do their work after they are called, when the ticket would have ended: they are
        refused here."""
        if any(works_later(function) for works_later in WORK_LATER):
            raise TypeError(f"{function.__qualname__} does its work after it is called: use breaker.call() in it")

        @functools.wraps(function)
        def guarded_function(*words: Arguments.args, **names: Arguments.kwargs) -> Result:
            with self.call() as call:
                result = function(*words, **names)
                if hasattr(result, "status_code") and hasattr(result, "request"):
                    call.response(result)
                return result

        return guarded_function

    def tell_trouble(self, trouble: str) -> None:
        """Logs what is wrong with the sidecar, and once where it goes on, since each call would say it again."""
        if trouble and trouble != self._told_trouble:
            logger.warning("%s: calls are made without tickets: %s", self.sidecar.service, trouble)
        self._told_trouble = trouble

    def close(self) -> None:
        """Ends tickets that could not be ended before, and closes this thread's connection."""
        self.sidecar.close()


def breaker(address: str, service: str, choice: Choice | str, *, seconds: float = SECONDS_OF_SIDECAR) -> Breaker:
    """Returns a breaker for a service of the sidecar at an address, which is waited for so many seconds."""
    return Breaker(Sidecar(address, service, seconds=seconds), choice)


class Call:
    """One guarded call. As a context manager it acquires, and ends its ticket however the block ends.

    By `async with` it does the same in `asyncio`, where threads ask the sidecar, so that the event loop goes on.

    | the block | the ticket is |
    |---|---|
    | told an outcome, by `outcome`, `raw_outcome` or `response`, whatever is raised behind it | reported with that |
    | said `release` | released |
    | ends, and told nothing | reported as a response with its duration alone |
    | raises an Exception | reported by its kind |
    | raises one of `release_on`, BadOutcome, or what is no Exception, as KeyboardInterrupt | released |
    """

    def __init__(self, guard: Breaker, attempt: int | None, method: str | None, release_on: Errors) -> None:
        self._breaker = guard
        self._attempt = attempt
        self._known = outcome(attempt=attempt, method=method)
        self._release_on = release_on
        self._before: BaseException | None = None
        self._begun = 0.0
        self._took: int | None = None
        self._outcome: Mapping[str, Any] | None = None
        self._is_released = False
        # In asyncio, of the thread that enters and the task that waits for it: who comes last ends a ticket in vain.
        self._lock = threading.Lock()
        self._is_entered = self._is_left = False
        self.ticket: Ticket | None = None
        self.trouble: SidecarError | None = None
        self.problem: SidecarError | None = None
        self.answer: Report | None = None

    def __enter__(self) -> Self:
        return self._begin(sys.exc_info()[1])

    def __exit__(
        self, _kind: type[BaseException] | None, error: BaseException | None, _trace: TracebackType | None
    ) -> None:
        self._end(error)

    async def __aenter__(self) -> Self:
        try:
            loop = asyncio.get_running_loop()
        except RuntimeError:
            raise RuntimeError("a call is guarded by `async with` in asyncio alone") from None
        try:
            await loop.run_in_executor(None, self._enter_in_thread, sys.exc_info()[1])
        except (asyncio.CancelledError, GeneratorExit):
            if self._leave():
                threading.Thread(target=self._end, args=[None]).start()
            raise
        return self

    async def __aexit__(
        self, _kind: type[BaseException] | None, error: BaseException | None, _trace: TracebackType | None
    ) -> None:
        if self.ticket is None:
            return
        if self._took is None:
            self._took = self._duration()
        # The ticket is ended too where the task is cancelled meanwhile.
        await asyncio.shield(asyncio.get_running_loop().run_in_executor(None, self._end, error))

    def _enter_in_thread(self, before: BaseException | None) -> None:
        """Enters the block, or leaves it at once where the task doesn't wait any more."""
        self._begin(before)
        with self._lock:
            self._is_entered = True
            is_left = self._is_left
        if is_left:
            self._end(None)

    def _leave(self) -> bool:
        """Gives up the block that is being entered. Returns whether the thread is through with that."""
        self.release()
        with self._lock:
            self._is_left = True
            return self._is_entered

    def _begin(self, before: BaseException | None) -> Self:
        """Asks for a ticket. An error that is handled already is none of this call."""
        if self._begun:
            raise RuntimeError("a Call guards one call: ask the breaker for another one")
        self._before = before
        self._begun = time.monotonic()
        try:
            self.ticket = self._breaker.sidecar.acquire()
            self._breaker.tell_trouble("")
            self._begun = time.monotonic()
            return self
        except Trouble as trouble:
            if self._breaker.choice is Choice.FAIL_CLOSED:
                raise
            self.trouble = trouble
            self._breaker.tell_trouble(str(trouble))
            return self
        except BaseException:
            if self.ticket is not None:
                self._release(self.ticket)
            raise

    def _end(self, error: BaseException | None) -> None:
        """Ends the ticket by how the block ended."""
        if self.ticket is None:
            return
        if self._is_released or self._outcome is None and self._says_nothing(error):
            self._release(self.ticket)
            return
        try:
            self._report(self.ticket, self._whole_outcome(error))
        except Exception:
            # What was told is no outcome, or the error can't be looked at. The ticket ends all the same.
            self._release(self.ticket)
            raise

    def outcome(self, **values: Any) -> None:
        """Tells the outcome, by the words of `delvoumi.outcome`. Raises BadOutcome where a value can't be reported."""
        self._tell(outcome(**values))

    def raw_outcome(self, values: Mapping[str, Any]) -> None:
        """Tells the outcome as the sidecar takes it. What it has isn't checked here: the sidecar does that."""
        if not isinstance(values, Mapping):
            raise BadOutcome(f"{values!r} is no mapping")
        self._tell(values)

    def response(self, response: Answer) -> Answer:
        """Tells the outcome by a response of `requests` or `httpx`, and returns that."""
        self._tell(outcome_of_response(response, attempt=self._attempt))
        return response

    def release(self) -> None:
        """Tells that there is no outcome, as where the call was not made after all."""
        self._is_released = True

    @property
    def result(self) -> str:
        """What became of the call, in words for people: its verdict, or why there is none."""
        if self.trouble is not None:
            return f"unguarded: {self.trouble}"
        if self.problem is not None:
            return f"not reported: {self.problem}"
        if self._is_released:
            return "released"
        return (self.answer and self.answer.verdict) or "reported"

    def _tell(self, values: Mapping[str, Any]) -> None:
        """Keeps an outcome, and how long the call took until now."""
        self._took = self._duration()
        self._outcome = values

    def _says_nothing(self, error: BaseException | None) -> bool:
        """Returns whether an error tells nothing about the service that is called."""
        if error is None:
            return False
        return isinstance(error, BadOutcome) or isinstance(error, self._release_on) or not isinstance(error, Exception)

    def _whole_outcome(self, error: BaseException | None) -> Mapping[str, Any]:
        """Returns the outcome, with the duration and what was told of the call, where these are missing in it."""
        told = self._outcome
        if told is None:
            told = Outcome(kind="response" if error is None else kind_of(error, self._before))
        return {"duration_ms": self._duration() if self._took is None else self._took, **self._known, **told}

    def _duration(self) -> int:
        return int((time.monotonic() - self._begun) * 1000)

    def _report(self, ticket: Ticket, told: Mapping[str, Any]) -> None:
        """Reports an outcome. Where it is refused, the ticket is released all the same."""
        try:
            self.answer = self._breaker.sidecar.report(ticket, told)
        except (TicketNotOpen, TicketLost) as problem:
            self._note(ticket, problem)
        except Refused as problem:
            self._note(ticket, problem)
            self._release(ticket)
        except SidecarError as problem:
            self._note(ticket, problem)

    def _release(self, ticket: Ticket) -> None:
        """Ends the ticket without an outcome, now or by a later settlement."""
        self._is_released = True
        try:
            self._breaker.sidecar.release(ticket)
        except (TicketNotOpen, TicketLost) as problem:
            self._note(ticket, problem)
        except Refused as problem:
            self._note(ticket, problem)
            self._breaker.sidecar.end_later(ticket)
        except SidecarError as problem:
            self._note(ticket, problem)

    def _note(self, ticket: Ticket, problem: SidecarError) -> None:
        """Keeps what went wrong with the end of a ticket. The call itself was made, so this is no error of it."""
        self.problem = self.problem or problem
        logger.warning("%s: ticket %d: %s", self._breaker.sidecar.service, ticket.number, problem)
