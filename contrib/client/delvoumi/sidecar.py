"""A service of a sidecar: tickets, and all that may be asked of it.

Each thread has one connection."""

import json
import logging
import os
import re
import threading
import time
import weakref
from collections import deque
from collections.abc import Mapping
from dataclasses import dataclass
from typing import Any

from .connection import Connection
from .errors import BadOutcome, NoAnswer, TicketLost, TicketNotOpen, WithNumber, refusal

logger = logging.getLogger("delvoumi")

SECONDS_OF_SIDECAR = 1.0
# How long a connection waits whose acquire wasn't answered in time. Its ticket is released once it comes.
SECONDS_OF_LATE_ANSWER = 75.0
SECONDS_BETWEEN_SETTLEMENTS = 1.0
MOST_LATE_ANSWERS = 16
MOST_UNENDED = 10_000
SERVICE_NAME = re.compile(r"[a-z0-9_-]{1,64}")
TICKET_SPENT = 34


@dataclass(frozen=True)
class Ticket:
    """A ticket that was issued, and the run of the sidecar that issued it, counted by the restarts that were seen."""

    number: int
    version: int
    state: str
    run: int


@dataclass(frozen=True)
class Report:
    """What became of an outcome. Where it had to be sent twice, nothing but its arrival may be known."""

    fate: str | None = None
    verdict: str | None = None
    state: str | None = None
    steps: int | None = None
    version: int | None = None


@dataclass(frozen=True)
class Ending:
    """A message that ends a ticket."""

    ticket: Ticket
    route: str
    body: bytes


class Sidecar:
    """One service of a sidecar. All threads of a program may share it; each has a connection of its own."""

    def __init__(self, address: str, service: str, *, seconds: float = SECONDS_OF_SIDECAR) -> None:
        if not SERVICE_NAME.fullmatch(service):
            raise ValueError(f"{service!r} is no name of a service")
        self.address, self.service, self.seconds = address, service, seconds
        self._path = f"/v1/services/{service}/"
        self._begin()
        os.register_at_fork(after_in_child=_Forked(self))

    def _begin(self) -> None:
        """Sets what a process has for itself."""
        self._local = threading.local()
        self._lock = threading.Lock()
        self._run = 0
        self._greatest = 0
        self._unended: deque[Ending] = deque()
        self._late: deque[tuple[float, Connection]] = deque()
        self._settle_from = 0.0

    # Tickets

    def acquire(self) -> Ticket:
        """Returns a ticket, or raises CallRefused or Trouble.

        It is asked again only where nothing was sent. Where no answer came, a ticket may have been issued: then the
        connection is kept aside, and the ticket is released once it comes. While too many wait so, nothing is asked."""
        self.settle()
        if len(self._late) >= MOST_LATE_ANSWERS:
            raise NoAnswer(f"no answer: {len(self._late)} earlier questions still wait for theirs")
        with self._lock:
            run, greatest_before = self._run, self._greatest
        connection = self._connection()
        try:
            connection.send("POST", self._path + "acquire", None)
            status, answer = connection.receive()
            if status == 200 and "ticket" in answer:
                return self._ticket_of(answer, run, greatest_before)
        except BaseException as error:
            if connection.is_open:
                self._keep_late(connection)
            if not isinstance(error, Exception):
                # The program may be about to end.
                self._settle_late(self.seconds)
                self._settle_unended()
            raise
        if status == 200:
            connection.close()
            raise NoAnswer("no answer: a success without a ticket")
        raise refusal(status, answer)

    def report(self, ticket: Ticket, outcome: Mapping[str, Any]) -> Report:
        """Reports the outcome of a ticket's call, and so ends the ticket.

        A report that isn't answered is sent again. Where a refusal other than TicketNotOpen is raised, the ticket is
        still open: mend the outcome, or release it. Where NoAnswer is raised it is sent again by a later settlement."""
        try:
            body = json.dumps({"ticket": ticket.number, "outcome": dict(outcome)}, allow_nan=False).encode()
        except (TypeError, ValueError) as error:
            raise BadOutcome(f"the outcome can't be written as JSON: {error}") from error
        answer = self._end(Ending(ticket, "report", body))
        return Report(**{key: answer.get(key) for key in ("fate", "verdict", "state", "steps", "version")})

    def release(self, ticket: Ticket) -> None:
        """Ends a ticket without an outcome, in the same way."""
        self._end(_release_of(ticket))

    def end_later(self, ticket: Ticket) -> None:
        """Lets a later settlement release a ticket."""
        self._keep_unended(_release_of(ticket))

    def settle(self, *, now: bool = False) -> int:
        """Ends tickets whose end wasn't answered, and those that came too late. Each acquire begins with this.

        After a failure nothing is tried for a second, unless `now` is said, as where the program is about to end.
        Returns how many tickets may still be open."""
        if not self._unended and not self._late:
            return 0
        self._settle_late(0)
        if now or time.monotonic() >= self._settle_from:
            self._settle_unended()
        return len(self._unended) + len(self._late)

    # All else that a sidecar answers

    def state(self) -> dict[str, Any]:
        """Returns where the service stands."""
        return self.ask("GET", "state")

    def page(self, number: int) -> list[dict[str, Any]]:
        """Returns at most 100 entries of the journal, the first that are held from a number on."""
        entries: list[dict[str, Any]] = self.ask("GET", f"journal/{number}")["entries"]
        return entries

    def install(self, program: bytes, layout: int = 1) -> dict[str, Any]:
        """Installs a classifier. It isn't asked again where the answer is missing: look at `state` then."""
        return self.ask("PUT", f"program?layout={layout}", program)

    def transition(self, state: str) -> dict[str, Any]:
        """Moves the breaker to a state."""
        return self.ask("POST", "transition", {"state": state})

    def ask(self, method: str, route: str, body: bytes | Mapping[str, Any] | None = None) -> dict[str, Any]:
        """Returns the JSON of an answer, and raises its refusal. A message that was sent isn't sent again."""
        status, answer = self._connection().ask(method, self._path + route, _bytes_of(body))
        if status != 200:
            raise refusal(status, answer)
        return answer

    def close(self) -> None:
        """Ends what can be ended, and closes this thread's connection. Those of other threads end with them."""
        left = self.settle(now=True)
        if left:
            logger.warning("%s: %d tickets may be open still", self.service, left)
        self._connection().close()
        while self._late:
            self._late.popleft()[1].close()

    # How it is done

    def _connection(self) -> Connection:
        """Returns the connection of this thread."""
        connection: Connection | None = getattr(self._local, "connection", None)
        if connection is None:
            connection = self._local.connection = Connection(self.address, self.seconds)
        return connection

    def _ticket_of(self, answer: Mapping[str, Any], run: int, greatest_before: int) -> Ticket:
        """Notes a ticket. A number that isn't above one that was answered before it was asked for tells of a restart.

        Where another thread saw the restart meanwhile, the ticket may be of either run. It is taken for one of the
        new run, so that it is ended, and its number tells nothing."""
        number = int(answer["ticket"])
        with self._lock:
            if run == self._run:
                if number <= greatest_before:
                    logger.warning("%s: the sidecar was started anew", self.service)
                    self._run += 1
                    self._greatest = 0
                self._greatest = max(self._greatest, number)
            return Ticket(number, int(answer["version"]), str(answer["state"]), self._run)

    def _end(self, ending: Ending) -> dict[str, Any]:
        """Ends a ticket, and returns the answer, which is empty where only a second message was answered."""
        if ending.ticket.run != self._run:
            raise TicketLost(f"ticket {ending.ticket.number} went with an earlier run of the sidecar")
        try:
            return self._end_twice(ending)
        except WithNumber:
            raise
        except BaseException as error:
            self._keep_unended(ending)
            if not isinstance(error, Exception):
                # The program may be about to end.
                self._settle_unended()
            raise

    def _end_twice(self, ending: Ending) -> dict[str, Any]:
        """Sends a message that ends a ticket, and once more over a new connection where it isn't answered.

        A ticket ends once: where the second message is refused as spent, the first one had arrived."""
        message = "POST", self._path + ending.route, ending.body
        connection = self._connection()
        is_second = False
        try:
            status, answer = connection.ask(*message)
        except NoAnswer:
            is_second = True
            status, answer = connection.ask(*message)
        if status == 200:
            return answer
        if is_second and answer["error"] == TICKET_SPENT:
            return {}
        raise refusal(status, answer)

    def _keep_unended(self, ending: Ending) -> None:
        """Keeps a message that ends a ticket for a later settlement."""
        if len(self._unended) >= MOST_UNENDED:
            lost = self._unended.popleft()
            logger.error("%s: ticket %d may stay open", self.service, lost.ticket.number)
        self._unended.append(ending)
        self._settle_from = time.monotonic() + SECONDS_BETWEEN_SETTLEMENTS

    def _keep_late(self, connection: Connection) -> None:
        """Keeps a connection aside whose acquire wasn't answered, and gives this thread a new one."""
        self._local.connection = None
        self._late.append((time.monotonic() + SECONDS_OF_LATE_ANSWER, connection))

    def _settle_unended(self) -> None:
        """Sends again what isn't answered yet, until that fails."""
        for _ in range(len(self._unended)):
            try:
                ending = self._unended.popleft()
            except IndexError:
                return  # Another thread was faster.
            try:
                self._end(ending)
            except (TicketNotOpen, TicketLost):
                continue
            except WithNumber:
                if ending.route != "release":
                    self._keep_unended(_release_of(ending.ticket))
            except NoAnswer:
                return

    def _settle_late(self, seconds: float) -> None:
        """Releases tickets of late answers, for each of which it waits so long."""
        for _ in range(len(self._late)):
            try:
                until, connection = self._late.popleft()
            except IndexError:
                return
            if connection.has_answer(seconds):
                self._release_late(connection)
            elif time.monotonic() < until:
                self._late.append((until, connection))
            else:
                connection.close()

    def _release_late(self, connection: Connection) -> None:
        """Takes an answer that came late, and releases its ticket. One that isn't there to its end is waited for."""
        try:
            status, answer = connection.receive()
        except NoAnswer:
            if connection.is_open:
                self._late.append((time.monotonic() + SECONDS_OF_LATE_ANSWER, connection))
            return
        except BaseException:
            self._late.append((time.monotonic() + SECONDS_OF_LATE_ANSWER, connection))
            raise
        if status == 200 and "ticket" in answer:
            self._keep_unended(_release_of(Ticket(int(answer["ticket"]), 0, "", self._run)))
            self._settle_from = 0.0
        connection.close()


class _Forked:
    """Lets a process that was forked begin anew: connections and tickets are its parent's. It keeps nothing alive."""

    def __init__(self, sidecar: Sidecar) -> None:
        self._sidecar = weakref.ref(sidecar)

    def __call__(self) -> None:
        sidecar = self._sidecar()
        if sidecar is not None:
            sidecar._begin()


def _release_of(ticket: Ticket) -> Ending:
    return Ending(ticket, "release", json.dumps({"ticket": ticket.number}).encode())


def _bytes_of(body: bytes | Mapping[str, Any] | None) -> bytes | None:
    return body if body is None or isinstance(body, bytes) else json.dumps(body).encode()
