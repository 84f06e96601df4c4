"""Keeps journals: asks for pages, writes them durably, and rolls up to the last entry that is written.

A disk may take long to write durably. So the next entries are read while it writes."""

import contextlib
import fcntl
import json
import os
import time
from collections.abc import Callable, Iterator
from concurrent.futures import Executor, Future, ThreadPoolExecutor
from typing import Any

from delvoumi.connection import Connection
from delvoumi.errors import NoAnswer, NoService, TicketNotOpen, WithNumber, refusal

from .files import BadFile, Entry, Journal, time_of
from .tickets import OpenTickets, SidecarClock, open_tickets

SECONDS_TO_ANSWER = 5.0
ENTRIES_OF_A_PAGE = 100
# As many entries as the sidecar holds of a service. An open ticket takes the room of the one that ends it.
MOST_ENTRIES = 65_536
# So many entries are written at a time: a disk may take longer to write durably than the sidecar to answer.
ENTRIES_OF_A_BATCH = 10_000
# Nor are entries read for longer before they are written.
SECONDS_OF_A_BATCH = 0.5

Say = Callable[[str], None]


class FolderTaken(Exception):
    """Another keeper has the folder."""


class Service:
    """A service over a connection that isn't made again: the sidecar behind a new one may be another run of it."""

    def __init__(self, connection: Connection, name: str) -> None:
        self._connection, self._name = connection, name

    def ask(self, method: str, route: str, body: Any = None) -> Any:
        """Returns the JSON of an answer."""
        text = None if body is None else json.dumps(body).encode()
        status, answer = self._connection.ask(method, f"/v1/services/{self._name}/{route}", text)
        if status != 200:
            raise refusal(status, answer)
        return answer

    def page(self, number: int) -> list[Entry]:
        """Returns at most 100 entries, the first that are held from a number on."""
        entries: list[Entry] = self.ask("GET", f"journal/{number}")["entries"]
        return entries

    def batch(self, number: int) -> tuple[list[Entry], bool]:
        """Returns the entries that are held from a number on, up to a batch, and whether there may be more."""
        entries: list[Entry] = []
        end = time.monotonic() + SECONDS_OF_A_BATCH
        while len(entries) < ENTRIES_OF_A_BATCH and time.monotonic() < end:
            page = self.page(number)
            entries += page
            if len(page) < ENTRIES_OF_A_PAGE:
                return entries, False
            number = page[-1]["number"] + 1
        return entries, True

    def is_anew(self, last: Entry, made: int) -> bool:
        """Returns whether the sidecar, which has made so many entries, was started anew since an entry was kept."""
        entries = self.page(last["number"])
        if not entries:
            return made < int(last["number"])
        return bool(entries[0]["number"] == last["number"] and entries[0] != last)

    def room(self) -> int:
        """Returns for how many more entries the sidecar has room."""
        state, entries = self.ask("GET", "state"), self.page(1)
        held = int(state["entries"] - entries[0]["number"] + 1) if entries else 0
        return max(0, MOST_ENTRIES - held - int(state["open"]))


class ServiceKeeper:
    """Keeps the journal of one service."""

    def __init__(self, folder: str, service: str, most_bytes: int, release_after: float | None, say: Say) -> None:
        self.service, self._say = service, say
        self._journal = Journal(folder, service, most_bytes)
        self._release_after = release_after
        self._tickets = OpenTickets() if release_after is None else open_tickets(folder, service)
        self._clock = SidecarClock()
        # The last entry that was kept of this run of the sidecar, and the number of the next one to read.
        self._last = self._journal.last
        self._next = 1
        # The batch that is being written.
        self._writing: tuple[Future[None], list[Entry]] | None = None
        # How many entries had been made when the last turn began, and when that was; and how many come each second.
        self._made = 0, 0.0
        self.pace: float | None = None
        # Whether the service is among those that are wanted, and whether the sidecar has none of its name.
        self.is_wanted, self.is_missing = True, False
        self.kept = self.rolled = 0
        if self._journal.repaired:
            say(f"{service}: the last line was written in part: its {self._journal.repaired} bytes are taken off")

    def begin_turn(self, service: Service) -> None:
        """Finds the entry with which a turn begins, and how fast entries come. Raises NoService where there is none."""
        self.kept = self.rolled = 0
        made = int(service.ask("GET", "state")["entries"])
        before, now = self._made, time.monotonic()
        self.pace = (made - before[0]) / (now - before[1]) if before[1] and made >= before[0] else None
        self._made = made, now
        if self._last is not None and service.is_anew(self._last, made):
            self._say(f"{self.service}: the sidecar was started anew: its entries are numbered from 1 again")
            self._last = None
            self._tickets = OpenTickets()
            self._clock = SidecarClock()
        self._next = 1 if self._last is None else self._last["number"] + 1

    def keep_batch(self, service: Service, disk: Executor) -> bool:
        """Reads a batch of entries, while the one before it is written, and has the disk write it.

        Returns whether there may be more."""
        entries, has_more = service.batch(self._next)
        if self._writing is not None:
            self.roll(service)
        if entries:
            # What came before the first entry that is ever kept isn't missing.
            expected = entries[0]["number"] if self._journal.last is None else self._next
            for first, count in gaps(expected, entries):
                self._say(f"{self.service}: {count} entries from {first} on were dropped before they were kept")
            self._clock.note(entries[-1]["moment"])
            self._writing = disk.submit(self._journal.append, entries), entries
            self._next = entries[-1]["number"] + 1
        return has_more

    def wait_for_disk(self) -> None:
        """Waits until the batch that is being written is durable, and notes what of it is kept."""
        if self._writing is None:
            return
        written, entries = self._writing
        self._writing = None
        if written.exception() is not None:
            # The entries of one day may be written, and those of the next one not.
            places = [place for place, entry in enumerate(entries, 1) if entry is self._journal.last]
            entries = entries[: places[0] if places else 0]
        if entries:
            self._last = entries[-1]
            self.kept += len(entries)
            if self._release_after is not None:
                self._tickets.note(entries)
        written.result()

    def roll(self, service: Service) -> None:
        """Rolls up to the last entry that was written, in this turn or in an earlier one."""
        self.wait_for_disk()
        number = 0 if self._last is None else self._last["number"]
        self.rolled += service.ask("POST", "roll", {"to": number})["entries"]

    def release_old(self, service: Service) -> None:
        """Releases the tickets that are open for too long, and says which."""
        if self._release_after is None:
            return
        now = max(self._clock.now(), self._journal.last["moment"] if self._journal.last else 0)
        for ticket, issued in self._tickets.older_than(int(now - self._release_after * 1000)):
            try:
                service.ask("POST", "release", {"ticket": ticket})
                self._say(f"{self.service}: released ticket {ticket}, which was issued at {time_of(issued):%FT%TZ}")
            except TicketNotOpen:
                pass  # It has ended meanwhile.
            self._tickets.forget(ticket)


class Keeper:
    """Keeps the journals of several services of a sidecar, over one connection a turn."""

    def __init__(
        self, folder: str, address: str, services: list[str], most_bytes: int, release_after: float | None, say: Say
    ) -> None:
        os.makedirs(folder, exist_ok=True)
        self._lock = os.open(f"{folder}/.lock", os.O_RDWR | os.O_CREAT | os.O_CLOEXEC, 0o644)
        try:
            fcntl.flock(self._lock, fcntl.LOCK_EX | fcntl.LOCK_NB)
        except BlockingIOError:
            os.close(self._lock)
            raise FolderTaken(f"another keeper has {folder}") from None
        self._address, self._say = address, say
        self._new: Callable[[str], ServiceKeeper] = lambda service: ServiceKeeper(
            folder, service, most_bytes, release_after, say
        )
        self._keepers = {service: self._new(service) for service in services}

    def close(self) -> None:
        """Lets another keeper have the folder."""
        os.close(self._lock)

    @property
    def left_out(self) -> list[str]:
        """The services of which the sidecar had none in the last turn."""
        return [keeper.service for keeper in self._keepers.values() if keeper.is_missing]

    def want(self, services: list[str]) -> None:
        """Keeps these services from now on, and others that it kept as long as the sidecar has them."""
        for service in services:
            try:
                self._keepers[service] = self._keepers.get(service) or self._new(service)
            except (BadFile, OSError) as error:
                self._say(f"{service}: it is left out: {error}")
        for keeper in self._keepers.values():
            keeper.is_wanted = keeper.service in services

    def turn(self) -> str:
        """Keeps all that is new, a batch of each service at a time, and returns how much that was."""
        connection = Connection(self._address, SECONDS_TO_ANSWER, reopened=False)
        services: dict[ServiceKeeper, Service] = {}
        with ThreadPoolExecutor(max_workers=1) as disk:
            try:
                connection.open()
                services = self._begin_turn(connection)
                left = list(services)
                while left:
                    left = [keeper for keeper in left if keeper.keep_batch(services[keeper], disk)]
                for keeper, service in services.items():
                    keeper.roll(service)
                    keeper.release_old(service)
            finally:
                connection.close()
                # Where the turn failed, what the disk still writes is kept too.
                for keeper in services:
                    with contextlib.suppress(OSError):
                        keeper.wait_for_disk()
        return "\n".join(f"{keeper.service}: kept {keeper.kept} entries, rolled {keeper.rolled}" for keeper in services)

    def told_room(self) -> tuple[str, bool]:
        """Returns how long the sidecar has room for entries, of the service where it is gone first.

        Where no two turns were begun yet, that isn't known, and False is returned with it."""
        connection = Connection(self._address, SECONDS_TO_ANSWER, reopened=False)
        found = []
        try:
            connection.open()
            for keeper in self._keepers.values():
                if not keeper.is_missing:
                    room = Service(connection, keeper.service).room()
                    found.append((room / keeper.pace if keeper.pace else float("inf"), room, keeper))
        except (NoAnswer, WithNumber) as error:
            return f"how long the sidecar's room for entries lasts isn't known: {error}", False
        finally:
            connection.close()
        if not found:
            return "", False
        seconds, room, keeper = min(found, key=lambda one: one[:2])
        told = f"{keeper.service}: the sidecar has room for {room} more of {MOST_ENTRIES} entries"
        if keeper.pace is None:
            return f"{told}; how fast they come isn't known yet", False
        return f"{told}, which lasts {span_of(seconds)} at {keeper.pace:.1f} entries a second", True

    def _begin_turn(self, connection: Connection) -> dict[ServiceKeeper, Service]:
        """Begins the turn of each service that the sidecar has, and says once which ones it hasn't."""
        services = {}
        for keeper in list(self._keepers.values()):
            service = Service(connection, keeper.service)
            try:
                keeper.begin_turn(service)
                services[keeper] = service
                if keeper.is_missing:
                    self._say(f"{keeper.service}: the sidecar has this service now: it is kept")
                keeper.is_missing = False
            except NoService:
                if not keeper.is_wanted:
                    self._say(f"{keeper.service}: neither the file nor the sidecar has this service any more")
                    del self._keepers[keeper.service]
                elif not keeper.is_missing:
                    self._say(f"{keeper.service}: the sidecar has no service of this name: it is left out")
                keeper.is_missing = True
        return services


def gaps(expected: int, entries: list[Entry]) -> Iterator[tuple[int, int]]:
    """Yields from which number on how many entries are missing before these and between them, of which this number was
    expected first."""
    for entry in entries:
        if entry["number"] > expected:
            yield expected, entry["number"] - expected
        expected = entry["number"] + 1


def span_of(seconds: float) -> str:
    """Returns a span of time for people."""
    if seconds == float("inf"):
        return "for ever"
    for unit, name in ((86_400, "days"), (3_600, "hours"), (60, "minutes")):
        if seconds >= 2 * unit:
            return f"{seconds / unit:.0f} {name}"
    return f"{seconds:.0f} seconds"


# What ends a turn, and is made up for by the next one.
TURN_FAILS = (NoAnswer, WithNumber, OSError)
