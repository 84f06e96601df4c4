"""Asks all services at an interval, over one connection, and hands their entries on to those who listen."""

import json
import threading
from collections import deque
from collections.abc import Iterator

from delvoumi import NoService, Sidecar, SidecarError
from delvoumi.connection import Connection
from delvoumi_journal.files import BadFile, Entry

from .service import MISSING, Thresholds, Watched
from .sources import Files, Pages, Source

SECONDS_TO_ANSWER = 5.0
# So many of the last entries are kept for those who begin to listen.
MOST_EVENTS = 10_000
SECONDS_BETWEEN_SIGNS = 15.0


class OneConnection(Sidecar):
    """A service that is asked over a connection which it shares with others, in one thread."""

    def __init__(self, address: str, service: str, connection: Connection) -> None:
        self._shared = connection
        super().__init__(address, service)

    def _connection(self) -> Connection:
        return self._shared


class Events:
    """The last entries, in the order in which they were seen, each as a number and a line of JSON."""

    def __init__(self) -> None:
        self._lines: deque[tuple[int, str]] = deque(maxlen=MOST_EVENTS)
        self._count = 0
        self._changed = threading.Condition()

    def add(self, service: str, entries: list[Entry]) -> None:
        """Adds entries of a service."""
        if not entries:
            return
        with self._changed:
            for entry in entries:
                self._count += 1
                self._lines.append((self._count, json.dumps({"service": service, **entry})))
            self._changed.notify_all()

    def since(self, number: int) -> list[tuple[int, str]]:
        """Returns the entries behind a number."""
        with self._changed:
            return [line for line in self._lines if line[0] > number]

    def follow(self, number: int) -> Iterator[list[tuple[int, str]]]:
        """Yields the entries behind a number, and then what comes; at times nothing, as a sign of life."""
        while True:
            lines = self.since(number)
            yield lines
            if lines:
                number = lines[-1][0]
            with self._changed:
                if self._count <= number:
                    self._changed.wait(SECONDS_BETWEEN_SIGNS)


class Watcher:
    """Watches services. Who reads what they hold takes the lock."""

    def __init__(
        self,
        address: str,
        services: dict[str, Thresholds | None],
        *,
        folder: str | None = None,
        rolls: bool = False,
    ) -> None:
        self.services = [Watched(name, thresholds) for name, thresholds in services.items()]
        self.events = Events()
        self.lock = threading.Lock()
        self.turns = 0
        self._over = threading.Event()
        self._connection = Connection(address, SECONDS_TO_ANSWER)
        self._sidecars = {name: OneConnection(address, name, self._connection) for name in services}
        self._sources: dict[str, Source] = {}
        for name, sidecar in self._sidecars.items():
            self._sources[name] = source_of(sidecar, folder, rolls)

    def turn(self) -> None:
        """Asks each service once."""
        for service in self.services:
            try:
                self._ask(service)
            except NoService:
                with self.lock:
                    service.note_trouble("the sidecar has no service of this name", MISSING)
            except (SidecarError, BadFile, OSError) as trouble:
                with self.lock:
                    service.note_trouble(str(trouble))
        self.turns += 1

    def run(self, seconds: float) -> None:
        """Takes turns until `stop`."""
        while not self._over.is_set():
            self.turn()
            self._over.wait(seconds)
        self._connection.close()

    def stop(self) -> None:
        """Ends `run` behind its turn."""
        self._over.set()

    def close(self) -> None:
        """Closes what is open, where no turn is taken any more."""
        self._connection.close()
        for source in self._sources.values():
            if isinstance(source, Files):
                source.close()

    def _ask(self, service: Watched) -> None:
        """Takes the new entries of a service, and then its state. Entries of a file come without the sidecar too."""
        source = self._sources[service.name]
        entries = source.take()
        with self.lock:
            for entry in entries:
                service.note_entry(entry)
            service.note_source(source.missed, source.runs)
            if source.is_whole:
                service.note_all_seen()
        self.events.add(service.name, entries)
        sidecar = self._sidecars[service.name]
        state, first = sidecar.state(), sidecar.page(1)[:1]
        held = max(0, state["entries"] - first[0]["number"] + 1) if first else 0
        with self.lock:
            service.note_reading(state, held)


def source_of(sidecar: Sidecar, folder: str | None, rolls: bool) -> Source:
    """Returns where the entries of a service come from: a keeper's folder, where there is one."""
    if folder is None:
        return Pages(sidecar, rolls)
    return Files(folder, sidecar.service)
