"""The tickets that are open, by the entries of a journal, and which moment it is for a sidecar."""

import time
from collections.abc import Iterable

from .files import Entry, entries_in, files_of


class SidecarClock:
    """Tells which moment it is for a sidecar, by the moments of the entries that it makes: never a later one.

    A sidecar's moments count on from the time of day at its start, and don't follow when that is set. So they go by a clock
    that only goes forward, here as there. Before the first entry that is noted the time of day stands for them."""

    def __init__(self) -> None:
        # How far the sidecar's moments are ahead of this clock, at least, in milliseconds.
        self._ahead: float | None = None

    def note(self, moment: int) -> None:
        """Notes the moment of an entry that has been read just now."""
        ahead = moment - time.monotonic() * 1000
        self._ahead = ahead if self._ahead is None else max(self._ahead, ahead)

    def now(self) -> float:
        """Returns the moment that it is, in milliseconds."""
        return time.time() * 1000 if self._ahead is None else time.monotonic() * 1000 + self._ahead


class OpenTickets:
    """The open tickets of one run of a sidecar, with the moments at which they were issued."""

    def __init__(self) -> None:
        self._issued: dict[int, int] = {}
        self._last_number = 0

    def __len__(self) -> int:
        return len(self._issued)

    def note(self, entries: Iterable[Entry]) -> None:
        """Notes what entries did to tickets. Where their numbers begin again, so do the tickets."""
        for entry in entries:
            if entry["number"] <= self._last_number:
                self._issued.clear()
            self._last_number = entry["number"]
            reply = entry["reply"]
            if entry["event"] == "acquire" and "ticket" in reply:
                self._issued[reply["ticket"]] = entry["moment"]
            elif "fate" in reply:
                self._issued.pop(entry["ticket"], None)

    def forget(self, ticket: int) -> None:
        """Takes a ticket for ended."""
        self._issued.pop(ticket, None)

    def older_than(self, moment: int) -> list[tuple[int, int]]:
        """Returns the tickets that were issued before a moment, and when each was."""
        return [(ticket, issued) for ticket, issued in self._issued.items() if issued < moment]


def open_tickets(folder: str, service: str) -> OpenTickets:
    """Returns the tickets that are open by all files of a service."""
    tickets = OpenTickets()
    for name in files_of(folder, service):
        tickets.note(entries_in(name))
    return tickets
