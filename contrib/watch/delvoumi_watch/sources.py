"""Where entries come from: the sidecar's own pages, or the files of a keeper that rolls them."""

import os
from collections.abc import Iterator
from typing import BinaryIO, Protocol

from delvoumi import Sidecar
from delvoumi_journal.files import Entry, entries_in, entry_of, files_of, time_of

ENTRIES_OF_A_PAGE = 100
# A turn takes at most so many entries of a service, so that the others are asked in time. The rest is for the next one.
ENTRIES_OF_A_TURN = 5_000


class Source(Protocol):
    """Gives the entries of one service in their order, each once."""

    missed: int
    runs: int
    # Whether all entries were taken that were made before, and are not missed.
    is_whole: bool

    def take(self) -> list[Entry]:
        """Returns the entries that are new."""


class Pages:
    """The entries that the sidecar holds. What another program rolls before it is seen is missed, and counted."""

    def __init__(self, sidecar: Sidecar, rolls: bool) -> None:
        self._sidecar, self._rolls = sidecar, rolls
        self._last: Entry | None = None
        self.missed = 0
        self.runs = 1
        self.is_whole = False

    def take(self) -> list[Entry]:
        self._notice_restart()
        self.is_whole = False
        entries: list[Entry] = []
        while len(entries) < ENTRIES_OF_A_TURN:
            number = 1 if self._last is None else self._last["number"] + 1
            page = self._sidecar.page(number)
            if page:
                is_first_look = self._last is None and self.runs == 1
                self.missed += 0 if is_first_look else page[0]["number"] - number
                self._last = page[-1]
                entries += page
            if len(page) < ENTRIES_OF_A_PAGE:
                self.is_whole = True
                break
        if self._rolls and entries:
            self._sidecar.ask("POST", "roll", {"to": entries[-1]["number"]})
        return entries

    def _notice_restart(self) -> None:
        """Begins anew where the sidecar has made fewer entries than were seen, or others."""
        if self._last is None:
            return
        page = self._sidecar.page(self._last["number"])
        is_other = bool(page) and page[0]["number"] == self._last["number"] and page[0] != self._last
        is_fewer = not page and self._sidecar.state()["entries"] < self._last["number"]
        if is_other or is_fewer:
            self._last = None
            self.runs += 1


class Files:
    """The entries that a keeper writes to its folder, over its rotations. It begins with the file that grows."""

    def __init__(self, folder: str, service: str) -> None:
        self._folder, self._service = folder, service
        self._name = f"{folder}/{service}.jsonl"
        self._file: BinaryIO | None = None
        self._rest = b""
        self._last: Entry | None = None
        self.missed = 0
        self.runs = 1
        # The keeper may be behind the sidecar.
        self.is_whole = False

    def take(self) -> list[Entry]:
        found: list[Entry] = []
        for entry in self._new():
            if self._last is not None:
                if entry["number"] <= self._last["number"]:
                    self.runs += 1
                else:
                    self.missed += entry["number"] - self._last["number"] - 1
            self._last = entry
            found.append(entry)
        return found

    def close(self) -> None:
        """Closes the file."""
        if self._file is not None:
            self._file.close()
            self._file = None

    def _new(self) -> Iterator[Entry]:
        """Yields what was appended. Where the file was rotated, the old one is read to its end first, and those that
        came and went between two looks."""
        if self._file is not None:
            is_rotated = self._is_rotated()
            yield from self._lines()
            if not is_rotated:
                return
            self.close()
            yield from self._passed_by()
        try:
            self._file = open(self._name, "rb")
        except FileNotFoundError:
            return
        self._rest = b""
        yield from self._lines()

    def _is_rotated(self) -> bool:
        assert self._file is not None
        try:
            return os.stat(self._name).st_ino != os.fstat(self._file.fileno()).st_ino
        except FileNotFoundError:
            return True

    def _lines(self) -> Iterator[Entry]:
        assert self._file is not None
        *lines, self._rest = (self._rest + self._file.read()).split(b"\n")
        for line in lines:
            yield entry_of(line, self._name)

    def _passed_by(self) -> Iterator[Entry]:
        """Yields the entries of files that were begun and rotated since the last entry."""
        if self._last is None:
            return
        moment = time_of(self._last["moment"]).strftime("%Y%m%dT%H%M%S.%fZ")
        until = f"{self._folder}/{self._service}.{moment}.{self._last['number']:020}.jsonl~"
        for name in files_of(self._folder, self._service):
            if name != self._name and name > until:
                yield from entries_in(name)
