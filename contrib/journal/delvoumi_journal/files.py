"""The files of a journal: one that grows, and those that were rotated, which are compressed.

`pay.jsonl` grows. A rotation renames it to `pay.MOMENT.jsonl`, where MOMENT is that of its last entry with its number,
and then compresses that to `pay.MOMENT.jsonl.gz`. In the order of their names the files are in the order of time.
"""

import contextlib
import gzip
import json
import os
import shutil
from collections.abc import Iterator, Sequence
from datetime import datetime, timezone
from typing import Any

Entry = dict[str, Any]

# No entry is as long as this many bytes.
LONGEST_ENTRY = 4096
ENDINGS = (".jsonl", ".jsonl.gz")


class BadFile(Exception):
    """A file has what no keeper wrote."""


def time_of(moment: int) -> datetime:
    """Returns the time of a moment, which is in milliseconds since 1970."""
    return datetime.fromtimestamp(moment / 1000, timezone.utc)


def sync_folder(folder: str) -> None:
    """Makes the names in a folder durable."""
    descriptor = os.open(folder, os.O_RDONLY)
    try:
        os.fsync(descriptor)
    finally:
        os.close(descriptor)


def files_of(folder: str, service: str) -> list[str]:
    """Returns the files of a service, the oldest first."""
    names = [name for name in os.listdir(folder) if name.startswith(f"{service}.") and name.endswith(ENDINGS)]
    # One that grows comes last. A rotated one that is being compressed may be there twice.
    names.sort(key=lambda name: (name == f"{service}.jsonl", name))
    return [f"{folder}/{name}" for name in names if not name.endswith(".jsonl") or f"{name}.gz" not in names]


def entries_in(name: str) -> Iterator[Entry]:
    """Yields the entries of a file, compressed or not. A last line that has no end isn't one."""
    opened = gzip.open(name, "rb") if name.endswith(".gz") else open(name, "rb")
    with opened as file:
        for number, line in enumerate(file, 1):
            if not line.endswith(b"\n"):
                return
            yield entry_of(line, f"{name}: line {number}")


def entry_of(line: bytes, where: str) -> Entry:
    """Returns the entry of a line."""
    try:
        entry = json.loads(line)
    except ValueError:
        entry = None
    if not isinstance(entry, dict) or not isinstance(entry.get("number"), int):
        raise BadFile(f"{where} is no entry")
    return entry


class Journal:
    """The files of one service, to which entries are appended durably."""

    def __init__(self, folder: str, service: str, most_bytes: int) -> None:
        self._folder, self._service, self._most_bytes = folder, service, most_bytes
        self.name = f"{folder}/{service}.jsonl"
        self.repaired = self._repair()
        self._finish_rotations()
        self.last = self._last()

    def append(self, entries: Sequence[Entry]) -> None:
        """Appends entries durably, or leaves the file as it was. A day and a size are one file's at most."""
        self._repair()
        while entries:
            if self._is_over(entries[0]):
                self.rotate()
            today = day_of(entries[0])
            some = [entry for entry in entries if day_of(entry) == today] if day_of(entries[-1]) != today else entries
            self._append(some)
            entries = entries[len(some) :]

    def rotate(self) -> None:
        """Ends the file that grows, and compresses it."""
        last = self.last
        if last is None or not self._size():
            return
        moment = time_of(last["moment"]).strftime("%Y%m%dT%H%M%S.%fZ")
        os.rename(self.name, f"{self._folder}/{self._service}.{moment}.{last['number']:020}.jsonl")
        sync_folder(self._folder)
        self._finish_rotations()

    def _append(self, entries: Sequence[Entry]) -> None:
        text = memoryview("".join(json.dumps(entry) + "\n" for entry in entries).encode())
        file = os.open(self.name, os.O_WRONLY | os.O_CREAT | os.O_APPEND, 0o644)
        try:
            size = os.fstat(file).st_size
            try:
                while text:
                    text = text[os.write(file, text) :]
                os.fsync(file)
            except OSError:
                os.ftruncate(file, size)
                raise
        finally:
            os.close(file)
        if size == 0:
            sync_folder(self._folder)
        self.last = entries[-1]

    def _size(self) -> int:
        try:
            return os.stat(self.name).st_size
        except FileNotFoundError:
            return 0

    def _is_over(self, entry: Entry) -> bool:
        """Returns whether an entry belongs into the next file."""
        is_new_day = self.last is not None and day_of(self.last) != day_of(entry)
        return self._size() > 0 and (is_new_day or self._size() >= self._most_bytes)

    def _repair(self) -> int:
        """Takes off a last line that was written in part, and returns how many bytes it had."""
        with contextlib.suppress(FileNotFoundError), open(self.name, "r+b") as file:
            size = file.seek(0, os.SEEK_END)
            file.seek(max(0, size - 2 * LONGEST_ENTRY))
            *lines, rest = file.read().split(b"\n")
            if lines:
                entry_of(lines[-1], f"{self.name}: the last whole line")
            elif size > LONGEST_ENTRY or rest[:1] not in (b"", b"{"):
                raise BadFile(f"{self.name} is no file of entries")
            if rest:
                file.truncate(size - len(rest))
                os.fsync(file.fileno())
            return len(rest)
        return 0

    def _last(self) -> Entry | None:
        """Returns the last entry of all files."""
        for name in reversed(files_of(self._folder, self._service)):
            last = None
            for last in entries_in(name):
                pass
            if last is not None:
                return last
        return None

    def _finish_rotations(self) -> None:
        """Compresses what was renamed. Where this is cut short, the next one begins it again."""
        for name in os.listdir(self._folder):
            if not name.startswith(f"{self._service}.") or name == f"{self._service}.jsonl":
                continue
            if name.endswith(".gz.part"):
                os.unlink(f"{self._folder}/{name}")
        for name in os.listdir(self._folder):
            if name.startswith(f"{self._service}.") and name.endswith(".jsonl") and name != f"{self._service}.jsonl":
                self._compress(f"{self._folder}/{name}")

    def _compress(self, name: str) -> None:
        """Puts a compressed file in the place of a file."""
        made = f"{name}.gz"
        if not os.path.exists(made):
            with open(name, "rb") as given, open(f"{made}.part", "wb") as file:
                with gzip.GzipFile(fileobj=file, mode="wb", filename="", mtime=0) as packed:
                    shutil.copyfileobj(given, packed)
                file.flush()
                os.fsync(file.fileno())
            os.rename(f"{made}.part", made)
            sync_folder(self._folder)
        os.unlink(name)


def day_of(entry: Entry) -> int:
    """Returns the day of an entry, counted since 1970."""
    return int(entry["moment"]) // 86_400_000
