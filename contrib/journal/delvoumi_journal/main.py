"""The commands: keep, verify and show."""

import argparse
import signal
import sys
import threading
import time
from typing import Any

from .deleting import Limits, delete_old
from .files import BadFile
from .keeper import TURN_FAILS, FolderTaken, Keeper
from .reading import EVENTS, STATES, Filter, check, shown, time_told
from .services import ServicesFile, checked

MOST_MEGABYTES = 100


def say(text: str) -> None:
    """Prints a line. Where even that can't be written, as on a full disk, there is nobody to tell."""
    try:
        print(text, flush=True)
    except OSError:
        pass


def above_zero(text: str) -> float:
    """Reads a number that is greater than 0."""
    number = float(text)
    if not 0 < number < float("inf"):
        raise ValueError(text)
    return number


def warn(text: str) -> None:
    """Prints a line on standard error, or nothing where that can't be written."""
    try:
        print(f"journal: {text}", file=sys.stderr, flush=True)
    except OSError:
        pass


def keep(words: argparse.Namespace) -> int:
    """Takes turns until a signal comes, or one turn."""
    is_over = threading.Event()
    file = ServicesFile(words.services_of) if words.services_of is not None else None
    services = file.names if file else checked(words.service)
    if not services:
        print("journal: name a service, or --services-of FILE", file=sys.stderr)
        return 2
    most_bytes = int(words.megabytes * 1_000_000)
    keeper = Keeper(words.folder, words.url, services, most_bytes, words.release_after, say)
    for number in (signal.SIGTERM, signal.SIGINT):
        signal.signal(number, lambda *_: is_over.set())
    try:
        return take_turns(keeper, file, words, is_over)
    finally:
        keeper.close()


def take_turns(keeper: Keeper, file: ServicesFile | None, words: argparse.Namespace, is_over: threading.Event) -> int:
    """Takes one turn, or one after so many seconds each. A turn that was begun is ended."""
    turns = Turns(keeper, file, words)
    while True:
        turns.take()
        if words.every is None or is_over.wait(words.every):
            return int(words.every is None and bool(turns.failure or keeper.left_out))


class Turns:
    """Takes turns, and says what goes wrong, each thing once until it changes."""

    def __init__(self, keeper: Keeper, file: ServicesFile | None, words: argparse.Namespace) -> None:
        self._keeper, self._file, self._folder = keeper, file, words.folder
        most_bytes = None if words.keep_megabytes is None else int(words.keep_megabytes * 1_000_000)
        self._limits = Limits(words.keep_days, most_bytes)
        self._is_only_one = words.every is None
        self._is_pace_told = False
        self._undeleted = ""
        self.failure = ""

    def take(self) -> None:
        """Takes a turn."""
        self._look_at_file()
        self._delete()
        try:
            told = self._keeper.turn()
            if told and (self.failure or self._is_only_one):
                say(told)
            self.failure = ""
        except TURN_FAILS as error:
            is_new = str(error) != self.failure
            if isinstance(error, OSError) and (is_new or not self._is_pace_told):
                self._tell_room(is_new)
            self.failure = str(error)
            if is_new:
                say(f"this turn failed: {self.failure}")

    def _look_at_file(self) -> None:
        """Has other services kept where the file of the services changed."""
        if self._file is None or not self._file.look():
            return
        if self._file.fault:
            say(f"the services stay those from before: {self._file.fault}")
        else:
            say(f"the services of the file are {', '.join(self._file.names) or 'none'}")
            self._keeper.want(self._file.names)

    def _delete(self) -> None:
        """Deletes what is too old or too much."""
        try:
            delete_old(self._folder, self._limits, int(time.time() * 1000), warn)
            self._undeleted = ""
        except OSError as error:
            if str(error) != self._undeleted:
                self._undeleted = str(error)
                warn(f"an old file isn't deleted: {error}")

    def _tell_room(self, is_new: bool) -> None:
        """Tells how long the sidecar has room for what can't be written, and again once that is known."""
        told, is_known = self._keeper.told_room()
        if told and (is_new or is_known):
            say(told)
        self._is_pace_told = is_known


def verify(words: argparse.Namespace) -> int:
    """Checks files, and prints what is wrong with them."""
    found = check(words.file)
    for fault in found.faults:
        print(fault)
    print(f"{found.entries} entries of {found.runs} runs, {len(found.faults)} faults")
    return int(bool(found.faults))


def show(words: argparse.Namespace) -> int:
    """Prints entries for people."""
    for line in shown(words.file, Filter(words.begin, words.end, words.event, words.state)):
        print(line)
    return 0


def parser() -> argparse.ArgumentParser:
    """Returns what reads the words of the command line."""
    made = argparse.ArgumentParser(prog="journal", description="Keeps journals of a sidecar, checks and shows them.")
    commands = made.add_subparsers(required=True)
    add_keep(commands)
    one = commands.add_parser("verify", help="checks that the numbers in files go on")
    one.add_argument("file", nargs="+", help="files of one service, the oldest first: as FOLDER/pay.*")
    one.set_defaults(run=verify)
    one = commands.add_parser("show", help="prints entries for people")
    one.add_argument("file", nargs="+", help="files of one service, the oldest first")
    one.add_argument("--begin", type=time_told, metavar="TIME", help="entries from this time on, as 2026-01-31T12:00")
    one.add_argument("--end", type=time_told, metavar="TIME", help="entries before this time")
    one.add_argument("--event", action="append", default=[], choices=EVENTS, help="entries of this event")
    one.add_argument("--state", action="append", default=[], choices=STATES, help="entries that leave this state")
    one.set_defaults(run=show)
    return made


def add_keep(commands: Any) -> None:
    """Adds the words of `keep`."""
    one = commands.add_parser("keep", help="appends the entries to files, and lets the sidecar drop them")
    one.add_argument("folder", help="where the files are kept, one a service")
    one.add_argument("url", help="the sidecar's address, as http://127.0.0.1:8080")
    one.add_argument("service", nargs="*")
    one.add_argument("--services-of", metavar="FILE", help="all services of a file of `sidecar serve`")
    one.add_argument(
        "--every", type=above_zero, metavar="SECONDS", help="goes on for ever, with a turn after so many seconds"
    )
    one.add_argument(
        "--megabytes", type=above_zero, default=MOST_MEGABYTES, help="a file of so many is rotated (%(default)s)"
    )
    one.add_argument(
        "--keep-days", type=above_zero, metavar="N", help="deletes a rotated file whose last entry is older"
    )
    one.add_argument(
        "--keep-megabytes", type=above_zero, metavar="N", help="deletes the oldest ones while all files have more"
    )
    one.add_argument(
        "--release-after", type=above_zero, metavar="SECONDS", help="releases tickets that are open for longer"
    )
    one.set_defaults(run=keep)


def main(words: list[str]) -> int:
    """Runs a command, and returns its status."""
    found = parser().parse_args(words)
    try:
        status: int = found.run(found)
        return status
    except BrokenPipeError:
        return 0
    except (BadFile, FolderTaken, OSError, ValueError, KeyError) as error:
        print(f"journal: {error}", file=sys.stderr)
        return 1
