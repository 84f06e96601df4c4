#!/usr/bin/env python3
"""Keeps a service's journal: appends its entries to a file, and lets the sidecar drop those that are kept.

    examples/keep_journal.py SIDECAR SERVICE FILE [SECONDS]

SIDECAR is the sidecar's address, as 127.0.0.1:8080, and SERVICE the name of one of its services. Each entry is one
line of JSON in FILE. With SECONDS this takes a turn after so many seconds, for ever; else it takes one turn.

In a turn it appends the entries that are not in FILE yet, and rolls the journal up to the last one that is durably
written: the sidecar drops those entries, and changes nothing else. So no entry is lost, whatever is asked meanwhile,
and breaker and tickets go on. The next entries are read while the disk writes. A turn of a second keeps the journal of
10,000 calls a second below three quarters.

A turn that fails rolls no further than FILE goes, and the next one goes on from there: so it is where the sidecar
can't be reached, and where FILE can't be written, as on a full disk. A sidecar that was started anew numbers its
entries from 1 again: that is printed, and they follow the old ones in FILE. A last line of FILE that was written in
part is taken off. It needs Python's standard library alone.
"""

import http.client
import json
import os
import sys
import time
from concurrent.futures import ThreadPoolExecutor, wait

SECONDS_TO_ANSWER = 5
ENTRIES_OF_A_PAGE = 100
# At least so many entries are written at a time, where there are so many: a disk may take longer to write a page durably
# than the sidecar to answer it.
ENTRIES_OF_A_BATCH = 10_000
# After so many seconds it reads on that has read all there was, while a batch is written.
SECONDS_TO_LOOK_AGAIN = 0.05
# No entry is as long as this many bytes.
LONGEST_ENTRY = 4096


class NoAnswer(Exception):
    """The sidecar can't be reached, or its answer can't be used."""


class Journal:
    """The journal of one service of a sidecar, over one connection.

    A connection that breaks isn't made again: the sidecar behind it may have been started anew meanwhile, and would
    drop entries that nobody kept."""

    def __init__(self, address, service):
        self.connection = http.client.HTTPConnection(address, timeout=SECONDS_TO_ANSWER)
        self.connection.auto_open = 0
        self.path = f"/v1/services/{service}/"

    def __enter__(self):
        try:
            self.connection.connect()
        except OSError as error:
            raise NoAnswer(f"the sidecar can't be reached: {error}") from error
        return self

    def __exit__(self, *_):
        self.connection.close()

    def ask(self, method, route, body=None):
        """Returns the JSON of an answer."""
        try:
            self.connection.request(method, self.path + route, body)
            response = self.connection.getresponse()
            answer = json.load(response)
        except (OSError, http.client.HTTPException, ValueError) as error:
            raise NoAnswer(f"the sidecar gave no answer: {error}") from error
        if response.status == 404:
            sys.exit(f"keep_journal: 404 {answer['name']}")
        if response.status != 200:
            raise NoAnswer(f"the sidecar answers {response.status} {answer['name']}")
        return answer

    def page(self, number):
        """Returns at most 100 entries, the first that are held from a number on."""
        return self.ask("GET", f"journal/{number}")["entries"]

    def last_number(self):
        """Returns the number of the last entry that was made."""
        return self.ask("GET", "state")["entries"]

    def roll(self, number):
        """Lets the sidecar drop the entries up to a number, and returns how many those were."""
        return self.ask("POST", "roll", json.dumps({"to": number}))["entries"]


class File:
    """A file of entries. It is opened for one turn, so that it may be moved away between two."""

    def __init__(self, name):
        self.name = name
        self.kept = 0

    def __enter__(self):
        self.file = os.open(self.name, os.O_RDWR | os.O_CREAT | os.O_APPEND, 0o644)
        if self.size() == 0:
            keep_name(self.name)
        self.last = self.last_whole()
        return self

    def __exit__(self, *_):
        os.close(self.file)

    def size(self):
        return os.fstat(self.file).st_size

    def last_whole(self):
        """Returns the last entry of the file, or None where it has none, and takes off what stands behind it."""
        start = max(0, self.size() - 2 * LONGEST_ENTRY)
        *lines, rest = os.pread(self.file, 2 * LONGEST_ENTRY, start).split(b"\n")
        try:
            last = json.loads(lines[-1]) if lines else None
            is_whole = "number" in last if lines else start == 0 and rest[:1] in (b"", b"{")
        except (TypeError, ValueError):
            is_whole = False
        if not is_whole:
            sys.exit(f"keep_journal: {self.name} is no file of entries")
        if rest:
            say(f"the last line of {self.name} was written in part: its {len(rest)} bytes are taken off")
            os.ftruncate(self.file, self.size() - len(rest))
        return last

    def append(self, entries):
        """Appends entries durably, or leaves the file as it was."""
        if not entries:
            return
        size = self.size()
        text = memoryview("".join(json.dumps(entry) + "\n" for entry in entries).encode())
        try:
            while text:
                text = text[os.write(self.file, text) :]
            os.fsync(self.file)
        except OSError:
            os.ftruncate(self.file, size)
            raise
        self.kept += len(entries)
        self.last = entries[-1]


def say(text):
    """Prints a line. Where even that can't be written, as on a full disk, there is nobody to tell."""
    try:
        print(text, flush=True)
    except OSError:
        pass


def keep_name(name):
    """Makes the name of a new file durable, which stands in its folder."""
    folder = os.open(os.path.dirname(name) or ".", os.O_RDONLY)
    try:
        os.fsync(folder)
    finally:
        os.close(folder)


def is_anew(journal, last):
    """Returns whether the sidecar was started anew since the last entry was kept."""
    entries = journal.page(last["number"])
    if not entries:
        return journal.last_number() < last["number"]
    return entries[0]["number"] == last["number"] and entries[0] != last


def number_to_keep(journal, last):
    """Returns the number of the first entry to keep, behind the last one that was kept."""
    if last is None:
        return 1
    if is_anew(journal, last):
        say("the sidecar was started anew: its entries are numbered from 1 again")
        return 1
    return last["number"] + 1


def batch(journal, number, writing):
    """Returns the entries that are held from a number on, and whether there may be many more: a batch of them, and all
    that come until those before them are written."""
    entries, is_full = [], True
    while not writing.done() or is_full and len(entries) < ENTRIES_OF_A_BATCH:
        page = journal.page(number)
        entries += page
        is_full = len(page) == ENTRIES_OF_A_PAGE
        if page:
            number = page[-1]["number"] + 1
        if not is_full:
            wait([writing], SECONDS_TO_LOOK_AGAIN)
    return entries, len(entries) >= ENTRIES_OF_A_BATCH


def take_turn(journal, file, goes_on):
    """Keeps what is new, a batch at a time, and returns how many entries the sidecar dropped. A batch is read while the
    one before it is written. Where it goes on, it also keeps what comes meanwhile, as long as that fills batches."""
    number, end = number_to_keep(journal, file.last), journal.last_number()
    dropped, last, has_more = 0, file.last, True
    with ThreadPoolExecutor(1) as disk:
        writing = disk.submit(file.append, [])
        while has_more and (goes_on or number <= end):
            entries, has_more = batch(journal, number, writing)
            writing.result()
            # Up to the last one that was written, in this turn or in an earlier one.
            dropped += journal.roll(number - 1)
            if entries:
                missing = entries[-1]["number"] + 1 - number - len(entries)
                if last and missing > 0:
                    say(f"{missing} entries from number {number} on were dropped before they were kept")
                writing, last = disk.submit(file.append, entries), entries[-1]
                number = last["number"] + 1
        writing.result()
    return dropped + journal.roll(number - 1)


def main():
    address, service, name, *seconds = sys.argv[1:]
    failure = None
    while True:
        try:
            with Journal(address, service) as journal, File(name) as file:
                dropped = take_turn(journal, file, bool(seconds))
            if failure or not seconds:
                say(f"kept {file.kept} entries, rolled {dropped}")
            failure = None
        except (NoAnswer, OSError) as error:
            if not seconds:
                sys.exit(f"keep_journal: {error}")
            if str(error) != failure:
                failure = str(error)
                say(f"this turn failed: {failure}")
        if not seconds:
            return
        time.sleep(float(seconds[0]))


if __name__ == "__main__":
    main()
