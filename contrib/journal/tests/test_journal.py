"""Shows against a server that each entry is kept once, whatever happens meanwhile."""

import contextlib
import errno
import gzip
import io
import json
import os
import resource
import signal
import subprocess
import sys
import tempfile
import threading
import time
import unittest
import unittest.mock
from collections.abc import Sequence
from typing import Any

import delvoumi
from delvoumi_journal.deleting import Limits, delete_old
from delvoumi_journal.files import BadFile, Journal, entries_in, files_of
from delvoumi_journal.keeper import FolderTaken, Keeper, gaps
from delvoumi_journal.main import main
from delvoumi_journal.reading import check
from delvoumi_journal.tickets import SidecarClock
from testbed import TOP, Relay, Server, wait_for

JOURNAL = f"{TOP}/contrib/journal/journal"
DAY = 86_400_000


def run(*words: str) -> tuple[int, list[str]]:
    """Runs a command that isn't `keep`, and returns its status and the lines that it prints."""
    printed = io.StringIO()
    with contextlib.redirect_stdout(printed), contextlib.redirect_stderr(printed):
        status = main(list(words))
    return status, printed.getvalue().splitlines()


def entry(number: int, moment: int = 0) -> dict[str, Any]:
    """Returns an entry as a sidecar makes it."""
    return {
        "event": "reset",
        "moment": moment,
        "number": number,
        "reply": {"period": number, "state": "CLOSED"},
        "seat": 1,
    }


class Case(unittest.TestCase):
    def setUp(self) -> None:
        folder = tempfile.TemporaryDirectory()
        self.addCleanup(folder.cleanup)
        self.folder = folder.name

    def numbers(self, service: str = "pay") -> list[int]:
        """Returns the numbers of all entries that are kept."""
        return [each["number"] for name in files_of(self.folder, service) for each in entries_in(name)]


class WithServer(Case):
    def setUp(self) -> None:
        super().setUp()
        self.server = Server()
        self.addCleanup(self.server.__exit__)

    def keep(self, *words: str, **how: Any) -> tuple[int, list[str]]:
        """Takes one turn in a process of its own, and returns its status and the lines that it prints."""
        command = [sys.executable, JOURNAL, "keep", self.folder, self.server.address, *words]
        both = {"stdout": subprocess.PIPE, "stderr": subprocess.STDOUT, "text": True}
        ran = subprocess.run(command, timeout=60, check=False, **both, **how)
        return ran.returncode, ran.stdout.splitlines()

    def keeping(self, address: str, *words: str) -> subprocess.Popen[str]:
        """Returns a keeper that goes on, which ends with the test."""
        command = [sys.executable, JOURNAL, "keep", self.folder, address, "pay", "--every", "0.05", *words]
        keeper = subprocess.Popen(command, stdout=subprocess.PIPE, text=True)

        def end() -> None:
            keeper.kill()
            keeper.communicate()

        self.addCleanup(end)
        return keeper


class EntriesAreKept(WithServer):
    def test_a_turn_keeps_all_services_and_changes_nothing_else(self) -> None:
        file = f"{self.folder}/sidecar.json"
        with open(file, "w", encoding="utf-8") as settings:
            json.dump({"services": [{"name": "pay"}, {"name": "ship"}]}, settings)
        self.server.move("HALF_OPEN")
        self.server.ask("POST", "acquire")
        self.server.ask("POST", "reset", service="ship")
        before = self.server.ask("GET", "state")
        told = ["pay: kept 2 entries, rolled 2", "ship: kept 1 entries, rolled 1"]
        self.assertEqual(self.keep("--services-of", file), (0, told))
        self.assertEqual((self.server.ask("GET", "state"), self.server.journal()), (before, []))
        self.assertEqual((self.numbers(), self.numbers("ship")), ([1, 2], [1]))
        self.assertEqual(self.keep("pay"), (0, ["pay: kept 0 entries, rolled 0"]))
        missing = "none: the sidecar has no service of this name: it is left out"
        self.assertEqual(self.keep("none", "pay"), (1, [missing, "pay: kept 0 entries, rolled 0"]))
        self.assertEqual(self.keep("../none"), (1, ["journal: '../none' is no name of a service"]))

    def test_none_is_lost_or_twice_under_load_and_over_rotations(self) -> None:
        keeper = self.keeping(self.server.address, "--megabytes", "0.02")
        goes_on = threading.Event()
        goes_on.set()

        def work() -> None:
            sidecar = delvoumi.Sidecar(self.server.address, "pay", seconds=10)
            while goes_on.is_set():
                sidecar.release(sidecar.acquire())
            sidecar.close()

        threads = [threading.Thread(target=work) for _ in range(4)]
        for thread in threads:
            thread.start()
        try:
            wait_for(lambda: len(files_of(self.folder, "pay")) > 3, "files are rotated", 40)
        finally:
            goes_on.clear()
            for thread in threads:
                thread.join()
        last = self.server.state("entries")[0]
        wait_for(lambda: self.server.journal() == [], "all is rolled")
        keeper.terminate()
        self.assertEqual(keeper.wait(20), 0)
        self.assertEqual(self.numbers(), list(range(1, last + 1)))
        files = files_of(self.folder, "pay")
        self.assertEqual([name.endswith(".gz") for name in files], [True] * (len(files) - 1) + [False])
        self.assertEqual(run("verify", *files), (0, [f"{last} entries of 1 runs, 0 faults"]))

    def test_a_keeper_that_is_killed_is_made_up_for(self) -> None:
        for _ in range(3):
            keeper = self.keeping(self.server.address)
            for _ in range(40):
                self.server.ask("POST", "reset")
            keeper.send_signal(signal.SIGKILL)
            keeper.wait()
        self.assertEqual(self.keep("pay")[0], 0)
        self.assertEqual(self.numbers(), list(range(1, 121)))

    def test_a_half_written_line_is_taken_off(self) -> None:
        self.server.ask("POST", "reset")
        self.assertEqual(self.keep("pay")[0], 0)
        with open(f"{self.folder}/pay.jsonl", "a", encoding="utf-8") as file:
            file.write('{"event": "acqu')
        self.server.ask("POST", "reset")
        taken = "pay: the last line was written in part: its 15 bytes are taken off"
        self.assertEqual(self.keep("pay"), (0, [taken, "pay: kept 1 entries, rolled 1"]))
        self.assertEqual(self.numbers(), [1, 2])

    def test_what_cannot_be_written_is_not_rolled(self) -> None:
        for _ in range(5):
            self.server.ask("POST", "reset")
        full = {"preexec_fn": lambda: resource.setrlimit(resource.RLIMIT_FSIZE, (250, 250))}
        status, lines = self.keep("pay", **full)
        room = "pay: the sidecar has room for 65531 more of 65536 entries; how fast they come isn't known yet"
        self.assertEqual((status, len(lines), lines[0]), (1, 2, room))
        self.assertRegex(lines[1], r"^this turn failed: \[Errno ")
        self.assertEqual((self.numbers(), len(self.server.journal())), ([], 5))
        self.assertEqual(self.keep("pay")[0], 0)
        self.assertEqual((self.numbers(), self.server.journal()), ([1, 2, 3, 4, 5], []))

    def test_what_the_disk_writes_while_a_turn_fails_is_kept_once(self) -> None:
        for _ in range(250):
            self.server.ask("POST", "reset")
        relay = Relay(self.server)
        self.addCleanup(relay.close)
        keeper = Keeper(self.folder, relay.address, ["pay"], 1_000_000, None, print)
        self.addCleanup(keeper.close)
        append = Journal.append

        def slow(journal: Journal, entries: Sequence[dict[str, Any]]) -> None:
            time.sleep(0.2)
            append(journal, entries)

        # The second page is asked for while the first one is written, and its answer is lost.
        relay.lose_answer_to = b"journal/101"
        with (
            unittest.mock.patch("delvoumi_journal.keeper.ENTRIES_OF_A_BATCH", 100),
            unittest.mock.patch.object(Journal, "append", slow),
            self.assertRaises(delvoumi.NoAnswer),
        ):
            keeper.turn()
        self.assertEqual((self.numbers(), len(self.server.journal())), (list(range(1, 101)), 250))
        self.assertEqual(keeper.turn(), "pay: kept 150 entries, rolled 250")
        self.assertEqual((self.numbers(), self.server.journal()), (list(range(1, 251)), []))

    def test_a_day_that_is_written_before_the_disk_is_full_is_kept_once(self) -> None:
        for _ in range(5):
            self.server.ask("POST", "reset")
        keeper = Keeper(self.folder, self.server.address, ["pay"], 1_000_000, None, print)
        self.addCleanup(keeper.close)
        append_all, append_day = Journal.append, Journal._append

        def of_two_days(journal: Journal, entries: Sequence[dict[str, Any]]) -> None:
            for each in entries[3:]:
                each["moment"] += DAY
            append_all(journal, entries)

        def full_behind_a_day(journal: Journal, entries: Sequence[dict[str, Any]]) -> None:
            if entries[0]["number"] > 3:
                raise OSError(errno.ENOSPC, os.strerror(errno.ENOSPC))
            append_day(journal, entries)

        with unittest.mock.patch.object(Journal, "append", of_two_days):
            with unittest.mock.patch.object(Journal, "_append", full_behind_a_day), self.assertRaises(OSError):
                keeper.turn()
            self.assertEqual((self.numbers(), len(self.server.journal())), ([1, 2, 3], 5))
        keeper.turn()
        self.assertEqual((self.numbers(), self.server.journal()), ([1, 2, 3, 4, 5], []))

    def test_a_keeper_goes_on_over_a_restart_of_the_sidecar(self) -> None:
        relay = Relay(self.server)
        self.addCleanup(relay.close)
        keeper = self.keeping(relay.address)
        for _ in range(3):
            self.server.ask("POST", "reset")
        wait_for(lambda: self.numbers() == [1, 2, 3], "three entries are kept")
        self.server.stop()
        time.sleep(0.2)
        self.assertIsNone(keeper.poll())
        self.server.start_again()
        self.server.ask("POST", "reset")
        wait_for(lambda: self.numbers() == [1, 2, 3, 1], "an entry of the new run is kept")
        keeper.terminate()
        lines = keeper.communicate(timeout=20)[0].splitlines()
        self.assertIn("pay: the sidecar was started anew: its entries are numbered from 1 again", lines)
        self.assertEqual(sum(line.startswith("this turn failed: no answer") for line in lines) > 0, True)
        self.assertEqual(check(files_of(self.folder, "pay")).runs, 2)

    def test_what_others_roll_is_told(self) -> None:
        self.server.ask("POST", "reset")
        self.keep("pay")
        for _ in range(3):
            self.server.ask("POST", "reset")
        self.server.ask("POST", "roll", {"to": 3})
        told = "pay: 2 entries from 2 on were dropped before they were kept"
        self.assertEqual(self.keep("pay"), (0, [told, "pay: kept 1 entries, rolled 1"]))
        files = files_of(self.folder, "pay")
        fault = f"{self.folder}/pay.jsonl: number 4 comes behind 1"
        self.assertEqual(run("verify", *files), (1, [fault, "2 entries of 1 runs, 1 faults"]))

    def test_gaps_between_pages_are_found_too(self) -> None:
        entries = [{"number": number} for number in (3, 4, 7, 8, 9, 20)]
        for expected, found in [(3, []), (1, [(1, 2)])]:
            self.assertEqual(list(gaps(expected, entries)), [*found, (5, 2), (10, 10)])
        self.assertEqual(list(gaps(7, [])), [])

    def test_a_time_of_day_that_is_set_ages_no_ticket(self) -> None:
        clock = SidecarClock()
        self.assertLess(abs(clock.now() - time.time() * 1000), 5_000)
        # The sidecar's moments are an hour behind the time of day, which was set ahead since its start.
        an_hour_ago = int(time.time() * 1000) - 3_600_000
        clock.note(an_hour_ago)
        self.assertLess(abs(clock.now() - an_hour_ago), 5_000)
        # An entry that was made long before it was read doesn't set the clock back.
        clock.note(an_hour_ago - 60_000)
        self.assertLess(abs(clock.now() - an_hour_ago), 5_000)

    def test_old_tickets_are_released_if_asked(self) -> None:
        for _ in range(3):
            self.server.ask("POST", "acquire")
        self.server.ask("POST", "release", {"ticket": 2})
        self.assertEqual(self.keep("pay", "--release-after", "60")[0], 0)
        self.assertEqual(self.server.state("open"), [2])
        time.sleep(0.05)
        # The tickets were issued before this keeper was started, and their entries are in the file alone.
        status, lines = self.keep("pay", "--release-after", "0.01")
        self.assertEqual(
            (status, lines[0][:27], lines[1][:27]), (0, "pay: released ticket 1, whi", "pay: released ticket 3, whi")
        )
        self.assertEqual(self.server.state("open"), [0])
        self.assertEqual(self.keep("pay", "--release-after", "0.01"), (0, ["pay: kept 2 entries, rolled 2"]))

    def test_an_interval_is_above_zero(self) -> None:
        for word in ("--every", "--megabytes", "--keep-days", "--keep-megabytes", "--release-after"):
            for number in ("0", "-1", "inf", "soon"):
                with self.assertRaises(SystemExit) as ended:
                    run("keep", self.folder, self.server.address, "pay", word, number)
                self.assertEqual(ended.exception.code, 2)

    def test_one_keeper_has_a_folder(self) -> None:
        keeper = Keeper(self.folder, self.server.address, ["pay"], 1, None, print)
        self.addCleanup(keeper.close)
        with self.assertRaises(FolderTaken):
            Keeper(self.folder, self.server.address, ["pay"], 1, None, print)
        self.assertEqual(self.keep("pay"), (1, [f"journal: another keeper has {self.folder}"]))


class ItGoesOn(WithServer):
    """A keeper of a file of services, whose sidecar is started anew with others."""

    def setUp(self) -> None:
        super().setUp()
        self.file = f"{self.folder}/sidecar.json"
        self.lines: list[str] = []

    def settings(self, *services: str) -> None:
        """Writes the file of the services."""
        with open(f"{self.file}.new", "w", encoding="utf-8") as settings:
            json.dump({"services": [{"name": name} for name in services]}, settings)
        os.rename(f"{self.file}.new", self.file)

    def begin(self, address: str, *words: str, **how: Any) -> subprocess.Popen[str]:
        """Begins to keep, and to read what is said."""
        command = [sys.executable, JOURNAL, "keep", self.folder, address, *words, "--every", "0.05"]
        both = {"stdout": subprocess.PIPE, "stderr": subprocess.STDOUT, "text": True}
        keeper = subprocess.Popen(["timeout", "60", *command], **both, **how)

        def read() -> None:
            assert keeper.stdout
            for line in keeper.stdout:
                self.lines.append(line.strip())

        reader = threading.Thread(target=read)
        reader.start()

        def end() -> None:
            keeper.terminate()
            keeper.wait()
            reader.join()
            assert keeper.stdout
            keeper.stdout.close()

        self.addCleanup(end)
        wait_for(lambda: os.path.exists(f"{self.folder}/.lock"), "the keeper has begun")
        return keeper

    def comes(self, line: str) -> None:
        """Waits for a line."""
        wait_for(lambda: line in self.lines, f"{line!r} is said, behind {self.lines}")

    def test_where_a_service_is_gone_and_another_one_comes(self) -> None:
        self.settings("pay", "ship")
        relay = Relay(self.server)
        self.addCleanup(relay.close)
        keeper = self.begin(relay.address, "--services-of", self.file)
        self.server.ask("POST", "reset", service="ship")
        wait_for(lambda: self.numbers("ship") == [1], "an entry of ship is kept")
        with Server([{"name": "pay"}, {"name": "fresh"}]) as other:
            relay.target = other.address
            self.comes("ship: the sidecar has no service of this name: it is left out")
            other.ask("POST", "reset")
            wait_for(lambda: self.numbers() == [1], "an entry of pay is kept")
            self.settings("pay", "fresh", "later")
            self.comes("the services of the file are pay, fresh, later")
            self.comes("ship: neither the file nor the sidecar has this service any more")
            self.comes("later: the sidecar has no service of this name: it is left out")
            other.ask("POST", "reset", service="fresh")
            wait_for(lambda: self.numbers("fresh") == [1], "an entry of fresh is kept")
            self.assertIsNone(keeper.poll())
        with Server([{"name": "pay"}, {"name": "fresh"}, {"name": "later"}]) as third:
            relay.target = third.address
            self.comes("later: the sidecar has this service now: it is kept")
            third.ask("POST", "reset", service="later")
            wait_for(lambda: self.numbers("later") == [1], "an entry of later is kept")
        self.assertEqual([self.lines.count(line) for line in self.lines if "left out" in line], [1, 1])

    def test_a_service_that_the_file_has_no_more_is_kept_while_the_sidecar_has_it(self) -> None:
        self.settings("pay", "ship")
        self.begin(self.server.address, "--services-of", self.file)
        self.settings("pay")
        self.comes("the services of the file are pay")
        self.server.ask("POST", "reset", service="ship")
        wait_for(lambda: self.numbers("ship") == [1], "an entry of ship is kept")

    def test_a_mistake_in_the_file_keeps_the_services(self) -> None:
        self.settings("pay")
        keeper = self.begin(self.server.address, "--services-of", self.file)
        for text, fault in (
            ('{"services": [', "Expecting value: line 1 column 15 (char 14)"),
            ('{"services": [{"nome": "pay"}]}', None),
            ('{"services": [{"name": "../pay"}]}', "'../pay' is no name of a service"),
        ):
            with open(self.file, "w", encoding="utf-8") as settings:
                settings.write(text)
            told = f"{self.file} has no services with names" if fault is None else f"{self.file}: {fault}"
            self.comes(f"the services stay those from before: {told}")
        os.unlink(self.file)
        self.comes(f"the services stay those from before: [Errno 2] No such file or directory: '{self.file}'")
        self.server.ask("POST", "reset")
        wait_for(lambda: self.numbers() == [1], "an entry of pay is kept")
        self.settings("ship", "pay")
        self.comes("the services of the file are ship, pay")
        self.server.ask("POST", "reset", service="ship")
        wait_for(lambda: self.numbers("ship") == [1], "an entry of ship is kept")
        self.assertIsNone(keeper.poll())
        self.assertEqual(len(self.lines), len(set(self.lines)))

    def test_a_file_that_is_wrong_at_first_is_refused(self) -> None:
        with open(self.file, "w", encoding="utf-8") as settings:
            settings.write('{"services": 5}')
        told = f"journal: {self.file} has no services with names"
        self.assertEqual(self.keep("--services-of", self.file), (1, [told]))

    def test_a_full_disk_is_told_with_how_long_the_room_lasts(self) -> None:
        for _ in range(5):
            self.server.ask("POST", "reset")
        full = {"preexec_fn": lambda: resource.setrlimit(resource.RLIMIT_FSIZE, (250, 250))}
        self.begin(self.server.address, "pay", **full)
        unknown = "pay: the sidecar has room for 65531 more of 65536 entries; how fast they come isn't known yet"
        self.comes(unknown)
        wait_for(lambda: len(self.lines) > 1, "that the turn failed is said")
        self.assertEqual(self.lines[0], unknown)
        self.assertRegex(self.lines[1], r"^this turn failed: \[Errno ")
        wait_for(lambda: len(self.lines) > 2, "how long the room lasts is said")
        known = "pay: the sidecar has room for 65531 more of 65536 entries, which lasts for ever at 0.0 entries"
        self.assertEqual(self.lines[2], f"{known} a second")
        time.sleep(0.3)
        self.assertEqual((len(self.lines), len(self.server.journal())), (3, 5))

    def test_the_room_lasts_by_the_pace_between_turns(self) -> None:
        keeper = Keeper(self.folder, self.server.address, ["pay", "ship"], 1_000_000, None, print)
        self.addCleanup(keeper.close)
        with unittest.mock.patch("delvoumi_journal.keeper.time.monotonic", lambda: clock[0]):
            clock = [1_000.0]
            keeper.turn()
            clock[0] += 2.0
            for _ in range(20):
                self.server.ask("POST", "reset", service="ship")
            self.server.ask("POST", "acquire", service="ship")
            keeper.turn()
        for _ in range(34):
            self.server.ask("POST", "reset", service="ship")
        # A tenth of a second for each entry: one ticket is open, and 34 entries are held.
        told = "ship: the sidecar has room for 65501 more of 65536 entries, which lasts 104 minutes at 10.5 entries"
        self.assertEqual(keeper.told_room(), (f"{told} a second", True))


class OldFilesAreDeleted(Case):
    """Three days of two services, of which each day's file is rotated with the next one."""

    def setUp(self) -> None:
        super().setUp()
        for service in ("pay", "ship"):
            journal = Journal(self.folder, service, 1_000_000)
            for day in range(4):
                journal.append([entry(day + 1, day * DAY + (5 if service == "ship" else 0))])
        for name in ("pay.txt.gz", "pay.19700101.jsonl.gz", "pay.jsonl.bak", "other.jsonl.gz"):
            with open(f"{self.folder}/{name}", "w", encoding="utf-8") as file:
                file.write("no file of a keeper")
        self.said: list[str] = []

    def left(self, days: float | None, most_bytes: int | None, now: int) -> list[list[int]]:
        """Deletes, and returns which entries of each service are left."""
        delete_old(self.folder, Limits(days, most_bytes), now, self.said.append)
        return [self.numbers_of(service) for service in ("pay", "ship")]

    def numbers_of(self, service: str) -> list[int]:
        names = [name for name in files_of(self.folder, service) if name != f"{self.folder}/pay.19700101.jsonl.gz"]
        return [each["number"] for name in names if "txt" not in name for each in entries_in(name)]

    def test_by_age(self) -> None:
        self.assertEqual(self.left(None, None, 9 * DAY), [[1, 2, 3, 4], [1, 2, 3, 4]])
        self.assertEqual(self.left(2, None, 3 * DAY + 2), [[3, 4], [2, 3, 4]])
        first = "19700101T000000.000000Z.00000000000000000001.jsonl.gz: its last entry is older than 2 days"
        self.assertEqual(self.said[0], f"deleted pay.{first}")
        self.assertEqual([line.split(".")[0] for line in self.said], ["deleted pay", "deleted ship", "deleted pay"])
        self.assertEqual(self.left(0.5, None, 3 * DAY + 2), [[4], [4]])
        self.assertEqual(self.left(0.5, None, 9 * DAY), [[4], [4]])
        others = {"pay.txt.gz", "pay.19700101.jsonl.gz", "pay.jsonl.bak", "other.jsonl.gz"}
        self.assertEqual(set(os.listdir(self.folder)), {"pay.jsonl", "ship.jsonl", *others})

    def test_by_size_the_oldest_first_of_all_services(self) -> None:
        sizes = {name: os.path.getsize(name) for service in ("pay", "ship") for name in files_of(self.folder, service)}
        for other in ("pay.19700101.jsonl.gz", "pay.txt.gz"):
            sizes.pop(f"{self.folder}/{other}", None)
        total = sum(sizes.values())
        self.assertEqual(self.left(None, total, 9 * DAY), [[1, 2, 3, 4], [1, 2, 3, 4]])
        self.assertEqual(self.left(None, total - 1, 9 * DAY), [[2, 3, 4], [1, 2, 3, 4]])
        self.assertRegex(self.said[0], r"^deleted pay\.19700101T.*: all files have more than 0\.\d+ megabytes$")
        self.assertEqual(self.left(None, 1, 9 * DAY), [[4], [4]])

    def test_the_last_file_of_a_service_stays(self) -> None:
        os.unlink(f"{self.folder}/pay.jsonl")
        self.assertEqual(self.left(1, 1, 99 * DAY), [[3], [4]])
        self.assertEqual(Journal(self.folder, "pay", 1).last, entry(3, 2 * DAY))


class OldFilesAreDeletedByAKeeper(WithServer):
    def test_while_it_keeps(self) -> None:
        journal = Journal(self.folder, "pay", 1)
        for number in range(1, 4):
            journal.append([entry(number, number)])
        self.server.ask("POST", "reset")
        command = [sys.executable, JOURNAL, "keep", self.folder, self.server.address, "pay", "--keep-days", "1"]
        ran = subprocess.run(command, timeout=60, capture_output=True, text=True, check=False)
        self.assertEqual(ran.returncode, 0)
        self.assertEqual(ran.stdout.splitlines()[-1], "pay: kept 1 entries, rolled 1")
        deleted = [line.split(".")[0] for line in ran.stderr.splitlines()]
        self.assertEqual(deleted, ["journal: deleted pay"] * 2)
        self.assertEqual(self.numbers(), [3, 1])


class FilesAreRotated(Case):
    def test_by_size_and_by_day(self) -> None:
        journal = Journal(self.folder, "pay", 1_000_000)
        journal.append([entry(1, DAY - 1), entry(2, DAY), entry(3, DAY + 1)])
        journal.append([entry(4, DAY + 2)])
        journal.append([entry(5, 3 * DAY)])
        names = [os.path.basename(name) for name in files_of(self.folder, "pay")]
        self.assertEqual([name[:16] for name in names], ["pay.19700101T235", "pay.19700102T000", "pay.jsonl"])
        self.assertEqual([len(list(entries_in(name))) for name in files_of(self.folder, "pay")], [1, 3, 1])
        small = Journal(self.folder, "pay", 10)
        small.append([entry(6, 3 * DAY)])
        small.append([entry(7, 3 * DAY)])
        self.assertEqual((len(files_of(self.folder, "pay")), self.numbers()), (5, [1, 2, 3, 4, 5, 6, 7]))

    def test_one_that_was_cut_short_is_ended(self) -> None:
        Journal(self.folder, "pay", 1_000).append([entry(1), entry(2)])
        renamed = f"{self.folder}/pay.19700101T000000.000000Z.{2:020}.jsonl"
        os.rename(f"{self.folder}/pay.jsonl", renamed)
        with open(f"{renamed}.gz.part", "wb") as file:
            file.write(b"half")
        self.assertEqual(Journal(self.folder, "pay", 1_000).last, entry(2))
        self.assertEqual(
            (self.numbers(), sorted(os.listdir(self.folder))), ([1, 2], [os.path.basename(renamed) + ".gz"])
        )
        # Compressed, but the file is there still.
        with gzip.open(f"{renamed}.gz") as packed, open(renamed, "wb") as file:
            file.write(packed.read())
        self.assertEqual(self.numbers(), [1, 2])
        self.assertEqual(Journal(self.folder, "pay", 1_000).last, entry(2))
        self.assertEqual((self.numbers(), os.listdir(self.folder)), ([1, 2], [os.path.basename(renamed) + ".gz"]))

    def test_a_file_of_something_else_is_left(self) -> None:
        with open(f"{self.folder}/pay.jsonl", "w", encoding="utf-8") as file:
            file.write("no entry\nnor here")
        with self.assertRaises(BadFile):
            Journal(self.folder, "pay", 1_000)
        self.assertEqual(os.path.getsize(f"{self.folder}/pay.jsonl"), 17)


class FilesAreRead(Case):
    def write(self, *entries: dict[str, Any]) -> str:
        name = f"{self.folder}/pay.jsonl"
        with open(name, "w", encoding="utf-8") as file:
            file.writelines(json.dumps(each) + "\n" for each in entries)
        return name

    def test_verify(self) -> None:
        name = self.write(entry(1), entry(2), entry(2), entry(4), entry(1), entry(2, -1))
        faults = [
            f"{name}: number 2 comes behind 2",
            f"{name}: number 4 comes behind 2",
            f"{name}: the moment of number 2 is before that of the one before",
        ]
        self.assertEqual(run("verify", name), (1, [*faults, "6 entries of 2 runs, 3 faults"]))

    def test_show(self) -> None:
        report = {"fate": "recorded", "state": "OPEN", "steps": 6, "verdict": "failure", "version": 1}
        refused = {"error": 31, "name": "CallNotPermitted"}
        name = self.write(
            {"event": "acquire", "moment": 1, "number": 1, "reply": {"state": "CLOSED", "ticket": 1, "version": 1}},
            {"event": "report", "moment": 2, "number": 2, "ticket": 1, "reply": report},
            {"event": "acquire", "moment": DAY, "number": 3, "reply": refused},
            {"event": "install", "moment": DAY, "number": 4, "reply": {"budget": 7, "version": 2}},
            {
                "event": "transition",
                "moment": DAY,
                "number": 5,
                "to": "CLOSED",
                "reply": {"period": 3, "state": "CLOSED"},
            },
            {"event": "release", "moment": DAY, "number": 6, "ticket": 9, "reply": {"error": 33, "name": "NoTicket"}},
        )
        lines = [
            "1970-01-01 00:00:00.001         1  CLOSED        acquire     ticket 1",
            "1970-01-01 00:00:00.002         2  OPEN          report      ticket 1: failure, recorded",
            "1970-01-02 00:00:00.000         3  OPEN          acquire     31 CallNotPermitted",
            "1970-01-02 00:00:00.000         4  OPEN          install     version 2, budget 7",
            "1970-01-02 00:00:00.000         5  CLOSED        transition  to CLOSED, period 3",
            "1970-01-02 00:00:00.000         6  CLOSED        release     ticket 9: 33 NoTicket",
        ]
        self.assertEqual(run("show", name), (0, lines))
        self.assertEqual(run("show", name, "--state", "OPEN"), (0, lines[1:4]))
        self.assertEqual(
            run("show", name, "--event", "acquire", "--event", "release"), (0, [lines[0], lines[2], lines[5]])
        )
        self.assertEqual(run("show", name, "--begin", "1970-01-02"), (0, lines[2:]))
        self.assertEqual(run("show", name, "--end", "1970-01-01T00:00:00.002"), (0, lines[:1]))


if __name__ == "__main__":
    unittest.main()
