"""Shows against a server that the metrics count what happened, and that the page shows it."""

import http.client
import json
import os
import re
import shutil
import subprocess
import sys
import tempfile
import time
import unittest
import urllib.request
from typing import Any

import chromium
from delvoumi_journal.files import Journal
from delvoumi_journal.keeper import Keeper
from delvoumi_watch.metrics import Metrics
from delvoumi_watch.service import Thresholds
from delvoumi_watch.sources import Files
from delvoumi_watch.watcher import Watcher
from prometheus_client.parser import text_string_to_metric_families
from testbed import NOBODY, TOP, Relay, Server, wait_for

WATCH = f"{TOP}/contrib/watch/watch"
ALERTS = f"{TOP}/contrib/watch/alerts.yml"
NO_PROMTOOL = "there is no promtool here: Debian has it in the package prometheus"
INTERVAL = 0.5
PICTURES = os.environ.get("WATCH_PICTURES")
BREAKER = "resilience4j_circuitbreaker"
SERVICES = [
    {"name": "pay", "config": {"slidingWindowSize": 10, "minimumNumberOfCalls": 5, "waitDurationInOpenState": 600000}},
    {"name": "ship", "config": {"slidingWindowSize": 10, "minimumNumberOfCalls": 5, "maxConcurrentCalls": 50}},
]


def samples_of(text: str) -> dict[str, float]:
    """Returns the samples of metrics, each under its name and its labels but that of the service `pay`."""
    found = {}
    for family in text_string_to_metric_families(text):
        for sample in family.samples:
            labels = dict(sample.labels)
            if labels.pop("name") == "pay":
                found[" ".join([sample.name, *labels.values()])] = sample.value
    return found


def entry(number: int, moment: int) -> dict[str, Any]:
    return {
        "event": "reset",
        "moment": moment,
        "number": number,
        "reply": {"period": number, "state": "CLOSED"},
        "seat": 1,
    }


class Case(unittest.TestCase):
    def setUp(self) -> None:
        self.server = Server(SERVICES)
        self.addCleanup(self.server.__exit__)
        folder = tempfile.TemporaryDirectory()
        self.addCleanup(folder.cleanup)
        self.folder = folder.name

    def watcher(self, **words: Any) -> Watcher:
        made = Watcher(self.server.address, {"pay": Thresholds(50, 100), "ship": None}, **words)
        self.addCleanup(made.close)
        return made

    def call(self, status: int, service: str = "pay", **outcome: Any) -> None:
        """Makes a call that is reported."""
        ticket = self.server.ask("POST", "acquire", service=service)["ticket"]
        body = {"ticket": ticket, "outcome": {"status": status, **outcome}}
        self.server.ask("POST", "report", body, service)


class MetricsCount(Case):
    def some_calls(self) -> None:
        for status in (200, 200, 404, 500, 503, 500):
            self.call(status)
        self.assertEqual(self.server.state("state"), ["OPEN"])
        for _ in range(4):
            self.server.ask("POST", "acquire")
        self.server.move("CLOSED")
        for _ in range(26):
            self.server.ask("POST", "acquire")
        self.server.ask("POST", "release", {"ticket": 7})

    def counted(self, watcher: Watcher) -> dict[str, float]:
        watcher.turn()
        return samples_of(Metrics(watcher).text().decode())

    def test_by_the_names_of_resilience4j(self) -> None:
        self.some_calls()
        found = self.counted(self.watcher())
        for name, value in {
            f"{BREAKER}_state closed": 1,
            f"{BREAKER}_state open": 0,
            f"{BREAKER}_calls_seconds_count successful": 3,
            f"{BREAKER}_calls_seconds_count failed": 3,
            f"{BREAKER}_calls_seconds_count ignored": 0,
            f"{BREAKER}_calls_total failed": 3,
            f"{BREAKER}_not_permitted_calls_total not_permitted": 4,
            f"{BREAKER}_failure_rate": -1,
            f"{BREAKER}_slow_call_rate": -1,
            f"{BREAKER}_buffered_calls failed": 0,
            "resilience4j_bulkhead_available_concurrent_calls": 1,
            "resilience4j_bulkhead_max_allowed_concurrent_calls": 25,
            "delvoumi_bulkhead_full_calls_total": 1,
            "delvoumi_tickets_ended_total recorded": 6,
            "delvoumi_tickets_ended_total released": 1,
            "delvoumi_journal_entries_total acquire": 36,
            "delvoumi_journal_entries_total report": 6,
            "delvoumi_state_changes_total open": 1,
            "delvoumi_open_tickets": 24,
            "delvoumi_classifier_budget": 6,
            "delvoumi_missed_entries_total": 0,
            "delvoumi_up": 1,
        }.items():
            self.assertEqual((name, found.get(name)), (name, value))

    def test_once_however_often_it_looks(self) -> None:
        watcher = self.watcher()
        for _ in range(3):
            self.call(200)
            self.counted(watcher)
        self.assertEqual(self.counted(watcher)[f"{BREAKER}_calls_total successful"], 3)

    def test_what_a_keeper_writes_over_its_rotations(self) -> None:
        keeper = Keeper(self.folder, self.server.address, ["pay"], 1, None, print)
        self.addCleanup(keeper.close)
        watcher = self.watcher(folder=self.folder)
        for number in range(1, 4):
            for _ in range(number):
                self.call(200)
                keeper.turn()
            self.assertEqual(self.counted(watcher)[f"{BREAKER}_calls_total successful"], number * (number + 1) // 2)
        self.assertEqual((self.server.journal(), watcher.services[0].missed), ([], 0))

    def test_without_a_keeper_what_it_rolls_it_has_counted(self) -> None:
        watcher = self.watcher(rolls=True)
        for number in range(1, 4):
            self.call(200)
            self.assertEqual(self.counted(watcher)[f"{BREAKER}_calls_total successful"], number)
            self.assertEqual(self.server.journal(), [])

    def test_what_others_roll_is_counted_as_missed(self) -> None:
        watcher = self.watcher()
        self.call(200)
        self.counted(watcher)
        self.call(200)
        self.server.ask("POST", "roll", {"to": 3})
        self.assertEqual(self.counted(watcher)["delvoumi_missed_entries_total"], 1)

    def test_counts_go_on_over_a_restart(self) -> None:
        watcher = self.watcher()
        self.call(200)
        self.counted(watcher)
        self.server.stop()
        down = self.counted(watcher)
        self.assertEqual((down["delvoumi_up"], down[f"{BREAKER}_calls_total successful"]), (0, 1))
        self.assertNotIn(f"{BREAKER}_state closed", down)
        self.server.start_again()
        self.call(200)
        up = self.counted(watcher)
        self.assertEqual((up["delvoumi_up"], up["delvoumi_restarts_total"]), (1, 1))
        self.assertEqual(up[f"{BREAKER}_calls_total successful"], 2)

    def test_changes_in_the_order_of_the_entries_where_a_keeper_is_behind(self) -> None:
        keeper = Keeper(self.folder, self.server.address, ["pay"], 1_000_000, None, print)
        self.addCleanup(keeper.close)
        watcher = self.watcher(folder=self.folder)
        self.call(200)
        keeper.turn()
        self.counted(watcher)
        for number in range(1, 4):
            self.call(200)
            self.server.move("FORCED_OPEN")
            # The reading is newer than the entries that come with the next look.
            self.assertEqual(self.counted(watcher)[f"{BREAKER}_state forced_open"], 1)
            self.assertEqual(self.shown_states(watcher)[-1], "FORCED_OPEN")
            keeper.turn()
            found = self.counted(watcher)
            self.assertEqual(found["delvoumi_state_changes_total forced_open"], number)
            self.assertEqual(found["delvoumi_state_changes_total closed"], number)
            self.server.ask("POST", "reset")
            self.counted(watcher)
            keeper.turn()
        found = self.counted(watcher)
        changes = found["delvoumi_state_changes_total forced_open"], found["delvoumi_state_changes_total closed"]
        self.assertEqual((changes, self.shown_states(watcher)), ((3, 4), ["CLOSED", "FORCED_OPEN"] * 3 + ["CLOSED"]))

    def test_an_answer_that_is_missing_is_no_change_of_state(self) -> None:
        relay = Relay(self.server)
        self.addCleanup(relay.close)
        watcher = Watcher(relay.address, {"pay": None})
        self.addCleanup(watcher.close)
        self.counted(watcher)
        for _ in range(3):
            relay.lose_answer_to = b"/state"
            self.counted(watcher)
            self.assertEqual(self.shown_states(watcher)[-1], "")
            found = self.counted(watcher)
        self.assertEqual(found["delvoumi_state_changes_total closed"], 1)
        self.assertEqual(self.shown_states(watcher), ["CLOSED", ""] * 3 + ["CLOSED"])

    def test_a_change_that_no_entry_tells_is_counted_behind_the_entries_before_it(self) -> None:
        keeper = Keeper(self.folder, self.server.address, ["pay"], 1_000_000, None, print)
        self.addCleanup(keeper.close)
        watcher = self.watcher(folder=self.folder)
        self.server.move("FORCED_OPEN")
        self.server.ask("POST", "acquire")
        # A cut makes no entry, and closes the breaker.
        keeper.turn()
        self.server.ask("POST", "cut")
        self.counted(watcher)
        found = self.counted(watcher)
        changes = found["delvoumi_state_changes_total forced_open"], found["delvoumi_state_changes_total closed"]
        self.assertEqual((changes, self.shown_states(watcher)), ((1, 1), ["FORCED_OPEN", "CLOSED"]))

    def shown_states(self, watcher: Watcher) -> list[str]:
        return [change["state"] for change in watcher.services[0].shown()["changes"]]

    def test_entries_that_are_held(self) -> None:
        watcher = self.watcher()
        for _ in range(130):
            self.server.ask("POST", "reset")
        self.assertEqual(self.counted(watcher)["delvoumi_journal_held_entries"], 130)
        self.server.ask("POST", "roll", {"to": 25})
        self.assertEqual(self.counted(watcher)["delvoumi_journal_held_entries"], 105)
        self.server.ask("POST", "roll", {"to": 130})
        self.assertEqual(self.counted(watcher)["delvoumi_journal_held_entries"], 0)

    def test_a_service_that_is_missing_is_none_that_is_away(self) -> None:
        with Server([{"name": "ship"}]) as other:
            watcher = Watcher(other.address, {"pay": None, "ship": None})
            self.addCleanup(watcher.close)
            found = self.counted(watcher)
            self.assertEqual((found["delvoumi_up"], found["delvoumi_service_missing"]), (0, 1))
            shown = watcher.services[0].shown()
            self.assertEqual((shown["trouble"], shown["missing"]), ("the sidecar has no service of this name", True))
            self.assertEqual(watcher.services[1].trouble, "")
        found = self.counted(watcher)
        self.assertEqual((found["delvoumi_up"], found["delvoumi_service_missing"]), (0, 0))
        self.assertEqual(self.shown_states(watcher), ["MISSING", ""])

    def test_it_takes_one_connection(self) -> None:
        with Server(SERVICES, workers=1) as narrow:
            watcher = Watcher(narrow.address, {"pay": None, "ship": None})
            for _ in range(2):
                watcher.turn()
            self.assertEqual([service.trouble for service in watcher.services], ["", ""])
            watcher.close()

    @unittest.skipUnless(shutil.which("promtool"), NO_PROMTOOL)
    def test_promtool_takes_them(self) -> None:
        self.some_calls()
        watcher = self.watcher()
        watcher.turn()
        given = Metrics(watcher).text()
        ran = subprocess.run(["promtool", "check", "metrics"], input=given, capture_output=True, check=False)
        self.assertEqual((ran.returncode, ran.stderr, ran.stdout), (0, b"", b""))


class AlertRules(Case):
    def test_they_are_over_metrics_that_are_there(self) -> None:
        watcher = self.watcher()
        watcher.turn()
        metrics = Metrics(watcher).text().decode()
        exported = {sample.name for family in text_string_to_metric_families(metrics) for sample in family.samples}
        with open(ALERTS, encoding="utf-8") as file:
            cited = set(re.findall(r"(?:resilience4j|delvoumi)_\w+", file.read()))
        self.assertGreater(len(cited), 9)
        self.assertEqual(cited - exported, set())

    @unittest.skipUnless(shutil.which("promtool"), NO_PROMTOOL)
    def test_promtool_takes_them_and_they_fire_where_they_should(self) -> None:
        tests = f"{TOP}/contrib/watch/tests/alerts_test.yml"
        for words in (["check", "rules", ALERTS], ["test", "rules", tests]):
            ran = subprocess.run(["promtool", *words], capture_output=True, text=True, timeout=60, check=False)
            self.assertEqual((ran.returncode, ran.stderr), (0, ""), ran.stdout)


class FilesAreFollowed(unittest.TestCase):
    def test_those_that_came_and_went_between_two_looks(self) -> None:
        with tempfile.TemporaryDirectory() as folder:
            journal, files = Journal(folder, "pay", 1), Files(folder, "pay")
            journal.append([entry(1, 5)])
            self.assertEqual([each["number"] for each in files.take()], [1])
            for number in range(2, 6):
                journal.append([entry(number, 5)])
            self.assertEqual([each["number"] for each in files.take()], [2, 3, 4, 5])
            with open(f"{folder}/pay.jsonl", "a", encoding="utf-8") as file:
                file.write(text := json.dumps(entry(6, 7))[:20])
                file.flush()
                self.assertEqual(files.take(), [])
                file.write(json.dumps(entry(6, 7))[len(text) :] + "\n")
            self.assertEqual([each["number"] for each in files.take()], [6])
            files.close()
            self.assertEqual((files.missed, files.runs), (0, 1))


class WithWeb(Case):
    """A watcher in a process of its own."""

    def setUp(self) -> None:
        super().setUp()
        file = f"{self.folder}/sidecar.json"
        with open(file, "w", encoding="utf-8") as settings:
            json.dump({"services": SERVICES}, settings)
        self.url = self.watching("--services-of", file)

    def watching(self, *words: str) -> str:
        """Starts a watcher, which ends with the test, and returns where it is asked."""
        words = (self.server.address, *words, "--listen", "127.0.0.1:0", "--every", str(INTERVAL))
        command = ["timeout", "120", sys.executable, WATCH, *words]
        process = subprocess.Popen(command, stdout=subprocess.PIPE, text=True)

        def end() -> None:
            process.terminate()
            self.assertEqual(process.wait(20), 0)
            assert process.stdout
            process.stdout.close()

        self.addCleanup(end)
        assert process.stdout
        return process.stdout.readline().split()[-1]

    def get(self, path: str) -> str:
        with urllib.request.urlopen(self.url + path, timeout=10) as answer:
            text: str = answer.read().decode()
            return text


class EventsAreSent(WithWeb):
    def test_as_a_stream_and_as_lines(self) -> None:
        self.call(200)
        connection = http.client.HTTPConnection(self.url.split("/")[2], timeout=20)
        connection.request("GET", "/events")
        stream = connection.getresponse()
        self.assertEqual(stream.headers["Content-Type"], "text/event-stream")
        found = [self.event(stream) for _ in range(2)]
        self.call(503)
        found += [self.event(stream) for _ in range(2)]
        self.assertEqual([number for number, _ in found], [1, 2, 3, 4])
        events = [(each["service"], each["event"], each["number"]) for _, each in found]
        self.assertEqual(events, [("pay", name, at) for at, name in enumerate(["acquire", "report"] * 2, 1)])
        connection.close()
        connection.request("GET", "/events", headers={"Last-Event-ID": "3"})
        self.assertEqual(self.event(connection.getresponse())[0], 4)
        connection.close()
        lines = [json.loads(line) for line in self.get("events.jsonl").splitlines()]
        self.assertEqual(lines, [each for _, each in found])

    def event(self, stream: Any) -> tuple[int, dict[str, Any]]:
        """Returns the next event of a stream."""
        number = None
        while line := stream.readline().decode():
            if line.startswith("id: "):
                number = int(line[4:])
            elif line.startswith("data: ") and number is not None:
                return number, json.loads(line[6:])
        raise AssertionError("the stream ended")

    def test_metrics_and_nothing_else_are_served(self) -> None:
        wait_for(lambda: samples_of(self.get("metrics")).get("delvoumi_up") == 1, "the service is asked")
        with self.assertRaises(urllib.error.HTTPError) as missing:
            self.get("../watch")
        self.assertEqual(missing.exception.code, 404)
        missing.exception.close()
        page = self.get("")
        self.assertEqual(re.findall(r'(?:src|href)="([^"]*)"', page), ["data:,", "page.css", "page.js"])


@unittest.skipUnless(chromium.found(), "there is no Chromium here: Debian has it in the package chromium")
class ThePageShows(WithWeb):
    def shown(self, browser: chromium.Chromium, service: str, part: str = ".state") -> str:
        """Returns the text of a part of a service's card."""
        query = f"[data-service={service}] {part}"
        return str(browser.value(f"(document.querySelector({query!r}) || {{}}).innerText"))

    def within_two_intervals(self, browser: chromium.Chromium, service: str, state: str) -> None:
        # Some time is for drawing, and for a machine that is busy.
        begun = time.monotonic()
        wait_for(lambda: self.shown(browser, service) == state, f"the page shows {state}", 2 * INTERVAL + 1)
        self.slowest = max(self.slowest, time.monotonic() - begun)

    def test_each_change_of_state_within_two_intervals(self) -> None:
        self.slowest = 0.0
        with chromium.Chromium(1280, 900, "light") as browser:
            browser.open(self.url)
            wait_for(lambda: self.shown(browser, "pay") == "CLOSED", "the page is drawn")
            for status in (200, 500, 500, 500, 500):
                self.call(status)
            self.within_two_intervals(browser, "pay", "OPEN")
            for state in ("HALF_OPEN", "FORCED_OPEN", "DISABLED", "METRICS_ONLY", "CLOSED"):
                self.server.move(state)
                self.within_two_intervals(browser, "pay", state.replace("_", " "))
            self.assertEqual(self.shown(browser, "ship"), "CLOSED")
            bars = browser.value(
                "[...document.querySelectorAll('[data-service=pay] .timeline rect')].map(b => b.classList[0])"
            )
            self.assertEqual(bars[-6:], ["OPEN", "HALF_OPEN", "FORCED_OPEN", "DISABLED", "METRICS_ONLY", "CLOSED"])
            self.assertEqual(self.shown(browser, "pay", ".changes li").split("\n")[-1].split()[-1], "transition")
            lines = browser.value("document.querySelectorAll('[data-service=pay] .rates line').length")
            self.assertEqual(lines, 2)
            self.server.stop()
            self.within_two_intervals(browser, "pay", "NO ANSWER")
        print(f"watch: the slowest change was shown after {self.slowest:.1f} s, at an interval of {INTERVAL} s")

    def test_a_service_that_is_missing(self) -> None:
        url = self.watching("pay", "none")
        with chromium.Chromium(1280, 900, "light") as browser:
            browser.open(url)
            wait_for(lambda: self.shown(browser, "none") == "NO SUCH SERVICE", "the missing service is told")
            self.assertEqual(self.shown(browser, "none", ".about"), "the sidecar has no service of this name")
            self.assertEqual(self.shown(browser, "pay"), "CLOSED")

    def test_on_each_screen_in_dark_and_light(self) -> None:
        self.some_history()
        for name, width, height, scheme in [
            ("light", 1280, 860, "light"),
            ("dark", 1280, 860, "dark"),
            ("phone", 390, 844, "dark"),
        ]:
            with chromium.Chromium(width, height, scheme) as browser:
                browser.open(self.url)
                wait_for(lambda: self.shown(browser, "pay") == "OPEN", "the page is drawn")
                wide = browser.value("document.documentElement.scrollWidth")
                self.assertLessEqual(wide, width)
                letters = browser.value("parseFloat(getComputedStyle(document.querySelector('.state')).fontSize)")
                self.assertGreaterEqual(letters, 38 if width < 600 else 64)
                back = browser.value("getComputedStyle(document.body).backgroundColor")
                self.assertEqual(back, "rgb(244, 245, 247)" if scheme == "light" else "rgb(15, 17, 21)")
                if PICTURES:
                    browser.picture(f"{PICTURES}/{name}.png")

    def some_history(self) -> None:
        """Lets rates go up and down, and a breaker open. For pictures it takes longer."""
        pause = 0.4 if PICTURES else 0
        for status in [200] * 6 + [500, 200, 200, 500, 200, 200, 200, 200, 200, 200] * (3 if PICTURES else 0):
            self.call(status, duration_ms=70_000 if status == 500 else 10)
            slow = self.server.state("total", service="ship")[0] % 3 == 0
            self.call(500 if pause and status == 500 else 200, "ship", duration_ms=70_000 if slow else 10)
            time.sleep(pause)
        self.server.ask("POST", "acquire", service="ship")
        while self.server.state("state") != ["OPEN"]:
            self.call(500)
            time.sleep(pause)
        for _ in range(7):
            self.server.ask("POST", "acquire")
        wait_for(lambda: '"OPEN"' in self.get("status.json"), "the watcher has seen it")


class TheCommand(Case):
    def test_once(self) -> None:
        ran = subprocess.run(
            [sys.executable, WATCH, self.server.address, "pay", "--once"], capture_output=True, timeout=30
        )
        self.assertEqual((ran.returncode, samples_of(ran.stdout.decode())[f"{BREAKER}_state closed"]), (0, 1))
        ran = subprocess.run([sys.executable, WATCH, NOBODY, "pay", "--once"], capture_output=True, timeout=30)
        self.assertEqual((ran.returncode, samples_of(ran.stdout.decode())["delvoumi_up"]), (1, 0))

    def test_a_library_that_is_missing_is_named(self) -> None:
        with open(f"{self.folder}/sitecustomize.py", "w", encoding="utf-8") as file:
            file.write("import sys\nsys.modules['prometheus_client'] = None\n")
        ran = subprocess.run(
            [sys.executable, WATCH, self.server.address, "pay", "--once"],
            env={**os.environ, "PYTHONPATH": self.folder},
            capture_output=True,
            text=True,
            timeout=30,
        )
        told = "watch: prometheus_client is missing: apt-get install python3-prometheus-client, or pip install it\n"
        self.assertEqual((ran.returncode, ran.stdout, ran.stderr), (1, "", told))


if __name__ == "__main__":
    unittest.main()
