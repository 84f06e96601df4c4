"""Shows against a server that each ticket ends, and what a client does where something goes wrong."""

import gc
import http.server
import os
import signal
import subprocess
import threading
import time
import unittest
import unittest.mock
from typing import Any

import delvoumi
import httpx
import requests
from delvoumi.httpx import BreakerTransport
from delvoumi.requests import BreakerAdapter
from testbed import NOBODY, PROGRAM, Fixed, Listener, Relay, Server, wait_for

FULL = b'{"error":37,"name":"JournalFull"}'


class Guarded(http.server.BaseHTTPRequestHandler):
    """The service that is called. It answers with the status that the path names, after as many milliseconds."""

    protocol_version = "HTTP/1.1"

    def do_GET(self) -> None:
        _, status, wait = self.path.split("/")
        self.rfile.read(int(self.headers.get("Content-Length", 0)))
        time.sleep(int(wait) / 1000)
        body = b'{"status":' + status.encode() + b"}"
        self.send_response(int(status))
        self.send_header("Content-Length", str(len(body)))
        self.end_headers()
        self.wfile.write(body)

    do_POST = do_GET

    def log_message(self, *_: Any) -> None:
        """Says nothing."""


class Called(http.server.ThreadingHTTPServer):
    """Serves that. Clients that go away before the answer are a part of the tests."""

    daemon_threads = True

    def handle_error(self, *_: Any) -> None:
        """Says nothing."""


class Reset(Listener):
    """Takes a message, and resets the connection."""

    def serve(self, connection: Any) -> None:
        connection.recv(1)
        # What is left unread makes the close a reset.


class Dripping(Listener):
    """Answers a message a byte at a time."""

    def __init__(self, answer: bytes, pause: float) -> None:
        self.answer, self.pause = answer, pause
        super().__init__()

    def serve(self, connection: Any) -> None:
        connection.recv(1 << 16)
        for each in self.answer:
            connection.sendall(bytes([each]))
            time.sleep(self.pause)


class Case(unittest.TestCase):
    """A test with a server of its own, and with a service that is called."""

    server: Server
    called: Called

    @classmethod
    def setUpClass(cls) -> None:
        cls.called = Called(("127.0.0.1", 0), Guarded)
        threading.Thread(target=cls.called.serve_forever, daemon=True).start()
        cls.url = "http://127.0.0.1:%d" % cls.called.server_port

    @classmethod
    def tearDownClass(cls) -> None:
        cls.called.shutdown()
        cls.called.server_close()

    def setUp(self) -> None:
        self.server = Server()
        self.addCleanup(self.server.__exit__)
        self.breaker = self.breaker_at(self.server.address)

    def breaker_at(
        self, address: str, choice: delvoumi.Choice = delvoumi.FAIL_CLOSED, **words: Any
    ) -> delvoumi.Breaker:
        made = delvoumi.breaker(address, "pay", choice, **words)
        self.addCleanup(made.close)
        return made

    def events(self) -> list[str]:
        return [entry["event"] for entry in self.server.journal()]

    def replies(self, event: str) -> list[dict[str, Any]]:
        return [entry["reply"] for entry in self.server.journal() if entry["event"] == event]


class EachTicketEnds(Case):
    def test_an_outcome_that_is_told_is_reported(self) -> None:
        with self.breaker.call(attempt=2) as call:
            self.assertEqual(self.server.state("open"), [1])
            call.outcome(status=503, method="get", body=b'{"error"', facts=[1, 2], tag=b"test-1")
        self.assertEqual((call.answer and call.answer.verdict, call.result), ("failure", "failure"))
        self.assertEqual(self.server.state("open", "total", "failed"), [0, 1, 1])

    def test_a_block_that_tells_nothing_is_a_response(self) -> None:
        with self.breaker.call() as call:
            pass
        self.assertEqual(call.result, "success")
        self.assertEqual(self.server.state("open", "total", "failed"), [0, 1, 0])

    def test_an_error_is_reported_and_raised(self) -> None:
        with self.assertRaises(ValueError), self.breaker.call() as call:
            raise ValueError("the response makes no sense")
        self.assertEqual(call.result, "failure")
        self.assertEqual(self.server.state("open", "failed"), [0, 1])

    def test_an_outcome_stands_whatever_is_raised_behind_it(self) -> None:
        for error in (ValueError, KeyboardInterrupt):
            with self.assertRaises(error), self.breaker.call() as call:
                call.outcome(status=200)
                raise error
            self.assertEqual(call.result, "success")
        self.assertEqual(self.server.state("open", "total", "failed"), [0, 2, 0])

    def test_what_says_nothing_of_the_service_is_released(self) -> None:
        for error in (KeyboardInterrupt, SystemExit, GeneratorExit, LookupError):
            with self.assertRaises(error), self.breaker.call(release_on=LookupError) as call:
                raise error
            self.assertEqual(call.result, "released")
        with self.breaker.call() as call:
            call.release()
        self.assertEqual(self.events(), ["acquire", "release"] * 5)
        self.assertEqual(self.server.state("open", "total"), [0, 0])

    def test_a_bad_outcome_is_told_at_once_and_counts_nowhere(self) -> None:
        bad: list[dict[str, Any]] = [
            {"duration_ms": 12.0},
            {"status": "200"},
            {"status": True},
            {"attempt": 1 << 32},
            {"flags": -1},
            {"kind": "late"},
            {"facts": [0] * 17},
            {"tag": b"x" * 33},
            {"tag": "text"},
            {"method": 1},
        ]
        for values in bad:
            with self.assertRaises(delvoumi.BadOutcome), self.breaker.call() as call:
                call.outcome(**values)
        self.assertEqual(self.events(), ["acquire", "release"] * len(bad))

    def test_the_greatest_values_are_taken(self) -> None:
        with self.breaker.call() as call:
            words = {"status": (1 << 32) - 1, "attempt": (1 << 32) - 1}
            long_words = {"duration_ms": (1 << 64) - 1, "flags": (1 << 64) - 1, "facts": [(1 << 64) - 1] * 16}
            call.outcome(**words, **long_words, tag=b"\xff" * 32, body=b"\xff" * 1000, request_bytes=0)
        self.assertEqual(call.result, "failure")

    def test_an_outcome_that_the_sidecar_refuses_is_released(self) -> None:
        with self.assertLogs("delvoumi", "WARNING") as logged, self.breaker.call() as call:
            call.raw_outcome({"duration_ms": 12.5})
        self.assertEqual(call.result, "not reported: 422 BadField")
        self.assertEqual(logged.output, ["WARNING:delvoumi:pay: ticket 1: 422 BadField"])
        self.assertEqual(self.events(), ["acquire", "release"])

    def test_what_is_no_json_is_released_and_told(self) -> None:
        for values in ({"tag": b"bytes"}, {"duration_ms": float("nan")}, 5):
            with self.assertRaises(delvoumi.BadOutcome), self.breaker.call() as call:
                call.raw_outcome(values)  # type: ignore[arg-type]
        self.assertEqual(self.events(), ["acquire", "release"] * 3)
        self.assertEqual(self.breaker.sidecar.settle(), 0)

    def test_an_error_that_cannot_be_looked_at_is_released(self) -> None:
        class Hostile(Exception):
            @property
            def reason(self) -> None:
                raise LookupError("there is no reason")

        with self.assertRaises(LookupError), self.breaker.call():
            raise Hostile
        self.assertEqual(self.events(), ["acquire", "release"])

    def test_a_call_guards_once(self) -> None:
        call = self.breaker.call()
        with call:
            pass
        with self.assertRaises(RuntimeError), call:
            pass
        self.assertEqual(self.server.state("entries", "open"), [2, 0])

    def test_a_generator_that_is_left_releases_its_ticket(self) -> None:
        def lines() -> Any:
            with self.breaker.call():
                yield from ("one", "two")

        for line in lines():
            self.assertEqual((line, self.server.state("open")), ("one", [1]))
            break
        gc.collect()
        self.assertEqual(self.server.state("open"), [0])

    def test_the_decorator(self) -> None:
        @self.breaker.guarded
        def get(status: int, *, wait: int = 0) -> requests.Response:
            return requests.get(f"{self.url}/{status}/{wait}", timeout=5)

        @self.breaker.guarded
        def divide(one: int, other: int) -> float:
            return one / other

        self.assertEqual((get(200).status_code, get(500, wait=5).status_code, divide(6, 2)), (200, 500, 3.0))
        with self.assertRaises(ZeroDivisionError):
            divide(1, 0)
        verdicts = [reply["verdict"] for reply in self.replies("report")]
        self.assertEqual(verdicts, ["success", "failure", "success", "failure"])
        self.assertEqual(get.__name__, "get")

    def test_the_decorator_takes_nothing_that_works_later(self) -> None:
        def generator() -> Any:
            yield 1

        async def coroutine() -> None:
            pass

        async def asynchronous_generator() -> Any:
            yield 1

        for function in (generator, coroutine, asynchronous_generator):
            with self.assertRaises(TypeError):
                self.breaker.guarded(function)

    def test_many_threads(self) -> None:
        def work() -> None:
            for number in range(25):
                with self.breaker.call() as call:
                    call.outcome(status=500 if number % 5 == 0 else 200)

        threads = [threading.Thread(target=work) for _ in range(8)]
        for thread in threads:
            thread.start()
        for thread in threads:
            thread.join()
        self.assertEqual(self.server.state("open", "entries"), [0, 400])
        self.assertEqual(len(self.replies("report")), 200)

    def test_a_process_that_is_forked_has_a_connection_of_its_own(self) -> None:
        with self.breaker.call():
            pass
        child = os.fork()
        if child == 0:
            try:
                with self.breaker.call() as call:
                    call.outcome(status=500)
                os._exit(0 if call.result == "failure" else 1)
            finally:
                os._exit(2)
        with self.breaker.call() as call:
            call.outcome(status=200)
        self.assertEqual((call.result, os.waitpid(child, 0)[1]), ("success", 0))
        self.assertEqual(self.server.state("open", "total", "failed"), [0, 3, 1])


class WhatIsReported(Case):
    """By a classifier that answers by what the adapters filled in, the outcome that arrives is seen."""

    def judged(self, wanted: dict[int, int]) -> None:
        """Installs a classifier that counts an outcome as a success where words of 4 bytes have these values."""
        lines = ["mov r0, 1"]
        left = 2 * len(wanted)
        for offset, value in wanted.items():
            left -= 2
            lines += [f"ldxw r2, [r1+{offset}]", f"jne r2, {value}, +{left + 1}"]
        text = "\n".join([*lines, "mov r0, 0", "exit"])
        self.breaker.sidecar.install(assembled(text))

    def test_requests_fills_in_what_it_knows(self) -> None:
        # Kind, status, the bytes both ways, the attempt, the method and the length of the body.
        self.judged({0: 0, 4: 201, 16: 5, 24: 14, 32: 1, 36: 3, 48: 14, 64: 0x7473227B})
        with requests.Session() as session:
            session.mount("http://", BreakerAdapter(self.breaker))
            response = session.post(f"{self.url}/201/0", data=b"hello", timeout=5)
        self.assertEqual((response.status_code, response.content), (201, b'{"status":201}'))
        self.assertEqual([reply["verdict"] for reply in self.replies("report")], ["success"])

    def test_httpx_fills_in_what_it_knows(self) -> None:
        self.judged({0: 0, 4: 201, 16: 5, 24: 14, 36: 3, 48: 14, 64: 0x7473227B})
        with httpx.Client(transport=BreakerTransport(self.breaker, httpx.HTTPTransport())) as client:
            response = client.post(f"{self.url}/201/0", content=b"hello", timeout=5)
            self.assertEqual((response.status_code, response.json()), (201, {"status": 201}))
            with client.stream("POST", f"{self.url}/201/0", content=b"hello") as streamed:
                self.assertEqual(b"".join(streamed.iter_bytes()), b'{"status":201}')
        self.assertEqual([reply["verdict"] for reply in self.replies("report")], ["success"] * 2)

    def test_a_response_and_an_attempt_are_told_in_a_block(self) -> None:
        self.judged({4: 404, 32: 3, 36: 1})
        with self.breaker.call(attempt=3) as call:
            self.assertEqual(call.response(httpx.get(f"{self.url}/404/0")).status_code, 404)
        with self.breaker.call(attempt=3) as call:
            self.assertEqual(call.response(requests.get(f"{self.url}/404/0", timeout=5)).status_code, 404)
        self.assertEqual([reply["verdict"] for reply in self.replies("report")], ["success"] * 2)

    def test_the_duration_is_that_of_the_call(self) -> None:
        # A success where the duration is from 100 to 299: what comes behind the response counts no more.
        text = "mov r0, 1\nldxdw r2, [r1+8]\njlt r2, 100, +2\njge r2, 300, +1\nmov r0, 0\nexit"
        self.breaker.sidecar.install(assembled(text))
        with self.breaker.call() as call:
            call.response(requests.get(f"{self.url}/200/100", timeout=5))
            time.sleep(0.4)
        self.assertEqual(call.result, "success")

    def kind_that_arrives(self, number: int, ask: Any) -> None:
        self.judged({0: number})
        with self.assertRaises((requests.RequestException, httpx.HTTPError, OSError)), self.breaker.call() as call:
            ask()
        self.assertEqual(call.result, "success")

    def test_each_kind_of_error(self) -> None:
        slow, nobody, reset = f"{self.url}/200/1000", f"http://{NOBODY}/", Reset()
        self.addCleanup(reset.close)
        self.kind_that_arrives(1, lambda: requests.get(slow, timeout=0.2))
        self.kind_that_arrives(1, lambda: httpx.get(slow, timeout=0.2))
        self.kind_that_arrives(2, lambda: requests.get(nobody, timeout=5))
        self.kind_that_arrives(2, lambda: httpx.get(nobody, timeout=5))
        self.kind_that_arrives(3, lambda: requests.get(f"http://{reset.address}/", timeout=5))
        self.kind_that_arrives(3, lambda: httpx.get(f"http://{reset.address}/", timeout=5))
        self.kind_that_arrives(4, lambda: requests.get("nonsense://", timeout=5))

    def test_an_error_that_is_handled_already_has_no_part_in_it(self) -> None:
        self.judged({0: 4})
        try:
            raise TimeoutError("another call")
        except TimeoutError:
            with self.assertRaises(ValueError), self.breaker.call() as call:
                raise ValueError("this call")
        self.assertEqual(call.result, "success")


class WhereCallsAreRefused(Case):
    def test_the_breaker_and_the_bulkhead_refuse_by_errors_of_their_own(self) -> None:
        for choice in delvoumi.Choice:
            self.server.move("FORCED_OPEN")
            breaker = self.breaker_at(self.server.address, choice)
            with self.assertRaises(delvoumi.CallNotPermitted) as raised, breaker.call():
                self.fail("a call is made that isn't permitted")
            self.assertEqual((str(raised.exception), raised.exception.error), ("503 CallNotPermitted", 31))
        self.server.move("CLOSED")
        tickets = [self.breaker.sidecar.acquire() for _ in range(25)]
        with self.assertRaises(delvoumi.BulkheadFull) as full, self.breaker.call():
            self.fail("a call is made that isn't permitted")
        self.assertEqual((str(full.exception), full.exception.status), ("429 BulkheadFull", 429))
        for ticket in tickets:
            self.breaker.sidecar.release(ticket)

    def troubles(self) -> list[tuple[str, str, type[delvoumi.Trouble], str]]:
        answer = b"HTTP/1.1 503 Service Unavailable\r\nContent-Length: %d\r\n\r\n%s"
        full, page = Fixed(answer % (len(FULL), FULL)), Fixed(b"HTTP/1.1 200 OK\r\nContent-Length: 2\r\n\r\nok")
        nonsense, silent = Fixed(b"nonsense\r\n\r\n"), Fixed(b"")
        for one in (full, page, nonsense, silent):
            self.addCleanup(one.close)
        return [
            (NOBODY, "pay", delvoumi.NoAnswer, "no answer: [Errno 111] Connection refused"),
            (self.server.address, "none", delvoumi.NoService, "404 NoService"),
            (full.address, "pay", delvoumi.JournalFull, "503 JournalFull"),
            (silent.address, "pay", delvoumi.NoAnswer, "no answer: timed out"),
            (nonsense.address, "pay", delvoumi.NoAnswer, "no answer: nonsense"),
            (page.address, "pay", delvoumi.NoAnswer, "no answer: Expecting value"),
        ]

    def test_trouble_is_the_callers_choice(self) -> None:
        for address, service, kind, told in self.troubles():
            with self.subTest(told):
                closed = delvoumi.breaker(address, service, delvoumi.FAIL_CLOSED, seconds=0.3)
                with self.assertRaises(kind) as raised, closed.call():
                    self.fail("fail-closed makes no call")
                self.assertEqual(str(raised.exception)[: len(told)], told)
                opened = delvoumi.breaker(address, service, "fail-open", seconds=0.3)
                with self.assertLogs("delvoumi", "WARNING"), opened.call() as call:
                    call.outcome(status=200)
                self.assertEqual(call.result[: len(told) + 11], f"unguarded: {told}")
                with self.assertNoLogs("delvoumi", "WARNING"), opened.call():
                    pass

    def test_a_choice_is_wanted(self) -> None:
        with self.assertRaises(TypeError):
            delvoumi.breaker(self.server.address, "pay")  # type: ignore[call-arg]
        with self.assertRaises(ValueError):
            delvoumi.breaker(self.server.address, "pay", "fail")
        with self.assertRaises(ValueError):
            delvoumi.breaker(self.server.address, "../pay", delvoumi.FAIL_OPEN)


class WhereConnectionsBreak(Case):
    def setUp(self) -> None:
        super().setUp()
        self.relay = Relay(self.server)
        self.addCleanup(self.relay.close)
        self.breaker = self.breaker_at(self.relay.address, seconds=0.5)

    def test_a_silence_costs_nothing(self) -> None:
        # Far above the time that a busy machine takes for an answer.
        self.relay.silence = 0.4
        for _ in range(2):
            with self.breaker.call() as call:
                time.sleep(0.7)
            self.assertEqual(call.result, "success")
            time.sleep(0.7)
        self.assertEqual(self.events(), ["acquire", "report"] * 2)
        self.assertGreater(self.relay.connections, 2)

    def test_an_acquire_that_was_sent_is_not_asked_again(self) -> None:
        for _ in range(2):
            with self.breaker.call():
                pass
        self.relay.lose_answer_to = b"/acquire"
        with self.assertRaises(delvoumi.NoAnswer), self.breaker.call():
            self.fail("a call is made without a ticket")
        self.assertEqual(self.events(), ["acquire", "report"] * 2 + ["acquire"])
        # The connection is closed, so that there is no late answer to wait for.
        self.assertEqual(self.breaker.sidecar.settle(), 0)

    def test_a_report_is_asked_again_and_34_means_that_it_had_arrived(self) -> None:
        with self.breaker.call() as call:
            self.relay.lose_answer_to = b"/report"
            call.outcome(status=503)
        self.assertEqual((call.result, call.problem), ("reported", None))
        self.assertEqual(self.events(), ["acquire", "report"])
        self.assertEqual(self.server.state("open", "failed"), [0, 1])

    def test_a_release_is_asked_again(self) -> None:
        with self.breaker.call() as call:
            self.relay.lose_answer_to = b"/release"
            call.release()
        self.assertEqual((call.result, call.problem), ("released", None))
        self.assertEqual(self.server.state("open"), [0])

    def test_an_answer_that_comes_late_is_no_lost_ticket(self) -> None:
        self.relay.delay_answer_to = b"/acquire"
        with self.assertRaises(delvoumi.NoAnswer), self.breaker.call():
            self.fail("a call is made without a ticket")
        self.assertEqual(self.server.state("open"), [1])
        self.relay.go_on.set()
        wait_for(lambda: self.breaker.sidecar.settle(now=True) == 0, "the late ticket is released")
        self.assertEqual(self.events(), ["acquire", "release"])
        with self.breaker.call() as call:
            pass
        self.assertEqual((call.result, self.server.state("open")), ("success", [0]))

    def test_a_report_that_finds_nobody_is_sent_later(self) -> None:
        with self.assertLogs("delvoumi", "WARNING"), self.breaker.call() as call:
            call.outcome(status=500)
            self.relay.target = NOBODY
            self.breaker.sidecar._connection().close()
        self.assertRegex(call.result, "not reported: no answer")
        self.assertEqual(self.server.state("open"), [1])
        self.relay.target = self.server.address
        self.assertEqual(self.breaker.sidecar.settle(now=True), 0)
        self.assertEqual(self.events(), ["acquire", "report"])
        self.assertEqual(self.server.state("open", "failed"), [0, 1])

    def test_an_interrupt_behind_an_answer_leaves_no_ticket(self) -> None:
        """The answer was received when the interrupt comes: it is received again, and its ticket released."""
        answer_of = delvoumi.connection._answer_of

        def interrupted(text: bytes) -> Any:
            if b"ticket" in text and not interrupts:
                interrupts.append(text)
                raise KeyboardInterrupt
            return answer_of(text)

        interrupts: list[bytes] = []
        with unittest.mock.patch("delvoumi.connection._answer_of", interrupted):
            with self.assertRaises(KeyboardInterrupt), self.breaker.call():
                self.fail("the call is made")
        self.assertEqual(len(interrupts), 1)
        self.assertEqual((self.events(), self.server.state("open")), (["acquire", "release"], [0]))
        with self.breaker.call() as call:
            call.outcome(status=200)
        self.assertEqual(call.result, "success")

    def test_an_interrupt_behind_a_report_reports_once(self) -> None:
        answer_of = delvoumi.connection._answer_of

        def interrupted(text: bytes) -> Any:
            if b"verdict" in text and not interrupts:
                interrupts.append(text)
                raise KeyboardInterrupt
            return answer_of(text)

        interrupts: list[bytes] = []
        with unittest.mock.patch("delvoumi.connection._answer_of", interrupted):
            with self.assertRaises(KeyboardInterrupt), self.breaker.call() as call:
                call.outcome(status=500)
        self.assertEqual((len(interrupts), self.events()), (1, ["acquire", "report"]))
        self.assertEqual((self.server.state("open", "failed"), self.breaker.sidecar.settle()), ([0, 1], 0))

    def test_an_answer_in_small_pieces_is_read_within_the_time_for_all_of_it(self) -> None:
        body = b'{"error":31,"name":"CallNotPermitted"}'
        whole = b"HTTP/1.1 503 Service Unavailable\r\nContent-Length: %d\r\n\r\n%s" % (len(body), body)
        for pause, error in ((0.0, delvoumi.CallNotPermitted), (0.05, delvoumi.NoAnswer)):
            dripping = Dripping(whole, pause)
            self.addCleanup(dripping.close)
            begun = time.monotonic()
            with self.assertRaises(error), self.breaker_at(dripping.address, seconds=1.0).call():
                self.fail("the call is made")
            self.assertLess(time.monotonic() - begun, 3)

    def test_a_sidecar_that_hangs_leaves_no_ticket_open(self) -> None:
        breaker = self.breaker_at(self.server.address, seconds=0.25)
        with breaker.call():
            pass
        self.server.stand_still()
        told = []
        for _ in range(20):
            with self.assertRaises(delvoumi.NoAnswer) as raised, breaker.call():
                self.fail("fail-closed makes no call")
            told.append(str(raised.exception))
        self.assertEqual(
            told, ["no answer: timed out"] * 16 + ["no answer: 16 earlier questions still wait for theirs"] * 4
        )
        self.server.go_on()
        wait_for(lambda: breaker.sidecar.settle(now=True) == 0, "all late tickets are released")
        # A connection that is kept may be closed by the sidecar when it goes on: then its acquire was not done.
        acquired, released = self.events().count("acquire"), [it for it in self.replies("release") if "fate" in it]
        self.assertIn(acquired, (16, 17))
        self.assertEqual((self.server.state("open"), len(released)), ([0], acquired - 1))

    def test_a_report_to_a_sidecar_that_hangs_arrives_once(self) -> None:
        breaker = self.breaker_at(self.server.address, seconds=0.5)
        with breaker.call() as call:
            self.server.stand_still()
            call.outcome(status=500)
        self.assertEqual(call.result, "not reported: no answer: timed out")
        self.server.go_on()
        wait_for(lambda: breaker.sidecar.settle(now=True) == 0, "the report is settled")
        # It was sent more than once. Where two workers judge it at the same time, one of them records it, and the other's
        # refusal is an entry too.
        reports = self.replies("report")
        self.assertEqual([reply["fate"] for reply in reports if "fate" in reply], ["recorded"])
        self.assertLessEqual({reply.get("error") for reply in reports if "fate" not in reply}, {34})
        self.assertEqual(self.server.state("open", "total", "failed"), [0, 1, 1])

    def test_tickets_of_an_earlier_run_are_dropped(self) -> None:
        old = [self.breaker.sidecar.acquire() for _ in range(3)]
        self.server.start_again()
        new = self.breaker.sidecar.acquire()
        self.assertEqual(new.number, 1)
        for ticket in old:
            with self.assertRaises(delvoumi.TicketLost):
                self.breaker.sidecar.report(ticket, {"status": 500})
        self.assertEqual(self.server.state("open", "total"), [1, 0])
        self.assertEqual(self.breaker.sidecar.report(new, {"status": 200}).verdict, "success")

    def test_an_interrupt_that_comes_while_an_acquire_waits_leaves_no_ticket(self) -> None:
        # A shell lets what it runs in the background ignore interrupts.
        before = signal.signal(signal.SIGINT, signal.default_int_handler)
        self.addCleanup(signal.signal, signal.SIGINT, before)
        self.relay.delay_answer_to = b"/acquire"
        breaker = self.breaker_at(self.relay.address, seconds=5)
        main = threading.get_ident()

        def interrupt() -> None:
            wait_for(lambda: self.server.state("open") == [1], "the ticket is issued")
            interrupts.append(main)
            signal.pthread_kill(main, signal.SIGINT)
            self.relay.go_on.set()

        interrupts: list[int] = []
        thread = threading.Thread(target=interrupt)
        thread.start()
        with self.assertRaises(KeyboardInterrupt), breaker.call():
            self.fail("the call is made")
        thread.join()
        wait_for(lambda: breaker.sidecar.settle(now=True) == 0, "the ticket is released")
        self.assertEqual((self.events(), len(interrupts)), (["acquire", "release"], 1))


def assembled(text: str) -> bytes:
    """Returns the bytecode of assembler text."""
    made = subprocess.run([PROGRAM, "asm"], input=text, stdout=subprocess.PIPE, text=True, check=True, timeout=60)
    return bytes.fromhex(made.stdout.strip())


if __name__ == "__main__":
    unittest.main()
