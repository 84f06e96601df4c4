"""Shows by calls that really fail that each of them counts as a failure, through each library."""

import asyncio
import errno
import importlib
import os
import re
import ssl
import subprocess
import unittest
import unittest.mock
from collections.abc import Callable, Iterator
from typing import Any

import delvoumi
import httpx
import requests
from delvoumi.httpx import BreakerTransport
from delvoumi.kinds import KIND_OF_CLASS
from delvoumi.requests import BreakerAdapter
from delvoumi_rules.main import read_rules
from delvoumi_rules.program import verified
from test_client import Reset
from testbed import NOBODY, PROGRAM, TOP, Listener, Server

README = f"{TOP}/contrib/client/README.md"
RULES = f"{TOP}/contrib/rules/examples"
# Where the classes of a package are found.
MODULES = {
    "requests": "requests.exceptions",
    "urllib3": "urllib3.exceptions",
    "http": "http.client",
}
PACKAGES = {
    "Python": ["builtins", "socket", "ssl", "http"],
    "`requests`": ["requests"],
    "`urllib3`": ["urllib3"],
    "`httpx`": ["httpx"],
    "`httpcore`": ["httpcore"],
}
SECONDS = 0.3
TLS = ssl.create_default_context()
# Such a name is too long for any server of names, so that none is asked.
NO_HOST = ".".join(["x" * 63] * 4)


class Ending(Listener):
    """Takes a message, answers it with some bytes, and closes the connection."""

    def __init__(self, answer: bytes) -> None:
        self.answer = answer
        super().__init__()

    def serve(self, connection: Any) -> None:
        connection.recv(1 << 16)
        connection.sendall(self.answer)


class Silent(Listener):
    """Takes a message, and answers nothing."""

    def serve(self, connection: Any) -> None:
        while connection.recv(1 << 16):
            pass


def by_requests(breaker: delvoumi.Breaker, url: str) -> None:
    """Asks for a URL through `requests`."""
    with requests.Session() as session:
        session.trust_env = False
        session.mount("http://", BreakerAdapter(breaker))
        session.mount("https://", BreakerAdapter(breaker))
        session.get(url, timeout=SECONDS)


def by_httpx(breaker: delvoumi.Breaker, url: str) -> None:
    """Asks for a URL through `httpx`."""
    with httpx.Client(transport=BreakerTransport(breaker, httpx.HTTPTransport(verify=TLS))) as client:
        client.get(url, timeout=SECONDS)


def by_httpx_in_asyncio(breaker: delvoumi.Breaker, url: str) -> None:
    """Asks for a URL through an `AsyncClient` of `httpx`."""

    async def ask() -> None:
        transport = BreakerTransport(breaker, httpx.AsyncHTTPTransport(verify=TLS))
        async with httpx.AsyncClient(transport=transport) as client:
            await client.get(url, timeout=SECONDS)

    asyncio.run(ask())


def in_a_block(breaker: delvoumi.Breaker, url: str) -> None:
    """Asks for a URL through `requests` in a block."""
    with breaker.call() as call, requests.Session() as session:
        session.trust_env = False
        call.response(session.get(url, timeout=SECONDS))


WAYS: list[Callable[[delvoumi.Breaker, str], None]] = [by_requests, by_httpx, by_httpx_in_asyncio, in_a_block]


def classifiers_of_examples() -> dict[str, tuple[bytes, int]]:
    """Returns the classifiers of the examples, with their layouts."""
    found = {}
    for name in ("server_errors", "slow_calls", "error_bodies", "test_tenants"):
        with open(f"{TOP}/examples/{name}.asm", encoding="utf-8") as text:
            made = subprocess.run([PROGRAM, "asm"], stdin=text, capture_output=True, text=True, check=True)
        found[f"asm_{name}"] = bytes.fromhex(made.stdout.strip()), 1
    for name in sorted(os.listdir(RULES)):
        if name.endswith(".toml"):
            classifier = verified(read_rules(f"{RULES}/{name}"))
            found[f"rules_{name.removesuffix('.toml')}"] = classifier.code, classifier.layout
    return found


class RealFailures(unittest.TestCase):
    def setUp(self) -> None:
        classifiers = classifiers_of_examples()
        names = ["default", *classifiers]
        self.server = Server([{"name": name} for name in names])
        self.addCleanup(self.server.__exit__)
        self.breakers = {name: delvoumi.breaker(self.server.address, name, delvoumi.FAIL_CLOSED) for name in names}
        for name, breaker in self.breakers.items():
            self.addCleanup(breaker.close)
            if name in classifiers:
                breaker.sidecar.install(*classifiers[name])

    def url_of(self, listener: Listener, scheme: str = "http") -> str:
        self.addCleanup(listener.close)
        return f"{scheme}://{listener.address}/"

    def failures(self) -> Iterator[tuple[str, str, str]]:
        """Yields what fails, as which kind, and where."""
        half = b"HTTP/1.1 200 OK\r\nContent-Length: 100\r\n\r\nabc"
        chunk = b"HTTP/1.1 200 OK\r\nTransfer-Encoding: chunked\r\n\r\n10\r\nabc"
        packed = b"HTTP/1.1 200 OK\r\nContent-Encoding: gzip\r\nContent-Length: 3\r\n\r\nabc"
        yield "no answer in time", "timeout", self.url_of(Silent())
        yield "refused", "refused", f"http://{NOBODY}/"
        yield "unknown host", "refused", f"http://{NO_HOST}/"
        yield "no TLS", "refused", self.url_of(Ending(b"HTTP/1.1 400 Bad Request\r\n\r\n"), "https")
        yield "closed without an answer", "reset", self.url_of(Ending(b""))
        yield "reset", "reset", self.url_of(Reset())
        yield "half a body", "reset", self.url_of(Ending(half))
        yield "half a chunk", "reset", self.url_of(Ending(chunk))
        yield "another protocol", "reset", self.url_of(Ending(b"SSH-2.0-OpenSSH_9.2\r\n"))
        yield "a body that can't be unpacked", "reset", self.url_of(Ending(packed))

    def test_each_counts_as_a_failure_through_each_library(self) -> None:
        for what, kind, url in self.failures():
            for way in WAYS:
                with self.subTest(what, way=way.__name__):
                    (outcome,) = self.told(way, url)
                    self.assertEqual(outcome["kind"], kind)
                    self.assertEqual(set(self.verdicts(outcome).items()), {(name, "failure") for name in self.breakers})
        total, failed, tickets = self.server.state("total", "failed", "open", service="default")
        self.assertEqual((total - failed, tickets), (0, 0))

    def told(self, way: Callable[[delvoumi.Breaker, str], None], url: str) -> list[dict[str, Any]]:
        """Makes a call that fails, and returns the outcomes that were reported of it."""
        breaker = self.breakers["default"]
        found = []
        report = breaker.sidecar.report

        def listening(ticket: delvoumi.Ticket, outcome: Any) -> delvoumi.Report:
            found.append(dict(outcome))
            return report(ticket, outcome)

        with unittest.mock.patch.object(breaker.sidecar, "report", listening):
            try:
                way(breaker, url)
            except (requests.RequestException, httpx.HTTPError, ssl.SSLError):
                pass
        return found

    def verdicts(self, outcome: dict[str, Any]) -> dict[str, str | None]:
        """Returns what the classifier of each service says of an outcome."""
        reports = {name: it.sidecar.report(it.sidecar.acquire(), outcome) for name, it in self.breakers.items()}
        return {name: report.verdict for name, report in reports.items()}


class TheTable(unittest.TestCase):
    def test_the_callers_own_errors_are_none_of_the_service(self) -> None:
        own = ValueError("a mistake"), requests.exceptions.InvalidURL("no host"), httpx.UnsupportedProtocol("none")
        for error in own:
            self.assertEqual(delvoumi.kind_of(error), "error")
        for number in (errno.EMFILE, errno.EADDRNOTAVAIL):
            wrapped = requests.ConnectionError(OSError(number, os.strerror(number)))
            self.assertEqual(delvoumi.kind_of(wrapped), "error")

    def test_the_error_that_says_more_counts(self) -> None:
        no_route = OSError(errno.EHOSTUNREACH, os.strerror(errno.EHOSTUNREACH))
        for error, kind in (
            (requests.ConnectionError(), "reset"),
            (requests.ConnectionError(TimeoutError()), "timeout"),
            (requests.ConnectionError(ConnectionRefusedError()), "refused"),
            (requests.exceptions.ConnectTimeout(), "timeout"),
            (no_route, "refused"),
            (BrokenPipeError(), "reset"),
        ):
            self.assertEqual((error, delvoumi.kind_of(error)), (error, kind))

    def test_it_names_classes_that_are_there(self) -> None:
        for row, kind in KIND_OF_CLASS.items():
            package, name = row.split(".")
            named = getattr(importlib.import_module(MODULES.get(package, package)), name)
            found = f"{named.__module__.partition('.')[0]}.{named.__name__}"
            self.assertEqual((found, kind), (row, kind))

    def test_the_readme_has_it(self) -> None:
        with open(README, encoding="utf-8") as file:
            text = file.read()
        heads, *rows = re.findall(r"^\| (kind|`(?:timeout|refused|reset)`) \| [^|]* \|(.*)\|$", text, re.M)
        columns = [head.strip() for head in heads[1].split("|")]
        found = set()
        for kind, cells in rows:
            for column, cell in zip(columns, cells.split("|"), strict=True):
                names = re.findall(r"`(\w+)`", cell)
                packages = [package for words, them in PACKAGES.items() if words in column for package in them]
                found |= {(f"{package}.{name}", kind.strip("`")) for package in packages for name in names}
        # A column of Python has classes of several modules, and that of httpx those of httpcore too, which has fewer.
        self.assertLessEqual(set(KIND_OF_CLASS.items()), found)
        short = {row.split(".")[1]: kind for row, kind in KIND_OF_CLASS.items()}
        self.assertEqual({(row.split(".")[1], kind) for row, kind in found} - set(short.items()), set())


if __name__ == "__main__":
    unittest.main()
