"""Serves the metrics, the events and the page over HTTP."""

import http.server
import json
import os
import socket
import threading
import urllib.parse
from collections.abc import Callable
from typing import Any

from .metrics import Metrics
from .watcher import Watcher

PAGE = os.path.join(os.path.dirname(os.path.realpath(__file__)), "page")
STATIC = {
    "/": ("index.html", "text/html; charset=utf-8"),
    "/page.js": ("page.js", "text/javascript; charset=utf-8"),
    "/page.css": ("page.css", "text/css; charset=utf-8"),
}
METRICS_TYPE = "text/plain; version=0.0.4; charset=utf-8"
# Everything that the page shows comes from here.
POLICY = "default-src 'none'; script-src 'self'; style-src 'self'; connect-src 'self'; img-src data:"
SECONDS_OF_SILENCE = 30
MOST_STREAMS = 16


class Web(http.server.ThreadingHTTPServer):
    """Listens, and answers with what a watcher knows."""

    daemon_threads = True

    def __init__(self, host: str, port: int, watcher: Watcher, seconds: float) -> None:
        self.watcher, self.seconds = watcher, seconds
        self.metrics = Metrics(watcher)
        self.streams = threading.Semaphore(MOST_STREAMS)
        if ":" in host:
            self.address_family = socket.AF_INET6
        super().__init__((host, port), Answer)

    def handle_error(self, *_: Any) -> None:
        """Says nothing where a client goes away."""


class Answer(http.server.BaseHTTPRequestHandler):
    """Answers one request. Nothing can be changed from here."""

    protocol_version = "HTTP/1.1"
    timeout = SECONDS_OF_SILENCE
    server: Web

    def do_GET(self) -> None:
        path, _, query = self.path.partition("?")
        routes: dict[str, Callable[[], None]] = {
            "/metrics": lambda: self.send(self.server.metrics.text(), METRICS_TYPE),
            "/status.json": lambda: self.send(self.status(), "application/json"),
            "/events": lambda: self.stream(self.last_seen(query)),
            "/events.jsonl": self.lines,
        }
        if path in STATIC:
            name, kind = STATIC[path]
            with open(f"{PAGE}/{name}", "rb") as file:
                self.send(file.read(), kind)
        elif path in routes:
            routes[path]()
        else:
            self.send_error(404)

    def send(self, body: bytes, kind: str) -> None:
        """Sends a whole answer."""
        self.send_response(200)
        self.send_header("Content-Type", kind)
        self.send_header("Content-Length", str(len(body)))
        self.send_header("Cache-Control", "no-store")
        self.send_header("Content-Security-Policy", POLICY)
        self.send_header("X-Content-Type-Options", "nosniff")
        self.end_headers()
        self.wfile.write(body)

    def status(self) -> bytes:
        """Returns what the page shows."""
        watcher = self.server.watcher
        with watcher.lock:
            services = [service.shown() for service in watcher.services]
            return json.dumps({"seconds": self.server.seconds, "services": services}).encode()

    def lines(self) -> None:
        """Sends the last entries as lines of JSON."""
        text = "".join(f"{line}\n" for _, line in self.server.watcher.events.since(0))
        self.send(text.encode(), "application/jsonl")

    def last_seen(self, query: str) -> int:
        """Returns the number of the last entry that a client has seen. A browser tells it when it comes again."""
        told = self.headers.get("Last-Event-ID") or urllib.parse.parse_qs(query).get("since", ["0"])[0]
        return int(told) if told.isascii() and told.isdigit() else 0

    def stream(self, number: int) -> None:
        """Sends entries as server-sent events, the last ones and then what comes, until the client goes away."""
        if not self.server.streams.acquire(blocking=False):
            self.send_error(503)
            return
        try:
            self.send_response(200)
            self.send_header("Content-Type", "text/event-stream")
            self.send_header("Cache-Control", "no-store")
            self.send_header("Connection", "close")
            self.end_headers()
            self.close_connection = True
            for lines in self.server.watcher.events.follow(number):
                text = "".join(f"id: {at}\ndata: {line}\n\n" for at, line in lines) or ": still here\n\n"
                self.wfile.write(text.encode())
                self.wfile.flush()
        finally:
            self.server.streams.release()

    def log_message(self, *_: Any) -> None:
        """Says nothing."""
