"""One connection to a sidecar, which is kept, and opened again where it was closed meanwhile.

What is received is kept until the next message is sent. So where an interrupt comes while an answer is read, or behind
it, the answer isn't lost: it may be received again.
"""

import json
import re
import select
import socket
import time
import urllib.parse
from typing import Any

from .errors import NoAnswer

# The sidecar closes a connection that is silent for 75 seconds. One that was silent for so long isn't used any more.
MOST_SECONDS_OF_SILENCE = 60.0
# A page of the journal is the longest answer: 100 entries, each of which has less than 300 bytes.
LONGEST_ANSWER = 1 << 16
STATUS_LINE = re.compile(rb"HTTP/1\.[01] (\d{3})(?: .*)?")
CONTENT_LENGTH = re.compile(rb"(?im)^content-length:[ \t]*(\d+)[ \t]*\r?$")
CLOSES = re.compile(rb"(?im)^connection:[ \t]*close[ \t]*\r?$")


def place_of(address: str) -> tuple[str, int]:
    """Returns the host and the port of an address, which may be written as a URL."""
    parts = urllib.parse.urlsplit(address if "//" in address else f"//{address}")
    if parts.scheme not in ("", "http") or parts.hostname is None or parts.port is None:
        raise ValueError(f"{address!r} is no address with a port")
    return parts.hostname, parts.port


class Connection:
    """A connection that one thread uses at a time. The first message opens it, and the next one after a failure.

    One that isn't `reopened` is opened by `open` alone: all that is asked over it is asked of one run of a sidecar."""

    def __init__(self, address: str, seconds: float, reopened: bool = True) -> None:
        self._socket: socket.socket | None = None
        self._place = place_of(address)
        self._host = urllib.parse.urlsplit(address if "//" in address else f"//{address}").netloc
        self._seconds, self._reopened = seconds, reopened
        # What was received, filled up with zeros, which no answer has.
        self._received = bytearray(LONGEST_ANSWER + 1)
        self._used_at = 0.0

    def __del__(self) -> None:
        """A thread that ends leaves its connection: it is closed with the last word of it."""
        if getattr(self, "_socket", None) is not None:
            self.close()

    @property
    def is_open(self) -> bool:
        """Whether the connection is open, as far as this side knows."""
        return self._socket is not None

    def open(self) -> None:
        """Opens the connection."""
        try:
            self._socket = socket.create_connection(self._place, timeout=self._seconds)
            self._socket.setsockopt(socket.IPPROTO_TCP, socket.TCP_NODELAY, 1)
        except OSError as error:
            self.close()
            raise NoAnswer(f"no answer: {error}") from error
        self._used_at = time.monotonic()

    def close(self) -> None:
        """Closes the connection."""
        if self._socket is not None:
            self._socket.close()
            self._socket = None

    def ask(self, method: str, path: str, body: bytes | None = None) -> tuple[int, dict[str, Any]]:
        """Sends a message, and returns the status and the JSON of its answer."""
        try:
            self.send(method, path, body)
            return self.receive()
        except BaseException:
            # The answer may come later, and would be taken for that of the next message.
            self.close()
            raise

    def send(self, method: str, path: str, body: bytes | None) -> None:
        """Sends a message, and raises NoAnswer where it couldn't be sent whole: then nothing was done for it.

        Where a kept connection turns out to be closed, the message is sent over a new one, once."""
        if self._reopened and self.is_open and self._is_closed_by_now():
            self.close()
        may_repeat = self._reopened and self.is_open
        try:
            self._send_once(method, path, body or b"")
        except NoAnswer:
            if not may_repeat:
                raise
            self._send_once(method, path, body or b"")

    def receive(self) -> tuple[int, dict[str, Any]]:
        """Returns the status and the JSON of the answer. Where it raises, the message may have been answered.

        Where no answer came in time, or an interrupt came, the connection is still open, and this may be tried again.
        """
        end = time.monotonic() + self._seconds
        try:
            while (found := _answer_of(self._text())) is None:
                self._receive_some(max(0.001, end - time.monotonic()))
        except TimeoutError as error:
            raise NoAnswer(f"no answer: {error}") from error
        except (OSError, ValueError) as error:
            self.close()
            raise NoAnswer(f"no answer: {error}") from error
        self._used_at = time.monotonic()
        status, answer, closes = found
        if closes:
            self.close()
        return status, answer

    def has_answer(self, seconds: float) -> bool:
        """Returns whether an answer, or the connection's end, is there or comes in so many seconds."""
        if self._socket is None or self._text():
            return True
        poll = select.poll()
        poll.register(self._socket, select.POLLIN)
        return bool(poll.poll(seconds * 1000))

    def _text(self) -> bytes:
        """Returns what was received since the last message."""
        return bytes(self._received[: self._received.index(0)])

    def _receive_some(self, seconds: float) -> None:
        """Receives some of an answer. It is written behind the rest in one step, so that an interrupt loses nothing."""
        filled = self._received.index(0)
        if self._socket is None:
            raise ConnectionError("the connection is closed")
        if filled >= LONGEST_ANSWER:
            raise ValueError("the answer is too long")
        self._socket.settimeout(seconds)
        with memoryview(self._received) as received, received[filled:LONGEST_ANSWER] as room:
            if not self._socket.recv_into(room):
                raise ConnectionError("the connection was closed")

    def _is_closed_by_now(self) -> bool:
        """Returns whether a kept connection has ended. The sidecar sends nothing unasked, so what comes is its end."""
        self._forget()
        return time.monotonic() - self._used_at > MOST_SECONDS_OF_SILENCE or self.has_answer(0)

    def _forget(self) -> None:
        """Forgets what was received."""
        filled = self._received.index(0)
        self._received[:filled] = bytes(filled)

    def _send_once(self, method: str, path: str, body: bytes) -> None:
        self._forget()
        if self._socket is None:
            if not self._reopened and self._used_at:
                raise NoAnswer("no answer: the connection was closed")
            self.open()
        head = f"{method} {path} HTTP/1.1\r\nHost: {self._host}\r\nContent-Length: {len(body)}\r\n\r\n"
        try:
            assert self._socket is not None
            self._socket.settimeout(self._seconds)
            self._socket.sendall(head.encode() + body)
        except OSError as error:
            self.close()
            raise NoAnswer(f"no answer: {error}") from error


def _answer_of(text: bytes) -> tuple[int, dict[str, Any], bool] | None:
    """Returns the status and the JSON of an answer, and whether the connection is closed behind it.

    None where the text is only its beginning. Raises ValueError where it is no answer of a sidecar."""
    head, end, body = text.partition(b"\r\n\r\n")
    if not end:
        return None
    status_line = STATUS_LINE.fullmatch(head.split(b"\r\n")[0])
    length = CONTENT_LENGTH.search(head)
    if not status_line or not length:
        raise ValueError(head[:60].decode("ascii", "replace"))
    if len(body) < int(length[1]):
        return None
    status, found = int(status_line[1]), json.loads(body[: int(length[1])])
    if not isinstance(found, dict) or status != 200 and not {"error", "name"} <= found.keys():
        raise ValueError(f"status {status}, and no JSON of a sidecar")
    return status, found, bool(CLOSES.search(head))
