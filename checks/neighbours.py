"""Clients of a server that are together at it: those who stop within a message, honest ones beside them, and many who
come at once.
"""

import math
import re
import selectors
import socket
import threading
import time

STATE = b"GET /v1/services/pay/state HTTP/1.1\r\n\r\n"
HALF_HEAD = b"GET /v1/services/pay/sta"
REST_OF_HEAD = b"te HTTP/1.1\r\n\r\n"
ACQUIRE = b"POST /v1/services/pay/acquire HTTP/1.1\r\n\r\n"
# How soon an honest client is to be answered, and for how long it asks, in seconds.
SOON, SECONDS_OF_HONESTY = 2, 4
# How soon a neighbour goes on, and begins anew, and for how long many who come at once wait.
SECONDS_OF_A_TURN, SECONDS_OF_A_BURST = 0.1, 10


def received(stream):
    """Returns some of what the other side sends, which may not have ended."""
    data = stream.recv(1 << 16)
    if not data:
        raise ConnectionError("the server closed a connection")
    return data


def answers_to(stream, message, count, ending):
    """Sends a message so many times at once, and returns the answers, which end so."""
    stream.sendall(message)
    found = b""
    while found.count(ending) < count:
        found += received(stream)
    return found


class Holder(threading.Thread):
    """A neighbour who holds as many connections as may be open, each within a message, and begins anew where one is closed.
    One who goes on ends each message after a moment, and begins the next one with the same bytes."""

    def __init__(self, server, count, goes_on):
        super().__init__()
        self.server, self.count, self.goes_on = server, count, goes_on
        self.held, self.is_over = [], threading.Event()

    def __enter__(self):
        self.start()
        return self

    def __exit__(self, *_):
        self.is_over.set()
        self.join()

    def run(self):
        while not self.is_over.wait(SECONDS_OF_A_TURN):
            self.held = [it for it in self.held if self.is_kept(it)]
            while len(self.held) < self.count and (stream := self.begun()):
                self.held.append(stream)
        for stream in self.held:
            stream.close()

    def begun(self):
        """Returns a new connection that is within a message, or None where there is none to have."""
        try:
            stream = self.server.connect(0.5)
            stream.setblocking(False)
            stream.sendall(HALF_HEAD)
            return stream
        except OSError:
            return None

    def is_kept(self, stream):
        """Goes on with a connection, if this neighbour does, and returns whether it isn't closed."""
        try:
            if self.goes_on:
                stream.sendall(REST_OF_HEAD + HALF_HEAD)
            if stream.recv(1 << 16):
                return True
        except BlockingIOError:
            return True
        except OSError:
            pass
        stream.close()
        return False


class Honest(threading.Thread):
    """A client who asks for tickets for so many seconds, and gives each back: over a connection for each, or over one that
    it keeps, where it asks again when that was closed. It counts the questions, and those that weren't answered soon."""

    def __init__(self, server, keeps):
        super().__init__()
        self.server, self.keeps, self.stream, self.asked, self.late = server, keeps, None, 0, 0

    def run(self):
        end = time.monotonic() + SECONDS_OF_HONESTY
        while time.monotonic() < end:
            self.asked += 1
            self.late += not self.is_answered(time.monotonic() + SOON)
            time.sleep(0.05)
        self.close()

    def is_answered(self, end):
        """Returns whether a question for a ticket is answered until a moment."""
        while (left := end - time.monotonic()) > 0:
            try:
                self.stream = self.stream or self.server.connect(left)
                self.stream.settimeout(left)
                found = answers_to(self.stream, ACQUIRE, 1, b"}")
                self.give_back(found)
                return found.startswith(b"HTTP/1.1 200 ")
            except OSError:
                self.close()
                if not self.keeps:
                    break
        return False

    def give_back(self, found):
        """Gives back the ticket of an answer. Whether that is answered isn't looked at."""
        try:
            body = b'{"ticket":%s}' % re.search(rb'"ticket":(\d+)', found)[1]
            heads = b"POST /v1/services/pay/release HTTP/1.1\r\nContent-Length: %d\r\n\r\n"
            answers_to(self.stream, heads % len(body) + body, 1, b"}")
        except (OSError, TypeError):
            self.close()
        if not self.keeps:
            self.close()

    def close(self):
        if self.stream:
            self.stream.close()
        self.stream = None


def go_on(stream, events):
    """Sends a question over a connection that is ready for it, and returns whether an answer has come."""
    if events & selectors.EVENT_WRITE:
        stream.sendall(STATE)
        return False
    return b"}" in received(stream)


def burst(server, count):
    """Opens so many connections at once, asks over each, and returns after how many seconds the last one is answered; one
    that is closed without an answer never is."""
    streams = [socket.socket(type=socket.SOCK_STREAM | socket.SOCK_NONBLOCK) for _ in range(count)]
    begun, left = time.monotonic(), count
    with selectors.DefaultSelector() as selector:
        for stream in streams:
            stream.connect_ex(("127.0.0.1", server.port))
            selector.register(stream, selectors.EVENT_WRITE)
        try:
            while left and time.monotonic() < begun + SECONDS_OF_A_BURST:
                for key, events in selector.select(1):
                    if go_on(key.fileobj, events):
                        selector.unregister(key.fileobj)
                        left -= 1
                    elif events & selectors.EVENT_WRITE:
                        selector.modify(key.fileobj, selectors.EVENT_READ)
        except OSError:
            pass
    seconds = time.monotonic() - begun
    for stream in streams:
        stream.close()
    return math.inf if left else seconds
