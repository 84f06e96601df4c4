"""What the tests of the tools share: servers on the loopback address, and relays that go wrong where they are told to.

A server runs the program that `./sidecar` builds, or the one that the environment variable SIDECAR_PROGRAM names. It
listens on a port that the system chooses, and ends by itself in any case.
"""

import http.client
import json
import os
import select
import signal
import socket
import subprocess
import tempfile
import threading
import time
from collections.abc import Callable
from typing import Any

TOP = os.path.dirname(os.path.dirname(os.path.dirname(os.path.realpath(__file__))))
PROGRAM = os.environ.get("SIDECAR_PROGRAM", f"{TOP}/sidecar")
MOST_SECONDS = int(os.environ.get("TESTBED_MOST_SECONDS", "170"))
# The C library's number from which on free memory is given back, as ./sidecar, the unit and the image set it.
TRIM = {"MALLOC_TRIM_THRESHOLD_": "1048576"}
SECONDS_TO_COME = 15.0
# Nothing listens there.
NOBODY = "127.0.0.1:9"


def wait_for(is_so: Callable[[], Any], what: str, seconds: float = SECONDS_TO_COME) -> None:
    """Waits until something is so, and raises AssertionError where it doesn't come."""
    end = time.monotonic() + seconds
    while not is_so():
        if time.monotonic() > end:
            raise AssertionError(f"in {seconds} seconds it didn't come that {what}")
        time.sleep(0.02)


def place(address: str) -> tuple[str, int]:
    """Returns the host and the port of an address."""
    host, port = address.rsplit(":", 1)
    return host, int(port)


def free_port() -> int:
    """Returns a free port that the system gives to no connection by itself.

    A server that is started again on it finds it free: a client that asks meanwhile may have been given any other."""
    for port in range(20_000, 32_000):
        with socket.socket() as one:
            try:
                one.bind(("127.0.0.1", port))
                return port
            except OSError:
                pass
    raise AssertionError("no port is free")


def state_of_thread(folder: os.DirEntry[str]) -> str:
    """Returns the letter that stands for what a thread does, by its folder below /proc: T where it was stopped."""
    with open(f"{folder.path}/stat", encoding="utf-8") as line:
        # The name of the program stands before it, in brackets, and may hold anything.
        return line.read().rpartition(") ")[2][0]


class Server:
    """The program, which serves on the loopback address."""

    def __init__(
        self,
        services: list[dict[str, Any]] | None = None,
        workers: int = 16,
        port: int = 0,
        tickets: str = "from 1",
        keeper: str = "lock",
    ) -> None:
        self._folder = tempfile.TemporaryDirectory()
        settings = {
            "listen": f"127.0.0.1:{port}",
            "workers": workers,
            "keeper": keeper,
            "connections": 0,
            "tickets": tickets,
            "services": services or [{"name": "pay"}, {"name": "ship"}],
        }
        self._file = f"{self._folder.name}/sidecar.json"
        with open(self._file, "w", encoding="utf-8") as file:
            json.dump(settings, file)
        self._start()

    def _start(self) -> None:
        words = ["timeout", str(MOST_SECONDS), PROGRAM, "serve", self._file]
        environment = {**TRIM, **os.environ}
        self.process = subprocess.Popen(words, stdout=subprocess.PIPE, text=True, start_new_session=True, env=environment)
        assert self.process.stdout
        line = self.process.stdout.readline()
        if not line.startswith("listening "):
            raise AssertionError(f"the server printed {line!r}")
        self.address = line.removeprefix("listening ").strip()

    def __enter__(self) -> "Server":
        return self

    def __exit__(self, *_: object) -> None:
        self.stop()
        self._folder.cleanup()

    def stop(self) -> None:
        """Ends the program, if it still runs."""
        if self.process.poll() is None:
            # timeout passes the signal on to the program, and lets one go on that was stopped.
            self.process.terminate()
            self.process.wait()
        if self.process.stdout:
            self.process.stdout.close()

    def stand_still(self) -> None:
        """Stops the program where it is, as one that hangs, and returns once each of its threads has stopped."""
        number = self._number()
        os.kill(number, signal.SIGSTOP)
        # The system stops the threads one after another, behind the call: until then one of them may still answer.
        wait_for(lambda: {state_of_thread(it) for it in os.scandir(f"/proc/{number}/task")} == {"T"}, "all threads stop")

    def go_on(self) -> None:
        """Lets the program go on that stood still."""
        os.kill(self._number(), signal.SIGCONT)

    def _number(self) -> int:
        """Returns the number of the program itself, which is a child of the one that bounds its time."""
        with open(f"/proc/{self.process.pid}/task/{self.process.pid}/children", encoding="utf-8") as children:
            return int(children.read().split()[0])

    def start_again(self) -> None:
        """Ends the program, and starts it anew on the same port."""
        self.stop()
        with open(self._file, encoding="utf-8") as file:
            settings = {**json.load(file), "listen": self.address}
        with open(self._file, "w", encoding="utf-8") as file:
            json.dump(settings, file)
        self._start()

    def ask(self, method: str, route: str, body: Any = None, service: str = "pay") -> dict[str, Any]:
        """Returns the JSON of an answer, over a connection of its own."""
        connection = http.client.HTTPConnection(self.address, timeout=10)
        try:
            text = body if body is None or isinstance(body, bytes) else json.dumps(body)
            connection.request(method, f"/v1/services/{service}/{route}", text)
            answer: dict[str, Any] = json.load(connection.getresponse())
            return answer
        finally:
            connection.close()

    def move(self, state: str, service: str = "pay") -> None:
        """Moves a breaker to a state."""
        self.ask("POST", "transition", {"state": state}, service)

    def state(self, *keys: str, service: str = "pay") -> list[Any]:
        """Returns what a service shows under these keys."""
        shown = self.ask("GET", "state", service=service)
        return [shown[key] for key in keys]

    def journal(self, number: int = 1, service: str = "pay") -> list[dict[str, Any]]:
        """Returns all entries that are held from a number on."""
        entries: list[dict[str, Any]] = []
        while page := self.ask("GET", f"journal/{number}", service=service)["entries"]:
            entries += page
            number = page[-1]["number"] + 1
        return entries


class Listener:
    """Listens on a free port of the loopback address, and serves each connection in a thread of its own."""

    def __init__(self) -> None:
        self.socket = socket.create_server(("127.0.0.1", 0))
        self.address = "127.0.0.1:%d" % self.socket.getsockname()[1]
        threading.Thread(target=self._accept, daemon=True).start()

    def close(self) -> None:
        """Accepts no more connections."""
        self.socket.close()

    def _accept(self) -> None:
        while True:
            try:
                connection, _ = self.socket.accept()
            except OSError:
                return
            threading.Thread(target=self._serve, args=[connection], daemon=True).start()

    def _serve(self, connection: socket.socket) -> None:
        with connection:
            try:
                self.serve(connection)
            except OSError:
                pass

    def serve(self, connection: socket.socket) -> None:
        """Serves one connection."""
        raise NotImplementedError


class Fixed(Listener):
    """Answers each message with the same bytes."""

    def __init__(self, answer: bytes) -> None:
        self.answer = answer
        super().__init__()

    def serve(self, connection: socket.socket) -> None:
        while connection.recv(1 << 16):
            connection.sendall(self.answer)


class Relay(Listener):
    """Passes all on between a client and a server.

    It closes both where they are silent for longer than `silence`. Once `lose_answer_to` is set to some text, it
    closes the client's connection in place of passing on the answer to the next message that has it; once
    `delay_answer_to` is set, it holds that answer back until `go_on` is set."""

    def __init__(self, server: Server) -> None:
        self.target = server.address
        self.silence = 60.0
        self.connections = 0
        self.lose_answer_to: bytes | None = None
        self.delay_answer_to: bytes | None = None
        self.go_on = threading.Event()
        super().__init__()

    def serve(self, client: socket.socket) -> None:
        self.connections += 1
        with socket.create_connection(place(self.target), timeout=10) as server:
            is_lost = is_delayed = False
            while True:
                ready, _, _ = select.select([client, server], [], [], self.silence)
                if not ready:
                    return
                for one in ready:
                    data = one.recv(1 << 16)
                    if not data:
                        return
                    if one is client:
                        if self.lose_answer_to and self.lose_answer_to in data:
                            is_lost, self.lose_answer_to = True, None
                        if self.delay_answer_to and self.delay_answer_to in data:
                            is_delayed, self.delay_answer_to = True, None
                        server.sendall(data)
                        continue
                    if is_lost:
                        return
                    if is_delayed:
                        is_delayed = not self.go_on.wait(SECONDS_TO_COME)
                    client.sendall(data)
