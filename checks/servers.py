"""A server on the loopback address, as the checks beside this file run it: on a port that the system chooses, for so many
seconds at most, and told apart from the process that bounds its time.

The tools in contrib/ have a testbed of their own, with types, and servers that stop and start again: so their tests stand on
nothing of the gate's, and go wherever the tools go.
"""

import http.client
import json
import os
import socket
import subprocess
import sys

TOP = os.path.dirname(os.path.dirname(os.path.realpath(__file__)))
# The program that `./sidecar` builds, or the one that the environment variable SIDECAR_PROGRAM names.
PROGRAM = os.environ.get("SIDECAR_PROGRAM", f"{TOP}/sidecar")
LISTENING = "listening "
# The C library's number from which on free memory is given back, as ./sidecar, the unit and the image set it.
TRIM = {"MALLOC_TRIM_THRESHOLD_": "1048576"}


def build():
    """Builds the program, where it isn't built: a replay takes the whole one."""
    subprocess.run([PROGRAM, "replay"], check=True, input=b"{}\n", stdout=subprocess.DEVNULL)


class Server:
    """A server with these settings, which ends by itself after so many seconds in any case. The words before the
    program's run it, as a tracer's."""

    def __init__(self, folder, settings, seconds, words=(), program=PROGRAM):
        self.file = f"{folder}/{os.urandom(8).hex()}.json"
        with open(self.file, "w", encoding="utf-8") as file:
            json.dump({**settings, "listen": "127.0.0.1:0"}, file)
        command = [*words, "timeout", str(seconds), program, "serve", self.file]
        how = {"stdout": subprocess.PIPE, "stderr": subprocess.PIPE, "text": True, "env": {**os.environ, **TRIM}}
        self.process = subprocess.Popen(command, **how)
        line = self.process.stdout.readline()
        if not line.startswith(LISTENING):
            sys.exit(f"the server printed {line!r} {self.process.stderr.read()!r}")
        self.address = line.removeprefix(LISTENING).strip()
        self.port = int(self.address.rsplit(":", 1)[1])

    def __enter__(self):
        return self

    def __exit__(self, *_):
        self.stop()

    def stop(self):
        """Ends the program, if it still runs, and waits for its end."""
        if self.process.poll() is None:
            # timeout passes this on to the program.
            self.process.terminate()
        if not self.process.stdout.closed:
            # What it complains of, as a run that finds a wrong access to memory does.
            sys.stderr.write(self.process.communicate()[1])

    def connect(self, seconds=10):
        """Returns a new connection, which waits for so long."""
        return socket.create_connection(("127.0.0.1", self.port), seconds)

    def ask(self, method, route, body=None, name="pay"):
        """Returns the status and the JSON of an answer over a connection of its own."""
        connection = http.client.HTTPConnection(self.address, timeout=10)
        try:
            connection.request(method, f"/v1/services/{name}/{route}", body)
            answer = connection.getresponse()
            return answer.status, json.load(answer)
        finally:
            connection.close()
