"""The command line of `watch`."""

import argparse
import json
import signal
import sys
import threading
from typing import Any

from delvoumi_journal.main import above_zero

from .metrics import Metrics
from .service import Thresholds
from .watcher import Watcher
from .web import Web

DEFAULT_FAILURE_RATE, DEFAULT_SLOW_RATE = 50, 100


def services_of(words: argparse.Namespace) -> dict[str, Thresholds | None]:
    """Returns the services to watch, with their thresholds where a file of `serve` tells them."""
    found: dict[str, Thresholds | None] = dict.fromkeys(words.service)
    if words.services_of is not None:
        with open(words.services_of, encoding="utf-8") as file:
            for service in json.load(file)["services"]:
                config = service.get("config", {})
                failure = config.get("failureRateThreshold", DEFAULT_FAILURE_RATE)
                slow = config.get("slowCallRateThreshold", DEFAULT_SLOW_RATE)
                found[service["name"]] = Thresholds(failure, slow)
    return found


def parser() -> argparse.ArgumentParser:
    """Returns what reads the words of the command line."""
    made = argparse.ArgumentParser(
        prog="watch", description="Shows metrics, events and a page of a sidecar's services."
    )
    made.add_argument("url", help="the sidecar's address, as http://127.0.0.1:8080")
    made.add_argument("service", nargs="*")
    made.add_argument(
        "--services-of", metavar="FILE", help="all services of a file of `sidecar serve`, with thresholds"
    )
    made.add_argument("--listen", default="127.0.0.1:9464", metavar="ADDRESS", help="where it is asked (%(default)s)")
    made.add_argument("--every", type=above_zero, default=2.0, metavar="SECONDS", help="the interval (%(default)s)")
    entries = made.add_mutually_exclusive_group()
    entries.add_argument("--journal", metavar="FOLDER", help="reads the entries that a keeper writes to this folder")
    entries.add_argument("--roll", action="store_true", help="rolls what was counted, where nobody keeps the journal")
    made.add_argument("--once", action="store_true", help="prints the metrics once, and ends")
    return made


def serve(watcher: Watcher, words: argparse.Namespace) -> int:
    """Serves until a signal comes."""
    host, _, port = words.listen.rpartition(":")
    web = Web(host.strip("[]"), int(port), watcher, words.every)
    is_over = threading.Event()
    for number in (signal.SIGTERM, signal.SIGINT):
        signal.signal(number, lambda *_: is_over.set())
    watching = threading.Thread(target=watcher.run, args=[words.every])
    watching.start()
    threading.Thread(target=web.serve_forever, daemon=True).start()
    print(f"watching at http://{host}:{web.server_port}/", flush=True)
    is_over.wait()
    watcher.stop()
    web.shutdown()
    web.server_close()
    watching.join()
    return 0


def main(words: list[str]) -> int:
    """Runs `watch`, and returns its status."""
    made = parser()
    found: Any = made.parse_args(words)
    try:
        services = services_of(found)
        if not services:
            made.error("name a service, or --services-of FILE")
        watcher = Watcher(found.url, services, folder=found.journal, rolls=found.roll)
        try:
            if found.once:
                watcher.turn()
                print(Metrics(watcher).text().decode(), end="")
                return int(any(service.trouble for service in watcher.services))
            return serve(watcher, found)
        finally:
            watcher.close()
    except (OSError, ValueError, KeyError) as error:
        print(f"watch: {error}", file=sys.stderr)
        return 1
