#!/usr/bin/env python3
"""Guards calls to a service by the sidecar: acquire, call, report.

    examples/guarded_call.py SIDECAR SERVICE CHOICE URL [COUNT]

SIDECAR is the sidecar's address, as 127.0.0.1:8080, SERVICE the name of one of its services, and URL what is called,
COUNT times. Each call prints one line: how it ended, its status, and the classifier's verdict.

CHOICE says what becomes of a call where the sidecar neither permits nor refuses it: it can't be reached or doesn't
answer in time, it has no such service, or its journal or its memory is full. With fail-open the call is made all the
same, without a ticket; with fail-closed it isn't made.

An acquire that isn't answered within a second is given up, and may be answered later: the client reads that answer when it
comes, and releases its ticket, which would else keep its place for good.

A call that the sidecar refuses isn't made, and the next one waits for a second: each acquire makes an entry of the
journal, also where it is refused. It needs the package in contrib/client beside it, and Python's standard library.
"""

import http.client
import os
import sys
import time
import urllib.error
import urllib.request

sys.path.insert(0, os.path.join(os.path.dirname(os.path.realpath(__file__)), "../contrib/client"))

from delvoumi import Breaker, CallRefused, Choice, Sidecar, Trouble, kind_of  # noqa: E402

SECONDS_TO_ANSWER = 5
SECONDS_AFTER_REFUSAL = 1


def call(url):
    """Calls a URL, and returns the outcome as the sidecar takes it."""
    try:
        with urllib.request.urlopen(url, timeout=SECONDS_TO_ANSWER) as response:
            response.read()
            return {"kind": "response", "status": response.status, "method": "GET"}
    except urllib.error.HTTPError as error:
        return {"kind": "response", "status": error.code, "method": "GET"}
    except (OSError, http.client.HTTPException) as error:
        return {"kind": kind_of(error), "method": "GET"}


def guarded_call(sidecar, choice, url):
    """Makes a call if the sidecar permits it, and returns what came of it. Raises CallRefused where it does not.

    However the call ends, its ticket ends too. A URL that makes no sense is no outcome: its ticket is released."""
    try:
        with Breaker(sidecar, choice).call(release_on=ValueError) as guard:
            outcome = call(url)
            guard.raw_outcome(outcome)
    except Trouble as trouble:
        return f"not called: {trouble}"
    return f"{outcome['kind']} {outcome.get('status', '-')} {guard.result}"


def main():
    address, service, choice, url, *count = sys.argv[1:]
    if choice not in [it.value for it in Choice]:
        sys.exit(f"guarded_call: {choice} is neither fail-open nor fail-closed")
    sidecar = Sidecar(address, service)
    for left in reversed(range(int(count[0]) if count else 1)):
        try:
            print(guarded_call(sidecar, choice, url), flush=True)
        except CallRefused as refused:
            # Answer from a cache here, or with an error of one's own.
            print(f"refused {refused}", flush=True)
            time.sleep(SECONDS_AFTER_REFUSAL if left else 0)


if __name__ == "__main__":
    main()
