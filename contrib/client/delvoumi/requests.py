"""Guards the calls of `requests`: mount the adapter for what is called.

    session = requests.Session()
    session.mount("https://pay.example/", BreakerAdapter(breaker))
"""

from typing import Any

from requests import PreparedRequest, Response
from requests.adapters import HTTPAdapter

from .breaker import Breaker

__all__ = ["BreakerAdapter"]


class BreakerAdapter(HTTPAdapter):
    """Asks the sidecar before each request of a session, and reports each response, with its body unless it streams.

    A redirection is a call of its own. A request that isn't permitted raises CallNotPermitted or BulkheadFull."""

    def __init__(self, breaker: Breaker, **words: Any) -> None:
        self._breaker = breaker
        super().__init__(**words)

    def send(self, request: PreparedRequest, stream: bool = False, **words: Any) -> Response:
        """Makes a guarded call."""
        with self._breaker.call(method=request.method) as call:
            response: Response = super().send(request, stream=stream, **words)
            if not stream:
                response.content  # It is read within the call, so that a body that doesn't come counts.
            return call.response(response)
