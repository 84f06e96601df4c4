"""Guards the calls of `httpx`: give the transport to a client.

    client = httpx.Client(transport=BreakerTransport(breaker, httpx.HTTPTransport()))
    client = httpx.AsyncClient(transport=BreakerTransport(breaker, httpx.AsyncHTTPTransport()))
"""

import httpx

from .breaker import Breaker

__all__ = ["BreakerTransport"]


class BreakerTransport(httpx.BaseTransport, httpx.AsyncBaseTransport):
    """Asks the sidecar before each request of a client, and reports each response.

    The body is read within the call, also where the caller streams it: so this isn't for bodies without an end. For an
    `AsyncClient` threads ask the sidecar, so that the event loop goes on."""

    def __init__(self, breaker: Breaker, transport: httpx.BaseTransport | httpx.AsyncBaseTransport) -> None:
        self._breaker = breaker
        self._transport = transport

    def handle_request(self, request: httpx.Request) -> httpx.Response:
        """Makes a guarded call."""
        transport = self._transport
        if not isinstance(transport, httpx.BaseTransport):
            raise TypeError("a BreakerTransport for httpx.Client has to be made with httpx.HTTPTransport()")
        with self._breaker.call(method=request.method) as call:
            response = transport.handle_request(request)
            response.request = request
            response.read()
            return call.response(response)

    async def handle_async_request(self, request: httpx.Request) -> httpx.Response:
        """Makes a guarded call of an `AsyncClient`."""
        transport = self._transport
        if not isinstance(transport, httpx.AsyncBaseTransport):
            raise TypeError("a BreakerTransport for httpx.AsyncClient has to be made with httpx.AsyncHTTPTransport()")
        async with self._breaker.call(method=request.method) as call:
            response = await transport.handle_async_request(request)
            response.request = request
            await response.aread()
            return call.response(response)

    def close(self) -> None:
        """Closes the transport that makes the calls."""
        if isinstance(self._transport, httpx.BaseTransport):
            self._transport.close()

    async def aclose(self) -> None:
        """Closes the transport that makes the calls of an `AsyncClient`."""
        if isinstance(self._transport, httpx.AsyncBaseTransport):
            await self._transport.aclose()
