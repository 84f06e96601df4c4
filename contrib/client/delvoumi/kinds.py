"""Which kind of outcome an error is."""

import errno
from collections.abc import Iterator
from typing import Any

from .outcomes import Kind

# The kind of each error, by the package and the name of its class. Of an error's classes the narrowest one counts that
# stands here. No library has to be there for this: those of which nothing was imported have raised nothing.
KIND_OF_CLASS: dict[str, Kind] = {
    # Nothing came in time.
    "builtins.TimeoutError": "timeout",
    "requests.Timeout": "timeout",
    "requests.ConnectTimeout": "timeout",
    "urllib3.TimeoutError": "timeout",
    "httpx.TimeoutException": "timeout",
    "httpcore.TimeoutException": "timeout",
    # No connection came about.
    "builtins.ConnectionRefusedError": "refused",
    "socket.gaierror": "refused",
    "socket.herror": "refused",
    "ssl.SSLError": "refused",
    "requests.SSLError": "refused",
    "requests.ProxyError": "refused",
    "urllib3.NewConnectionError": "refused",
    "urllib3.SSLError": "refused",
    "urllib3.ProxyError": "refused",
    "httpx.ConnectError": "refused",
    "httpx.ProxyError": "refused",
    "httpcore.ConnectError": "refused",
    "httpcore.ProxyError": "refused",
    # A connection came about, and no whole answer that can be used.
    "builtins.ConnectionError": "reset",
    "http.BadStatusLine": "reset",
    "http.IncompleteRead": "reset",
    "http.LineTooLong": "reset",
    "http.UnknownProtocol": "reset",
    "requests.ConnectionError": "reset",
    "requests.ChunkedEncodingError": "reset",
    "requests.ContentDecodingError": "reset",
    "requests.RetryError": "reset",
    "urllib3.ProtocolError": "reset",
    "urllib3.DecodeError": "reset",
    "urllib3.ResponseError": "reset",
    "httpx.NetworkError": "reset",
    "httpx.RemoteProtocolError": "reset",
    "httpx.DecodingError": "reset",
    "httpcore.NetworkError": "reset",
    "httpcore.RemoteProtocolError": "reset",
}
# What `requests` raises for all that goes wrong below it. It holds the error that says more.
LEAST_TOLD = "requests.ConnectionError"
# The way to the service is away.
NO_WAY = {errno.EHOSTUNREACH, errno.ENETUNREACH, errno.EHOSTDOWN, errno.ENETDOWN}
# The caller's own system has no file, no port or no memory left, whatever a library makes of that.
NOTHING_LEFT = {errno.EMFILE, errno.ENFILE, errno.EADDRNOTAVAIL, errno.ENOBUFS, errno.ENOMEM}


def kind_of(error: BaseException, before: BaseException | None = None) -> Kind:
    """Returns the kind of the outcome of a call that ended with an error.

    Libraries wrap the error of the socket, so this looks at what the error was raised from too, as far as `before`:
    the error that was handled already when the call began has nothing to do with it. The outermost error counts of
    which a kind is known."""
    errors = list(_chain(error, before))
    if any(_number_of(each) in NOTHING_LEFT for each in errors):
        return "error"
    errors.sort(key=lambda each: _name_of(type(each)) == LEAST_TOLD)
    return next((kind for each in errors if (kind := _known_kind(each))), "error")


def _known_kind(error: BaseException) -> Kind | None:
    """Returns the kind of an error by its classes or its number."""
    names = map(_name_of, type(error).__mro__)
    by_class = next((KIND_OF_CLASS[name] for name in names if name in KIND_OF_CLASS), None)
    return by_class or ("refused" if _number_of(error) in NO_WAY else None)


def _name_of(kind: type) -> str:
    """Returns the package and the name of a class."""
    return f"{kind.__module__.partition('.')[0]}.{kind.__name__}"


def _number_of(error: BaseException) -> int | None:
    """Returns the number that the system gave to an error."""
    return error.errno if isinstance(error, OSError) else None


def _chain(error: BaseException, before: BaseException | None) -> Iterator[BaseException]:
    """Yields an error and those that it was raised from or holds, each once."""
    waiting: list[Any] = [error]
    seen: set[int] = set() if before is None else {id(before)}
    while waiting:
        each = waiting.pop(0)
        if not isinstance(each, BaseException) or id(each) in seen:
            continue
        seen.add(id(each))
        yield each
        waiting += [getattr(each, "reason", None), each.__cause__, *each.args]
        if not each.__suppress_context__:
            waiting.append(each.__context__)
