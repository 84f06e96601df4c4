"""The outcome of a call: what the classifier gets to judge."""

from collections.abc import Iterable
from typing import Any, Literal, TypedDict

from .errors import BadOutcome

Kind = Literal["response", "timeout", "refused", "reset", "error"]

KINDS = ("response", "timeout", "refused", "reset", "error")
LONGEST_FRONT = 128
LONGEST_TAG = 32
MOST_FACTS = 16
BELOW_32_BITS = 1 << 32
BELOW_64_BITS = 1 << 64


class Outcome(TypedDict, total=False):
    """An outcome as the sidecar takes it, in JSON. Each key may be missing."""

    kind: Kind
    status: int
    duration_ms: int
    request_bytes: int
    response_bytes: int
    attempt: int
    method: str
    flags: int
    body_length: int
    body_front: str
    facts: list[int]
    tag: str


def _number(name: str, value: int, below: int) -> int:
    """Returns a number that is whole and in its range. The sidecar takes neither `12.0` nor `true`."""
    if isinstance(value, bool) or not isinstance(value, int):
        raise BadOutcome(f"{name} is {value!r}, and no whole number")
    if not 0 <= value < below:
        raise BadOutcome(f"{name} is {value}, and not from 0 to {below - 1}")
    return value


def outcome(
    *,
    kind: Kind = "response",
    status: int | None = None,
    duration_ms: int | None = None,
    request_bytes: int | None = None,
    response_bytes: int | None = None,
    attempt: int | None = None,
    method: str | None = None,
    flags: int | None = None,
    body: bytes | None = None,
    facts: Iterable[int] | None = None,
    tag: bytes | None = None,
) -> Outcome:
    """Returns an outcome whose values are checked. Of the body it has the length and the front."""
    if kind not in KINDS:
        raise BadOutcome(f"kind is {kind!r}, and none of {', '.join(KINDS)}")
    made = Outcome(kind=kind)
    if status is not None:
        made["status"] = _number("status", status, BELOW_32_BITS)
    if duration_ms is not None:
        made["duration_ms"] = _number("duration_ms", duration_ms, BELOW_64_BITS)
    if request_bytes is not None:
        made["request_bytes"] = _number("request_bytes", request_bytes, BELOW_64_BITS)
    if response_bytes is not None:
        made["response_bytes"] = _number("response_bytes", response_bytes, BELOW_64_BITS)
    if attempt is not None:
        made["attempt"] = _number("attempt", attempt, BELOW_32_BITS)
    if method is not None:
        made["method"] = _method(method)
    if flags is not None:
        made["flags"] = _number("flags", flags, BELOW_64_BITS)
    if body is not None:
        made["body_length"] = len(body)
        made["body_front"] = body[:LONGEST_FRONT].hex()
    if facts is not None:
        made["facts"] = _facts(facts)
    if tag is not None:
        made["tag"] = _tag(tag)
    return made


def _method(method: str) -> str:
    if not isinstance(method, str):
        raise BadOutcome(f"method is {method!r}, and no text")
    return method.upper()


def _facts(facts: Iterable[int]) -> list[int]:
    checked = [_number("a fact", fact, BELOW_64_BITS) for fact in facts]
    if len(checked) > MOST_FACTS:
        raise BadOutcome(f"there are {len(checked)} facts, and at most {MOST_FACTS} are taken")
    return checked


def _tag(tag: bytes) -> str:
    if not isinstance(tag, bytes):
        raise BadOutcome(f"tag is {tag!r}, and no bytes")
    if len(tag) > LONGEST_TAG:
        raise BadOutcome(f"the tag has {len(tag)} bytes, and at most {LONGEST_TAG} are taken")
    return tag.hex()


def outcome_of_response(response: Any, *, attempt: int | None = None) -> Outcome:
    """Returns the outcome of a response of `requests` or `httpx`: its status, its bytes, its method and its body.

    The bytes of a body that is streamed and not read yet are what its field `Content-Length` says, if it has one. A
    body that ended before that many bytes is no whole answer: its connection was reset."""
    request = response.request
    body = _body_read(response)
    return outcome(
        kind="reset" if body is not None and _is_cut_short(response) else "response",
        status=response.status_code,
        method=request.method,
        attempt=_attempt_of(response) if attempt is None else attempt,
        request_bytes=_bytes_of_request(request),
        response_bytes=_declared_length(response.headers) if body is None else len(body),
        body=body,
    )


def _attempt_of(response: Any) -> int | None:
    """Returns the number of the attempt that gave a response, where `requests` was told to try again by itself."""
    retries = getattr(getattr(response, "raw", None), "retries", None)
    return None if retries is None else len(retries.history) + 1


def _body_read(response: Any) -> bytes | None:
    """Returns the body of a response if it has been read. Both libraries keep it so, once it is."""
    body = getattr(response, "_content", None)
    return body if isinstance(body, bytes) else None


def _is_cut_short(response: Any) -> bool:
    """Returns whether bytes of a body that was read are missing. With urllib3 before 2.0 `requests` raises nothing."""
    left = getattr(getattr(response, "raw", None), "length_remaining", None)
    return isinstance(left, int) and left > 0


def _declared_length(headers: Any) -> int | None:
    """Returns what a message says of the length of its body."""
    told = headers.get("Content-Length")
    return int(told) if told is not None and told.isascii() and told.isdigit() and int(told) < BELOW_64_BITS else None


def _bytes_of_request(request: Any) -> int | None:
    """Returns the bytes of a request's body, where they are known before it is sent."""
    declared = _declared_length(request.headers)
    if declared is not None:
        return declared
    return 0 if getattr(request, "body", None) is None and not hasattr(request, "stream") else None
