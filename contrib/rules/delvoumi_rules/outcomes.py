"""An outcome as the classifier sees it: numbers, the front of the body, the tag, and facts."""

from collections.abc import Mapping
from dataclasses import dataclass
from typing import Any

KINDS = ("response", "timeout", "refused", "reset", "error")
METHODS = ("OTHER", "GET", "HEAD", "POST", "PUT", "DELETE", "CONNECT", "OPTIONS", "TRACE", "PATCH")
ANSWERS = ("success", "failure", "ignored")
FACTS = 16
LONGEST_TAG = 32
# How much of the body a classifier sees, by the layout for which it is verified.
FRONT_OF_LAYOUT = {1: 64, 2: 128}
LONGEST_FRONT = 128


@dataclass(frozen=True)
class Field:
    """A number of the record: where it stands, how many bytes it has, and the instruction that loads it."""

    offset: int
    size: int

    @property
    def greatest(self) -> int:
        return (1 << 8 * self.size) - 1

    @property
    def load(self) -> str:
        return {4: "ldxw", 8: "ldxdw"}[self.size]


FIELDS = {
    "kind": Field(0, 4),
    "status": Field(4, 4),
    "duration_ms": Field(8, 8),
    "request_bytes": Field(16, 8),
    "response_bytes": Field(24, 8),
    "attempt": Field(32, 4),
    "method": Field(36, 4),
    "flags": Field(40, 8),
    "body_length": Field(48, 8),
}
FRONT_OFFSET = 64


@dataclass(frozen=True)
class Seen:
    """What a classifier sees of an outcome."""

    numbers: Mapping[str, int]
    front: bytes
    tag: bytes
    facts: tuple[int, ...]


def seen(outcome: Mapping[str, Any]) -> Seen:
    """Returns what a classifier sees of an outcome, which is as the sidecar takes it: each key may be missing."""
    numbers = {name: outcome.get(name, 0) for name in FIELDS}
    numbers["kind"] = KINDS.index(outcome.get("kind", "response"))
    method = outcome.get("method", "")
    numbers["method"] = METHODS.index(method) if method in METHODS else 0
    facts = tuple(outcome.get("facts", ()))
    front = bytes.fromhex(outcome.get("body_front", "")).ljust(LONGEST_FRONT, b"\0")
    return Seen(numbers, front, bytes.fromhex(outcome.get("tag", "")), facts + (0,) * (FACTS - len(facts)))
