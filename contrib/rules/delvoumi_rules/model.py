"""What rules are: conditions, an answer, and which of them gives the answer to an outcome."""

from collections.abc import Iterable, Mapping
from dataclasses import dataclass
from typing import Any

from .outcomes import (
    ANSWERS,
    FACTS,
    FIELDS,
    FRONT_OF_LAYOUT,
    KINDS,
    LONGEST_FRONT,
    LONGEST_TAG,
    METHODS,
    Seen,
    seen,
)

GREATEST_FACT = (1 << 64) - 1
COMPARISONS = ("above", "at_least", "below", "at_most", "is")
CLASSES = {f"{digit}xx": (100 * digit, 100 * digit + 99) for digit in range(1, 6)}

Interval = tuple[int, int]
Intervals = tuple[Interval, ...]


class BadRules(Exception):
    """A file of rules can't be used. The text says where, and why."""


@dataclass(frozen=True)
class NumberIn:
    """A number of the record, or a fact, lies in one of the intervals, which are in order and apart."""

    name: str
    fact: int | None
    greatest: int
    intervals: Intervals
    text: str

    @property
    def is_always_so(self) -> bool:
        return self.intervals == ((0, self.greatest),)

    def holds(self, outcome: Seen) -> bool:
        value = outcome.numbers[self.name] if self.fact is None else outcome.facts[self.fact]
        return any(low <= value <= high for low, high in self.intervals)


@dataclass(frozen=True)
class BodyHas:
    """The front of the body has these bytes at a place. What stands behind the body's end is taken for zeros."""

    at: int
    data: bytes
    text: str
    is_always_so = False

    def holds(self, outcome: Seen) -> bool:
        return outcome.front[self.at : self.at + len(self.data)] == self.data


@dataclass(frozen=True)
class TagBegins:
    """The tag begins with these bytes."""

    data: bytes
    text: str
    is_always_so = False

    def holds(self, outcome: Seen) -> bool:
        return outcome.tag.startswith(self.data)


Condition = NumberIn | BodyHas | TagBegins


@dataclass(frozen=True)
class Rule:
    """An answer, which is given where all conditions hold and no earlier rule's do."""

    name: str
    answer: str
    conditions: tuple[Condition, ...]

    @property
    def is_always_so(self) -> bool:
        return all(condition.is_always_so for condition in self.conditions)


@dataclass(frozen=True)
class Rules:
    """Rules in their order, and the answer where none of them holds."""

    rules: tuple[Rule, ...]
    default: str

    @property
    def layout(self) -> int:
        """The layout of the record for which the classifier has to be verified."""
        ends = [it.at + len(it.data) for rule in self.rules for it in rule.conditions if isinstance(it, BodyHas)]
        return 1 if max(ends, default=0) <= FRONT_OF_LAYOUT[1] else 2

    def judge(self, outcome: Mapping[str, Any]) -> tuple[str, int]:
        """Returns the answer to an outcome, and the number of the rule that gives it, or 0 for the default."""
        shown = seen(outcome)
        for number, rule in enumerate(self.rules, 1):
            if all(condition.holds(shown) for condition in rule.conditions):
                return rule.answer, number
        return self.default, 0


def rules_of(table: Mapping[str, Any]) -> Rules:
    """Returns the rules of a table of TOML, or raises BadRules."""
    known_keys("the file", table, {"default", "rule"})
    rules = table.get("rule", [])
    if not isinstance(rules, list):
        raise BadRules("rule: rules are written as [[rule]]")
    return Rules(
        tuple(_rule(number, rule) for number, rule in enumerate(rules, 1)), _answer("default", table, "default")
    )


def known_keys(where: str, table: Mapping[str, Any], known: Iterable[str]) -> None:
    """Raises BadRules where a table has a key that isn't known."""
    if not isinstance(table, dict):
        raise BadRules(f"{where}: {table!r} is no table")
    for key in table.keys() - set(known):
        raise BadRules(f"{where}: there is no key {key}")


def _answer(where: str, table: Mapping[str, Any], key: str) -> str:
    answer = table.get(key)
    if not isinstance(answer, str) or answer not in ANSWERS:
        raise BadRules(f"{where}: {key} is {answer!r}, and none of {', '.join(ANSWERS)}")
    return answer


def _rule(number: int, table: Mapping[str, Any]) -> Rule:
    where = f"rule {number}"
    above = {f"{key}_above": key for key in ("duration", "attempt", "request_bytes", "response_bytes", "body_length")}
    numbers = {"status", "attempt", "duration_ms", "request_bytes", "response_bytes", "flags", "body_length"}
    others = {"name", "answer", "kind", "method", "body_begins", "body_has", "tag_begins", "fact"}
    known_keys(where, table, numbers | others | above.keys())
    conditions: list[Condition] = []
    for key, value in table.items():
        at = f"{where}: {key}"
        if key in numbers:
            conditions.append(_number_in(at, key, value))
        elif key in above:
            field = "duration_ms" if above[key] == "duration" else above[key]
            conditions.append(_above(at, field, value))
        elif key == "kind":
            conditions.append(_one_of(at, key, KINDS, value))
        elif key == "method":
            conditions.append(_one_of(at, key, METHODS, value))
        elif key == "body_begins":
            conditions.append(_body_has(at, 0, _bytes(at, value, LONGEST_FRONT)))
        elif key == "body_has":
            conditions += [_body_has_at(at, each) for each in as_list(value)]
        elif key == "tag_begins":
            data = _bytes(at, value, LONGEST_TAG)
            conditions.append(TagBegins(data, f"tag begins with {_shown(data)}"))
        elif key == "fact":
            conditions += [_fact(at, each) for each in as_list(value)]
    if not conditions:
        raise BadRules(f"{where}: it has no condition: say `default` at the top")
    name = table.get("name", "")
    if not isinstance(name, str) or not name.isprintable():
        raise BadRules(f"{where}: name is {name!r}, and no text of one line")
    return Rule(name, _answer(where, table, "answer"), tuple(conditions))


def as_list(value: Any) -> list[Any]:
    """Returns a list as it is, and anything else as the only one of a list."""
    return value if isinstance(value, list) else [value]


def _whole(where: str, value: Any, greatest: int) -> int:
    if isinstance(value, bool) or not isinstance(value, int):
        raise BadRules(f"{where}: {value!r} is no whole number")
    if not 0 <= value <= greatest:
        raise BadRules(f"{where}: {value} is not from 0 to {greatest}")
    return value


def _interval(where: str, name: str, value: Any, greatest: int) -> Interval:
    """Reads a number, a range as "400-499", or a class of statuses as "5xx"."""
    if name == "status" and isinstance(value, str) and value in CLASSES:
        return CLASSES[value]
    if isinstance(value, str):
        low, dash, high = value.partition("-")
        if not dash or not (low.isascii() and low.isdigit() and high.isascii() and high.isdigit()):
            raise BadRules(f"{where}: {value!r} is no number and no range")
        found = _whole(where, int(low), greatest), _whole(where, int(high), greatest)
        if found[0] > found[1]:
            raise BadRules(f"{where}: the range {value!r} has no number")
        return found
    return (_whole(where, value, greatest),) * 2


def joined(intervals: Iterable[Interval]) -> Intervals:
    """Returns intervals in order, where those that overlap or touch are made one."""
    made: list[Interval] = []
    for low, high in sorted(intervals):
        if made and low <= made[-1][1] + 1:
            made[-1] = made[-1][0], max(high, made[-1][1])
        else:
            made.append((low, high))
    return tuple(made)


def _number_in(where: str, name: str, value: Any) -> NumberIn:
    values, greatest = as_list(value), FIELDS[name].greatest
    if not values:
        raise BadRules(f"{where}: the list is empty")
    intervals = joined(_interval(where, name, each, greatest) for each in values)
    return NumberIn(name, None, greatest, intervals, f"{name} {', '.join(map(str, values))}")


def _above(where: str, name: str, value: Any) -> NumberIn:
    greatest = FIELDS[name].greatest
    number = _whole(where, value, greatest - 1)
    return NumberIn(name, None, greatest, ((number + 1, greatest),), f"{name} above {number}")


def _one_of(where: str, name: str, words: tuple[str, ...], value: Any) -> NumberIn:
    """Reads one word or several, which stand for numbers."""
    values = as_list(value)
    for each in values or [None]:
        if each not in words:
            raise BadRules(f"{where}: {each!r} is none of {', '.join(words)}")
    intervals = joined((words.index(each),) * 2 for each in values)
    return NumberIn(name, None, FIELDS[name].greatest, intervals, f"{name} {', '.join(values)}")


def _bytes(where: str, value: Any, longest: int) -> bytes:
    """Reads bytes: a text, or `{hex = ".."}`."""
    if isinstance(value, dict):
        known_keys(where, value, {"hex"})
        try:
            data = bytes.fromhex(value["hex"])
        except (KeyError, TypeError, ValueError):
            raise BadRules(f"{where}: {value!r} is no hexadecimal") from None
    elif isinstance(value, str):
        data = value.encode()
    else:
        raise BadRules(f"{where}: {value!r} is neither text nor hexadecimal")
    if not 1 <= len(data) <= longest:
        raise BadRules(f"{where}: there are {len(data)} bytes, and 1 to {longest} are taken")
    return data


def _shown(data: bytes) -> str:
    """Shows bytes in a comment: as text, where they are plain text of one line."""
    text = data.decode("ascii", "replace")
    return f'"{text}"' if text.isascii() and text.isprintable() else data.hex()


def _body_has(where: str, at: int, data: bytes) -> BodyHas:
    if at + len(data) > LONGEST_FRONT:
        raise BadRules(f"{where}: it ends at byte {at + len(data)}, and a classifier sees {LONGEST_FRONT} bytes")
    return BodyHas(at, data, f"body has {_shown(data)} at {at}")


def _body_has_at(where: str, table: Any) -> BodyHas:
    known_keys(where, table, {"at", "text", "hex"})
    if ("text" in table) == ("hex" in table):
        raise BadRules(f"{where}: it wants one of text and hex")
    value = table["text"] if "text" in table else {"hex": table["hex"]}
    return _body_has(where, _whole(where, table.get("at", 0), LONGEST_FRONT), _bytes(where, value, LONGEST_FRONT))


def _fact(where: str, table: Any) -> NumberIn:
    """Reads a comparison of a fact, as `{number = 0, above = 10}`. Several comparisons have to hold together."""
    known_keys(where, table, {"number", *COMPARISONS})
    number = _whole(where, table.get("number"), FACTS - 1)
    if len(table) < 2:
        raise BadRules(f"{where}: it wants one of {', '.join(COMPARISONS)}")
    low, high = 0, GREATEST_FACT
    intervals: Intervals | None = None
    for key, value in table.items():
        if key == "above":
            low = max(low, _whole(where, value, GREATEST_FACT - 1) + 1)
        elif key == "at_least":
            low = max(low, _whole(where, value, GREATEST_FACT))
        elif key == "below":
            high = min(high, _whole(where, value, GREATEST_FACT) - 1)
        elif key == "at_most":
            high = min(high, _whole(where, value, GREATEST_FACT))
        elif key == "is":
            intervals = joined(_interval(where, "fact", each, GREATEST_FACT) for each in as_list(value))
    intervals = ((0, GREATEST_FACT),) if intervals is None else intervals
    found = tuple((max(low, it[0]), min(high, it[1])) for it in intervals if max(low, it[0]) <= min(high, it[1]))
    if not found:
        raise BadRules(f"{where}: no number is so")
    text = " and ".join(f"{key.replace('_', ' ')} {value}" for key, value in table.items() if key != "number")
    return NumberIn("fact", number, GREATEST_FACT, found, f"fact {number} {text}")
