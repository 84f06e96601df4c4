"""Checks files of entries, and shows them to people."""

from collections.abc import Iterator, Sequence
from dataclasses import dataclass
from datetime import datetime, timezone

from .files import Entry, entries_in, time_of

EVENTS = ("acquire", "report", "release", "install", "transition", "reset")
STATES = ("CLOSED", "OPEN", "HALF_OPEN", "DISABLED", "METRICS_ONLY", "FORCED_OPEN")


@dataclass
class Checked:
    """What a check of files found."""

    entries: int
    runs: int
    faults: list[str]


def check(names: Sequence[str]) -> Checked:
    """Checks that numbers go on by one through files in this order, and that no moment goes back.

    A number 1 behind others begins a new run of the sidecar."""
    found = Checked(0, 0, [])
    last: Entry | None = None
    for name in names:
        for entry in entries_in(name):
            if last is None or entry["number"] == 1:
                found.runs += 1
            elif entry["number"] != last["number"] + 1:
                found.faults.append(f"{name}: number {entry['number']} comes behind {last['number']}")
            elif entry["moment"] < last["moment"]:
                found.faults.append(f"{name}: the moment of number {entry['number']} is before that of the one before")
            found.entries += 1
            last = entry
    return found


@dataclass
class Filter:
    """Which entries are shown."""

    begin: datetime | None
    end: datetime | None
    events: Sequence[str]
    states: Sequence[str]

    def takes(self, entry: Entry, state: str) -> bool:
        """Returns whether an entry, behind which the breaker stands in a state, is shown."""
        at = time_of(entry["moment"])
        if self.begin and at < self.begin or self.end and at >= self.end:
            return False
        return (not self.events or entry["event"] in self.events) and (not self.states or state in self.states)


def time_told(text: str) -> datetime:
    """Reads a time, as 2026-01-31 or 2026-01-31T12:00. Without a zone it is UTC."""
    told = datetime.fromisoformat(text)
    return told if told.tzinfo else told.replace(tzinfo=timezone.utc)


def shown(names: Sequence[str], wanted: Filter) -> Iterator[str]:
    """Yields a line for each entry that is wanted."""
    state = "CLOSED"
    for name in names:
        for entry in entries_in(name):
            if entry["number"] == 1:
                state = "CLOSED"
            state = entry["reply"].get("state", state)
            if wanted.takes(entry, state):
                yield line_of(entry, state)


def line_of(entry: Entry, state: str) -> str:
    """Returns a line for people."""
    at = time_of(entry["moment"]).isoformat(sep=" ", timespec="milliseconds").removesuffix("+00:00")
    return f"{at}  {entry['number']:>8}  {state:12}  {entry['event']:10}  {told(entry)}".rstrip()


def told(entry: Entry) -> str:
    """Returns in words what became of an event."""
    reply = entry["reply"]
    about = f"ticket {entry['ticket']}: " if "ticket" in entry else ""
    if "error" in reply:
        return f"{about}{reply['error']} {reply['name']}"
    match entry["event"]:
        case "acquire":
            return f"ticket {reply['ticket']}"
        case "report":
            return f"{about}{reply['verdict']}, {reply['fate']}"
        case "release":
            return f"{about}{reply['fate']}"
        case "install":
            return f"version {reply['version']}, budget {reply['budget']}"
        case "transition":
            return f"to {entry['to']}, period {reply['period']}"
    return f"period {reply['period']}"
