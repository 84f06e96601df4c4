"""What is known of a service: its last state, counts over its entries, and what a page shows of the last minutes."""

import bisect
import itertools
import time
from collections import Counter, defaultdict, deque
from dataclasses import dataclass, field
from typing import Any

from delvoumi_journal.files import Entry

MOST_SAMPLES = 900
MOST_CHANGES = 200
# What is shown in place of a state: the sidecar doesn't answer, or it has no such service.
AWAY, MISSING = "", "MISSING"
KIND_OF_VERDICT = {"success": "successful", "failure": "failed", "ignored": "ignored"}


@dataclass(frozen=True)
class Thresholds:
    """The rates from which on a breaker opens, in percent."""

    failure: int
    slow: int


@dataclass
class Change:
    """A state, and since when the breaker stands in it."""

    moment: int
    state: str
    why: str


@dataclass(frozen=True)
class Reading:
    """The state at a moment when the sidecar was asked, and the number of the last entry then."""

    moment: int
    state: str
    number: int


@dataclass
class Watched:
    """One service. Counts begin with the first entry that was seen, and go on over restarts of the sidecar.

    A reading may be newer than entries that come later, out of a keeper's files. So changes of state are counted in the
    order of the entries: a reading waits until those are seen that it follows."""

    name: str
    thresholds: Thresholds | None = None
    state: dict[str, Any] | None = None
    trouble: str = "it was not asked yet"
    asked_at: float = 0.0
    calls: Counter[str] = field(default_factory=Counter)
    seconds: defaultdict[str, float] = field(default_factory=lambda: defaultdict(float))
    fates: Counter[str] = field(default_factory=Counter)
    refused: Counter[int] = field(default_factory=Counter)
    entries: Counter[str] = field(default_factory=Counter)
    transitions: Counter[str] = field(default_factory=Counter)
    missed: int = 0
    restarts: int = 0
    held: int = 0
    changes: list[Change] = field(default_factory=list)
    samples: deque[dict[str, Any]] = field(default_factory=lambda: deque(maxlen=MOST_SAMPLES))
    _issued: dict[int, int] = field(default_factory=dict)
    # The state behind the last entry that was seen, the number of that, and the readings that are newer.
    _state: str = ""
    _number: int = 0
    _ahead: deque[Reading] = field(default_factory=lambda: deque(maxlen=MOST_CHANGES))
    _number_read: int = 0
    # What is shown in place of the state, while there is no reading.
    _away: str | None = None

    @property
    def is_missing(self) -> bool:
        """Whether the sidecar answers that it has no service of this name."""
        return self._away == MISSING

    def note_entry(self, entry: Entry) -> None:
        """Counts an entry."""
        reply, moment, number = entry["reply"], entry["moment"], entry["number"]
        if number <= self._number:
            # The entries are those of another run of the sidecar.
            self.note_all_seen()
            self._number_read = 0
        self._note_readings(number - 1)
        self._number = number
        self.entries[entry["event"]] += 1
        if entry["number"] == 1:
            self._issued.clear()
        if "error" in reply:
            self.refused[reply["error"]] += 1
        elif entry["event"] == "acquire":
            self._issued[reply["ticket"]] = moment
        elif "fate" in reply:
            self._note_end(entry)
        if "state" in reply:
            self._note_state(reply["state"], moment, entry["event"])
        self._note_readings(number)

    def note_all_seen(self) -> None:
        """Notes that no more entry comes that was made before the last reading."""
        self._note_readings(self._number_read)

    def _note_end(self, entry: Entry) -> None:
        """Counts the end of a ticket. How long its call took is what lies between its two entries."""
        reply = entry["reply"]
        issued = self._issued.pop(entry["ticket"], entry["moment"])
        self.fates[reply["fate"]] += 1
        if "verdict" in reply:
            kind = KIND_OF_VERDICT[reply["verdict"]]
            self.calls[kind] += 1
            self.seconds[kind] += (entry["moment"] - issued) / 1000

    def note_reading(self, state: dict[str, Any], held: int) -> None:
        """Notes where the service stands and how many entries are held, and a sample for the page."""
        now = time.time()
        self.state, self.held, self.trouble, self.asked_at = state, held, "", now
        if state["entries"] < max(self._number, self._number_read):
            # The sidecar was started anew: what it made before and wasn't seen is lost.
            self.note_all_seen()
            self._number = 0
        self._number_read = state["entries"]
        if state["state"] != (self._ahead[-1].state if self._ahead else self._state):
            self._ahead.append(Reading(int(now * 1000), state["state"], state["entries"]))
        self._note_readings(self._number)
        if self._away is not None:
            self._away = None
            self._show(Change(int(now * 1000), state["state"], "reading"))
        shown = {key: state[key] for key in ("failureRate", "slowRate", "open", "free", "total", "notPermitted")}
        self.samples.append({"moment": int(now * 1000), "calls": sum(self.calls.values()), **shown})

    def note_trouble(self, trouble: str, shown: str = AWAY) -> None:
        """Notes that the service can't be asked, and what is shown in place of its state."""
        self.trouble, self.asked_at = trouble, time.time()
        if self._away != shown:
            self._away = shown
            self._show(Change(int(self.asked_at * 1000), shown, trouble))

    def note_source(self, missed: int, runs: int) -> None:
        """Notes how many entries were missed, and how many runs of the sidecar were seen."""
        self.missed, self.restarts = missed, runs - 1

    def _note_readings(self, number: int) -> None:
        """Notes the states of the readings that follow an entry, or an earlier one."""
        while self._ahead and self._ahead[0].number <= number:
            reading = self._ahead.popleft()
            self._note_state(reading.state, reading.moment, "reading")

    def _note_state(self, state: str, moment: int, why: str) -> None:
        """Counts a change, where the state is another one."""
        if state != self._state:
            self._state = state
            self.transitions[state] += 1
            self._show(Change(moment, state, why))

    def _show(self, change: Change) -> None:
        """Keeps a change for the page, in the order of moments."""
        bisect.insort(self.changes, change, key=lambda one: one.moment)
        del self.changes[:-MOST_CHANGES]

    def _changes_shown(self) -> list[Change]:
        """Returns the changes with those that are known from readings alone, without one that is none."""
        readings = [Change(reading.moment, reading.state, "reading") for reading in self._ahead]
        changes = sorted([*self.changes, *readings], key=lambda one: one.moment)
        return [next(same) for _, same in itertools.groupby(changes, key=lambda one: one.state)]

    def shown(self) -> dict[str, Any]:
        """Returns what the page shows."""
        return {
            "name": self.name,
            "state": self.state,
            "trouble": self.trouble,
            "missing": self.is_missing,
            "thresholds": self.thresholds and vars(self.thresholds),
            "calls": dict(self.calls),
            "refused": {"notPermitted": self.refused[31], "bulkheadFull": self.refused[32]},
            "changes": [vars(change) for change in self._changes_shown()],
            "samples": list(self.samples),
            "missed": self.missed,
            "restarts": self.restarts,
        }
