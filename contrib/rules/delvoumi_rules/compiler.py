"""Translates rules to the text of the sidecar's assembler.

Each rule is tried in order. A condition falls through to the next one where it holds, and else jumps to the next rule.
The record's pointer stands in R6, since helper functions unset R1 to R5.
"""

from dataclasses import dataclass, field

from .model import BadRules, BodyHas, Condition, NumberIn, Rules, TagBegins
from .outcomes import ANSWERS, FIELDS, FRONT_OFFSET

MOST_SLOTS = 4096
# An immediate is signed in 32 bits, and has its sign extended.
BELOW_IMMEDIATE = 1 << 31
COLUMN_OF_COMMENT = 36
RECORD = "r6"
# Where on the stack a tag's beginning is written.
TAG_PLACE = -32
LOADS = {1: "ldxb", 2: "ldxh", 4: "ldxw", 8: "ldxdw"}
STORES = {1: "stb", 2: "sth", 4: "stw"}


class Label:
    """A place in the text, to which jumps lead."""

    slot: int = -1


@dataclass
class Line:
    """An instruction, where it stands, and where it jumps to."""

    text: str
    slot: int
    target: Label | None
    comment: str

    @property
    def slots(self) -> int:
        return 2 if self.text.startswith("lddw ") else 1

    def __str__(self) -> str:
        jump = "" if self.target is None else f", {self.target.slot - self.slot - self.slots:+d}"
        text = self.text + jump
        return f"{text.ljust(COLUMN_OF_COMMENT)}; {self.comment}" if self.comment else text


@dataclass
class Text:
    """Assembler text that grows. The next comment is written beside the next instruction."""

    lines: list[Line] = field(default_factory=list)
    slots: int = 0
    comment: str = ""

    def add(self, text: str, target: Label | None = None) -> None:
        """Adds an instruction. One that jumps has its target, and no offset in its text."""
        self.lines.append(Line(text, self.slots, target, self.comment))
        self.slots += self.lines[-1].slots
        self.comment = ""

    def place(self, label: Label) -> None:
        """Lets a label stand for what comes next."""
        label.slot = self.slots

    def compare(self, word: str, register: str, value: int, target: Label) -> None:
        """Adds a jump where a comparison of a register with a number holds."""
        if value < BELOW_IMMEDIATE:
            self.add(f"{word} {register}, {value}", target)
        else:
            self.add(f"lddw r3, {value}")
            self.add(f"{word} {register}, r3", target)


def compiled(rules: Rules) -> str:
    """Returns the assembler text of rules, or raises BadRules where it would be too long."""
    text = Text()
    text.add(f"mov {RECORD}, r1")
    for number, rule in enumerate(rules.rules, 1):
        title = f"rule {number}: {rule.name}" if rule.name else f"rule {number}"
        next_rule = Label()
        for index, condition in enumerate(rule.conditions):
            text.comment = f"{title}: {condition.text}" if index == 0 else f"  and {condition.text}"
            _add_condition(text, condition, next_rule)
        text.comment = f"{title}: {rule.answer}" if rule.is_always_so else f"  then {rule.answer}"
        _add_answer(text, rule.answer)
        if rule.is_always_so:
            break  # No rule behind this one is ever tried, and an instruction that nothing leads to is refused.
        text.place(next_rule)
    else:
        text.comment = f"default: {rules.default}"
        _add_answer(text, rules.default)
    if text.slots > MOST_SLOTS:
        raise BadRules(f"the classifier would have {text.slots} slots, and at most {MOST_SLOTS} are taken")
    return "".join(f"{line}\n" for line in text.lines)


def _add_answer(text: Text, answer: str) -> None:
    text.add(f"mov r0, {ANSWERS.index(answer)}")
    text.add("exit")


def _add_condition(text: Text, condition: Condition, otherwise: Label) -> None:
    """Adds what falls through where the condition holds, and else jumps."""
    if condition.is_always_so:
        return
    match condition:
        case NumberIn():
            _add_number_in(text, condition, otherwise)
        case BodyHas():
            _add_body_has(text, condition, otherwise)
        case TagBegins():
            _add_tag_begins(text, condition, otherwise)


def _add_number_in(text: Text, condition: NumberIn, otherwise: Label) -> None:
    """Loads the number, and compares it with each interval. They are in order: below one it is below all later."""
    if condition.fact is None:
        place, register = FIELDS[condition.name], "r2"
        text.add(f"{place.load} {register}, [{RECORD}+{place.offset}]")
    else:
        register = "r0"
        text.add(f"mov r1, {condition.fact}")
        text.add("call 1")
    holds = Label()
    for low, high in condition.intervals[:-1]:
        if low == high:
            text.compare("jeq", register, low, holds)
            continue
        if low > 0:
            text.compare("jlt", register, low, otherwise)
        text.compare("jle", register, high, holds)
    low, high = condition.intervals[-1]
    if low == high:
        text.compare("jne", register, low, otherwise)
    else:
        if low > 0:
            text.compare("jlt", register, low, otherwise)
        if high < condition.greatest:
            text.compare("jgt", register, high, otherwise)
    text.place(holds)


def pieces(start: int, length: int, sizes: tuple[int, ...]) -> list[tuple[int, int]]:
    """Splits bytes into pieces of these sizes, the greatest first, each aligned to its size: place and size of each."""
    made, at = [], start
    while at < start + length:
        size = next(size for size in sizes if at % size == 0 and at + size <= start + length)
        made.append((at, size))
        at += size
    return made


def _add_body_has(text: Text, condition: BodyHas, otherwise: Label) -> None:
    start = FRONT_OFFSET + condition.at
    for at, size in pieces(start, len(condition.data), (8, 4, 2, 1)):
        value = int.from_bytes(condition.data[at - start : at - start + size], "little")
        text.add(f"{LOADS[size]} r2, [{RECORD}+{at}]")
        text.compare("jne", "r2", value, otherwise)


def _add_tag_begins(text: Text, condition: TagBegins, otherwise: Label) -> None:
    for at, size in pieces(0, len(condition.data), (4, 2, 1)):
        value = int.from_bytes(condition.data[at : at + size], "little")
        text.add(f"{STORES[size]} [r10{TAG_PLACE + at}], {value}")
    text.add("mov r1, r10")
    text.add(f"add r1, {TAG_PLACE}")
    text.add(f"mov r2, {len(condition.data)}")
    text.add("call 4")
    text.add("jeq r0, 0", otherwise)
