"""Shows that rules mean in the sidecar what they mean here, and that what can't be meant is refused."""

import contextlib
import glob
import io
import json
import os
import random
import re
import subprocess
import tempfile
import tomllib
import unittest
from concurrent.futures import ThreadPoolExecutor
from typing import Any

from delvoumi_rules.main import main
from delvoumi_rules.model import BadRules, NumberIn, Rules, TagBegins, BodyHas, rules_of
from delvoumi_rules.compiler import compiled
from delvoumi_rules.outcomes import ANSWERS, FIELDS, KINDS, METHODS
from delvoumi_rules.program import assembled, judged, verified
from testbed import PROGRAM, Server

HERE = os.path.dirname(os.path.realpath(__file__))
EXAMPLES = os.path.join(HERE, "../examples")
SEED = 20_260_101
# So many rule files are compared, each with so many outcomes. With --full the first number is greater.
FILES = 2_000 if os.environ.get("CONTRIB_FULL") else 240
OUTCOMES = 20
# How many files one replay takes: a service holds 256 versions of its classifier.
BATCH = 80
# The prices of one process a judgement are paid for these alone.
JUDGED_ALONE = 12


def run(*words: str) -> tuple[int, str]:
    """Runs a command, and returns its status and what it prints."""
    printed = io.StringIO()
    with contextlib.redirect_stdout(printed), contextlib.redirect_stderr(printed):
        status = main(list(words))
    return status, printed.getvalue()


# Random rules


def near(choose: random.Random, greatest: int) -> int:
    """Returns a number that is often small, and at times near a power of 2."""
    power = 1 << choose.choice([31, 32, 63, 64])
    number = choose.choice([choose.randrange(4), choose.randrange(700), power - choose.randrange(4), power])
    return min(number, greatest)


def some_interval(choose: random.Random, greatest: int) -> int | str:
    low, high = sorted(near(choose, greatest) for _ in range(2))
    return choose.choice([low, f"{low}-{high}"])


def some_bytes(choose: random.Random, longest: int) -> dict[str, str]:
    length = choose.choice([1, 2, 3, choose.randrange(1, longest + 1)])
    return {"hex": bytes(choose.choice([0, 65, 128, 255]) for _ in range(length)).hex()}


def some_fact(choose: random.Random) -> dict[str, Any]:
    greatest = (1 << 64) - 1
    table: dict[str, Any] = {"number": choose.randrange(16)}
    kind = choose.randrange(4)
    if kind == 0:
        table["is"] = [some_interval(choose, greatest) for _ in range(choose.randrange(1, 4))]
    elif kind == 1:
        table["above"] = near(choose, greatest - 1)
    elif kind == 2:
        table["at_least"], table["at_most"] = sorted(near(choose, greatest) for _ in range(2))
    else:
        table["below"] = near(choose, greatest - 1) + 1
    return table


def some_condition(choose: random.Random) -> tuple[str, Any]:
    """Returns a key and a value of a rule."""
    key = choose.choice(
        ["kind", "method", "status", "number", "above", "body_begins", "body_has", "tag_begins", "fact"]
    )
    if key in ("kind", "method"):
        words = KINDS if key == "kind" else METHODS
        return key, choose.sample(words, choose.randrange(1, 4))
    if key == "status":
        each = lambda: choose.choice([choose.choice(["1xx", "2xx", "3xx", "4xx", "5xx"]), choose.randrange(100, 600)])
        return key, [each() for _ in range(choose.randrange(1, 4))]
    if key == "number":
        name = choose.choice(["attempt", "duration_ms", "request_bytes", "response_bytes", "flags", "body_length"])
        return name, [some_interval(choose, FIELDS[name].greatest) for _ in range(choose.randrange(1, 4))]
    if key == "above":
        name = choose.choice(["attempt", "duration", "request_bytes", "response_bytes"])
        field = FIELDS["duration_ms" if name == "duration" else name]
        return f"{name}_above", near(choose, field.greatest - 1)
    if key == "body_begins":
        return key, some_bytes(choose, 40)
    if key == "body_has":
        data = some_bytes(choose, 20)
        return key, {"at": choose.randrange(129 - len(data["hex"]) // 2), **data}
    if key == "tag_begins":
        return key, some_bytes(choose, 32)
    return key, [some_fact(choose) for _ in range(choose.randrange(1, 3))]


def toml(value: Any) -> str:
    """Writes a value as TOML."""
    if isinstance(value, list):
        return f"[{', '.join(map(toml, value))}]"
    if isinstance(value, dict):
        return f"{{{', '.join(f'{key} = {toml(each)}' for key, each in value.items())}}}"
    if isinstance(value, int) and value >= 1 << 63:
        return f'"{value}-{value}"'  # TOML's numbers end there, and a range has no such end.
    return json.dumps(value)


def fits_toml(value: Any) -> bool:
    """Returns whether a number that isn't in a list can be written in TOML."""
    return not isinstance(value, int) or value < 1 << 63


def some_rules(choose: random.Random) -> Rules:
    """Writes a random file of rules, and reads it."""
    lines = [f'default = "{choose.choice(ANSWERS)}"']
    for number in range(choose.randrange(6)):
        conditions = dict(some_condition(choose) for _ in range(choose.randrange(1, 4)))
        lines += ["[[rule]]", f'name = "number {number}"', f'answer = "{choose.choice(ANSWERS)}"']
        for key, value in conditions.items():
            flat = value[0] if isinstance(value, list) and isinstance(value[0], dict) else value
            inner = flat.values() if isinstance(flat, dict) else [flat]
            if all(fits_toml(each) for each in inner):
                lines.append(f"{key} = {toml(flat if key == 'fact' else value)}")
        if lines[-1].startswith("answer"):
            lines.append("attempt_above = 1")
    return rules_of(tomllib.loads("\n".join(lines)))


def edge(choose: random.Random, condition: NumberIn) -> int:
    """Returns a number at the edge of an interval, on either side."""
    low, high = choose.choice(condition.intervals)
    return min(max(choose.choice([low - 1, low, high, high + 1]), 0), condition.greatest)


def damaged(choose: random.Random, data: bytes) -> bytes:
    """Returns bytes as they are, or shorter, or with one that is another."""
    at = choose.randrange(len(data))
    return choose.choice([data, data, data[:at], data[:at] + bytes([data[at] ^ 1]) + data[at + 1 :]])


def some_outcome(choose: random.Random, rules: Rules) -> dict[str, Any]:
    """Returns an outcome that lies at the edges of some of the conditions."""
    outcome: dict[str, Any] = {"status": choose.choice([200, 404, 500, 503])}
    facts, front = [0] * 16, bytearray(128)
    for condition in choose.sample(every := [it for rule in rules.rules for it in rule.conditions], len(every)):
        if choose.random() < 0.3:
            continue
        match condition:
            case NumberIn(fact=int() as number):
                facts[number] = edge(choose, condition)
            case NumberIn(name="kind"):
                outcome["kind"] = KINDS[min(edge(choose, condition), 4)]
            case NumberIn(name="method"):
                outcome["method"] = (*METHODS, "SEARCH")[edge(choose, condition)]
            case NumberIn(name=name):
                outcome[name] = edge(choose, condition)
            case BodyHas(at=at, data=data):
                found = damaged(choose, data)
                front[at : at + len(found)] = found
            case TagBegins(data=data):
                outcome["tag"] = (damaged(choose, data) + choose.choice([b"", b"\0", b"more"]))[:32].hex()
    return {
        **outcome,
        "facts": facts[: choose.choice([16, 16, 3])],
        "body_front": front[: choose.choice([128, 128, 60])].hex(),
    }


def replayed(batch: list[tuple[Rules, bytes, list[dict[str, Any]]]]) -> list[str]:
    """Returns what the sidecar judges: the classifiers are installed in turn in one replay."""
    events: list[dict[str, Any]] = [{"do": "transition", "state": "DISABLED"}]
    ticket = 0
    for rules, code, outcomes in batch:
        events.append({"do": "install", "program": code.hex(), "layout": rules.layout})
        for outcome in outcomes:
            ticket += 1
            events += [{"do": "acquire"}, {"do": "report", "ticket": ticket, "outcome": outcome}]
    text = "{}\n" + "".join(json.dumps({"at": 0, **event}) + "\n" for event in events)
    ran = subprocess.run([PROGRAM, "replay"], input=text, stdout=subprocess.PIPE, text=True, check=True, timeout=120)
    refused = [line for line in ran.stdout.splitlines() if not line.startswith("200 ")]
    if refused:
        raise AssertionError(f"{len(refused)} events are refused: {refused[:3]}")
    return re.findall(r'"verdict":"(\w+)"', ran.stdout)


class RulesMeanTheSame(unittest.TestCase):
    def test_random_rules(self) -> None:
        """Each random file gives the verdicts in the sidecar that it gives here, at the edges of its conditions too."""
        choose = random.Random(SEED)
        every = [some_rules(choose) for _ in range(FILES)]
        with ThreadPoolExecutor(4) as pool:
            codes = list(pool.map(lambda rules: assembled(compiled(rules)), every))
        outcomes = [[some_outcome(choose, rules) for _ in range(OUTCOMES)] for rules in every]
        seen: dict[str, int] = dict.fromkeys(ANSWERS, 0)
        by_rule = layouts = 0
        for start in range(0, FILES, BATCH):
            batch = list(zip(every, codes, outcomes))[start : start + BATCH]
            wanted = [rules.judge(outcome) for rules, _, some in batch for outcome in some]
            found = replayed(batch)
            self.assertEqual(found, [answer for answer, _ in wanted])
            for answer, number in wanted:
                seen[answer] += 1
                by_rule += number > 0
            layouts += sum(rules.layout == 2 for rules, _, _ in batch)
        # The comparison says something only where all kinds of answers come, from rules and defaults, in both layouts.
        self.assertEqual(sum(seen.values()), FILES * OUTCOMES)
        self.assertGreater(min(seen.values()), FILES * OUTCOMES // 10)
        self.assertTrue(FILES * OUTCOMES // 10 < by_rule < FILES * OUTCOMES * 9 // 10, by_rule)
        self.assertTrue(0 < layouts < FILES, layouts)
        print(f"rules: {FILES} files, {FILES * OUTCOMES} outcomes, {by_rule} by a rule, {layouts} files of layout 2")

    def test_judge_says_the_same(self) -> None:
        choose = random.Random(SEED + 1)
        for _ in range(JUDGED_ALONE):
            rules = some_rules(choose)
            outcome = some_outcome(choose, rules)
            self.assertEqual(judged(verified(rules), json.dumps(outcome)), rules.judge(outcome)[0])


class TheCommands(unittest.TestCase):
    def test_the_examples_mean_what_they_say(self) -> None:
        files = sorted(glob.glob(f"{EXAMPLES}/*.toml"))
        self.assertGreaterEqual(len(files), 3)
        for file in files:
            status, printed = run("test", file, f"{EXAMPLES}/outcomes.jsonl")
            self.assertEqual((status, len(printed.splitlines())), (0, 14))
            verdicts = {line.split()[0] for line in printed.splitlines()}
            self.assertLessEqual({"success", "failure"}, verdicts)

    def test_compile_has_each_rule_beside_its_slots(self) -> None:
        status, printed = run("compile", f"{EXAMPLES}/bodies_and_tenants.toml")
        self.assertEqual(status, 0)
        for number in range(1, 8):
            self.assertRegex(printed, rf"(?m)^\S.*; rule {number}: ")
        self.assertRegex(printed.splitlines()[-1], r"^; accepted budget=\d+ slots=\d+ layout=2$")
        status, code = run("compile", "--hex", f"{EXAMPLES}/bodies_and_tenants.toml")
        self.assertEqual(assembled(printed).hex(), code.strip())

    def test_a_verdict_that_differs_fails(self) -> None:
        with tempfile.TemporaryDirectory() as folder:
            with open(f"{folder}/outcomes", "w", encoding="utf-8") as file:
                file.write('{"status":"500"}\n')
            status, printed = run("test", f"{EXAMPLES}/slow_calls.toml", f"{folder}/outcomes")
        self.assertEqual((status, printed), (1, 'refused 59 BadField  {"status":"500"}\n'))

    def test_install(self) -> None:
        with Server() as server:
            url = f"http://{server.address}"
            status, printed = run("install", f"{EXAMPLES}/record_and_ignore.toml", "pay", url)
            self.assertEqual((status, printed), (0, "pay: version 2, budget=14 slots=22 layout=1\n"))
            ticket = server.ask("POST", "acquire")["ticket"]
            answer = server.ask("POST", "report", {"ticket": ticket, "outcome": {"status": 429}})
            self.assertEqual((answer["verdict"], answer["version"]), ("ignored", 2))
            status, printed = run("install", f"{EXAMPLES}/bodies_and_tenants.toml", "pay", url)
            self.assertEqual((status, server.state("version")), (0, [3]))
            self.assertEqual(run("install", f"{EXAMPLES}/slow_calls.toml", "none", url), (1, "rules: 404 NoService\n"))


class WhatIsRefused(unittest.TestCase):
    def refused(self, text: str) -> str:
        with self.assertRaises(BadRules) as raised:
            rules_of(tomllib.loads(text))
        return str(raised.exception)

    def test_files_that_make_no_sense(self) -> None:
        rule = 'default = "success"\n[[rule]]\nanswer = "failure"\n'
        for text, told in [
            ("", "default: default is None, and none of success, failure, ignored"),
            ('default = "fail"', "default: default is 'fail', and none of success, failure, ignored"),
            ('default = "success"\nrules = 1', "the file: there is no key rules"),
            ('default = "success"\n[rule]\nanswer = "failure"', "rule: rules are written as [[rule]]"),
            (rule, "rule 1: it has no condition: say `default` at the top"),
            (rule + "state = 1", "rule 1: there is no key state"),
            (rule + "status = 5e2", "rule 1: status: 500.0 is no whole number"),
            (rule + "status = true", "rule 1: status: True is no whole number"),
            (rule + "status = []", "rule 1: status: the list is empty"),
            (rule + 'status = "6xx"', "rule 1: status: '6xx' is no number and no range"),
            (rule + 'status = "9-3"', "rule 1: status: the range '9-3' has no number"),
            (rule + "status = 4294967296", "rule 1: status: 4294967296 is not from 0 to 4294967295"),
            (rule + "attempt_above = 4294967295", "rule 1: attempt_above: 4294967295 is not from 0 to 4294967294"),
            (rule + 'kind = "late"', "rule 1: kind: 'late' is none of response, timeout, refused, reset, error"),
            (rule + "method = []", f"rule 1: method: None is none of {', '.join(METHODS)}"),
            (rule + 'body_begins = ""', "rule 1: body_begins: there are 0 bytes, and 1 to 128 are taken"),
            (
                rule + 'body_has = {at = 127, text = "ab"}',
                "rule 1: body_has: it ends at byte 129, and a classifier sees 128 bytes",
            ),
            (rule + 'body_has = {at = 1, hex = "0"}', "rule 1: body_has: {'hex': '0'} is no hexadecimal"),
            (rule + "body_has = {at = 1}", "rule 1: body_has: it wants one of text and hex"),
            (rule + f'tag_begins = "{"x" * 33}"', "rule 1: tag_begins: there are 33 bytes, and 1 to 32 are taken"),
            (rule + "fact = {number = 16, is = 1}", "rule 1: fact: 16 is not from 0 to 15"),
            (rule + "fact = {number = 1}", "rule 1: fact: it wants one of above, at_least, below, at_most, is"),
            (rule + "fact = {number = 1, above = 3, below = 4}", "rule 1: fact: no number is so"),
            (rule + 'status = 1\nname = "a\\nb"', "rule 1: name is 'a\\nb', and no text of one line"),
        ]:
            with self.subTest(text):
                self.assertEqual(self.refused(text), told)

    def test_a_classifier_that_would_be_too_long(self) -> None:
        rule = '[[rule]]\nanswer = "failure"\nbody_begins = "' + "x" * 64 + '"\n'
        rules = rules_of(tomllib.loads('default = "success"\n' + rule * 200))
        with self.assertRaises(BadRules) as raised:
            compiled(rules)
        self.assertIn("and at most 4096 are taken", str(raised.exception))

    def test_a_rule_that_always_holds_ends_the_classifier(self) -> None:
        always = '[[rule]]\nanswer = "ignored"\nstatus = "0-4294967295"\n'
        text = f'default = "success"\n{always}[[rule]]\nanswer = "failure"\nstatus = 1'
        rules = rules_of(tomllib.loads(text))
        self.assertEqual((verified(rules).slots, rules.judge({"status": 1})), (3, ("ignored", 1)))

    def test_the_command_says_which_file(self) -> None:
        with tempfile.NamedTemporaryFile("w", suffix=".toml") as file:
            file.write("default = success")
            file.flush()
            status, printed = run("compile", file.name)
        self.assertEqual((status, printed.startswith(f"rules: {file.name}: Invalid value")), (1, True))
        self.assertEqual(run("compile", "/none")[0], 1)


if __name__ == "__main__":
    unittest.main()
