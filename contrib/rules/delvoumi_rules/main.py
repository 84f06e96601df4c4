"""The commands: compile, test and install."""

import argparse
import json
import sys
import tomllib
from collections.abc import Iterator
from typing import Any

import delvoumi

from .model import BadRules, Rules, rules_of
from .program import Classifier, NoProgram, judged, verified


def read_rules(name: str) -> Rules:
    """Returns the rules of a file."""
    try:
        with open(name, "rb") as file:
            return rules_of(tomllib.load(file))
    except tomllib.TOMLDecodeError as error:
        raise BadRules(str(error)) from error


def about(classifier: Classifier) -> str:
    return f"budget={classifier.budget} slots={classifier.slots} layout={classifier.layout}"


def compile_rules(words: argparse.Namespace) -> int:
    """Prints the classifier of a file, and what the verifier says of it."""
    classifier = verified(read_rules(words.file))
    print(classifier.code.hex() if words.hex else f"{classifier.text}; accepted {about(classifier)}")
    return 0


def outcomes_of(name: str) -> Iterator[tuple[str, dict[str, Any]]]:
    """Yields the outcomes of a file, one a line: the text, and its JSON."""
    with open(name, encoding="utf-8") as file:
        for number, line in enumerate(file, 1):
            if not line.strip():
                continue
            try:
                outcome = json.loads(line)
            except ValueError as error:
                raise BadRules(f"{name}: line {number}: {error}") from error
            if not isinstance(outcome, dict):
                raise BadRules(f"{name}: line {number}: no JSON object")
            yield line.strip(), outcome


def test_rules(words: argparse.Namespace) -> int:
    """Prints the verdict of each outcome and the rule that gives it, and compares with what the sidecar judges."""
    rules = read_rules(words.file)
    classifier = verified(rules)
    wrong = 0
    for text, outcome in outcomes_of(words.outcomes):
        verdict = judged(classifier, text)
        if verdict.startswith("refused "):
            print(f"{verdict}  {text}")
            wrong += 1
            continue
        answer, number = rules.judge(outcome)
        is_same = answer == verdict
        wrong += not is_same
        differs = "" if is_same else f"  BUT THE SIDECAR SAYS {verdict}"
        print(f"{answer.ljust(7)}  {named(rules, number)}  {text}{differs}")
    return int(wrong > 0)


def named(rules: Rules, number: int) -> str:
    """Returns how a rule is called."""
    if number == 0:
        return "default"
    name = rules.rules[number - 1].name
    return f"rule {number}: {name}" if name else f"rule {number}"


def install_rules(words: argparse.Namespace) -> int:
    """Installs the classifier of a file for a service of a running sidecar."""
    classifier = verified(read_rules(words.file))
    sidecar = delvoumi.Sidecar(words.url, words.service, seconds=5)
    try:
        answer = sidecar.install(classifier.code, classifier.layout)
    finally:
        sidecar.close()
    print(f"{words.service}: version {answer['version']}, {about(classifier)}")
    return 0


def parser() -> argparse.ArgumentParser:
    """Returns what reads the words of the command line."""
    made = argparse.ArgumentParser(prog="rules", description="Makes classifiers from rules in TOML.")
    commands = made.add_subparsers(required=True)
    one = commands.add_parser("compile", help="prints the assembler text of a classifier, once it is verified")
    one.add_argument("file")
    one.add_argument("--hex", action="store_true", help="prints its bytecode in hexadecimal instead")
    one.set_defaults(run=compile_rules)
    one = commands.add_parser("test", help="shows the verdict of each outcome, and the rule that gives it")
    one.add_argument("file")
    one.add_argument("outcomes", help="a file of outcomes in JSON, one a line")
    one.set_defaults(run=test_rules)
    one = commands.add_parser("install", help="installs a classifier for a service of a running sidecar")
    one.add_argument("file")
    one.add_argument("service")
    one.add_argument("url", help="the sidecar's address, as http://127.0.0.1:8080")
    one.set_defaults(run=install_rules)
    return made


def main(words: list[str]) -> int:
    """Runs a command, and returns its status."""
    found = parser().parse_args(words)
    try:
        status: int = found.run(found)
        return status
    except (BadRules, NoProgram, OSError) as error:
        print(f"rules: {found.file}: {error}", file=sys.stderr)
    except (delvoumi.SidecarError, ValueError) as error:
        print(f"rules: {error}", file=sys.stderr)
    return 1
