"""The program `sidecar`, which assembles, verifies and judges."""

import os
import re
import subprocess
from dataclasses import dataclass

from .compiler import compiled
from .model import BadRules, Rules

TOP = os.path.dirname(os.path.dirname(os.path.dirname(os.path.dirname(os.path.realpath(__file__)))))
PROGRAM = os.environ.get("SIDECAR_PROGRAM", f"{TOP}/sidecar")


class NoProgram(Exception):
    """The program `sidecar` can't be run, or says something that is not expected."""


@dataclass(frozen=True)
class Classifier:
    """A classifier that was verified: its text, its bytecode, and the layout of the record that it sees."""

    text: str
    code: bytes
    layout: int
    budget: int
    slots: int


def run(words: list[str], given: str = "") -> str:
    """Returns what the program prints."""
    try:
        ran = subprocess.run([PROGRAM, *words], input=given, stdout=subprocess.PIPE, text=True, check=False)
    except OSError as error:
        raise NoProgram(f"{PROGRAM}: {error.strerror}") from error
    if ran.returncode not in (0, 1):
        raise NoProgram(f"{PROGRAM} ended with status {ran.returncode}")
    return ran.stdout.strip()


def assembled(text: str) -> bytes:
    """Returns the bytecode of assembler text."""
    made = run(["asm"], text)
    if not re.fullmatch(r"([0-9a-f]{16})+", made):
        raise NoProgram(f"asm answers {made!r}")
    return bytes.fromhex(made)


def verified(rules: Rules) -> Classifier:
    """Returns the classifier of rules, or raises BadRules where the verifier refuses it."""
    text = compiled(rules)
    code = assembled(text)
    answer = run(["verify", code.hex(), str(rules.layout)])
    found = re.fullmatch(r"accepted budget=(\d+) slots=(\d+)", answer)
    if not found:
        raise BadRules(f"the verifier answers {answer!r}")
    return Classifier(text, code, rules.layout, int(found[1]), int(found[2]))


def judged(classifier: Classifier, outcome: str) -> str:
    """Returns the verdict of a classifier on an outcome, which is JSON, or the refusal."""
    answer = run(["judge", classifier.code.hex(), str(classifier.layout)], outcome)
    return answer if answer.startswith("refused ") else answer.split(" ")[0]
