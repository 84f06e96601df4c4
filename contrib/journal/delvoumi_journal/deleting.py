"""Deletes files that were rotated, where they are too old or too many."""

import os
import re
from collections.abc import Callable
from dataclasses import dataclass

from .files import time_of

# What a rotation makes: the service, the moment of the last entry, its number.
ROTATED = re.compile(r"([a-z0-9_-]{1,64})\.(\d{8}T\d{6}\.\d{6}Z)\.\d{20}\.jsonl(?:\.gz)?")
GROWING = re.compile(r"([a-z0-9_-]{1,64})\.jsonl")
MOMENT = "%Y%m%dT%H%M%S.%fZ"
MILLISECONDS_OF_A_DAY = 86_400_000

Say = Callable[[str], None]


@dataclass(frozen=True)
class Limits:
    """How many days and how many bytes of files are kept. None is no limit."""

    days: float | None
    most_bytes: int | None


def delete_old(folder: str, limits: Limits, now: int, say: Say) -> None:
    """Deletes rotated files that are beyond the limits at a moment, the oldest first, and says which.

    Of each service the last file stays, since a keeper goes on behind its last entry."""
    if limits.days is None and limits.most_bytes is None:
        return
    sizes = sizes_in(folder)
    # Moments are written so that their order is that of their letters.
    begin = time_of(max(0, now - int((limits.days or 0) * MILLISECONDS_OF_A_DAY))).strftime(MOMENT)
    total = sum(sizes.values())
    for name in deletable(list(sizes)):
        if limits.days is not None and moment_of(name) < begin:
            why = f"its last entry is older than {limits.days:g} days"
        elif limits.most_bytes is not None and total > limits.most_bytes:
            why = f"all files have more than {limits.most_bytes / 1_000_000:g} megabytes"
        else:
            return
        os.unlink(f"{folder}/{name}")
        total -= sizes[name]
        say(f"deleted {name}: {why}")


def sizes_in(folder: str) -> dict[str, int]:
    """Returns the sizes of the files that keepers wrote to a folder."""
    with os.scandir(folder) as found:
        return {
            one.name: one.stat().st_size
            for one in found
            if one.is_file(follow_symlinks=False) and (ROTATED.fullmatch(one.name) or GROWING.fullmatch(one.name))
        }


def deletable(names: list[str]) -> list[str]:
    """Returns the names of the rotated files, the oldest first, without the last file of each service."""
    rotated = sorted((name for name in names if ROTATED.fullmatch(name)), key=lambda name: (moment_of(name), name))
    growing = {found[1] for name in names if (found := GROWING.fullmatch(name))}
    last = {name.partition(".")[0]: name for name in rotated}
    return [name for name in rotated if name.partition(".")[0] in growing or name != last[name.partition(".")[0]]]


def moment_of(name: str) -> str:
    """Returns the moment in the name of a rotated file."""
    return ".".join(name.split(".")[1:3])
