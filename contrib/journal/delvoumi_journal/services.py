"""The services of a file of `serve`, which may change while their journals are kept."""

import json
import os
from collections.abc import Sequence

from delvoumi.sidecar import SERVICE_NAME


def checked(names: Sequence[object]) -> list[str]:
    """Returns the names of services, each once. Raises ValueError where one of them is none."""
    found = dict.fromkeys(name for name in names if isinstance(name, str) and SERVICE_NAME.fullmatch(name))
    for name in names:
        if name not in found:
            raise ValueError(f"{name!r} is no name of a service")
    return list(found)


def names_in(file: str) -> list[str]:
    """Returns the names of the services in a file of `serve`. Raises OSError, or ValueError that says what is wrong."""
    with open(file, encoding="utf-8") as opened:
        try:
            settings = json.load(opened)
            names = [service["name"] for service in settings["services"]]
        except json.JSONDecodeError as error:
            raise ValueError(f"{file}: {error}") from error
        except (TypeError, KeyError) as error:
            raise ValueError(f"{file} has no services with names") from error
    try:
        return checked(names)
    except ValueError as error:
        raise ValueError(f"{file}: {error}") from error


class ServicesFile:
    """The services of a file, which is read again when it changes."""

    def __init__(self, file: str) -> None:
        self._file = file
        self._seen = self._mark()
        self.names = names_in(file)
        # What is wrong with the file as it is now. The names are those that it had before.
        self.fault = ""

    def look(self) -> bool:
        """Reads the file again where it changed or was wrong. Returns whether its names or its fault are others now."""
        before = self.names, self.fault
        try:
            mark = self._mark()
            if mark == self._seen and not self.fault:
                return False
            self.names, self.fault = names_in(self._file), ""
            self._seen = mark
        except (OSError, ValueError) as error:
            self.fault = str(error)
        return (self.names, self.fault) != before

    def _mark(self) -> tuple[int, int, int]:
        """Returns what is another one where the file was written or replaced."""
        found = os.stat(self._file)
        return found.st_ino, found.st_size, found.st_mtime_ns
