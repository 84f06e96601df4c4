"""Shows of the systemd units in the examples that the keeper's is started with the sidecar's, and what both may do."""

import json
import re
import shlex
import shutil
import subprocess
import unittest

from delvoumi_journal.main import parser
from testbed import TOP

EXAMPLES = f"{TOP}/examples"
SIDECAR, KEEPER = f"{EXAMPLES}/sidecar.service", f"{EXAMPLES}/sidecar-journal.service"
# In tenths: what `systemd-analyze security` counts for a unit goes from 0 to 10.
MOST_EXPOSURE = 20
# Lines of these keys narrow what a program may do.
NARROWING = r"(?:Protect|Private|Restrict|Proc|System|IPAddress|Lock|NoNew|UMask|Capability|DynamicUser|MemoryDeny)\w*"


def lines_of(unit: str) -> list[tuple[str, str]]:
    """Returns the keys and the values of a unit, in their order."""
    with open(unit, encoding="utf-8") as file:
        text = file.read().replace("\\\n", " ")
    return re.findall(r"(?m)^(\w+)=(.*)$", text)


def values(unit: str, key: str) -> list[str]:
    """Returns the values of a key."""
    return [value for name, value in lines_of(unit) if name == key]


class Units(unittest.TestCase):
    def test_the_keeper_comes_and_goes_with_the_sidecar(self) -> None:
        self.assertEqual(values(SIDECAR, "Wants"), ["sidecar-journal.service"])
        self.assertEqual(values(KEEPER, "PartOf") + values(KEEPER, "After"), ["sidecar.service"] * 2)

    def test_the_keeper_keeps_the_services_of_the_sidecars_file(self) -> None:
        (served,), (kept,) = values(SIDECAR, "ExecStart"), values(KEEPER, "ExecStart")
        program, *words = shlex.split(kept)
        self.assertEqual(program.rpartition("contrib/journal/")[2], "journal")
        found = parser().parse_args(words)
        self.assertEqual(found.services_of, shlex.split(served)[-1])
        self.assertEqual(found.folder, f"/var/lib/{values(KEEPER, 'StateDirectory')[0]}")
        with open(f"{EXAMPLES}/sidecar.json", encoding="utf-8") as file:
            self.assertEqual(found.url, f"http://{json.load(file)['listen']}")
        self.assertEqual((found.every, found.keep_days, found.keep_megabytes), (1, 30, 10_000))

    def test_both_are_narrowed_alike(self) -> None:
        of_both = [[line for line in lines_of(unit) if re.fullmatch(NARROWING, line[0])] for unit in (SIDECAR, KEEPER)]
        self.assertGreater(len(of_both[0]), 20)
        self.assertEqual(*of_both)

    @unittest.skipUnless(shutil.which("systemd-analyze"), "there is no systemd-analyze: Debian has it in systemd")
    def test_systemd_takes_them_for_narrow(self) -> None:
        for unit in (SIDECAR, KEEPER):
            words = ["systemd-analyze", "security", "--offline=true", f"--threshold={MOST_EXPOSURE}", unit]
            ran = subprocess.run(words, capture_output=True, text=True, timeout=60, check=False)
            self.assertEqual((ran.returncode, ran.stderr), (0, ""), ran.stdout)
            words = ["systemd-analyze", "verify", unit]
            ran = subprocess.run(words, capture_output=True, text=True, timeout=60, check=False)
            told = [line for line in ran.stderr.splitlines() if "is not executable: No such file" not in line]
            self.assertEqual(told, [])


if __name__ == "__main__":
    unittest.main()
