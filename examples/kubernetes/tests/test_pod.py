"""Shows that the program takes the config map, that the commands of the pod work, and that its keys are the API's."""

import importlib.util
import json
import os
import re
import shutil
import subprocess
import unittest
from typing import Any

import yaml
from testbed import NOBODY, Server

HERE = os.path.dirname(os.path.realpath(__file__))
BUSYBOX = shutil.which("busybox")
ADDRESS = "127.0.0.1:8080"
MEGABYTES_OF_A_SERVICE, MEGABYTES_OF_CONNECTIONS = 42, 10
# What the API of the package doesn't have yet.
NEWER = {("V1Container", "restartPolicy")}
PLAIN = {"str": str, "int": int, "bool": bool, "object": object}


def parts() -> tuple[dict[str, Any], dict[str, Any]]:
    """Returns the config map and the pod."""
    with open(f"{HERE}/../pod.yaml", encoding="utf-8") as file:
        config_map, pod = yaml.safe_load_all(file)
    return config_map, pod


def container(name: str) -> dict[str, Any]:
    """Returns a container of the pod."""
    spec = parts()[1]["spec"]
    return next(each for each in spec["initContainers"] + spec["containers"] if each["name"] == name)


def settings() -> dict[str, Any]:
    """Returns the file of `serve`."""
    found: dict[str, Any] = json.loads(parts()[0]["data"]["sidecar.json"])
    return found


class ThePod(unittest.TestCase):
    def test_the_file_is_mounted_where_the_image_reads_it(self) -> None:
        config_map, pod = parts()
        volume = next(each for each in pod["spec"]["volumes"] if each["name"] == "sidecar")
        mount = container("sidecar")["volumeMounts"][0]
        self.assertEqual((volume["configMap"]["name"], mount["name"]), (config_map["metadata"]["name"], "sidecar"))
        with open(f"{HERE}/../Containerfile", encoding="utf-8") as file:
            entry = json.loads(re.findall(r"(?m)^ENTRYPOINT (.*)$", file.read())[0])
        self.assertEqual(entry, ["/sidecar", "serve", f"{mount['mountPath']}/sidecar.json"])

    def test_the_program_takes_the_file(self) -> None:
        given = settings()
        self.assertEqual(given["listen"], ADDRESS)
        self.assertEqual(container("application")["env"], [{"name": "SIDECAR", "value": ADDRESS}])
        with Server(given["services"], given["workers"], tickets=given["tickets"]) as server:
            self.assertEqual(
                [server.state("state", service=each["name"]) for each in given["services"]], [["CLOSED"]] * 2
            )

    def test_the_sidecar_needs_nobody_beside_it(self) -> None:
        given = settings()
        self.assertEqual([each["journal"] for each in given["services"]], ["last"] * 2)
        for each in given["services"]:
            self.assertGreater(each["maxTicketAge"], 30_000)
        with Server(given["services"], given["workers"], tickets=given["tickets"]) as server:
            first = server.ask("POST", "acquire")["ticket"]
            server.start_again()
            self.assertGreater(server.ask("POST", "acquire")["ticket"], first)

    def test_the_limit_of_memory_has_room_for_full_journals(self) -> None:
        given = settings()
        limit = container("sidecar")["resources"]["limits"]["memory"]
        self.assertRegex(limit, r"^\d+Mi$")
        least = MEGABYTES_OF_A_SERVICE * len(given["services"]) + MEGABYTES_OF_CONNECTIONS
        self.assertGreater(int(limit[:-2]) * 1.048, least)

    def test_no_container_has_more_rights_than_it_needs(self) -> None:
        rights = container("sidecar")["securityContext"]
        self.assertEqual(rights["capabilities"], {"drop": ["ALL"]})
        self.assertEqual((rights["allowPrivilegeEscalation"], rights["readOnlyRootFilesystem"]), (False, True))
        self.assertEqual(container("sidecar")["restartPolicy"], "Always")


@unittest.skipUnless(BUSYBOX, "there is no busybox here: Debian has it in the package busybox-static")
class ItsCommands(unittest.TestCase):
    def at(self, words: list[str], address: str) -> list[str]:
        """Returns a command of the pod for this machine."""
        host, port = address.split(":")
        place = f"{host} {port}"
        return [word.replace("/busybox", str(BUSYBOX)).replace(ADDRESS.replace(":", " "), place) for word in words]

    def test_the_probes(self) -> None:
        given = settings()
        with Server(given["services"], given["workers"]) as server:
            for probe in ("startupProbe", "livenessProbe"):
                words = container("sidecar")[probe]["exec"]["command"]
                no_service = [word.replace("/pay/", "/none/") for word in words]
                for command, address, is_well in [
                    (words, server.address, True),
                    (words, NOBODY, False),
                    (no_service, server.address, False),
                ]:
                    ran = subprocess.run(self.at(command, address), stderr=subprocess.DEVNULL, timeout=10, check=False)
                    self.assertEqual((probe, address, ran.returncode == 0), (probe, address, is_well))
            self.assertEqual(server.state("entries"), [0])


@unittest.skipUnless(importlib.util.find_spec("kubernetes"), "there is no python3-kubernetes here")
class ItsKeys(unittest.TestCase):
    def test_they_are_those_of_the_api(self) -> None:
        config_map, pod = parts()
        self.checked("V1ConfigMap", config_map, "config map")
        self.checked("V1Pod", pod, "pod")

    def checked(self, kind: str, value: Any, where: str) -> None:
        """Checks a value against a type of the API: its keys, their types, and those that have to be there."""
        from kubernetes.client import models

        if inner := re.fullmatch(r"list\[(.*)\]", kind):
            self.assertIsInstance(value, list, where)
            for number, each in enumerate(value):
                self.checked(inner[1], each, f"{where}[{number}]")
        elif inner := re.fullmatch(r"dict\(str, (.*)\)", kind):
            self.assertIsInstance(value, dict, where)
            for key, each in value.items():
                self.checked(inner[1], each, f"{where}.{key}")
        elif kind in PLAIN:
            self.assertIsInstance(value, PLAIN[kind], where)
        else:
            model = getattr(models, kind)
            attributes = {key: attribute for attribute, key in model.attribute_map.items()}
            known = {key: each for key, each in value.items() if (kind, key) not in NEWER}
            self.assertLessEqual(known.keys(), attributes.keys(), where)
            for key, each in known.items():
                self.checked(model.openapi_types[attributes[key]], each, f"{where}.{key}")
            # Its constructor refuses a value without a key that has to be there.
            model(**{attributes[key]: each for key, each in known.items()})


if __name__ == "__main__":
    unittest.main()
