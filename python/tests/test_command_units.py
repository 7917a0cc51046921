"""The files in examples/units: systemd reads them without a complaint, and each of their commands is one of `wanzoche`."""

import importlib.util
import os
import re
import shlex
import shutil
import subprocess
import tempfile
import unittest

from wanzoche import Paths
from wanzoche._executing import check_words
from wanzoche._options import parser

from .limits import LONGEST

UNITS = os.path.join(os.path.dirname(os.path.dirname(os.path.dirname(os.path.abspath(__file__)))), "examples", "units")


def text_of(name):
    with open(os.path.join(UNITS, name)) as file:
        return file.read()


class Units(unittest.TestCase):
    def is_command(self, words):
        """Checks the words behind `wanzoche` as it does, over the declaration that it would open."""
        given = parser("0").parse_args(words)
        self.assertEqual((given.command, given.declaration), ("exec", "/etc/app/cron.path"))
        self.assertEqual(given.name is None, given.store.startswith("/"))
        with Paths(text_of("cron.path"), journal=False, room=2) as paths:
            check_words(paths, given)

    def test_services(self):
        for name in ("report.service", "lead.service"):
            found = re.search(r"^ExecStart=/usr/local/bin/wanzoche ((?:.*\\\n)*.*)$", text_of(name), re.M).group(1)
            self.is_command(shlex.split(found.replace("\\\n", "")))

    @unittest.skipUnless(shutil.which("systemd-analyze"), "there is no systemd-analyze")
    def test_units_are_read(self):
        """Each warning is one: a word that is misspelled is only warned of. Programs and the user are those of this machine."""
        with tempfile.TemporaryDirectory(prefix="wanzoche-") as folder:
            names = [name for name in os.listdir(UNITS) if name.endswith((".service", ".timer"))]
            for name in names:
                with open(os.path.join(folder, name), "w") as file:
                    file.write(re.sub(r"/usr/local/bin/\w+", "/bin/true", text_of(name)).replace("User=app", "User=daemon"))
            words = ["systemd-analyze", "--man=no", "verify", *(os.path.join(folder, name) for name in names)]
            ended = subprocess.run(words, stdout=subprocess.PIPE, stderr=subprocess.STDOUT, timeout=LONGEST)
            told = [line for line in ended.stdout.decode().splitlines() if folder in line or ended.returncode]
            self.assertEqual((ended.returncode, told), (0, []))
            self.assertEqual(len(names), 3)

    def test_cron(self):
        """A line of Debian's cron has the user behind the times, and no sign of percent."""
        *_, line = text_of("report.cron").splitlines()
        times, user, words = re.match(r"((?:\S+ ){5}) *(\w+)  /usr/local/bin/wanzoche (.*)$", line).groups()
        self.assertEqual((times.split(), user), (["30", "2", "*", "*", "*"], "app"))
        self.assertNotIn("%", line)
        self.is_command(shlex.split(words))

    @unittest.skipUnless(importlib.util.find_spec("yaml"), "this Python has no yaml")
    def test_containers(self):
        import yaml

        job, pod = (yaml.safe_load(text_of(name)) for name in ("report.yaml", "sidecar.yaml"))
        containers = job["spec"]["jobTemplate"]["spec"]["template"]["spec"]["containers"] + pod["spec"]["containers"]
        self.assertEqual(len(containers), 3)
        for each in containers:
            words = each["command"] + each.get("args", [])
            self.assertTrue(all(isinstance(word, str) for word in words))
            if words[0] == "sh":
                words = shlex.split(re.search("do (.*); done$", words[2]).group(1))
            self.assertEqual(words[0], "wanzoche")
            self.is_command(words[1:])
        volumes = {each["name"] for each in pod["spec"]["volumes"]}
        self.assertEqual({mount["name"] for each in pod["spec"]["containers"] for mount in each["volumeMounts"]}, volumes)


if __name__ == "__main__":
    unittest.main()
