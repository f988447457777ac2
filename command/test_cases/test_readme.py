"""What README shows of the command is what the command says."""

import os
import re
import shlex

import harness
from harness import ROOT, Case


class Readme(Case):
    def test_the_examples(self):
        os.symlink(ROOT / "hosts", self.folder / "hosts")
        section = (ROOT / "README.md").read_text().split("\n## The command\n")[1].split("\n## ")[0]
        [block] = re.findall(r"^```\n(.*?)^```\n", section, re.MULTILINE | re.DOTALL)
        calls = re.findall(r"^\$ (.*)\n((?:(?!\$ ).*\n)*)", block, re.MULTILINE)
        self.assertGreater(len(calls), 3)
        for line, wanted in calls:
            self.assertIn("build/tikomuci", line)
            line = line.replace("build/tikomuci", shlex.join(harness.COMMAND))
            self.assertEqual(self.said(command=["bash", "-c", line])[1:], (wanted, ""), line)
