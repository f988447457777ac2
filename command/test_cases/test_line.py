"""The command line."""

import re

from harness import MISUSED, ROOT, Case
from images import every

SEE = "; see tikomuci --help\n"
VERBS = ["show", "check", "string", "constant", "body", "section", "type", "cache", "cache-demo"]


class Line(Case):
    def misused(self, why, *words):
        self.says(MISUSED, "", f"tikomuci: {why}{SEE}", *words)

    def test_commands(self):
        self.misused("there is no command")
        self.misused("there is no command", "--json")
        self.misused("there is no command list", "list", "every")

    def test_files(self):
        self.misused("show takes a FILE or more", "show")
        self.misused("check takes a FILE or more", "check", "--json")
        self.misused("show takes no -o", "show", "every", "-o", "out")
        self.misused("cache-demo takes a FILE or more", "cache-demo", "-o", "out")

    def test_stores(self):
        self.misused("cache takes OWNERS and BUFFER", "cache", "every")
        self.misused("cache takes OWNERS and BUFFER", "cache", "every", "every", "every")
        self.misused("cache takes no -o", "cache", "every", "every", "-o", "out")
        self.misused("standard input cannot be both OWNERS and BUFFER", "cache", "--json", "-", "-")
        self.misused("standard output cannot take two stores", "cache-demo", "every", "-o", "-")

    def test_parts(self):
        for verb in ("string", "constant", "body"):
            takes = f"{verb} takes FILE, N and -o OUT"
            self.misused(takes, verb, "every", "0")
            self.misused(takes, verb, "every", "-o", "out")
            self.misused(takes, verb, "every", "0", "1", "-o", "out")
            for number in ("x", "", "-1", "+1", "1x", " 1", "18446744073709551616"):
                self.misused(f"{number} is no number of a row", verb, "-o", "out", "--", "every", number)
        self.misused("section takes FILE, SECTION and -o OUT", "section", "every", "func")
        for section in ("Funcs", "", "-2", "end"):
            self.misused(f"{section} is no section", "section", "-o", "out", "--", "every", section)

    def test_types(self):
        self.misused("type takes no -o", "type", "every", "0", "-o", "out")
        for words in (["every"], ["every", "0", "1"], []):
            self.misused("type takes FILE and N", "type", *words)
        for number in ("x", "", "-1", "18446744073709551616"):
            self.misused(f"{number} is no number of a row", "type", "--", "every", number)

    def test_options(self):
        self.misused("there is no option --all", "show", "every", "--all")
        self.misused("-o takes one OUT", "constant", "every", "0", "-o")
        self.misused("-o takes one OUT", "constant", "every", "0", "-o", "a", "-o", "b")
        self.misused(
            "standard output cannot take both --json and -o -", "constant", "--json", "every", "0", "-o", "-"
        )

    def test_behind_two_dashes_nothing_is_an_option(self):
        self.file("--json", every().bytes)
        self.says(0, "--json: accepted\n", "", "check", "--", "--json")
        self.assertEqual(self.object(0, "", "check", "--json", "--", "--json")["file"], "--json")

    def test_version(self):
        [version] = re.findall(r'#define TIKOMUCI_VERSION "(.*)"', (ROOT / "include/tikomuci.h").read_text())
        self.says(0, f"tikomuci {version}\n", "", "--version")

    def test_help(self):
        status, text, errors = self.said("--help")
        self.assertEqual((status, errors), (0, ""))
        self.says(0, text, "", "show", "-h", "every")
        self.assertEqual(re.findall(r"^tikomuci (\w[\w-]*)", text, re.MULTILINE), VERBS)
        self.assertEqual(re.findall(r"^  (\d)  ", text, re.MULTILINE), list("012345"))
        self.assertLessEqual(max(map(len, text.splitlines())), 120)

    def test_the_manual_page_has_what_the_help_has(self):
        page = (ROOT / "packaging/tikomuci.1.in").read_text().replace("\\-", "-")
        for verb in VERBS:
            self.assertIn(f"\n.B tikomuci {verb}\n", page)
        text = self.said("--help")[1]
        for status, meaning in re.findall(r"^  (\d)  (.*)", text, re.MULTILINE):
            self.assertIn(f"\n.B {status}\n{meaning[0].upper()}{meaning[1:]}", page)
