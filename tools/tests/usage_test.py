"""The manuals name what the usage line and the scripts name, the statuses and the end words."""

import os
import re
import shutil
import subprocess
import unittest

from setting import TOP, read, scripts, usage
from ceptre_tools import commands
from ceptre_tools.program import run

MANUAL = os.path.join(TOP, "man", "ceptre.1")


class Manual(unittest.TestCase):
    def test_the_forms_are_those_of_the_usage_line(self):
        self.assertEqual(run().line, commands.usage())
        synopsis = read(MANUAL).split(".Sh SYNOPSIS\n")[1].split(".Sh ")[0]
        forms = {}
        for form in synopsis.split(".Nm\n")[1:]:
            command = re.search(r"^\.Cm (\w+)$", form, re.MULTILINE).group(1)
            arguments = re.findall(r"^\.Ar (.*)$", form, re.MULTILINE)[0].split()
            forms[command] = (arguments, re.findall(r"^\.(?:Op )?Cm (\w+=) Ns Ar N$", form, re.MULTILINE))
        self.assertEqual(forms, usage())

    def test_each_word_and_option_is_told(self):
        text = read(MANUAL).split(".Sh DESCRIPTION\n")[1]
        told = re.findall(r"^\.It Cm (\w+=?)", text.split(".Ss ")[0], re.MULTILINE)
        options = {option for _, found in usage().values() for option in found}
        self.assertEqual(set(told), set(usage()) | options)

    def test_the_statuses_are_those_of_the_formats(self):
        told = re.findall(r"^\.It (\d)$", read(MANUAL), re.MULTILINE)
        table = read(TOP, "docs", "FORMATS.md").split("| status |")[1].split("\n\n")[0]
        self.assertEqual(told, re.findall(r"^\| (\d) \|", table, re.MULTILINE))

    @unittest.skipUnless(shutil.which("mandoc"), "mandoc is not installed")
    def test_mandoc_has_nothing_to_say(self):
        pages = [os.path.join(TOP, "man", name) for name in sorted(os.listdir(os.path.join(TOP, "man")))]
        command = ["mandoc", "-Tlint", *pages]
        told = subprocess.run(command, capture_output=True, text=True, check=False).stdout
        # Each page names its version where the manuals of an operating system leave this to it.
        self.assertEqual([line for line in told.splitlines() if "operating system explicitly specified" not in line], [])

    def test_the_end_words_are_those_of_the_formats(self):
        told = re.findall(r"^\.It Cm (\w+)$", read(MANUAL).split(".Ss End words\n")[1], re.MULTILINE)
        table = read(TOP, "docs", "FORMATS.md").split("## End words\n")[1].split("\n\nWith")[0]
        self.assertEqual(told, re.findall(r"^\| `(\w+)` \|", table, re.MULTILINE))

    def test_each_script_is_named_and_has_its_page(self):
        told = re.findall(r"^\.It Pa tools/(\w+)$", read(MANUAL), re.MULTILINE)
        self.assertEqual(sorted(told), scripts())
        readme = read(TOP, "README.md")
        self.assertEqual([name for name in scripts() if not re.search(rf"^- `tools/{name}[ `]", readme, re.MULTILINE)], [])
        command = [os.path.join(TOP, ".ci", "commands"), "--check"]
        told = subprocess.run(command, capture_output=True, text=True, check=False).stdout
        # Each page names its version where the manuals of an operating system leave this to it.
        self.assertEqual([line for line in told.splitlines() if "operating system explicitly specified" not in line], [])


if __name__ == "__main__":
    unittest.main()
