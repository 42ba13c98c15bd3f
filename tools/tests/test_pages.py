"""What the pages of docs/ show is what the tools and the program make: the outline file, the listings, the refusals, the version."""

import os
import pathlib
import re
import subprocess
import tempfile
import unittest

from common import ROOT, SQUARE, TOOLS, run
import commands
import declarations
import entries
import refusals

PROGRAM = ROOT / "target/bin/pave"
FORMATS = (ROOT / "docs/FORMATS.md").read_text()
SCOPE = (ROOT / "docs/SCOPE.md").read_text()
INTEGRATION = (ROOT / "docs/INTEGRATION.md").read_text()
BLOCKS = re.findall(r"^```\n(.*?)^```$", FORMATS, re.MULTILINE | re.DOTALL)


def dump(data):
    """Bytes in hexadecimal, 16 a line; * for further lines like the one before."""
    lines, shown = [], None
    for at in range(0, len(data), 16):
        row = data[at:at + 16].hex(" ")
        if row != shown:
            lines.append(f"{at:04x}  {row}")
        elif lines[-1] != "*":
            lines.append("*")
        shown = row
    return "".join(f"{line}\n" for line in lines)


def outline_file(points, size):
    with tempfile.TemporaryDirectory() as folder:
        file = pathlib.Path(folder, "points.csv")
        file.write_text(points)
        return subprocess.run([TOOLS / "outline", file, "--size", size, "--anyway"], capture_output=True, check=True).stdout


class Formats(unittest.TestCase):
    def test_the_squares_file(self):
        self.assertEqual(outline_file(SQUARE, "1"), (ROOT / "crates/pave/stdin").read_bytes())
        self.assertEqual(dump(outline_file(SQUARE, "1")), BLOCKS[0])

    @unittest.skipUnless(os.access(PROGRAM, os.X_OK), "the program isn't built")
    def test_the_listings(self):
        cases = [(SQUARE, "1"), ("0,0\n2,0\n1,2\n", "3"), (SQUARE, "0.001")]
        self.assertEqual([run(PROGRAM, data=outline_file(*case))[1].decode() for case in cases], BLOCKS[2:2 + len(cases)])


class Refusals(unittest.TestCase):
    def test_the_table_has_the_words_of_each(self):
        rows = re.findall(r"^\| (\d+) \| (.*) \|$", INTEGRATION, re.MULTILINE)
        self.assertEqual(rows, [(str(number), ": ".join(words)) for number, words in refusals.WORDS.items()])

    def test_the_scope_has_each_and_an_order(self):
        told = SCOPE[SCOPE.index("## Refusals"):SCOPE.index("## Cross field")]
        self.assertEqual([int(number) for number in re.findall(r"^\| (\d+) \|", told, re.MULTILINE)], list(refusals.WORDS))
        orders = told[told.index("| asked | order |"):]
        self.assertEqual({int(number) for number in re.findall(r"\d+", orders)} | {12, 13}, set(refusals.WORDS))


class Entries(unittest.TestCase):
    def test_the_calls_are_all_there(self):
        for function in entries.repository().functions:
            if not entries.SHAPE_ENTRY.fullmatch(function.name):
                self.assertIn(f"`{function.name}`", INTEGRATION)

    def test_no_call_is_there_that_is_none(self):
        declared = re.findall(r"\bsitjorbe_\w+", (ROOT / "include/sitjorbe.h").read_text())
        there = {*declared, "sitjorbe_abi_NUMBER"}
        self.assertEqual(set(re.findall(r"sitjorbe_\w+", INTEGRATION + SCOPE)) - there, set())


class Version(unittest.TestCase):
    def test_the_change_log_has_it(self):
        newest = re.search(r"^## (\d+\.\d+\.\d+)$", (ROOT / "CHANGELOG.md").read_text(), re.MULTILINE)
        self.assertEqual(newest[1], commands.version())

    def test_the_page_asks_for_it(self):
        self.assertIn(f"find_package(sitjorbe {'.'.join(commands.version().split('.')[:2])} REQUIRED)", INTEGRATION)

    def test_every_tool_tells_it(self):
        for tool in ("archive", "bindings", "definitions", "outline", "package", "pave", "picture", "ring.py"):
            self.assertEqual(run(TOOLS / tool, "--version"), (0, f"sitjorbe {commands.version()}\n".encode(), ""), tool)

    def test_the_header_has_it(self):
        self.assertIn(f'#define SITJORBE_VERSION "{commands.version()}"\n', declarations.header(entries.repository()))


if __name__ == "__main__":
    unittest.main()
