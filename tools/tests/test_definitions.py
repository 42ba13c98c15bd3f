"""What the theorem of the exact books rests on: docs/READING.md names every file of it, and its two numbers."""

import re
import unittest

from common import ROOT, TOOLS, run


def listed(*words):
    """The status of `tools/definitions`, the lines that it prints, and what it says went wrong."""
    status, printed, told = run(TOOLS / "definitions", *words)
    return status, printed.decode().splitlines(), told


def named_files(page):
    """The files of specs/ that a page names, `{A,B}.antt` taken apart; a bare `B.antt` belongs to the crate named before it."""
    found, crate = set(), None
    for owner, many, single in re.findall(r"(?:crates/(\w+)/specs/|`(?=\w+\.antt))(?:\{([\w,]+)\}|(\w+))\.antt", page):
        crate = owner or crate
        found |= {(crate, name) for name in (many.split(",") if many else [single])}
    return found


class Definitions(unittest.TestCase):
    def setUp(self):
        self.page = (ROOT / "docs/READING.md").read_text()

    def test_every_file_of_the_theorem_is_named(self):
        status, lines, _ = listed()
        self.assertEqual(status, 0)
        files = {tuple(found) for line in lines for found in re.findall(r"crates/(\w+)/specs/(\w+)\.antt", line)}
        self.assertIn(("books", "Holds"), files)
        self.assertEqual(files - named_files(self.page), set())

    def test_the_numbers_are_those_of_the_page(self):
        lines, definitions = re.fullmatch(r" *(\d+) lines, (\d+) definitions", listed()[1][-1]).groups()
        said = re.search(r"`tools/definitions`: ([\d,]+) lines with their comments, ([\d,]+) definitions", self.page)
        self.assertEqual(tuple(number.replace(",", "") for number in said.groups()), (lines, definitions))

    def test_a_name_that_is_not_there_is_told(self):
        status, _, told = listed("books/Holds", "NoSuchName")
        self.assertEqual(status, 1)
        self.assertIn("NoSuchName", told)


if __name__ == "__main__":
    unittest.main()
