"""The repository stands alone: nothing cites a paper, a document or a demand by its number, and its pages' lines aren't endless."""

import re
import subprocess
import unittest

from common import ROOT

# Written so that this file doesn't cite one either.
CITATION = re.compile(r"\bdocument[ ]0?[12]\b|\bpapers?[ ][0-9]+|\bdemands?[ ][0-9]|\bissues?[ ][0-9]+", re.IGNORECASE)


def files():
    """The tracked files and those that would be, but for the records of history."""
    words = ["git", "ls-files", "--cached", "--others", "--exclude-standard"]
    names = subprocess.run(words, cwd=ROOT, stdout=subprocess.PIPE, text=True, check=True).stdout.splitlines()
    return [ROOT / name for name in names if not name.startswith("docs/history/") and (ROOT / name).is_file()]


class Alone(unittest.TestCase):
    def test_no_citation_by_number(self):
        """Of a paper, a document, a demand or an issue."""
        found = []
        for path in files():
            text = path.read_bytes().decode("utf-8", errors="ignore")
            lines = enumerate(text.splitlines(), 1)
            found += [f"{path.relative_to(ROOT)}:{n}: {line.strip()}" for n, line in lines if CITATION.search(line)]
        self.assertEqual(found, [])

    def test_the_search_finds_one(self):
        """The pattern itself, on what it is to find and on what it isn't."""
        for cited in ("see paper" + " 12", "Document" + " 01's book", "of demand" + " 3", "papers" + " 6 and 7", "issue" + " 4"):
            self.assertIsNotNone(CITATION.search(cited), cited)
        for fine in ("the documents 0 to 2", "a paper's width", "on demand", "issues of 3 kinds"):
            self.assertIsNone(CITATION.search(fine), fine)


if __name__ == "__main__":
    unittest.main()
