"""The words of the refusals: the host's, number by number."""

import re
import unittest

from common import ROOT
import refusals


def host_words():
    """Number to words, read out of the host's source."""
    source = (ROOT / "host/src/refusal.rs").read_text()
    declared = source[source.index("pub enum Refusal"):]
    numbers = dict(re.findall(r"^    (\w+) = (\d+),$", declared[:declared.index("\n}")], re.MULTILINE))
    arms = source[source.index("fn words(self)"):]
    arms = arms[:arms.index("\n    }\n")]
    told = re.findall(r'Refusal::(\w+) => (?:\{\s*)?"((?:[^"\\]|\\\n)*)"', arms)
    return {int(numbers[name]): re.sub(r"\\\n\s*", "", words) for name, words in told}


class Words(unittest.TestCase):
    def test_they_are_the_hosts(self):
        self.assertEqual(host_words(), {number: ": ".join(words) for number, words in refusals.WORDS.items()})

    def test_document_01_has_thirteen_and_the_papers_more(self):
        self.assertEqual(list(refusals.WORDS)[:13], list(range(1, 14)))
        self.assertEqual(list(refusals.WORDS), sorted(refusals.WORDS))

    def test_as_the_host_displays_them(self):
        self.assertEqual(refusals.in_words(2),
                         "refused (2): a loop has fewer than three points: draw at least three, or leave the loop out")
        self.assertIn('"refused ({}): {}"', (ROOT / "host/src/refusal.rs").read_text())

    def test_where_it_comes_from_follows(self):
        self.assertEqual(str(refusals.Refused(12, "block 3")), refusals.in_words(12) + " (block 3)")
        self.assertEqual(str(refusals.Refused(12)), refusals.in_words(12))


if __name__ == "__main__":
    unittest.main()
