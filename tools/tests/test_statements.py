"""What stands in specs/: only what a contract or a theorem of tools/theorems.txt rests on, and no law, but for the files of tools/mixed.txt."""

import pathlib
import tempfile
import unittest

from common import TOOLS

import crates
import statements


class Statements(unittest.TestCase):
    def setUp(self):
        self.library = statements.Library()
        self.files = {(crate, f"specs/{file}") for crate in crates.dependencies() for file in statements.spec_files(crate)}
        lines = (TOOLS / "mixed.txt").read_text().splitlines()
        self.mixed = {(crate, f"specs/{file}") for crate, file in (line.split("/") for line in lines if not line.startswith("#"))}

    def test_each_file_is_named_in_its_lib(self):
        there = {(path.parts[-3], f"specs/{path.stem}") for path in statements.CRATES.glob("*/specs/*.antt") if path.stem != "Lib"}
        self.assertEqual(there, self.files)

    def test_only_what_is_rested_on_and_no_law(self):
        reached = self.library.reached([*self.library.contracts(), *self.library.theorems()])
        defined = {(crate, file) for crate, file, name in reached if file != "src" and name not in self.library.source(crate, file).laws}
        self.assertIn(("books", "specs/Holds"), defined)
        amiss = {file for file in self.files if file not in defined or self.library.source(*file).laws}
        self.assertEqual(sorted(amiss - self.mixed), [], "laws belong in proofs/, and so does what no contract rests on")
        self.assertEqual(sorted(self.mixed - amiss), [], "taken apart: drop it from tools/mixed.txt")

    def test_a_law_and_a_definition_are_told_apart(self):
        lines = ["-- Of twos.", "use Rattle.std.specs.Prelude.{ℕ, ◌≡◌, refl}", "", "abbrev pub two : ℕ", "two = 2", "", "module _ (n : ℕ) where",
                 "  pub same : n ≡ n", "  same = refl", "", "pub long", "    : two ≡ 2", "long = refl", ""]
        with tempfile.TemporaryDirectory() as folder:
            path = pathlib.Path(folder) / "Twos.antt"
            path.write_text("\n".join(lines))
            source = statements.Source(path)
        self.assertEqual((set(source.items), source.laws), ({"two", "same", "long"}, {"same", "long"}))
        self.assertEqual(source.items["same"], ["module _ (n : ℕ) where", "pub same : n ≡ n"])


if __name__ == "__main__":
    unittest.main()
