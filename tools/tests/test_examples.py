"""The examples as they are kept: complete, and what the programs at hand and the tools make of their points."""

import os
import pathlib
import re
import shutil
import tempfile
import unittest
import unittest.mock

import common
from common import ORACLE, ROOT, run
import listings

EXAMPLES = ROOT / "examples"
PROGRAM = ROOT / "target/bin/pave"
COMMAND = ROOT / "host/target/release/sitjorbe"
# Pictures are drawn by the command.
drawing = unittest.skipUnless(os.access(COMMAND, os.X_OK), "the command isn't built")


def names(suffix):
    return sorted(path.stem for path in EXAMPLES.glob(f"*{suffix}"))


class Examples(unittest.TestCase):
    def same(self, *words):
        status, said, wrong = run(EXAMPLES / "make", "--check", *words)
        self.assertEqual((status, wrong), (0, ""), said.decode())
        self.assertEqual(said.decode().count("  same "), 2 * len(names(".csv")))

    def test_each_has_points_a_listing_a_picture_and_a_line_in_the_readme(self):
        self.assertGreaterEqual(len(names(".csv")), 5)
        self.assertEqual((names(".listing"), names(".svg")), (names(".csv"), names(".csv")))
        readme = (EXAMPLES / "README.md").read_text()
        for name in names(".csv"):
            read = listings.read((EXAMPLES / f"{name}.listing").read_text())
            row = rf"\| \[{name}\]\({name}\.svg\) \|.*\| {len(read.nodes)} \| {len(read.quads)} \| {'whole' if read.whole else 'open'} \|"
            self.assertRegex(readme, row)

    def test_one_is_whole_and_one_is_open(self):
        verdicts = {listings.read(path.read_text()).whole for path in EXAMPLES.glob("*.listing")}
        self.assertEqual(verdicts, {True, False})

    @drawing
    @unittest.skipUnless(os.access(PROGRAM, os.X_OK), "the program isn't built")
    def test_the_programs(self):
        self.same("--program", str(PROGRAM))

    @drawing
    @unittest.skipUnless(common.oracle_there(), "the reference isn't here")
    def test_the_oracles(self):
        self.same("--program", f"{ORACLE} pave")

    @drawing
    def test_the_pictures_are_of_the_listings_kept(self):
        for name in names(".csv"):
            status, said, _ = run(EXAMPLES / "make", "--check", name, "--program", f"cat {EXAMPLES / name}.listing")
            self.assertEqual((status, said.decode().count("  same ")), (0, 2), name)

    @drawing
    @unittest.mock.patch.dict(os.environ, SITJORBE_COMMAND=str(COMMAND))
    def test_a_change_is_noticed(self):
        with tempfile.TemporaryDirectory() as folder:
            for name in ("examples", "tools"):
                shutil.copytree(ROOT / name, pathlib.Path(folder, name))
            kept = pathlib.Path(folder, "examples")
            printed = shutil.copy(kept / "24-2.listing", pathlib.Path(folder, "printed"))

            def check():
                status, said, _ = run(kept / "make", "--check", "24-2", "--program", f"cat {printed}")
                return status, re.findall(r"(same|DIFFERS) +24-2", said.decode())

            self.assertEqual(check(), (0, ["same", "same"]))
            self.edit(kept / "24-2.listing", "mesh 251", "mesh 252")
            self.assertEqual(check(), (1, ["DIFFERS", "same"]))
            self.edit(kept / "24-2.svg", "All of the", "Part of the")
            self.assertEqual(check(), (1, ["DIFFERS", "DIFFERS"]))
            (kept / "24-2.svg").unlink()
            self.assertEqual(check(), (1, ["DIFFERS", "DIFFERS"]))

    def edit(self, path, old, new):
        text = path.read_text()
        self.assertIn(old, text)
        path.write_text(text.replace(old, new))


if __name__ == "__main__":
    unittest.main()
