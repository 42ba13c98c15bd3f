"""The archive: what a crate stands on, how far its proof is, and what is wrong with the global symbols."""

import contextlib
import io
import os
import pathlib
import re
import tempfile
import unittest
import unittest.mock

from common import command
import crates
import outlines
import proving

archive = command("archive")

# In the place of rt: proves the crates named in a file, and fails at any other.
RT = """#!/usr/bin/env bash
crate=$(basename "$PWD")
echo "$crate: $*" >> ../../asked
echo "fn $crate::for_up: proved"
grep -qx "$crate" ../../proved
"""


class Proving(unittest.TestCase):
    def prove(self, names, proved):
        """What is said of crates, of which rt proves some; what rt was asked, and its log."""
        with tempfile.TemporaryDirectory() as folder, contextlib.redirect_stderr(io.StringIO()) as told:
            root = pathlib.Path(folder)
            for name, text in (("rt", RT), ("proved", "".join(f"{crate}\n" for crate in proved))):
                (root / name).write_text(text)
            for crate in crates.dependencies():
                (root / "crates" / crate).mkdir(parents=True)
            (root / "rt").chmod(0o755)
            with unittest.mock.patch.multiple(proving, ROOT=root, LOG=root / "log/first-build"), \
                    unittest.mock.patch.dict(os.environ, PATH=f"{root}:{os.environ['PATH']}"):
                try:
                    proving.prove("archive", "library", names)
                except outlines.Unusable as wrong:
                    print(wrong, file=told)
            return told.getvalue().splitlines(), (root / "asked").read_text(), (root / "log/first-build").read_text()

    def test_how_far_it_is(self):
        names = ["abi", "outline"]
        wanted = [crate for name in names for crate in crates.reached(name, crates.dependencies())]
        told, asked, log = self.prove(names, ["topology", *wanted, *wanted])
        self.assertEqual(sorted(asked.split("\n")), sorted(["", *(f"{crate}: lib" for crate in set(wanted))]))
        self.assertIn("first-build", told[0])
        shown = [re.fullmatch(r"archive: (\d+) of (\d+) crates, \d+:\d\d", line).groups() for line in told[1:]]
        self.assertEqual(shown, [(str(k), str(len(wanted))) for k in range(1, len(wanted) + 1)])
        self.assertIn("fn laws::for_up: proved\n", log)

    def test_a_proof_that_fails(self):
        told, _, _ = self.prove(["abi", "laws"], ["abi"])
        self.assertRegex(told[-2], r"^archive: stopped at 1 of 2 crates, \d+:\d\d$")
        self.assertRegex(told[-1], "^the library can't be built: .*first-build says why$")


class Archive(unittest.TestCase):
    def test_what_a_crate_stands_on(self):
        on = crates.dependencies("# all\na:\nb: a io\n c: b # not d\nd:\n")
        self.assertEqual(on, {"a": [], "b": ["a", "io"], "c": ["b"], "d": []})
        self.assertEqual(crates.reached("c", on), ["a", "b", "c"])

    def test_global_symbols(self):
        self.assertEqual(archive.faults(["sitjorbe_one", "sitjorbe_two"], ["sitjorbe_two", "sitjorbe_one"]), [])
        self.assertEqual(archive.faults(["sitjorbe_one", "sitjorbe_two", "sitjorbe_one", "sqrt_f64"], ["sitjorbe_one", "sitjorbe_three"]),
                         ["sitjorbe_two is global, and is no entry", "sqrt_f64 is global, and is no entry", "sitjorbe_one stands 2 times",
                          "sitjorbe_three isn't there"])


if __name__ == "__main__":
    unittest.main()
