"""The built program: the worked square, endless input, and generated files beside the oracle; and `tools/pave` over it, which builds it."""

import os
import pathlib
import re
import shutil
import subprocess
import tempfile
import unittest

import common
import crates
from common import LEAST, ORACLE, ROOT, SQUARE, SQUARE_LISTING, TOOLS, ask, run, slit

PROGRAM = ROOT / "target/bin/pave"
REPLAY = ROOT / "target/bin/replay"
LONGEST = 4_608

ACROSS = "the segments from line 3 to line 4 and from line 6 to line 7 meet"
BACK = "the segments from line 4 to line 5 and from line 5 to line 6 lie on each other"

# half the width of a slit's mouth and its height, the word, and what is said
SLITS = [(-LEAST, LEAST, "whole", ""), (0, 0, "open", BACK), (LEAST, LEAST, "open", ACROSS), (-0.001, 0.001, "whole", ""), (0.001, 0.001, "open", ACROSS)]


def printed(data):
    """What the program prints for a file."""
    return run(PROGRAM, data=data)[1].decode()


@unittest.skipUnless(os.access(PROGRAM, os.X_OK), "the program isn't built")
class Program(unittest.TestCase):
    def test_the_square(self):
        self.assertEqual(printed((ROOT / "crates/pave/stdin").read_bytes()), SQUARE_LISTING)

    def test_endless_input_ends(self):
        with subprocess.Popen(["yes"], stdout=subprocess.PIPE) as endless:
            result = subprocess.run([PROGRAM], stdin=endless.stdout, capture_output=True, timeout=60)
            endless.kill()
        self.assertEqual(result.stdout, b"refused 12\n")
        with open("/dev/zero", "rb") as zeros:
            self.assertEqual(subprocess.run([PROGRAM], stdin=zeros, capture_output=True, timeout=60).stdout, b"refused 13\n")

    def test_a_byte_too_many(self):
        with tempfile.TemporaryDirectory() as folder:
            points, outline = pathlib.Path(folder, "points.csv"), pathlib.Path(folder, "outline")
            sides = [(k, 0) for k in range(62)] + [(62, k) for k in range(62)] + [(62 - k, 62) for k in range(62)] + [(0, 62 - k) for k in range(62)]
            points.write_text("".join(f"{x},{y}\n" for x, y in sides))
            self.assertEqual(run(TOOLS / "outline", points, "--size", "5", "-o", outline)[0], 0)
            data = outline.read_bytes()
        self.assertEqual(len(data), LONGEST)
        self.assertRegex(printed(data), "^mesh ")
        self.assertEqual(printed(data + b"\0"), "refused 13\n")

    @unittest.skipUnless(common.oracle_there(), "the reference isn't here")
    def test_generated_files_beside_the_oracle(self):
        for kind in ("files", "damaged"):
            for question in ask("gen", "3", "150", kind).splitlines():
                if question.startswith("file"):
                    data = bytes.fromhex(question.removeprefix("file"))
                    self.assertEqual(printed(data), run(ORACLE, "pave", data=data)[1].decode(), question)

    def test_points_to_a_picture(self):
        with tempfile.TemporaryDirectory() as folder:
            points, picture = pathlib.Path(folder, "square.csv"), pathlib.Path(folder, "square.svg")
            points.write_text(SQUARE)
            self.assertEqual(run(TOOLS / "pave", points, picture, "--size", "1"), (0, b"mesh 9 4 2 still whole\n", ""))
            self.assertIn("<title>square</title>", picture.read_text())
            picture.unlink()
            status, said, wrong = run(TOOLS / "pave", points, picture, "--size", "0.001")
            self.assertEqual((status, said, picture.exists()), (1, b"", False))
            self.assertIn("refused (6)", wrong)

    def test_standard_input_and_output_title_and_numbers(self):
        words = ("-", "-", "--size", "1", "--title", "A < B", "--numbers")
        status, picture, said = run(TOOLS / "pave", *words, data=SQUARE.encode())
        self.assertEqual((status, said), (0, "mesh 9 4 2 still whole\n"))
        for part in (b"<title>A &lt; B</title>", b'class="number">8</text>'):
            self.assertIn(part, picture)
        self.assertIn(b"<title>Paved field</title>", run(TOOLS / "pave", "-", "-", "--size", "1", data=SQUARE.encode())[1])

    def test_slits_are_paved_and_said(self):
        """The square with a slit: the mesh is the same at every width of the mouth, and whole only where the two sides don't meet."""
        with tempfile.TemporaryDirectory() as folder:
            points, picture = pathlib.Path(folder, "slit.csv"), pathlib.Path(folder, "slit.svg")
            for e, f, word, unsound in SLITS:
                points.write_text(slit(e, f))
                status, said, wrong = run(TOOLS / "pave", points, picture, "--size", "1")
                self.assertEqual((status, said), (0, f"mesh 10 4 2 still {word}\n".encode()), (e, f))
                self.assertEqual("outline: unsound: the segments from" in wrong, word == "open", wrong)
                self.assertIn(unsound, wrong)


# In the place of rt: says what rt says of a crate, and leaves a program that prints a listing where it is asked to run one.
RT = """#!/usr/bin/env bash
crate=$(basename "$PWD")
echo "$crate: $*" >> ../../asked
echo "fn $crate::for_up: proved"
{end}
[ "$1" = run ] || exit 0
mkdir -p out && printf '#!/bin/sh\\ncat %s/listing\\n' "$(cd ../.. && pwd)" > "out/$crate" && chmod +x "out/$crate"
"""


# It draws the pictures.
COMMAND = ROOT / "host/target/release/sitjorbe"


class FirstBuild(unittest.TestCase):
    def setUp(self):
        folder = tempfile.TemporaryDirectory()
        self.addCleanup(folder.cleanup)
        self.root = pathlib.Path(folder.name)
        shutil.copytree(TOOLS, self.root / "tools", ignore=shutil.ignore_patterns("tests", "__pycache__"))
        (self.root / "host").mkdir()
        (self.root / "bin").mkdir()
        for name in ("crates.txt", "host/Cargo.toml"):
            shutil.copy(ROOT / name, self.root / name)
        (self.root / "listing").write_text(SQUARE_LISTING)
        (self.root / "square.csv").write_text(SQUARE)
        self.crates = crates.reached("pave", crates.dependencies())
        for crate in self.crates:
            (self.root / "crates" / crate / "src").mkdir(parents=True)
        (self.root / "crates/pave/src/main.rt").touch()

    def pave(self, *words, end=""):
        """Status, standard output and standard error of `tools/pave`, where the program isn't built."""
        rt = self.root / "bin/rt"
        rt.write_text(RT.format(end=end))
        rt.chmod(0o755)
        path = f"{rt.parent}:{os.environ['PATH']}"
        result = subprocess.run([self.root / "tools/pave", *words], cwd=self.root, env={**os.environ, "PATH": path, "SITJORBE_COMMAND": COMMAND}, capture_output=True, text=True)
        return result.returncode, result.stdout, result.stderr.splitlines()

    @unittest.skipUnless(os.access(COMMAND, os.X_OK), "the command isn't built, which draws")
    def test_how_far_it_is(self):
        status, said, told = self.pave("square.csv", "square.svg", "--size", "1")
        self.assertEqual((status, said), (0, "mesh 9 4 2 still whole\n"), told)
        asked = (self.root / "asked").read_text().splitlines()
        self.assertEqual(sorted(asked), sorted("pave: run" if crate == "pave" else f"{crate}: lib" for crate in self.crates))
        log = self.root / "target/log/first-build"
        self.assertIn(str(log), told[0])
        self.assertIn("fn laws::for_up: proved\n", log.read_text())
        shown = [re.fullmatch(r"pave: (\d+) of (\d+) crates, \d+:\d\d", line).groups() for line in told[1:]]
        self.assertEqual(shown, [(str(k), str(len(self.crates))) for k in range(1, len(self.crates) + 1)])
        self.assertTrue((self.root / "square.svg").is_file())

    def test_inputs_are_looked_at_first(self):
        for words, status in ((["square.csv", "square.svg", "--size", "0.001"], 1), (["none.csv", "square.svg", "--size", "1"], 2),
                              (["square.csv", "none/square.svg", "--size", "1"], 2), (["square.csv", "tools", "--size", "1"], 2),
                              (["square.csv", "square.svg"], 2)):
            self.assertEqual(self.pave(*words)[:2], (status, ""), words)
        self.assertFalse((self.root / "asked").exists())

    def test_a_build_that_fails(self):
        status, said, told = self.pave("square.csv", "square.svg", "--size", "1", end="exit 1")
        self.assertEqual((status, said), (2, ""))
        self.assertRegex(told[-1], "^pave: the program can't be built: .*/target/log/first-build says why$")


@unittest.skipUnless(os.access(REPLAY, os.X_OK), "the program isn't built")
class Replay(unittest.TestCase):
    def test_differences_show(self):
        """A byte changed, one too many, and a file that isn't there, among four files of the fixed list."""
        data = ROOT / "crates/replay/data"
        names = (data / "list").read_text().splitlines()[:8]
        with tempfile.TemporaryDirectory() as folder:
            for name in names:
                shutil.copy(data / name, folder)
            pathlib.Path(folder, "list").write_text("".join(f"{name}\n" for name in names))
            changed, longer, missing = (pathlib.Path(folder, names[k]) for k in (1, 3, 5))
            length = longer.stat().st_size
            changed.write_bytes(b"M" + changed.read_bytes()[1:])
            longer.write_bytes(longer.read_bytes() + b"\n")
            missing.unlink()
            said = subprocess.run([REPLAY], cwd=folder, capture_output=True, text=True).stdout
        self.assertEqual(
            said.splitlines(),
            [
                f"{names[1]} differs at byte 0",
                f"{names[3]} differs at byte {length}",
                f"{names[5]} can't be read",
                "4 files, 3 differences",
            ],
        )


if __name__ == "__main__":
    unittest.main()
