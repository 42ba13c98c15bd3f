"""What is unsound about an outline, in words; beside the listings of the fixed list."""

import unittest

import common
from common import LEAST, ROOT, SQUARE, TOOLS, run, slit
import listings
import outlines
from refusals import Refused
from soundness import faults


def found(text):
    return list(faults(outlines.read_points(text)))


class Faults(unittest.TestCase):
    def sound(self, *texts):
        for text in texts:
            self.assertEqual(found(text), [], text)

    def test_sound(self):
        straight, clockwise, thin = "0,0\n1,0\n2,0\n2,2\n0,2\n", "0,2\n2,2\n2,0\n0,0\n", f"0,0\n1,1\n2,{2 + 4 * 2.0**-53!r}\n"
        self.sound(SQUARE, straight, clockwise, thin, "-0.0,0\n4,-0\n4,4\n0,4\n", slit(-LEAST, LEAST), slit(-0.001, 0.001))
        self.sound(SQUARE + "\n0.5,0.5\n1,0.5\n1,1\n", SQUARE + f"\n{LEAST!r},0.5\n1,0.5\n1,1\n")

    def test_segments(self):
        self.assertEqual(found("0,0\n4,4\n4,0\n0,4\n"), ["the segments from line 1 to line 2 and from line 3 to line 4 meet"])
        self.assertEqual(found("0,0\n4,0\n4,4\n2,0\n")[0], "the segments from line 1 to line 2 and from line 3 to line 4 meet")
        self.assertEqual(found("0,0\n4,0\n2,0\n2,3\n")[0], "the segments from line 1 to line 2 and from line 2 to line 3 lie on each other")
        self.assertEqual(found("# in line\n0,0\n1,1\n2,2\n"), ["the segments from line 2 to line 3 and from line 4 to line 2 lie on each other",
                                                              "the segments from line 3 to line 4 and from line 4 to line 2 lie on each other"])

    def test_doubled_points_are_named_as_that(self):
        self.assertEqual(found("4,0\n4,0\n4,4\n0,4\n0,0\n"), ["line 2 repeats the point of line 1"])
        self.assertEqual(found(SQUARE + "\n0.5,0.5\n1,0.5\n1,0.5\n1,1\n1,1\n1,1\n"),
                         ["line 8 repeats the point of line 7", "line 10 repeats the point of line 9", "line 11 repeats the point of line 10"])
        self.assertEqual(found(SQUARE + "\n1,1\n1,1\n1,1\n1,1\n1,1\n")[:1], ["line 7 repeats the point of line 6"])

    def test_one_crossing_is_one_fault(self):
        # Four pairs of segments meet at (2, 2).
        self.assertEqual(found("0,0\n2,2\n4,0\n4,4\n2,2\n0,4\n"), ["the segments from line 1 to line 2 and from line 4 to line 5 meet"])

    def test_slits(self):
        across = "the segments from line 3 to line 4 and from line 6 to line 7 meet"
        for e in (LEAST, 0.001):
            self.assertIn(across, found(slit(e, e)))
        shut = found(slit(0, 0))
        self.assertIn("the segments from line 4 to line 5 and from line 5 to line 6 lie on each other", shut)

    def test_loops(self):
        square = "0,0\n8,0\n8,8\n0,8\n"
        self.assertEqual(found(square + "\n9,1\n9,2\n10,1\n"), ["the blind spot at line 6 isn't inside the outer outline"])
        self.assertEqual(found(square + "\n0,3\n2,4\n2,2\n"), ["the segments from line 4 to line 1 and from line 6 to line 7, of two loops, meet"])
        self.assertIn("of two loops, meet", found(square + "\n" + square)[0])
        nested = square + "\n1,1\n1,7\n7,7\n7,1\n\n3,3\n3,5\n5,3\n"
        self.assertEqual(found(nested), ["the blind spot at line 11 lies in that at line 6"])
        self.assertEqual(found(square + "\n3,3\n3,5\n5,3\n\n1,1\n1,7\n7,7\n7,1\n"), ["the blind spot at line 6 lies in that at line 10"])

    def test_the_fixed_list(self):
        """Whole exactly where no loop is left and nothing is unsound; both answers occur where no loop is left."""
        data, seen = ROOT / "crates/replay/data", set()
        for path in sorted(data.glob("*.outline")):
            try:
                listing = listings.read(path.with_suffix("").with_name(path.name.replace(".outline", ".listing")).read_text())
            except Refused:
                continue
            loops = outlines.from_blocks(path.read_bytes())[0]
            if not listing.loops:
                seen.add(listing.whole)
                self.assertEqual(listing.whole, not list(faults(loops)), path.name)
        self.assertEqual(seen, {False, True})


class Command(unittest.TestCase):
    def said(self, text):
        status, data, said = run(TOOLS / "outline", "-", "--size", "1", data=text.encode())
        self.assertEqual((status, len(data)), (0, 1024))
        return said

    def test_it_is_said_and_written(self):
        self.assertEqual(self.said("0,0\n4,4\n4,0\n0,4\n"), "outline: unsound: the segments from line 1 to line 2 and from line 3 to line 4 meet\n"
                         "outline: it is paved all the same, and never whole\n")
        self.assertEqual(self.said(slit(-LEAST, LEAST)), "")

    def test_no_more_than_five(self):
        lines = self.said("0,0\n4,4\n4,0\n0,4\n" * 3).splitlines()
        self.assertEqual((len(lines), lines[-1]), (6, "outline: it is paved all the same, and never whole, and more is unsound"))


if __name__ == "__main__":
    unittest.main()
