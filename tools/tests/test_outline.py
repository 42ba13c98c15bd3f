"""Points to a file: what is read, what is written, what is refused, and in which words."""

import math
import pathlib
import struct
import tempfile
import unittest

import common
from common import SQUARE, TOOLS, run
import outlines
from outlines import Point, Settings, Unusable
from refusals import Refused, in_words


def plain(loops):
    return [[(p.x, p.y) for p in points] for points in loops]


def outline(points, *words):
    return run(TOOLS / "outline", "-", *words, data=points if isinstance(points, bytes) else points.encode())


class Reading(unittest.TestCase):
    def wrong(self, text, *messages):
        with self.assertRaises(Unusable) as caught:
            outlines.read_points(text)
        self.assertEqual(str(caught.exception).split("\n"), list(messages))

    def test_a_blank_line_ends_a_loop(self):
        self.assertEqual(plain(outlines.read_points("1,2\n3,4\n\n5,6\n")), [[(1, 2), (3, 4)], [(5, 6)]])

    def test_blank_lines_before_after_and_in_a_row(self):
        self.assertEqual(plain(outlines.read_points("\n\n1,2\n\n \n\t\n3,4\n\n\n")), [[(1, 2)], [(3, 4)]])

    def test_comments(self):
        field = outlines.read_field("# A field, drawn by hand\n1,2\n3,4 # c\n\n# The blind spot, 5 by 7\n5,6\n# end\n\n# An arcuate scotoma: it bends\n7,8\n")
        self.assertEqual(plain(field.loops), [[(1, 2), (3, 4)], [(5, 6)], [(7, 8)]])
        self.assertEqual(field.names, ["field", "blind spot", "arcuate scotoma"])

    def test_names_that_are_alike_are_numbered(self):
        self.assertEqual(outlines.read_field("1,2\n\n3,4\n\n5,6\n").names, ["outline", "blind spot 1", "blind spot 2"])

    def test_a_comment_between_two_points_is_refused(self):
        self.wrong("1,2\n3,4\n# the blind spot\n5,6\n", "line 3: a comment between two points: put a blank line before it if a new loop begins there, or "
                   "take the comment out if the loop goes on")

    def test_semicolons_and_decimal_commas(self):
        self.assertEqual(plain(outlines.read_points("1,5;-2,25\n3;4.5\n")), [[(1.5, -2.25), (3, 4.5)]])
        self.wrong("1,2\n3;4\n", "line 1: one value, where x and y are wanted with a semicolon between: 1,2; if it is a heading, put # before it")

    def test_a_last_point_that_repeats_the_first_is_left_out(self):
        field = outlines.read_field("0,0\n1,0\n1,1\n0,0\n")
        self.assertEqual(plain(field.loops), [[(0, 0), (1, 0), (1, 1)]])
        self.assertEqual(field.notes, ["line 4: it repeats the point of line 1, so it is left out: a loop closes by itself"])

    def test_commas_alone_are_blank(self):
        self.assertEqual(plain(outlines.read_points("1,2\n,\n3,4\n,,\n5,6")), [[(1, 2)], [(3, 4)], [(5, 6)]])

    def test_numbers(self):
        text = ' -1.5 , +2e1 \n"3","4"\n.5,5.\n1E-3,-0\n'
        self.assertEqual(plain(outlines.read_points(text)), [[(-1.5, 20), (3, 4), (0.5, 5), (0.001, 0)]])
        self.assertEqual(plain(outlines.read_points("inf,-Infinity\n1e999,0")), [[(math.inf, -math.inf), (math.inf, 0)]])
        self.assertTrue(math.isnan(outlines.read_points("NaN,0")[0][0].x))

    def test_lines_are_counted_from_1(self):
        self.assertEqual([p.line for p in outlines.read_points("\n# c\n1,2\n3,4")[0]], [3, 4])

    def test_a_bad_line_is_named(self):
        wanted = "where x and y are wanted with a comma between"
        self.wrong("1,2\n3\n", f"line 2: one value, {wanted}: 3")
        self.wrong("1,2\n1,2,3\n", f"line 2: 3 values, {wanted}: 1,2,3")
        self.wrong("1,2\n\nx,3\n", "line 3: x isn't a number: x")
        self.wrong("1,2\n3,1_000\n", "line 2: y isn't a number: 1_000")
        self.wrong("1,2\n3,0x10\n", "line 2: y isn't a number: 0x10")
        self.wrong("1,2\n3,٣\n", "line 2: y isn't a number: ٣")
        self.wrong("1,2\n,3\n", "line 2: x is missing")
        self.wrong("1,2\n3, \n", "line 2: y is missing")

    def test_every_bad_line_is_named(self):
        self.wrong("1,2\n?\n3,4\n5,z\n", "line 2: one value, where x and y are wanted with a comma between: ?", "line 4: y isn't a number: z")

    def test_a_heading_is_passed_over(self):
        field = outlines.read_field("x,y\n1,2\n")
        self.assertEqual((plain(field.loops), field.notes), ([[(1, 2)]], ["line 1: taken for a heading: x,y"]))
        self.wrong("1O,2O\n1,2\n", "line 1: x isn't a number: 1O; if it is a heading, put # before it")


class Writing(unittest.TestCase):
    SQUARE = outlines.read_points(SQUARE)

    def test_the_square_byte_for_byte(self):
        data = outlines.to_blocks(self.SQUARE, Settings(1.0))
        head = struct.pack("<d4H", 1.0, 400, 600, 1, 4)
        points = struct.pack("<8d", 0, 0, 2, 0, 2, 2, 0, 2)
        self.assertEqual((data[:16], data[512:512 + 64], len(data)), (head, points, 1024))
        self.assertFalse(any(data[16:510]) or any(data[512 + 64:1022]))
        # 1.0 is f0 at byte 6 and 3f at byte 7; 400 is 90 01, 600 is 58 02, then 1 and 4.
        check = 7 * 0xF0 + 8 * 0x3F + 9 * 0x90 + 10 * 0x01 + 11 * 0x58 + 12 * 0x02 + 13 * 1 + 15 * 4
        self.assertEqual(data[510:512], struct.pack("<H", check))

    def test_the_check_is_modulo_65521(self):
        block = bytes([255]) * 510
        self.assertEqual(outlines.check_of(block), 255 * (510 * 511 // 2) % 65521)
        self.assertEqual(outlines.sealed(block)[510:], struct.pack("<H", outlines.check_of(block)))

    def test_31_points_a_block(self):
        for points, blocks in ((1, 2), (31, 2), (32, 3), (62, 3), (63, 4), (248, 9)):
            data = outlines.to_blocks([[Point(k, -k) for k in range(points)]], Settings(1.0))
            self.assertEqual(len(data), 512 * blocks)

    def test_a_file_is_read_back(self):
        loops = [[(k, k + 0.5) for k in range(100)], [(1, 2), (3, 4), (5, -6)], [(7, 8)] * 31]
        settings = Settings(2.5, 65_535, 0)
        data = outlines.to_blocks([[Point(*p) for p in points] for points in loops], settings)
        read, told = outlines.from_blocks(data)
        self.assertEqual((plain(read), told), (loops, settings))

    def no_room(self, loops, settings, message):
        with self.assertRaises(Unusable) as caught:
            outlines.to_blocks(loops, settings)
        self.assertEqual(str(caught.exception), message)

    def test_limits(self):
        triangle = [Point(0, 0), Point(1, 0), Point(0, 1)]
        outlines.to_blocks([triangle] * 8, Settings(1.0, 65_535, 65_535))
        self.no_room([], Settings(1.0), "there are no points: draw an outline of at least three")
        self.no_room([triangle] * 9, Settings(1.0), "9 loops, and the file has room for 8: the outer outline and seven blind spots")
        self.no_room([triangle * 83], Settings(1.0), "249 points, and the file has room for 248: leave some out")
        self.no_room([triangle], Settings(1.0, sweeps=65_536), "65,536 sweeps, and the file has room for 0 to 65,535")
        self.no_room([triangle], Settings(1.0, passes=65_536), "65,536 passes, and the file has room for 0 to 65,535")


class Refusals(unittest.TestCase):
    def refused(self, text, number, where="", size=1.0, sweeps=400):
        with self.assertRaises(Refused) as caught:
            outlines.check(outlines.read_points(text), Settings(size, sweeps))
        self.assertEqual((caught.exception.number, caught.exception.where), (number, where))

    def accepted(self, text, size=1.0, sweeps=400):
        outlines.check(outlines.read_points(text), Settings(size, sweeps))

    def test_the_drawing(self):
        self.refused("0,0\n1,1\n", 2, "loop 1, of 2, at line 1")
        self.refused(SQUARE + "\n5,5\n", 2, "loop 2, of 1, at line 6")
        self.refused("0,0\n1,nan\n2,0\n", 3, "line 2: 1.0,nan")
        self.refused("0,0\n1,1e999\n2,0\n", 3, "line 2: 1.0,inf")
        self.refused("0,0\n1,1000.5\n2,0\n", 4, "line 2: 1.0,1000.5")
        self.refused("0,0\n-1001,1\n2,0\n", 4, "line 2: -1001.0,1.0")
        self.refused("0,0\n1,0\n2,0\n", 7)
        self.refused("0,0\n0,1\n0,2\n", 7)
        self.accepted("-1000,-1000\n1000,-1000\n0,-500\n", size=100.0)

    def test_the_settings(self):
        for size in (0.0, -1.0, math.nan, math.inf):
            self.refused(SQUARE, 5, size=size)
        for size in (math.nextafter(0.01, 0), math.nextafter(100, 101)):
            self.refused(SQUARE, 6, size=size)
        self.accepted("0,0\n0.02,0\n0,0.02\n", size=0.01)
        self.accepted(SQUARE, size=100.0)
        self.refused(SQUARE, 8, sweeps=1_001)
        self.accepted(SQUARE, sweeps=1_000)

    def test_the_space(self):
        self.refused("0,0\n40,0\n40,40\n0,40\n", 9, "6,889 field nodes; the program lends 1,600; size 2.17 fits")
        self.refused("-1000,-1000\n1000,-1000\n1000,1000\n", 9, "1,849 field nodes; the program lends 1,600; no size fits, so draw it smaller", size=100.0)
        self.refused("0,0\n9,9\n0,9\n9,0\n" * 50, 10, "3,600 nodes; the program lends 800; size 2.86 fits", size=0.6)

    def test_the_space_to_the_last_place(self):
        zigzag = "0,0\n9,9\n0,9\n9,0\n" * 50
        self.accepted(zigzag, size=2.86)
        self.assertEqual(outlines.sampled_nodes(outlines.read_points(zigzag), 2.86), 800)
        self.accepted("0,0\n37,0\n37,37\n0,37\n", size=2.0)
        self.assertEqual(outlines.field_nodes(outlines.read_points("0,0\n37,0\n37,37\n0,37\n"), 2.0), 1_600)
        self.refused("0,0\n38,0\n38,37\n0,37\n", 9, "1,640 field nodes; the program lends 1,600; size 2.06 fits", size=2.0)

    def test_a_field_of_too_many_nodes_is_made_coarser(self):
        self.assertEqual(outlines.field_nodes(outlines.read_points("0,0\n520,0\n520,520\n"), 1.0), 429 * 429)

    def test_points_sampled(self):
        for text, size, nodes in (("0,0\n1.05,0\n0,1\n1,1\n", 1.0, 1 + 2 + 1 + 2), ("0,0\n1.06,0\n1,1\n0,1\n", 1.0, 2 + 1 + 1 + 1 + 1),
                                  ("0,0\n2,0\n1,2\n", 3.0, 3 + 1), (SQUARE + "\n0,0\n2,0\n1,2\n", 3.0, 4 + 3 + 1)):
            self.assertEqual(outlines.sampled_nodes(outlines.read_points(text), size), nodes)

    def test_the_size_named_fits_and_the_one_below_does_not(self):
        loops = outlines.read_points("0,0\n40,0\n40,40\n0,40\n")
        self.assertTrue(outlines.fits(loops, 2.17))
        self.assertFalse(outlines.fits(loops, 2.16))

    def test_the_order(self):
        self.refused("0,nan\n1,1\n\n2,2\n", 2, "loop 1, of 2, at line 1")
        self.refused("0,nan\n1,1\n2,3\n\n2,2\n", 3, "line 1: 0.0,nan")
        self.refused("0,2000\n1,1\n2,3\n\n2,2\n", 2, "loop 2, of 1, at line 5")
        self.refused("0,2000\n1,1\n2,3\n", 4, "line 1: 0.0,2000.0", size=0.0)
        self.refused("0,0\n1,0\n2,0\n", 5, size=0.0, sweeps=2_000)
        self.refused("0,0\n1,0\n2,0\n", 7, sweeps=2_000)
        self.refused("0,0\n40,0\n40,40\n", 8, sweeps=2_000)


class Command(unittest.TestCase):
    def test_a_file_is_written(self):
        with tempfile.TemporaryDirectory() as folder:
            points, target = pathlib.Path(folder, "points.csv"), pathlib.Path(folder, "made")
            points.write_text(SQUARE)
            words = ("--size", "1", "--sweeps", "7", "--passes", "9", "-o", target)
            self.assertEqual(run(TOOLS / "outline", points, *words), (0, b"", ""))
            loops, settings = outlines.from_blocks(target.read_bytes())
        self.assertEqual((plain(loops), settings), ([[(0, 0), (2, 0), (2, 2), (0, 2)]], Settings(1.0, 7, 9)))

    def test_defaults_and_standard_output(self):
        status, data, said = outline(SQUARE, "--size", "1")
        self.assertEqual((status, data, said), (0, outlines.to_blocks(outlines.read_points(SQUARE), Settings(1.0, 400, 600)), ""))

    def test_files_of_spreadsheets(self):
        self.assertEqual(outline(b"\xef\xbb\xbf" + SQUARE.replace("\n", "\r\n").encode(), "--size", "1"), outline(SQUARE, "--size", "1"))

    def test_a_bad_line(self):
        self.assertEqual(outline("1,2\n3,b\n", "--size", "1"), (2, b"", "outline: standard input: line 2: y isn't a number: b\n"))

    def test_not_text(self):
        self.assertEqual(outline(b"\xff\xfe", "--size", "1"), (2, b"", "outline: standard input: this isn't text\n"))

    def test_no_such_file(self):
        self.assertEqual(run(TOOLS / "outline", "/no/such", "--size", "1"), (2, b"", "outline: /no/such: No such file or directory\n"))

    def test_no_room(self):
        self.assertEqual(outline("", "--size", "1"), (2, b"", "outline: there are no points: draw an outline of at least three\n"))
        self.assertEqual(outline(SQUARE, "--size", "1", "--sweeps", "65536"),
                         (2, b"", "outline: 65,536 sweeps, and the file has room for 0 to 65,535\n"))

    def test_a_refusal_writes_nothing(self):
        self.assertEqual(outline(SQUARE, "--size", "0"), (1, b"", f"outline: {in_words(5)}\n"))

    def test_anyway(self):
        status, data, said = outline("0,0\n1,nan\n", "--size", "-1", "--sweeps", "65535", "--anyway")
        loops, settings = outlines.from_blocks(data)
        self.assertEqual((status, said), (0, f"outline: written anyway: {in_words(2)} (loop 1, of 2, at line 1)\n"))
        self.assertEqual((str(plain(loops)), settings), ("[[(0.0, 0.0), (1.0, nan)]]", Settings(-1.0, 65_535, 600)))

    def test_usage(self):
        for words in ((), ("--size", "big"), ("--size", "1", "--sweeps", "-1"), ("--size", "1", "--passes", "1.5")):
            self.assertEqual(outline(SQUARE, *words)[:2], (2, b""))


def floats(words):
    return [struct.unpack(">d", bytes.fromhex(word))[0] for word in words]


def foreseen(loops, settings):
    """The oracle's words for a refusal that is foreseen; '' for none."""
    try:
        outlines.check(loops, settings)
        return ""
    except Refused as refusal:
        return f"refused {refusal.number}"


def first_lines(answers):
    return [answer.split("\n")[0] for answer in answers.split(".\n")[:-1]]


@unittest.skipUnless(common.oracle_there(), "the reference isn't here")
class BesideTheOracle(unittest.TestCase):
    """What is foreseen is what the oracle refuses, on generated outlines, settings and files."""

    def drawn(self, line):
        outer, holes, lengths = (part.split() for part in line.removeprefix("outline").split("/"))
        counts, rest = [len(outer) // 2, *map(int, lengths)], iter(floats(outer + holes))
        return [[Point(next(rest), next(rest)) for _ in range(count)] for count in counts]

    def test_outlines(self):
        seen = set()
        for kind in "visual lattice concave crossing holes degenerate sizes settings".split():
            lines = [line for line in common.ask("gen", "5", "150", kind).split("\n") if not line.startswith("lent")]
            answers = first_lines(common.ask("run", data="\n".join(lines)))
            loops = [self.drawn(line) for line in lines if line.startswith("outline")]
            words = [line.split()[1:] for line in lines if line.startswith("settings")]
            self.assertEqual((len(loops), len(words)), (len(answers), len(answers)))
            for drawn, (size, sweeps, passes), answer in zip(loops, words, answers):
                told = foreseen(drawn, Settings(floats([size])[0], int(sweeps), int(passes)))
                self.assertEqual(told, answer if answer.startswith("refused") else "", (kind, drawn, size, sweeps))
                seen.add(told)
        self.assertEqual(seen, {""} | {f"refused {number}" for number in range(2, 11)})

    def test_files(self):
        seen = set()
        for kind in ("files", "damaged"):
            questions = common.ask("gen", "5", "200", kind)
            files = [bytes.fromhex(line[5:]) for line in questions.split("\n") if line.startswith("file")]
            answers = first_lines(common.ask("run", data=questions))
            self.assertEqual(len(files), len(answers))
            for data, answer in zip(files, answers):
                try:
                    loops, settings = outlines.from_blocks(data)
                    told = foreseen(loops, settings)
                    self.assertEqual(outlines.to_blocks(loops, settings), data)
                except Refused as refusal:
                    told = f"refused {refusal.number}"
                self.assertEqual(told, answer if answer.startswith("refused") else "")
                seen.add(told)
        self.assertLessEqual({"", "refused 12", "refused 13"}, seen)


if __name__ == "__main__":
    unittest.main()
