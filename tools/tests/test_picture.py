"""A listing to a picture: what is read, what is drawn, and what is said where nothing can be."""

import hashlib
import math
import os
import pathlib
import re
import tempfile
import unittest
import xml.etree.ElementTree

from common import ROOT, SQUARE, SQUARE_LISTING, TOOLS, run, slit
import commands
import listings
import outlines
from outlines import Settings, Unusable
from refusals import Refused, in_words

OPEN = SQUARE_LISTING.replace("mesh 9 4 2 still whole", "mesh 9 3 4 full open").replace("q 5 6 7 8\n", "l 5 6 7 8\n")
# the outline is unsound, and no loop is left
UNSOUND = SQUARE_LISTING.replace("still whole", "still open")


class Reading(unittest.TestCase):
    def test_the_square(self):
        read = listings.read(SQUARE_LISTING)
        self.assertEqual([(p.x, p.y) for p in read.nodes], [(0, 0), (1, 0), (2, 0), (2, 1), (2, 2), (1, 2), (0, 2), (0, 1), (1, 1)])
        self.assertEqual(read.quads, [[0, 1, 8, 7], [1, 2, 3, 8], [3, 4, 5, 8], [5, 6, 7, 8]])
        self.assertEqual((read.front, read.end, read.whole, read.loops), (2, "still", True, []))

    def test_an_open_one(self):
        read = listings.read(OPEN)
        self.assertEqual((len(read.quads), read.front, read.end, read.whole, read.loops), (3, 4, "full", False, [[5, 6, 7, 8]]))

    def test_an_unsound_one(self):
        read = listings.read(UNSOUND)
        self.assertEqual((len(read.quads), read.front, read.whole, read.loops), (4, 2, False, []))

    def test_every_refusal_that_is_printed(self):
        for number in listings.PRINTED:
            with self.assertRaises(Refused) as caught:
                listings.read(f"refused {number}\n")
            self.assertEqual(str(caught.exception), in_words(number))

    def wrong(self, text, message):
        with self.assertRaises(Unusable) as caught:
            listings.read(text)
        self.assertIn(message, str(caught.exception))

    def test_what_is_no_listing(self):
        for text in ("", "\n", "refused 11\n", "refused 14\n", "refused\n", "refused x\n", "mesh 9 4 2 still\n", "mesh 9 4 2 done whole\n", "mesh 9 4 2 still closed\n"):
            self.wrong(text, "line 1: a listing begins with 'mesh'")
        self.wrong("mesh -9 4 2 still whole\n", "line 1: a whole number is wanted: -9")
        self.wrong("mesh 0 0 0 still whole\n", "line 1: 0 nodes and 0 quads are promised, and 0 lines follow")
        self.wrong("mesh 999999999 999999999 2 still whole\n", "line 1: 999,999,999 nodes and 999,999,999 quads are promised, and 0 lines follow")

    def test_a_damaged_line_is_named(self):
        lines = SQUARE_LISTING.split("\n")

        def changed(line, text):
            return "\n".join(lines[:line - 1] + [text] + lines[line:])

        self.wrong(changed(2, "q 0 1 8 7"), "line 2: a line with 'n' is wanted here")
        self.wrong(changed(3, "n 3ff0000000000000"), "line 3: a node has two coordinates")
        self.wrong(changed(3, "n 3FF0000000000000 0000000000000000"), "line 3: 16 hexadecimal digits are wanted: 3FF0000000000000")
        for bits, value in (("7ff0000000000000", "inf"), ("7ff8000000000000", "nan"), ("c08f500000000000", "-1002.0")):
            self.wrong(changed(4, f"n {bits} 0000000000000000"), f"line 4: no node of a run is beyond 1,001 either way: {bits} is {value}")
        self.wrong(changed(11, "q 0 1 9 7"), "line 11: there is no node 9")
        self.wrong(changed(11, "q 0 1 8"), "line 11: a quad has four nodes")
        self.wrong(changed(11, "q 0 1 8  7"), "line 11: a quad has four nodes")
        self.wrong("\n".join(lines[:-2]), "line 1: 9 nodes and 4 quads are promised, and 12 lines follow")
        self.wrong(SQUARE_LISTING + "l 1 2 3\n", "line 1: 'whole' is for no loops; lines after the quads: 1")
        self.wrong(OPEN.replace("l 5 6 7 8", "l 5 6"), "line 14: a loop that is listed has three nodes or more")


# An outer loop and two blind spots of four nodes each; a quad on an edge of each blind spot with two new nodes, then one of the outer loop.
SPOTS = listings.Listing(
    nodes=[outlines.Point(k, k * k) for k in range(18)],
    quads=[[4, 5, 13, 12], [8, 9, 15, 14], [0, 1, 17, 16]],
    front=18, end="passes", whole=False,
    loops=[[0, 16, 17, 1, 2, 3], [4, 12, 13, 5, 6, 7], [8, 14, 15, 9, 10, 11]],
)


def by_paper(loops, size, quads):
    """The origins: the samples loop after loop, then each new node by its quad's node a."""
    numbers = []
    for number, points in enumerate(loops):
        sides = (math.sqrt((p.x - q.x) * (p.x - q.x) + (p.y - q.y) * (p.y - q.y)) for p, q in zip(points, points[1:] + points[:1]))
        count = sum(max(math.ceil(side / (1.05 * size)), 1) for side in sides)
        numbers += [number] * (count + count % 2)
    for a, b, d, c in quads:
        for node in (c, d):
            if node == len(numbers):
                numbers.append(numbers[a])
    return numbers


class Origins(unittest.TestCase):
    def test_the_square(self):
        self.assertEqual(listings.origins(listings.read(SQUARE_LISTING)), [0] * 9)

    def test_two_blind_spots(self):
        self.assertEqual(listings.origins(SPOTS), [0] * 4 + [1] * 4 + [2] * 4 + [1, 1, 2, 2, 0, 0])

    def test_nothing_paved(self):
        unpaved = SPOTS._replace(nodes=SPOTS.nodes[:12], quads=[], loops=[[0, 1, 2, 3], [4, 7, 6, 5], [8, 9, 10, 11]])
        self.assertEqual(listings.origins(unpaved), [0] * 4 + [1] * 4 + [2] * 4)

    def test_the_papers_numbers_on_the_fixed_list(self):
        """The stored files, with their stored listings."""
        data = ROOT / "crates/replay/data"
        names = (data / "list").read_text().splitlines()
        runs, spots = 0, 0
        for file, listed in zip(names[::2], names[1::2]):
            try:
                listing = listings.read((data / listed).read_text())
            except Refused:
                continue
            loops, settings = outlines.from_blocks((data / file).read_bytes())
            self.assertEqual(listings.origins(listing), by_paper(loops, settings.size, listing.quads), file)
            runs, spots = runs + 1, spots + (len(loops) > 1)
        self.assertGreater(runs, 200)
        self.assertGreater(spots, 50)


COMMAND = ROOT / "host/target/release/sitjorbe"
RIGHT_EYE = ROOT / "examples/right-eye"


@unittest.skipUnless(os.access(COMMAND, os.X_OK), "the command isn't built")
class Drawing(unittest.TestCase):
    def setUp(self):
        holder = tempfile.TemporaryDirectory()
        self.addCleanup(holder.cleanup)
        self.folder = pathlib.Path(holder.name)
        self.square = self.file("it.csv", SQUARE)

    def file(self, name, data):
        path = self.folder / name
        path.write_bytes(data if isinstance(data, bytes) else data.encode())
        return path

    def draw(self, listing, *words, outline=None):
        return run(TOOLS / "picture", self.file("field.listing", listing), "--outline", outline or self.square, *words)

    def drawn(self, listing, *words, outline=None):
        """The picture's paths by class, and its texts."""
        status, data, said = self.draw(listing, *words, outline=outline)
        self.assertEqual((status, said), (0, ""))
        root = xml.etree.ElementTree.fromstring(data)
        name = "{http://www.w3.org/2000/svg}"
        paths = {}
        for element in root.iter(f"{name}path"):
            paths.setdefault(element.get("class"), []).append(element.get("d"))
        return paths, ["".join(element.itertext()) for element in root.iter(f"{name}text")]

    def test_the_square(self):
        paths, texts = self.drawn(SQUARE_LISTING, "--date", "2026-11-27")
        self.assertEqual(paths["patch0"][0].count("Z"), 4)
        self.assertEqual(paths["nodes"][0].count("M"), 9)
        self.assertNotIn("open", paths)
        digest = hashlib.sha256("".join(line + "\n" for line in SQUARE_LISTING.split("\n") if line[:2] in ("n ", "q ")).encode()).hexdigest()[:16]
        for words in ("field", "All of the field is paved.", "9 nodes, 4 quads.", "2°", "fixation", f"Mesh {digest}, sitjorbe {commands.version()}, 2026-11-27."):
            self.assertIn(words, texts)
        self.assertNotIn("measured nowhere", texts)
        self.assertIn("9 nodes, 4 quads; size 1°.", self.drawn(SQUARE_LISTING, "--size", "1")[1])

    def test_one_look_for_both_tools(self):
        """What the command draws of a field is what is drawn of its listing, byte by byte."""
        for name, size, eye in (("right-eye", "3.6", "right"), ("hand-drawn", "3.5", "left"), ("24-2", "3", "right")):
            points, look = ROOT / f"examples/{name}.csv", ("--size", size, "--eye", eye, "--title", name, "--date", "2026-11-27")
            drawn = run(TOOLS / "picture", points.with_suffix(".listing"), "--outline", points, *look)
            self.assertEqual(drawn[1], run(COMMAND, "pave", points, *look, "-o", "-")[1], name)

    def test_an_open_one(self):
        paths, texts = self.drawn(OPEN)
        self.assertEqual((paths["patch0"][0].count("Z"), paths["open"][0].count("Z")), (3, 1))
        for words in ("75 % of the field is paved; the red part, 25 %, is measured nowhere.", "9 nodes, 3 quads.",
                      "The paving stopped early: there was no place left for another quad.", "measured nowhere"):
            self.assertIn(words, texts)

    def test_holes_have_their_names(self):
        listing = RIGHT_EYE.with_suffix(".listing").read_text()
        paths, texts = self.drawn(listing, outline=RIGHT_EYE.with_suffix(".csv"))
        self.assertEqual((paths["patch0"][0].count("Z"), paths["patch1"][0].count("Z")), (194, 48))
        self.assertNotIn("patch2", paths)
        self.assertIn("paved round “blind spot”", texts)
        hand = ROOT / "examples/hand-drawn"
        _, texts = self.drawn(hand.with_suffix(".listing").read_text(), outline=hand.with_suffix(".csv"))
        self.assertIn("paved round “arcuate scotoma”", texts)
        self.assertIn("arcuate scotoma", texts)
        self.assertFalse([words for words in texts if "blind spot" in words], "a scotoma isn't a blind spot")

    def test_an_unsound_one(self):
        points = self.file("slit.csv", slit(0.0, 0.0))
        status, said, wrong = run(TOOLS / "picture", self.file("slit.listing", UNSOUND), "--outline", points)
        self.assertEqual((status, said), (2, b""), "it is no listing of this outline")
        self.assertIn("the listing is of another outline", wrong)

    def test_where_points_fall(self):
        paths, _ = self.drawn(SQUARE_LISTING)
        quad = re.match("M(.*?)Z", paths["patch0"][0]).group(1)
        corners = [tuple(map(float, corner.split(","))) for corner in quad.split(" ")]
        (ax, ay), (bx, by), (dx, dy), (cx, cy) = corners
        self.assertTrue(ax == cx < bx == dx and ay == by > cy == dy, "x goes to the right and y upwards")
        self.assertAlmostEqual(bx - ax, ay - cy, delta=0.02)

    def test_the_outline_as_the_program_read_it(self):
        points = RIGHT_EYE.with_suffix(".csv").read_text()
        blocks = self.file("it.outline", outlines.to_blocks(outlines.read_points(points), Settings(3.6)))
        paths, texts = self.drawn(RIGHT_EYE.with_suffix(".listing").read_text(), outline=blocks)
        self.assertEqual((paths["outline"][0].count("Z"), paths["blind"][0].count("Z")), (2, 1))
        self.assertIn("blind spot", texts)

    def test_no_size_is_said_of_a_listing_of_another(self):
        sizes = [self.file(f"{size}.outline", outlines.to_blocks(outlines.read_points(SQUARE), Settings(size))) for size in (1.0, 1.5)]
        one, other = (self.draw(SQUARE_LISTING, outline=outline) for outline in sizes)
        self.assertEqual(one, other, "both files have the listing's outline, and only one its size")

    def test_an_edge_is_lit(self):
        listing, outline = RIGHT_EYE.with_suffix(".listing").read_text(), RIGHT_EYE.with_suffix(".csv")
        rings = self.drawn(listing, outline=outline)[0]["outline"][0].split("Z")
        corners = [ring.strip().removeprefix("M").split(" ") for ring in rings[:2]]
        for loop, segment in ((0, 0), (0, 23), (1, 1), (1, 7)):
            paths, texts = self.drawn(listing, "--edge", f"{loop},{segment}", outline=outline)
            ends = corners[loop][segment], corners[loop][(segment + 1) % len(corners[loop])]
            self.assertEqual((len(paths["lit"]), paths["lit"][0]), (2, "M{}L{}".format(*ends)), "and one in the legend")
            self.assertTrue([words for words in texts if words.startswith(f"Edge {loop},{segment} of ")])
        paths, texts = self.drawn(listing, outline=outline)
        self.assertNotIn("lit", paths)

    def test_an_edge_that_isnt_there(self):
        listing, outline = RIGHT_EYE.with_suffix(".listing").read_text(), RIGHT_EYE.with_suffix(".csv")
        for words, message in (("2,0", "there is no loop 2: the outline has 2 loops, counted from 0"),
                               ("0,24", "loop 0 has no segment 24: it has 24 segments, counted from 0"),
                               *((words, f"an edge is LOOP,SEGMENT, two whole numbers that count from 0: {words}")
                                 for words in ("", "1", "1,", "1,2,3", "1, 2", "0x1,2", "٠,1", "1" * 5_000 + ",1"))):
            self.assertEqual(self.draw(listing, "--edge", words, outline=outline), (2, b"", f"picture: {message}\n"))

    def test_another_outline_is_not_drawn(self):
        other = self.file("other.csv", SQUARE.replace("2,2", "2,2.5"))
        self.assertEqual(self.draw(SQUARE_LISTING, outline=other),
                         (2, b"", f"picture: {other}: the listing is of another outline: it has no node at line 3: 2.0,2.5\n"))
        status, data, said = run(TOOLS / "picture", self.file("field.listing", SQUARE_LISTING))
        self.assertEqual((status, data), (2, b""))
        self.assertIn("--outline", said)

    def test_a_damaged_outline_file(self):
        blocks = outlines.to_blocks(outlines.read_points(SQUARE), Settings(1.0))
        damaged = self.file("it.outline", blocks[:600] + b"\1" + blocks[601:])
        self.assertEqual(self.draw(SQUARE_LISTING, outline=damaged), (1, b"", f"picture: {in_words(12)} (block 2)\n"))

    def test_a_refusal_is_said_in_words(self):
        for number in listings.PRINTED:
            self.assertEqual(self.draw(f"refused {number}\n"), (1, b"", f"picture: {in_words(number)}\n"))

    def test_what_cant_be_read(self):
        path = self.folder / "field.listing"
        self.assertEqual(self.draw(SQUARE_LISTING.replace("q 0 1 8 7", "q 0 1 8 99"))[::2],
                         (2, f"picture: {path}: line 11: there is no node 99\n"))
        self.assertEqual(self.draw(b"\xff")[::2], (2, f"picture: {path}: this isn't text\n"))
        self.assertEqual(run(TOOLS / "picture", "/no/such", "--outline", self.square)[::2], (2, "picture: /no/such: No such file or directory\n"))
        self.assertEqual(self.draw(SQUARE_LISTING.replace("q 0 1 8 7", "q 0 1 8 8"))[::2],
                         (2, "picture: quads: number 0, counted from 0, isn't one: [0,1,8,8]\n"))

    def test_numbers_title_and_output(self):
        target = self.folder / "made.svg"
        self.assertEqual(self.draw(SQUARE_LISTING, "--numbers", "--title", "A < B & C", "-o", target), (0, b"", ""))
        _, texts = self.drawn(SQUARE_LISTING, "--numbers", "--title", "A < B & C")
        self.assertEqual(target.read_bytes(), self.draw(SQUARE_LISTING, "--numbers", "--title", "A < B & C")[1])
        self.assertIn("A < B & C", texts)
        self.assertTrue({str(k) for k in range(9)} <= set(texts))
        self.assertFalse({str(k) for k in range(9)} & set(self.drawn(SQUARE_LISTING)[1]))

    def test_standard_input(self):
        status, data, _ = run(TOOLS / "picture", "-", "--outline", self.square, data=SQUARE_LISTING.encode())
        self.assertEqual((status, b">Paved field</title>" in data), (0, True))


if __name__ == "__main__":
    unittest.main()
