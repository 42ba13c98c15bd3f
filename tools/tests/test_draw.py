"""`sitjorbe draw`: the page in a real browser, its meshes beside those of `sitjorbe pave`, and hostile requests to its server."""

import csv
import json
import math
import pathlib
import re
import socket
import struct
import subprocess
import time
import unittest
import urllib.request

import browser
from common import ROOT
from page_case import COMMAND, SPOT, SQUARE, STATE, PageCase, Server, command_mesh, not_built, points_of

# The page's colours: of words, with their ground, and of marks on the sheet.
WORDS_ON = [("ink", "ground"), ("ink", "sheet"), ("ink", "control"), ("ink", "wrong-ground"), ("faint", "ground"), ("faint", "sheet"), ("wrong", "sheet"),
            ("on-accent", "accent")]
MARKS = ["lit", "preview", "wrong", "open", "accent"]
COLOURS = sorted({*MARKS, *(name for pair in WORDS_ON for name in pair)})


class Hostile(unittest.TestCase):
    """What a page elsewhere, or a program, may send to the server."""

    @classmethod
    def setUpClass(cls):
        if not_built():
            raise unittest.SkipTest(f"hostile requests to the server of the page to draw on: {not_built()}")
        cls.server = Server()
        cls.addClassCleanup(cls.server.close)

    def check(self, status, text, body=b""):
        self.assertEqual(self.server.status(text, body), status, text)

    def test_the_page_is_served(self):
        with urllib.request.urlopen(self.server.url) as answer:
            page, policy = answer.read().decode(), answer.headers["Content-Security-Policy"]
        self.assertNotIn("{{", re.sub(r"<script.*</script>", "", page, flags=re.DOTALL))
        self.assertIn("default-src 'none'", policy)
        self.assertEqual(re.findall(r"(?:src|href)=\"(?!data:)[^\"]*\"", page), ['href="/masked"'], "nothing is fetched, and one page is linked to")

    def test_hosts_and_origins(self):
        self.check(200, f"GET / HTTP/1.1\nHost: localhost:{self.server.port}\n\n")
        self.check(403, "GET / HTTP/1.1\nHost: example.org\n\n")
        self.check(400, "GET / HTTP/1.1\n\n")
        self.check(403, "POST /check HTTP/1.1\nHost: HOST\nOrigin: http://example.org\nContent-Type: application/json\nContent-Length: 2\n\n", b"{}")

    def test_methods_and_paths(self):
        self.check(405, "PUT / HTTP/1.1\nHost: HOST\n\n")
        self.check(405, "GET /pave HTTP/1.1\nHost: HOST\n\n")
        for path in ("/../../etc/passwd", "/%2e%2e/etc/passwd", "/page.js", "//", "/pave/.."):
            self.check(404, f"GET {path} HTTP/1.1\nHost: HOST\n\n")

    def test_bodies(self):
        head = "POST /pave HTTP/1.1\nHost: HOST\nContent-Type: application/json\n"
        self.check(415, "POST /pave HTTP/1.1\nHost: HOST\nContent-Type: text/plain\nContent-Length: 2\n\n", b"{}")
        self.check(411, head + "\n")
        self.check(413, head + "Content-Length: 1048577\n\n")
        self.check(400, head + "Content-Length: 4\n\n", b"nope")
        self.check(400, head + "Content-Length: 2\n\n", b"[]")
        self.check(400, head + "Content-Length: 4\n\n", b"\xff\xfe\x00\x00")
        self.check(431, "GET / HTTP/1.1\nHost: HOST\nX: " + 20_000 * "x" + "\n\n")

    def test_a_slow_client_keeps_none_waiting(self):
        with socket.create_connection(("127.0.0.1", self.server.port)) as slow:
            slow.sendall(b"POST /pave HTTP/1.1\r\nHo")
            begun = time.monotonic()
            self.check(200, "GET / HTTP/1.1\nHost: HOST\n\n")
            self.assertLess(time.monotonic() - begun, 5)


class Page(PageCase):
    # ---- drawing

    def test_a_square_with_a_blind_spot(self):
        self.assertIn("Nothing is drawn yet", self.text("#said"))
        self.draws_square_and_spot()
        self.assertEqual(self.loops(), [SQUARE, SPOT])
        self.assertEqual(self.patches(), command_mesh([SQUARE, SPOT], 3))
        self.assertIn("measured nowhere", self.text("#figures .legend"))

    def test_a_reload_loses_nothing(self):
        self.draws_square_and_spot()
        before = self.patches(), self.state()
        self.browser.reload()
        self.waits_for_words("#verdict", "is paved")
        self.assertEqual((self.patches(), self.state()), before)
        self.browser.click("#undo")
        self.browser.wait(STATE + ".loops.length === 1")
        self.assertEqual(self.loops(), [SQUARE])
        self.browser.press("Control+Shift+z")
        self.browser.wait(STATE + ".loops.length === 2")
        self.waits_for_words("#verdict", "measured nowhere")
        self.assertEqual(self.patches(), before[0])

    def test_points_are_moved_added_and_removed(self):
        self.press_at(*SQUARE, SQUARE[0])
        self.browser.wait(STATE + ".mode === 'move'")
        self.browser.pointer(self.at(10, 10), "down", self.at(14, 12), self.at(15, 15), "up")
        self.assertEqual(self.loops()[0][2], (15, 15))
        self.press_at((0, -10))
        self.assertEqual(self.loops()[0][1], (0, -10))
        self.browser.press("Delete")
        self.assertEqual(self.loops(), [[(-10, -10), (10, -10), (15, 15), (-10, 10)]])
        self.press_at((15, 15))
        self.run_("document.getElementById('point-x').value = ''")
        self.browser.type("#point-x", "12.3456")
        self.browser.wait(STATE + ".loops[0].points[2][0] === 12.3456")
        self.assertEqual(self.loops()[0][2], (12.3456, 15))
        self.browser.wait("return document.querySelectorAll('#patches .patch').length > 0")
        time.sleep(0.6)
        self.assertEqual(self.patches(), command_mesh(self.loops(), 3))

    def ring(self, radius=20, steps=120):
        """A stroke round fixation in so many steps."""
        places = [(radius * math.cos(2 * k * math.pi / steps), radius * math.sin(2 * k * math.pi / steps)) for k in range(steps)]
        return [self.at(*place) for place in places]

    def test_a_stroke_of_a_finger(self):
        first, *rest = self.ring()
        self.browser.pointer(first, "down", *rest, "up", kind="touch")
        self.browser.wait(STATE + ".loops.length === 1")
        [points] = self.loops()
        for one, other in zip(points, points[1:]):
            self.assertAlmostEqual(math.dist(one, other), 3, delta=0.002, msg="a size apart")
        for point in points:
            self.assertAlmostEqual(math.hypot(*point), 20, delta=0.15)
        self.waits_for_words("#verdict", "is paved")
        self.assertEqual(self.patches(), command_mesh([points], 3))

    def test_a_fast_stroke_has_points_a_size_apart_as_well(self):
        first, *rest = self.ring(steps=8)
        self.browser.pointer(first, "down", *rest, first, "up")
        self.browser.wait(STATE + ".loops.length === 1")
        [points] = self.loops()
        self.assertGreater(len(points), 35, "the pointer was seen in eight places")
        for one, other in zip(points, points[1:]):
            self.assertAlmostEqual(math.dist(one, other), 3, delta=0.002)

    def test_a_stroke_goes_on_from_points(self):
        self.press_at((-10, -10), (10, -10))
        self.browser.pointer(self.at(12, 0), "down", self.at(12, 5), self.at(8, 12))
        drawn = [point for line in self.paths("#loops .draft") for point in line]
        self.assertLess(min(math.dist(point, (12, 3)) for point in drawn), 0.05, "it is seen while it is drawn")
        self.browser.pointer("up")
        self.browser.press("Enter")
        self.waits_for_words("#verdict", "is paved")
        [points] = self.loops()
        self.assertEqual(points[:3], [(-10, -10), (10, -10), (12, 0)])
        for one, other in zip(points[2:-1], points[3:-1]):
            self.assertAlmostEqual(math.dist(one, other), 3, delta=0.002)
        self.assertLess(math.dist(points[-1], (8, 12)), 1.5, "it ends where the stroke ended")

    # ---- fingers

    def test_steps_by_touch(self):
        self.draws_square_and_spot()
        self.mode("step")
        self.waits_for_words("#look", "Nothing is placed yet")
        edge = self.paths("#front .front")[0]
        middle = [(edge[0][axis] + edge[1][axis]) / 2 for axis in (0, 1)]
        self.press_at(middle, kind="touch")
        self.waits_for_words("#look", "a quad would come")
        self.assertEqual(self.patches(), {}, "a tap looks")
        self.press_at(middle, kind="touch")
        self.browser.wait(STATE + ".moves.length === 1")
        self.browser.wait("return document.querySelector('#patches .patch-0')?.getAttribute('d').length > 0")
        self.assertEqual(sum(map(len, self.patches().values())), 1, "the next one places")

    def test_a_second_finger_gives_up_a_stroke_and_pinches(self):
        before = self.at(1, 0)[0] - self.at(0, 0)[0]
        stroke, other = [self.at(x, 0) for x in (-10, -5, 0)], [self.at(x, 0) for x in (4, 6, 9)]
        self.browser.fingers([stroke[0], "down", stroke[1], stroke[2], None, None, None, None, "up"], [None, None, None, other[0], other[0], "down", other[1], other[2], "up"])
        self.assertEqual((self.state()["draft"], self.loops()), (None, []), "nothing is drawn")
        after = self.at(1, 0)[0] - self.at(0, 0)[0]
        self.assertGreater(after, 1.2 * before, "the fingers went apart")
        (x, y), (qx, qy) = self.at(0, 0), stroke[2]
        self.assertAlmostEqual(x, qx, delta=3, msg="what lay under the finger that stayed lies there still")
        self.assertAlmostEqual(y, qy, delta=3)
        self.press_at((1, 1), kind="touch")
        self.browser.wait(STATE + ".draft?.points.length === 1")

    def test_a_pinch_puts_a_point_back(self):
        self.draws_square_and_spot()
        self.mode("move")
        corner, aside, other = self.at(10, 10), self.at(14, 14), self.at(-5, -5)
        self.browser.fingers([corner, "down", aside, None, None, "up"], [None, None, other, other, "down", "up"])
        self.assertEqual(self.loops(), [SQUARE, SPOT])

    def test_a_palm_beside_a_pen_does_nothing(self):
        pen = [self.at(x, y) for x, y in ((-10, -10), (-6, -10), (10, -10), (10, 10))]
        palm = [self.at(x, y) for x, y in ((-14, -14), (-13, -13), (-12, -12))]
        def pointer(name, kind, steps):
            actions = [{"type": "pause", "duration": 0} if step is None else {"type": "pointerMove", "duration": 0, "x": round(step[0]), "y": round(step[1])} if isinstance(step, tuple)
                       else {"type": {"down": "pointerDown", "up": "pointerUp"}[step], "button": 0} for step in steps]
            return {"type": "pointer", "id": name, "parameters": {"pointerType": kind}, "actions": actions}
        self.browser.act(pointer("palm", "touch", [palm[0], "down", palm[1], None, None, palm[2], None, None, "up"]),
                         pointer("pen", "pen", [None, None, None, pen[0], "down", pen[1], pen[2], pen[3], "up"]))
        points = [tuple(point) for point in self.state()["draft"]["points"]]
        self.assertEqual(points[0], (-10, -10), "the palm, which lay there first, has drawn nothing")
        for one, another in zip(points, points[1:-1]):
            self.assertAlmostEqual(math.dist(one, another), 3, delta=0.002)
        self.assertLess(math.dist(points[-1], (10, 10)), 1.6)

    def test_targets_are_large_for_fingers(self):
        self.browser.chrome("Emulation.setTouchEmulationEnabled", enabled=True, maxTouchPoints=5)
        self.browser.chrome("Emulation.setDeviceMetricsOverride", width=400, height=800, deviceScaleFactor=1, mobile=True)
        self.addCleanup(self.browser.chrome, "Emulation.clearDeviceMetricsOverride")
        self.addCleanup(self.browser.chrome, "Emulation.setTouchEmulationEnabled", enabled=False)
        self.draws_square_and_spot()
        self.assertTrue(self.run_("return matchMedia('(pointer: coarse)').matches"))
        small = """return [...document.querySelectorAll('button, select, input:not([type=radio]), .choice label, .tick, summary')].filter((one) => {
          const box = one.getBoundingClientRect(); const target = one.closest('.tick')?.getBoundingClientRect() ?? box;
          return box.width > 0 && (target.width < 44 || target.height < 44); }).map((one) => one.outerHTML)"""
        self.assertEqual(self.run_(small), [])

    # ---- advice, thinning, work that nobody waits for

    def test_a_dense_outline_is_thinned_where_that_is_asked_for(self):
        rows = "".join(f"{20 * math.cos(k * math.pi / 500)!r},{20 * math.sin(k * math.pi / 500)!r}\n" for k in range(1000))
        file = pathlib.Path(self.browser.folder.name, "dense.csv")
        file.write_text(rows)
        self.browser.type("#open", str(file))
        self.waits_for_words("#figures", "1,000 points 0.126° apart")
        self.assertIn("None of the field is paved", self.text("#verdict"))
        self.assertNotIn("Smaller quads", self.text("#figures"))
        self.browser.click("#thin")
        said = self.waits_for_words("#thin-said", "of 1,000 points stay")
        self.assertIn("the outline moves by at most", said)
        self.assertEqual(len(self.loops()[0]), 1000, "nothing is thinned unasked")
        self.browser.click("#thin-it")
        self.browser.wait(STATE + ".loops[0].points.length < 60")
        self.browser.wait("return document.querySelectorAll('#patches .patch-0').length > 0 && document.querySelector('#patches .patch-0').getAttribute('d').length > 0")
        self.assertEqual(self.patches(), command_mesh(self.loops(), 3))
        self.browser.click("#undo")
        self.browser.wait(STATE + ".loops[0].points.length === 1000")

    def sets_size(self, size):
        self.run_("document.getElementById('size').select()")
        self.browser.type("#size", size)

    def test_what_is_of_before_says_so_and_stop_stops(self):
        self.opens("30-2")
        before = self.text("#verdict")
        self.sets_size("0.12")
        self.waits_for_words("#stale-words", "Of before: the new answer is under way")
        self.assertEqual(self.text("#verdict"), before)
        self.assertLess(float(self.run_("return getComputedStyle(document.getElementById('result')).opacity")), 0.7, "it is faint")
        self.browser.click("#stop")
        self.waits_for_words("#stale-words", "Stopped")
        self.assertTrue(self.run_("return document.getElementById('busy').hidden"))
        until = time.monotonic() + 5
        while self.server.workers() and time.monotonic() < until:
            time.sleep(0.02)
        self.assertEqual(self.server.workers(), 0, "nothing runs on in the server")
        self.sets_size("6")
        self.browser.wait("return document.getElementById('stale').hidden")
        self.waits_for_words("#figures", "Nodes")

    def test_size_and_eye(self):
        self.opens("24-2")
        self.assertIn("All of the field is paved.", self.text("#verdict"))
        self.assertEqual(self.state()["eye"], "right")
        self.assertIn("nasal", self.text("#grid"))
        self.browser.click("#eyes [value=left]")
        self.run_("document.getElementById('size').select()")
        self.browser.type("#size", "6")
        self.browser.wait(STATE + ".size === 6")
        size_6 = command_mesh(self.loops(), 6)
        self.browser.wait("return document.querySelector('#patches .patch-0').getAttribute('d').split('M').length - 1 === arguments[0]", len(size_6[0]))
        self.assertEqual(self.patches(), size_6)

    # ---- refusals and faults

    def test_refusals_are_said_at_their_place(self):
        self.press_at((-10, 0), (10, 0))
        self.browser.press("Enter")
        self.waits_for_words("#said", "fewer than three points")
        self.assertFalse(self.run_("return document.getElementById('callout').hidden"))
        self.assertIn("fewer than three points", self.text("#callout"))
        self.assertEqual(self.loops(), [])
        self.press_at((0, 10))
        self.browser.press("Enter")
        self.waits_for_words("#verdict", "is paved")
        self.run_("document.getElementById('size').select()")
        self.browser.type("#size", "1000")
        self.waits_for_words("#said", "the element size")
        self.assertEqual(self.run_("return document.getElementById('size').getAttribute('aria-invalid')"), "true")
        self.assertEqual(self.patches(), {})

    def test_unsound_places_are_marked(self):
        self.press_at((-10, -10), (10, 10), (10, -10), (-10, 10))
        self.browser.press("Enter")
        self.waits_for_words("#faults", "meet")
        self.assertIn("isn't sound", self.text("#verdict"))
        ends = {frozenset(map(self.rounded, segment)) for segment in self.marked("#marks .fault")}
        self.assertEqual(ends, {frozenset({(-10, -10), (10, 10)}), frozenset({(10, -10), (-10, 10)})})

    @staticmethod
    def rounded(place):
        return round(place[0], 1), round(place[1], 1)

    def marked(self, selector):
        """Lines of a layer in pixels, in degrees."""
        left, top = self.run_("const box = document.getElementById('surface').getBoundingClientRect(); return [box.left, box.top]")
        (x0, y0), (x1, y1) = self.at(0, 0), self.at(1, 1)
        return [[((x + left - x0) / (x1 - x0), (y + top - y0) / (y1 - y0)) for x, y in segment] for segment in self.paths(selector)]

    # ---- steps, nearest edge, crosses

    def test_steps_by_hand(self):
        self.draws_square_and_spot()
        self.mode("step")
        self.waits_for_words("#look", "Nothing is placed yet")
        self.assertEqual(self.patches(), {})
        edge = self.paths("#front .front")[0]
        middle = [(edge[0][axis] + edge[1][axis]) / 2 for axis in (0, 1)]
        self.browser.pointer(self.at(*middle))
        self.waits_for_words("#look", "a quad would come")
        [coming] = self.paths("#front .coming")
        self.assertEqual(self.patches(), {}, "a look places nothing")
        self.browser.pointer(self.at(*middle), "down", "up")
        self.browser.wait(STATE + ".moves.length === 1")
        self.browser.wait("return document.querySelector('#patches .patch-0').getAttribute('d').length > 0")
        self.assertEqual(self.patches(), {0: [coming]})
        self.balances()
        self.browser.wait("return document.querySelector('#front .coming') !== null")
        self.assertNotEqual(self.paths("#front .coming"), [coming], "the next quad is shown under the pointer")
        self.browser.click("#undo-step")
        self.browser.wait("return document.querySelector('#patches .patch-0').getAttribute('d').length === 0")
        self.browser.click("[data-passes='1']")
        self.waits_for_words("#look", "The passes placed")
        self.balances()
        self.browser.click("#start-again")
        self.waits_for_words("#look", "Nothing is placed yet")
        self.browser.click("[data-passes='600']")
        self.waits_for_words("#look", "The passes placed")
        self.assertEqual(self.patches(), command_mesh([SQUARE, SPOT], 3), "all passes pave what pave paves")
        self.balances()

    def balances(self):
        told = self.text("#books")
        self.assertEqual(told.count("balances ✓"), 3, told)

    def test_a_stepped_field_is_kept_over_a_reload(self):
        self.draws_square_and_spot()
        self.mode("step")
        self.browser.click("[data-passes='1']")
        self.waits_for_words("#look", "The passes placed")
        before = self.patches()
        self.browser.reload()
        self.waits_for_words("#look", "The passes placed")
        self.assertEqual(self.patches(), before)
        self.assertTrue(before)

    def test_the_nearest_edge(self):
        self.draws_square_and_spot()
        self.mode("nearest")
        self.press_at((7, 1))
        self.waits_for_words("#nearest-said", "is in the field, 1° from")
        self.assertEqual([list(map(self.rounded, segment)) for segment in self.marked("#marks .lit")], [[(6, 2), (6, -2)]])
        self.press_at((0, 14))
        self.waits_for_words("#nearest-said", "is outside the outline, 4° from")
        self.press_at((4, 1))
        self.waits_for_words("#nearest-said", "is in “blind spot”, 1° from")

    def test_crosses(self):
        self.draws_square_and_spot()
        self.assertEqual(self.paths("#crosses path"), [])
        self.browser.click("#show-crosses")
        self.browser.wait("return document.querySelector('#crosses path').getAttribute('d').length > 0")
        arms = self.paths("#crosses path")
        self.assertEqual(len(arms) % 2, 0)
        for (ax, ay), (bx, by) in arms[:2]:
            self.assertLess(min(abs(ax - bx), abs(ay - by)), 0.2 * max(abs(ax - bx), abs(ay - by)), "near a square's corner its crosses stand straight")

    # ---- the keyboard alone

    def test_the_keyboard_alone(self):
        self.run_("document.querySelector('#modes [value=outline]').focus()")
        self.browser.press("Tab")
        self.assertEqual(self.run_("return document.activeElement.id"), "surface")
        self.browser.press(*2 * ["Shift+Right"], "Space", *2 * ["Shift+Up"], "Enter", *4 * ["Shift+Left"], "Space", *2 * ["Shift+Down"], "Left", "Enter", "Enter")
        self.waits_for_words("#verdict", "is paved")
        self.assertEqual(self.loops(), [[(10, 0), (10, 10), (-10, 10), (-11, 0)]])
        self.browser.press("Tab", "Tab")
        self.assertEqual(self.state()["selected"], [0, 1])
        self.browser.press("Enter", "Right", "Control+Up", "Enter", "Right")
        self.assertEqual(self.loops()[0][1], (11, 10.1))
        self.browser.press("Shift+Tab", "Delete")
        self.assertEqual(self.loops(), [[(11, 10.1), (-10, 10), (-11, 0)]])
        self.browser.press("Control+z")
        self.assertEqual(len(self.loops()[0]), 4)
        self.browser.press("Escape", "Tab")
        self.assertNotEqual(self.run_("return document.activeElement.id"), "surface")

    def test_steps_by_keys(self):
        self.draws_square_and_spot()
        self.mode("step")
        self.waits_for_words("#look", "Nothing is placed yet")
        self.run_("document.getElementById('surface').focus()")
        looked = [""]
        for _ in range(3):
            self.browser.press("Tab")
            looked.append(self.browser.wait("const t = document.querySelector('#look').textContent; return t.startsWith('Edge') && t !== arguments[0] && t", looked[-1]))
        self.assertEqual(len(set(looked)), 4, "each Tab looks at another edge")
        self.browser.press("Escape", *3 * ["Shift+Left"])
        self.waits_for_words("#look", "a quad would come")
        self.browser.press("Enter")
        self.waits_for_words("#look", "is placed")
        self.assertEqual(sum(map(len, self.patches().values())), 1)

    def test_every_control_has_a_name(self):
        self.draws_square_and_spot()
        nameless = """return [...document.querySelectorAll('button, input, select, [tabindex]')].filter((one) =>
          !(one.textContent.trim() && one.tagName === 'BUTTON') && !one.labels?.length && !one.getAttribute('aria-label')).map((one) => one.outerHTML)"""
        self.assertEqual(self.run_(nameless), [])

    # ---- files

    def test_files(self):
        self.browser.type("#open", str(ROOT / "examples/right-eye.csv"))
        self.waits_for_words("#files-said", "right-eye.csv is opened")
        self.waits_for_words("#verdict", "is paved")
        loops = self.loops()
        self.browser.click("#eyes [value=right]")
        self.browser.click("#save-csv")
        rows = [tuple(map(float, row)) for row in csv.reader(self.saved("right-eye.csv").read_text().splitlines()) if row and not row[0].startswith("#")]
        self.assertEqual(rows, [point for loop in loops for point in loop])
        self.browser.click("#save-svg")
        said = subprocess.run([COMMAND, "pave", ROOT / "examples/right-eye.csv", "--size", "3", "--eye", "right", "-o", "-"], capture_output=True, check=True)
        self.assertEqual(self.saved("right-eye.svg").read_bytes(), said.stdout)
        width, height = map(int, re.search(rb'width="(\d+)" height="(\d+)"', said.stdout).groups())
        self.browser.click("#save-png")
        picture = self.saved("right-eye.png").read_bytes()
        self.assertEqual(picture[:8], b"\x89PNG\r\n\x1a\n")
        self.assertEqual(struct.unpack(">II", picture[16:24]), (2 * width, 2 * height))
        self.assertGreater(len(picture), 50_000, "it isn't blank")

    def test_a_whole_field_is_saved_and_opened(self):
        self.draws_square_and_spot()
        self.browser.click("#eyes [value=left]")
        self.run_("document.getElementById('title').select()")
        self.browser.type("#title", "Anna")
        self.browser.wait(STATE + ".title === 'Anna'")
        self.assertTrue(self.asks_before_it_closes(), "nothing of it is saved")
        self.browser.click("#save-field")
        saved = json.loads(self.saved("Anna.json").read_text())
        self.browser.wait("return document.getElementById('files-said').textContent.includes('is saved')")
        self.assertFalse(self.asks_before_it_closes())
        digest = json.loads(subprocess.run([COMMAND, "pave", "-", "--size", "3", "-o", "-", "--as", "json"], input=points_of(self.loops()).encode(),
                                           capture_output=True, check=True).stdout)["digest"]
        self.assertEqual((saved["title"], saved["eye"], saved["size"], saved["digest"]), ("Anna", "left", 3, digest))
        names = [loop["name"] for loop in self.state()["loops"]]
        before = self.loops()
        self.browser.click("#clear")
        self.browser.click("#eyes [value=right]")
        self.assertEqual(self.loops(), [])
        self.browser.type("#open", str(self.saved("Anna.json")))
        self.waits_for_words("#files-said", "Anna.json is opened")
        state = self.state()
        self.assertEqual((self.loops(), state["eye"], state["size"], state["title"]), (before, "left", 3, "Anna"))
        self.assertEqual([loop["name"] for loop in state["loops"]], names)
        self.assertFalse(self.asks_before_it_closes())
        self.press_at((0, -10))
        self.browser.wait("return !" + STATE.removeprefix("return ") + ".loops[0].points.every((p) => p[0] !== 0)")
        self.assertTrue(self.asks_before_it_closes(), "it was changed since")

    def asks_before_it_closes(self):
        return self.run_("const event = new Event('beforeunload', { cancelable: true }); dispatchEvent(event); return event.defaultPrevented")

    def test_the_command_takes_a_file(self):
        server = Server(str(ROOT / "examples/right-eye.csv"))
        self.addCleanup(server.close)
        self.browser.go(server.url)
        self.waits_for_words("#verdict", "field is")
        if self.run_("return document.getElementById('close-open').checked"):
            self.browser.click("#close-open")
        self.waits_for_words("#verdict", "is paved")
        self.assertEqual(self.state()["title"], "right-eye")
        self.assertEqual(self.patches(), command_mesh(self.loops(), 3))
        self.browser.go(self.server.url)

    def test_what_the_page_says_is_told(self):
        self.browser.click("#about")
        words = self.text("#about-dialog")
        for told in ("measured nowhere", "says nothing of how well the patient sees", "Proved, on every input", "Not proved, but judged one by one"):
            self.assertIn(told, words)
        self.assertTrue(self.run_("return document.getElementById('about-dialog').open"))
        self.browser.press("Escape")
        self.assertFalse(self.run_("return document.getElementById('about-dialog').open"))

    def test_a_file_that_cant_be_read(self):
        file = pathlib.Path(self.browser.folder.name, "wrong.csv")
        file.write_text("1,2\n3,four\n")
        self.browser.type("#open", str(file))
        self.assertIn("Line 2, column 3: y isn't a number: four", self.waits_for_words("#files-said", "can't be read"))
        self.assertEqual(self.loops(), [])

    # ---- looks

    def test_nothing_is_cut_off(self):
        self.draws_square_and_spot()
        for mode in ("move", "step"):
            self.mode(mode)
            for width in (1280, 640, 400, 320):
                self.browser.chrome("Emulation.setDeviceMetricsOverride", width=width, height=800, deviceScaleFactor=1, mobile=False)
                self.assertLessEqual(self.run_("return document.documentElement.scrollWidth"), width, mode)
                wide = """return [...document.querySelectorAll('main :not(.unseen)')].filter((one) =>
                  one.clientWidth > 1 && one.scrollWidth > one.clientWidth + 1 && one.tagName !== 'INPUT').map((one) => one.outerHTML)"""
                self.assertEqual(self.run_(wide), [], (mode, width))
        self.browser.chrome("Emulation.clearDeviceMetricsOverride")

    def test_words_are_told_from_their_ground(self):
        for scheme in ("light", "dark"):
            self.browser.chrome("Emulation.setEmulatedMedia", features=[{"name": "prefers-color-scheme", "value": scheme}])
            colours = self.run_("""const style = getComputedStyle(document.documentElement);
              return Object.fromEntries(arguments[0].map((name) => [name, style.getPropertyValue('--' + name)]))""", COLOURS)
            for words, ground in WORDS_ON:
                self.assertGreaterEqual(contrast(colours[words], colours[ground]), 4.5, (scheme, words, ground))
            for mark in MARKS:
                self.assertGreaterEqual(contrast(colours[mark], colours["sheet"]), 3, (scheme, mark))
        self.browser.chrome("Emulation.setEmulatedMedia", features=[])


class Closing(PageCase):
    """What a paving leaves open is closed, as the page has it from the start."""

    closes = True

    def test_the_whole_field_is_covered(self):
        self.draws_square_and_spot()
        self.waits_for_words("#verdict", "All of the field is covered")
        mesh = self.server.post("/pave", {"loops": self.state()["loops"], "size": 3, "eye": None, "close": True})["mesh"]
        self.assertEqual(self.patches_by_kind(), [mesh["kinds"].count(2), len(mesh["kinds"]) - mesh["kinds"].count(2)])
        self.assertEqual(self.paths("#patches .open"), [])
        self.assertIn("closed afterwards", self.text("#figures .legend"))
        told = self.text("#figures")
        self.assertIn("Closed afterwards", told)
        self.assertIn(f"{100 * mesh['closing']['share']:.1f}", told)
        self.assertAlmostEqual(mesh["figures"]["share"] + mesh["closing"]["share"], 1, places=9)

    def patches_by_kind(self):
        return [len(self.paths("#patches .closing")), sum(map(len, self.patches().values()))]

    def test_the_switch_is_remembered(self):
        self.draws_square_and_spot()
        self.waits_for_words("#verdict", "is covered")
        self.browser.click("#close-open")
        self.waits_for_words("#verdict", "measured nowhere")
        self.assertEqual(self.patches(), command_mesh([SQUARE, SPOT], 3))
        self.run_("sessionStorage.clear()")
        self.browser.reload()
        self.browser.wait("return document.querySelectorAll('#example option').length > 0")
        self.assertFalse(self.run_("return document.getElementById('close-open').checked"))

    def test_an_exam_takes_the_closed_mesh(self):
        self.draws_square_and_spot()
        self.waits_for_words("#verdict", "is covered")
        self.mode("exam")
        self.browser.wait("return !document.getElementById('exam').hidden")
        exam = self.server.post("/exam/state", {})
        self.assertEqual(exam["left"], [])
        books = self.server.post("/exam/books", {"exam": exam["id"]})
        self.assertTrue(books["areas_balance"] and books["edges_balance"] and books["counts_balance"], books)
        self.server.post("/exam/simulate", {"exam": exam["id"], "patient": {"seed": 1, "noise": 0, "loss": None}, "count": None})
        files = self.server.post("/exam/save", {"exam": exam["id"]})
        again = self.server.post("/exam/open", {"text": files["json"], "replaces": exam["id"]})
        self.assertEqual(again["quads"], exam["quads"])
        self.assertAlmostEqual(again["share_tested"], 1, places=9)


def contrast(one, other):
    """WCAG 2's ratio of two colours, #rgb or #rrggbb."""
    def light(colour):
        digits = colour.strip().removeprefix("#")
        digits = "".join(2 * digit for digit in digits) if len(digits) == 3 else digits
        parts = [int(digits[k:k + 2], 16) / 255 for k in (0, 2, 4)]
        red, green, blue = (part / 12.92 if part <= 0.03928 else ((part + 0.055) / 1.055) ** 2.4 for part in parts)
        return 0.2126 * red + 0.7152 * green + 0.0722 * blue
    darker, lighter = sorted((light(one), light(other)))
    return (lighter + 0.05) / (darker + 0.05)


if __name__ == "__main__":
    unittest.main()
