"""The page to draw on in a real browser, for tests: its server, and what they look at and do."""

import json
import os
import pathlib
import re
import socket
import subprocess
import time
import unittest
import urllib.request

import browser
from common import ROOT

COMMAND = ROOT / "host/target/release/sitjorbe"
SQUARE = [(-10, -10), (10, -10), (10, 10), (-10, 10)]
SPOT = [(2, -2), (2, 2), (6, 2), (6, -2)]
STATE = "return JSON.parse(sessionStorage.getItem('sitjorbe-draw-1')).state"


def not_built():
    return None if os.access(COMMAND, os.X_OK) else "the command isn't built"


def points_of(loops):
    return "\n".join("".join(f"{x!r},{y!r}\n" for x, y in points) for points in loops)


def command_mesh(loops, size):
    """The mesh that the command paves: each quad's corners, by the loop that it came from."""
    said = subprocess.run([COMMAND, "pave", "-", "--size", str(size), "-o", "-", "--as", "json"], input=points_of(loops).encode(), capture_output=True, check=True)
    mesh = json.loads(said.stdout)
    patches = {}
    for quad in mesh["quads"]:
        patches.setdefault(mesh["origins"][quad[0]], []).append([tuple(mesh["nodes"][node]) for node in quad])
    return patches


class Server:
    """The command, serving."""

    def __init__(self, *words):
        self.process = subprocess.Popen([COMMAND, "draw", *words], stdout=subprocess.PIPE, stderr=subprocess.PIPE, text=True)
        self.url = self.process.stdout.readline().strip()
        self.port = int(re.fullmatch(r"http://127\.0\.0\.1:(\d+)/", self.url)[1])

    def close(self):
        self.process.terminate()
        self.process.communicate()

    def workers(self):
        """How many processes it began that haven't ended."""
        tasks = pathlib.Path(f"/proc/{self.process.pid}/task").iterdir()
        return sum(len((task / "children").read_text().split()) for task in tasks if (task / "children").exists())

    def post(self, path, body):
        request = urllib.request.Request(self.url.rstrip("/") + path, json.dumps(body).encode(), {"Content-Type": "application/json"})
        with urllib.request.urlopen(request) as answer:
            return json.load(answer)

    def status(self, text, body=b""):
        """The status of a request that is sent as it stands."""
        with socket.create_connection(("127.0.0.1", self.port), timeout=20) as link:
            link.sendall(text.replace("\n", "\r\n").replace("HOST", f"127.0.0.1:{self.port}").encode() + body)
            told = link.makefile("rb").readline().decode()
        return int(told.split()[1])


class PageCase(unittest.TestCase):
    """A page that nothing is drawn on, for each test; what a paving leaves open is closed where `closes` says so."""

    closes = False

    @classmethod
    def setUpClass(cls):
        if lacking := not_built() or browser.missing():
            raise unittest.SkipTest(f"the page to draw on isn't tried in a browser: {lacking}")
        cls.server = Server()
        cls.addClassCleanup(cls.server.close)
        cls.browser = browser.Browser()
        cls.addClassCleanup(cls.browser.close)

    def setUp(self):
        self.run_ = self.browser.run
        self.ends_exam()
        for kept in pathlib.Path(self.browser.folder.name).glob("*.*"):
            if kept.is_file():
                kept.unlink()
        self.browser.go(self.server.url)
        self.run_("sessionStorage.clear(); localStorage.setItem('sitjorbe-draw-1-close', String(arguments[0]))", self.closes)
        self.browser.reload()
        self.browser.complaints()
        self.browser.wait("return document.querySelectorAll('#example option').length > 0")
        for _ in range(2):
            self.browser.click("#closer")
        self.assertGreater(self.at(1, 0)[0] - self.at(0, 0)[0], 10, "a pixel is less than a tenth of a degree, so that whole degrees are hit")

    def tearDown(self):
        self.assertEqual(self.browser.complaints(), [])

    def ends_exam(self):
        standing = self.server.post("/exam/state", {})
        if "id" in standing:
            self.server.post("/exam/end", {"exam": standing["id"]})

    # ---- the page as it stands

    def at(self, x, y):
        """Where a place in degrees is in the window."""
        return tuple(self.run_("const m = document.getElementById('loops').getScreenCTM(); return [m.a * arguments[0] + m.e, m.d * arguments[1] + m.f]", x, y))

    def press_at(self, *places, kind="mouse"):
        for place in places:
            self.browser.pointer(self.at(*place), "down", "up", kind=kind)

    def mode(self, name):
        self.browser.click(f"#modes [value={name}]")

    def text(self, selector):
        return self.run_("return document.querySelector(arguments[0]).textContent", selector)

    def waits_for_words(self, selector, words):
        return self.browser.wait("const t = document.querySelector(arguments[0])?.textContent ?? ''; return t.includes(arguments[1]) && t", selector, words)

    def state(self):
        return self.run_(STATE)

    def loops(self):
        return [[tuple(point) for point in loop["points"]] for loop in self.state()["loops"]]

    def paths(self, selector):
        """The rings of a path as lists of points."""
        told = self.run_("return [...document.querySelectorAll(arguments[0])].map((path) => path.getAttribute('d')).join('')", selector)
        return [[tuple(map(float, point.split(","))) for point in ring.rstrip("Z").split("L")] for ring in told.split("M")[1:]]

    def patches(self):
        return {k: rings for k in range(6) if (rings := self.paths(f"#patches .patch-{k}"))}

    def draws_square_and_spot(self):
        self.press_at(*SQUARE, SQUARE[0])
        self.browser.wait(STATE + ".loops.length === 1")
        self.mode("blind")
        self.press_at(*SPOT)
        self.browser.press("Enter")
        self.browser.wait(STATE + ".loops.length === 2")
        self.waits_for_words("#verdict", "is covered" if self.closes else "is paved")
        self.browser.wait("return document.querySelector('#patches .patch-1')?.getAttribute('d').length > 0")

    def opens(self, name):
        self.run_("document.getElementById('example').value = arguments[0]", name)
        self.browser.click("#example-form button")
        self.waits_for_words("#verdict", "is paved")

    def saved(self, name):
        file = pathlib.Path(self.browser.folder.name, name)
        until = time.monotonic() + browser.PATIENCE_S
        while not file.exists() and time.monotonic() < until:
            time.sleep(0.05)
        return file
