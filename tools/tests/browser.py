"""A headless browser for tests, asked over WebDriver's HTTP: Chromium and its driver, as Debian packages them."""

import base64
import json
import os
import re
import shutil
import subprocess
import tempfile
import time
import urllib.error
import urllib.request

CHROMIUM = shutil.which("chromium") or shutil.which("chromium-browser") or shutil.which("google-chrome")
DRIVER = shutil.which("chromedriver")
ELEMENT = "element-6066-11e4-a52e-4f735466cecf"
PATIENCE_S = 20

KEYS = {"Enter": "\ue007", "Tab": "\ue004", "Shift": "\ue008", "Control": "\ue009", "Escape": "\ue00c", "Delete": "\ue017",
        "Left": "\ue012", "Up": "\ue013", "Right": "\ue014", "Down": "\ue015", "Space": " "}


def missing():
    """What isn't here of what a browser test needs, or nothing."""
    return None if CHROMIUM and DRIVER else "there is no " + ("chromedriver" if CHROMIUM else "chromium")


class Browser:
    """One browser with one window, and a folder of its own for its profile and what it saves."""

    def __init__(self, width=1280, height=900):
        self.folder = tempfile.TemporaryDirectory(prefix="sitjorbe-browser-", ignore_cleanup_errors=True)
        self.driver = subprocess.Popen([DRIVER, "--port=0"], stdout=subprocess.PIPE, stderr=subprocess.DEVNULL, text=True)
        self.session = None
        try:
            self.port = self.started_port()
            answer = self.call("POST", "/session", {"capabilities": {"alwaysMatch": self.wishes(width, height)}})
            self.session = answer["sessionId"]
        except BaseException:
            self.close()
            raise

    def started_port(self):
        for line in self.driver.stdout:
            if found := re.search(r"started successfully on port (\d+)", line):
                return int(found[1])
        raise RuntimeError("chromedriver didn't start")

    def wishes(self, width, height):
        words = ["--headless=new", "--disable-gpu", "--disable-dev-shm-usage", "--disable-background-networking", "--no-first-run", "--hide-scrollbars",
                 "--force-device-scale-factor=1", f"--window-size={width},{height}", f"--user-data-dir={self.folder.name}/profile"]
        if os.geteuid() == 0:
            words.append("--no-sandbox")
        saving = {"download.default_directory": self.folder.name, "download.prompt_for_download": False}
        options = {"binary": CHROMIUM, "args": words, "prefs": saving}
        return {"browserName": "chrome", "goog:chromeOptions": options, "goog:loggingPrefs": {"browser": "ALL"}}

    def close(self):
        if self.session:
            self.ask("DELETE", "")
        self.driver.terminate()
        self.driver.wait()
        self.driver.stdout.close()
        self.folder.cleanup()

    # ---- WebDriver

    def call(self, method, path, body=None):
        data = None if body is None else json.dumps(body).encode()
        request = urllib.request.Request(f"http://127.0.0.1:{self.port}{path}", data, {"Content-Type": "application/json"}, method=method)
        try:
            with urllib.request.urlopen(request, timeout=120) as answer:
                return json.load(answer)["value"]
        except urllib.error.HTTPError as error:
            raise RuntimeError(json.load(error)["value"]["message"]) from None

    def ask(self, method, path, body=None):
        return self.call(method, f"/session/{self.session}{path}", body)

    def go(self, url):
        self.ask("POST", "/url", {"url": url})

    def reload(self):
        self.ask("POST", "/refresh", {})

    def run(self, script, *words):
        """What a script returns; it has its words as `arguments`."""
        return self.ask("POST", "/execute/sync", {"script": script, "args": list(words)})

    def wait(self, script, *words):
        """Runs a script until it returns something that is true, and answers that."""
        until = time.monotonic() + PATIENCE_S
        while time.monotonic() < until:
            if found := self.run(script, *words):
                return found
            time.sleep(0.03)
        raise AssertionError(f"this didn't come about: {script} {words}")

    def find(self, selector):
        return self.ask("POST", "/element", {"using": "css selector", "value": selector})[ELEMENT]

    def click(self, selector):
        self.ask("POST", f"/element/{self.find(selector)}/click", {})

    def type(self, selector, words):
        self.ask("POST", f"/element/{self.find(selector)}/value", {"text": words})

    def act(self, *sources):
        self.ask("POST", "/actions", {"actions": list(sources)})

    def pointer(self, *steps, kind="mouse"):
        """Steps: places (x, y) in the window, "down" and "up"."""
        down = [{"type": "pointerMove", "duration": 0, "x": round(step[0]), "y": round(step[1])} if isinstance(step, tuple)
                else {"type": {"down": "pointerDown", "up": "pointerUp"}[step], "button": 0} for step in steps]
        self.act({"type": "pointer", "id": kind, "parameters": {"pointerType": kind}, "actions": down})

    def fingers(self, *hands, kind="touch"):
        """Fingers at once, each a list of as many steps: places, "down", "up", or None for a finger that stays."""
        def action(step):
            if step is None:
                return {"type": "pause", "duration": 0}
            return {"type": "pointerMove", "duration": 0, "x": round(step[0]), "y": round(step[1])} if isinstance(step, tuple) \
                else {"type": {"down": "pointerDown", "up": "pointerUp"}[step], "button": 0}
        self.act(*({"type": "pointer", "id": f"{kind} {k}", "parameters": {"pointerType": kind}, "actions": [action(step) for step in hand]} for k, hand in enumerate(hands)))

    def press(self, *names):
        """Keys one after another; "Control+Shift+z" are held together."""
        actions = []
        for name in names:
            keys = [KEYS.get(key, key) for key in name.split("+")] if len(name) > 1 else [name]
            actions += [{"type": "keyDown", "value": key} for key in keys] + [{"type": "keyUp", "value": key} for key in reversed(keys)]
        self.act({"type": "key", "id": "keys", "actions": actions})

    def chrome(self, command, **parameters):
        """A command of Chromium's own protocol."""
        return self.ask("POST", "/goog/cdp/execute", {"cmd": command, "params": parameters})

    def complaints(self):
        """What the browser logged as errors: scripts that failed, what the page's policy forbids, answers that weren't 200."""
        return [entry["message"] for entry in self.ask("POST", "/se/log", {"type": "browser"}) if entry["level"] == "SEVERE"]

    def screenshot(self):
        return base64.b64decode(self.ask("GET", "/screenshot"))
