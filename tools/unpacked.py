"""A package unpacked into an empty folder, and its command run there with nothing in PATH: no rt, no cargo, no Python, and no other program."""

import http.client
import os
import re
import subprocess
import tarfile
import tempfile
from pathlib import Path

# The calls, and what each must print or write.
CALLS = [
    (["--version"], r"sitjorbe \d", None),
    (["pave", "examples/24-2.csv", "--size", "3", "-o", "24-2.svg", "-o", "24-2.json"], r"quads", "24-2.svg"),
    (["quality", "24-2.json"], r"quads", None),
    (["check", *(f"examples/{name}.csv" for name in ("24-2", "30-2", "left-eye", "right-eye"))], r"sound", None),
    (["pave", "examples/24-2.csv", "--size", "3", "--eye", "right", "--thresholds", "examples/hill-of-vision/24-2.csv", "-o", "hill.svg"], r"quads", "hill.svg"),
    (["exam", "24-2.json", "--thresholds", "examples/hill-of-vision/24-2.csv", "-o", "report.html"], r"", "report.html"),
]


class Wrong(Exception):
    """What doesn't run."""


def call(folder, words, wanted, written):
    """Runs the command; a line that says so."""
    result = subprocess.run([folder / "bin/sitjorbe", *words], cwd=folder, capture_output=True, text=True, env=nothing(folder))
    if result.returncode != 0 or not re.search(wanted, result.stdout + result.stderr):
        raise Wrong(f"sitjorbe {' '.join(words)}: status {result.returncode}: {result.stdout}{result.stderr}")
    if written and not (folder / written).stat().st_size:
        raise Wrong(f"sitjorbe {' '.join(words)}: {written} is empty")
    return f"runs with nothing in PATH: sitjorbe {' '.join(words)}"


def nothing(folder):
    """An environment in which no program is found."""
    return {"PATH": str(folder / "docs"), "HOME": str(folder), "LANG": os.environ.get("LANG", "C")}


def known(folder):
    """The calls, but for those of commands that the command doesn't name in its help."""
    told = subprocess.run([folder / "bin/sitjorbe", "--help"], capture_output=True, text=True, env=nothing(folder)).stdout
    return [each for each in CALLS if each[0][0].startswith("-") or f"    sitjorbe {each[0][0]} " in told]


def draw(folder):
    """Serves the page, and reads it."""
    with subprocess.Popen([folder / "bin/sitjorbe", "draw"], cwd=folder, stdout=subprocess.PIPE, stderr=subprocess.STDOUT, text=True, env=nothing(folder)) as serving:
        try:
            line = serving.stdout.readline()
            address = re.search(r"127\.0\.0\.1:(\d+)", line)
            if not address:
                raise Wrong(f"sitjorbe draw says no address: {line}")
            asked = http.client.HTTPConnection("127.0.0.1", int(address[1]), timeout=30)
            asked.request("GET", "/")
            page = asked.getresponse()
            if page.status != 200 or b"<html" not in page.read():
                raise Wrong(f"sitjorbe draw: status {page.status}")
        finally:
            serving.terminate()
    return "runs with nothing in PATH: sitjorbe draw"


def check(packed):
    """A line for each call that runs; Wrong at the first that doesn't."""
    with tempfile.TemporaryDirectory() as made:
        with tarfile.open(packed) as tar:
            tar.extractall(made, filter="fully_trusted") if hasattr(tarfile, "fully_trusted_filter") else tar.extractall(made)
        folder, = Path(made).iterdir()
        for words, wanted, written in known(folder):
            yield call(folder, words, wanted, written)
        yield draw(folder)
