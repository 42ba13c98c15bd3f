"""What the tests have in common: where things are, and how the commands and the oracle are asked."""

import importlib.machinery
import importlib.util
import pathlib
import subprocess
import sys

TOOLS = pathlib.Path(__file__).resolve().parent.parent
ROOT = TOOLS.parent
ORACLE = ROOT / "oracle/target/oracle"
sys.path.insert(0, str(TOOLS))


def run(command, *words, data=b""):
    """Status, standard output as bytes, standard error as text."""
    result = subprocess.run([command, *map(str, words)], input=data, capture_output=True)
    return result.returncode, result.stdout, result.stderr.decode()


def oracle_there():
    """Whether the oracle could be built. A build that fails is an error."""
    status = subprocess.run([ROOT / "oracle/build"], stdout=subprocess.DEVNULL).returncode
    if status not in (0, 3):
        raise RuntimeError("the oracle can't be built")
    return status == 0


def ask(*words, data=""):
    """What the oracle's command prints."""
    return subprocess.run([ORACLE, *words], input=data, text=True, stdout=subprocess.PIPE, check=True).stdout


SQUARE = "0,0\n2,0\n2,2\n0,2\n"

# The listing of it, which the program is held to whenever it is checked.
SQUARE_LISTING = (ROOT / "crates/pave/stdout").read_text()

LEAST = 5e-324

def command(name):
    """A command of tools/ as a module."""
    loader = importlib.machinery.SourceFileLoader(name, str(TOOLS / name))
    module = importlib.util.module_from_spec(importlib.util.spec_from_loader(name, loader))
    loader.exec_module(module)
    return module


def slit(e, f):
    """A square with a slit whose mouth is e wide on either side of 0 at the height f, as points."""
    points = [(-1, -2), (1, -2), (1, 0), (-e, f), (0, -1), (e, f), (-1, 0)]
    return "".join(f"{x!r},{y!r}\n" for x, y in points)
