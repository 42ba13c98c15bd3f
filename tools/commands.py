"""What the commands have in common: reading, writing, and what they say and answer where something is wrong."""

import argparse
import contextlib
import pathlib
import re
import sys

from crates import ROOT
from outlines import Unusable
from refusals import Refused

REFUSED, CANT = 1, 2


def version():
    """The repository's version, which stands in the Rust crate's manifest."""
    return re.search(r'^version = "([^"]+)"$', (ROOT / "host/Cargo.toml").read_text(), re.MULTILINE)[1]


class Version(argparse.Action):
    def __call__(self, made, *_):
        print(f"sitjorbe {version()}")
        made.exit()


def parser(doc):
    """The parser of a command whose help is its module's first line, then the options, then the rest."""
    about, rest = doc.split("\n", 1)
    made = argparse.ArgumentParser(description=about, epilog=rest, formatter_class=argparse.RawDescriptionHelpFormatter)
    made.add_argument("--version", action=Version, nargs=0, help="say the repository's version")
    return made


def named(path):
    return "standard input" if path == "-" else path


@contextlib.contextmanager
def reading(path):
    """Says of which file something is that can't be read."""
    try:
        yield
    except Unusable as error:
        raise Unusable("\n".join(f"{named(path)}: {line}" for line in str(error).split("\n"))) from None


def read_bytes(path):
    return sys.stdin.buffer.read() if path == "-" else pathlib.Path(path).read_bytes()


def read_text(path):
    """The text of a file, with a line feed after each line whatever wrote it."""
    try:
        text = read_bytes(path).decode("utf-8-sig")
    except UnicodeDecodeError:
        raise Unusable("this isn't text") from None
    return text.replace("\r\n", "\n").replace("\r", "\n")


def write(data, path):
    """Writes bytes to a file, or to standard output where none is named."""
    if path:
        pathlib.Path(path).write_bytes(data)
    else:
        sys.stdout.buffer.write(data)


def say(command, message):
    for line in str(message).split("\n"):
        print(f"{command}: {line}", file=sys.stderr)


def run(command, work):
    """The exit status of a command: 0, 1 if something is refused, 2 if something can't be read or written."""
    try:
        return work() or 0
    except Refused as refusal:
        say(command, refusal)
        return REFUSED
    except Unusable as error:
        say(command, error)
    except OSError as error:
        say(command, f"{error.filename}: {error.strerror}" if error.filename else error.strerror)
    return CANT
