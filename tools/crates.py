"""The repository's crates, from crates.txt: what each stands on."""

import pathlib

ROOT = pathlib.Path(__file__).resolve().parent.parent


def dependencies(text=None):
    """Crate to the crates that it stands on, from the text of crates.txt."""
    text = (ROOT / "crates.txt").read_text() if text is None else text
    lines = (line.split("#")[0] for line in text.splitlines())
    pairs = (line.split(":") for line in lines if line.strip())
    return {name.split()[0]: on.split() for name, on in pairs}


def static_libraries(text=None):
    """The crates that are static libraries: what C links."""
    text = (ROOT / "crates.txt").read_text() if text is None else text
    heads = (line.split("#")[0].partition(":")[0].split() for line in text.splitlines())
    return [head[0] for head in heads if "staticlib" in head[1:]]


def reached(crate, on):
    """The crate and all of the repository that it stands on."""
    found, left = set(), [crate]
    while left:
        name = left.pop()
        if name in on and name not in found:
            found.add(name)
            left += on[name]
    return sorted(found)


def sources(crate):
    """The files of the crate's code."""
    return sorted((ROOT / "crates" / crate / "src").glob("**/*.rt"))
