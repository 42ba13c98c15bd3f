"""Why the check refused an edit that it must refuse: a fact that no longer holds, or something that shows nothing.

A must-fail edit is to show that a contract or a theorem rules a wrong program or definition out. An edit that is refused for a name that can't be
found, a form that isn't covered or a text that can't be read would be refused whatever the contract says. `rt ci` says the first error of each
edit in a line, which the gate keeps in target/log/ci; that error decides.
"""

import pathlib
import re

ROOT = pathlib.Path(__file__).resolve().parent.parent

# As the check words it: `FILE:LINE:COLUMN: error: ..`, with further lines indented.
ERROR = re.compile(r"^\S+:\d+:\d+: error(?:\[[\w-]+\])?: (.*(?:\n  .*)*)", re.MULTILINE)
# A function without a proof file has its needs named instead.
NEED = re.compile(r"^note: \S+:\d+:\d+: ((?:it is not proved that |`search` found no proof \().*)", re.MULTILINE)
# Neither: the function has no proof, and the line says why.
NO_PROOF = re.compile(r"^fn .*: (?:no proof|not proved).*", re.MULTILINE)

FACTS = [
    r"it is not proved that ",
    r"^`search` found no proof \(`invariant_of-",
    r"`search`: no proof of ",
    r"`omega`: (?:the goal|the part|a listed rule) ",
    r"`cc`: the equations do not join ",
    r"`rw`: no occurrence of the path's ",
    r"`rw`: no part of the goal ",
    r"`grind` found no proof",
    r"list the missing equation with its arguments, or rewrite by ",
    r"computed as a goal is, one side reads ",
    r"`simp`: no equation of the list ",
    r"`(?:rw|simp)` has no last argument, so what it leaves must be a path whose two ends are equal",
    r"the two types (?:are|differ|first differ)\b",
    r"give a proof of that as the last argument, `rw L t`",
    r"expected type `",
    r"` ≟ `",
]

# What shows nothing: a name or a field that can't be found, a form that isn't covered, a text that can't be read, a value of another type than is
# wanted, a need of the code that the proof has no answer to.
NOTHING = [
    r"is not in scope",
    r"cannot find ",
    r"that can be named from here",
    r"has no field ",
    r"does not cover ",
    r"is still open",
    r"expected a type",
    r"unexpected ",
    r"expected type `(?:List )?\w+`,? but ",
    r"but this has type `tie\.Need-",
    r"the log has no error",
]


def first_error(log):
    """What the check said first of all that is wrong, in one line."""
    found = ERROR.search(log) or NEED.search(log)
    if found:
        return re.sub(r"\s+", " ", found[1])
    found = NO_PROOF.search(log)
    return found[0] if found else "the log has no error"


def shows_nothing(error):
    """Whether this is known to say nothing of a contract or a theorem."""
    return any(re.search(words, error) for words in NOTHING)


def is_fact(error):
    """Whether this is known to say that a fact doesn't hold."""
    return any(re.search(words, error) for words in FACTS) and not shows_nothing(error)


LOG = ROOT / "target/log/ci"
# As `rt ci` says it of an edit that was run.
RUN = re.compile(r"^(?:rt: )?must-fail (\w+)/(.+)\.edit: refused, as it must be(?: \([^)]*\))?(?:: (.*))?$", re.MULTILINE)


def names(root=ROOT):
    """Every edit in the repository."""
    return sorted(f"{path.parts[-3]}/{path.stem}" for path in root.glob("crates/*/must-fail/*.edit"))


def refused(log):
    """Of every edit that a run of `rt ci` refused, what it said."""
    return {f"{crate}/{edit}": said for crate, edit, said in RUN.findall(log)}
