"""The files of specs/ and proofs/ read: what each declares, which of it is a law, and what a contract or a theorem rests on."""

import pathlib
import re

from crates import ROOT

CRATES = ROOT / "crates"
THEOREMS = ROOT / "tools/theorems.txt"

USE = re.compile(r"^(?:unfoldable )?(?:pub )?use (?P<module>\S+?)(?:\.\{(?P<names>[^}]*)\}|\s+as\s+(?P<alias>\S+))?\s*$")
OURS = re.compile(r"^Rattle\.(?!std\.)(?P<crate>[^.]+)\.(?P<part>specs|proofs)\.(?P<path>.+)$")
GHOST_USE = re.compile(r"ghost use (?P<module>Rattle\.[^;{]+?)\.\{(?P<names>[^}]*)\};")
TOKEN = re.compile(r"[^\s(){}\[\];,]+")
HEAD = re.compile(r"^(?P<words>(?:(?:abbrev|unfoldable|pub|record|data|ruleset) )*)(?P<name>[^\s:(){}=]+)(?P<rest>\s.*)?$")
WORDS = {"module", "--", "where", "infixl", "infixr", "infix", "use", "unfolding", "unfoldable", "pub", "record", "data", "abbrev", "ruleset"}
DEFINES = re.compile(r"\b(abbrev|unfoldable|record|data|ruleset)\b")


class Source:
    """A file's items, each with its lines (of a law those of its statement), which of them are laws, and what its `use` lines bring in.

    The words in front of a name tell a definition: `abbrev`, `unfoldable`, `record`, `data`, `ruleset`. Anything else that a file declares is a law."""

    def __init__(self, path):
        self.items, self.laws, self.uses, self.aliases = {}, set(), {}, {}
        block, section = [], []
        for line in self.sections(path.read_text().split("\n") + [""]):
            if isinstance(line, list):
                section = line
            elif used := USE.match(line):
                self.bring(used)
            elif line.strip():
                block.append(line)
            else:
                self.add(block, section)
                block = []

    @staticmethod
    def sections(lines):
        """The lines, those of a `module _ (..) where` moved to the left; where such a part begins and ends, its head as a list."""
        head, inside = None, False
        for line in lines:
            if re.match(r"(pub )?module ", line):
                head = []
            elif inside and line.strip() and not line.startswith(" "):
                inside = False
                yield []
            if head is None:
                yield line[2:] if inside and line.startswith("  ") else line
                continue
            head.append(line)
            if re.search(r"\bwhere\s*$", line):
                yield ""
                yield head
                head, inside = None, True

    def bring(self, used):
        if used["alias"]:
            self.aliases[used["alias"]] = used["module"]
        for name in (used["names"] or "").split(","):
            old, _, new = name.strip().partition(" as ")
            if old:
                self.uses[(new or old).strip()] = (used["module"], old.strip())

    def add(self, block, section):
        """A block between blank lines, with the head of the part that it stands in."""
        code = [line for line in block if not line.startswith("--")]
        heads = [(head["name"], head["words"]) for k, line in enumerate(code) if (head := declares(line, code[k + 1 :]))]
        if not heads:
            return
        defines = any(DEFINES.search(words) for _, words in heads)
        lines = section + (block if defines else statement(block, heads[0][0]))
        for name, _ in heads:
            self.items.setdefault(name, lines)
            if not defines:
                self.laws.add(name)
        if re.match(r"(pub )?data ", code[0]):
            for line in code:
                if constructor := re.match(r"  (?:pub )?(\S+) : ", line):
                    self.items.setdefault(constructor[1], lines)


def declares(line, after):
    """The head of a declaration, or None: a line at the left with a name and a type, which may stand on the next line."""
    head = None if line.startswith(" ") else HEAD.match(line)
    if not head or head["name"] in WORDS:
        return None
    rest = head["rest"] or ""
    typed = re.search(r"\s:(\s|$)", " " + rest) and not re.search(r"(^|\s)=(\s|$)", rest.split(" : ")[0])
    below = not rest.strip() and after and re.match(r"\s+:", after[0])
    return head if re.search(r"record|data|ruleset", head["words"]) or typed or below else None


def statement(block, name):
    """Of a law the lines before its proof."""
    proof = re.compile(rf"^(unfolding\b|{re.escape(name)}(\s(?!:)|$))")
    told, begun = [], False
    for line in block:
        if begun and proof.match(line):
            break
        begun = begun or bool(re.match(rf"^(pub )?{re.escape(name)}(\s|$)", line))
        told.append(line)
    return told


class Library:
    """All files, each read once."""

    def __init__(self):
        self.read = {}

    def source(self, crate, file):
        if (crate, file) not in self.read:
            path = CRATES / crate / f"{file}.antt"
            self.read[crate, file] = Source(path) if path.is_file() else None
        return self.read[crate, file]

    def reached(self, starts):
        """Every item that these rest on, directly or through another, as {(crate, file, name)}; a struct of src/ is only named."""
        found, left = set(), list(starts)
        while left:
            crate, file, name = key = left.pop()
            source = None if key in found or file == "src" else self.source(crate, file)
            if source is None:
                found.add(key)
            elif name in source.items:
                found.add(key)
                left += cited(source, crate, file, source.items[name])
            elif name in source.uses and OURS.match(source.uses[name][0]):
                left.append(place(*source.uses[name]))
        return found

    def contracts(self):
        """What the contracts of src/ name."""
        for path in sorted(CRATES.glob("*/src/**/*.rt")):
            for used in GHOST_USE.finditer(path.read_text()):
                if OURS.match(used["module"]):
                    yield from (place(used["module"], name.split(" as ")[0].strip()) for name in used["names"].split(","))

    def theorems(self):
        """The theorems of tools/theorems.txt."""
        for line in THEOREMS.read_text().splitlines():
            words = line.split("#")[0].split()
            for name in words[1:]:
                crate, file = words[0].split("/")
                parts = [part for part in ("proofs", "specs") if (source := self.source(crate, f"{part}/{file}")) and name in source.items]
                if not parts:
                    raise SystemExit(f"tools/theorems.txt: {words[0]} has no {name}")
                yield crate, f"{parts[0]}/{file}", name


def cited(source, crate, file, lines):
    """The items of ours that lines of a file cite."""
    for line in lines:
        for token in TOKEN.findall(line.split("--")[0]):
            first, _, rest = token.partition(".")
            if first in source.aliases and rest and OURS.match(source.aliases[first]):
                yield place(source.aliases[first], rest)
            for name in (token, f"◌{token}◌", first):
                if name in source.items:
                    yield crate, file, name
                elif name in source.uses and OURS.match(source.uses[name][0]):
                    yield place(*source.uses[name])


def place(module, name):
    """Where a name that a module of ours brings in is declared: crate, file of specs/ or proofs/ or src, name."""
    ours = OURS.match(module)
    parts = ours["path"].split(".")
    return (ours["crate"], "src", parts[1]) if parts[0] == "declared" else (ours["crate"], f"{ours['part']}/{parts[0]}", name)


def spec_files(crate):
    """The files of the crate's specs/, in the order of its Lib.antt."""
    lib = CRATES / crate / "specs/Lib.antt"
    return re.findall(r"(?m)^pub mod (\w+)$", lib.read_text()) if lib.exists() else []
