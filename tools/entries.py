"""What crosses to a host: the entries and the #[repr(C)] structs of the Rattle source, with the comments that stand above them.

An entry is a function whose source says #[unsafe(no_mangle)] pub extern "C" fn sitjorbe_NAME. It stands twice: in the library that it comes
from, and in the static library that a host links, which calls it. Functions exported under other names, as those of `numbers` that a
benchmark calls, aren't entries. The archive, the C header and the Rust declarations are all made from this one reading.
"""

import collections
import hashlib
import re
from typing import NamedTuple

import crates

# The types that cross, and their sizes in bytes, which are their alignments too: x86-64.
SIZES = {"bool": 1, "u8": 1, "u16": 2, "u32": 4, "u64": 8, "usize": 8, "i8": 1, "i16": 2, "i32": 4, "i64": 8, "f64": 8}

FUNCTION = re.compile(r'(?P<exported>#\[unsafe\(no_mangle\)\]\s*(?:#\[tactic\([^\]]*\)\]\s*)?pub\s+)?\bextern\s+"C"\s+fn\s+(?P<name>\w+)\s*(?:<[^>]*>)?\s*'
                      r'\((?P<parameters>[^)]*)\)(?:\s*->\s*(?P<answer>[^\s{;]+))?')
STRUCT = re.compile(r"#\[repr\(C\)\](?:\s*#\[derive\([^)]*\)\])?(?:\s*pub\s+struct\s+(?P<name>\w+)\s*\{(?P<fields>[^}]*)\})?")
TYPED = re.compile(r"(?:pub\s+)?(?P<name>\w+)\s*:\s*(?P<kind>.+)", re.DOTALL)
REFERENCE = re.compile(r"&\s*(?:'\w+\s+)?(?P<mut>mut\s+)?(?P<slice>\[)?\s*(?P<kind>\w+)\s*(?(slice)\])")
SHAPE_ENTRY = re.compile(r"sitjorbe_abi_(\d+)")


class Wrong(Exception):
    """What is wrong with the source, or can't cross."""


class Typed(NamedTuple):
    """A parameter as it crosses, or a field."""

    name: str
    kind: str  # of SIZES, or a struct's name
    pointer: str = ""  # "const" or "mut" where it is a pointer

    def __str__(self):
        return f"{self.name}: {self.pointer} {self.kind}" if self.pointer else f"{self.name}: {self.kind}"


class Function(NamedTuple):
    name: str
    words: str  # the comment above it
    parameters: list
    answer: str

    def __str__(self):
        return f"fn {self.name}({', '.join(map(str, self.parameters))}) -> {self.answer}"


class Struct(NamedTuple):
    name: str
    words: str
    fields: list

    def __str__(self):
        return f"struct {self.name} {{ {', '.join(map(str, self.fields))} }}"


# ---- one file


def comment_above(text, place):
    """The comment whose last line stands just above the line of a place."""
    lines = text[:place].split("\n")[:-1]
    told = []
    while lines and lines[-1].lstrip().startswith("//"):
        told.append(lines.pop().strip().lstrip("/").strip())
    return " ".join(reversed(told))


def listed(text):
    """Names and types between commas, as they are written."""
    parts = [part.strip() for part in text.split(",") if part.strip()]
    found = [TYPED.fullmatch(part) for part in parts]
    if not all(found):
        raise Wrong(f"a name and a type are wanted: {parts[found.index(None)]}")
    return [(each["name"], " ".join(each["kind"].split())) for each in found]


def crossing(name, kind):
    """A parameter as it crosses: a slice is two, pointer and length, and a reference to a number its pointer."""
    reference = REFERENCE.fullmatch(kind)
    if not reference:
        return [Typed(name, kind)]
    pointer = Typed(name, reference["kind"], "mut" if reference["mut"] else "const")
    return [pointer, Typed(f"{name}_len", "usize")] if reference["slice"] else [pointer]


def read(text):
    """The exported functions and the structs laid out as C does, in the order of a source."""
    bare = re.sub(r"//[^\n]*", lambda comment: " " * len(comment[0]), text)
    functions, structs = [], []
    for found in FUNCTION.finditer(bare):
        if not found["exported"]:
            raise Wrong(f"{found['name']} isn't exported under its name")
        parameters = [typed for pair in listed(found["parameters"]) for typed in crossing(*pair)]
        functions.append(Function(found["name"], comment_above(text, found.start()), parameters, found["answer"] or ""))
    for found in STRUCT.finditer(bare):
        if not found["name"]:
            raise Wrong("#[repr(C)] stands above something that isn't a public struct with named fields")
        fields = [Typed(*pair) for pair in listed(found["fields"])]
        structs.append(Struct(found["name"], comment_above(text, found.start()), fields))
    return functions, structs


# ---- all crates


class Reading(NamedTuple):
    functions: list  # the entries
    structs: list  # those that cross with them

    def struct(self, name):
        return next((struct for struct in self.structs if struct.name == name), None)

    def layout(self, kind):
        """Size and alignment of a type."""
        if struct := self.struct(kind):
            return self.offsets(struct)[-1], max(self.layout(field.kind)[1] for field in struct.fields)
        return SIZES[kind], SIZES[kind]

    def offsets(self, struct):
        """Where each field stands, as C lays a struct out; last, the struct's size."""
        at, most, found = 0, 1, []
        for size, alignment in (self.layout(field.kind) for field in struct.fields):
            at = -(-at // alignment) * alignment
            found.append(at)
            at, most = at + size, max(most, alignment)
        return [*found, -(-at // most) * most]

    def digest(self):
        """Of the shape: of all that is declared but the number of the shape itself."""
        lines = [str(each) for each in self.functions + self.structs if not SHAPE_ENTRY.fullmatch(each.name)]
        return hashlib.sha256("\n".join(sorted(lines)).encode()).hexdigest()[:32]

    def number(self):
        """The number of the shape, from the name of the entry that has it."""
        found = [int(match[1]) for match in (SHAPE_ENTRY.fullmatch(each.name) for each in self.functions) if match]
        if len(found) != 1:
            raise Wrong(f"{len(found)} entries have the number of the shape, and one is wanted")
        return found[0]


def once(names):
    times = collections.Counter(names)
    twice = [f"{name} stands {times[name]} times in the source" for name in sorted(times) if times[name] > 1]
    if twice:
        raise Wrong("\n".join(twice))


def crossing_structs(functions, structs):
    """Of the structs those that a function takes or answers, or that stand in such a one; Wrong for a type that can't cross."""
    by_name, found, left = {struct.name: struct for struct in structs}, set(), []
    for function in functions:
        left += [(function.name, typed) for typed in function.parameters]
        left += [(function.name, Typed("answer", function.answer))] if function.answer else []
    while left:
        where, typed = left.pop()
        if typed.kind in by_name and not typed.pointer:
            if typed.kind not in found:
                found.add(typed.kind)
                left += [(typed.kind, field) for field in by_name[typed.kind].fields]
        elif typed.kind not in SIZES:
            raise Wrong(f"{where}: {typed.name}: {typed.kind} isn't a type that crosses")
    return [struct for struct in structs if struct.name in found]


def all_of(sources):
    """The entries of several sources, and the structs laid out as C does. No name stands twice."""
    functions, structs = [], []
    for source in sources:
        more = read(source)
        functions += [function for function in more[0] if function.name.startswith("sitjorbe_")]
        structs += more[1]
    once([function.name for function in functions] + [struct.name for struct in structs])
    return functions, structs


def joined(sources):
    """The reading of several sources together."""
    functions, structs = all_of(sources)
    return Reading(functions, crossing_structs(functions, structs))


def texts(names):
    return [path.read_text() for crate in names for path in crates.sources(crate)]


def check_exports(functions, exports):
    """Wrong where a static library doesn't export just the entries, each as the library has it that it comes from."""
    wanted, found = set(map(str, functions)), set(map(str, exports))
    wrong = [f"exported otherwise than its library has it: {name}" for name in sorted(found - wanted)]
    wrong += [f"not exported: {name}" for name in sorted(wanted - found)]
    if wrong:
        raise Wrong("\n".join(wrong))


def by_crate():
    """Each static library to the names of its entries, where it has some."""
    found = {crate: [function.name for function in all_of(texts([crate]))[0]] for crate in crates.static_libraries()}
    once([name for names in found.values() for name in names])
    return {crate: names for crate, names in found.items() if names}


def repository():
    """The reading of all libraries, in the order of crates.txt; the static ones export just these entries."""
    linked = crates.static_libraries()
    reading = joined(texts(crate for crate in crates.dependencies() if crate not in linked))
    check_exports(reading.functions, all_of(texts(linked))[0])
    return reading
