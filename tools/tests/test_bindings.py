"""What crosses to a host: the reading of the Rattle source, and the header and declarations made from it."""

import ctypes
import importlib.util
import pathlib
import re
import tempfile
import unittest
from unittest import mock

from common import ROOT, command
import calls
import crates
import declarations
import entries
import names

bindings = command("bindings")

SOURCE = """
// What is answered,
// and how.
#[repr(C)]
pub struct Answer { pub refusal: u32, pub whole: bool, pub x: f64, }
#[repr(C)]
pub struct Inner { pub count: u32 }

// ---- entries

// Answers.
#[unsafe(no_mangle)]
pub extern "C" fn sitjorbe_first<'a>(points: &'a [f64], marks: &mut [u8], figure: &mut u32, size: f64, sweeps: u32) -> Answer
    ensures { result ≡ answer points.now }
{ Answer { refusal: 0, whole: false, x: size } }
// #[unsafe(no_mangle)] pub extern "C" fn sitjorbe_said() -> u32 { 2 }
#[unsafe(no_mangle)] pub extern "C" fn sqrt_f64(x: f64) -> f64 { x }
pub fn sitjorbe_inner(x: f64) -> f64 { x }
#[unsafe(no_mangle)] pub extern "C" fn sitjorbe_abi_7() -> u32 { 7 }
"""

# Edits after which the shape is another.
OTHER_SHAPES = [
    ("size: f64, sweeps: u32)", "sweeps: u32, size: f64)"),
    ("marks: &mut [u8], figure", "figure"),
    ("marks: &mut [u8], figure: &mut u32", "figure: &mut u32, marks: &mut [u8]"),
    ("&'a [f64]", "&'a [i64]"),
    ("&mut [u8]", "&[u8]"),
    ("&mut [u8]", "&mut u8"),
    ("&mut [u8]", "u8"),
    ("&mut u32", "&u32"),
    ("&mut u32", "&mut u16"),
    ("&mut u32", "u32"),
    ("-> Answer\n", "-> f64\n"),
    ("-> Answer\n", "-> Inner\n"),
    ("-> Answer\n", "\n"),
    ("sitjorbe_first", "sitjorbe_other"),
    ("pub refusal: u32, pub whole: bool,", "pub whole: bool, pub refusal: u32,"),
    ("pub refusal: u32,", "pub refusal: u64,"),
    ("pub refusal: u32,", "pub refusal: u32, pub more: u32,"),
    ("pub x: f64, }", "}"),
]

# Edits after which it is the same.
SAME_SHAPE = [("What is answered,", "Else"), ("<'a>", ""), ("pub count: u32", "pub other: u64"), ("sitjorbe_abi_7", "sitjorbe_abi_8"),
              ("{ Answer { refusal: 0, whole: false, x: size } }", "{ answer(size) }"), ("sitjorbe_inner(x: f64)", "sitjorbe_inner(x: u8)")]

WRONG = [
    ("&'a [f64]", "&'a [u128]", "sitjorbe_first: points: u128 isn't a type that crosses"),
    ("pub x: f64", "pub x: Point", "Answer: x: Point isn't a type that crosses"),
    ("&mut u32", "&mut Inner", "sitjorbe_first: figure: Inner isn't a type that crosses"),
    ("#[unsafe(no_mangle)]\npub extern", "pub extern", "sitjorbe_first isn't exported under its name"),
    ("#[unsafe(no_mangle)] pub extern \"C\" fn sqrt_f64", "#[unsafe(no_mangle)] extern \"C\" fn sqrt_f64", "sqrt_f64 isn't exported under its name"),
    ("pub struct Inner { pub count: u32 }", "pub struct Inner(u32);", "#[repr(C)] stands above something"),
    ("sitjorbe_abi_7", "sitjorbe_first", "sitjorbe_first stands 2 times in the source"),
    ("struct Inner", "struct Answer", "Answer stands 2 times in the source"),
]


class Read(unittest.TestCase):
    def edited(self, old, new):
        self.assertEqual(SOURCE.count(old), 1, f"{old} stands once")
        return entries.joined([SOURCE.replace(old, new)])

    def test_what_crosses(self):
        reading = entries.joined([SOURCE])
        first, shape = reading.functions
        self.assertEqual(str(first), "fn sitjorbe_first(points: const f64, points_len: usize, marks: mut u8, marks_len: usize, figure: mut u32, "
                                     "size: f64, sweeps: u32) -> Answer")
        self.assertEqual((first.words, shape.name, reading.number()), ("Answers.", "sitjorbe_abi_7", 7))
        self.assertEqual([str(struct) for struct in reading.structs], ["struct Answer { refusal: u32, whole: bool, x: f64 }"])
        self.assertEqual(reading.structs[0].words, "What is answered, and how.")
        self.assertEqual(reading.offsets(reading.structs[0]), [0, 4, 8, 16])

    def test_another_shape_has_another_digest(self):
        digest = entries.joined([SOURCE]).digest()
        for old, new in OTHER_SHAPES:
            self.assertNotEqual(self.edited(old, new).digest(), digest, f"{old} -> {new}")
        for old, new in SAME_SHAPE:
            self.assertEqual(self.edited(old, new).digest(), digest, f"{old} -> {new}")

    def test_what_can_not_cross(self):
        for old, new, words in WRONG:
            with self.assertRaises(entries.Wrong) as told:
                self.edited(old, new)
            self.assertIn(words, str(told.exception))

    def test_layouts_with_a_struct_inside(self):
        inner = entries.Struct("Inner", "", [entries.Typed("a", "u16"), entries.Typed("b", "f64")])
        outer = entries.Struct("Outer", "", [entries.Typed("c", "bool"), entries.Typed("inner", "Inner"), entries.Typed("d", "u8")])
        reading = entries.Reading([], [inner, outer])
        self.assertEqual((reading.offsets(inner), reading.offsets(outer)), ([0, 8, 16], [0, 8, 24, 32]))


class Numbers(unittest.TestCase):
    def test_they_rise_by_one(self):
        self.assertEqual(bindings.shapes("# all\n1 aa\n2 bb\n"), {1: "aa", 2: "bb"})
        for text in ("2 aa\n", "1 aa\n1 bb\n", "1 aa\n3 bb\n"):
            with self.assertRaises(entries.Wrong):
                bindings.shapes(text)

    def test_a_shape_that_has_changed_takes_a_new_one(self):
        reading = entries.joined([SOURCE])
        bindings.check_number(reading, {6: "aa", 7: reading.digest()})
        for kept, words in (({7: "aa"}, "the shape isn't that of number 7"), ({8: reading.digest()}, "the entry's number is 7")):
            with self.assertRaisesRegex(entries.Wrong, words):
                bindings.check_number(reading, kept)

    def test_only_the_number_is_raised(self):
        """From 2 to 3, which stands in `u32` too."""
        with tempfile.TemporaryDirectory() as folder:
            source, list_of_shapes = pathlib.Path(folder) / "lib.rt", pathlib.Path(folder) / "shapes.txt"
            source.write_text("const ABI: u32 = 2; fn sitjorbe_abi_2() -> u32 { ABI }")
            list_of_shapes.write_text("1 aa\n2 bb\n")
            with mock.patch.object(bindings, "SHAPE", {source: ["ABI: u32 = {};", "fn sitjorbe_abi_{}()"]}), \
                    mock.patch.object(bindings, "SHAPES", list_of_shapes):
                bindings.raise_number(entries.joined([SOURCE]), {1: "aa", 2: "bb"})
            self.assertEqual(source.read_text(), "const ABI: u32 = 3; fn sitjorbe_abi_3() -> u32 { ABI }")
            self.assertEqual(list(bindings.shapes(list_of_shapes.read_text())), [1, 2, 3])


class Repository(unittest.TestCase):
    def setUp(self):
        self.reading = entries.repository()

    def test_it_is_as_it_would_be_written(self):
        bindings.check_number(self.reading, bindings.shapes(bindings.SHAPES.read_text()))
        for path, write in bindings.WRITTEN.items():
            self.assertEqual(path.read_text(), write(self.reading), f"{path.relative_to(ROOT)}: run tools/bindings")

    def test_every_entry_is_found(self):
        # By a plain search beside the reading, so that none goes unread.
        linked = crates.static_libraries()
        searched = {True: [], False: []}
        for path in (ROOT / "crates").glob("*/src/**/*.rt"):
            searched[path.relative_to(ROOT).parts[1] in linked] += re.findall(r"^(?!//).*\bfn (sitjorbe_\w+)", path.read_text(), re.MULTILINE)
        self.assertEqual(sorted(searched[False]), sorted(function.name for function in self.reading.functions))
        self.assertEqual(sorted(name for names in entries.by_crate().values() for name in names), sorted(searched[True]))
        self.assertEqual(sorted(searched[True]), sorted(searched[False]))
        self.assertIn("sitjorbe_pave", searched[True])

    def test_exports_are_as_their_libraries_have_them(self):
        functions = self.reading.functions
        entries.check_exports(functions, functions[::-1])
        for exports, words in ((functions[1:], "not exported: fn sitjorbe_"), ([*functions[1:], functions[0]._replace(answer="u8")], "exported otherwise")):
            with self.assertRaisesRegex(entries.Wrong, words):
                entries.check_exports(functions, exports)

    def test_every_way_to_an_exam_asks_for_a_role(self):
        # Beside an entry that asks for none, the roles would be no more than a wish.
        to_results = [function for function in self.reading.functions if "thresholds" in [typed.name for typed in function.parameters]]
        self.assertEqual([(function.name, function.parameters[0].name) for function in to_results], [("sitjorbe_exam", "role"), ("sitjorbe_exam_read", "role")])
        # The readers' entry is lent the results for reading.
        lent = {typed.name: typed.pointer for typed in to_results[1].parameters}
        self.assertEqual([lent[name] for name in ("thresholds", "count", "sum", "reply")], ["const", "const", "const", "mut"])

    def test_every_name_has_words_and_no_words_are_left_over(self):
        used = {typed.name for function in self.reading.functions for typed in declarations.lent(function)}
        self.assertEqual(used, set(names.PARAMETERS))
        fields = {(struct.name, field.name) for struct in self.reading.structs for field in struct.fields}
        own = {f"{owner}.{name}" for owner, name in fields} & set(names.FIELDS)
        self.assertEqual({name for owner, name in fields if f"{owner}.{name}" not in own} | own, set(names.FIELDS))

    def test_words_of_ones_own_go_before_others(self):
        told = {"count": "of all", "Answer.count": "of one"}
        self.assertEqual([declarations.words_of(told, owner, "count") for owner in ("Answer", "Other")], ["of one", "of all"])
        for name in ("none", "class"):
            with self.assertRaises(entries.Wrong):
                declarations.words_of(told, "Answer", name)

    def test_every_entry_says_what_it_does(self):
        for function in self.reading.functions:
            self.assertTrue(len(function.words) > 20, f"{function.name} has no comment above it")

    def test_the_hosts_numbers_are_read(self):
        self.assertEqual([case[:2] for case in declarations.host_enum("End")], [("Still", 0), ("Passes", 1), ("Cap", 2), ("Full", 3)])
        limits = {name: number for name, number, _ in declarations.host_limits()}
        self.assertEqual((limits["OFF"], limits["NO_THRESHOLD"], limits["MOST_POINTS"]), (2 ** 32 - 1, 2 ** 16 - 1, 4_096))

    def test_nothing_is_defined_twice(self):
        defined = re.findall(r"^#define (\w+)|^    (SITJORBE_\w+) =", declarations.header(self.reading), re.MULTILINE)
        once = {name or case for name, case in defined} - {"SITJORBE_ASSERT", "SITJORBE_MUST_USE"}
        self.assertEqual(len(defined), len(once) + 4)


class Calls(unittest.TestCase):
    """What stands beside the entries in the header."""

    def setUp(self):
        self.reading = entries.repository()

    def test_each_parameter_is_handed_on_in_its_place(self):
        for function in filter(calls.grouped, self.reading.functions):
            _, arguments = calls.handed_on(self.reading, function)
            self.assertEqual(len(arguments), len(function.parameters), function.name)
            for argument, typed in zip(arguments, function.parameters):
                base = typed.name.removesuffix("_len")
                group, member = calls.BY_PARAMETER.get(base, (None, base))
                self.assertEqual(argument.lstrip("&"), f"{group.argument}->{member}{typed.name[len(base):]}" if group else typed.name)
                self.assertEqual(argument.startswith("&"), bool(group and typed.pointer and f"{base}_len" not in {other.name for other in function.parameters}))

    def test_a_member_is_what_the_parameter_is(self):
        every = calls.parameters(self.reading)
        for group in calls.GROUPS:
            for typed, _, is_list in calls.member_kinds(self.reading, group):
                self.assertEqual(is_list, bool(typed.pointer), f"{group.struct}.{typed.name}")
            for parameter, member in group.members.items():
                same = [other for other in group.members if (group.members[other] or other) == (member or parameter)]
                self.assertEqual({every[other].kind for other in same}, {every[parameter].kind}, f"{group.struct}.{parameter}")

    def test_no_entry_goes_without_a_call(self):
        text = declarations.header(self.reading)
        without = [function.name for function in self.reading.functions if f" {function.name}_with(" not in text]
        self.assertTrue(all(re.search("abi|small_quads|read_points", name) for name in without), without)

    def test_the_example_that_calls_every_entry_does(self):
        text = (ROOT / "examples/c/every_entry.c").read_text()
        calls_of = {function.name: text.count(f"{function.name}(") for function in self.reading.functions if not entries.SHAPE_ENTRY.fullmatch(function.name)}
        self.assertEqual(set(calls_of.values()), {1}, calls_of)


class Python(unittest.TestCase):
    """The entries as ctypes has them."""

    def setUp(self):
        self.reading = entries.repository()
        path = ROOT / "python/sitjorbe/_entries.py"
        spec = importlib.util.spec_from_file_location("_entries", path)
        self.declared = importlib.util.module_from_spec(spec)
        spec.loader.exec_module(self.declared)

    def test_answers_are_laid_out_as_the_library_has_them(self):
        for struct in self.reading.structs:
            kind = getattr(self.declared, struct.name)
            found = [getattr(kind, field.name).offset for field in struct.fields] + [ctypes.sizeof(kind)]
            self.assertEqual(found, self.reading.offsets(struct), struct.name)

    def test_entries_take_what_the_library_takes(self):
        self.assertEqual(list(self.declared.ENTRIES), [function.name for function in self.reading.functions])
        for function in self.reading.functions:
            answer, takes = self.declared.ENTRIES[function.name]
            self.assertEqual([name for name, _ in takes], [typed.name for typed in function.parameters])
            for (_, kind), typed in zip(takes, function.parameters):
                self.assertEqual(ctypes.sizeof(kind), 8 if typed.pointer else self.reading.layout(typed.kind)[0], typed)
            self.assertEqual(ctypes.sizeof(answer), self.reading.layout(function.answer)[0])


if __name__ == "__main__":
    unittest.main()
