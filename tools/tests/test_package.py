"""The package, unpacked outside the repository: its pages followed to the letter, what its crate asks for, and what doesn't link."""

import hashlib
import pathlib
import platform
import re
import shutil
import subprocess
import sys
import tempfile
import unittest

from common import ROOT, TOOLS, command
import entries
import unpacked

ARCHIVE = ROOT / "target/staticlib/libsitjorbe.a"
PAGE = (ROOT / "docs/INTEGRATION.md").read_text()
WARNINGS = ["-Wall", "-Wextra", "-Wpedantic", "-Werror"]

# The page's commands: what each block needs besides a shell, and its lines.
BLOCKS = [(needs.split(), lines) for needs, lines in re.findall(r"^```sh([^\n]*)\n(.*?)^```$", PAGE, re.MULTILINE | re.DOTALL)]


def missing(needs):
    """Which of the commands that are needed aren't here."""
    return [name for name in needs if not shutil.which(name)]


def needing(*needs):
    return unittest.skipIf(missing(needs), f"there is no {' and no '.join(missing(needs))} here")


# This Python, and the system's where that has numpy, which this may lack.
PYTHONS = [sys.executable, *(other for other in ("/usr/bin/python3",) if shutil.which(other) and subprocess.run([other, "-c", "import numpy"], capture_output=True).returncode == 0)]

# Paves a square in C++ in few places at first, and steps where these run out.
GROW = r"""
#include <cstdio>
#include "sitjorbe.hpp"
int main() {
    const sitjorbe::outline square({{0, 0}, {40, 0}, {40, 40}, {0, 40}});
    auto paved = sitjorbe::paver(1.0).pave(square), stepped = sitjorbe::paver(1.0, 400, 0).pave(square);
    if (!paved || !stepped)
        return 1;
    for (bool placed = true; placed;) {
        placed = false;
        std::vector<std::array<std::uint32_t, 2>> front;
        for (std::uint32_t a = 0; a < stepped->node_count(); a++)
            if (stepped->next()[a] != SITJORBE_OFF)
                front.push_back({a, stepped->next()[a]});
        for (const auto &[a, b] : front)
            if (auto outcome = stepped->step(a, b); outcome && *outcome == SITJORBE_OUTCOME_PLACED)
                placed = true;
    }
    if (paved->quad_count() != stepped->quad_count() || paved->node_count() != stepped->node_count())
        return 2;
    for (std::size_t k = 0; k < paved->quad_count(); k++)
        if (paved->quad(k) != stepped->quad(k))
            return 3;
    sitjorbe::mesh moved = std::move(*stepped);
    return moved.exam().enter(0, 501).refusal() == SITJORBE_REFUSED_THRESHOLD_TOO_HIGH ? 0 : 4;
}
"""

# Compares the Python package's mesh with the command's, bit by bit, and its exam and order with what is worked out afresh.
HELD = r"""
import json, sys
sys.path.insert(0, sys.argv[3])
import pave, sitjorbe
told = json.load(open("mesh.json"))
mesh = pave.read(sys.argv[1]).pave(float(sys.argv[2]))
assert [[float(x), float(y)] for x, y in mesh.nodes] == told["nodes"]
assert [list(map(int, quad)) for quad in mesh.quads] == told["quads"]
assert list(map(int, mesh.origins)) == told["origins"]
assert [list(map(int, loop)) for loop in mesh.loops] == told["left"]
count = len(told["quads"])
exam, value = mesh.exam(), {node: 100 + 7 * node % 401 for node in range(0, len(told["nodes"]), 2)} | {node: 250 for node in told["quads"][0]}
for node, threshold in value.items():
    exam.enter(node, threshold)
full = [quad for quad in told["quads"] if all(node in value for node in quad)]
assert exam.figures == (len(full), sum(value[node] for quad in full for node in quad)), exam.figures
assert exam.estimate(0, 128, 128) == 250
exam.withdraw(told["quads"][0][0])
for wrong, number in ((lambda: exam.threshold(told["quads"][0][0]), 17), (lambda: exam.enter(0, 501), 16), (lambda: exam.threshold(0, "masked reader"), 20)):
    try:
        wrong()
    except sitjorbe.Refused as refused:
        assert refused.number == number, refused
    else:
        raise AssertionError(number)
order = mesh.order(range(count - 1, -1, -1))
assert sorted(order) == list(range(count)) and mesh.order(order) == order and mesh.order() == list(range(count))
mesh.check_order(order)
assert len(mesh.bowl_steps()) == len(told["nodes"])
"""


def entries_version(root):
    """The package's version, by its Rust crate."""
    return re.search(r'^version = "(.+)"$', (root / "rust/Cargo.toml").read_text(), re.MULTILINE)[1]


def bash(lines, folder):
    return subprocess.run(["bash", "-euo", "pipefail", "-c", lines], cwd=folder, capture_output=True, text=True)


def run(*words, folder, **environment):
    words = ["env", *(f"{name}={value}" for name, value in environment.items()), *words]
    return subprocess.run(words, cwd=folder, capture_output=True, text=True)


def compiled(text):
    """Of what objdump shows of a library: for each function those of the library that it calls, and the bytes that it takes of the stack."""
    calls, frames, name = {}, {}, None
    for line in text.splitlines():
        if head := re.match(r"[0-9a-f]+ <(.+)>:$", line):
            name = head[1]
            calls[name], frames[name] = set(), 8
        elif found := re.search(r"R_X86_64_(?:PLT32|PC32)\s+(?:\.text\.)?(\S+?)[-+]0x|\bcall\s+[0-9a-f]+ <([^+>]+)>$", line):
            calls[name].add(found[1] or found[2])
        elif taken := re.search(r"\bpush\b|\bsub\s+\$0x([0-9a-f]+),%rsp", line):
            frames[name] += int(taken[1], 16) if taken[1] else 8
        elif re.search(r"\bsub\s+%\w+,%rsp", line):
            raise ValueError(f"{name} takes stack by a number that isn't fixed: {line}")
    return {name: called & calls.keys() for name, called in calls.items()}, frames


@unittest.skipUnless(platform.machine() == "x86_64", "the library is for x86-64")
@unittest.skipUnless(ARCHIVE.is_file(), "the library isn't built: tools/archive writes it")
@needing("cc", "cargo")
class Package(unittest.TestCase):
    @classmethod
    def setUpClass(cls):
        made = tempfile.TemporaryDirectory()
        cls.addClassCleanup(made.cleanup)
        cls.made = pathlib.Path(made.name)
        subprocess.run([TOOLS / "package", "--output", cls.made], check=True, capture_output=True)
        cls.packed, = cls.made.glob("*.tar.gz")

    def setUp(self):
        folder = tempfile.TemporaryDirectory()
        self.addCleanup(folder.cleanup)
        self.folder = pathlib.Path(folder.name)
        shutil.copy(self.packed, self.folder)

    def unpacked(self):
        """The package's folder."""
        subprocess.run(["tar", "xf", self.packed.name], cwd=self.folder, check=True)
        return self.folder / self.packed.name.removesuffix(".tar.gz")

    def passes(self, result):
        self.assertEqual(result.returncode, 0, result.stdout + result.stderr)

    def follow(self, block):
        """The page's commands up to a block, but for those of other blocks that need something."""
        needs, lines = block
        before = [other for wanted, other in BLOCKS[:BLOCKS.index(block)] if not wanted]
        self.passes(bash("\n".join([*before, lines]), self.folder))

    def test_what_is_in_it(self):
        root = self.unpacked()
        listed = dict(reversed(line.split("  ")) for line in (root / "SHA256SUMS").read_text().splitlines())
        there = {str(path.relative_to(root)): path for path in root.glob("**/*") if path.is_file()}
        self.assertEqual({name: hashlib.sha256(path.read_bytes()).hexdigest() for name, path in there.items() if name != "SHA256SUMS"}, listed)
        for name in ("NOTICE", "CHANGELOG.md", "include/sitjorbe.h", "include/sitjorbe.hpp", "bin/sitjorbe", "share/man/man1/sitjorbe.1", "python/pyproject.toml", "docs/FORMATS.md", "rust/Cargo.toml", "lib/libsitjorbe.so", "examples/24-2.csv"):
            self.assertIn(name, listed)
        self.assertEqual((root / "lib/libsitjorbe.a").read_bytes(), ARCHIVE.read_bytes())
        self.assertNotIn(str(ROOT), "".join(path.read_bytes().decode("latin-1") for path in there.values()), "a path of this machine")

    def test_the_same_tree_gives_the_same_bytes(self):
        subprocess.run([TOOLS / "package", "--output", self.folder / "again"], check=True, capture_output=True)
        self.assertEqual((self.folder / "again" / self.packed.name).read_bytes(), self.packed.read_bytes())

    def test_the_header_is_clean(self):
        root, ran = self.unpacked(), []
        (self.folder / "alone.c").write_text('#include "sitjorbe.h"\n#include "sitjorbe.h"\nint main(void) { return 0; }\n')
        for compiler, language, standard in (("gcc", "c", "c11"), ("clang", "c", "c11"), ("g++", "c++", "c++17"), ("clang++", "c++", "c++17")):
            if shutil.which(compiler):
                ran.append(compiler)
                self.passes(run(compiler, "-x", language, f"-std={standard}", *WARNINGS, "-I", root / "include", "-c", "alone.c", folder=self.folder))
        self.assertTrue(ran, "no compiler of C is here")

    def built(self, root, source, compiler="cc", standard="c11", language="c"):
        """A program of the package's examples, built without a warning; its path."""
        path = self.folder / pathlib.Path(source).name.replace(".", "-")
        self.passes(run(compiler, "-x", language, f"-std={standard}", *WARNINGS, "-I", root / "include", root / source, "-x", "none", root / "lib/libsitjorbe.a",
                        "-o", path, folder=self.folder))
        return path

    def test_the_example_is_clean_and_refuses_in_words(self):
        pave = self.built(self.unpacked(), "examples/c/pave.c")
        for points, size, status, said in (("0,0\n1,0\n", "1", 1, "refused (2)"), ("0,0\nx\n", "1", 2, "a line isn't a point"), ("0,0\n2,0\n1,2\n", "", 2, "the size"),
                                           ("0,0\n2,0\n1,2\n", "0", 1, "refused (5)"), ("0,0\n9,0\n9,9\n0,9\n\n3,3\n3,6\n6,6\n6,3\n", "0.03", 0, "")):
            result = subprocess.run([pave, size], input=points, capture_output=True, text=True)
            self.assertEqual(result.returncode, status, result.stderr)
            self.assertIn(said, result.stderr)

    def test_the_examples_of_c_and_cpp(self):
        root = self.unpacked()
        for source in [*(root / "examples/c").iterdir(), *(root / "examples/cpp").iterdir()]:
            if source.name != "every_entry.c":
                self.assertLess(len(source.read_text().splitlines()), 80, source.name)
        exam = "4 quads of 4 have all thresholds, with the sum 4876\nin the middle of quad 0 304 tenths of a decibel\n"
        for source, said in (("c/exam.c", exam), ("c/step.c", "edge 0 to 1: quad 0 1 8 7 with 1 new nodes\n"), ("cpp/pave.cpp", "80 nodes, 44 quads, open\n"),
                             ("cpp/exam.cpp", exam), ("cpp/step.cpp", "edge 0 to 1: a quad with 1 new nodes\n")):
            is_c = source.startswith("c/")
            if missing(["cc" if is_c else "c++"]):
                continue
            program = self.built(root, f"examples/{source}", *(("cc", "c11", "c") if is_c else ("c++", "c++17", "c++")))
            result = run(program, folder=self.folder)
            self.passes(result)
            self.assertEqual(result.stdout[:len(said)], said)
            self.assertEqual(result.stderr, "")

    def test_every_entry_is_called(self):
        root = self.unpacked()
        for compiler, language, standard in (("gcc", "c", "c11"), ("clang", "c", "c11"), ("g++", "c++", "c++17"), ("clang++", "c++", "c++17")):
            if shutil.which(compiler):
                result = run(self.built(root, "examples/c/every_entry.c", compiler, standard, language), folder=self.folder)
                self.assertEqual((result.returncode, result.stdout), (0, "every entry was called\n"), result.stderr)

    @needing("c++")
    def test_a_mesh_in_cpp_grows(self):
        root = self.unpacked()
        (self.folder / "grow.cpp").write_text(GROW)
        program = self.built(root, self.folder / "grow.cpp", "c++", "c++17", "c++")
        self.passes(run(program, folder=self.folder))

    # ---- the command, its pages and completions

    def test_it_runs_without_a_toolchain(self):
        ran, known = list(unpacked.check(self.packed)), unpacked.known(self.unpacked())
        self.assertEqual([line.split()[-1] if line.endswith("draw") else line.split(": sitjorbe ")[1] for line in ran], [*(" ".join(words) for words, _, _ in known), "draw"])
        self.assertGreaterEqual(len(known), 5)

    def test_pages_and_completions_name_every_command_and_option(self):
        root = self.unpacked()
        said = {name: subprocess.run([root / "bin/sitjorbe", name, "--help"], capture_output=True, text=True, check=True).stdout for name in ("pave", "check", "draw", "quality")}
        texts = [(root / "share" / place).read_text().replace("\\-", "-") for place in
                 ("man/man1/sitjorbe.1", "bash-completion/completions/sitjorbe", "zsh/site-functions/_sitjorbe")]
        fish = (root / "share/fish/vendor_completions.d/sitjorbe.fish").read_text()
        for name, text in said.items():
            for option in sorted(set(re.findall(r"(?<![\w-])--[a-z]+", text))):
                for other in texts:
                    self.assertIn(option, other)
                self.assertIn(f"-l {option[2:]}", fish)
            self.assertIn(f"-a {name} ", fish)

    def test_bash_completes(self):
        place = self.unpacked() / "share/bash-completion/completions/sitjorbe"
        for words, wanted in ((["sitjorbe", "pa"], "pave"), (["sitjorbe", "pave", "--siz"], "--size"), (["sitjorbe", "pave", "--eye", "ri"], "right")):
            line = f"source {place}; COMP_WORDS=({' '.join(words)}); COMP_CWORD={len(words) - 1}; _sitjorbe; echo ${{COMPREPLY[@]}}"
            self.assertEqual(bash(line, self.folder).stdout.strip(), wanted)

    def test_other_shells_read_theirs(self):
        share = self.unpacked() / "share"
        for shell, place in (("zsh", "zsh/site-functions/_sitjorbe"), ("fish", "fish/vendor_completions.d/sitjorbe.fish")):
            if shutil.which(shell):
                self.passes(run(shell, "-n", share / place, folder=self.folder))

    @needing("man")
    def test_the_manual_is_clean(self):
        result = run("man", "--warnings", "--local-file", self.unpacked() / "share/man/man1/sitjorbe.1", folder=self.folder, LC_ALL="C.UTF-8", MANWIDTH="200")
        self.passes(result)
        self.assertEqual(result.stderr, "")
        self.assertIn("--thresholds FILE", result.stdout)

    # ---- Debian

    def debian(self):
        """The Debian package of the package's folder, as --deb writes it."""
        package, root = command("package"), self.unpacked()
        words = {"version": entries_version(root), "series": ".".join(entries_version(root).split(".")[:2]), "number": entries.repository().number(), "shared": f"libsitjorbe.so.{entries.repository().number()}"}
        return package.debian.write(root, self.folder, words, package.oldest_glibc(root, words), package.cmake(words, package.IN_DEBIAN))

    @needing("dpkg-deb", "pkg-config")
    def test_debian_has_all_in_its_places(self):
        packed, into = self.debian(), self.folder / "debian"
        self.passes(run("dpkg-deb", "--extract", packed, into, folder=self.folder))
        self.passes(run(into / "usr/bin/sitjorbe", "--version", folder=self.folder))
        flags = run("pkg-config", "--cflags", "--libs", "sitjorbe", folder=self.folder, PKG_CONFIG_SYSROOT_DIR=into,
                    PKG_CONFIG_LIBDIR=into / "usr/lib/x86_64-linux-gnu/pkgconfig", PKG_CONFIG_ALLOW_SYSTEM_CFLAGS=1, PKG_CONFIG_ALLOW_SYSTEM_LIBS=1).stdout.split()
        self.passes(run("cc", "-std=c11", into.parent / self.packed.name.removesuffix(".tar.gz") / "examples/c/exam.c", *flags, "-o", "exam", folder=self.folder))
        self.passes(run("./exam", folder=self.folder, LD_LIBRARY_PATH=into / "usr/lib/x86_64-linux-gnu"))

    @needing("dpkg-deb", "lintian")
    def test_lintian_has_no_error(self):
        result = run("lintian", "--allow-root", "--fail-on", "error", self.debian(), folder=self.folder)
        self.passes(result)

    # ---- Python

    def python(self, root, *words, python=sys.executable):
        return run(python, *words, folder=self.folder, PYTHONPATH=root / "python", PYTHONDONTWRITEBYTECODE=1)

    def test_pythons_own_example(self):
        root = self.unpacked()
        for python in PYTHONS:
            self.passes(self.python(root, "-c", "import doctest, sitjorbe, sys; sys.exit(doctest.testmod(sitjorbe).failed)", python=python))

    def test_python_draws_or_says_why_not(self):
        root = self.unpacked()
        for python in PYTHONS:
            result = self.python(root, root / "examples/python/pave.py", root / "examples/24-2.csv", "3", "mesh.png", python=python)
            self.passes(result)
            self.assertEqual((self.folder / "mesh.png").is_file(), "nothing is drawn" not in result.stdout)
            (self.folder / "mesh.png").unlink(missing_ok=True)

    def test_python_agrees_with_the_command(self):
        root = self.unpacked()
        (self.folder / "held.py").write_text(HELD)
        for name, size in (("24-2", "3"), ("30-2", "3"), ("left-eye", "3.6"), ("right-eye", "3.6"), ("hemianopia", "3"), ("hand-drawn", "2.5")):
            field = root / f"examples/{name}.csv"
            self.passes(run(root / "bin/sitjorbe", "pave", field, "--size", size, "-o", "mesh.json", folder=self.folder))
            for python in PYTHONS:
                self.passes(self.python(root, "held.py", field, size, root / "examples/python", python=python))
            self.passes(self.python(root, root / "examples/python/pave.py", field, size))
        result = self.python(root, root / "examples/python/pave.py", root / "examples/24-2.csv", "-1")
        self.assertEqual((result.returncode, "refused (5)" in result.stderr), (1, True), result.stderr)

    @needing("nm")
    def test_the_library_has_no_data_of_its_own(self):
        symbols = subprocess.run(["nm", "--format=posix", ARCHIVE], capture_output=True, text=True, check=True).stdout
        kinds = {line.split()[1] for line in symbols.splitlines() if len(line.split()) > 1}
        self.assertLessEqual(kinds, set("TtrRU"))
        self.assertEqual({line.split()[0] for line in symbols.splitlines() if " U" in line}, {"memcpy", "memset"})

    @needing("objdump")
    def test_the_stack_is_small(self):
        # No function calls itself, directly or through others, and the deepest chain of calls takes less than 8 KB.
        calls, frames = compiled(subprocess.run(["objdump", "-dr", "--no-show-raw-insn", ARCHIVE], capture_output=True, text=True, check=True).stdout)
        depths = {}
        while len(depths) < len(calls):
            ready = [name for name in calls if name not in depths and calls[name] <= depths.keys()]
            self.assertTrue(ready, f"these call themselves: {sorted(calls.keys() - depths.keys())}")
            depths |= {name: frames[name] + max((depths[called] for called in calls[name]), default=0) for name in ready}
        self.assertIn("sitjorbe_pave", depths)
        self.assertLess(max(depths.values()), 8_192)

    # ---- another shape doesn't link

    def of_another_shape(self):
        """The package's folder, whose libraries say that they have another shape."""
        root, name = self.unpacked(), f"sitjorbe_abi_{entries.repository().number()}"
        for place in ("lib", "rust/lib"):
            subprocess.run(["objcopy", "--redefine-sym", f"{name}=sitjorbe_abi_0", root / place / "libsitjorbe.a"], check=True)
        return root, name

    @needing("objcopy")
    def test_c_of_another_shape(self):
        root, name = self.of_another_shape()
        for compiler in filter(shutil.which, ("gcc", "clang")):
            for more in ([], ["-O2", "-ffunction-sections", "-fdata-sections", "-Wl,--gc-sections"]):
                words = [compiler, *more, "-I", root / "include", root / "examples/c/pave.c", root / "lib/libsitjorbe.a", "-o", "pave"]
                result = run(*words, folder=self.folder)
                self.assertNotEqual(result.returncode, 0, f"{compiler} {more}")
                self.assertIn(name, result.stderr)

    @needing("objcopy", "cargo")
    def test_rust_of_another_shape(self):
        root, name = self.of_another_shape()
        safe = "fn main() { let _ = sitjorbe::raw::contains(&sitjorbe::raw::Outline { outer: &[], holes: &[], hole_lengths: &[] }, [0.0, 0.0]); }"
        bare = "fn main() { let none = [0u32; 0]; let _ = unsafe { sitjorbe::ffi::sitjorbe_small_quads(none.as_ptr().cast_mut(), 0) }; }"
        for source, profile in ((safe, "dev"), (bare, "dev"), (bare, "release")):
            result = self.cargo(root / "rust", source, "build", "--profile", profile)
            self.assertNotEqual(result.returncode, 0, source)
            self.assertIn(name, result.stderr)

    # ---- the crate

    def cargo(self, crate, source, *words, **environment):
        """Cargo on a host of the crate with this source."""
        host = self.folder / "host"
        (host / "src").mkdir(parents=True, exist_ok=True)
        (host / "Cargo.toml").write_text(f'[package]\nname = "host"\nedition = "2021"\n\n[dependencies]\nsitjorbe = {{ path = "{crate}" }}\n')
        (host / "src/main.rs").write_text(source)
        return run("cargo", words[0], "--offline", *words[1:], folder=host, **environment)

    @needing("cargo")
    def test_the_crate_without_the_library(self):
        root = self.unpacked()
        (root / "rust/lib/libsitjorbe.a").unlink()
        source = "fn main() { println!(\"{}\", sitjorbe::ffi::abi()); }"
        for words in (["check"], ["doc"]):
            self.passes(self.cargo(root / "rust", source, *words))
        result = self.cargo(root / "rust", source, "build")
        self.assertNotEqual(result.returncode, 0)
        self.assertIn("SITJORBE_LIB_DIR", result.stderr)
        result = self.cargo(root / "rust", source, "run", "--quiet", SITJORBE_LIB_DIR=root / "lib")
        self.assertEqual(result.stdout, f"{entries.repository().number()}\n", result.stderr)

    @needing("cargo", "cargo-clippy")
    def test_the_crate_has_no_warnings(self):
        # Nor without the library: no item lacks its words, and no answer may go unused.
        root = self.unpacked()
        (root / "rust/lib/libsitjorbe.a").unlink()
        self.passes(run("cargo", "clippy", "--offline", "--", "-D", "warnings", folder=root / "rust"))

    @needing("cargo")
    def test_the_crates_own_pages_and_example(self):
        root = self.unpacked()
        self.passes(run("cargo", "doc", "--offline", "--no-deps", folder=root / "rust", RUSTDOCFLAGS="-D warnings"))
        self.passes(run("cargo", "run", "--offline", "--quiet", "--example", "visual_field", folder=root / "rust"))


class Compiled(unittest.TestCase):
    def test_calls_and_stack_are_read(self):
        text = """0000000000000000 <outer>:
   0:	push   %rbp
   1:	sub    $0x10,%rsp
   2:	call   9 <outer+0x9>
			3: R_X86_64_PLT32	.text.crate::inner-0x4
   4:	lea    0x0(%rip),%rax
			5: R_X86_64_PC32	.rodata.cst8-0x4
   6:	jmp    9
			7: R_X86_64_PLT32	memset-0x4
0000000000000000 <crate::inner>:
   0:	call   0 <crate::inner>"""
        self.assertEqual(compiled(text), ({"outer": {"crate::inner"}, "crate::inner": {"crate::inner"}}, {"outer": 32, "crate::inner": 8}))
        with self.assertRaises(ValueError):
            compiled("0000000000000000 <outer>:\n   0:	sub    %rax,%rsp")


def followed(block):
    @needing(*block[0])
    def test(self):
        self.follow(block)

    return test


for number, block in enumerate(BLOCKS):
    setattr(Package, f"test_the_page_{number}_{'_'.join(block[0]) or 'unpacks'}", followed(block))


if __name__ == "__main__":
    unittest.main()
