"""What the benchmarks that count share: a program over the library, built for release, and its runs under valgrind's callgrind."""

import pathlib
import re
import subprocess
import tempfile

ROOT = pathlib.Path(__file__).resolve().parents[2]


def build(name):
    """The program host/bench/NAME.rs."""
    target = ROOT / "host/target"
    target.mkdir(exist_ok=True)
    subprocess.run([ROOT / "tools/archive"], check=True, stdout=subprocess.DEVNULL)
    rustc = ["rustc", "--edition", "2021", "-O", "-L", ROOT / "target/staticlib"]
    subprocess.run([*rustc, "--crate-type", "rlib", "--crate-name", "sitjorbe", "--out-dir", target, ROOT / "host/src/lib.rs"], check=True)
    program = target / f"bench-{name}"
    subprocess.run([*rustc, "--extern", f"sitjorbe={target / 'libsitjorbe.rlib'}", "-o", program, ROOT / f"host/bench/{name}.rs"], check=True)
    return program


def profiled(program, *words):
    """What the run printed, and its profile."""
    with tempfile.NamedTemporaryFile() as out:
        run = ["valgrind", "--tool=callgrind", f"--callgrind-out-file={out.name}", program, *words]
        said = subprocess.run(run, check=True, capture_output=True, text=True).stdout.strip()
        return said, pathlib.Path(out.name).read_text()


def lines(profile):
    """The profile's lines, each with the function that it is of and the one that this calls; callgrind names a function by a number once it has named it."""
    names, here, callee = {}, None, None
    for line in profile.splitlines():
        if found := re.match(r"(c?)fn=\((\d+)\)(?: (.*))?$", line):
            names.setdefault(found[2], found[3])
            here, callee = (here, names[found[2]]) if found[1] else (names[found[2]], callee)
        else:
            yield line, here, callee
