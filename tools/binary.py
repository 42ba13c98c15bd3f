"""The command `sitjorbe` built for a package: stripped, linked statically but for libc, and with no path of this machine in it."""

import os
import re
import shutil
import subprocess

from crates import ROOT

FOLDER = ROOT / "target/package"
# What belongs to glibc.
LIBC = {"libc.so.6", "libm.so.6", "ld-linux-x86-64.so.2"}


class Wrong(Exception):
    """What keeps the command from being built."""


def run(*words, **environment):
    try:
        result = subprocess.run(words, cwd=ROOT, capture_output=True, text=True, env={**os.environ, **environment})
    except FileNotFoundError:
        raise Wrong(f"there is no {words[0]} here") from None
    if result.returncode != 0:
        raise Wrong(f"{result.stdout}{result.stderr}{' '.join(map(str, words))}: status {result.returncode}")
    return result.stdout


def build(path):
    """Builds the command and puts it in a place."""
    instead = FOLDER / "instead"
    instead.mkdir(parents=True, exist_ok=True)
    # rustc asks for the shared libgcc by this name: the static one stands in.
    (instead / "libgcc_s.so").write_text("GROUP ( -lgcc_eh -lgcc )\n")
    flags = ["-C", "strip=symbols", "-C", "link-arg=-Wl,--build-id=none", "-C", "link-arg=-Wl,-z,relro,-z,now", "-L", f"native={instead}", f"--remap-path-prefix={ROOT}=."]
    run("cargo", "build", "--release", "--offline", "--locked", "--quiet", "--manifest-path", ROOT / "host/Cargo.toml", "--bin", "sitjorbe", "--target-dir",
        FOLDER / "cargo", CARGO_ENCODED_RUSTFLAGS="\x1f".join(flags))
    path.parent.mkdir(parents=True, exist_ok=True)
    shutil.copyfile(FOLDER / "cargo/release/sitjorbe", path)
    path.chmod(0o755)
    others = needed(path) - LIBC
    if others:
        raise Wrong(f"the command needs more than libc: {', '.join(sorted(others))}")


def needed(path):
    """The shared libraries that a file names."""
    return set(re.findall(r"\(NEEDED\).*\[(.+)\]", run("readelf", "--dynamic", path)))


def glibc(*paths):
    """The oldest glibc that has all that these files ask of it."""
    found = {tuple(map(int, version.split("."))) for path in paths for version in re.findall(r"GLIBC_(\d+(?:\.\d+)+)", run("readelf", "--version-info", path))}
    return ".".join(map(str, max(found, default=(2, 2, 5))))
