"""A package's folder as a Debian package, by dpkg-deb: library, headers, pkg-config and CMake files, command, man page and completions where Debian wants them."""

import gzip
import hashlib
import os
import pathlib
import subprocess
import tempfile

TRIPLE = "x86_64-linux-gnu"
MAINTAINER = "Sitjorbe maintainers <maintainers@users.noreply.sitjorbe.example>"

# What stands where: the package's file to Debian's place.
PLACES = {
    "bin/sitjorbe": "usr/bin/sitjorbe",
    "include/sitjorbe.h": "usr/include/sitjorbe.h",
    "include/sitjorbe.hpp": "usr/include/sitjorbe.hpp",
    "lib/libsitjorbe.a": f"usr/lib/{TRIPLE}/libsitjorbe.a",
    "share/bash-completion/completions/sitjorbe": "usr/share/bash-completion/completions/sitjorbe",
    "share/zsh/site-functions/_sitjorbe": "usr/share/zsh/vendor-completions/_sitjorbe",
    "share/fish/vendor_completions.d/sitjorbe.fish": "usr/share/fish/vendor_completions.d/sitjorbe.fish",
    **{f"docs/{name}.md": f"usr/share/doc/sitjorbe/{name}.md" for name in ("INTEGRATION", "FORMATS", "SCOPE", "COMMAND")},
}

# The time of every file, so that the same folder gives the same bytes: the year 2000 begins.
EPOCH = "946684800"

CONTROL = """\
Package: sitjorbe
Version: {version}-1
Architecture: amd64
Maintainer: {maintainer}
Installed-Size: {size}
Depends: libc6 (>= {glibc})
Section: science
Priority: optional
Description: proved paving of visual fields with quads
 Library, C and C++ headers and a command that take the outline of a visual
 field, with its blind spots, to a mesh of quads, to the order in which the
 quads are tested, and to an exam with its figures. Each entry of the library
 is proved to equal its definition on every input.
"""

PKG_CONFIG = """\
prefix=/usr
includedir=${{prefix}}/include
libdir=${{prefix}}/lib/{triple}

Name: sitjorbe
Description: Verified geometry for a paved visual field, from outline to quads
Version: {version}
Cflags: -I${{includedir}}
Libs: -L${{libdir}} -lsitjorbe
"""


def put(path, data):
    path.parent.mkdir(parents=True, exist_ok=True)
    path.write_bytes(data)


def packed(text):
    return gzip.compress(text, 9, mtime=0)


def fill(root, folder, version, shared, cmake):
    """Everything but the control file."""
    for source, place in PLACES.items():
        put(root / place, (folder / source).read_bytes())
    library, doc = root / f"usr/lib/{TRIPLE}", root / "usr/share/doc/sitjorbe"
    put(library / shared, (folder / "lib" / shared).read_bytes())
    (library / "libsitjorbe.so").symlink_to(shared)
    put(library / "pkgconfig/sitjorbe.pc", PKG_CONFIG.format(triple=TRIPLE, version=version).encode())
    for name, text in cmake.items():
        put(library / "cmake/sitjorbe" / name, text.encode())
    put(root / "usr/share/man/man1/sitjorbe.1.gz", packed((folder / "share/man/man1/sitjorbe.1").read_bytes()))
    put(doc / "changelog.gz", packed((folder / "CHANGELOG.md").read_bytes()))
    put(doc / "changelog.Debian.gz", packed(f"sitjorbe ({version}-1) unstable; urgency=medium\n\n  * See changelog.gz.\n\n -- {MAINTAINER}  Sat, 01 Jan 2000 00:00:00 +0000\n".encode()))
    put(doc / "copyright", b"What this package holds may be used as its NOTICE says.\n\n" + (folder / "NOTICE").read_bytes())


def write(folder, output, words, glibc, cmake):
    """The Debian package of a package's folder; its path. The same folder gives the same bytes."""
    version, shared = words["version"], words["shared"]
    with tempfile.TemporaryDirectory() as made:
        root = pathlib.Path(made) / "root"
        fill(root, folder, version, shared, cmake)
        files = [path for path in sorted(root.glob("**/*")) if path.is_file() and not path.is_symlink()]
        size = -(-sum(path.stat().st_size for path in files) // 1024)
        put(root / "DEBIAN/control", CONTROL.format(version=version, maintainer=MAINTAINER, size=size, glibc=glibc).encode())
        put(root / "DEBIAN/triggers", b"activate-noawait ldconfig\n")
        put(root / "DEBIAN/shlibs", f"libsitjorbe {shared.rpartition('.')[2]} sitjorbe (>= {version})\n".encode())
        put(root / "DEBIAN/md5sums", md5sums(root, files))
        for path in [root, *root.glob("**/*")]:
            if not path.is_symlink():
                path.chmod(0o755 if path.is_dir() or path.parent.name == "bin" else 0o644)
        path = output / f"sitjorbe_{version}-1_amd64.deb"
        words = ["dpkg-deb", "--root-owner-group", "--build", root, path]
        result = subprocess.run(words, capture_output=True, text=True, env={**os.environ, "SOURCE_DATE_EPOCH": EPOCH})
        if result.returncode:
            raise OSError(result.stdout + result.stderr)
    return path


def md5sums(root, files):
    return "".join(f"{hashlib.md5(path.read_bytes()).hexdigest()}  {path.relative_to(root)}\n" for path in files).encode()
