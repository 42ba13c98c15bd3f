"""Builds the wheel, so that `pip install` of this folder needs nothing but Python: the package's files in a zip, with what pip asks to know about them."""

import base64
import hashlib
import pathlib
import re
import zipfile

HERE = pathlib.Path(__file__).resolve().parent
PACKAGE = HERE / "sitjorbe"
TAG = "py3-none-linux_x86_64"


def version():
    return re.search(r'^VERSION = "(.+)"$', (PACKAGE / "_entries.py").read_text(), re.MULTILINE)[1]


def build_wheel(wheel_directory, config_settings=None, metadata_directory=None):
    """Writes the wheel, and answers its name."""
    if not (PACKAGE / "libsitjorbe.so").is_file():
        raise FileNotFoundError(f"{PACKAGE} has no libsitjorbe.so: install from the package that tools/package writes")
    info = f"sitjorbe-{version()}.dist-info"
    texts = {f"{info}/METADATA": f"Metadata-Version: 2.1\nName: sitjorbe\nVersion: {version()}\nRequires-Python: >=3.9\n",
             f"{info}/WHEEL": f"Wheel-Version: 1.0\nGenerator: sitjorbe\nRoot-Is-Purelib: false\nTag: {TAG}\n"}
    files = {f"sitjorbe/{path.name}": path.read_bytes() for path in sorted(PACKAGE.iterdir()) if path.is_file()}
    files |= {name: text.encode() for name, text in texts.items()}
    record = [f"{name},sha256={base64.urlsafe_b64encode(hashlib.sha256(data).digest()).rstrip(b'=').decode()},{len(data)}" for name, data in files.items()]
    files[f"{info}/RECORD"] = "\n".join([*record, f"{info}/RECORD,,", ""]).encode()
    name = f"sitjorbe-{version()}-{TAG}.whl"
    with zipfile.ZipFile(pathlib.Path(wheel_directory) / name, "w", zipfile.ZIP_DEFLATED) as wheel:
        for path, data in files.items():
            wheel.writestr(path, data)
    return name


def build_sdist(sdist_directory, config_settings=None):
    """There is none: what is installed has a compiled library."""
    raise NotImplementedError("install this folder: a source distribution would lack the library")
