#!/usr/bin/env python3
"""Makes the wheel of this package by the standard library alone: wheel_of.py FOLDER prints its path. It is what pyproject.toml names as the
build's backend too, so `pip install .` and `python3 -m build` need nothing more. The same files make the same bytes: their time is that of
SOURCE_DATE_EPOCH, or else the first that a zip can say."""
import base64
import hashlib
import io
import os
import re
import sys
import tarfile
import time
import zipfile

HERE = os.path.dirname(os.path.realpath(__file__))
PACKAGE = "iova"


def text_of(name):
    with open(os.path.join(HERE, name), encoding="utf-8") as file:
        return file.read()


def field(name):
    return re.search(rf'^{name} = "([^"]*)"', text_of("pyproject.toml"), re.M).group(1)


def metadata():
    lines = ["Metadata-Version: 2.1", f"Name: {PACKAGE}", f"Version: {field('version')}", f"Summary: {field('description')}"]
    lines += ["License: MIT OR Apache-2.0", f"Requires-Python: {field('requires-python')}"]
    lines += [f"Classifier: {one}" for one in re.findall(r'^  "([A-Z][^"]* :: [^"]*)"', text_of("pyproject.toml"), re.M)]
    return "\n".join(lines + ["Description-Content-Type: text/markdown", "", text_of("README.md")])


def files():
    """What the package has: the names below a folder of Python's packages, and their bytes."""
    found = {}
    for name in sorted(os.listdir(os.path.join(HERE, PACKAGE))):
        if name.endswith(".py") or name == "py.typed":
            with open(os.path.join(HERE, PACKAGE, name), "rb") as file:
                found[f"{PACKAGE}/{name}"] = file.read()
    info = f"{PACKAGE}-{field('version')}.dist-info"
    found[f"{info}/METADATA"] = metadata().encode()
    found[f"{info}/WHEEL"] = b"Wheel-Version: 1.0\nGenerator: wheel_of\nRoot-Is-Purelib: true\nTag: py3-none-any\n"
    found[f"{info}/top_level.txt"] = f"{PACKAGE}\n".encode()
    sums = [f"{name},sha256={base64.urlsafe_b64encode(hashlib.sha256(data).digest()).rstrip(b'=').decode()},{len(data)}" for name, data in found.items()]
    found[f"{info}/RECORD"] = ("\n".join(sums + [f"{info}/RECORD,,"]) + "\n").encode()
    return found


def epoch():
    return max(int(os.environ.get("SOURCE_DATE_EPOCH", "0")), 315532800)


def build_wheel(wheel_directory, config_settings=None, metadata_directory=None):
    name = f"{PACKAGE}-{field('version')}-py3-none-any.whl"
    with zipfile.ZipFile(os.path.join(wheel_directory, name), "w", zipfile.ZIP_DEFLATED) as wheel:
        for path, data in files().items():
            entry = zipfile.ZipInfo(path, time.gmtime(epoch())[:6])
            entry.external_attr, entry.compress_type, entry.create_system = 0o644 << 16, zipfile.ZIP_DEFLATED, 3
            wheel.writestr(entry, data)
    return name


def build_sdist(sdist_directory, config_settings=None):
    root = f"{PACKAGE}-{field('version')}"
    parts = {name: text_of(name).encode() for name in ("README.md", "pyproject.toml", "wheel_of.py")}
    parts.update({name: data for name, data in files().items() if name.startswith(PACKAGE + "/")})
    parts["PKG-INFO"] = metadata().encode()
    with tarfile.open(os.path.join(sdist_directory, root + ".tar.gz"), "w:gz") as tar:
        for name, data in parts.items():
            entry = tarfile.TarInfo(f"{root}/{name}")
            entry.size, entry.mtime, entry.mode = len(data), epoch(), 0o644
            tar.addfile(entry, io.BytesIO(data))
    return root + ".tar.gz"


if __name__ == "__main__":
    if len(sys.argv) != 2 or sys.argv[1].startswith("-"):
        sys.exit("usage: wheel_of.py FOLDER")
    os.makedirs(sys.argv[1], exist_ok=True)
    print(os.path.join(sys.argv[1], build_wheel(sys.argv[1])))
