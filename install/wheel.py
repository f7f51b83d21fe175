"""Packs the package `afdx` with its library into a wheel, which `pip install` takes without a network.

    python3 install/wheel.py VERSION LIBRARY FOLDER

Its tag says which glibc at least the library needs, by the versions of symbols that are named in it, and which processor.
"""
import base64
import hashlib
import os
import re
import sys
import zipfile
from glob import glob

ROOT = os.path.dirname(os.path.dirname(os.path.abspath(__file__)))
METADATA = """\
Metadata-Version: 2.1
Name: afdx
Version: {version}
Summary: The proved transmitting AFDX end system (ARINC 664 Part 7)
License: MIT OR Apache-2.0
Requires-Python: >=3.9
"""
WHEEL = "Wheel-Version: 1.0\nGenerator: afdx\nRoot-Is-Purelib: false\nTag: {tag}\n"
# The processors, by the number that an ELF file has of each.
MACHINES = {62: "x86_64", 183: "aarch64"}


def content(path: str) -> bytes:
    """The bytes of a file."""
    with open(path, "rb") as file:
        return file.read()


def tag_of(library: bytes) -> str:
    """The tag of a wheel with this library."""
    major, minor = max((int(it[1]), int(it[2])) for it in re.finditer(rb"\0GLIBC_(\d+)\.(\d+)[.\d]*(?=\0)", library))
    return f"py3-none-manylinux_{major}_{minor}_{MACHINES[int.from_bytes(library[18:20], 'little')]}"


def main(version: str, library: str, folder: str) -> None:
    tag = tag_of(content(library))
    info = f"afdx-{version}.dist-info"
    paths = [*sorted(glob(f"{ROOT}/bindings/afdx/*.py")), f"{ROOT}/bindings/afdx/py.typed", library]
    files = {f"afdx/{os.path.basename(path)}": content(path) for path in paths}
    files |= {f"{info}/{name}": content(f"{ROOT}/{name}") for name in ("LICENSE-MIT", "LICENSE-APACHE")}
    files |= {f"{info}/METADATA": METADATA.format(version=version).encode(), f"{info}/WHEEL": WHEEL.format(tag=tag).encode()}
    record = ""
    for name, data in files.items():
        digest = base64.urlsafe_b64encode(hashlib.sha256(data).digest()).rstrip(b"=").decode()
        record += f"{name},sha256={digest},{len(data)}\n"
    files[f"{info}/RECORD"] = f"{record}{info}/RECORD,,\n".encode()
    with zipfile.ZipFile(f"{folder}/afdx-{version}-{tag}.whl", "w", zipfile.ZIP_DEFLATED) as wheel:
        for name, data in files.items():
            wheel.writestr(zipfile.ZipInfo(name, (2026, 11, 28, 0, 0, 0)), data, zipfile.ZIP_DEFLATED)


if __name__ == "__main__":
    main(*sys.argv[1:])
