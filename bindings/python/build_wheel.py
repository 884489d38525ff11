"""Builds the wheel of the package `deltat`, with the shared libraries inside: release/wheel.sh and pip call it.

The wheel has the package, libdeltat.so and libdeltat-udp.so of lib/ and the metadata of pyproject.toml, and is the
same, octet for octet, whenever it is made of the same files. It needs nothing but Python's standard library. The
version is that of the file VERSION. Wheels are tagged for the machine that builds them, as py3-none-linux_x86_64: the
library is compiled code, but has no part of Python's own interface."""

from __future__ import annotations

import base64
import hashlib
import os
import platform
import re
import tomllib
import zipfile
from pathlib import Path

HERE = Path(__file__).resolve().parent
TOP = HERE.parent.parent
# the earliest time that a zip file can have, so that no clock is in the wheel
TIME = (1980, 1, 1, 0, 0, 0)


class NoLibrary(Exception):
    """A shared library isn't there, so there is nothing to put into the wheel."""


def library(kind: str, module: str, folder: Path) -> tuple[str, Path]:
    """Returns the name of a shared library, whose interface a module of the package has, and its file: in the folder,
    unless a variable names it. Raises NoLibrary."""
    abi = re.search(r"^ABI_VERSION = (\d+)$", (HERE / "deltat" / module).read_text(), re.MULTILINE)
    assert abi
    name, variable = f"lib{kind}.so.{abi[1]}", f"{kind.upper().replace('-', '_')}_LIBRARY"
    found = Path(os.environ.get(variable) or folder / name)
    if not found.is_file():
        raise NoLibrary(f"{found} isn't there; build it with `make -C lib`, or set {variable} to its path")
    return name, found


def metadata(project: dict[str, object], version: str) -> str:
    """The file METADATA, by version 2.1 of its form."""
    lines = ["Metadata-Version: 2.1", f"Name: {project['name']}", f"Version: {version}"]
    lines += [f"Summary: {project['description']}", f"Requires-Python: {project['requires-python']}"]
    classifiers = project["classifiers"]
    assert isinstance(classifiers, list)
    lines += [f"Classifier: {it}" for it in classifiers]
    return "".join(f"{it}\n" for it in lines)


def contents(tag: str) -> dict[str, bytes]:
    """The files of the wheel but RECORD, by their names in it."""
    project = tomllib.loads((HERE / "pyproject.toml").read_text())["project"]
    version = (TOP / "VERSION").read_text().strip()
    name, file = library("deltat", "_c.py", TOP / "lib")
    # (the driver over UDP is beside it)
    driver, driver_file = library("deltat-udp", "_c_udp.py", file.parent)
    found = {f"deltat/{it.name}": it.read_bytes() for it in sorted((HERE / "deltat").glob("*.py"))}
    found["deltat/py.typed"] = b""
    found[f"deltat/{name}"], found[f"deltat/{driver}"] = file.read_bytes(), driver_file.read_bytes()
    info = f"deltat-{version}.dist-info"
    found[f"{info}/METADATA"] = metadata(project, version).encode()
    found[f"{info}/WHEEL"] = f"Wheel-Version: 1.0\nGenerator: deltat\nRoot-Is-Purelib: false\nTag: {tag}\n".encode()
    return found


def record(files: dict[str, bytes], name: str) -> str:
    """The file RECORD: each file with its digest and size, and itself without."""
    lines = []
    for path, octets in files.items():
        digest = base64.urlsafe_b64encode(hashlib.sha256(octets).digest()).rstrip(b"=").decode()
        lines.append(f"{path},sha256={digest},{len(octets)}")
    return "".join(f"{it}\n" for it in [*lines, f"{name},,"])


# --- what pip calls (PEP 517)


def build_wheel(wheel_directory: str, config_settings: object = None, metadata_directory: object = None) -> str:
    """Writes the wheel into a folder, and returns its name. Raises NoLibrary."""
    tag = f"py3-none-linux_{platform.machine()}"
    files = contents(tag)
    info = next(it for it in files if it.endswith("/METADATA")).removesuffix("/METADATA")
    files[f"{info}/RECORD"] = record(files, f"{info}/RECORD").encode()
    name = f"{info.removesuffix('.dist-info')}-{tag}.whl"
    with zipfile.ZipFile(Path(wheel_directory) / name, "w", zipfile.ZIP_DEFLATED) as wheel:
        for path, octets in files.items():
            entry = zipfile.ZipInfo(path, TIME)
            entry.compress_type = zipfile.ZIP_DEFLATED
            entry.external_attr = (0o755 if ".so." in path else 0o644) << 16
            wheel.writestr(entry, octets)
    return name


def build_sdist(sdist_directory: str, config_settings: object = None) -> str:
    """There is no source distribution: the library is made from the whole clone, by its prover."""
    raise NotImplementedError("deltat has no source distribution; build a wheel in a clone, by release/wheel.sh")
