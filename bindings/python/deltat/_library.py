"""Finds libdeltat and libdeltat-udp, and loads them: the first at once, the other with the first socket."""

from __future__ import annotations

import ctypes
import functools
import os
from pathlib import Path
from typing import NamedTuple

from . import _c, _c_udp

NAME, UDP_NAME = f"libdeltat.so.{_c.ABI_VERSION}", f"libdeltat-udp.so.{_c_udp.ABI_VERSION}"


def _path() -> str:
    """DELTAT_LIBRARY, if it is set; or the library beside this file, as a wheel has it; or that of the clone that has
    this file; or else its name alone, by which the system looks for it."""
    here = Path(__file__).resolve().parent
    found = [it / NAME for it in (here, here.parents[2] / "lib") if (it / NAME).exists()]
    return os.environ.get("DELTAT_LIBRARY") or str(found[0] if found else NAME)


def _load() -> ctypes.PyDLL:
    path = _path()
    try:
        return _c.load(path)
    except OSError as why:
        raise ImportError(
            f"deltat: {path} can't be loaded ({why}); install libdeltat, build it with `make -C lib`, or set "
            "DELTAT_LIBRARY to its path"
        ) from why


library = _load()


class Drivers(NamedTuple):
    """libdeltat-udp twice: calls by `waits` let other threads run, those by `short` don't."""

    waits: ctypes.CDLL
    short: ctypes.CDLL


def _udp_path() -> str:
    """DELTAT_UDP_LIBRARY, if it is set; or the library beside that of DELTAT_LIBRARY, beside this file, or of the clone
    that has this file; or else its name alone."""
    here = Path(__file__).resolve().parent
    places = [here, here.parents[2] / "lib"]
    if named := os.environ.get("DELTAT_LIBRARY"):
        places.insert(0, Path(named).resolve().parent)
    found = [str(it / UDP_NAME) for it in places if (it / UDP_NAME).exists()]
    return os.environ.get("DELTAT_UDP_LIBRARY") or (found or [UDP_NAME])[0]


def _load_driver(kind: type[ctypes.CDLL], path: str) -> ctypes.CDLL:
    try:
        driver, with_errno = kind(path), kind(path, use_errno=True)
    except OSError as why:
        raise ImportError(
            f"deltat: {path} can't be loaded ({why}); install libdeltat-udp, build it with `make -C lib`, or set "
            "DELTAT_UDP_LIBRARY to its path"
        ) from why
    driver.dt_udp_abi_version.restype = ctypes.c_uint32
    version = driver.dt_udp_abi_version()
    if version != _c_udp.ABI_VERSION:
        raise ImportError(f"{path} has interface {version}, and this package needs {_c_udp.ABI_VERSION}")
    for name, (result, arguments) in _c_udp.FUNCTIONS.items():
        # (to swap errno costs as much as the rest of a call: one function alone sets it)
        function = getattr(with_errno if name == "dt_udp_fd" else driver, name)
        function.restype, function.argtypes = result, arguments
        setattr(driver, name, function)
    return driver


@functools.cache
def drivers() -> Drivers:
    """Loads libdeltat-udp, once. Raises ImportError."""
    path = _udp_path()
    return Drivers(_load_driver(ctypes.CDLL, path), _load_driver(ctypes.PyDLL, path))
