"""The library that the module puretakoi calls: where it is found, and its calls as puretakoi.h declares them."""

from __future__ import annotations

import ctypes
import os
from ctypes import POINTER, c_char_p, c_size_t, c_uint8, c_uint32, c_void_p
from pathlib import Path
from typing import Any, List

from puretakoi_words import Class

_SONAME = "libpuretakoi.so.0"


def _find_library() -> ctypes.CDLL:
    """The library: PREFIX/lib is looked into from PREFIX/share/puretakoi/python, where this module is installed."""
    beside = Path(os.path.abspath(__file__)).parent / "../../../lib" / _SONAME
    path = os.environ.get("PURETAKOI_LIBRARY") or (str(beside) if beside.exists() else _SONAME)
    try:
        return ctypes.CDLL(path)
    except OSError as error:
        advice = "run hosts/install, or set PURETAKOI_LIBRARY to where it is"
        raise ImportError(f"the library {path} can't be loaded ({error}): {advice}") from error


def _declared(library: ctypes.CDLL) -> ctypes.CDLL:
    """The calls as puretakoi.h declares them; that of the classes is missing in an older library."""
    numbers: List[Any] = [POINTER(c_uint32), c_size_t]
    tables = numbers + numbers + [c_void_p, c_size_t] + numbers
    library.puretakoi_fresh.argtypes = [c_uint32] + numbers
    library.puretakoi_step.argtypes = [c_char_p, c_size_t, c_uint32] + tables
    library.puretakoi_walk.argtypes = [c_char_p, c_size_t, c_uint32, c_uint32] + tables
    library.puretakoi_find.argtypes = numbers + [c_size_t, c_size_t] + numbers
    library.puretakoi_list_to_file.argtypes = numbers + [c_void_p, c_size_t]
    library.puretakoi_file_to_list.argtypes = [c_char_p, c_size_t] + numbers
    for name in ("fresh", "step", "walk", "find", "list_to_file", "file_to_list"):
        getattr(library, "puretakoi_" + name).restype = c_uint32
    if hasattr(library, "puretakoi_classes_of"):
        library.puretakoi_classes_of.argtypes = [c_uint8]
        library.puretakoi_classes_of.restype = c_uint32
    return library


library = _declared(_find_library())


def older() -> RuntimeError:
    """What is raised where the library has not what this module asks for."""
    return RuntimeError(f"the library {library._name} is older than this module: install both together")


def classes_of(byte: int) -> Class:
    """All that a byte counts as, as the library answers; Class(0) for one that counts as nothing."""
    if not 0 <= byte <= 255:
        raise ValueError(f"{byte} is no byte: name one from 0 to 255")
    if not hasattr(library, "puretakoi_classes_of"):
        raise older()
    return Class(library.puretakoi_classes_of(byte))
