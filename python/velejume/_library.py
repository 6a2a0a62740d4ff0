"""The shared object: where it is found, and its C names."""

from __future__ import annotations

import ctypes
import ctypes.util
import os
from pathlib import Path

VARIABLE = "VELEJUME_LIBRARY"
NAME = "libvelejume.so"


def find() -> str:
    """The path of the shared object, or its name where the system finds it by that."""
    named = os.environ.get(VARIABLE)
    if named:
        return named
    here = Path(__file__).resolve().parent
    places = [here / NAME, here.parent.parent / "target" / "shared" / NAME]
    for place in places:
        if place.is_file():
            return str(place)
    found = ctypes.util.find_library("velejume")
    if found:
        return found
    looked = "".join(f"\n  {place}" for place in places)
    raise ImportError(f"there is no {NAME}: `make shared` makes it, {VARIABLE} says where it is. Looked for, beside the system's libraries:{looked}")


def load(path: str) -> ctypes.CDLL:
    """The shared object with the types of its functions, as velejume.h has them."""
    try:
        library = ctypes.CDLL(path)
        phase, heterozygous, margins = library.velejume_phase, library.velejume_phase_heterozygous, library.velejume_phase_margins
        judge, convert = library.velejume_judge, library.velejume_convert
    except (OSError, AttributeError) as fault:
        raise ImportError(f"{path} is no velejume library for this machine: {fault}", path=path) from fault
    data, size = ctypes.c_char_p, ctypes.c_size_t
    entries, room, number = ctypes.POINTER(ctypes.c_uint32), ctypes.POINTER(ctypes.c_uint8), ctypes.POINTER(ctypes.c_uint32)
    phase.argtypes = heterozygous.argtypes = [data, size, entries, size, room, size, number]
    margins.argtypes = [data, size, entries, size, room, size, entries, size, number]
    judge.argtypes = [data, size, data, size, entries, size, number]
    convert.argtypes = [data, size, room, size, number]
    phase.restype = heterozygous.restype = margins.restype = judge.restype = convert.restype = ctypes.c_uint32
    return library


library = load(find())
