"""The seven calls of the proved library: the shared object, where it is found, and what C passes to it."""

from __future__ import annotations

import ctypes
import ctypes.util
import os
from array import array
from functools import partial
from pathlib import Path
from typing import Any, Callable, Dict, Optional, Tuple

from . import stack
from .refusal import Refusal

#: Of kneukelboom.h; the symbol of each call ends in it.
VERSION = 2
FILE = f"libkneukelboom.so.{VERSION}"

REFUSED = 7
LINES: Dict[int, Optional[str]] = {0: None, 1: "A", 2: "B"}


class Reply(ctypes.Structure):
    """What a call answers: `kneukelboom_reply`."""

    _fields_ = [
        ("word", ctypes.c_uint32),
        ("visits", ctypes.c_uint32),
        ("number", ctypes.c_uint32),
        ("line", ctypes.c_uint32),
        ("place", ctypes.c_uint64),
    ]


_old = [ctypes.POINTER(ctypes.c_int32), ctypes.c_size_t]
_wide = [ctypes.POINTER(ctypes.c_int64), ctypes.c_size_t]
_line = _wide * 2  # its points, then its table
PARAMETERS = {
    "build": _line,
    "widen": _old + _wide,
    "check": _line,
    "near": _line + [ctypes.c_int64] * 3 + [ctypes.c_uint32],
    "inside": _line + [ctypes.c_int64] * 2 + [ctypes.c_uint32],
    "meet": _line * 2 + [ctypes.c_uint32],
    "agree": _line * 2 + [ctypes.c_int64] + [ctypes.c_uint32],
}


def lent(numbers: array[int]) -> Tuple[Any, int]:
    """An array as the calls take it: where its numbers are, which it keeps for as long, and how many."""
    of = {"i": ctypes.c_int32, "q": ctypes.c_int64}[numbers.typecode]
    return (ctypes.byref(of.from_buffer(numbers)) if numbers else None), len(numbers)


def ask(name: str, most: int, levels: Callable[[], int], *passed: Any) -> Reply:
    """Makes a call; what is refused is raised. How deep it goes is told as to `stack.run`."""
    reply = stack.run(name, partial(_calls[name], *passed), most, levels)
    if reply.word == REFUSED:
        raise Refusal(reply.number, LINES[reply.line], reply.place, reply.visits)
    return reply


def _path() -> str:
    """KNEUKELBOOM_LIB; else beside this module, or where `make` in the repository writes it; else the system's."""
    named = os.environ.get("KNEUKELBOOM_LIB")
    if named:
        return named
    here = Path(__file__).resolve().parent
    for folder in here, here.parent.parent / "target" / "lib":
        if (folder / FILE).exists():
            return str(folder / FILE)
    found = ctypes.util.find_library("kneukelboom")
    if not found:
        raise ImportError(
            f"{FILE} is not found. Make it with `make` in the root of Kneukelboom's repository, install it with "
            "`make install`, or name it in the environment variable KNEUKELBOOM_LIB."
        )
    return found


def _load() -> Dict[str, Callable[..., Reply]]:
    path = _path()
    try:
        shared = ctypes.CDLL(path)
        calls = {name: getattr(shared, f"kneukelboom_{name}_v{VERSION}") for name in PARAMETERS}
    except OSError as error:
        raise ImportError(f"{path} cannot be loaded: {error}. It is for x86-64 Linux.") from error
    except AttributeError as error:
        raise ImportError(f"{path} lacks a call of version {VERSION}: {error}. Make it again with `make`.") from error
    for name, call in calls.items():
        call.argtypes, call.restype = PARAMETERS[name], Reply
    return calls


_calls = _load()
