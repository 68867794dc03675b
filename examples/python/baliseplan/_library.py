"""The calls of the C library, by ctypes."""

from __future__ import annotations

import ctypes
import functools
import os
from pathlib import Path
from typing import Any, Callable

ABI = 1
"""The interface that the declarations of this module are for: BALISEPLAN_ABI of the header."""

NAME = f"libbaliseplan.so.{ABI}"


def call(data: bytes, flags: int) -> tuple[int, bytes]:
    """One run of the editor: what the call answers, and what it printed. Flags have to be from 0 to 2^32 - 1."""
    return printed_by(library().baliseplan_run_alloc, data, len(data), flags)


def call_facts(data: bytes, what: int, serial: int) -> tuple[int, bytes]:
    """One run that tells facts. Both numbers have to be from 0 to 2^32 - 1."""
    return printed_by(library().baliseplan_facts_alloc, data, len(data), what, serial)


def call_explain(data: bytes) -> tuple[int, bytes]:
    """One run from digits to fields."""
    return printed_by(library().baliseplan_explain_alloc, data, len(data))


def call_spell(data: bytes) -> tuple[int, bytes]:
    """One run from fields to digits."""
    return printed_by(library().baliseplan_spell_alloc, data, len(data))


def printed_by(function: Callable[..., int], *given: bytes | int) -> tuple[int, bytes]:
    """What a call answers that allocates its output, and a copy of that."""
    output, length = ctypes.c_void_p(), ctypes.c_size_t()
    answer = function(*given, ctypes.byref(output), ctypes.byref(length))
    try:
        return answer, ctypes.string_at(output, length.value) if output else b""
    finally:
        library().baliseplan_free(output)


def strerror(answer: int) -> str:
    """What an answer means, in a few words."""
    text: bytes = library().baliseplan_strerror(answer)
    return text.decode("ascii")


def version() -> str:
    """The version of the library."""
    text: bytes = library().baliseplan_version()
    return text.decode("ascii")


@functools.lru_cache(maxsize=None)
def library() -> ctypes.CDLL:
    """The library, loaded once."""
    path = library_path()
    try:
        loaded = ctypes.CDLL(path)
    except OSError as error:
        raise ImportError(f"{error}; set BALISEPLAN_LIBRARY to the path of {NAME}") from error
    declare(loaded)
    found = loaded.baliseplan_abi()
    if found != ABI:
        raise ImportError(f"{path} has the interface {found}, and this module needs {ABI}")
    return loaded


def declare(loaded: ctypes.CDLL) -> None:
    data = [ctypes.c_char_p, ctypes.c_size_t]
    output = [ctypes.POINTER(ctypes.c_void_p), ctypes.POINTER(ctypes.c_size_t)]
    calls: dict[str, tuple[Any, list[Any]]] = {
        "baliseplan_abi": (ctypes.c_uint32, []),
        "baliseplan_version": (ctypes.c_char_p, []),
        "baliseplan_strerror": (ctypes.c_char_p, [ctypes.c_int32]),
        "baliseplan_free": (None, [ctypes.c_void_p]),
        "baliseplan_run_alloc": (ctypes.c_int32, [*data, ctypes.c_uint32, *output]),
        "baliseplan_facts_alloc": (ctypes.c_int32, [*data, ctypes.c_uint32, ctypes.c_uint32, *output]),
        "baliseplan_explain_alloc": (ctypes.c_int32, [*data, *output]),
        "baliseplan_spell_alloc": (ctypes.c_int32, [*data, *output]),
    }
    for name, (returned, given) in calls.items():
        function = getattr(loaded, name)
        function.restype, function.argtypes = returned, given


def library_path() -> str:
    """The first of: what BALISEPLAN_LIBRARY names, the one in this folder, the repository's or archive's, the system's."""
    named = os.environ.get("BALISEPLAN_LIBRARY")
    if named:
        return named
    here = Path(__file__).resolve().parent
    tops = [top for top in list(here.parents)[2:3] if (top / "include" / "baliseplan.h").exists()]
    built = [top / folder / NAME for top in tops for folder in ("out", "lib")]
    return next((str(place) for place in (here / NAME, *built) if place.exists()), NAME)
