"""The C calls: the shared library, and each call with the exception for its refusal."""

from __future__ import annotations

import ctypes
import ctypes.util
import operator
import os
from collections.abc import Iterable
from ctypes import POINTER, Structure, c_char_p, c_size_t, c_uint8, c_uint16, c_uint32
from typing import Any, SupportsIndex

from .refusals import REFUSALS, BadCell

# sizes, or a place
Triple = tuple[int, int, int]


def _answer(name: str, *fields: str) -> Any:
    """A struct of 32-bit fields, by its name in include/dukthari.h."""
    return type(name, (Structure,), {"_fields_": [(field, c_uint32) for field in fields]})


_Done = _answer("dk_done", "refusal", "bad")
_Counted = _answer("dk_counted", "refusal", "bad", "count")
_VerdictAnswer = _answer("dk_verdict_answer", "refusal", "bad", "hops", "offered")
_MapAnswer = _answer("dk_map_answer", "refusal", "bad", "w", "h", "d")
_NodeAnswer = _answer("dk_node_answer", "refusal", "node")
_PlaceAnswer = _answer("dk_place_answer", "refusal", "x", "y", "z")
_StepAnswer = _answer("dk_step_answer", "refusal", "there", "x", "y", "z")


class Record(Structure):
    """The record of a component: dk_component."""

    _fields_ = [("count", c_uint16), *((field, c_uint8) for field in ("x0", "y0", "z0", "x1", "y1", "z1"))]


_READ = (c_char_p, c_size_t)
_BYTES = (POINTER(c_uint8), c_size_t)
_HALVES = (POINTER(c_uint16), c_size_t)
_RECORDS = (POINTER(Record), c_size_t)

# Each call as include/dukthari.h declares it: its answer, how many numbers it takes, and its buffers.
CALLS = {
    "dk_number": (_NodeAnswer, 6),
    "dk_place": (_PlaceAnswer, 4),
    "dk_step": (_StepAnswer, 7),
    "dk_marks": (_Done, 4, _READ, _BYTES),
    "dk_components": (_Counted, 4, _READ, _HALVES, _RECORDS),
    "dk_verdict": (_VerdictAnswer, 5, _READ),
    "dk_route": (_Counted, 5, _READ, _HALVES),
    "dk_reached": (_Counted, 5, _READ, _BYTES),
    "dk_fresh": (_Done, 4, _READ, _BYTES),
    "dk_sound": (_Done, 4, _READ),
    "dk_outstanding": (_Counted, 4, _READ),
    "dk_hear": (_Done, 7, _BYTES),
    "dk_read_map": (_MapAnswer, 0, _READ, _BYTES),
    "dk_write_map": (_Counted, 3, _READ, _BYTES),
}


def _load() -> ctypes.CDLL:
    """The shared library: the one that the environment names, the one beside this package, that of this tree, or the system's."""
    named = os.environ.get("DUKTHARI_LIBRARY")
    beside = os.path.dirname(os.path.dirname(os.path.abspath(__file__)))
    made = os.path.join(os.path.dirname(beside), "target", "shared")
    there = [path for folder in (beside, made) if os.path.exists(path := os.path.join(folder, "libdukthari.so"))]
    found = named or (there[0] if there else ctypes.util.find_library("dukthari"))
    if not found:
        raise ImportError("no libdukthari.so: `make` makes it; it may stand beside the package, or DUKTHARI_LIBRARY names it")
    library = ctypes.CDLL(found)
    for name, (answer, numbers, *buffers) in CALLS.items():
        function = getattr(library, name)
        function.restype = answer
        function.argtypes = [c_uint32] * numbers + [part for buffer in buffers for part in buffer]
    return library


LIBRARY = _load()


def as_number(number: SupportsIndex) -> int:
    """A number as the calls take it. One that has no 32 bits becomes the largest, which is outside every range, so that it is refused."""
    number = operator.index(number)
    return number if 0 <= number < 2**32 else 2**32 - 1


def as_bytes(row: Iterable[SupportsIndex]) -> bytes:
    """Cells or a state as the calls take them. A number that has no 8 bits becomes 255, which is neither, so that it is refused."""
    return bytes(number if 0 <= number < 256 else 255 for number in map(operator.index, row))


def call(name: str, numbers: Iterable[SupportsIndex], *buffers: Any) -> Any:
    """Calls the library: the answer, or the exception for its refusal. Each buffer goes with its length."""
    lent = [part for buffer in buffers for part in (buffer, len(buffer))]
    answer = getattr(LIBRARY, name)(*map(as_number, numbers), *lent)
    if answer.refusal == 0:
        return answer
    kind = REFUSALS[answer.refusal]
    raise kind(answer.bad) if kind is BadCell else kind()


def nodes(sizes: Triple) -> int:
    """How many nodes the mesh has; BadSizes if it is none."""
    call("dk_place", (*sizes, 0))
    w, h, d = sizes
    return w * h * d
