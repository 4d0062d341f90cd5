"""Dukthari for Python: a storage shelf's mesh with its failed nodes, as a Map.

>>> from dukthari import Map
>>> shelf = Map(5, 5, 1)
>>> shelf.fail(2, 1, 0)
>>> shelf.fail(1, 2, 0)
>>> shelf.faulty()
[7, 11]
>>> shelf.verdict(0, 24)
Verdict(hops=8, offered=5)
>>> shelf.route(0, 24)
[0, 1, 2, 3, 4, 9, 14, 19, 24]
>>> shelf.route(6, 24)
Traceback (most recent call last):
    ...
dukthari.refusals.NoPath: refused 10: no path: every way of the least length from start to end meets a faulty node

A node (x, y, z) has the number x + w * (y + h * z). Directions are 0 for +X, 1 for -X, 2 +Y, 3 -Y, 4 +Z, 5 -Z. In an orientation, 0 to 7,
X runs down if bit 0 is set, Y if bit 1, Z if bit 2.

Every answer is the proved library's. A call that it refuses raises one of the exceptions below Refused, and has changed nothing. The
shared library is the file that the environment names in DUKTHARI_LIBRARY, else libdukthari.so beside this package, else
target/shared/libdukthari.so in its tree, which `make` makes, else the system's.
"""

from .calls import LIBRARY
from .drawing import BadDrawing
from .field import Field, Word
from .map import Component, Map, Verdict
from .refusals import (
    REFUSALS,
    BadCell,
    BadFile,
    BadLength,
    BadNumber,
    BadSizes,
    FaultyEnd,
    NoPair,
    NoPath,
    NoRoom,
    NotHeld,
    Refused,
    Unsound,
)

__all__ = [
    "LIBRARY",
    "REFUSALS",
    "BadCell",
    "BadDrawing",
    "BadFile",
    "BadLength",
    "BadNumber",
    "BadSizes",
    "Component",
    "FaultyEnd",
    "Field",
    "Map",
    "NoPair",
    "NoPath",
    "NoRoom",
    "NotHeld",
    "Refused",
    "Unsound",
    "Verdict",
    "Word",
]
