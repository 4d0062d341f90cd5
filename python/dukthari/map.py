"""A map that owns its sizes and cells."""

from __future__ import annotations

import operator
from collections.abc import Iterable
from ctypes import c_uint8, c_uint16
from typing import NamedTuple, SupportsIndex

from . import drawing
from .calls import Record, Triple, as_bytes, call, nodes


class Verdict(NamedTuple):
    """The hops from start to end, and the directions in which a path begins: bit k for direction k."""

    hops: int
    offered: int

    @property
    def directions(self) -> tuple[int, ...]:
        """The directions in which a path begins, in rising order.

        >>> Verdict(hops=8, offered=5).directions
        (0, 2)
        """
        return tuple(direction for direction in range(6) if self.offered >> direction & 1)


class Component(NamedTuple):
    """A component: its number of nodes, and the least and the greatest x, y and z among them."""

    count: int
    least: Triple
    greatest: Triple


class Map:
    """A mesh and which of its nodes are faulty. Without cells every node works.

    >>> Map(2, 2, 1, b"\\0\\0\\1\\0").faulty()
    [2]
    >>> Map(2, 2, 1, [0, 0, 7, 0])
    Traceback (most recent call last):
        ...
    dukthari.refusals.BadCell: refused 4: a cell is neither 0 (works) nor 1 (faulty), the first at node 2
    """

    def __init__(
        self, w: SupportsIndex, h: SupportsIndex, d: SupportsIndex, cells: Iterable[SupportsIndex] | None = None
    ) -> None:
        self._sizes = operator.index(w), operator.index(h), operator.index(d)
        self._cells = bytes(nodes(self.sizes)) if cells is None else as_bytes(cells)
        self.to_file()

    @classmethod
    def from_file(cls, file: bytes | bytearray | memoryview) -> Map:
        """The map in the bytes of a map file, with or without notes before the cells.

        >>> Map.from_file(b"a note\\0\\0\\0\\1\\2\\2\\1\\0\\x10\\0\\0\\0FLD1")
        Map(2, 2, 1, b'\\x00\\x00\\x00\\x01')
        """
        cells = (c_uint8 * 4096)()
        answer = call("dk_read_map", (), memoryview(file).tobytes(), cells)
        sizes = answer.w, answer.h, answer.d
        return cls(*sizes, cells[: nodes(sizes)])

    @classmethod
    def from_drawing(cls, text: str) -> Map:
        """The map of a drawing: `.` works, `#` is faulty, a row to a line, a blank line between layers. BadDrawing says where a text is
        none, and why.

        >>> Map.from_drawing("..#\\n...\\n#..").route(0, 8)
        [0, 1, 4, 5, 8]
        >>> Map.from_drawing("...\\n.x.\\n...")
        Traceback (most recent call last):
            ...
        dukthari.drawing.BadDrawing: line 2, column 2: 'x' is neither '.' (works) nor '#' (faulty)
        """
        sizes, cells = drawing.read(text)
        return cls(*sizes, cells)

    def to_file(self) -> bytes:
        """The bytes of the map's file, without notes."""
        file = (c_uint8 * (4096 + 12))()
        return bytes(file[: call("dk_write_map", self.sizes, self._cells, file).count])

    @property
    def sizes(self) -> Triple:
        """Width, height and depth."""
        return self._sizes

    @property
    def cells(self) -> bytes:
        """One byte for each node, in node order: 0 works, 1 is faulty."""
        return self._cells

    def __eq__(self, other: object) -> bool:
        return isinstance(other, Map) and (self.sizes, self._cells) == (other.sizes, other._cells)

    def __repr__(self) -> str:
        return "Map({}, {}, {}, {!r})".format(*self.sizes, self._cells)

    def __str__(self) -> str:
        """The map as a drawing, as from_drawing reads it and ./draw text prints it."""
        w, h, _ = self.sizes
        rows = ["".join(".#"[cell] for cell in self._cells[i : i + w]) for i in range(0, len(self._cells), w)]
        return "\n\n".join("\n".join(rows[i : i + h]) for i in range(0, len(rows), h))

    def number(self, x: SupportsIndex, y: SupportsIndex, z: SupportsIndex) -> int:
        """The number of the node at a place."""
        return call("dk_number", (*self.sizes, x, y, z)).node

    def place(self, node: SupportsIndex) -> Triple:
        """The place (x, y, z) of a node."""
        answer = call("dk_place", (*self.sizes, node))
        return answer.x, answer.y, answer.z

    def step(self, x: SupportsIndex, y: SupportsIndex, z: SupportsIndex, direction: SupportsIndex) -> Triple | None:
        """The next place in a direction, None where the mesh ends.

        >>> Map(5, 5, 1).step(4, 0, 0, 2)
        (4, 1, 0)
        """
        answer = call("dk_step", (*self.sizes, x, y, z, direction))
        return (answer.x, answer.y, answer.z) if answer.there else None

    def faulty(self) -> list[int]:
        """The numbers of the faulty nodes, in rising order."""
        return [node for node, cell in enumerate(self._cells) if cell]

    def fail(self, x: SupportsIndex, y: SupportsIndex, z: SupportsIndex) -> None:
        """Enters a node as faulty. A dead link is entered by both its ends."""
        self._enter(self.number(x, y, z), b"\1")

    def repair(self, x: SupportsIndex, y: SupportsIndex, z: SupportsIndex) -> None:
        """Enters a node as working."""
        self._enter(self.number(x, y, z), b"\0")

    def _enter(self, node: int, cell: bytes) -> None:
        self._cells = self._cells[:node] + cell + self._cells[node + 1 :]

    def marks(self, orientation: SupportsIndex) -> bytes:
        """The mark byte of each node: 0 none, 1 faulty, 2 useless, 4 can't-reach, 6 both.

        >>> list(Map(3, 3, 1, [0, 1, 0, 1, 0, 1, 0, 1, 0]).marks(0))
        [2, 1, 0, 1, 6, 1, 0, 1, 4]
        """
        out = (c_uint8 * len(self._cells))()
        call("dk_marks", (*self.sizes, orientation), self._cells, out)
        return bytes(out)

    def components(self, orientation: SupportsIndex) -> tuple[list[int], list[Component]]:
        """For each node the number of its component, 0 for a safe one; and a record for each component, that of number i at i - 1.

        >>> table, records = Map(3, 2, 1, [1, 0, 0, 1, 0, 1]).components(0)
        >>> table
        [1, 0, 0, 1, 0, 2]
        >>> records[0]
        Component(count=2, least=(0, 0, 0), greatest=(0, 1, 0))
        """
        table = (c_uint16 * len(self._cells))()
        row = (Record * len(self._cells))()
        count = call("dk_components", (*self.sizes, orientation), self._cells, table, row).count
        return list(table), [
            Component(record.count, (record.x0, record.y0, record.z0), (record.x1, record.y1, record.z1)) for record in row[:count]
        ]

    def verdict(self, start: SupportsIndex, end: SupportsIndex) -> Verdict:
        """May a transfer go from start to end by a path of the least length through working nodes?"""
        answer = call("dk_verdict", (*self.sizes, start, end), self._cells)
        return Verdict(answer.hops, answer.offered)

    def route(self, start: SupportsIndex, end: SupportsIndex) -> list[int]:
        """The nodes of the path that takes the lowest-numbered direction in which one begins, at each node."""
        out = (c_uint16 * 46)()
        return out[: call("dk_route", (*self.sizes, start, end), self._cells, out).count]

    def reached(self, start: SupportsIndex, end: SupportsIndex) -> bytes:
        """For each node 1 where a path towards the end leads from the start to it, else 0. Where the end has 0, this shows that no path
        leads there, one step at a time."""
        out = (c_uint8 * len(self._cells))()
        call("dk_reached", (*self.sizes, start, end), self._cells, out)
        return bytes(out)
