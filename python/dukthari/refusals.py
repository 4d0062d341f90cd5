"""Why a call was refused: an exception for each number."""

from __future__ import annotations


class Refused(Exception):
    """A call was refused: its number, and the reason in words."""

    number: int = 0
    reason: str = ""

    def __str__(self) -> str:
        return f"refused {self.number}: {self.reason}"


class BadSizes(Refused):
    """W, H or D is outside its range."""

    number = 1
    reason = "width and height must be 2 to 16, depth 1 to 16"


class BadLength(Refused):
    """The cells are not exactly N bytes, or a state not exactly 7 × N."""

    number = 2
    reason = "the cells must be exactly one byte for each node, a state exactly seven"


class NoRoom(Refused):
    """An output lent is shorter than what is to be written."""

    number = 3
    reason = "an output that was lent is shorter than what is to be written"


class BadCell(Refused):
    """A cell is above 1. The number of the first such node is in `node`."""

    number = 4
    reason = "a cell is neither 0 (works) nor 1 (faulty)"

    def __init__(self, node: int) -> None:
        super().__init__(node)
        self.node = node

    def __str__(self) -> str:
        return f"{super().__str__()}, the first at node {self.node}"


class BadNumber(Refused):
    """An orientation above 7, a node N or above, a place outside the mesh, a direction above 5, or a word that is not 0, 2, 4 or 6."""

    number = 5
    reason = "an orientation above 7, a node or place outside the mesh, a direction above 5, or a word that is not 0, 2, 4 or 6"


class Unsound(Refused):
    """The state is not sound for this orientation."""

    number = 6
    reason = "the state is not sound for this orientation"


class NoPair(Refused):
    """The listener is faulty, or the neighbour is absent or faulty."""

    number = 7
    reason = "the listener is faulty, or its neighbour in that direction is absent or faulty"


class NotHeld(Refused):
    """The word holds a mark that the speaker lacks now."""

    number = 8
    reason = "the word holds a mark that the speaker lacks now"


class FaultyEnd(Refused):
    """The start or the end of a route is faulty."""

    number = 9
    reason = "the start or the end of the route is faulty"


class NoPath(Refused):
    """No path leads from start to end."""

    number = 10
    reason = "no path: every way of the least length from start to end meets a faulty node"


class BadFile(Refused):
    """The file's length, mark, zero byte or distance is wrong."""

    number = 11
    reason = "no map file: its length, mark, zero byte or distance is wrong"


REFUSALS: dict[int, type[Refused]] = {kind.number: kind for kind in Refused.__subclasses__()}
