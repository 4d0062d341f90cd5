"""The nodes that tell each other their marks."""

from __future__ import annotations

import functools
import operator
from collections.abc import Iterable
from ctypes import c_uint8
from typing import NamedTuple, SupportsIndex

from .calls import Triple, as_bytes, call, nodes
from .map import Map


class Word(NamedTuple):
    """A word that a listener has yet to hear from its neighbour in a direction: 0, 2, 4 or 6."""

    listener: int
    direction: int
    word: int


@functools.lru_cache(maxsize=16)
def _links(sizes: Triple) -> tuple[Triple, ...]:
    """Each node, each direction in which it has a neighbour, and that neighbour, as the library's steps go."""
    links = []
    for node in range(nodes(sizes)):
        place = call("dk_place", (*sizes, node))
        for direction in range(6):
            step = call("dk_step", (*sizes, place.x, place.y, place.z, direction))
            if step.there:
                links.append((node, direction, call("dk_number", (*sizes, step.x, step.y, step.z)).node))
    return tuple(links)


class Field:
    """The state of the talking nodes of a mesh in one orientation: seven bytes for each node, its own mark byte and then what it has heard
    from directions 0 to 5. It is always sound: it begins so, and hearing keeps it so.

    >>> from dukthari import Field, Map
    >>> shelf = Map(4, 4, 1)
    >>> for place in [(2, 1, 0), (1, 2, 0), (0, 2, 0)]:
    ...     shelf.fail(*place)
    >>> field = Field.fresh(shelf, 0)
    >>> field.hear(4, 0, 2)  # node 4 hears from +X that its neighbour is useless
    >>> field.own(4), field.outstanding()
    (2, 5)
    >>> while not field.is_settled():
    ...     for word in field.news():
    ...         field.hear(*word)
    >>> field.marks() == shelf.marks(0)
    True
    """

    def __init__(
        self, w: SupportsIndex, h: SupportsIndex, d: SupportsIndex, orientation: SupportsIndex, state: Iterable[SupportsIndex]
    ) -> None:
        self._sizes = operator.index(w), operator.index(h), operator.index(d)
        self._orientation = operator.index(orientation)
        row = as_bytes(state)
        self._state = (c_uint8 * len(row))(*row)
        call("dk_sound", (*self.sizes, self.orientation), self.state)

    @classmethod
    def fresh(cls, shelf: Map, orientation: SupportsIndex) -> Field:
        """The state of a Map in which nothing has been heard."""
        state = (c_uint8 * (7 * len(shelf.cells)))()
        call("dk_fresh", (*shelf.sizes, orientation), shelf.cells, state)
        return cls(*shelf.sizes, orientation, state)

    @property
    def sizes(self) -> Triple:
        """Width, height and depth."""
        return self._sizes

    @property
    def orientation(self) -> int:
        """The orientation, 0 to 7."""
        return self._orientation

    @property
    def state(self) -> bytes:
        """The bytes of the state, as Field takes them."""
        return bytes(self._state)

    def __eq__(self, other: object) -> bool:
        return isinstance(other, Field) and (self.sizes, self.orientation, self.state) == (other.sizes, other.orientation, other.state)

    def __repr__(self) -> str:
        return "Field({}, {}, {}, {}, {!r})".format(*self.sizes, self.orientation, self.state)

    def own(self, node: SupportsIndex) -> int:
        """What a node knows of itself, as a mark byte."""
        node = operator.index(node)
        call("dk_place", (*self.sizes, node))
        return self._state[7 * node]

    def heard(self, node: SupportsIndex, direction: SupportsIndex) -> int:
        """The byte that a node has heard from a direction: a word, 8 where no neighbour exists, 1 where it is faulty. A faulty node has
        heard 0."""
        node, direction = operator.index(node), operator.index(direction)
        place = call("dk_place", (*self.sizes, node))
        call("dk_step", (*self.sizes, place.x, place.y, place.z, direction))
        return self._state[7 * node + 1 + direction]

    def marks(self) -> bytes:
        """What each node knows of itself. Once nothing is outstanding these are the marks of the map."""
        return self.state[::7]

    def outstanding(self) -> int:
        """How many words are outstanding: pairs of working neighbours in which the listener has not heard what the speaker now holds."""
        return call("dk_outstanding", (*self.sizes, self.orientation), self.state).count

    def is_settled(self) -> bool:
        """Whether nothing is outstanding."""
        return self.outstanding() == 0

    def news(self) -> list[Word]:
        """The words that are outstanding, as the speakers hold them now. Of a faulty neighbour a node has heard 1, its own byte: no news."""
        own, state = self.marks(), self.state
        return [
            Word(node, direction, own[speaker])
            for node, direction, speaker in _links(self.sizes)
            if own[node] != 1 and own[speaker] != state[7 * node + 1 + direction]
        ]

    def hear(self, listener: SupportsIndex, direction: SupportsIndex, word: SupportsIndex) -> None:
        """A node hears a word, 0, 2, 4 or 6, from its neighbour in a direction. A late word takes nothing away."""
        call("dk_hear", (*self.sizes, self.orientation, listener, direction, word), self._state)
