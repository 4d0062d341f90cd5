"""Maps as text that people write: `.` works, `#` is faulty, a row to a line, a blank line between layers. The first character of a row has
x = 0, the first row of a layer y = 0, the first layer z = 0."""

from __future__ import annotations

import unicodedata

from .calls import Triple

# characters that Rust writes in short
_SHORT = {"\0": "\\0", "\t": "\\t", "\n": "\\n", "\r": "\\r", "'": "\\'", "\\": "\\\\"}


class BadDrawing(ValueError):
    """Where a text is not a drawing, its line and column counted from 1, and why, in words: the flaw."""

    def __init__(self, line: int, column: int, flaw: str) -> None:
        super().__init__(line, column, flaw)
        self.line = line
        self.column = column
        self.flaw = flaw

    def __str__(self) -> str:
        return f"line {self.line}, column {self.column}: {self.flaw}"


def read(text: str) -> tuple[Triple, bytes]:
    """The sizes and the cells of a drawing. Blank lines before the first layer and after the last, and more than one between two, are as
    good."""
    if not isinstance(text, str):
        raise TypeError(f"a drawing is a str, not {type(text).__name__!r}")
    layers = _layers(text)
    height, width = (len(layers[0]), len(layers[0][0][1])) if layers else (0, 0)
    cells = b"".join(_layer_cells(rows, width, height) for rows in layers[:16])
    if not 1 <= len(layers) <= 16:
        raise BadDrawing(layers[16][0][0] if layers else 1, 1, "a drawing has 1 to 16 layers")
    return (width, height, len(layers)), cells


def _layers(text: str) -> list[list[tuple[int, str]]]:
    """The stretches of lines that are not blank: of each row the number of its line, and the row."""
    *lines, last = text.split("\n")
    layers: list[list[tuple[int, str]]] = [[]]
    for line, row in enumerate([*(row.removesuffix("\r") for row in lines), last], 1):
        if row:
            layers[-1].append((line, row))
        elif layers[-1]:
            layers.append([])
    return [rows for rows in layers if rows]


def _layer_cells(rows: list[tuple[int, str]], width: int, first: int) -> bytes:
    """A layer's cells, if it has as many rows as the first."""
    cells = b"".join(_row_cells(line, row, width) for line, row in rows[: min(first, 16)])
    has = len(rows)
    if has != first:
        raise BadDrawing(rows[0][0] + min(has, first), 1, f"this layer's height is {has}, that of the first {first}")
    if not 2 <= has <= 16:
        raise BadDrawing(rows[0][0] + min(has, 16), 1, "a layer has 2 to 16 rows")
    return cells


def _row_cells(line: int, row: str, first: int) -> bytes:
    """A row's cells, if it has as many as the first. What is missing is looked for where it should stand."""
    has = len(row)
    for column, found in enumerate(row, 1):
        if column > 16:
            raise BadDrawing(line, column, "a row has 2 to 16 characters")
        if column > first:
            raise BadDrawing(line, column, f"this row's length is {has}, that of the first {first}")
        if found not in ".#":
            raise BadDrawing(line, column, f"{_quoted(found)} is neither '.' (works) nor '#' (faulty)")
    if has < first:
        raise BadDrawing(line, has + 1, f"this row's length is {has}, that of the first {first}")
    if has < 2:
        raise BadDrawing(line, has + 1, "a row has 2 to 16 characters")
    return bytes(".#".index(found) for found in row)


def _quoted(found: str) -> str:
    """A character in quotes, as Rust shows it, a few rare marks apart: what does not print, or prints upon another, by its number."""
    if found in _SHORT:
        return f"'{_SHORT[found]}'"
    if found.isprintable() and unicodedata.category(found) not in ("Mn", "Me"):
        return f"'{found}'"
    return "'\\u{%x}'" % ord(found)
