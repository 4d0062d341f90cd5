"""Maps as text: drawings read and written, and what is wrong with one, as rust/dukthari/tests/drawings.rs has them."""

import os
import unittest

import dukthari
from dukthari import Map

TOP = os.path.join(os.path.dirname(os.path.abspath(__file__)), "..")


def text(*path):
    with open(os.path.join(TOP, *path), encoding="utf-8") as file:
        return file.read()


def dots(w, h, d):
    """w characters in each of h rows in each of d layers"""
    return "\n".join([("." * w + "\n") * h] * d)


class Drawings(unittest.TestCase):
    def test_each_place_has_its_own_character(self):
        for node in range(24):
            shelf = Map(4, 3, 2, [int(other == node) for other in range(24)])
            x, y, z = shelf.place(node)
            drawn = list(dots(4, 3, 2))
            drawn[x + 5 * y + 16 * z] = "#"
            self.assertEqual(str(shelf) + "\n", "".join(drawn))
            self.assertEqual(Map.from_drawing("".join(drawn)), shelf)

    def test_sizes_are_those_that_the_library_grants(self):
        for w in (1, 2, 3, 15, 16, 17):
            for h in (1, 2, 3, 15, 16, 17):
                for d in (0, 1, 2, 15, 16, 17):
                    try:
                        shelf = Map(w, h, d)
                    except dukthari.BadSizes:
                        self.assertRaises(dukthari.BadDrawing, Map.from_drawing, dots(w, h, d))
                    else:
                        self.assertEqual(Map.from_drawing(dots(w, h, d)), shelf)

    def test_blank_lines_and_line_ends(self):
        shelf = Map(2, 2, 2, [0, 0, 0, 1, 1, 0, 0, 0])
        for drawn in ("..\n.#\n\n#.\n..\n", "\n\n..\n.#\n\n\n\n#.\n..\n\n", "..\n.#\n\n#.\n..", "..\r\n.#\r\n\r\n#.\r\n..\r\n"):
            self.assertEqual(Map.from_drawing(drawn), shelf)

    def test_flaws(self):
        neither = "is neither '.' (works) nor '#' (faulty)"
        row = "this row's length is {}, that of the first {}".format
        layer = "this layer's height is {}, that of the first {}".format
        for drawn, line, column, flaw in [
            ("...\n.x.\n", 2, 2, f"'x' {neither}"),
            ("..\n..\n\n..\n. \n", 5, 2, f"' ' {neither}"),
            ("#é.\n...\n", 1, 2, f"'é' {neither}"),
            ("..\n..\n \n", 3, 1, f"' ' {neither}"),
            ("..\r\n.\r\r\n", 2, 2, f"'\\r' {neither}"),
            (".\r", 1, 2, f"'\\r' {neither}"),
            ("'.\n..", 1, 1, f"'\\'' {neither}"),
            ('".\n..', 1, 1, f"""'"' {neither}"""),
            ("\\.\n..", 1, 1, f"'\\\\' {neither}"),
            ("\t.\n..", 1, 1, f"'\\t' {neither}"),
            ("\0.\n..", 1, 1, f"'\\0' {neither}"),
            ("\x1b.\n..", 1, 1, f"'\\u{{1b}}' {neither}"),
            ("\x0b.\n..", 1, 1, f"'\\u{{b}}' {neither}"),
            ("\u2028.\n..", 1, 1, f"'\\u{{2028}}' {neither}"),
            (".\u0301\n..", 1, 2, f"'\\u{{301}}' {neither}"),
            ("...\n..\n", 2, 3, row(2, 3)),
            ("...\n....\n", 2, 4, row(4, 3)),
            ("...\n...\n\n...\n.....\n", 5, 4, row(5, 3)),
            ("...\n.\n", 2, 2, row(1, 3)),
            ("..\n..\n\n..\n", 5, 1, layer(1, 2)),
            ("..\n..\n\n..\n..\n..\n", 6, 1, layer(3, 2)),
            (dots(17, 2, 1), 1, 17, "a row has 2 to 16 characters"),
            (dots(300, 2, 1), 1, 17, "a row has 2 to 16 characters"),
            (dots(1, 2, 1), 1, 2, "a row has 2 to 16 characters"),
            (dots(2, 17, 1), 17, 1, "a layer has 2 to 16 rows"),
            (dots(2, 1, 1), 2, 1, "a layer has 2 to 16 rows"),
            (dots(2, 2, 17), 49, 1, "a drawing has 1 to 16 layers"),
            ("", 1, 1, "a drawing has 1 to 16 layers"),
            ("\n\n", 1, 1, "a drawing has 1 to 16 layers"),
        ]:
            with self.subTest(drawn), self.assertRaises(dukthari.BadDrawing) as caught:
                Map.from_drawing(drawn)
            self.assertEqual((caught.exception.line, caught.exception.column, caught.exception.flaw), (line, column, flaw))
            self.assertEqual(str(caught.exception), f"line {line}, column {column}: {flaw}")

    def test_drawings(self):
        names = [name[:-4] for name in os.listdir(os.path.join(TOP, "maps")) if name.endswith(".map")]
        self.assertGreaterEqual(len(names), 5)
        for name in names:
            with open(os.path.join(TOP, "maps", name + ".map"), "rb") as file:
                shelf = Map.from_file(file.read())
            self.assertEqual(str(shelf) + "\n", text("maps", name + ".txt"))
            self.assertEqual(Map.from_drawing(text("maps", name + ".txt")), shelf)

    def test_no_text(self):
        for no_text in (b"..\n..", 4, None, ["..", ".."]):
            with self.assertRaisesRegex(TypeError, f"a drawing is a str, not '{type(no_text).__name__}'"):
                Map.from_drawing(no_text)


if __name__ == "__main__":
    unittest.main()
