"""The module's examples, the scope paper's samples, each refusal, and values."""

import doctest
import random
import unittest
import unittest.mock

import dukthari
from dukthari import Component, Field, Map, Verdict, calls


def p():
    """Map P"""
    return Map(5, 5, 1, [1 if node in (7, 11) else 0 for node in range(25)])


class Indexed:
    """A number type with nothing but its index."""

    def __init__(self, number):
        self.number = number

    def __index__(self):
        return self.number


class Wrapping(int):
    """A number type of 4 bits, which wraps."""

    def __mul__(self, other):
        return Wrapping(int(self) * int(other) % 16)

    def __add__(self, other):
        return Wrapping((int(self) + int(other)) % 16)

    __rmul__, __radd__ = __mul__, __add__


class Samples(unittest.TestCase):
    def test_marks_and_components(self):
        marks = p().marks(0)
        self.assertEqual([(node, mark) for node, mark in enumerate(marks) if mark], [(6, 2), (7, 1), (11, 1), (12, 4)])
        table, records = p().components(0)
        self.assertEqual(records, [Component(4, (1, 1, 0), (2, 2, 0))])
        self.assertEqual([node for node, number in enumerate(table) if number == 1], [6, 7, 11, 12])
        self.assertEqual(p().marks(1), p().cells)
        self.assertEqual([record.count for record in p().components(1)[1]], [2])

    def test_routes(self):
        self.assertEqual(p().verdict(0, 24), Verdict(8, 5))
        self.assertEqual(p().verdict(24, 0).offered, 10)
        self.assertEqual(p().route(24, 0), [24, 23, 22, 21, 20, 15, 10, 5, 0])
        self.assertEqual(p().verdict(6, 6), Verdict(0, 0))
        self.assertEqual(p().route(6, 6), [6])
        self.assertEqual(p().verdict(5, 6).hops, 1)
        for start, end, number in [(0, 12, 10), (2, 17, 10), (7, 24, 9), (25, 7, 5)]:
            self.assertRaises(dukthari.REFUSALS[number], p().verdict, start, end)
            self.assertRaises(dukthari.REFUSALS[number], p().route, start, end)

    def test_talking_nodes(self):
        field = Field.fresh(Map(4, 4, 1, [0, 0, 0, 0, 0, 0, 1, 0, 1, 1, 0, 0, 0, 0, 0, 0]), 0)
        self.assertEqual(field.outstanding(), 4)
        self.assertRaises(dukthari.NotHeld, field.hear, 4, 0, 4)
        field.hear(4, 0, 2)
        self.assertEqual((field.own(4), field.heard(4, 0), field.outstanding()), (2, 2, 5))
        news = field.news()
        self.assertEqual(len(news), 5)
        for word in news:
            field.hear(*word)
        self.assertEqual(field.outstanding(), 0)

    def test_file(self):
        file = p().to_file()
        self.assertEqual(len(file), 37)
        self.assertEqual(Map.from_file(file), p())
        self.assertEqual(Map.from_file(b"notes" + file), p())
        self.assertEqual(Map.from_file(bytearray(file)), p())
        self.assertEqual(Map.from_file(memoryview(b"notes" + file)[2:]), p())
        for no_file in (37, "a map", None, [0] * 37):
            with self.assertRaisesRegex(TypeError, f"bytes-like object is required, not '{type(no_file).__name__}'"):
                Map.from_file(no_file)

    def test_reached(self):
        self.assertEqual([node for node, byte in enumerate(p().reached(2, 17)) if byte], [2])
        self.assertEqual(p().reached(0, 24)[24], 1)


class Refusals(unittest.TestCase):
    def test_each(self):
        field = Field.fresh(p(), 0)
        asked = {
            1: lambda: Map(1, 2, 1),
            2: lambda: Map(2, 2, 1, b"\0\0\0"),
            3: lambda: calls.call("dk_marks", (5, 5, 1, 0), p().cells, (calls.c_uint8 * 24)()),
            4: lambda: Map(2, 2, 1, b"\0\0\0\2"),
            5: lambda: p().marks(8),
            6: lambda: Field(5, 5, 1, 0, bytes([9] * 175)),
            7: lambda: field.hear(7, 0, 0),
            8: lambda: field.hear(0, 0, 2),
            9: lambda: p().route(7, 0),
            10: lambda: p().route(0, 12),
            11: lambda: Map.from_file(b"no map"),
        }
        self.assertEqual(set(asked), set(dukthari.REFUSALS))
        before = field.state
        for number, call in asked.items():
            with self.assertRaises(dukthari.REFUSALS[number]) as caught:
                call()
            self.assertTrue(str(caught.exception).startswith(f"refused {number}: {caught.exception.reason}"))
        self.assertEqual(field.state, before)
        with self.assertRaises(dukthari.BadCell) as caught:
            asked[4]()
        self.assertEqual(caught.exception.node, 3)

    def test_numbers_of_any_length(self):
        for far in (-1, 2**32, 2**32 + 3, 2**64, -(2**32) + 2):
            self.assertRaises(dukthari.BadSizes, Map, far, 2, 1)
            self.assertRaises(dukthari.BadSizes, Map, 2, 2, far, b"\0\0\0\0")
            self.assertRaises(dukthari.BadNumber, p().route, far, 0)
            self.assertRaises(dukthari.BadNumber, p().place, far)
            self.assertRaises(dukthari.BadNumber, p().step, 0, 0, 0, far)
            self.assertRaises(dukthari.BadNumber, p().marks, far)
            self.assertRaises(dukthari.BadNumber, Field.fresh, p(), far)
            self.assertRaises(dukthari.BadNumber, Field.fresh(p(), 0).hear, 0, 0, far)
            self.assertRaises(dukthari.BadNumber, Field.fresh(p(), 0).own, far)
            self.assertRaises(dukthari.BadNumber, Field.fresh(p(), 0).heard, 0, far)
            self.assertRaises(dukthari.BadCell, Map, 2, 2, 1, [0, 0, far, 0])
            self.assertRaises(dukthari.Unsound, Field, 2, 2, 1, 0, [far] * 28)
        self.assertRaises(TypeError, p().route, "0", 24)
        self.assertRaises(TypeError, Map, 2, 2, 1, 4)

    def test_numbers_of_other_types(self):
        """A number type is taken by its __index__ alone, whatever else it does."""
        field = Field.fresh(p(), 0)
        for kind in (Indexed, Wrapping):
            for node in range(25):
                self.assertEqual(field.own(kind(node)), field.own(node))
                for direction in range(6):
                    self.assertEqual(field.heard(kind(node), kind(direction)), field.heard(node, direction))
            self.assertRaises(dukthari.BadNumber, field.own, kind(25))
            self.assertRaises(dukthari.BadNumber, field.heard, kind(0), kind(6))
            self.assertEqual(p().route(kind(0), kind(24)), p().route(0, 24))

    def test_places(self):
        shelf = Map(4, 3, 2)
        for node in range(24):
            self.assertEqual(shelf.number(*shelf.place(node)), node)
        self.assertIsNone(shelf.step(3, 0, 0, 0))
        self.assertEqual(shelf.step(3, 0, 0, 4), (3, 0, 1))
        shelf.fail(3, 2, 1)
        self.assertEqual(shelf.faulty(), [23])
        self.assertRaises(dukthari.BadNumber, shelf.fail, 4, 0, 0)
        shelf.repair(3, 2, 1)
        self.assertEqual(shelf, Map(4, 3, 2))


def asked_one_by_one(shelf, field):
    """The words outstanding: of each node and direction, what the neighbour there holds, if both work and it is not what was heard."""
    words = []
    for listener in range(len(shelf.cells)):
        for direction in range(6):
            place = shelf.step(*shelf.place(listener), direction)
            speaker = None if place is None else shelf.number(*place)
            if speaker is not None and not {listener, speaker} & set(shelf.faulty()):
                if field.own(speaker) != field.heard(listener, direction):
                    words.append((listener, direction, field.own(speaker)))
    return words


class Agreement(unittest.TestCase):
    def test_random_maps(self):
        numbers = random.Random(20261115)
        for _ in range(40):
            w, h, d = numbers.randint(2, 6), numbers.randint(2, 6), numbers.randint(1, 4)
            percent, orientation = numbers.randint(0, 60), numbers.randint(0, 7)
            shelf = Map(w, h, d, [int(numbers.randrange(100) < percent) for _ in range(w * h * d)])
            self.assertEqual(Map.from_file(shelf.to_file()), shelf)
            field = Field.fresh(shelf, orientation)
            while field.outstanding():
                news = field.news()
                self.assertEqual(news, asked_one_by_one(shelf, field))
                self.assertEqual(len(news), field.outstanding())
                for word in news:
                    field.hear(*word)
            self.assertEqual(field.marks(), shelf.marks(orientation))
            self.assertEqual(Field(*shelf.sizes, orientation, field.state).state, field.state)

    def test_news_is_quick(self):
        """The mesh is walked once: after that no call is needed."""
        field = Field.fresh(Map(16, 16, 16), 0)
        self.assertEqual(field.news(), [])
        with unittest.mock.patch("dukthari.field.call", side_effect=AssertionError("the mesh is walked again")):
            self.assertEqual(field.news(), [])


class Values(unittest.TestCase):
    def test_directions(self):
        self.assertEqual(p().verdict(0, 24).directions, (0, 2))
        self.assertEqual(p().verdict(24, 0).directions, (1, 3))
        self.assertEqual(p().verdict(6, 6).directions, ())
        for offered in range(64):
            self.assertEqual(sum(1 << direction for direction in Verdict(3, offered).directions), offered)

    def test_field(self):
        field = Field.fresh(Map.from_drawing("....\n..#.\n##..\n...."), 0)
        self.assertEqual((field.sizes, field.orientation, field.is_settled()), ((4, 4, 1), 0, False))
        self.assertEqual(Field(4, 4, 1, 0, iter(field.state)), field)
        self.assertEqual(Field(4, 4, 1, 0, list(field.state)), field)
        self.assertRaises(dukthari.BadLength, Field, 4, 4, 1, 0, [])
        self.assertEqual(eval(repr(field)), field)
        before = Field(4, 4, 1, 0, field.state)
        field.hear(4, 0, 2)
        self.assertNotEqual(field, before)
        self.assertNotEqual(Field.fresh(Map(2, 2, 1), 0), Field.fresh(Map(2, 2, 1), 1))
        self.assertNotEqual(Field.fresh(Map(2, 3, 1), 0), Field.fresh(Map(3, 2, 1), 0))
        self.assertNotEqual(field, field.state)
        while not field.is_settled():
            for word in field.news():
                field.hear(*word)
        self.assertEqual(field.outstanding(), 0)
        self.assertTrue(Field.fresh(Map(2, 2, 1), 0).is_settled())

    def test_read_only(self):
        for value, name in [(p(), "sizes"), (p(), "cells"), (Field.fresh(p(), 0), "sizes"), (Field.fresh(p(), 0), "orientation")]:
            with self.assertRaises(AttributeError):
                setattr(value, name, getattr(value, name))
        self.assertEqual(p().sizes, (5, 5, 1))


def load_tests(loader, tests, pattern):
    for module in (dukthari, dukthari.map, dukthari.field):
        tests.addTests(doctest.DocTestSuite(module))
    return tests


if __name__ == "__main__":
    unittest.main()
