"""What the module repeats of the header and of the Rust wrapper is as it stands there, everything public is described, and the library is found."""

import ctypes
import ctypes.util
import inspect
import os
import re
import shutil
import subprocess
import sys
import tempfile
import typing
import unittest

import dukthari
from dukthari import Component, Verdict, calls

TOP = os.path.join(os.path.dirname(os.path.abspath(__file__)), "..")

# the types of include/dukthari.h
C_TYPES = {
    "uint8_t": ctypes.c_uint8,
    "uint16_t": ctypes.c_uint16,
    "uint32_t": ctypes.c_uint32,
    "size_t": ctypes.c_size_t,
    "const uint8_t *": ctypes.c_char_p,
    "uint8_t *": ctypes.POINTER(ctypes.c_uint8),
    "uint16_t *": ctypes.POINTER(ctypes.c_uint16),
    "dk_component *": ctypes.POINTER(calls.Record),
}


def text(*path):
    with open(os.path.join(TOP, *path), encoding="utf-8") as file:
        return file.read()


class Held(unittest.TestCase):
    def test_header(self):
        """The header declares the calls of this module and no others, with the same answers and arguments, and the same refusals."""
        header = text("include", "dukthari.h")
        declared = re.findall(r"^(\w+) +(dk_\w+)\(([^;]*)\);", header, re.MULTILINE)
        self.assertEqual({name for _, name, _ in declared}, set(calls.CALLS))
        structs = {"dk_component": calls.Record, **{answer.__name__: answer for answer, *_ in calls.CALLS.values()}}
        for answer, name, arguments in declared:
            function = getattr(dukthari.LIBRARY, name)
            self.assertIs(function.restype, structs[answer], name)
            types = [re.match(r"(.*?)\w+$", argument.strip())[1].strip() for argument in arguments.split(",")]
            self.assertEqual([C_TYPES[kind] for kind in types], function.argtypes, name)
        laid = re.findall(r"^typedef struct \{ (.*) \} (dk_\w+);", header, re.MULTILINE)
        self.assertEqual({name for _, name in laid}, set(structs))
        for rows, name in laid:
            groups = re.findall(r"(\w+) ([^;]+);", rows)
            fields = [(field.strip(), C_TYPES[kind]) for kind, row in groups for field in row.split(",")]
            self.assertEqual(fields, structs[name]._fields_, name)
        numbers = re.findall(r"^#define DK_(\w+) +(\d+)u\b", header, re.MULTILINE)
        names = {int(number): name.title().replace("_", "") for name, number in numbers if int(number) <= 11}
        self.assertEqual(names, {number: kind.__name__ for number, kind in dukthari.REFUSALS.items()})

    def test_reasons(self):
        """Rust and Python give each refusal the same name, number and words."""
        said = text("rust", "dukthari", "src", "refusal.rs")
        numbers = dict(re.findall(r"^ +Refusal::(\w+)[^\n]* => (\d+),", said, re.MULTILINE))
        reasons = dict(re.findall(r"^ +Refusal::(\w+)[^\n]* => \{?\s*\"(.*)\",?$", said, re.MULTILINE))
        self.assertEqual({kind.__name__: str(number) for number, kind in dukthari.REFUSALS.items()}, numbers)
        self.assertEqual({kind.__name__: kind.reason for kind in dukthari.REFUSALS.values()}, reasons)
        self.assertIn('", the first at node {node}"', said)
        self.assertEqual(str(dukthari.BadCell(3)), f"refused 4: {reasons['BadCell']}, the first at node 3")

    def test_flaws_are_worded_as_in_rust(self):
        said = re.findall(r'^ +Flaw::.* => write!\(f, "(.*)"\)', text("rust", "dukthari", "src", "drawing.rs"), re.MULTILINE)
        self.assertEqual(len(said), 6)
        here = text("python", "dukthari", "drawing.py")
        for flaw in said:
            self.assertIn(flaw.replace("{found:?}", "{_quoted(found)}"), here)


class Library(unittest.TestCase):
    """Where the shared library is looked for."""

    def found(self, folder, **named):
        """The library that the package in this folder loads, or the last line of what it says."""
        kept = {name: value for name, value in os.environ.items() if name != "DUKTHARI_LIBRARY"}
        asked = [sys.executable, "-B", "-c", "import dukthari; dukthari.Map(2, 2, 1); print(dukthari.LIBRARY._name)"]
        ran = subprocess.run(asked, cwd=folder, env={**kept, "PYTHONPATH": folder, **named}, capture_output=True, text=True, timeout=60)
        return (ran.stdout or ran.stderr).splitlines()[-1]

    def test_a_copied_package(self):
        with tempfile.TemporaryDirectory() as top:
            top = os.path.realpath(top)
            folder = os.path.join(top, "python")
            shutil.copytree(os.path.dirname(dukthari.__file__), os.path.join(folder, "dukthari"))
            if ctypes.util.find_library("dukthari") is None:
                self.assertRegex(self.found(folder), "ImportError: no libdukthari.so: .* beside the package, or DUKTHARI_LIBRARY names it")
            for place in ("target/shared", "python", "elsewhere"):
                os.makedirs(os.path.join(top, place), exist_ok=True)
                path = shutil.copy(dukthari.LIBRARY._name, os.path.join(top, place, "libdukthari.so"))
                self.assertEqual(self.found(folder, **({"DUKTHARI_LIBRARY": path} if place == "elsewhere" else {})), path)


class Hints(unittest.TestCase):
    def test_everything_public(self):
        """Each public function says what it takes and gives, and each public name what it is."""
        self.assertTrue(os.path.exists(os.path.join(os.path.dirname(dukthari.__file__), "py.typed")))
        kinds = [getattr(dukthari, name) for name in dukthari.__all__ if name not in ("LIBRARY", "REFUSALS")]
        seen = 0
        for kind in kinds:
            self.assertTrue(vars(kind).get("__doc__"), kind)
            for name, value in vars(kind).items():
                value = getattr(value, "__func__", None) or getattr(value, "fget", None) or value
                if not inspect.isfunction(value) or not value.__module__.startswith("dukthari."):
                    continue
                if name.startswith("_") and name not in ("__init__", "__eq__", "__repr__", "__str__"):
                    continue
                seen += 1
                hints = typing.get_type_hints(value)
                taken = [taken for taken in inspect.signature(value).parameters if taken not in ("self", "cls")]
                self.assertEqual(sorted(hints), sorted([*taken, "return"]), value)
                self.assertTrue(value.__doc__ or name.startswith("__"), value)
        self.assertGreaterEqual(seen, 40)
        for kind in (Verdict, Component, dukthari.Word):
            self.assertEqual(list(typing.get_type_hints(kind)), list(kind._fields))


if __name__ == "__main__":
    unittest.main()
