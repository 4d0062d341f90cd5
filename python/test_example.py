"""examples/transfer.py: what it prints is in tests/transfers; here is what words and files can be besides."""

import os
import re
import resource
import subprocess
import sys
import tempfile
import unittest

from dukthari import Map

TOP = os.path.join(os.path.dirname(os.path.abspath(__file__)), "..")


class Example(unittest.TestCase):
    def transfer(self, *words, stdout=subprocess.PIPE, stderr=subprocess.PIPE):
        """What it prints, and its status. It has a gigabyte of memory."""
        ran = subprocess.run(
            [sys.executable, "-B", os.path.join(TOP, "examples", "transfer.py"), *words],
            env={**os.environ, "PYTHONPATH": os.path.join(TOP, "python")},
            stdout=stdout,
            stderr=stderr,
            text=True,
            preexec_fn=lambda: resource.setrlimit(resource.RLIMIT_AS, (2**30, 2**30)),
            timeout=60,
        )
        if stderr == subprocess.PIPE:
            self.assertRegex(ran.stderr, {2: r"\A(usage|transfer): .*\n\Z"}.get(ran.returncode, r"\A\Z"))
        return re.sub(r"^(refused \d+).*", r"\1", ran.stdout or ""), ran.returncode

    def test_words(self):
        shelf = os.path.join(TOP, "maps", "p.map")
        self.assertEqual(self.transfer(shelf, "5", "6"), ("1 hops: 5 6\n", 0))
        self.assertEqual(self.transfer(shelf, "0" * 5000 + "5", "06"), ("1 hops: 5 6\n", 0))
        for word in ("", "9" * 5000, "1" + "0" * 5000, "25", "٣", "3.0", "-1", " 1"):
            self.assertEqual(self.transfer(shelf, word, "0"), ("refused 5\n", 1))
        self.assertEqual(self.transfer(shelf, "0"), ("", 2))

    def test_files(self):
        with tempfile.TemporaryDirectory() as folder:
            name = os.path.join(folder, "a.map")
            self.assertEqual(self.transfer(name, "0", "24"), ("", 2))
            self.assertEqual(self.transfer(folder, "0", "24"), ("", 2))
            for notes, want in [(65536 - 37, ("1 hops: 5 6\n", 0)), (65536 - 36, ("refused 11\n", 1))]:
                with open(name, "wb") as file:
                    file.write(bytes(notes) + Map(5, 5, 1, [1 if node in (7, 11) else 0 for node in range(25)]).to_file())
                self.assertEqual(self.transfer(name, "5", "6"), want)
        self.assertEqual(self.transfer("/dev/zero", "0", "24"), ("refused 11\n", 1))

    def test_no_room_to_print(self):
        with open("/dev/full", "wb") as full:
            for end in ("24", "12"):
                self.assertEqual(self.transfer(os.path.join(TOP, "maps", "p.map"), "0", end, stdout=full), ("", 2))
            self.assertEqual(self.transfer(os.path.join(TOP, "maps", "none"), "0", "1", stderr=full), ("", 2))


if __name__ == "__main__":
    unittest.main()
