#!/usr/bin/env python3
"""May a transfer go, and by which way? transfer.py MAP START END reads a map file and prints the hops and the nodes of the route, or why it
was refused. Status: 0 granted, 1 refused, 2 what was asked could not be read or the answer not written. The module is in python/:
PYTHONPATH must name that folder."""

import contextlib
import os
import sys

from dukthari import Map, Refused

# the largest file, and one byte more, so that a longer one is seen
LONGEST = 65536 + 1


def node(word):
    """A node's number; -1, which no mesh has, where the word is none. Eleven digits are already beyond every mesh."""
    return int(word.lstrip("0")[:11] or "0") if word.isascii() and word.isdigit() else -1


def transfer(name, start, end):
    """The line to print, and the status."""
    with open(name, "rb") as file:
        read = file.read(LONGEST)
    try:
        route = Map.from_file(read).route(node(start), node(end))
    except Refused as refusal:
        return str(refusal), 1
    return " ".join([f"{len(route) - 1} hops:", *map(str, route)]), 0


def failed(why):
    """Says why on standard error, if that can be written."""
    with contextlib.suppress(OSError):
        os.write(2, f"{why}\n".encode())
    return 2


def main(words):
    if len(words) != 3:
        return failed("usage: transfer.py MAP START END")
    try:
        line, status = transfer(*words)
        os.write(1, f"{line}\n".encode())
    except OSError as error:
        return failed(f"transfer: {error}")
    return status


if __name__ == "__main__":
    sys.exit(main(sys.argv[1:]))
