"""Reading what a command line names: files, or standard input as `-`."""

import sys

from parts import text


def read(name):
    """The bytes of a file, and the name by which a complaint calls it."""
    if name == "-":
        return "standard input", sys.stdin.buffer.read()
    try:
        with open(name, "rb") as file:
            return name, file.read()
    except OSError as problem:
        raise text.BadLine(f"{name}: cannot be read: {problem.strerror}") from None


def lines(names):
    """The lines of several texts, one after the other."""
    found = []
    for name in names:
        called, data = read(name)
        found += text.lines(called, data.decode("utf-8", "replace"))
    return found
