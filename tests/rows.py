"""The rows: text files of definitions, calls and the answers that are expected.

A line is a comment (`#`), a definition (`table`, `split`, `bytes`, `words`, `btf_ext`, `file`, `names`), `from:
SOURCE` (where the answers of the rows below come from), `orders: little` (the byte orders in which the file is tried;
both without it), `use: NAME` (the definitions of NAME.defs), or
a row `CALL ARGUMENT.. = ANSWER`. A row may end in ` => NAME` before its answer: what the call makes has this name then.
A line that ends in a backslash goes on with the next one. tests/README.md lists the calls.

Words are hexadecimal numbers. `{i 2 32: 0 2000000 i-1}` repeats words for each number from 2 to 32; an `i` with an
optional sum is the number.
"""

from __future__ import annotations

import os
import re
import struct

TOP = os.path.dirname(os.path.dirname(os.path.abspath(__file__)))
REPEATED = re.compile(r"\{i (\w+) (\w+):([^{}]*)\}")
SHIFTED = re.compile(r"\bi(?:([+-])(\w+))?\b")
DEFINITIONS = ("table", "split", "bytes", "words", "btf_ext", "file", "names")
ESCAPES = {"0": "\0", "n": "\n", "t": "\t", '"': '"', "\\": "\\"}


class BadRow(Exception):
    """A line that is no row."""


def unquoted(text):
    """Returns the bytes of a text in quotes: UTF-8, with the escapes \\0, \\n, \\t, \\", \\\\ and \\xNN."""
    found = re.fullmatch(r'"((?:[^"\\]|\\.)*)"', text)
    if not found:
        raise BadRow(f"no text in quotes: {text}")
    parts = re.split(r"\\(x[0-9a-f]{2}|.)", found[1])
    data = b""
    for index, part in enumerate(parts):
        if index % 2 == 0:
            data += part.encode("utf-8")
        else:
            data += bytes([int(part[1:], 16)]) if part[0] == "x" else ESCAPES[part].encode("utf-8")
    return data


def quoted(data):
    """Returns bytes as a text in quotes."""
    text = data.decode("utf-8") if isinstance(data, bytes) else data
    for escape, char in ESCAPES.items():
        if char == "\\":
            text = text.replace("\\", "\\\\")
    for escape, char in ESCAPES.items():
        if char != "\\":
            text = text.replace(char, f"\\{escape}")
    return f'"{text}"'


def expanded(text, form):
    """Returns a text with its repetitions written out; the form of a number is `x` or `d`."""

    def repeated(found):
        return " ".join(numbered(found[3], number) for number in range(int(found[1], 0), int(found[2], 0) + 1))

    def numbered(words, number):
        by = lambda it: int(it[2], 16) * (-1 if it[1] == "-" else 1) if it[2] else 0
        return SHIFTED.sub(lambda it: format(number + by(it), form), words)

    return REPEATED.sub(repeated, text)


def words_of(text):
    """Returns the numbers of a text's hexadecimal words."""
    return [int(it, 16) for it in expanded(text, "x").split()]


def spelled(words, order):
    """Returns the bytes of words in an order."""
    return struct.pack(("<" if order == "little" else ">") + "I" * len(words), *words)


def front(order):
    """Returns the first four bytes of a header: magic, version and flags."""
    return b"\x9f\xeb\x01\x00" if order == "little" else b"\xeb\x9f\x01\x00"


def blob(types, strings, order):
    """Returns a table's bytes: a header, the types, and the strings after them."""
    return front(order) + spelled([24, 0, len(types), len(types), len(strings)], order) + types + strings


class Row:
    """A line of a file: its number, its origin, its words, and the answer that is expected."""

    def __init__(self, path, number, origin, line):
        self.path, self.number, self.origin, self.line = path, number, origin, line
        call, found, self.answer = line.partition(" = ")
        self.is_definition = call.split()[0] in DEFINITIONS
        if not found and not self.is_definition:
            raise BadRow(f"{path}:{number}: a row has no answer: {line}")
        call, _, self.makes = call.partition(" => ")
        self.words = re.findall(r'"(?:[^"\\]|\\.)*"|\S+', call)
        self.makes = self.makes.strip()

    def place(self):
        return f"{os.path.relpath(self.path, TOP)}:{self.number}"


def lines_of(path):
    """Returns the lines of a file that are not empty and no comments, joined after a backslash, with their numbers."""
    with open(path, encoding="utf-8") as text:
        lines = [it.strip() for it in text.read().split("\n")]
    found, begun = [], None
    for number, line in enumerate(lines, 1):
        if begun:
            number, line = begun[0], f"{begun[1]} {line}"
        begun = (number, line[:-1].rstrip()) if line.endswith("\\") else None
        if line and not line.startswith("#") and not begun:
            found.append((number, line))
    return found


class File:
    """The rows of a file, and the orders in which they are tried."""

    def __init__(self, path):
        self.path, self.rows, self.orders = path, [], ["little", "big"]
        origin = None
        for number, line in lines_of(path):
            if line.startswith("from:"):
                origin = line[len("from:"):].strip()
            elif line.startswith("orders:"):
                self.orders = line[len("orders:"):].split()
            elif line.startswith("use:"):
                used = f"{os.path.dirname(path)}/{line[len('use:'):].strip()}.defs"
                self.rows += [Row(used, at, None, text) for at, text in lines_of(used)]
            else:
                self.rows.append(Row(path, number, origin, line))
        if any(it.origin is None for it in self.rows if not it.is_definition):
            raise BadRow(f"{path}: a row has no origin: it needs a line 'from: SOURCE' above it")
