"""The parts of a 64-bit ELF object, read without the library under test."""

from __future__ import annotations

import struct
from typing import NamedTuple


class Section(NamedTuple):
    """A section header, with the bytes of the section."""

    name: bytes
    at: int
    kind: int
    offset: int
    size: int
    data: bytes


def order_of(data):
    return "little" if data[5] == 1 else "big"


def sections(data):
    """Returns the sections of an object. `at` is the offset of the section header."""
    front = "<" if order_of(data) == "little" else ">"
    table, = struct.unpack_from(f"{front}Q", data, 40)
    count, names = struct.unpack_from(f"{front}HH", data, 60)
    headers = [(at, struct.unpack_from(f"{front}IIQQQQ", data, at)) for at in range(table, table + 64 * count, 64)]
    texts = data[headers[names][1][4]:]
    return [
        Section(texts[it[0]:].partition(b"\0")[0], at, it[1], it[4], it[5],
                b"" if it[1] in (0, 8) else data[it[4]:it[4] + it[5]])
        for at, it in headers
    ]


def section(data, name):
    """Returns the first section of a name."""
    return next(it for it in sections(data) if it.name == name.encode("utf-8"))


def with_table(data, table):
    """Returns an object with other bytes in its section .BTF: they are after its end."""
    front, header = "<" if order_of(data) == "little" else ">", section(data, ".BTF").at
    padded = data + bytes(-len(data) % 8)
    place = struct.pack(f"{front}QQ", len(padded), len(table))
    return padded[:header + 24] + place + padded[header + 40:] + table


def changed(data, changes):
    """Returns an object with other bytes. The words are `OFFSET BYTES`, both hexadecimal; `end BYTES` for bytes after
    its end; and `cut LENGTH`."""
    for at, text in zip(changes[::2], changes[1::2]):
        if at == "cut":
            data = data[:int(text, 16)]
            continue
        place, given = len(data) if at == "end" else int(at, 16), bytes.fromhex(text)
        data = data[:place] + given + data[place + len(given):]
    return data


def other_sections_stay(old, new):
    """Whether two objects have the same sections, apart from the bytes of .BTF."""
    kept = lambda data: [(it.name, it.name == b".BTF" or it.data) for it in sections(data)]
    return kept(old) == kept(new)
