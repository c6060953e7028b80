"""Writes tables that no compiler writes: names.btf, of which no name is an identifier of C, self.btf, whose structure
contains itself, and loop.btf, whose two pointers point to each other."""

import struct

NAMES = (b"while", b"a b", b"a_20_b", b"9x", "\u00e9".encode(), b"\xff", b"x*/y", b"a\nb")
INT, POINTER, STRUCT, TYPE_TAG = 1, 2, 4, 18


def record(name: int, kind: int, count: int, third: int, *tail: int) -> bytes:
    """Returns the record of a type."""
    return struct.pack(f"<{3 + len(tail)}I", name, kind << 24 | count, third, *tail)


def write(path: str, records: list[bytes], *names: bytes) -> None:
    """Writes a table with these records and names; returns nothing."""
    types, strings = b"".join(records), b"\0" + b"".join(it + b"\0" for it in names)
    header = struct.pack("<HBB5I", 0xEB9F, 1, 0, 24, 0, len(types), len(types), len(strings))
    with open(path, "wb") as file:
        file.write(header + types + strings)


at, records = 5, [record(1, INT, 0, 4, 32)]
for name in NAMES:
    records.append(record(at, STRUCT, 1, 4, at, 1, 0))
    at += len(name) + 1
tagged = len(records) + 1
records += [record(at, TYPE_TAG, 0, 1), record(0, POINTER, 0, tagged), record(at + 5, STRUCT, 1, 8, at + 5, tagged + 1, 0)]
write("names.btf", records, b"int", *NAMES, b'"*/\\', b"p")
write("self.btf", [record(1, STRUCT, 1, 4, 1, 1, 0)], b"s")
write("loop.btf", [record(0, POINTER, 0, 2), record(0, POINTER, 0, 1), record(1, STRUCT, 1, 8, 1, 1, 0)], b"s")
