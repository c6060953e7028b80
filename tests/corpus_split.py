"""What a rewrite makes of a split table: tests/corpus compares `btfobj sanitize --base` and `check --base` with it.

This reads the part of a table above its base, and changes each record by the rules for its kind (docs/BEHAVIOUR.md), of
the kinds that the modules of tests/corpus_data have. It reads no record of the base.
"""

from __future__ import annotations

import struct
from typing import NamedTuple

# The words after the first three: a fixed number, or a number for each item.
INT, PTR, ARRAY, STRUCT, UNION, ENUM, TYPEDEF, FUNC, FUNC_PROTO, ENUM64 = 1, 2, 3, 4, 5, 6, 8, 12, 13, 19
FIXED = {INT: 1, ARRAY: 3}
EACH = {STRUCT: 3, UNION: 3, ENUM: 2, FUNC_PROTO: 2, ENUM64: 3}
KNOWN = (INT, PTR, ARRAY, STRUCT, UNION, ENUM, TYPEDEF, FUNC, FUNC_PROTO, ENUM64)
HEADER = struct.Struct("<HBB5I")
# The versions of Linux that first have a feature.
FIRST = {"Func": (5, 0), "FuncGlobal": (5, 6), "Enum64": (6, 0)}
BUILTINS = (b"memset", b"memcpy", b"memmove", b"memcmp")
GLOBAL = 1
SIGNED = 1 << 31


class Blob(NamedTuple):
    """The records of a blob, each as its words, and its strings."""

    records: list[list[int]]
    strings: bytes


def kind_of(words: list[int]) -> int:
    """Returns the kind of a record."""
    return words[1] >> 24 & 31


def read_blob(data: bytes) -> Blob:
    """Returns the records and the strings of a little-endian blob, without id 0."""
    _, _, _, length, types_at, types_len, strings_at, strings_len = HEADER.unpack_from(data)
    words = list(struct.unpack_from(f"<{types_len // 4}I", data, length + types_at))
    found, at = [], 0
    while at < len(words):
        kind = words[at + 1] >> 24 & 31
        end = at + 3 + FIXED.get(kind, 0) + EACH.get(kind, 0) * (words[at + 1] & 0xFFFF)
        found.append(words[at:end])
        at = end
    start = length + strings_at
    return Blob(found, data[start : start + strings_len])


def written(blob: Blob) -> bytes:
    """Returns a blob in the form in which a table is written: the types after the header, and then the strings."""
    types = b"".join(struct.pack(f"<{len(it)}I", *it) for it in blob.records)
    sizes = (HEADER.size, 0, len(types), len(types), len(blob.strings))
    return HEADER.pack(0xEB9F, 1, 0, *sizes) + types + blob.strings


class Rewrite:
    """The rewrite of the part of a table above its base, for a version of Linux."""

    def __init__(self, base: bytes, part: bytes, version: str) -> None:
        below, self.old = read_blob(base), read_blob(part)
        self.first, self.strings = len(below.records) + 1, below.strings + self.old.strings
        self.version = tuple(int(it) for it in version.split("."))
        self.base_len, self.asked, self.added = len(below.strings), [], []
        self.records = [self.becomes(words) for words in self.old.records]

    def has(self, feature: str) -> bool:
        """Returns whether the kernel has a feature, for which the rewrite asks once."""
        if feature not in self.asked:
            self.asked.append(feature)
        return self.version >= FIRST[feature]

    def text(self, text: str) -> int:
        """Appends a text, and returns its offset."""
        self.strings += text.encode() + b"\0"
        return len(self.strings) - len(text) - 1

    def name(self, offset: int) -> bytes:
        """Returns the name at an offset."""
        return self.strings[offset : self.strings.index(b"\0", offset)]

    def becomes(self, words: list[int]) -> list[int]:
        """Returns what a record becomes."""
        name, info, third, *tail = words
        kind, count = kind_of(words), info & 0xFFFF
        if kind not in KNOWN:
            raise ValueError(f"no rule of kind {kind} is written here")
        if kind == PTR:
            return [0, info, third]
        if kind == ENUM and info & SIGNED and not self.has("Enum64"):
            return [name, info - SIGNED, third, *tail]
        if kind == ENUM64 and not self.has("Enum64"):
            members = [[tail[at], self.member_type(), 0] for at in range(0, 3 * count, 3)]
            return [name, UNION << 24 | count, third, *sum(members, [])]
        if kind == FUNC:
            return self.function(name, info, third)
        if kind == FUNC_PROTO:
            return self.prototype(words)
        return words

    def member_type(self) -> int:
        """Returns the id of the member type of unions, which the first one appends."""
        if not self.added:
            self.added.append([self.text("enum64_placeholder"), INT << 24, 1, 8])
        return self.first + len(self.old.records)

    def function(self, name: int, info: int, third: int) -> list[int]:
        """Returns what a FUNC becomes."""
        if not self.has("Func"):
            return [name, TYPEDEF << 24, third]
        is_static = info & 0xFFFF == GLOBAL and (self.name(name) in BUILTINS or not self.has("FuncGlobal"))
        return [name, info - GLOBAL if is_static else info, third]

    def prototype(self, words: list[int]) -> list[int]:
        """Returns what a FUNC_PROTO becomes."""
        name, info, third, *tail = words
        if not self.has("Func"):
            return [name, ENUM << 24 | info & 0xFFFF, 4, *tail]
        for at in range(0, len(tail), 2):
            if not tail[at] and tail[at + 1]:
                tail[at] = self.text(f"param{at // 2}")
        return [name, info, third, *tail]

    def part(self) -> bytes:
        """Returns the bytes of the new part."""
        return written(Blob(self.records + self.added, self.strings[self.base_len :]))

    def features(self) -> str:
        """Returns the line of each feature that the rewrite asks for."""
        lacks = ("", ", and the kernel lacks it")
        return "".join(f"{it}: needed{lacks[not self.has(it)]}\n" for it in self.asked)

    def lacks_any(self) -> bool:
        """Returns whether the kernel lacks a feature."""
        return not all(self.has(it) for it in self.asked)

    def changes(self, before: list[str], after: list[str]) -> str:
        """Returns a line for each type that the rewrite changes or adds, by the first lines of the old and of the new
        types, which begin with their ids."""
        found, new = "", self.records + self.added
        for at, line in enumerate(after):
            number, text = line.split(" ", 1)
            if at >= len(before):
                found += f"{number} {text} is added\n"
            elif self.old.records[at] != new[at]:
                is_shown = before[at] != line
                found += f"{before[at]} {f'becomes {text}' if is_shown else 'changes in its list'}\n"
        return found
