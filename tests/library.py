"""The C library under test, by its exported calls."""

from __future__ import annotations

import ctypes
import os
import subprocess
import tempfile
from ctypes import POINTER, byref, c_bool, c_char, c_int32, c_long, c_size_t, c_uint8, c_uint32, c_uint64, c_ulong

LITTLE, BIG, BY_MAGIC = 0, 1, 2
ORDERS = {"little": LITTLE, "big": BIG}
OUT_OF_MEMORY, NO_ROOM, NO_ITEM, REFUSED_RELOCATION = 20, 100, 103, 107
PLACEHOLDER_TEXTS = {
    100: "buffer too short",
    101: "not open",
    102: "invalid argument",
    103: "no such item",
    104: "not an ELF object that is read here",
    105: "the object has no section .BTF",
    106: "the bytes of the section .BTF cannot be replaced",
    108: "a section with relocations shares its place with another section",
    109: "the name of a section of relocations cannot be read",
    111: "the text would be too long",
}


def struct(name, *fields):
    """Returns a structure whose fields are pairs of a name and a type, or names of 32-bit words."""
    pairs = [(it, c_uint32) if isinstance(it, str) else it for it in fields]
    return type(name, (ctypes.Structure,), {"_fields_": pairs})


Handle = struct("Handle", ("at", ctypes.c_void_p), "state")
Error = struct(
    "Error", "number", "id", ("offset", c_uint64), ("len", c_uint64), ("section_len", c_uint64), "name_len",
    ("name", c_char * 255),
)
Type = struct("Type", "kind", "name_offset", "info", "size_or_type")
Item = struct("Item", "info", "count", ("words", c_uint32 * 3))
Member = struct("Member", "name_offset", "type", "bit_offset", "bit_field_size")
Variant = struct("Variant", "name_offset", "bits", ("is_signed", c_bool), ("value", c_uint64))
Param = struct("Param", "name_offset", "type")
Entry = struct("Entry", "type", "offset", "size")
Kernel = struct("Kernel", "features", "fill_sized", "ksyms", "placeholder")
Named = struct("Named", "at", "len", ("number", c_uint64))
Asked = struct("Asked", "count", ("features", c_uint8 * 32), ("granted", c_uint8 * 32))
Section = struct("Section", ("offset", c_uint64), ("len", c_uint64), "order")
ExtSizes = struct(
    "ExtSizes", ("func_size", c_uint64), ("line_size", c_uint64), ("func_sections", c_uint64),
    ("line_sections", c_uint64), ("relocation_sections", c_uint64),
)
Relocation = struct("Relocation", "offset", "type", "access_offset", "kind")
Relocated = struct(
    "Relocated", ("expected", c_uint64), ("value", c_uint64), "local_size", "target_size", ("is_poisoned", c_bool),
    ("validates", c_bool), ("is_adjustable", c_bool),
)
Tally = struct("Tally", ("records", c_uint64), ("poisoned", c_uint64), ("refused", c_uint64))
NameBytes = struct("NameBytes", ("at", ctypes.c_void_p), ("len", c_size_t))


def compiled(kit, name, out, *flags):
    """Compiles a file of this folder with the toolchain's clang, which needs nothing of the machine for that."""
    source = os.path.join(os.path.dirname(os.path.abspath(__file__)), name)
    words = [f"{kit}/toolchain/bin/clang", "-fPIC", "-O1", "-fno-builtin", *flags, "-c", source, "-o", out]
    subprocess.run(words, check=True)


def link_heap(kit, out):
    """Links the heap for a program, of which an allocation can fail."""
    with tempfile.TemporaryDirectory() as folder:
        compiled(kit, "preload.c", f"{folder}/preload.o")
        subprocess.run([f"{kit}/toolchain/bin/ld.lld", "-shared", "-o", out, f"{folder}/preload.o"], check=True)


def link(objects, kit, out):
    """Links the shared library of these objects or archives, with a heap of which an allocation can fail. It needs only
    the toolchain."""
    tools = f"{kit}/toolchain/bin"
    with tempfile.TemporaryDirectory() as folder:
        compiled(kit, "heap.c", f"{folder}/heap.o", "-fvisibility=hidden")
        archive = f"{kit}/c/liblibc_c.a"
        subprocess.run([f"{tools}/llvm-ar", "x", archive, "heap.pic.o"], cwd=folder, check=True)
        with open(f"{folder}/exports", "w", encoding="utf-8") as file:
            file.write("{ global: vbtf_*; heap_*; local: *; };\n")
        words = [f"{tools}/ld.lld", "-shared", "--version-script", f"{folder}/exports", "-o", out]
        words += ["--whole-archive", *objects, f"{folder}/heap.pic.o", f"{folder}/heap.o"]
        subprocess.run(words, check=True)


class Refused(Exception):
    """A call that returned a status, with the error that it described."""

    def __init__(self, library, status, error):
        super().__init__(status)
        self.status, self.made = status, library.made()
        self.text = library.text_of(status, error)
        self.id, self.offset = error.id, error.offset


class Library:
    """The calls of the shared library."""

    def __init__(self, path):
        self.dll = ctypes.CDLL(path)
        for name, kind in (("heap_made", c_ulong), ("heap_end", c_ulong), ("heap_held", c_long)):
            getattr(self.dll, name).restype = kind
        self.dll.heap_fail.argtypes = [c_ulong]

    def fail(self, number):
        """Makes the allocation of this number fail, counted from now; 0 for none."""
        self.dll.heap_fail(number)

    def end(self):
        """Lets allocations succeed again, and returns whether one has failed since `fail`."""
        return self.dll.heap_end() != 0

    def count(self):
        """Makes `made` count from now."""
        self.fail(0)

    def made(self):
        """Returns the number of allocations since `count` or `fail`."""
        return self.dll.heap_made()

    def held(self):
        """Returns the number of blocks that the library holds."""
        return self.dll.heap_held()

    def text_of(self, status, error):
        """Returns the text of a status, with the id of an error whose text has none."""
        if status in PLACEHOLDER_TEXTS:
            return PLACEHOLDER_TEXTS[status]
        if status == OUT_OF_MEMORY:
            return "out of memory"
        self.end()
        out, needed = (c_uint8 * 1024)(), c_uint64()
        if self.dll.vbtf_raw_error_text(byref(error), out, c_size_t(1024), byref(needed)):
            return f"status {status}"
        text = bytes(out[: needed.value]).decode("utf-8")
        return f"{text}, id {error.id}" if status == 12 else text

    def call(self, name, *arguments):
        """Makes a call whose last argument is an error; raises what it refuses."""
        error = Error()
        status = getattr(self.dll, name)(*arguments, byref(error))
        if status:
            raise Refused(self, status, error)

    def plain(self, name, *arguments):
        """Makes a call that describes no error; raises what it refuses."""
        status = getattr(self.dll, name)(*arguments)
        if status:
            raise Refused(self, status, Error())

    def sized(self, name, *arguments, plain=False, kind=c_uint8):
        """Returns the bytes of a call that writes to a buffer, of bytes or of words: it is asked for their number
        first."""
        needed = c_uint64()
        make = self.plain if plain else self.call
        try:
            make(name, *arguments, (kind * 1)(), c_size_t(0), byref(needed))
        except Refused as refused:
            if refused.status != NO_ROOM:
                raise
        out = (kind * max(needed.value, 1))()
        make(name, *arguments, out, c_size_t(needed.value), byref(needed))
        return bytes(out)[: needed.value * ctypes.sizeof(kind)]


def buffer(data):
    """Returns the two arguments of bytes: where they are, and their number."""
    return (c_uint8 * max(len(data), 1)).from_buffer_copy(data or b"\0"), c_size_t(len(data))


class Table:
    """An open table."""

    def __init__(self, library):
        self.library = library
        self.handle = Handle()

    @classmethod
    def parse(cls, library, data, order=BY_MAGIC):
        table = cls(library)
        library.call("vbtf_raw_parse", byref(table.handle), *buffer(data), c_uint32(order))
        return table

    @classmethod
    def new(cls, library):
        table = cls(library)
        library.call("vbtf_raw_new", byref(table.handle))
        return table

    @classmethod
    def over(cls, library, base, data, order=BY_MAGIC):
        table = cls(library)
        library.call("vbtf_lent_parse_over", byref(base.loan()), byref(table.handle), *buffer(data), c_uint32(order))
        return table

    def clone(self):
        copy = Table(self.library)
        self.library.call("vbtf_lent_clone", byref(self.loan()), byref(copy.handle))
        return copy

    def loan(self):
        return Handle(self.handle.at, 2 if self.handle.state == 1 else self.handle.state)

    def close(self):
        self.library.dll.vbtf_target_close(byref(self.handle))
        self.library.dll.vbtf_close_ext(byref(self.handle))
        self.library.dll.vbtf_close(byref(self.handle))

    def lent(self, name, *arguments):
        """Makes a call that only reads the table."""
        self.library.call(name, byref(self.loan()), *arguments)

    def number(self, name, *arguments, kind=c_uint32):
        """Returns the number that a call writes."""
        found = kind()
        self.lent(name, *arguments, byref(found))
        return found.value

    def counted(self, name):
        """Returns the number that a call without an error writes."""
        found = c_uint64()
        self.library.plain(name, byref(self.loan()), byref(found))
        return found.value

    def order(self):
        found = c_uint32()
        self.library.plain("vbtf_lent_order", byref(self.loan()), byref(found))
        return found.value

    def bytes(self):
        return self.library.sized("vbtf_lent_bytes", byref(self.loan()))

    def text(self, offset):
        return self.library.sized("vbtf_lent_text", byref(self.loan()), c_uint32(offset)).decode("utf-8")

    def type(self, number):
        found = Type()
        self.lent("vbtf_lent_type", c_uint32(number), byref(found))
        return found

    def item(self, number, index):
        found = Item()
        self.lent("vbtf_lent_item", c_uint32(number), c_uint32(index), byref(found))
        return found

    def items(self, name, kind, number):
        """Returns the items of a type: the structures that a call writes to a buffer."""
        room = 70000
        out, count = (kind * room)(), c_uint64()
        self.lent(name, c_uint32(number), out, c_size_t(room), byref(count))
        return list(out[: count.value])
