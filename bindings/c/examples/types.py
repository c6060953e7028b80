#!/usr/bin/env python3
"""Lists the types of a file, or prints one structure: types.py FILE [STRUCT].

FILE is an ELF object with a section .BTF, or a table such as /sys/kernel/btf/vmlinux. The program needs libvbtf.so.0
(`bindings/install --shared PREFIX`) where the loader finds it.
"""
import ctypes
import sys
from ctypes import byref, c_char_p, c_size_t, c_uint32, c_uint64, c_void_p

lib = ctypes.CDLL("libvbtf.so.0")
lib.vbtf_kind_text.restype = c_char_p
STRUCT = 4


def words(*names):
    return type("Words", (ctypes.Structure,), {"_fields_": [(name, c_uint32) for name in names]})


Type = words("kind", "name_offset", "info", "size_or_type")
Member = words("name_offset", "type", "bit_offset", "bit_field_size")


class Table(ctypes.Structure):
    _fields_ = [("at", c_void_p), ("state", c_uint32)]


table = Table()


def call(name, *arguments):
    status = getattr(lib, name)(*arguments, None)
    if status:
        sys.exit(f"{name}: status {status}")


def text_at(offset):
    text, length = c_char_p(), c_size_t()
    call("vbtf_name", byref(table), offset, byref(text), byref(length))
    return text.value.decode(errors="replace")


def list_types():
    for first in range(1, count.value, 4096):
        types, written = (Type * 4096)(), c_uint64()
        lib.vbtf_types(byref(table), first, types, c_size_t(4096), byref(written))
        for at, it in enumerate(types[: written.value]):
            print(first + at, lib.vbtf_kind_text(it.kind).decode(), text_at(it.name_offset))


def print_struct(name):
    found, size, members, written = c_uint32(), c_uint64(), (Member * 65536)(), c_uint64()
    call("vbtf_find", byref(table), name, c_size_t(len(name)), STRUCT, byref(found))
    call("vbtf_size", byref(table), found, byref(size))
    call("vbtf_members", byref(table), found, members, c_size_t(65536), byref(written))
    print(f"struct {name.decode()}: {size.value} bytes")
    for it in members[: written.value]:
        print(f"    {it.bit_offset:6} {text_at(it.name_offset) or '(anon)'}")


count = c_uint64()
call("vbtf_open_path", byref(table), None, sys.argv[1].encode())
lib.vbtf_count(byref(table), byref(count))
print_struct(sys.argv[2].encode()) if len(sys.argv) > 2 else list_types()
lib.vbtf_close(byref(table))
