"""The calls of rows on objects, relocations, alignments and split tables, by the C library."""

from __future__ import annotations

from ctypes import byref, c_size_t, c_uint8, c_uint32, c_uint64

import elf
import library
import rows
from calls import KINDS, asked_text, call, changed_copy, int_of, kernel_of, sections_of, words_text
from library import Refused, Table, buffer

NOT_AN_OBJECT, UNKNOWN_TYPE, UNEXPECTED_TYPE, TOO_DEEP = 104, 9, 10, 12
# The reasons of docs/OBJECTS.md why bytes are no object; the detail of the error is in braces.
REASONS = [
    "not an ELF file",
    "ELF class {} is not supported: only 64-bit objects are",
    "ELF data encoding {} is not supported",
    "this version of ELF is not supported",
    "the file header states a size of headers that is not 64",
    "the section header table is not in the file",
    "section {} is not in the file",
    "section {} overlaps a header",
    "the table of section names is malformed",
    "section {} has a name that is not in the string table",
    "the symbol table is malformed",
    "symbol {} has a name that is not in the string table",
]
OPTIONS = {"fresh": 1, "keep": 2}


def about_object(values, name, *arguments):
    """Makes a call on an object; the text of its refusal has the reason why the bytes are none."""
    try:
        values.library.call(name, *arguments)
    except Refused as refused:
        if refused.status == NOT_AN_OBJECT:
            refused.text = REASONS[refused.id - 1].format(refused.offset)
        raise


# ---- objects


def placed(values, data, name):
    found = library.Section()
    about_object(values, "vbtf_raw_section", *buffer(data), *buffer(name), byref(found))
    return found


@call
def place(values, data, name, *changes):
    """The offset, the length and the order of the section of a name. The object has other bytes at some offsets."""
    found = placed(values, elf.changed(values.data[data], changes), rows.unquoted(name))
    return f"{found.offset:x} {found.len:x} {'big' if found.order else 'little'}"


@call
def beginnings_of_object(values, data):
    """The errors of the beginnings of an object, each with the lengths that have it."""
    found = []
    for length in range(len(values.data[data])):
        try:
            placed(values, values.data[data][:length], b"")
            text = "taken"
        except Refused as refused:
            if refused.status == library.OUT_OF_MEMORY:
                raise
            text = refused.text
        if not found or found[-1][2] != text:
            found.append([length, length, text])
        found[-1][1] = length
    return ", ".join(f"{one}..{last} {text}" for one, last, text in found)


def sanitized_object(values, data, kernel, placeholder=b""):
    """Returns an object for a kernel, and the features that were asked about."""
    asked, needed, out = library.Asked(), c_uint64(), (c_uint8 * (len(data) + 4096))()
    given = (*buffer(data), byref(kernel), *buffer(placeholder), c_uint64(7), out, c_size_t(len(out)))
    about_object(values, "vbtf_raw_sanitize_object", *given, byref(needed), byref(asked))
    return bytes(out[: needed.value]), asked


def table_in(values, data):
    """Returns the table of an object, opened."""
    return Table.parse(values.library, elf.section(data, ".BTF").data, library.ORDERS[elf.order_of(data)])


@call
def sanitize(values, data, granted, placeholder, *changes):
    """The features that the rewrite of an object asks about; the placeholder is a text, or `-` for none."""
    file = elf.changed(values.data[data], changes)
    name = b"" if placeholder == "-" else rows.unquoted(placeholder)
    return asked_text(sanitized_object(values, file, kernel_of(granted, ()), name)[1])


@call
def sanitized_kinds(values, data, granted, *numbers):
    """The kinds of some types after a rewrite, which keeps other sections and does nothing the second time."""
    old, kernel = values.data[data], kernel_of(granted, ())
    new = sanitized_object(values, old, kernel)[0]
    if not elf.other_sections_stay(old, new):
        return "other sections have changed"
    if sanitized_object(values, new, kernel)[0] != new:
        return "the second rewrite changes the object"
    table = table_in(values, new)
    try:
        return " ".join(KINDS[table.type(int_of(it)).kind] for it in numbers)
    finally:
        table.close()


@call
def sanitized_entry(values, data, granted, placeholder, number, index):
    """The type of an entry of a DATASEC after a rewrite with a placeholder."""
    name = rows.unquoted(placeholder)
    table = table_in(values, sanitized_object(values, values.data[data], kernel_of(granted, ()), name)[0])
    try:
        return str(table.item(int_of(number), int_of(index)).words[0])
    finally:
        table.close()


def relocated(values, data, target, options):
    """Returns an object that is relocated for a table, and the numbers of its records."""
    table, file = values.opened(target).clone(), values.data[data]
    chosen = sum(OPTIONS[it] for it in options.split(",") if it != "-")
    needed, tally, out = c_uint64(), library.Tally(), (c_uint8 * len(file))()
    try:
        values.library.call("vbtf_raw_target_open", byref(table.handle))
        given = (*buffer(file), byref(table.loan()), c_uint32(chosen), c_uint64(7), out, c_size_t(len(out)))
        about_object(values, "vbtf_lent_relocate_object", *given, byref(needed), byref(tally))
    finally:
        table.close()
    return bytes(out[: needed.value]), tally


@call
def relocated_code(values, data, target, options, name):
    """The code of a section of the relocated object."""
    file = relocated(values, data, target, options)[0]
    return elf.section(file, rows.unquoted(name).decode("utf-8")).data.hex()


@call
def relocated_records(values, data, target, options):
    """The numbers of records, of poisoned and of refused ones."""
    tally = relocated(values, data, target, options)[1]
    return f"{tally.records} {tally.poisoned} {tally.refused}"


# ---- relocations


@call
def value_of(values, local, target, name):
    """The value of the first record for the program, and for the target."""
    table, found = values.opened(target).clone(), library.Relocated()
    words = words_text(values.data[f"{name}.records"], values.order).split()
    record = library.Relocation(*(int(it, 16) for it in words[:4]))
    try:
        values.library.call("vbtf_raw_target_open", byref(table.handle))
        values.opened(local).lent("vbtf_lent_relocate", byref(table.loan()), byref(record), byref(found))
    finally:
        table.close()
    return f"{found.expected} -> {found.value}"


# ---- alignments


@call
def alignments(values, name, first="0", most="100000"):
    """The alignments of types in the order of their ids, 0 for one that has none."""
    count, out = c_uint64(), (c_uint32 * int_of(most))()
    given = (c_uint32(int_of(first)), out, c_size_t(len(out)))
    values.opened(name).lent("vbtf_lent_alignments", *given, byref(count))
    return " ".join(map(str, out[: count.value]))


@call
def unaligned(values, name):
    """The ids without an alignment, up to the one after the last type, by their error. `3>10` is the id 3, whose error
    has the id 10."""
    table, found = values.opened(name), {UNEXPECTED_TYPE: [], UNKNOWN_TYPE: [], TOO_DEEP: []}
    for number in range(table.counted("vbtf_lent_count") + 1):
        try:
            table.number("vbtf_lent_alignment", c_uint32(number))
        except Refused as refused:
            if refused.status not in found:
                raise
            found[refused.status].append(f"{number}" if refused.id == number else f"{number}>{refused.id}")
    texts = zip(("unexpected", "unknown", "deep"), found.values())
    return ", ".join(f"{text} {' '.join(numbers)}" for text, numbers in texts if numbers)


# ---- split tables


def order_of(values, words):
    """Returns the order of a split table: that of the file, or the one of a row."""
    return c_uint32(library.ORDERS[words[0]] if words else values.number())


def blob_text(values, data):
    """Returns a table's bytes as its words and its strings; as digits if they have another header or order."""
    order = "big" if data[:2] == b"\xeb\x9f" else "little"
    types, strings = sections_of(data, order)
    if rows.blob(types, strings, order) != data or order != values.order:
        return " ".join(data[at:at + 4].hex() for at in range(0, len(data), 4))
    return f"{words_text(types, order)} ; {rows.quoted(strings)}"


@call
def read(values, data, order):
    """The number of types of the table that bytes are read as in an order."""
    values.made = Table.parse(values.library, values.data[data], library.ORDERS[order])
    return f"{values.made.counted('vbtf_lent_count')} types"


@call
def over(values, base, data, *order):
    """The number of types and the length of the strings of a split table and its base."""
    table = Table(values.library)
    given = (*buffer(values.data[data]), order_of(values, order))
    values.library.call("vbtf_lent_parse_over", byref(values.opened(base).loan()), byref(table.handle), *given)
    values.made = table
    length = c_uint32()
    values.library.plain("vbtf_lent_string_len", byref(table.loan()), byref(length))
    return f"{table.counted('vbtf_lent_count')} types, {length.value} bytes of strings"


def named(table, number):
    """Returns the kind and the name of a type, and the type that it resolves to."""
    found = table.type(number)
    texts = [KINDS[found.kind]]
    for read in (lambda: rows.quoted(table.text(found.name_offset)),
                 lambda: str(table.number("vbtf_lent_resolve", c_uint32(number)))):
        try:
            texts.append(read())
        except Refused as refused:
            if refused.status == library.OUT_OF_MEMORY:
                raise
            texts.append(refused.text)
    return f"{texts[0]} {texts[1]} -> {texts[2]}"


@call
def resolutions(values, name, *numbers):
    """The kind and the name of types, and the type that each resolves to: of all types, or of some ids."""
    table = values.opened(name)
    chosen = [int_of(it) for it in numbers] or range(table.counted("vbtf_lent_count"))
    return ", ".join(named(table, it) for it in chosen)


@call
def blob(values, name):
    """The bytes that the table is written as."""
    return blob_text(values, values.opened(name).bytes())


@call
def part(values, name, types, strings):
    """The part of a table above a number of types and a length of strings: the bytes of a split table."""
    given = (c_uint32(int_of(types)), c_uint32(int_of(strings)))
    table = values.opened(name)
    return blob_text(values, values.library.sized("vbtf_lent_split_bytes", byref(table.loan()), *given))


def changed(values, name, call_, *given):
    """Makes a call on a copy of a table, and returns its bytes."""
    return blob_text(values, changed_copy(values, name, call_, *given).bytes())


@call
def append(values, base, data, *order):
    """The base after a split table is appended to it."""
    return changed(values, base, "vbtf_raw_append_split", *buffer(values.data[data]), order_of(values, order))


@call
def cut(values, name, types, strings):
    """The table without its part above a number of types and a length of strings."""
    return changed(values, name, "vbtf_raw_truncate", c_uint32(int_of(types)), c_uint32(int_of(strings)))
