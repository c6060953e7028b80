"""What each call of a row does. A call has the values of its file by name, and returns its answer as a text."""

from __future__ import annotations

import re
from ctypes import byref, c_bool, c_size_t, c_uint32, c_uint64

import library
import rows
from library import Table, buffer

KINDS = [
    "Unknown", "Int", "Ptr", "Array", "Struct", "Union", "Enum", "Fwd", "Typedef", "Volatile", "Const", "Restrict",
    "Func", "FuncProto", "Var", "DataSec", "Float", "DeclTag", "TypeTag", "Enum64",
]
FEATURES = ["Func", "FuncGlobal", "DataSec", "DataSecZero", "Float", "DeclTag", "TypeTag", "Enum64"]
# The targets of clang, by byte order.
TARGETS = {"little": "bpfel", "big": "bpfeb"}
CALLS = {}


def call(function):
    """Makes a function the call of its name."""
    CALLS[function.__name__.rstrip("_")] = function
    return function


class Values:
    """The values of a file in one byte order: its definitions, and what its calls made."""

    def __init__(self, used, order):
        self.library, self.order = used, order
        self.data, self.tables, self.names, self.bases = {}, {}, {}, {}

    def define(self, row):
        """Keeps what a definition says."""
        kind, name = row.words[0], row.words[1]
        if kind == "names":
            pairs = re.findall(r'("(?:[^"\\]|\\.)*") (\w+)', row.answer)
            self.names[name] = [(rows.unquoted(text), int(number, 0)) for text, number in pairs]
        elif kind == "bytes":
            self.data[name] = bytes.fromhex(row.answer)
        elif kind == "file":
            with open(f"{rows.TOP}/{row.answer.replace('TARGET', TARGETS[self.order])}", "rb") as file:
                self.data[name] = file.read()
        elif kind in ("words", "btf_ext"):
            front = rows.front(self.order) if kind == "btf_ext" else b""
            words, _, zeros = row.answer.partition("zeros")
            self.data[name] = front + rows.spelled(rows.words_of(words), self.order) + bytes(int(zeros or 0))
        else:
            self.data[name] = self.table_bytes(row)
            if kind == "split":
                self.bases[name] = row.words[2]

    def table_bytes(self, row):
        """Returns the bytes of a table's words and strings."""
        words, _, strings = row.answer.partition(";")
        types = rows.spelled(rows.words_of(words), self.order)
        texts = re.findall(r'"(?:[^"\\]|\\.)*"', strings)
        return rows.blob(types, b"".join(map(rows.unquoted, texts)), self.order)

    def number(self):
        return library.ORDERS[self.order]

    def opened(self, name):
        """Returns the table of a name, which it opens first if no row has."""
        if name not in self.tables:
            if name == "new":
                self.tables[name] = Table.new(self.library)
            elif name in self.bases:
                base = self.opened(self.bases[name])
                self.tables[name] = Table.over(self.library, base, self.data[name], self.number())
            else:
                self.tables[name] = Table.parse(self.library, self.data[name], self.number())
        return self.tables[name]

    def close(self):
        for table in self.tables.values():
            table.close()
        self.tables = {}


def int_of(word):
    return int(word, 0)


def words_text(data, order):
    """Returns bytes as hexadecimal words."""
    step = "little" if order == "little" else "big"
    return " ".join(f"{int.from_bytes(data[at:at + 4], step):x}" for at in range(0, len(data), 4))


def sections_of(data, order):
    """Returns the types and the strings of a table's bytes."""
    word = lambda at: int.from_bytes(data[at:at + 4], order)
    head, type_off, type_len, str_off, str_len = (word(at) for at in range(4, 24, 4))
    return data[head + type_off:][:type_len], data[head + str_off:][:str_len]


def table_text(table):
    """Returns a table as its words and its strings, as a definition has them."""
    order = "little" if table.order() == library.LITTLE else "big"
    types, strings = sections_of(table.bytes(), order)
    return f"{words_text(types, order)} ; {rows.quoted(strings)}"


# ---- tables


@call
def parse(values, name):
    """The number of types, including id 0, of the table that the bytes are read as."""
    table = Table.parse(values.library, values.data[name], values.number())
    try:
        return f"{table.counted('vbtf_lent_count')} types"
    finally:
        table.close()


@call
def parse_swapped(values, name):
    """The same, in the other byte order than that of the bytes."""
    table = Table.parse(values.library, values.data[name], 1 - values.number())
    table.close()
    return "taken"


@call
def fresh(values):
    """The number of types of a new table."""
    table = Table.new(values.library)
    try:
        return f"{table.counted('vbtf_lent_count')} types"
    finally:
        table.close()


@call
def clone(values, name):
    """Whether a clone of the table is written as the table."""
    table, copy = values.opened(name), values.opened(name).clone()
    try:
        return "yes" if copy.bytes() == table.bytes() else "no"
    finally:
        copy.close()


@call
def allocations(values, call_, *arguments):
    """The number of allocations of a call, also of one that is refused."""
    values.library.count()
    try:
        CALLS[call_](values, *arguments)
    except library.Refused as refused:
        return str(refused.made)
    return str(values.library.made())


@call
def kept(values, name):
    """Whether the table is written as the bytes that it was read from."""
    return "yes" if values.opened(name).bytes() == values.data[name] else "no"


@call
def written(values, name):
    """The words and the strings that the table is written as."""
    return table_text(values.opened(name))


@call
def types_of(values, name):
    """The words of the types that the table is written with."""
    return table_text(values.opened(name)).partition(" ;")[0]


@call
def same(values, name, other):
    """Whether two tables are written as the same bytes."""
    return "yes" if values.opened(name).bytes() == values.opened(other).bytes() else "no"


@call
def length(values, name):
    """The number of bytes that the table is written as."""
    return str(len(values.opened(name).bytes()))


@call
def order(values, name):
    return "big" if values.opened(name).order() else "little"


@call
def count(values, name):
    return str(values.opened(name).counted("vbtf_lent_count"))


@call
def kinds(values, name):
    """The kinds of all types in the order of their ids."""
    table = values.opened(name)
    return " ".join(KINDS[table.type(it).kind] for it in range(table.counted("vbtf_lent_count")))


@call
def type_(values, name, number):
    """The kind, the string offset of the name, the info word, and the size or the type."""
    found = values.opened(name).type(int_of(number))
    return f"{KINDS[found.kind]} {found.name_offset:x} {found.info:x} {found.size_or_type:x}"


@call
def text(values, name, offset):
    return rows.quoted(values.opened(name).text(int_of(offset)))


@call
def size(values, name, number):
    return str(values.opened(name).number("vbtf_lent_size", c_uint32(int_of(number)), kind=c_uint64))


@call
def resolve(values, name, number):
    return str(values.opened(name).number("vbtf_lent_resolve", c_uint32(int_of(number))))


@call
def alignment(values, name, number):
    return str(values.opened(name).number("vbtf_lent_alignment", c_uint32(int_of(number))))


@call
def find(values, name, sought, kind):
    found = buffer(rows.unquoted(sought))
    return str(values.opened(name).number("vbtf_lent_find", *found, c_uint32(KINDS.index(kind))))


@call
def item(values, name, number, index):
    """The words of an item of a type's list, or of the words after the first three of a kind without a list."""
    found = values.opened(name).item(int_of(number), int_of(index))
    return " ".join(f"{it:x}" for it in found.words[: found.count])


@call
def members(values, name, number):
    """Each member: its name's string offset, type, first bit, and bits of a bit-field."""
    found = values.opened(name).items("vbtf_lent_members", library.Member, int_of(number))
    return ", ".join(f"{it.name_offset} {it.type} {it.bit_offset} {it.bit_field_size}" for it in found) or "none"


@call
def value(values, name, number, sought):
    """The value of a variant."""
    found = buffer(rows.unquoted(sought))
    return str(values.opened(name).number("vbtf_lent_value", c_uint32(int_of(number)), *found, kind=c_uint64))


@call
def value_in_clone(values, name, number, sought):
    """The value of a variant in a clone of the table."""
    copy, found = values.opened(name).clone(), buffer(rows.unquoted(sought))
    try:
        return str(copy.number("vbtf_lent_value", c_uint32(int_of(number)), *found, kind=c_uint64))
    finally:
        copy.close()


# ---- comparisons


def compared(values, name, local, one, target, other):
    loan, ids = values.opened(target).loan(), (c_uint32(int_of(one)), c_uint32(int_of(other)))
    answer = values.opened(local).number(name, ids[0], byref(loan), ids[1], kind=c_bool)
    return "true" if answer else "false"


@call
def fields(values, local, one, target, other):
    return compared(values, "vbtf_lent_fields_compatible", local, one, target, other)


@call
def types(values, local, one, target, other):
    return compared(values, "vbtf_lent_types_compatible", local, one, target, other)


# ---- changes: each is made to a copy of the table


def changed_copy(values, name, call_, *given):
    """Makes a call on a copy of a table, which a refused call has to leave as it was, and returns the copy."""
    table = values.opened(name).clone()
    values.made = table
    before = table.bytes()
    try:
        values.library.call(call_, byref(table.handle), *given)
    except library.Refused as refused:
        values.library.end()
        if table.bytes() != before:
            refused.text = "the table has changed"
        raise
    return table


@call
def add_string(values, name, added):
    """The string offset of an added text."""
    offset = c_uint32()
    changed_copy(values, name, "vbtf_raw_add_string", *buffer(rows.unquoted(added)), byref(offset))
    return str(offset.value)


@call
def add_type(values, name, record):
    """The id of an added record, of which the words are defined."""
    number = c_uint32()
    given = (*buffer(values.data[record]), c_uint32(values.number()))
    changed_copy(values, name, "vbtf_raw_add_type", *given, byref(number))
    return str(number.value)


def named(pairs):
    """Returns the arguments of names and their numbers."""
    data, entries = b"", []
    for text_, number in pairs:
        entries.append(library.Named(len(data), len(text_), number))
        data += text_
    return (*buffer(data), (library.Named * max(len(entries), 1))(*entries), c_size_t(len(entries)))


def kernel_of(granted, options):
    """Returns the kernel of these features, `Func,DataSec`, `all` or `none`, and of options: `fill`, `ksyms=ID`,
    `placeholder=ID`."""
    names = {"all": FEATURES, "none": []}.get(granted, granted.split(","))
    kernel = library.Kernel(sum(1 << FEATURES.index(it) for it in names))
    for option in options:
        name, _, number = option.partition("=")
        if name == "fill":
            kernel.fill_sized = 1
        else:
            setattr(kernel, name, int_of(number))
    return kernel


def asked_text(asked):
    """Returns the features that were asked about, each with a plus if it was granted."""
    pairs = zip(asked.features[: asked.count], asked.granted)
    return " ".join(f"{FEATURES[it]}{'+' if has else '-'}" for it, has in pairs) or "nothing"


@call
def rewrite(values, name, program, granted, *options):
    """The features that a rewrite asks about, for a program whose sections and symbols are defined as
    `PROGRAM.sections` and `PROGRAM.symbols`. A refused rewrite leaves the table as it was."""
    table, asked = values.opened(name).clone(), library.Asked()
    values.made = table
    before = table.bytes()
    used = [named(values.names.get(f"{program}.{it}", [])) for it in ("sections", "symbols")]
    kernel = kernel_of(granted, options)
    try:
        given = (byref(kernel), c_uint64(7), byref(asked))
        values.library.call("vbtf_raw_rewrite", byref(table.handle), *used[0], *used[1], *given)
    except library.Refused as refused:
        values.library.end()
        if table.bytes() != before:
            return "the table has changed"
        refused.text += f" after {asked_text(asked)}"
        raise
    return asked_text(asked)


# ---- errors


@call
def error(values, number, *fields_):
    """The text of an error of this number and these fields, as `id=3` or `name="x"`."""
    given = library.Error(int_of(number))
    for field in fields_:
        name, _, said = field.partition("=")
        if name == "name":
            given.name, given.name_len = rows.unquoted(said), len(rows.unquoted(said))
        else:
            setattr(given, name, int_of(said))
    return values.library.sized("vbtf_raw_error_text", byref(given), plain=True).decode("utf-8")


# ---- .BTF.ext


def opened_ext(values, name, data):
    """Returns a copy of a table with the .BTF.ext that is read from these bytes."""
    table = values.opened(name).clone()
    try:
        given = (*buffer(values.data[data]), c_uint32(values.number()), c_uint64(7))
        values.library.call("vbtf_raw_open_ext", byref(table.handle), *given)
    except library.Refused:
        table.close()
        raise
    return table


@call
def ext(values, name, data):
    """The sizes of the function and of the line records of a .BTF.ext, and its number of sections with relocations."""
    table, found = opened_ext(values, name, data), library.ExtSizes()
    values.library.plain("vbtf_lent_ext", byref(table.loan()), byref(found))
    table.close()
    return f"{found.func_size} {found.line_size} {found.relocation_sections}"


def ext_words(values, name, data, call_, *given, kind=library.c_uint8):
    """The words that a call on a .BTF.ext writes to a buffer."""
    table = opened_ext(values, name, data)
    try:
        found = values.library.sized(call_, byref(table.loan()), *given, kind=kind)
    finally:
        table.close()
    return words_text(found, "little") or "none"


@call
def funcs(values, name, data, sought):
    """The words of the function records of a section."""
    return ext_words(values, name, data, "vbtf_lent_ext_records", c_uint32(0), *buffer(rows.unquoted(sought)))


@call
def lines(values, name, data, sought):
    """The words of the line records of a section."""
    return ext_words(values, name, data, "vbtf_lent_ext_records", c_uint32(1), *buffer(rows.unquoted(sought)))


@call
def records(values, name, data, sought):
    """The numbers of function and of line records of a section."""
    texts = funcs(values, name, data, sought), lines(values, name, data, sought)
    return " ".join(str(len(text_.split()) // each) for text_, each in zip(texts, (2, 4)))


@call
def relocations(values, name, data, sought):
    """The words of the relocation records of the sections of a name."""
    sought = buffer(rows.unquoted(sought))
    return ext_words(values, name, data, "vbtf_lent_ext_relocations", *sought, kind=c_uint32)


@call
def ext_names(values, name, data):
    """The string offsets of the names of sections with relocations."""
    table = opened_ext(values, name, data)
    try:
        sizes, offset, found = library.ExtSizes(), c_uint32(), []
        values.library.plain("vbtf_lent_ext", byref(table.loan()), byref(sizes))
        for index in range(sizes.relocation_sections):
            values.library.plain("vbtf_lent_ext_section", byref(table.loan()), c_uint32(index), byref(offset))
            found.append(str(offset.value))
    finally:
        table.close()
    return " ".join(found)


# ---- families of rows


@call
def header_lengths(values, name, data, first, last):
    """The one answer of `ext` for a .BTF.ext whose header has each of these lengths."""
    texts = set()
    for length_ in range(int_of(first), int_of(last) + 1):
        whole = values.data[data]
        values.data["header"] = whole[:4] + rows.spelled([length_], values.order) + whole[8:]
        texts.add(ext(values, name, "header"))
    return " but ".join(sorted(texts))


@call
def ext_beginnings(values, name, data):
    """The errors of the beginnings of a .BTF.ext, each with the lengths that have it."""
    found = []
    for length_ in range(len(values.data[data])):
        values.data["beginning"] = values.data[data][:length_]
        try:
            text = ext(values, name, "beginning")
        except library.Refused as refused:
            if refused.status == library.OUT_OF_MEMORY:
                raise
            text, _, whole = refused.text.partition(" section_len: ")
            text += "" if whole in ("", str(length_)) else f" of {whole}"
        if not found or found[-1][2] != text:
            found.append([length_, length_, text])
        found[-1][1] = length_
    return ", ".join(f"{one}..{last} {text}" for one, last, text in found)


@call
def each_kind(values, first, last):
    """Parses a table of one record of each kind of these numbers: `refused` if each is for its kind."""
    for number in range(int_of(first), int_of(last) + 1):
        data = rows.blob(rows.spelled([0, number << 24, 0], values.order), b"", values.order)
        try:
            Table.parse(values.library, data, values.number()).close()
            return f"{number} is taken"
        except library.Refused as refused:
            if refused.text != f"invalid BTF type kind `{number}`":
                raise
    return "refused"


@call
def beginnings(values, name):
    """Parses each beginning of a table's bytes: the text of their one error."""
    data, texts = values.data[name], set()
    for length_ in range(len(data)):
        try:
            Table.parse(values.library, data[:length_], values.number()).close()
            texts.add(f"{length_} bytes are taken")
        except library.Refused as refused:
            if refused.status == library.OUT_OF_MEMORY:
                raise
            texts.add(refused.text)
    return ", ".join(sorted(texts))


@call
def lengths(values, name):
    """Parses a table with each length of its types: the lengths that are taken. Each table is written with its types
    and all strings, and the other lengths are refused for the types."""
    data, taken = values.data[name], []
    types, strings = sections_of(data, values.order)
    for length_ in range(len(types) + 1):
        shorter = data[:12] + rows.spelled([length_], values.order) + data[16:]
        try:
            table = Table.parse(values.library, shorter, values.number())
        except library.Refused as refused:
            if refused.text != "invalid BTF type info segment":
                raise
            continue
        try:
            if sections_of(table.bytes(), values.order) != (types[:length_], strings):
                return f"{length_}: the table is written otherwise"
        finally:
            table.close()
        taken.append(str(length_))
    return " ".join(taken)


@call
def short_by_one(values, name):
    """The error of a table without the last byte of its types."""
    types, strings = sections_of(values.data[name], values.order)
    table = Table.parse(values.library, rows.blob(types[:-1], strings, values.order), values.number())
    table.close()
    return "taken"
