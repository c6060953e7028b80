"""The calls of rows on objects, relocations and orders of declarations, by `btf_tests`."""

from __future__ import annotations

import re

import elf
import rows
from calls import KINDS, int_of, words_text
from programs import asks, call, hexed


def bytes_shown(shown):
    """Returns a function that makes the answer of an output, hexadecimal digits; another output is the answer."""
    return lambda text: shown(bytes.fromhex(text)) if re.fullmatch(r"(?:[0-9a-f]{2})+", text) else text


def table_words(values, name):
    return f"{values.order} {hexed(values.data[name])}"


# ---- relocations


def relocations(values, local, target, name, shown):
    """Relocates the records of a section's code; the answers of the records are between slashes."""
    words = words_text(values.data[f"{name}.records"], values.order).split()
    records = " ".join(str(int(it, 16)) for it in words)
    line = f"{table_words(values, local)} {table_words(values, target)} {hexed(values.data[name])}"
    return asks(f"relocations {line} {len(words) // 4} {records}", lambda text: shown(text.split(" / ")))


@call
def relocation(values, local, target, name, index):
    """What becomes of a record: the bytes of its instruction or its error; then the value for the program and that for
    the target. Earlier records share their candidates with it."""
    def shown(texts):
        if len(texts) == 1:
            return texts[0]
        outcome, *numbers = texts[int_of(index)].split("; ")
        return " ".join([outcome.split(" ")[0], *numbers])

    return relocations(values, local, target, name, shown)


@call
def whole_section(values, local, target, name):
    """The number of records, if a call for all has the same outcomes as a call for each and makes the same code."""
    def shown(texts):
        return f"{len(texts) - 1} records" if texts[-1] == "true" else " / ".join(texts)

    return relocations(values, local, target, name, shown)


# ---- orders, split tables


@call
def declarations(values, name):
    """The ids in the order of the declarations of a header."""
    return asks(f"declarations {table_words(values, name)}", lambda text: text or "none")


@call
def deep_declarations(values, name):
    """The same of a large table, without allocations that fail."""
    return declarations(values, name)


@call
def looks_split(values, data, *order):
    """Whether bytes look like a split table."""
    return asks(f"looks_split {order[0] if order else values.order} {hexed(values.data[data])}")


# ---- views


@call
def viewed(values, name):
    """Each type of a table, as a view and a parsed table give it: the kind, the name's offset, the info word, the number
    of items, the third word, the word after it, the second item of two and of three words; what the id resolves to, and
    the bytes of the name. Nothing if one has another byte order."""
    return asks(f"viewed {table_words(values, name)}", lambda text: text.removesuffix("; "))


# ---- kernels


@call
def kernel(values, version):
    """The features of the kernel of a version."""
    return asks(f"kernel {hexed(rows.unquoted(version))}", lambda text: text or "none")


@call
def kernel_with(values, names, same):
    """The features of a kernel that gets them one by one, and whether it is the kernel with others."""
    return asks(f"kernel_with {names} {same}")


# ---- objects


def items_shown(form, index=None):
    """Returns a function that shows an item of those between semicolons: its numbers, and its name."""
    def shown(text):
        items = [it.split() for it in text.split(";")[:-1]]
        if index is None or len(items) <= index:
            return text
        *numbers, name = items[index] if len(items[index]) == form else [*items[index], ""]
        return " ".join([rows.quoted(bytes.fromhex(name)), *(f"{int(it):x}" for it in numbers)])

    return shown


@call
def elf_front(values, data, *changes):
    """The order, the machine and the kind of an object, and its number of sections. `own` is the order of the file."""
    def shown(text):
        front, *items = text.split(";")
        numbers = front.replace(values.order.capitalize(), "own", 1)
        return f"{numbers}, {len(items) - 1} sections" if items else text

    return asks(f"elf_sections {hexed(elf.changed(values.data[data], changes))}", shown)


@call
def elf_section(values, data, index):
    """A section: its name, type, offset, size, size of an entry, flags, link, info and alignment."""
    return asks(f"elf_sections {hexed(values.data[data])}", items_shown(9, int_of(index) + 1))


@call
def elf_symbol(values, data, index):
    """A symbol: its name, value, size, type, binding, visibility and section."""
    return asks(f"elf_symbols {hexed(values.data[data])}", items_shown(7, int_of(index)))


@call
def elf_symbols(values, data, *changes):
    """The number of symbols of an object."""
    shown = lambda text: f"{text.count(';')} symbols"
    return asks(f"elf_symbols {hexed(elf.changed(values.data[data], changes))}", shown)


@call
def elf_named(values, data, name, *changes):
    """The index and the bytes of the section of a name."""
    return asks(f"elf_section {hexed(elf.changed(values.data[data], changes))} {hexed(rows.unquoted(name))}")


@call
def replaced(values, data, index, given, *changes):
    """Where the section of an index is that has other bytes, and the length of the file. The file header, the names and
    kinds of sections, and the bytes of other sections are as before."""
    old, number = elf.changed(values.data[data], changes), int_of(index)

    def shown(new):
        found, before = elf.sections(new), elf.sections(old)
        for index_, (one, other) in enumerate(zip(found, before)):
            place, bytes_ = (other.offset, other.data) if index_ != number else (one.offset, values.data[given])
            if one[:3] != other[:3] or (one.offset, one.data) != (place, bytes_):
                return f"section {index_} differs"
        if new[:64] != old[:64] or len(found) != len(before):
            return "the file header differs"
        return f"{found[number].offset} in {len(new)} bytes"

    return asks(f"replaced {hexed(old)} {number} {hexed(values.data[given])}", bytes_shown(shown))


def option_shown(text):
    """Returns the number of an option, or `none`."""
    return re.sub(r"Some\((\d+)\)", r"\1", text).replace("None", "none")


@call
def layout_section(values, data, name):
    """The size of a section in bytes and its index, as a rewrite reads them."""
    shown = lambda text: re.sub(r"(\d+) in SectionIndex\((\d+)\)", lambda it: f"{int(it[1]):x} in {it[2]}", text)
    return asks(f"layout {hexed(values.data[data])} section {rows.unquoted(name).decode('utf-8')}", shown)


@call
def layout_symbol(values, data, name):
    """The offset of a symbol, as a rewrite reads it."""
    return asks(f"layout {hexed(values.data[data])} symbol {rows.unquoted(name).decode('utf-8')}", option_shown)


@call
def ksyms_of(values, data, placeholder):
    """The id of the DATASEC .ksyms of an object's table, and that of the placeholder."""
    table = elf.section(values.data[data], ".BTF").data
    return asks(f"ksyms_of {values.order} {hexed(table)} {placeholder}", option_shown)


@call
def sanitized(values, data, version, placeholder, *changes):
    """Whether the object for the kernel of a version keeps other sections, or the error."""
    file = elf.changed(values.data[data], changes)
    shown = lambda new: "other sections stay" if elf.other_sections_stay(file, new) else "other sections change"
    return asks(f"sanitized {hexed(file)} {version} {placeholder}", bytes_shown(shown))


def finalized_shown(shown):
    """Returns a function that shows an object after it is finalized, and not changed by that a second time."""
    def found(text):
        same, _, digits = text.partition(" ")
        if same not in ("true", "false") or not digits:
            return text
        return shown(bytes.fromhex(digits)) if same == "true" else "it changes again"

    return found


def table_shown(order):
    """Returns a function that shows the table of an object: the words of its types, and its strings."""
    def shown(new):
        data_ = elf.section(new, ".BTF").data
        types_len = int.from_bytes(data_[12:16], order)
        types, strings = data_[24:24 + types_len], data_[24 + types_len:]
        if rows.blob(types, strings, order) != data_:
            return data_.hex()
        return f"{words_text(types, order)} ; {rows.quoted(strings)}"

    return shown


@call
def finalized(values, data, table, version):
    """The table of an object after it is finalized and rewritten for a version."""
    return finalized_for(values, data, table, version, "kernel")


@call
def for_loaders(values, data, table, version):
    """The same as loaders get it."""
    return finalized_for(values, data, table, version, "loaders")


def finalized_for(values, data, table, version, reader):
    """Returns the call that finalizes an object for a reader."""
    file = elf.with_table(values.data[data], values.data[table])
    return asks(f"finalized {hexed(file)} {version} {reader}", finalized_shown(table_shown(values.order)))


def kinds_of(data, order):
    """Returns the kinds of a table's types, from that of id 0 on."""
    lengths = {1: 4, 3: 12, 14: 4, 17: 4}
    each = {4: 12, 5: 12, 6: 8, 13: 8, 15: 12, 19: 12}
    end, at, found = 24 + int.from_bytes(data[12:16], order), 24, [0]
    while at < end:
        info = int.from_bytes(data[at + 4:at + 8], order)
        kind = info >> 24 & 0x1f
        found.append(kind)
        at += 12 + lengths.get(kind, 0) + each.get(kind, 0) * (info & 0xffff)
    return found


@call
def finalized_kinds(values, data, version, *numbers):
    """The kinds of some types after an object is finalized and rewritten for a version, which keeps other sections."""
    def shown(new):
        if not elf.other_sections_stay(values.data[data], new):
            return "other sections have changed"
        found = kinds_of(elf.section(new, ".BTF").data, values.order)
        return " ".join(KINDS[found[int_of(it)]] for it in numbers)

    return asks(f"finalized {hexed(values.data[data])} {version} kernel", finalized_shown(shown))


@call
def prepared_code(values, data, target, version, name):
    """The code of a section of the object that is relocated for a table and rewritten for a version."""
    shown = lambda new: elf.section(new, rows.unquoted(name).decode("utf-8")).data.hex()
    line = f"prepared {hexed(values.data[data])} {table_words(values, target)} {version}"
    return asks(line, bytes_shown(shown))
