"""The calls of rows that programs answer: `btf_tests`, a line of standard input for each call, and `btftool`."""

from __future__ import annotations

import os
import re
import subprocess
from typing import NamedTuple

import library
import plain
import rows
from calls import FEATURES, int_of, words_text

PROGRAM_CALLS = {}
# Calls that are tried without failing allocations.
LONG_CALLS = ("small_tables", "relocation", "deep_declarations")
# Calls whose answer begins with the status of the program; a status that is not 0 is followed by its message.
WITH_STATUS = ("tool", "denied")
USAGE = "usage: btftool little|big copy|types|size ID|compat ID ID|rewrite WORD..\n"


def call(function):
    """Makes a function a call that a program answers: it returns a command line, the standard input, and a function
    that makes the answer of the output."""
    PROGRAM_CALLS[function.__name__] = function
    return function


class Programs:
    """The builds of the programs, and a heap of which an allocation can fail."""

    def __init__(self, folders, kit, room):
        self.folders = folders
        self.heap = f"{room}/preload.so"
        library.link_heap(kit, self.heap)

    def builds(self, name):
        """Returns the paths of the builds of a program: by each compiler that built it."""
        found = [f"{folder}/{it}" for folder in self.folders for it in (name, f"{name}.by-rattle", f"{name}/out/{name}",
                                                                       f"{name}/out/{name}.by-rattle")]
        return [it for it in found if os.path.isfile(it)]

    def run(self, path, words, given, failing=0):
        """Runs a build; the allocation of this number fails, and none for 0."""
        settings = {"PATH": "/usr/bin:/bin", "LANG": "C.UTF-8"}
        if failing:
            settings.update({"LD_PRELOAD": self.heap, "FAIL_ALLOC": str(failing)})
        how = {"env": settings, "input": given, "stdout": subprocess.PIPE, "stderr": subprocess.PIPE}
        ran = subprocess.run([path, *words], timeout=120, **how)
        said = ran.stderr.decode("utf-8", "replace")
        heap = re.search(r"held: (-?\d+) failed: (\d)\n\Z", said)
        left, failed = (int(heap[1]), heap[2] == "1") if heap else (None, False)
        return Run(ran.stdout, ran.returncode, (said[: heap.start()] if heap else said).strip(), left, failed)


class Run(NamedTuple):
    """What a run wrote; its status and messages; the blocks that it left, and whether an allocation failed."""

    out: bytes
    status: int
    said: str
    left: int
    failed: bool

    def answer(self, call_, shown):
        """Returns the answer of a call."""
        text = self.said.replace(USAGE.strip(), "usage") if self.said else shown(self.out)
        return f"{self.status} {text}" if call_ in WITH_STATUS else text


def asks(line, shown=lambda text: text):
    """Returns a call of `btf_tests`."""
    return "btf_tests", [], (line + "\n").encode("utf-8"), lambda out: shown(out.decode("utf-8").rstrip("\n"))


def hexed(data):
    return data.hex() or "-"


def digits_shown(values):
    """Returns a function that replaces the last word of an answer, hexadecimal digits of a table, by its words and its
    strings."""
    def shown(text):
        front, _, digits = text.rpartition(" ")
        if not re.fullmatch(r"(?:[0-9a-f]{2})+", digits):
            return text
        data = bytes.fromhex(digits)
        word = lambda at: int.from_bytes(data[at:at + 4], values.order)
        head, type_len = word(4), word(12)
        types, strings = data[head:head + type_len], data[head + word(16):]
        return f"{front} {words_text(types, values.order)} ; {rows.quoted(strings)}".strip()

    return shown


@call
def bits(values, name):
    """The number of bits of an INT."""
    return asks(f"bits {values.order} {hexed(values.data[name])}")


@call
def record(values, name):
    """A record that is read from words: its kind, its length in bytes, its size, and the type that it refers to; then
    its words. Its clone has the same."""
    def shown(text):
        found = re.fullmatch(r"(.*) ([0-9a-f]+) ([0-9a-f]+)", text)
        if not found or found[2] != found[3]:
            return text
        return f"{found[1]} ; {words_text(bytes.fromhex(found[2]), values.order)}"

    return asks(f"record {values.order} {hexed(values.data[name])}", shown)


@call
def built(values, name):
    """The words of a record that is built in memory."""
    shown = lambda text: words_text(bytes.fromhex(text), values.order)
    return asks(f"built {name} {values.order}", shown)


@call
def traced(values, local, one, target, other):
    """The answer of a comparison, and the pairs that it starts."""
    def shown(text):
        answer, _, pairs = text.partition("; 9 9")
        return f"{answer} ;{pairs}"

    tables = " ".join(f"{values.order} {hexed(values.data[it])}" for it in (local, target))
    return asks(f"traced {tables} {int_of(one)} {int_of(other)}", shown)


@call
def plainly(values, local, one, target, other):
    """Whether a comparison gives the answer of the plain recursion, and starts the same pairs."""
    used = [values.data[it] for it in (local, target)]
    tables = [plain.records(words_of_table(it, values.order)) for it in used]
    wanted = plain.answer(*tables, (int_of(one), int_of(other)))
    name, words, given, shown = traced(values, local, one, target, other)
    return name, words, given, lambda out: "yes" if shown(out) == wanted else f"{shown(out)}, plainly {wanted}"


def small_words(number):
    """Returns the words of the prototype of a number below 42: up to two parameters of types 1 to 4, and a return type
    of 0 or 1."""
    returns, params = number % 2, number // 2
    chosen = [(), *((it,) for it in range(1, 5)), *((one, other) for one in range(1, 5) for other in range(1, 5))]
    return [0, 0xd000000 | len(chosen[params]), returns] + [it for param in chosen[params] for it in (0, param)]


@call
def small_tables(values):
    """The number of comparisons in all small tables that give the answers of the plain recursion."""
    lines, wanted = [], []
    for number in range(42 ** 3):
        words = [it for by in (1, 42, 42 ** 2) for it in small_words(number // by % 42)] + [0, 0x1000000, 4, 0x20]
        data = rows.blob(rows.spelled(words, values.order), b"", values.order).hex()
        for other in (1, 2):
            lines.append(f"traced {values.order} {data} {values.order} {data} 1 {other}\n")
            wanted.append(plain.answer(*[plain.records(words)] * 2, (1, other)))

    def shown(out):
        found = [it.replace("; 9 9", " ;") for it in out.decode("utf-8").splitlines()]
        differs = [f"{it} plainly {other}" for it, other in zip(found, wanted) if it != other]
        return differs[0] if differs else f"{len(found)} comparisons are plain"

    return "btf_tests", [], "".join(lines).encode("utf-8"), shown


def leaves_too_much(values, row, answer):
    """Returns whether a call whose allocation failed left more than it may: pairs that are no beginning of the row's,
    or a changed table. Other calls leave nothing that can be seen."""
    failed, _, left = answer.partition(" ")
    if failed != "OutOfMemory":
        return False
    if row.words[0] == "traced":
        pairs, wanted = left.lstrip("; ").split(), rows.expanded(row.answer, "d").partition(";")[2].split()
        return pairs != wanted[: len(pairs)]
    if row.words[0] == "ksyms":
        return left != digits_shown(values)(f"table {values.data[row.words[1]].hex()}").partition(" ")[2]
    return False


def words_of_table(data, order):
    """Returns the words of a table's types."""
    length = int.from_bytes(data[12:16], order)
    return [int.from_bytes(data[at:at + 4], order) for at in range(24, 24 + length, 4)]


@call
def name(values, table, number):
    """The name of a type, whether the table lends it, and the name for errors."""
    return asks(f"names {values.order} {hexed(values.data[table])} {int_of(number)}")


@call
def whole_ext(values, name, data, sought):
    """A .BTF.ext that is parsed without a hasher: sizes of records, relocations, and the records of a name."""
    sought = rows.unquoted(sought).decode("utf-8")
    tables = " ".join(f"{values.order} {hexed(values.data[it])}" for it in (name, data))
    return asks(f"ext {tables} {sought}")


@call
def sections(values, data, size):
    """The sections of a range of .BTF.ext, one by one."""
    return asks(f"sections {values.order} {int_of(size)} {hexed(values.data[data])}")


def program_words(values, program):
    pairs = (values.names.get(f"{program}.{it}", []) for it in ("sections", "symbols"))
    return " ".join(",".join(f"{name.decode()}={number}" for name, number in it) or "-" for it in pairs)


@call
def rewrite_bytes(values, name, program, granted, *options):
    """The features that a rewrite from bytes to bytes asks about, and the words and strings of the new table."""
    numbers = dict(it.partition("=")[::2] for it in options if "=" in it)
    ids = f"{numbers.get('ksyms', 0)} {numbers.get('placeholder', 0)}"
    policy = "fill" if "fill" in options else "keep"
    line = f"{values.order} {hexed(values.data[name])} {program_words(values, program)} {granted} {ids} {policy}"
    return asks(f"rewrite_bytes {line}", digits_shown(values))


@call
def rewrite_by_call(values, name, answers):
    """The same for a predicate whose nth call has the nth answer, with the number of calls."""
    return asks(f"rewrite_by_call {values.order} {hexed(values.data[name])} {answers}", digits_shown(values))


@call
def asked(values, names_, answers):
    """What a resolver says of features in turn; what it remembers; the number of calls; the default of an answer."""
    if not all(it in FEATURES for it in names_.split(",")):
        raise rows.BadRow(names_)
    return asks(f"asked {names_} {answers}")


@call
def ksyms(values, name, datasec, placeholder):
    """The error of the step for the kernel's symbols, if there is one, and the table after it."""
    return asks(f"ksyms {values.order} {hexed(values.data[name])} {datasec} {placeholder}", digits_shown(values))


@call
def btftool(values, name, *words):
    """The output of `btftool` for a table, with \\n between its lines; its status and its error if it fails."""
    words = [values.order if it == "ORDER" else it for it in words]
    return "btftool", words, values.data[name], lambda out: rows.quoted(out)


@call
def listed(values, name, path):
    """Whether `btftool` lists the types of a table as a file has them."""
    with open(f"{rows.TOP}/{path}", "rb") as file:
        wanted = file.read()
    shown = lambda out: "yes" if out == wanted else out.decode("utf-8", "replace")
    return "btftool", [values.order, "types"], values.data[name], shown


def shown_table(values, out):
    """Returns a table's bytes as its words and its strings, or another output in quotes."""
    if out[:2] not in (b"\x9f\xeb", b"\xeb\x9f"):
        return rows.quoted(out)
    return digits_shown(values)(f"0 {out.hex()}")[2:]


@call
def tool(values, name, line=""):
    """The status of a command line of `btftool` over a table, and its output, or its message if it fails."""
    words = rows.unquoted(line).decode("utf-8").split(" ") if line else []
    return "btftool", words, values.data[name], lambda out: shown_table(values, out)


def second_of(values, line, first):
    """Returns the output of a command line over what it wrote first."""
    words = rows.unquoted(line).decode("utf-8").split(" ")
    return values.programs.run(values.programs.builds("btftool")[0], words, first).out


@call
def copies(values, name, line):
    """Whether a command line writes the table as it is."""
    words = rows.unquoted(line).decode("utf-8").split(" ")
    return "btftool", words, values.data[name], lambda out: "yes" if out == values.data[name] else rows.quoted(out)


@call
def sized_by(values, size, line):
    """Whether a command line gives the last DATASEC of the program this size, changes nothing else, and nothing when it
    is made again."""
    data = values.data["program"]
    wanted = data[:276] + rows.spelled([int_of(size)], values.order) + data[280:]
    words = rows.unquoted(line).decode("utf-8").split(" ")

    def shown(out):
        return "yes" if out == wanted == second_of(values, line, out) else shown_table(values, out)

    return "btftool", words, data, shown


@call
def denied(values, name, line):
    """The status, and the words of the types that a command line writes; it writes the strings of the table."""
    words = rows.unquoted(line).decode("utf-8").split(" ")

    def shown(out):
        types, _, texts = shown_table(values, out).partition(" ; ")
        return types if texts == shown_table(values, values.data[name]).partition(" ; ")[2] else texts

    return "btftool", words, values.data[name], shown
