#!/usr/bin/env python3
"""Times the library on what an attacker could make: bench/hostile.py PROGRAMS FAMILY N [REPS], or
bench/hostile.py PROGRAMS relocate LOCAL TARGET [REPS].

PROGRAMS is a folder with builds of btf_bench and btftool, such as `crates`. The script writes the files of a family at
the sizes N, 2 N and 4 N, and times the work on them: a step that is not linear shows in the time of a unit. It prints
the family, its size, the least time in microseconds, and the nanoseconds of a unit. FAMILY is one of these:

- `collide`: a prototype of N parameters of N types, compared with itself: N pairs, which could all collide in a set
  with a known hash. `fan`: a prototype of N pointers, all to one prototype of N parameters. `nest`: N prototypes,
  each of which takes the one before it. `rings`: a ring of N prototypes, each of which takes the next one, compared
  with a ring of N + 1. `flood`: two prototypes of N parameters whose pairs all share a bucket. `floodrings`: rings
  whose pairs share one bucket, which holds 16 of them.
- `longname`: N FUNCs that share one name of 2 N bytes, which is not UTF-8, rewritten. `listing`: the same, listed by
  `btftool types`: 6 N bytes for each FUNC. `entries`, `symbols`, `datasecs`: N entries of one Static VAR, N Global VARs
  with an entry each, or N DATASECs share one such name, which a rewrite looks up.
- `sections`: N sections of .BTF.ext that share one name of 2 N bytes. `collidedsections`: with different names that
  have the same hash under the default hasher. `keyedsections`: the same, with a hasher that has random keys.
- `twins`: N fields that the kernel lacks, each searched in a STRUCT of 40 levels, of which each has two members without
  a name of the level below. `namesakes`: one field, with N STRUCTs of its type's name in the kernel, which lack it.
  `locals`: the fields of N STRUCTs of that name, with as many in the kernel: each record is refused, and so is that of
  `namesakes`, from 257 on. `matches`: N records of kind 12 about two STRUCTs of 1,024 members, the most that are
  compared, in reverse order. `fields`: N fields of one STRUCT. `levels`: N elements, each of an array of 63 dimensions.
  `loops`: N fields of a TYPEDEF of itself.
- `names`: one name read N times, for names of several lengths, each as the last of the string section and as another.

`relocate` relocates 20,000 random accesses of the types of the table LOCAL against the table TARGET.
"""

from __future__ import annotations

import os
import random
import struct
import subprocess
import sys
import tempfile
import time

SEED = 20_261_129
ACCESSES = 20_000
# The golden ratio as a fraction of 2^64, and the inverse of its low half modulo 2^32: the hash of a pair in a
# comparison.
RATIO, INVERSE = 0x9E3779B97F4A7C15, 0x9937733D
FLOODED = 1 << 16
STEP = 16
# All texts of 32 bytes that begin with these 24 have the same hash under the default hasher. The third word equals the
# hasher's state after the first two words. So their difference is 0, and the hasher multiplies the last word by it.
PREFIX = b"kprobe/aaaamnsuiv/8z2fk3"
OFFSET, EXISTS, MATCHES = 0, 2, 12
MEMBERS = 1024


class Sketch:
    """The records of a table, from id 1 on, and its strings, the empty one first."""

    def __init__(self):
        self.types, self.strings, self.last = [], bytearray(1), 0

    def record(self, *words):
        """Appends a record, and returns its id."""
        self.types.extend(words)
        self.last += 1
        return self.last

    def text(self, text):
        """Appends a string, and returns its offset."""
        offset = len(self.strings)
        self.strings += text + b"\0"
        return offset

    def int(self):
        return self.record(0, 1 << 24, 4, 32)

    def pointer(self, to):
        return self.record(0, 2 << 24, to)

    def prototype(self, params):
        return self.record(0, 13 << 24 | len(params), 0, *(it for param in params for it in (0, param)))

    def struct(self, name, members):
        """A STRUCT of 8 bytes, whose members all begin at bit 0: the name's string offset and the type of each."""
        return self.record(name, 4 << 24 | len(members), 8, *(it for member in members for it in (*member, 0)))

    def variable(self, name, to, linkage):
        return self.record(name, 14 << 24, to, linkage)

    def datasec(self, name, variables):
        return self.record(name, 15 << 24 | len(variables), 0, *(it for var in variables for it in (var, 0, 4)))

    def bytes(self):
        types = struct.pack(f"<{len(self.types)}I", *self.types)
        head = struct.pack("<HBB5I", 0xEB9F, 1, 0, 24, 0, len(types), len(types), len(self.strings))
        return head + types + bytes(self.strings)


def ints(sketch, size):
    return sketch.prototype([sketch.int() for _ in range(size)])


def fan(sketch, size):
    to = ints(sketch, size)
    return sketch.prototype([sketch.pointer(to) for _ in range(size)])


def nest(sketch, size):
    last = sketch.int()
    for _ in range(size):
        last = sketch.prototype([last])
    return last


def ring(sketch, first, size):
    for place in range(1, size):
        sketch.prototype([first + place])
    sketch.prototype([first])


def hash_of(local, target):
    """The hash of a pair, whose last bits select its bucket (`spread` of btf_compare)."""
    apart = (target - local) % 2**32
    return (((apart << 32) + local // 8) * RATIO % 2**64 >> 32) + local % 8


def flood(sketch, size):
    """Two prototypes of INTs. The product with INVERSE reverses the multiplication of the distance of a pair's ids."""
    for _ in range(FLOODED):
        sketch.int()
    locals_ = list(range(1, size + 1))
    targets = [(it - hash_of(it, it) * INVERSE) % FLOODED or FLOODED for it in locals_]
    return sketch.prototype(locals_), sketch.prototype(targets)


def flooded_rings(sketch, size):
    locals_, number = [], 1
    while len(locals_) < size:
        if number % STEP and hash_of(number, 0) % STEP == 0:
            locals_.append(number)
        number += 1
    targets = [it * STEP for it in range(1, size + 2)]
    after = {it: to for of in (locals_, targets) for it, to in zip(of, of[1:] + of[:1])}
    for number in range(1, max(locals_[-1], targets[-1]) + 1):
        sketch.prototype([after[number]]) if number in after else sketch.pointer(0)
    return locals_[0], targets[0]


def compared(family, size):
    """The table of a family of comparisons, and the word of the work."""
    sketch = Sketch()
    if family == "rings":
        ring(sketch, 1, size)
        ring(sketch, size + 1, size + 1)
        pair = 1, size + 1
    elif family in ("flood", "floodrings"):
        pair = {"flood": flood, "floodrings": flooded_rings}[family](sketch, size)
    else:
        pair = ({"collide": ints, "fan": fan, "nest": nest}[family](sketch, size),) * 2
    return sketch, f"compare={pair[0]},{pair[1]}"


def rewritten(family, size):
    """The table of a family whose records share a name, and the word of the work."""
    sketch = Sketch()
    name = sketch.text(b"\xff" * (2 * size))
    if family in ("longname", "listing"):
        prototype = sketch.prototype([])
        for _ in range(size):
            sketch.record(name, 12 << 24 | 1, prototype)
        return sketch, "rewrite=0"
    to = sketch.int()
    if family == "entries":
        sketch.datasec(name, [sketch.variable(name, to, 0)] * size)
    elif family == "symbols":
        sketch.datasec(name, [sketch.variable(name, to, 1) for _ in range(size)])
    else:
        variable = sketch.variable(name, to, 1)
        for _ in range(size):
            sketch.datasec(name, [variable])
    return sketch, f"rewrite={name}"


def sections(family, size):
    """The table of a family of .BTF.ext sections, and the bytes of the .BTF.ext."""
    sketch = Sketch()
    if family == "sections":
        names = [sketch.text(b"a" * (2 * size))] * size
    else:
        names = [sketch.text(PREFIX + b"%08d" % place) for place in range(size)]
    length = 16 * size + 4
    ext = struct.pack("<7I", 0x1EB9F, 24, 0, length, length, 0, 8)
    return sketch, ext + b"".join(struct.pack("<4I", name, 1, 0, 0) for name in names)


def one_member(sketch, name, member):
    to = sketch.int()
    return sketch.struct(sketch.text(name), [(sketch.text(member), to)])


def twins(sketch):
    inner = one_member(sketch, b"", b"other")
    for _ in range(1, 40):
        inner = sketch.struct(0, [(0, inner)] * 2)
    sketch.struct(sketch.text(b"s"), [(0, inner)] * 2)


def levels(sketch):
    element = index = sketch.int()
    for _ in range(1, 63):
        element = sketch.record(0, 3 << 24, 0, element, index, 1)
    return sketch.struct(sketch.text(b"s"), [(sketch.text(b"m"), element)])


def structs(sketch, count):
    """Appends STRUCTs of one name, which each have another member than `m`, and returns their ids."""
    to, name, member = sketch.int(), sketch.text(b"s"), sketch.text(b"other")
    return [sketch.struct(name, [(member, to)]) for _ in range(count)]


def namesakes(size):
    """The tables and lines of `locals`."""
    local, kernel = Sketch(), Sketch()
    structs(kernel, size)
    access = local.text(b"0:0")
    return local, kernel, "".join(f"{it} {access} {EXISTS}\n" for it in structs(local, size))


def matches(size):
    """The tables and lines of `matches`."""
    tables = Sketch(), Sketch()
    for table, order in zip(tables, (1, -1)):
        to, name = table.int(), table.text(b"s")
        members = [(table.text(b"m%d" % it), to) for it in range(MEMBERS)]
        type_id = table.struct(name, members[::order])
    return *tables, f"{type_id} {tables[0].text(b'0')} {MATCHES}\n" * size


def relocated(family, size):
    """The tables of a family of relocations, and the lines of the records."""
    if family == "locals":
        return namesakes(size)
    if family == "matches":
        return matches(size)
    local, kernel, indices, kind = Sketch(), Sketch(), 2, OFFSET
    if family == "levels":
        levels(kernel)
        type_id, indices = levels(local), 63
    elif family == "loops":
        type_id = local.record(local.text(b"s"), 8 << 24, 1)
    else:
        type_id = one_member(local, b"s", b"m")
    if family == "twins":
        twins(kernel)
        kind = EXISTS
    elif family == "namesakes":
        structs(kernel, size)
        size, kind = 1, EXISTS
    elif family == "fields":
        one_member(kernel, b"s", b"m")
    access = local.text(b":".join([b"0"] * indices))
    return local, kernel, f"{type_id} {access} {kind}\n" * size


FAMILIES = {
    **{it: compared for it in ("collide", "fan", "nest", "rings", "flood", "floodrings")},
    **{it: rewritten for it in ("longname", "listing", "entries", "symbols", "datasecs")},
    **{it: sections for it in ("sections", "collidedsections", "keyedsections")},
    **{it: relocated for it in ("twins", "namesakes", "locals", "matches", "fields", "levels", "loops")},
}


def written(path, data):
    with open(path, "wb") as file:
        file.write(data)
    return path


def command(family, size, folder):
    """Writes the files of a family into a folder, and returns the words of btf_bench for the work on them."""
    table, other = f"{folder}/table", f"{folder}/other"
    if FAMILIES[family] is relocated:
        local, kernel, lines = relocated(family, size)
        records = written(f"{folder}/records", lines.encode())
        return [written(table, local.bytes()), f"relocate={written(other, kernel.bytes())},{records}"]
    sketch, work = FAMILIES[family](family, size)
    if FAMILIES[family] is sections:
        work = f"{'keyed_ext' if family == 'keyedsections' else 'ext'}={written(other, work)}"
    return [written(table, sketch.bytes()), work]


def units(family, size):
    """The expected cost of a table: the number of its pairs, the length of its output, or its size."""
    return {"rings": size * (size + 1), "floodrings": size * (size + 1), "listing": size * size}.get(family, size)


def build(programs, name):
    found = [it for it in (f"{programs}/{name}/out/{name}", f"{programs}/{name}") if os.path.isfile(it)]
    return os.path.abspath(found[0]) if found else sys.exit(f"{name} is not built in {programs}")


def listed(programs, table, reps):
    """The least nanoseconds of a run of `btftool types`."""
    took = []
    for _ in range(reps):
        with open(table, "rb") as file:
            start = time.perf_counter_ns()
            subprocess.run([build(programs, "btftool"), "little", "types"], stdin=file, stdout=subprocess.DEVNULL)
            took.append(time.perf_counter_ns() - start)
    return min(took)


def timed(programs, words, reps):
    """The least nanoseconds of a work."""
    ran = subprocess.run([build(programs, "btf_bench"), *words, str(reps), "--csv"], stdout=subprocess.PIPE, check=True)
    return int(ran.stdout.decode().rsplit(",", 3)[1])


def show(name, nanoseconds, count):
    print(f"{name:<24} {nanoseconds // 1000:>10} us {nanoseconds / max(count, 1):>10.1f} ns a unit", flush=True)


def time_family(programs, family, size, reps):
    for by in (1, 2, 4):
        with tempfile.TemporaryDirectory() as folder:
            words = command(family, by * size, folder)
            least = listed(programs, words[0], reps) if family == "listing" else timed(programs, words, reps)
            show(f"{family} {by * size}", least, units(family, by * size))


def time_names(programs, count, reps):
    """Reads a name, as the last of the string section and as another one, 4,000 bytes before it."""
    for length in (15, 63, 255, 511, 4_000):
        sketch = Sketch()
        first, _, last = (sketch.text(it) for it in (b"a" * length, b"b" * 4_000, b"a" * length))
        for offset, place in ((first, ""), (last, " last")):
            with tempfile.TemporaryDirectory() as folder:
                words = [written(f"{folder}/table", sketch.bytes()), f"text={offset},{count}"]
                show(f"name {length}{place}", timed(programs, words, reps), count)


def records_of(blob):
    """The records of a table's bytes: the kind, the string offset of the name, the third word, and the items."""
    head, type_off, type_len = struct.unpack_from("<3I", blob, 4)
    found, at, end = [(0, 0, 0, [])], head + type_off, head + type_off + type_len
    while at < end:
        name, info, third = struct.unpack_from("<3I", blob, at)
        kind, vlen = info >> 24 & 31, info & 0xFFFF
        each = {1: 1, 3: 3, 14: 1, 17: 1}.get(kind, 0), {4: 3, 5: 3, 6: 2, 13: 2, 15: 3, 19: 3}.get(kind, 0)
        count = each[0] + each[1] * vlen
        items = struct.unpack_from(f"<{count}I", blob, at + 12)
        found.append((kind, name, third, [items[it:it + each[1]] for it in range(0, count, each[1] or count + 1)]))
        at += 12 + 4 * count
    return found


def path(chance, records, number):
    """A random access below a STRUCT or UNION: `0`, and the index of each member on the way to a field."""
    indices = ["0"]
    while len(indices) < 9 and records[number][0] in (4, 5) and records[number][3]:
        index = chance.randrange(len(records[number][3]))
        name, number, _ = records[number][3][index]
        indices.append(str(index))
        if name and chance.random() < 0.5:
            break
        while records[number][0] in (8, 9, 10, 11, 18):
            number = records[number][2]
    return ":".join(indices)


def accesses(blob):
    """Random accesses of a table: the table with their access strings, and the lines of the records."""
    chance, records = random.Random(SEED), records_of(blob)
    named = [it for it, found in enumerate(records) if found[0] in (4, 5, 6, 8, 19) and found[1]]
    head, *_, str_off, str_len = struct.unpack_from("<5I", blob, 4)
    strings, lines = bytearray(blob[head + str_off:head + str_off + str_len]), []
    for _ in range(ACCESSES):
        number = chance.choice(named)
        kind, text = chance.choice((7, 8, 9)), "0"
        if records[number][0] in (6, 19):
            kind, text = chance.choice((10, 11)), str(chance.randrange(max(len(records[number][3]), 1)))
        elif records[number][0] in (4, 5) and chance.random() < 0.75:
            kind, text = chance.choice((0, 1, 2, 3)), path(chance, records, number)
        lines.append(f"{number} {len(strings)} {kind}\n")
        strings += text.encode() + b"\0"
    front = blob[:head + str_off]
    return front[:20] + struct.pack("<I", len(strings)) + front[24:] + bytes(strings), "".join(lines)


def time_relocations(programs, local, target, reps):
    with open(local, "rb") as file:
        blob, lines = accesses(file.read())
    with tempfile.TemporaryDirectory() as folder:
        table, records = written(f"{folder}/table", blob), written(f"{folder}/records", lines.encode())
        words = [table, f"relocate={os.path.abspath(target)},{records}"]
        show("relocate", timed(programs, words, reps), ACCESSES)


def main(words):
    if len(words) > 3 and words[1] == "relocate":
        time_relocations(words[0], words[2], words[3], int(words[4]) if len(words) > 4 else 15)
    elif len(words) > 2 and words[1] == "names":
        time_names(words[0], int(words[2]), int(words[3]) if len(words) > 3 else 15)
    elif len(words) > 2 and words[1] in FAMILIES:
        time_family(words[0], words[1], int(words[2]), int(words[3]) if len(words) > 3 else 15)
    else:
        sys.exit(__doc__)


if __name__ == "__main__":
    main(sys.argv[1:])
