#!/usr/bin/env python3
"""Draws programs in several sections, and kernels with several structures of one name: family.py SEED.

Writes shared1.c to shared12.c and namesakes1.c to namesakes6.c. A program uses `struct s` and `struct t` in two to four
sections, and a kernel has two or three definitions of each, with other members. So what the program of one section
needs decides what those of later sections find.
"""

import random
import sys

PROGRAMS, KERNELS = 12, 6
NAMES, MEMBERS = "st", "abcd"
# What a function returns of its structure `p`: a member, whether there is one, its size; the size of the type, whether
# there is one.
FIELDS = ("p->{0}", "p->{0}", "__builtin_preserve_field_info(p->{0}, 2)", "__builtin_preserve_field_info(p->{0}, 1)")
TYPES = ("__builtin_preserve_type_info(*p, 1)", "__builtin_preserve_type_info(*p, 0)")
HEAD = """#define CORE __attribute__((preserve_access_index))
#define SECTION(name) __attribute__((section(name), used))
"""


def program(draw):
    """Returns the text of a program."""
    text = HEAD
    for name in NAMES:
        text += f"struct {name} {{ {' '.join(f'int {it};' for it in MEMBERS)} }} CORE;\n"
    count = 0
    for section in range(draw.randint(2, 4)):
        for _ in range(draw.randint(1, 2)):
            result = draw.choice(FIELDS * 2 + TYPES).format(draw.choice(MEMBERS))
            text += f'SECTION("kprobe/{section}") int f{count}(struct {draw.choice(NAMES)} *p) {{ return {result}; }}\n'
            count += 1
    return text


def kernel(draw):
    """Returns the text of a kernel."""
    text = ""
    for name in NAMES:
        for flavor in range(1, draw.choice((2, 2, 3)) + 1):
            members = sorted(draw.sample(MEMBERS, draw.randint(1, 3)))
            types = (draw.choice(("int", "int", "int", "long")) for _ in members)
            own = name if flavor == 1 else f"{name}___{flavor}"
            text += f"struct {own} {{ {' '.join(f'{kind} {it};' for kind, it in zip(types, members))} }} {own}_one;\n"
    return text


def main():
    draw = random.Random(int(sys.argv[1]))
    for name, count, of in ("shared", PROGRAMS, program), ("namesakes", KERNELS, kernel):
        for number in range(1, count + 1):
            with open(f"{name}{number}.c", "w", encoding="utf-8") as file:
                file.write(of(draw))


if __name__ == "__main__":
    main()
