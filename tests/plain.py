"""The comparison of types by its definition: a recursion that records no results, over the words of two tables. It is
written from the rules (docs/BEHAVIOUR.md, `types_are_compatible`), and rows compare the library with it."""

from __future__ import annotations

WALK_LIMIT = 32
INT, PTR, ARRAY, ENUM, TYPEDEF, VOLATILE, CONST, RESTRICT = 1, 2, 3, 6, 8, 9, 10, 11
FUNC, FUNC_PROTO, VAR, DATASEC, DECL_TAG, TYPE_TAG, ENUM64 = 12, 13, 14, 15, 17, 18, 19
MODIFIERS = (TYPEDEF, VOLATILE, CONST, RESTRICT, TYPE_TAG)
# The words after the first three: a fixed number, or a number for each item.
FIXED = {INT: 1, ARRAY: 3, VAR: 1, DECL_TAG: 1}
EACH = {4: 3, 5: 3, ENUM: 2, FUNC_PROTO: 2, DATASEC: 3, ENUM64: 3}


class Stop(Exception):
    """An error of the comparison."""


def records(words):
    """Returns the records of words, by id: the kind and all words."""
    found, at = [(0, [0, 0, 0])], 0
    while at < len(words):
        kind, vlen = words[at + 1] >> 24 & 31, words[at + 1] & 0xffff
        end = at + 3 + FIXED.get(kind, 0) + EACH.get(kind, 0) * vlen
        found.append((kind, words[at:end]))
        at = end
    return found


def record(table, number):
    if number >= len(table):
        raise Stop(f"UnknownBtfType {{ type_id: {number} }}")
    return table[number]


def resolved(table, number):
    """Returns the id that an id resolves to."""
    at = number
    for _ in range(WALK_LIMIT):
        kind, words = record(table, at)
        if kind not in MODIFIERS:
            return at
        at = words[2]
    raise Stop(f"MaximumTypeDepthReached {{ type_id: {number} }}")


def agree(one, other):
    """Whether two kinds are compatible."""
    same = {ENUM64: ENUM}
    return same.get(one, one) == same.get(other, other)


class Comparison:
    """A comparison of types of two tables; it lists the pairs that it starts, each at its first occurrence."""

    def __init__(self, local, target):
        self.local, self.target, self.starts, self.known = local, target, [], set()

    def compare(self, pair, above):
        """Compares a pair; `above` are the open pairs."""
        if pair in above:
            raise Stop(f"MaximumTypeDepthReached {{ type_id: {pair[0]} }}")
        kinds = record(self.local, pair[0])[0], record(self.target, pair[1])[0]
        if pair not in self.known:
            self.known.add(pair)
            self.starts.append(pair)
        return agree(*kinds) and self.walk(pair, above + (pair,))

    def walk(self, at, above):
        for _ in range(WALK_LIMIT):
            ids = resolved(self.local, at[0]), resolved(self.target, at[1])
            (kind, words), (other, target) = self.local[ids[0]], self.target[ids[1]]
            if not agree(kind, other):
                return False
            if kind == INT:
                return not (words[3] >> 16 & 255 or target[3] >> 16 & 255)
            if kind not in (PTR, ARRAY, FUNC_PROTO):
                if kind in (FUNC, VAR, DATASEC, DECL_TAG):
                    raise Stop(f"UnexpectedBtfType {{ type_id: {ids[0]} }}")
                return True
            if kind == FUNC_PROTO and not self.parameters(words, target, above):
                return False
            place = 3 if kind == ARRAY else 2
            at = words[place], target[place]
        raise Stop(f"MaximumTypeDepthReached {{ type_id: {at[0]} }}")

    def parameters(self, words, target, above):
        """Whether prototypes have the same number of parameters, and each pair of them is compatible."""
        if len(words) != len(target):
            return False
        for place in range(4, len(words), 2):
            pair = resolved(self.local, words[place]), resolved(self.target, target[place])
            if not self.compare(pair, above):
                return False
        return True


def answer(local, target, pair):
    """Returns the answer of the comparison and the pairs that it starts, as the call `traced` shows them."""
    comparison = Comparison(local, target)
    try:
        text = "true" if comparison.compare(pair, ()) else "false"
    except Stop as stop:
        text = str(stop)
    return f"{text} ;{''.join(f' {one} {other}' for one, other in comparison.starts)}"
