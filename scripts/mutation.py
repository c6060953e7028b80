"""Mutants: the changes in their files, the changed functions, and the prover's reports on them.

A file of mutants is a must-fail edit of `rt ci`: lines `file: PATH`, `old: TEXT` and `new: TEXT`. Other lines are
comments. A file `*_words_mistaken` holds several mutants of one struct.
"""

from __future__ import annotations

import glob
import os
import re
import textwrap
from typing import Dict, Iterator, NamedTuple, Tuple

from repository import after

HEAD = re.compile(r"^(\s*)(?:pub(?:\([a-z]+\))? )?(?:const )?(?:extern \"C\" )?fn (\w+)", re.M)
IMPL = re.compile(r"^impl\b(.*?)\{?$", re.M)
OF_ARGUMENTS = re.compile(r" (\w+)<([\w, ]+)> ?$")
CONST = re.compile(r"\s*(?:pub(?:\([a-z]+\))? )?const (\w+):")
NOTE = re.compile(r"# refused at: ")

KILLED, SURVIVED, WRONG, NOT_APPLICABLE = "killed", "survived", "killed for the wrong reason", "not applicable"

# The errors of a proof file that names something that a mutant removed.
NAMED = re.compile(r"has no field|is not in scope|has no `|was not admitted|already brought in")
# The errors of a source that cannot be read, as for `rt must-fail`.
UNREAD = re.compile(r"is not in scope|has no field|is no name|operand is missing|expected the end|cannot continue")
ERROR = re.compile(r"(?:\./)?(\S+?):(\d+):\d+: error: (?:`([^`]*)`: )?(.*)")
NOTED = re.compile(r"^note: (?:\./)?(\S+?):(\d+):\d+: it is not proved .*?\(`([^`]+)`\)", re.M)
SEARCHED = re.compile(r"`search` did not prove ((?:`[^`]*`(?:, )?)+)")

# Changed lines: the new text of each, by its file and number.
Lines = Dict[Tuple[str, int], str]


class Change(NamedTuple):
    """A text of a file, what replaces it, and the number of its line in the file of mutants."""

    path: str
    old: str
    new: str
    line: int


class Function(NamedTuple):
    """A function of a crate: its module, its type and trait, or nothing, its file, its lines and its text."""

    module: tuple[str, ...]
    type: str
    trait: str
    name: str
    file: str
    first: int
    last: int
    text: str

    @property
    def path(self) -> str:
        """Returns the function's path, in the form that the prover uses in most crates."""
        return "::".join([*self.module, *[self.type + self.trait] * bool(self.type), self.name])

    def names_in(self, names: list[str]) -> list[str]:
        """Returns those of these names that are the prover's names of the function and its closures."""
        closures = "::".join([*self.module, "fn", *[self.type] * bool(self.type), self.name, ""])
        return [it for it in names if it == self.path or it.startswith(closures) or self.is_method(it.split("::"))]

    def is_method(self, parts: list[str]) -> bool:
        """Returns whether a path may be the path of this method. A method is in the module of its type, which another
        file may declare. For a method of a trait, the part before its name has the words of the type and the trait, and
        then of the arguments."""
        if not self.type or parts[-1] != self.name or len(parts) < 3:
            return False
        plain = [it.replace("_", "").lower() for it in (parts[-2], self.type + self.trait)]
        return plain[0].startswith(plain[1]) if self.trait else parts[-2] == self.type

    def is_body(self, number: int) -> bool:
        """Returns whether a line is in the function's body, which no other function sees. The head and the contract are
        not in the body, and neither is any line of a function that a constant may call."""
        lines = self.text.lstrip("\n").split("\n")
        begun = self.first + self.text.index(lines[0])
        indent = lines[0][: len(lines[0]) - len(lines[0].lstrip())]
        opens = [at for at, it in enumerate(lines) if it == indent + "{"] or [0]
        return number > begun + opens[0] and (opens[0] > 0 or lines[0].endswith("{")) and "const fn" not in lines[0]


class Mutant(NamedTuple):
    """A mutant: its file, its name, the lines that it changes by file and number, and the functions that they are in.
    `is_alone`: other functions may see the change. No lines: its texts are not in their files once."""

    crate: str
    path: str
    name: str
    line: int
    lines: Lines
    functions: list[Function]
    is_alone: bool


class Verdict(NamedTuple):
    """The verdict on a mutant, the reason, and the goals that kill it, by function."""

    how: str
    why: str = ""
    goals: dict[str, list[str]] = {}


def owner_of(text: str) -> tuple[str, str]:
    """Returns the type of an `impl` line, and its trait or nothing. The type of `impl Record<IntKind>` is
    `Record+IntKind`, as the prover names it."""
    if of_arguments := OF_ARGUMENTS.match(text):
        return "+".join([of_arguments[1], *of_arguments[2].split(", ")]), ""
    text, shorter = text.replace("->", ""), ""
    while shorter != text:
        text, shorter = re.sub(r"<[^<>]*>", "", text), text
    of_trait, _, of_type = text.partition(" where ")[0].rpartition(" for ")
    return of_type.strip().rpartition("::")[2], of_trait.strip().rpartition("::")[2]


def functions_of(crate: str) -> list[Function]:
    """Returns the functions of a crate, each with the lines from its head to the next head."""
    found = []
    for path in sorted(glob.glob(f"crates/{crate}/src/**/*.rt", recursive=True)):
        text, file = text_of(path), os.path.relpath(path, f"crates/{crate}")
        parts = file[len("src/") : -len(".rt")].split("/")
        module = (crate, *[it for it in parts if it not in ("lib", "main")])
        heads = [*HEAD.finditer(text)]
        for head, end in zip(heads, [*[it.start() for it in heads[1:]], len(text)]):
            impls = [*IMPL.finditer(text, 0, head.start())] if head[1] else []
            owner = owner_of(impls[-1][1]) if impls else ("", "")
            first, last = (text.count("\n", 0, it) + 1 for it in (head.start(), end - 1))
            found.append(Function(module, *owner, head[2], file, first, last, text[head.start() : end]))
    return found


def text_of(path: str) -> str:
    """Returns the text of a file."""
    with open(path, encoding="utf-8") as file:
        return file.read()


def has_one_mutant(path: str) -> bool:
    """Returns whether a file holds one mutant, and not several of one struct."""
    return not path.endswith("_words_mistaken.edit")


def changes_of(path: str) -> Iterator[Change]:
    """Returns the changes of a file of mutants, in order."""
    file = old = ""
    for number, line in enumerate(text_of(path).split("\n")):
        word, _, rest = line.partition(":")
        if word == "file":
            file = rest.strip()
        elif word == "old":
            old, at = after(" ", rest), number
        elif word == "new":
            yield Change(file, old, after(" ", rest), at)


def parts_of(changes: list[Change]) -> Iterator[list[Change]]:
    """Returns changes one by one. If a later change reverts one, both and the changes between them are one part."""
    while changes:
        back = [at for at, later in enumerate(changes) if (later.path, later.old) == (changes[0].path, changes[0].new)]
        count = back[-1] + 1 if back else 1
        yield changes[:count]
        changes = changes[count:]


def lines_changed(crate: str, changes: list[Change]) -> Lines:
    """Returns the lines that change when the changes are made one after the other, by file and number; none if an old
    text is not in its file exactly once."""
    paths = {it.path for it in changes if os.path.isfile(f"crates/{crate}/{it.path}")}
    before = {path: text_of(f"crates/{crate}/{path}") for path in paths}
    after = dict(before)
    for path, old, new, _ in changes:
        if not old or after.get(path, "").count(old) != 1:
            return {}
        after[path] = after[path].replace(old, new)
    pairs = {path: zip(before[path].split("\n"), after[path].split("\n")) for path in after}
    return {(path, at): new for path, of in pairs.items() for at, (old, new) in enumerate(of, 1) if old != new}


def functions_changed(crate: str, lines: Lines, every: list[Function]) -> tuple[list[Function], bool]:
    """Returns the functions that contain these lines, and whether other functions may see the change. A constant counts
    as in the functions that name it. Functions of a cycle of calls have one proof."""
    found: list[Function] = []
    is_alone = False
    for path, number in lines:
        text = text_of(f"crates/{crate}/{path}")
        const = CONST.match(text.split("\n")[number - 1])
        inside = [it for it in every if it.file == path and it.first <= number <= it.last]
        is_body = not const and all(it.is_body(number) for it in inside)
        inside = [it for it in every if re.search(rf"\b{const[1]}\b", it.text)] if const else inside
        found += [it for it in inside if it not in found]
        is_alone = is_alone or not inside or not is_body or "#[cycle(" in text
    return found, is_alone


def mutants_of(crate: str, paths: list[str]) -> Iterator[Mutant]:
    """Returns the mutants of these files of a crate."""
    every = functions_of(crate)
    for path in paths:
        name, changes = os.path.basename(path)[: -len(".edit")], [*changes_of(path)]
        parts = [changes] if has_one_mutant(path) else [*parts_of(changes)]
        for number, part in enumerate(parts, 1):
            label = f"{name}.{number}" if len(parts) > 1 else name
            lines = lines_changed(crate, part)
            at = part[0].line if part else 0
            yield Mutant(crate, path, label, at, lines, *functions_changed(crate, lines, every))


def batches(mutants: list[Mutant], names: list[str], most: int) -> list[list[Mutant]]:
    """Returns mutants of a crate in groups. No two mutants of a group change the same line, or functions that may have
    the same name among the prover's `names`. A mutant whose change other functions may see is a group of its own."""
    groups: list[tuple[set[str], list[Mutant]]] = []
    for mutant in mutants:
        own = {it for function in mutant.functions for it in [function.path, *function.names_in(names)]}
        for others, group in groups if own and not mutant.is_alone else []:
            is_apart = own.isdisjoint(others) and all(mutant.lines.keys().isdisjoint(it.lines) for it in group)
            if others and is_apart and len(group) < most and not group[0].is_alone:
                group.append(mutant)
                others |= own
                break
        else:
            groups.append((own, [mutant]))
    return [group for _, group in groups]


def has_ended(said: str) -> bool:
    """Returns whether the prover has finished, and did not reject the source before any proof."""
    return bool(re.search(r"^(logic|only|holes)=", said, re.M))


def errors_in(said: str) -> list[tuple[str, str, str]]:
    """Returns the errors that the prover reports: the file, the goal or an empty text, and the message."""
    found = map(ERROR.match, re.sub(r"\n  (?=\S)", " ", said).split("\n"))
    return [(it[1], it[3] or "", it[4]) for it in found if it]


def unread(said: str, mutant: Mutant) -> str:
    """Returns the first error of a file that cannot be read; empty if there is none. The file is one that the mutant
    changes, or any file of src/ or specs/ if the mutant changes no function."""
    changed = {path for path, _ in mutant.lines}
    for path, goal, text in errors_in(said):
        if path in changed or not mutant.functions and path.startswith(("src/", "specs/")):
            if not goal or UNREAD.search(re.sub(r"`[^`]*`", "", text)):
                return f"{path}: {text[:160]}"
    return ""


def goals_of(said: str, name: str) -> list[str]:
    """Returns the goals of a function that are not proved: the goals for which the prover's search finds no proof, and
    the goals whose proof in the function's own files it rejects, unless a removed name is the reason."""
    line = dict(re.findall(r"^fn (\S+): (.*)$", said, re.M)).get(name, "proved")
    if line.startswith(("proved", "no holes", "depends on a hole")):
        return []
    goals = [goal for found in SEARCHED.findall(line) for goal in re.findall(r"`([^`]*)`", found)]
    folder = "/".join(["proofs", *name.split("::")[1:]])
    own = [(goal, text) for path, goal, text in errors_in(said) if os.path.dirname(path) == folder]
    return goals + [goal or text[:60] for goal, text in own if not NAMED.search(text)]


def own_goals(said: str, function: Function, names: list[str]) -> dict[str, list[str]]:
    """Returns the goals that are not proved of a function that a mutant changes, and of its closures, by name. If the
    function has its own proofs, the prover reports the goals of its search by the line of the source only."""
    found = {name: goals_of(said, name) for name in function.names_in(names)}
    within = range(function.first, function.last + 1)
    noted = [goal for path, at, goal in NOTED.findall(said) if path == function.file and int(at) in within]
    every = [goal for goals in found.values() for goal in goals]
    found.setdefault(function.path, []).extend(it for it in dict.fromkeys(noted) if it not in every)
    return {name: goals for name, goals in found.items() if goals}


def why_not(said: str, names: list[str]) -> str:
    """Returns the first reason that the prover gives, if no goal of these functions fails."""
    failing = re.findall(r"^fn (\S+: (?!proved|no holes|depends on).*)$", said, re.M)
    own = [it for it in failing if it.partition(": ")[0] in names]
    errors = [f"{path}: {text}" for path, _, text in errors_in(said)]
    return [*own, *errors, *failing, "no goal of the function fails"][0][:200]


def verdict(said: str, mutant: Mutant, names: list[str]) -> Verdict:
    """Returns the verdict on a mutant from the prover's report: it is killed by a goal of a function that it changes,
    or by any goal or worked example if it changes no function."""
    if not mutant.lines:
        return Verdict(NOT_APPLICABLE, "an old text is not in its file exactly once")
    if not has_ended(said):
        errors = [it for it in said.split("\n") if re.search(r"\berror\b|no verdict", it)]
        return Verdict(WRONG, f"the prover does not take it: {[*errors, 'it reports nothing'][0][:160]}")
    if unread(said, mutant):
        return Verdict(WRONG, f"its text cannot be read: {unread(said, mutant)}")
    if re.search(r"^logic=proved", said, re.M):
        return Verdict(SURVIVED)
    own = [name for it in mutant.functions for name in it.names_in(names)]
    goals: dict[str, list[str]] = {}
    for function in mutant.functions:
        goals.update(own_goals(said, function, names))
    if not mutant.functions:
        for path, goal, text in errors_in(said):
            if goal and not NAMED.search(text):
                goals.setdefault(path, []).append(goal)
        every = {name: goals_of(said, name) for name in re.findall(r"^fn (\S+): ", said, re.M)}
        goals.update({name: of for name, of in every.items() if of})
    return Verdict(KILLED, "", goals) if goals else Verdict(WRONG, why_not(said, own))


def agrees(how: str, said: str) -> bool:
    """Returns whether a verdict agrees with what `rt must-fail` says of the mutant. It may refuse what is killed for
    the wrong reason, because it does not look at which function has the goal that is not proved."""
    is_refused = said.startswith("refused, as it must be")
    is_refused_well = is_refused and not said.startswith("refused, as it must be (only because")
    is_bad = said.startswith("BAD EDIT")
    expected = {KILLED: is_refused_well, SURVIVED: said.startswith("NOT REFUSED")}
    return expected.get(how, is_bad or is_refused and how == WRONG)


def notes_of(goals: dict[str, list[str]]) -> Iterator[str]:
    """Returns the comments that name the goals that kill a mutant, within the width of a line."""
    for name, of_name in sorted(goals.items()):
        begun = f"# refused at: {name.partition('::')[2] or name}: "
        wrapped = textwrap.wrap(", ".join(of_name), 120 - len(begun), break_long_words=False, break_on_hyphens=False)
        yield from [begun + (line[:-1] if line.endswith(",") else line) for line in wrapped]


def write_notes(path: str, goals_at: dict[int, dict[str, list[str]]]) -> None:
    """Writes the goals that kill the mutants of a file before the lines of these numbers, in place of other comments
    of this kind; returns nothing."""
    lines = text_of(path).split("\n")
    after = []
    for number, line in enumerate(lines):
        after += [*notes_of(goals_at.get(number, {})), line] if not NOTE.match(line) else []
    with open(path, "w", encoding="utf-8") as file:
        file.write("\n".join(after))
