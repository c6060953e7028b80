"""The mutants of a sample, which is what one run of the gate tries of the folders `mutants/`.

A sample has each file with a line '# in every sample' (a named mistake), the mutant of each promise that
`docs/mutants.txt` marks by a star behind the label, two of a crate that is cheap to prove, and DRAWN others, of all
crates. For these others each file has a place on a ring, by a hash of its path, and `scripts/round.txt` has the number
of a round and the part of the ring whose files it draws. `scripts/mutants --next-round` makes that part begin where it
ended: each file is drawn once before any is drawn twice, those drawn longest ago first, also if files are added or
removed meanwhile. Whoever changes crates/ runs that command once and commits `scripts/round.txt`; a sample says if
nobody did. So a sample depends on the files of the repository alone, and is the same before a commit, after it, and
after a rebase.
"""

from __future__ import annotations

import hashlib
import os
import re
import subprocess
from typing import NamedTuple

import mutation
from mutation import text_of

ALWAYS = "# in every sample"
ROUND = "scripts/round.txt"
HEAD = "# A round's number, and the part of the ring that it draws, from a place up to another (scripts/sampling.py).\n"
PLACES = 16**4
DRAWN = 8
# The crates of which `rt must-fail` judges mutants too: they use no crate of this repository but btf_model.
CHEAP = ("btf_elf_model", "btf_layout_model", "btf_model", "btf_order_model", "btf_split_model", "text_buffer")
JUDGED = 2


class Round(NamedTuple):
    """A round: its number, and the first place of its part of the ring and the place behind the last one. If these two
    are equal, it draws every file."""

    number: int
    begin: int
    end: int

    def draws(self, path: str) -> bool:
        """Returns whether the round draws a file."""
        return self.begin == self.end or ahead(path, self.begin) < (self.end - self.begin) % PLACES

    def next(self, paths: list[str]) -> Round:
        """Returns the next round: it draws the DRAWN files of these that follow on the ring."""
        last = sorted(ahead(it, self.end) for it in paths)[:DRAWN][-1:]
        end = self.end + last[0] + 1 if last and len(paths) > DRAWN else self.end
        return Round(self.number + 1, self.end, end % PLACES)


def ahead(path: str, place: int) -> int:
    """Returns how far ahead of a place of the ring a file is."""
    return (int(hashlib.sha256(path.encode()).hexdigest()[:4], 16) - place) % PLACES


def current() -> Round:
    """Returns the round that the repository is in."""
    text = text_of(ROUND) if os.path.exists(ROUND) else ""
    found = re.search(r"^(\d+) ([0-9a-f]{4}) ([0-9a-f]{4})$", text, re.M)
    return Round(int(found[1]), int(found[2], 16), int(found[3], 16)) if found else Round(0, 0, 0)


def name_of(path: str) -> str:
    """Returns the name of a file of mutants: its crate, and its own name without the ending."""
    return f"{path.split('/')[1]}/{os.path.basename(path)[: -len('.edit')]}"


def listed() -> dict[str, list[str]]:
    """Returns the labels of each mutant in docs/mutants.txt, with their stars."""
    lines = [it.split() for it in text_of("docs/mutants.txt").split("\n") if it and not it.startswith("#")]
    return {words[0].rstrip(":"): words[1:] for words in lines}


def fixed(path: str, labels: dict[str, list[str]]) -> list[str]:
    """Returns the promises for which a file is in every sample."""
    return [it[:-1] for it in labels.get(name_of(path), []) if it.endswith("*")]


def is_named(path: str) -> bool:
    """Returns whether a file is in every sample as a named mistake."""
    return ALWAYS in text_of(path).split("\n")


def unwatched(paths: list[str]) -> list[str]:
    """Returns the labels of docs/PROMISES.md of which no run of the gate has to try a mutant: none of these files is
    a named mistake, is marked by a star, or is in `must-fail/`. Labels without a mutant are left out."""
    labels = listed()
    every = {label.rstrip("*") for of in labels.values() for label in of}
    tried = {label for it in paths for label in fixed(it, labels)}
    for path in paths:
        if "/must-fail/" in path or is_named(path):
            tried.update(label.rstrip("*") for label in labels.get(name_of(path), []))
    return [it for it in re.findall(r"^\| `([\w-]+)` \|", text_of("docs/PROMISES.md"), re.M) if it in every - tried]


def to_draw(paths: list[str]) -> list[str]:
    """Returns those of these files that are not in every sample."""
    labels = listed()
    return [it for it in paths if "/mutants/" in it and not is_named(it) and not fixed(it, labels)]


def judged(paths: list[str]) -> list[str]:
    """Returns the files of a sample that `rt must-fail` judges too: on the ring the first behind the part of the last
    round that is of a cheap crate and has one mutant, and the next of the same crate."""
    begin = current().begin
    found = [it for it in paths if it.split("/")[1] in CHEAP and mutation.has_one_mutant(it)]
    found.sort(key=lambda it: (ahead(it, begin), it))
    return [it for it in found if it.split("/")[1] == found[0].split("/")[1]][:JUDGED]


def sample(paths: list[str]) -> dict[str, str]:
    """Returns those of these files that are in the sample, each with the reason."""
    labels, now, free = listed(), current(), {*to_draw(paths)}
    both = judged(paths)
    found: dict[str, str] = {}
    for path in sorted(paths):
        reasons = ["named mistake"] * is_named(path)
        reasons += [f"fixed for {', '.join(fixed(path, labels))}"] * bool(fixed(path, labels))
        reasons += [f"drawn in round {now.number}"] * (path in free and now.draws(path))
        reasons += ["judged by rt must-fail too"] * (path in both)
        if reasons:
            found[path] = "; ".join(reasons)
    return found


def begin_next(paths: list[str]) -> Round:
    """Writes the next round to scripts/round.txt, and returns it."""
    begun = current().next(to_draw(paths))
    with open(ROUND, "w", encoding="utf-8") as file:
        file.write(f"{HEAD}{begun.number} {begun.begin:04x} {begun.end:04x}\n")
    return begun


def git(*words: str) -> str:
    """Returns what a command of git prints, or an empty text if it fails."""
    how = {"stdout": subprocess.PIPE, "stderr": subprocess.DEVNULL, "text": True, "check": False}
    try:
        ran = subprocess.run(["git", *words], **how)
    except OSError:
        return ""
    return ran.stdout.strip() if ran.returncode == 0 else ""


def is_late() -> bool:
    """Returns whether crates/ changed after the commit that began the round. Without git this is not known: False."""
    begun = git("log", "-1", "--format=%H", "--", ROUND)
    if not begun or git("diff", "--name-only", "HEAD", "--", ROUND):
        return False
    return git("rev-parse", "HEAD:crates") != git("rev-parse", f"{begun}:crates")
