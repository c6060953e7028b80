"""The crates of this repository, and the toolchain that proves them, for the other scripts."""

from __future__ import annotations

import os
import subprocess


def after(begin: str, text: str) -> str:
    """Returns a text without what it may begin with."""
    return text[len(begin) :] if text.startswith(begin) else text


def kit() -> str:
    """Returns the folder of the toolchain."""
    page = subprocess.run(["rt", "doc"], stdout=subprocess.PIPE, text=True, check=True).stdout
    return os.path.dirname(page.strip())


def run_tool(name: str, *words: str, folder: str = ".") -> None:
    """Runs a tool of LLVM in a folder, and returns nothing; raises an error if the tool fails. The toolchain's clang is
    each of these tools, by the name that it is run under, and most of them are no file of their own."""
    subprocess.run([name, *words], executable=f"{kit()}/toolchain/bin/clang", cwd=folder, check=True)


def crates() -> list[tuple[list[str], list[str]]]:
    """Returns the lines of crates.txt: each crate's name with the words after it, and the libraries that it uses."""
    with open("crates.txt", encoding="utf-8") as file:
        lines = [line.partition(":") for line in file if ":" in line and not line.startswith("#")]
    return [(named.split(), uses.split()) for named, _, uses in lines]


def uses_of_crates() -> dict[str, list[str]]:
    """Returns the libraries that each crate uses, by its name: crates of this repository, and others."""
    return {named[0]: uses for named, uses in crates()}


def is_static(crate: str) -> bool:
    """Returns whether a crate is a static library, for C."""
    return [crate, "staticlib"] in [named for named, _ in crates()]


def below(crate: str, uses: dict[str, list[str]]) -> list[str]:
    """Returns all crates of this repository that a crate uses, directly or indirectly, each after the crates that it
    uses."""
    found: list[str] = []
    for name in [it for it in uses[crate] if it in uses]:
        found += [it for it in [*below(name, uses), name] if it not in found]
    return found


def is_program(crate: str) -> bool:
    """Returns whether a crate is a program."""
    return os.path.exists(f"crates/{crate}/src/main.rt")


def rlib(crate: str, crates: str) -> str:
    """Returns the path of a built library in a folder of crates."""
    return f"{crates}/{crate}/out/rlib/{crate}.rlib"


def prover(verb: str, crate: str, crates: str, uses: dict[str, list[str]]) -> list[str]:
    """Returns the command line of a check or a build of a crate in its folder, as `rt` makes it, with the libraries
    that are built in a folder of crates."""
    at = kit()
    root = "src/main.rt" if is_program(crate) else "src/lib.rt"
    words = [f"{at}/bin/rattle", verb, "--crate-name", crate, root, "-L", f"dependency={at}/rlibs"]
    for name in ["std", *uses[crate]]:
        words += ["--extern", f"{name}={rlib(name, crates) if name in uses else f'{at}/rlibs/{name}.rlib'}"]
    for name in sorted(below(crate, uses)):
        words += ["-L", f"dependency={os.path.dirname(rlib(name, crates))}"]
    words += ["--antt-project", f"{at}/rattle/logic/antt-project.json", "--logic-built", f"{at}/logic_built"]
    words += ["--links", f"{crate}=", "--jobs", "1"]
    return [*words, "--crate-type", "staticlib"] if is_static(crate) else words
