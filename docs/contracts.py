"""The functions of the crates and the clauses of their contracts, read from the text of crates/*/src.

A clause is `requires` or `ensures`, mostly with a name. One without a name is known by the definitions that it cites. Python 3.9 or
later and its standard library.
"""

from __future__ import annotations

import glob
import os
import re
from dataclasses import dataclass
from typing import Dict, Iterator, List, Set, Tuple

TOP = os.path.dirname(os.path.dirname(os.path.abspath(__file__)))

# comments, strings and characters, in which a brace is none
QUIET = re.compile(r"//[^\n]*|\"(?:\\.|[^\"\\])*\"|b?'(?:\\[^u]|\\u\{\w+\}|[^\\'\n])'")
OWNER = re.compile(r"^(?:pub (?:\(\w+\) )?)?(?:unsafe )?(impl|trait|mod)\b([^{;]*)\{", re.M)
HEAD = re.compile(r"^[ \t]*(pub(?:\([a-z]+\))? )?(?:const |unsafe )*fn (\w+)", re.M)
CLAUSE = re.compile(r"\s*(requires|ensures)(?: (\w+))? \{")
WORD = re.compile(r"[^\s(){}\[\];,.]+")


@dataclass
class Clause:
    """A clause: its kind, its name or "", its first line, its text, and the definitions that it cites."""

    kind: str
    name: str
    line: int
    text: str
    cites: List[str]


@dataclass
class Function:
    """A function with its contract, and what its body says."""

    crate: str
    # the file, below the top
    path: str
    # the type or trait that it is a method of, or ""
    owner: str
    name: str
    line: int
    is_public: bool
    is_law: bool
    clauses: List[Clause]
    body: str
    # the offsets in the file at which it begins and ends
    span: Tuple[int, int]

    @property
    def full_name(self) -> str:
        return f"{self.owner}::{self.name}" if self.owner else self.name


def text_of(path: str) -> str:
    with open(path, encoding="utf-8") as file:
        return file.read()


def quieted(text: str) -> str:
    """A text of code of which comments, strings and characters are blank, as long as it was."""
    return QUIET.sub(lambda found: re.sub(r"[^\n]", " ", found[0]), text)


def closing(text: str, at: int) -> int:
    """The offset after the brace or bracket that closes the one at an offset."""
    depth = 0
    for found in re.compile(r"[(){}\[\]]").finditer(text, at):
        depth += 1 if found[0] in "({[" else -1
        if not depth:
            return found.end()
    raise ValueError("a brace isn't closed")


def owners_in(quiet: str) -> List[Tuple[int, int, str, bool]]:
    """The blocks that own functions: where they begin and end, the name of the type or trait, and whether it is a public trait."""
    found = []
    for head in OWNER.finditer(quiet):
        if head[1] == "mod":
            continue
        words = re.sub(r"<(?:[^<>]|<(?:[^<>]|<[^<>]*>)*>)*>", "", head[2]).split(" where ")[0]
        name = re.split(r"\bfor\b", words)[-1].strip().split(":")[0].strip()
        is_public_trait = head[1] == "trait" and head[0].startswith("pub ")
        found.append((head.start(), closing(quiet, head.end() - 1), name, is_public_trait))
    return found


def definitions_of(text: str) -> Dict[str, Tuple[str, str]]:
    """The definitions that a file of code imports, but for those of the standard library: the file of each, and its name there."""
    found = {}
    for path, names in re.findall(r"ghost use (Rattle\.[\w.]+)\.\{([^}]*)\};", text):
        if path.startswith("Rattle.std.") or ".specs." not in path:
            continue
        for it in names.split(","):
            name, _, other = it.strip().partition(" as ")
            found[other or name] = (path.split(".")[-1], name)
    return found


def files_of(text: str) -> Set[str]:
    """The names that a file of code gives to entire files of definitions."""
    return set(re.findall(r"ghost use Rattle\.[\w.]+\.specs\.[\w.]+ as (\w+);", text)) | {"spec"}


def cited(clause: str, known: Dict[str, Tuple[str, str]], files: Set[str]) -> List[str]:
    """The definitions that a clause cites, in its order."""
    words = [(word, word in known) for word in WORD.findall(re.sub(r"\b(\w+)\.(\w+)", lambda it: (
        f" {it[1]}\0{it[2]} " if it[1] in files else it[0]), clause))]
    return list(dict.fromkeys(word.partition("\0")[2] or word for word, is_known in words if is_known or "\0" in word))


def clauses_after(
    text: str, quiet: str, at: int, known: Dict[str, Tuple[str, str]], files: Set[str]
) -> Tuple[List[Clause], int, bool]:
    """The clauses of a signature that begins at an offset, the offset after them, and whether the function can do nothing, as a law."""
    clauses: List[Clause] = []
    opened = quiet.index("(", at)
    at = closing(quiet, opened)
    is_law = "&mut" not in quiet[opened:at]
    while True:
        clause = CLAUSE.match(quiet, at)
        if clause:
            end = closing(quiet, clause.end() - 1)
            inner = text[clause.end():end - 1]
            line = text.count("\n", 0, clause.start(1)) + 1
            clauses.append(Clause(clause[1], clause[2] or "", line, inner, cited(inner, known, files)))
            at = end
        elif quiet[at] in "{;":
            return clauses, at, is_law
        else:
            is_law = is_law and quiet[at:at + 2] != "->"
            at = closing(quiet, at) if quiet[at] in "([" else at + 1


def functions_in(path: str) -> List[Function]:
    """The functions of a file of code."""
    text = text_of(path)
    quiet, known, files = quieted(text), definitions_of(text), files_of(text)
    owners = owners_in(quiet)
    below = os.path.relpath(path, TOP)
    found = []
    for head in HEAD.finditer(quiet):
        around = [it for it in owners if it[0] <= head.start() < it[1]]
        owner, is_trait = (around[-1][2], around[-1][3]) if around else ("", False)
        clauses, at, is_law = clauses_after(text, quiet, head.end(), known, files)
        end = closing(quiet, at) if quiet[at] == "{" else at + 1
        line = text.count("\n", 0, head.start(2)) + 1
        is_public = head[1] == "pub " or is_trait
        span = (head.start(), end)
        found.append(Function(below.split("/")[1], below, owner, head[2], line, is_public, is_law, clauses, quiet[at:end], span))
    return found


def crates() -> List[str]:
    """The crates in the order of crates.txt, and then those that it doesn't list."""
    listed = re.findall(r"(?m)^(\w+):", text_of(f"{TOP}/crates.txt"))
    there = sorted(os.path.basename(path) for path in glob.glob(f"{TOP}/crates/*"))
    return [crate for crate in listed if crate in there] + [crate for crate in there if crate not in listed]


def functions() -> Iterator[Function]:
    """The functions of all crates, crate by crate and file by file."""
    for crate in crates():
        for path in sorted(glob.glob(f"{TOP}/crates/{crate}/src/**/*.rt", recursive=True)):
            yield from functions_in(path)


def below(crate: str) -> Set[str]:
    """A crate and all that it depends on, as crates.txt says."""
    listed = dict(re.findall(r"(?m)^(\w+):([^#\n]*)", text_of(f"{TOP}/crates.txt")))
    seen: Set[str] = set()
    ahead = [crate]
    while ahead:
        name = ahead.pop()
        if name not in seen:
            seen.add(name)
            ahead += listed.get(name, "").split()
    return seen
