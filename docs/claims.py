#!/usr/bin/env python3
"""Checks the references to contracts and definitions in docs/*.md and README.md.

    docs/claims.py            prints what is wrong, with the right line where there is one; ends with 1 where anything is
    docs/claims.py --write    puts the right lines in

A reference is `crates/../FILE.rt:LINE` (`FUNCTION`: `CLAUSE`), or `crates/../FILE.antt:LINE` (`RECORD`: `FIELD`), of which the clause or
field may be left out, and more may follow. The line is that of the first clause or field, and without one that of the function or
definition. A clause without a name is named by a definition that it cites. In docs/CLAIMS.md each numbered claim has a reference, and a
wrong body or the word "none" after "Against". Python 3.9 or later and its standard library.
"""

from __future__ import annotations

import glob
import os
import re
import sys
from typing import Iterator, List, Optional, Tuple

from contracts import TOP, functions_in, text_of

REFERENCE = re.compile(r"`(crates/[\w/]+\.(rt|antt)):(\d+)`\s+\(`([\w:]+)`((?:[:,]\s+`\w+`)*)\)")
EDIT = re.compile(r"`((?:crates/\w+/must-fail|wrong_bodies/\w+)/\w+\.edit)`")
# the code that connects the model's streams and volume to those of a process, which no contract describes
EDGE = ("outside/src/std_source", "outside/src/std_sink", "outside/src/dir_volume", "outside/src/directory", "outside/src/lock_files")
EDGE += ("ledger/src/main",)


def line_in_code(path: str, owner: str, clauses: List[str]) -> Optional[int]:
    """The line of the first of some clauses of a function; none where the function or one of them isn't there."""
    for function in functions_in(f"{TOP}/{path}"):
        if owner not in (function.name, function.full_name):
            continue
        lines = []
        for clause in clauses:
            lines += [it.line for it in function.clauses if it.name == clause or not it.name and clause in it.cites][:1]
        if len(lines) == len(clauses):
            return lines[0] if lines else function.line
    return None


def line_in_definitions(path: str, owner: str, fields: List[str]) -> Optional[int]:
    """The line of the first of some fields of a record, or of a definition; none where it or one of them isn't there."""
    text = text_of(f"{TOP}/{path}")
    head = re.search(rf"(?m)^(?:abbrev |unfoldable )?pub (?:record |data )?{owner}\b", text)
    if not head:
        return None
    following = re.search(r"(?m)^\S", text[head.end():])
    end = head.end() + following.start() if following else len(text)
    places = [re.search(rf"(?m)^ +pub {field} :", text[head.end():end]) for field in fields]
    if None in places:
        return None
    at = head.end() + places[0].start() + 1 if places and places[0] else head.start() + 1
    return text.count("\n", 0, at) + 1


def right_line(reference: "re.Match[str]") -> Optional[int]:
    path, kind, _, owner, clauses = reference.groups()
    names = re.findall(r"\w+", clauses)
    if not os.path.isfile(f"{TOP}/{path}"):
        return None
    return line_in_code(path, owner, names) if kind == "rt" else line_in_definitions(path, owner, names)


def pages() -> List[str]:
    return [f"{TOP}/README.md", *sorted(path for path in glob.glob(f"{TOP}/docs/*.md") if not path.endswith("/INDEX.md"))]


def edge_lines() -> int:
    """The lines of code in EDGE, without comments, blank lines, and what is for proofs alone."""
    count = 0
    for name in EDGE:
        for line in text_of(f"{TOP}/crates/{name}.rt").splitlines():
            count += bool(line.strip()) and not re.match(r"\s*(//|ghost |ensures |requires |#!?\[)", line)
    return count


def wrong_references(path: str) -> Iterator[Tuple[str, int, Optional[int]]]:
    """The references of a page that name another line than they should: the reference, its line, and the right one."""
    for reference in REFERENCE.finditer(text_of(path)):
        right = right_line(reference)
        if right != int(reference[3]):
            yield reference[0], int(reference[3]), right


def faults() -> Iterator[str]:
    for path in pages():
        name = os.path.relpath(path, TOP)
        for reference, _, right in wrong_references(path):
            yield f"{name}: {' '.join(reference.split())}: " + (f"it is line {right}" if right else "there is no such clause")
        for edit in EDIT.findall(text_of(path)):
            if not os.path.isfile(f"{TOP}/{edit}"):
                yield f"{name}: there is no wrong body {edit}"
    claims = re.split(r"(?m)^(?=\d+\. )", text_of(f"{TOP}/docs/CLAIMS.md").split("\n## Not claimed")[0])[1:]
    for number, claim in enumerate(claims, 1):
        against = claim.partition("Against:")[2]
        if not claim.startswith(f"{number}. ") or not REFERENCE.search(claim) or not (EDIT.search(against) or " none" in against):
            yield f"docs/CLAIMS.md: claim {number} lacks its number, a reference or a wrong body"
    if f"{edge_lines()} lines" not in " ".join(text_of(f"{TOP}/docs/ASSUMPTIONS.md").split()):
        yield f"docs/ASSUMPTIONS.md: the code that no contract describes has {edge_lines()} lines"


def write() -> None:
    """Puts the right lines into the references."""
    for path in pages():
        text = text_of(path)

        def mended(reference: "re.Match[str]") -> str:
            right = right_line(reference)
            return reference[0].replace(f":{reference[3]}`", f":{right}`", 1) if right else reference[0]

        new = REFERENCE.sub(mended, text)
        if new != text:
            with open(path, "w", encoding="utf-8") as file:
                file.write(new)


if __name__ == "__main__":
    if "--write" in sys.argv[1:]:
        write()
    found = list(faults())
    print("\n".join(found), end="\n" if found else "")
    sys.exit(1 if found else 0)
