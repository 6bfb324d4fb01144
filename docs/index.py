#!/usr/bin/env python3
"""Writes docs/INDEX.md: each public function that has a contract, where it is, its clauses, and what runs or attacks it; and each file of
definitions, with what it says of itself.

    docs/index.py            writes it
    docs/index.py --check    ends with 1 where it would write another one

What runs a function is found by names alone: from the functions with which a program begins, each name in a body leads to what has that
name in the crates below, so that a method counts as run where another one of its name may be. Python 3.9 or later and its standard
library.
"""

from __future__ import annotations

import glob
import os
import re
import sys
import textwrap
from collections import defaultdict
from typing import Dict, Iterable, Iterator, List, Set, Tuple

import reached
from contracts import TOP, Function, below, crates, functions, text_of

PATH = f"{TOP}/docs/INDEX.md"
# what runs functions: the word in the index, the crate, and whether all of its functions are begun with
RUNNERS = (("program", "ledger", False), ("probe", "probe", False), ("speed", "speed", False), ("threads", "board_tests", True))
NAME = re.compile(r"(\.|::)?\b([a-z_]\w*)\b")
HEADER = """# Index of contracts and definitions

Written by `docs/index.py`; don't edit it. For each crate: what its root file says of it; its public functions that have
clauses; and its files of definitions, each with its first words and the number of its definitions, where "3 of 5" says
that the theorem (`Ran`) reaches three of them.

A clause without a name stands in parentheses, with up to three definitions that it cites. "Run by" says which program
reaches the function, judged by names alone: `program` is `ledger`, `threads` is `board_tests`, and `rows` means that
`definition_rows` evaluates a definition which a clause cites. A `law` has nothing to run. The last column counts the
wrong bodies that change the function: the gate's own (`must-fail`) and those in `wrong_bodies/`.
"""


def run_from(begun: Iterable[Function], known: Set[str], named: Dict[Tuple[bool, str], List[Function]]) -> Set[int]:
    """The functions that some lead to, by the names in their bodies."""
    ahead, seen = list(begun), set()
    while ahead:
        function = ahead.pop()
        if id(function) in seen:
            continue
        seen.add(id(function))
        for mark, name in set(NAME.findall(function.body)):
            kinds = ((True, name),) if mark == "." else ((True, name), (False, name)) if mark else ((False, name),)
            ahead += [it for kind in kinds for it in named.get(kind, ()) if it.crate in known]
    return seen


def runs(all_functions: List[Function]) -> Dict[int, List[str]]:
    """What runs each function."""
    named: Dict[Tuple[bool, str], List[Function]] = defaultdict(list)
    for function in all_functions:
        named[bool(function.owner), function.name].append(function)
    found: Dict[int, List[str]] = defaultdict(list)
    for word, crate, is_entire in RUNNERS:
        begun = [it for it in all_functions if it.crate == crate and (is_entire or it.name == "main")]
        for function in run_from(begun, below(crate), named):
            found[function].append(word)
    return found


def evaluated() -> Set[str]:
    """The definitions that the rows of definition_rows name."""
    found: Set[str] = set()
    for path in glob.glob(f"{TOP}/crates/definition_rows/proofs/*.antt"):
        for names in re.findall(r"(?m)^(?:pub )?use Rattle\.(?!std\.)[\w.]*\bspecs\.[\w.]*\{([^}]*)\}", text_of(path)):
            found |= {it.strip().partition(" as ")[0] for it in names.split(",")}
    return found


def attacks() -> Dict[str, List[Tuple[bool, str]]]:
    """For each file of code the texts that wrong bodies change, and whether the gate tries them."""
    found: Dict[str, List[Tuple[bool, str]]] = defaultdict(list)
    for path in glob.glob(f"{TOP}/crates/*/must-fail/*.edit") + glob.glob(f"{TOP}/wrong_bodies/*/*.edit"):
        is_tried, crate = "/must-fail/" in path, os.path.basename(os.path.dirname(path.replace("/must-fail/", "/")))
        file = ""
        for line in text_of(path).splitlines():
            if line.startswith("file: "):
                file = f"crates/{crate}/{line[6:]}"
            elif line.startswith("old: "):
                found[file].append((is_tried, line[5:]))
    return found


def count_of(function: Function, changed: Dict[str, List[Tuple[bool, str]]], texts: Dict[str, str]) -> str:
    """How many wrong bodies change a function."""
    if function.path not in changed:
        return ""
    begin, end = function.span
    if function.path not in texts:
        texts[function.path] = text_of(f"{TOP}/{function.path}")
    own = texts[function.path][begin:end]
    gate = sum(is_tried and old in own for is_tried, old in changed[function.path])
    beside = sum(not is_tried and old in own for is_tried, old in changed[function.path])
    return " + ".join(filter(None, (f"{gate} must-fail" if gate else "", str(beside) if beside else "")))


def clauses_of(function: Function) -> str:
    """The clauses that a function ensures, by their names."""
    found = []
    for clause in function.clauses:
        if clause.kind == "ensures":
            found.append(clause.name or f"({' '.join(clause.cites[:3]) or 'unnamed'})")
    return ", ".join(found) or "requires alone"


def first_words(path: str) -> str:
    """The first sentence of the comment with which a file of definitions begins, up to a colon or semicolon outside parentheses."""
    comment = re.match(r"(?:--.*\n)+", text_of(path))
    text = " ".join(re.sub(r"(?m)^-- ?", "", comment[0]).split()) if comment else ""
    for mark in re.finditer(r"[.:;](?= |$)", text):
        before = text[:mark.start()]
        if before.count("(") == before.count(")"):
            return before
    return text


def purpose_of(crate: str) -> str:
    """What a crate says of itself: the first paragraph at the head of its root file."""
    for name in ("lib", "main"):
        path = f"{TOP}/crates/{crate}/src/{name}.rt"
        if os.path.isfile(path):
            head = re.match(r"(?://!.*\n)+", text_of(path))
            return " ".join(re.sub(r"(?m)^//! ?", "", head[0]).split("\n\n")[0].split()) if head else ""
    return ""


def definitions_in(crate: str, read: Dict, seen: Set) -> Iterator[str]:
    """A line for each file of a crate's definitions."""
    for file in sorted(file for its, file in read if its == crate and file != "Lib"):
        named, used = len(read[crate, file][2]), sum(it[:2] == (crate, file) for it in seen)
        count = f"{used} of {named}" if used else str(named)
        yield f"- `specs/{file}.antt`: {first_words(f'{TOP}/crates/{crate}/specs/{file}.antt')} ({count})"


def lines() -> Iterator[str]:
    everything = list(functions())
    run, rows, changed = runs(everything), evaluated(), attacks()
    read = reached.read_all()
    seen = reached.reached(read, ("stored_outcome", "Program", "Ran"))
    texts: Dict[str, str] = {}
    yield HEADER
    for crate in crates():
        public = [it for it in everything if it.crate == crate and it.is_public and it.clauses]
        own = list(definitions_in(crate, read, seen))
        yield f"## {crate}\n\n{textwrap.fill(purpose_of(crate), 120, break_long_words=False, break_on_hyphens=False)}\n"
        if public:
            yield "| function | at | ensures | run by | wrong bodies |\n|---|---|---|---|---|"
        for it in public:
            words = list(run[id(it)])
            if it.is_law:
                words = ["law"]
            elif any(name in rows for clause in it.clauses for name in clause.cites):
                words.append("rows")
            place = f"{it.path[len(f'crates/{crate}/'):]}:{it.line}"
            yield f"| `{it.full_name}` | {place} | {clauses_of(it)} | {', '.join(words)} | {count_of(it, changed, texts)} |"
        if public:
            yield ""
        if own:
            yield "\n".join(own) + "\n"


def text() -> str:
    return "\n".join(lines())


def is_written() -> bool:
    return os.path.isfile(PATH) and text_of(PATH) == text()


if __name__ == "__main__":
    if "--check" in sys.argv[1:]:
        if not is_written():
            print("docs/INDEX.md is stale: docs/index.py writes it")
            sys.exit(1)
    else:
        with open(PATH, "w", encoding="utf-8") as file:
            file.write(text())
