#!/usr/bin/env python3
"""Checks the pages: README.md, docs/*.md and bench/README.md, but for the index that docs/index.py writes.

    docs/pages.py             prints what is wrong; ends with 1 where anything is
    docs/pages.py --counts    prints the counts that the pages have to state
    docs/pages.py --write     puts these into the pages

A path that a page names exists; no two headings of a page are the same; a count that a page states is that of the sources; READING.md
quotes lines that are there; a definition that DEFINITIONS.md names is in the files of its section; ARCHITECTURE.md has each crate once, in
at most 40 words; GATE.md names the crates that have must-fail edits; the pages of docs/ have at most 22,000 words together and README.md
at most 900. Python 3.9 or later and its standard library.
"""

from __future__ import annotations

import functools
import glob
import os
import re
import sys
from typing import Callable, Dict, Iterator, List, Set, Tuple

import claims
import index
import reached
from contracts import TOP, text_of

MOST_WORDS, MOST_WORDS_OF_README = 22000, 900
# paths of a store, an archive or a user's own files, which aren't in the repository
ELSEWHERE = re.compile(
    r"^(ledger-store|crates/\w+/out|history|bucket|ledger/(?!src|specs|proofs)|transactions|results|archive|out|/dev|path/to)(?!\w)")
KINDS = r"(?:rt|antt|py|md|edit|tsv|txt|sh|c|json|image|records)"
DEFINITION = re.compile(rf"^\w+/[A-Z]\w*(?:\.(?!{KINDS}$)\w+)?$")
PATH = re.compile(rf"^(?:[\w.-]+/)+(?:[\w.-]+)?$|^[\w-]+\.{KINDS}$")


def pages() -> List[str]:
    return [*claims.pages(), f"{TOP}/bench/README.md"]


def plain(text: str) -> str:
    """A page without its blocks of code."""
    return re.sub(r"(?m)^(?: {4}.*|```[\s\S]*?```)$", "", text)


# ---- paths


@functools.lru_cache(maxsize=None)
def ends() -> Set[str]:
    """All ends of the paths of the repository's files and folders."""
    found: Set[str] = set()
    for at, folders, files in os.walk(TOP):
        folders[:] = [name for name in folders if name not in (".git", "out", "__pycache__", "ledger-store")]
        for name in (*folders, *files):
            parts = os.path.relpath(f"{at}/{name}", TOP).split("/")
            found |= {"/".join(parts[first:]) for first in range(len(parts))}
    return found


def exists(path: str) -> bool:
    """Whether a path is there, from any folder on; a name for which any other may stand is taken for one."""
    return path.rstrip("/") in ends() or re.search(r"\b(FILE|FUNCTION|NAME|CRATE|FOLDER)\b", path) is not None


def dead_paths(page: str) -> Iterator[str]:
    text = text_of(page)
    for target in re.findall(r"\]\(([^)\s#]+)(?:#[^)]*)?\)", text):
        if "://" not in target and not os.path.exists(os.path.join(os.path.dirname(page), target)):
            yield target
    for span in re.findall(r"`([^`\n]+)`", plain(text)):
        path = re.sub(r":\d+$", "", span.split(" ")[0])
        if DEFINITION.match(path):  # which `unknown_definitions` looks for
            continue
        if PATH.match(path) and not ELSEWHERE.match(path) and ".." not in path and not exists(path):
            yield path


# ---- headings


def repeated_headings(page: str) -> Iterator[str]:
    seen = set()
    for heading in re.findall(r"(?m)^#+ (.*)$", plain(text_of(page))):
        if heading in seen:
            yield heading
        seen.add(heading)


# ---- quotations


def wrong_quotations() -> Iterator[str]:
    """The lines in blocks of READING.md that are no lines of the code or the definitions."""
    lines = {line.strip() for path in glob.glob(f"{TOP}/crates/*/s*/*.*t*") for line in text_of(path).splitlines()}
    for quoted in re.findall(r"(?m)^ {4}(.*)$", text_of(f"{TOP}/docs/READING.md")):
        if quoted.strip() not in lines:
            yield f"docs/READING.md: there is no line `{quoted.strip()}`"


# ---- counts


def libraries() -> int:
    """The crates that are no program and no crate of tests."""
    found = {path.split("/")[-3] for path in glob.glob(f"{TOP}/crates/*/src/lib.rt")}
    return len(found - {"board_tests", "definition_rows"})


def definitions() -> int:
    return len(reached.reached(reached.read_all(), ("stored_outcome", "Program", "Ran")))


# what a page may count, as it is written, and the count
COUNTS: Tuple[Tuple[str, Callable[[], int]], ...] = (
    (r"([\d,]+) must-fail edits", lambda: len(glob.glob(f"{TOP}/crates/*/must-fail/*.edit"))),
    (r"([\d,]+) other wrong bodies", lambda: len(glob.glob(f"{TOP}/wrong_bodies/*/*.edit"))),
    (r"([\d,]+) libraries", libraries),
    (r"reaches ([\d,]+)", definitions),
    (r"([\d,]+) lines (?:of code )?connect", claims.edge_lines),
    (r"([\d,]+) numbered claims", lambda: len(re.findall(r"(?m)^\d+\. \*\*", text_of(f"{TOP}/docs/CLAIMS.md")))),
)


def with_counts(text: str) -> str:
    """A page with the right counts."""
    for pattern, count in COUNTS:
        for found in re.findall(pattern.replace(" ", r"\s+"), text):
            right = f"{count():,}" if "," in found else str(count())
            text = re.sub(pattern.replace(" ", r"\s+"), lambda it: it[0].replace(it[1], right), text)
    return text


def write_counts() -> None:
    """Puts the right counts into the pages."""
    for page in pages():
        text = text_of(page)
        if with_counts(text) != text:
            with open(page, "w", encoding="utf-8") as file:
                file.write(with_counts(text))


def stale_counts(page: str) -> Iterator[str]:
    text = " ".join(text_of(page).split())
    for pattern, count in COUNTS:
        for stated in re.findall(pattern, text):
            if int(stated.replace(",", "")) != count():
                yield f"`{pattern}` is {stated} there, and {count()}"


# ---- the table of crates, and the definitions


def table_faults() -> Iterator[str]:
    rows = re.findall(r"(?m)^\| `(\w+)` \| (.*) \|$", text_of(f"{TOP}/docs/ARCHITECTURE.md"))
    there = {os.path.basename(path) for path in glob.glob(f"{TOP}/crates/*")}
    named = [name for name, _ in rows if name in there]
    for crate in sorted(there):
        if not index.purpose_of(crate):
            yield f"crates/{crate}/src: the root file doesn't say what the crate is for"
        if named.count(crate) != 1:
            yield f"docs/ARCHITECTURE.md: `{crate}` is in its tables {named.count(crate)} times"
    for name, what in rows:
        if len(what.split()) > 40:
            yield f"docs/ARCHITECTURE.md: `{name}` has {len(what.split())} words, more than 40"


def edit_faults() -> Iterator[str]:
    """The crates whose must-fail edits GATE.md doesn't name, or that it names and have none."""
    table = text_of(f"{TOP}/docs/GATE.md").partition("## Must-fail edits")[2]
    named = {name for row in re.findall(r"(?m)^\| (`.*?`) \|", table) for name in re.findall(r"`(\w+)`", row)}
    have = {path.split("/")[-3] for path in glob.glob(f"{TOP}/crates/*/must-fail/*.edit")}
    for crate in sorted(named ^ have):
        yield f"docs/GATE.md: `{crate}` " + ("has must-fail edits" if crate in have else "has no must-fail edits")


def unknown_definitions() -> Iterator[str]:
    """What DEFINITIONS.md names as `File.definition` or `crate/File.definition` and its section's crates don't have."""
    for section in re.split(r"(?m)^## ", text_of(f"{TOP}/docs/DEFINITIONS.md"))[1:]:
        heading, _, body = section.partition("\n")
        own = re.findall(r"(?:crates/)?(\w+)/specs", heading)
        for crate, file, name in re.findall(r"`(?:(\w+)/)?([A-Z]\w*)(?:\.(\w+))?`", body):
            paths = [f"{TOP}/crates/{it}/specs/{file}.antt" for it in ([crate] if crate else own)]
            texts = [text_of(path) for path in paths if os.path.isfile(path)]
            if crate and not texts or name and own and texts and not any(re.search(rf"\b{name}\b", text) for text in texts):
                yield f"docs/DEFINITIONS.md, {heading}: {crate}{'/' if crate else ''}{file}.{name}"
            elif name and own and not texts and not crate:
                yield f"docs/DEFINITIONS.md, {heading}: there is no file {file}.antt for {file}.{name}"


# ---- all of it


def words(path: str) -> int:
    return len(text_of(path).split())


def word_counts() -> Dict[str, int]:
    own = [path for path in claims.pages() if os.path.dirname(path) == f"{TOP}/docs"]
    return {"docs": sum(words(path) for path in own), "README.md": words(f"{TOP}/README.md")}


def faults() -> Iterator[str]:
    for page in pages():
        name = os.path.relpath(page, TOP)
        yield from (f"{name}: there is no {path}" for path in dead_paths(page))
        yield from (f"{name}: the heading \"{heading}\" is there twice" for heading in repeated_headings(page))
        yield from (f"{name}: {count}" for count in stale_counts(page))
    yield from wrong_quotations()
    yield from table_faults()
    yield from edit_faults()
    yield from unknown_definitions()
    count = word_counts()
    if count["docs"] > MOST_WORDS:
        yield f"docs has {count['docs']} words, more than {MOST_WORDS}"
    if count["README.md"] > MOST_WORDS_OF_README:
        yield f"README.md has {count['README.md']} words, more than {MOST_WORDS_OF_README}"


if __name__ == "__main__":
    if "--counts" in sys.argv[1:]:
        for pattern, count in COUNTS:
            print(f"{count():6} {pattern}")
        print(word_counts())
        sys.exit(0)
    if "--write" in sys.argv[1:]:
        write_counts()
    found = list(faults())
    print("\n".join(found), end="\n" if found else "")
    sys.exit(1 if found else 0)
