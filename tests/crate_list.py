"""Whether crates.txt lists for each crate the crates that its files name, and no other."""

from __future__ import annotations

import os
import re
from typing import Dict, List, Set

from harness import Tally


def listed(top: str) -> Dict[str, List[str]]:
    """The crates of each line of crates.txt, under the name of its own."""
    found = {}
    with open(f"{top}/crates.txt", encoding="utf-8") as file:
        for line in file:
            head, colon, rest = line.split("#")[0].partition(":")
            if colon:
                found[head.split()[0]] = rest.split()
    return found


def text_of(folder: str) -> str:
    """The code, definitions and proofs of a crate, without their comments."""
    texts = []
    for part in ("src", "specs", "proofs"):
        for at, _, names in os.walk(f"{folder}/{part}"):
            for name in names:
                with open(f"{at}/{name}", encoding="utf-8") as file:
                    comment = r"(?m)//.*$" if name.endswith(".rt") else r"(?m)--.*$"
                    texts.append(re.sub(comment, "", file.read()))
    return "\n".join(texts)


def named(text: str, crates: Set[str]) -> Set[str]:
    """Those of some crates that a text names at the head of a path."""
    heads = re.findall(r"(?<![\w:.])([a-z]\w*)::", text)
    heads += re.findall(r"\bRattle\.(\w+)", text) + re.findall(r"\buse (\w+)(?: as \w+)?;", text)
    return set(heads) & crates


def check(top: str) -> Tally:
    tally, lines = Tally(), listed(top)
    libraries = {crate for crate in lines if os.path.isfile(f"{top}/crates/{crate}/src/lib.rt")}
    known = libraries | {name for names in lines.values() for name in names}
    for crate, names in lines.items():
        used = named(text_of(f"{top}/crates/{crate}"), known) - {crate}
        lacks, needless = sorted(used - set(names)), sorted(set(names) - used)
        tally.check("crates.txt lists what a crate names", not lacks + needless, f"{crate}: lacks {lacks}, needn't list {needless}")
    return tally
