#!/usr/bin/env python3
"""Writes the cases of crates/probe, data/cases, and what is expected of them, stdout, from tables made by hand beside this script.

    probe_cases.py            writes both
    probe_cases.py --check    ends with status 1 where they aren't those of the tables

Python 3.9 or later and its standard library.
"""

import os
import sys
from typing import Dict

import call_cases
import change_cases
import level_cases
import map_cases
import operation_cases
import page_cases
import sponsor_cases
import stream_cases

CRATE = f"{os.path.dirname(os.path.abspath(__file__))}/../../crates/probe"


def files() -> Dict[str, str]:
    ledgers = operation_cases.cases() + sponsor_cases.cases()
    parts = [*map_cases.sheets(), *level_cases.boards(), stream_cases.cases(), call_cases.cases(), change_cases.cases(), *page_cases.cases()]
    blocks = [["ledgers", *(f"{it.made} {it.name} {it.encoded.hex()}" for it in ledgers)], *(it.lines for it in parts)]
    expected = [f"{it.made} {it.name}: {it.expected}" for it in ledgers] + [line for it in parts for line in it.expected]
    return {
        "data/cases": "\n\n".join("\n".join(it) for it in blocks) + "\n",
        "stdout": "".join(f"{it}\n" for it in expected),
    }


def is_written(name: str, text: str) -> bool:
    with open(f"{CRATE}/{name}", encoding="utf-8") as file:
        return file.read() == text


def main() -> int:
    if sys.argv[1:] == ["--check"]:
        return 0 if all(is_written(*it) for it in files().items()) else 1
    os.makedirs(f"{CRATE}/data", exist_ok=True)
    for name, text in files().items():
        with open(f"{CRATE}/{name}", "w", encoding="utf-8") as file:
            file.write(text)
    return 0


if __name__ == "__main__":
    sys.exit(main())
