#!/usr/bin/env python3
"""Makes cases of runs that come from elsewhere: from a program that shares nothing with this one. Cases of `init` and
`run` that came before stores had format 2 have their images written in it: their bytes stay, with their hash. One case,
`apart-hostile-42-all-0-closed`, came before protocol 19 and has an image of that version, which was refused then: what
it must print now is the hash of its header.

    apart_cases.py FOLDER NAME      writes cases/apart-NAME.case, and names it as the last of those that came from elsewhere
    apart_cases.py FOLDER NAME watch_cases      the same, of a run of `watch`

FOLDER has a run: `args`, a word a line; `input.bin`; what must be written and answered, `expected_out`, `expected_err` and
`expected_status`; and, where they are there, `before` and `after` with the files of the volume as the run begins and as it ends: without `after`
it ends as it begins. Python 3.9 or later and its standard library.
"""

import os
import sys

from case_tools import encoded, write
from store_model import FILES

TESTS = os.path.dirname(os.path.dirname(os.path.abspath(__file__)))


def content(path):
    """The bytes of a file, which has none where it isn't there."""
    if not os.path.exists(path):
        return b""
    with open(path, "rb") as file:
        return file.read()


def read_apart(folder):
    """The words of a run, its input, what it must yield, and the files of the volume before and after it."""
    out = content(f"{folder}/expected_out")
    err, status = (content(f"{folder}/expected_{kind}").decode() for kind in ("err", "status"))
    before, after = ([content(f"{folder}/{when}/{name}") for name in FILES] for when in ("before", "after"))
    if not os.path.isdir(f"{folder}/after"):
        after = before
    words = content(f"{folder}/args").decode().splitlines()
    return words, content(f"{folder}/input.bin"), (out, err, int(status)), before, after


def main():
    folder, name, *kind = sys.argv[1:]
    name, cases = f"apart-{name}", f"{TESTS}/{kind[0] if kind else 'cases'}"
    names = content(f"{cases}/names").decode().split()
    if name not in names:
        names.insert(sum(name.startswith("apart-") for name in names), name)
    write(f"{cases}/{name}.case", encoded(*read_apart(folder)))
    write(f"{cases}/names", "".join(f"{name}\n" for name in names).encode())


if __name__ == "__main__":
    main()
