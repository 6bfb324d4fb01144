#!/usr/bin/env python3
"""Counts the definitions on which the statement of a contract rests: those in specs/ that it reaches by name.

    docs/reached.py [CRATE.FILE.NAME]      stored_outcome.Program.Ran where none is given

A definition is a signature with its cases, a record or a type by cases. From the one that is named, each name in its text is looked up
in its file and in what that file imports, and so on; definitions of the toolchain's library and the types of the code count as none. Prints
how many definitions, files, crates and lines of definitions are reached, and the lines by crate. Python 3.9 or later.
"""

import glob
import os
import re
import sys

TOP = os.path.dirname(os.path.dirname(os.path.abspath(__file__)))
HEAD = re.compile(r"^( {0,2})(?:(?:abbrev|unfoldable) )?(?:pub )?(?:(record|data) )?([^\s:{(]+)(?: [^:\n]*)? ?:(?: |$)")
WORD = re.compile(r"[^\s(){}\[\];,]+")


def parts_of(path):
    """The imports of a file, as written, and its definitions: the text of each by its name."""
    imports, found, name = [], {}, None
    with open(path, encoding="utf-8") as file:
        lines = file.read().split("\n")
    for line in lines:
        if line.startswith(("use ", "pub use ")):
            imports.append(line)
            continue
        head = HEAD.match(line)
        if head and not line.lstrip().startswith("--") and (head[2] or head[3] not in found) and not re.match(r"\s*(pub )?\w+ : ", line) or (
            head and re.match(r"( {0,2})(abbrev|unfoldable|pub|record)\b", line) and not (name and line.startswith("  pub "))
        ):
            name = head[3]
        if name and line.strip() and not line.lstrip().startswith("--") and not line.startswith("module "):
            found.setdefault(name, []).append(line)
    return imports, found


def crates_named():
    """The names of all crates."""
    return {os.path.basename(path) for path in glob.glob(f"{TOP}/crates/*")}


def direct(line, crates):
    """An import without the crate through which it comes, where a crate passes on the definitions of a lower one."""
    return re.sub(r"Rattle\.\w+\.specs\.(\w+)\.(?=\w)", lambda path: f"Rattle.{path[1]}.specs." if path[1] in crates else path[0], line)


def names_in(imports, crates):
    """What a file's imports bring: by name, or by the name of an entire file."""
    names, files = {}, {}
    for line in (direct(line, crates) for line in imports):
        match = re.match(r"(?:pub )?use Rattle\.(\w+)\.specs\.(\w+)\.\{(.*)\}", line)
        if match:
            for it in match[3].split(","):
                name, _, other = it.strip().partition(" as ")
                names[(other or name).strip()] = (match[1], match[2], name.strip())
        match = re.match(r"(?:pub )?use Rattle\.(\w+)\.specs\.(\w+) as (\w+)", line)
        if match:
            files[match[3]] = (match[1], match[2])
    return names, files


def read_all():
    read, crates = {}, crates_named()
    for path in glob.glob(f"{TOP}/crates/*/specs/*.antt"):
        crate, file = path.split("/")[-3], os.path.basename(path)[: -len(".antt")]
        imports, found = parts_of(path)
        read[crate, file] = (*names_in(imports, crates), found)
    return read


def reached(read, start):
    seen, ahead = set(), [start]
    while ahead:
        crate, file, name = ahead.pop()
        if (crate, file) not in read or (crate, file, name) in seen:
            continue
        names, files, found = read[crate, file]
        if name not in found:
            if name in names:
                ahead.append(names[name])
            continue
        seen.add((crate, file, name))
        for word in WORD.findall("\n".join(found[name])):
            prefix, _, last = word.partition(".")
            if word in found:
                ahead.append((crate, file, word))
            elif word in names:
                ahead.append(names[word])
            elif prefix in files and last:
                ahead.append((*files[prefix], last.split(".")[0]))
            elif prefix in found or prefix in names:
                ahead.append((crate, file, prefix) if prefix in found else names[prefix])
    return seen


def main():
    words = (sys.argv[1] if len(sys.argv) > 1 else "stored_outcome.Program.Ran").split(".")
    read = read_all()
    seen = reached(read, tuple(words))
    lines = {}
    for crate, file, name in seen:
        lines[crate] = lines.get(crate, 0) + len(read[crate, file][2][name])
    files = {it[:2] for it in seen}
    print(f"{'.'.join(words)} reaches {len(seen)} definitions of {sum(lines.values())} lines, in {len(files)} files of {len(lines)} crates")
    for crate, count in sorted(lines.items(), key=lambda it: -it[1]):
        print(f"{count:6} {crate}")


if __name__ == "__main__":
    main()
