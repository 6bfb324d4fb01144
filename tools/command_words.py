"""How the words of commands are read: what groups, commands and their options have in common.

Unproved.
"""

from __future__ import annotations

import argparse
import os
import sys
from typing import Callable, NoReturn, Optional, Sequence

import strkey
from file_source import FileFault
from new_files import refuse_old

PROGRAM = "stellar_files.py"
UNPROVED = "This tool is not proved: only the program beside it is."

Groups = argparse._SubParsersAction
# takes what was asked, answers the exit status or None for 0, and raises FileFault and OSError
Run = Callable[[argparse.Namespace], Optional[int]]


class Usage(Exception):
    """Words that are no command, and why."""


class Words(argparse.ArgumentParser):
    """A reader of words that says what is wrong in one line."""

    def error(self, message: str) -> NoReturn:
        raise Usage(f"{self.prog}: {message} (--help says what can be asked)")


def account_key(text: str) -> bytes:
    """The key of an account's or muxed account's StrKey."""
    try:
        key = strkey.decoded(text)
    except ValueError as why:
        raise argparse.ArgumentTypeError(f"{text} is no account: {why}") from None
    if key.letter not in "GM":
        raise argparse.ArgumentTypeError(f"{text} is no account, but {strkey.NAMES[key.letter]}")
    return key.key


def number(least: int, most: int) -> Callable[[str], int]:
    """The reader of a word that is a number between bounds."""
    def read_number(text: str) -> int:
        if not (text.isascii() and text.isdigit() and len(text) <= 10 and least <= int(text) <= most):
            raise argparse.ArgumentTypeError(f"{text} is no number from {least} to {most}")
        return int(text)

    return read_number


ledger_number = number(0, 2**32 - 1)


def group_of(groups: Groups, name: str, what: str) -> Groups:
    """The commands whose first word is this one."""
    made = groups.add_parser(name, help=what, description=f"{what}. {UNPROVED}")
    return made.add_subparsers(metavar="WHAT", required=True)


def command(groups: Groups, name: str, run: Run, what: str, example: str, more: str = "") -> Words:
    """A command, with what it does and an example in its help."""
    said = f"{what}\n\n{more}" if more else what
    words = groups.add_parser(
        name, help=what, description=said, epilog=f"example:\n  tools/{PROGRAM} {example}\n\n{UNPROVED}",
        formatter_class=argparse.RawDescriptionHelpFormatter)
    words.set_defaults(run=run)
    return words


def add_selection(words: Words, file: str, types: Sequence[str], ledger: str) -> None:
    """A file that is shown, and what of it."""
    words.add_argument("file", metavar=file)
    words.add_argument("--json", action="store_true", help="JSON lines, one object a line")
    account = "only what names this account (G.. or M..), other than as the issuer of an asset"
    words.add_argument("--account", metavar="KEY", type=account_key, help=account)
    words.add_argument("--ledger", metavar="N", type=ledger_number, help=ledger)
    words.add_argument("--type", metavar="NAME", choices=types, help=f"only of this type: {', '.join(types)}")


def add_file(words: Words, option: str, what: str, is_required: bool = True) -> None:
    """The option of a file that is written."""
    words.add_argument(option, metavar="FILE", required=is_required, help=what)


def add_force(words: Words) -> None:
    words.add_argument("--force", action="store_true", help="replaces files that are there already")


def refuse_paths(outputs: Sequence[str], may_replace: bool, inputs: Sequence[str] = ()) -> None:
    """Refuses files that can't be written, before anything is worked out. Raises FileFault."""
    taken = [os.path.realpath(path) for path in inputs]
    for path in outputs:
        refuse_old(path, may_replace)
        if os.path.realpath(path) in taken:
            raise FileFault(path, "is named twice")
        taken.append(os.path.realpath(path))


def put(text: str) -> None:
    sys.stdout.write(text)
