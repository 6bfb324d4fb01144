#!/usr/bin/env python3
"""Shows, copies and makes the files of this ledger: start images, streams of records, stores, and what history has of
them (docs/FORMATS.md, docs/BRIDGE.md).

    tools/stellar_files.py show image|records|store|results|history FILE [--json] [--account KEY] [--ledger N]
                                [--type NAME]
    tools/stellar_files.py image from-archive FOLDER LEDGER --out FILE [--force]
    tools/stellar_files.py records from-archive FOLDER FIRST LAST --out FILE [--results FILE] [--force]
    tools/stellar_files.py records after LEDGER FILE --out FILE [--force]
    tools/stellar_files.py vouch IMAGE RECORDS --network TEXT --out FILE [--force]
    tools/stellar_files.py compare RESULTS OUTPUT
    tools/stellar_files.py store export FOLDER --image FILE --records FILE [--force]
    tools/stellar_files.py sample SEED LEDGERS --image FILE --records FILE [--force]
    tools/stellar_files.py make DESCRIPTION --image FILE --records FILE [--force]

This tool is NOT PROVED, and is no part of the proved program. docs/BRIDGE.md says what it is for.

The exit status is 0; 1 where a made transaction ends otherwise than expected, or `compare` finds a difference; 2 where
the words are no command, or a file can't be read or written, with one line on standard error, `FILE: offset N: what`;
141 where nobody reads the output any more. Python 3.9 or later and its standard library; `vouch` needs the package
cryptography, too.
"""

from __future__ import annotations

import os
import sys
from functools import lru_cache
from typing import List, Optional

import archive_commands
import compare_command
import copy_commands
import made_commands
import show_commands
import vouch_command
from command_words import PROGRAM, UNPROVED, Usage, Words, group_of
from file_source import FileFault

FAILED, INTERRUPTED, NO_READER = 2, 130, 141


@lru_cache(maxsize=1)
def words_of_command() -> Words:
    reader = Words(prog=PROGRAM, description=f"Shows, copies and makes start images, records and stores. {UNPROVED}")
    groups = reader.add_subparsers(metavar="COMMAND", required=True)
    show_commands.register(groups)
    archive_commands.add_image_from_archive(groups)
    records = group_of(groups, "records", "takes records of closes out of a history archive, or out of a file")
    archive_commands.add_records_from_archive(records)
    copy_commands.add_records_after(records)
    vouch_command.register(groups)
    compare_command.register(groups)
    copy_commands.add_store_export(groups)
    made_commands.register(groups)
    return reader


def say(what: str) -> int:
    print(" ".join(what.splitlines()), file=sys.stderr)
    return FAILED


def drop_output() -> int:
    """Ends without a word where nobody reads the output: what is still to be written goes nowhere."""
    try:
        os.dup2(os.open(os.devnull, os.O_WRONLY), sys.stdout.fileno())
    except (OSError, ValueError):
        pass
    return NO_READER


def main(words: Optional[List[str]] = None) -> int:
    """Does what the words ask for, and answers the exit status."""
    try:
        asked = words_of_command().parse_args(words)
        status = asked.run(asked)
        sys.stdout.flush()
    except BrokenPipeError:
        return drop_output()
    except (Usage, FileFault) as why:
        return say(str(why))
    except OSError as why:
        return say(f"{why.filename or 'standard output'}: {why.strerror or why}")
    except KeyboardInterrupt:
        return INTERRUPTED
    except SystemExit as end:
        # the help is printed
        return end.code if isinstance(end.code, int) else 0
    return status or 0


if __name__ == "__main__":
    sys.exit(main())
