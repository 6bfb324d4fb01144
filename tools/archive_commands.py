"""The commands that read a history archive: `image from-archive` and `records from-archive`.

Unproved.
"""

from __future__ import annotations

import argparse
from typing import List

from archived_image import write_image
from archived_records import FIRST_CLOSED, write_records
from command_words import Groups, Words, Usage, add_file, add_force, command, group_of, number, refuse_paths

GREATEST = 2147483647
IMAGE = "writes the start image of a checkpoint of a history archive"
MORE_OF_IMAGE = """FOLDER has the archive in the usual layout, with history/, bucket/ and ledger/ below it. LEDGER is
a checkpoint: 63, 127 and so on. Checked are the headers, the hash of the list of buckets, and
each bucket by its name."""
RECORDS = "writes the records of closes of ledgers of a history archive, FIRST to LAST"
MORE_OF_RECORDS = """FOLDER has the archive in the usual layout, with ledger/, transactions/ and results/ below it.
Checked are the headers, and by them each ledger's transactions and results. --results keeps
the headers, transactions and results as one file, for `compare`."""


def run_image(asked: argparse.Namespace) -> None:
    refuse_paths([asked.out], asked.force)
    write_image(asked.folder, asked.ledger, asked.out, asked.force)


def run_records(asked: argparse.Namespace) -> None:
    outputs: List[str] = [asked.out, *([asked.results] if asked.results else [])]
    refuse_paths(outputs, asked.force)
    if asked.last < asked.first:
        raise Usage(f"ledger {asked.last} is before {asked.first}")
    write_records(asked.folder, asked.first, asked.last, asked.out, asked.results, asked.force)


def add_folder(words: Words) -> None:
    words.add_argument("folder", metavar="FOLDER", help="the archive's folder")


def add_image_from_archive(groups: Groups) -> None:
    """Adds the command to those of a program."""
    group = group_of(groups, "image", "makes a start image")
    words = command(
        group, "from-archive", run_image, IMAGE, "image from-archive archive 127 --out archived.image", MORE_OF_IMAGE)
    add_folder(words)
    words.add_argument("ledger", metavar="LEDGER", type=number(1, GREATEST), help="a checkpoint's ledger")
    add_file(words, "--out", "the file of the image that is written")
    add_force(words)


def add_records_from_archive(group: Groups) -> None:
    """Adds the command to those that begin with `records`."""
    words = command(
        group, "from-archive", run_records, RECORDS,
        "records from-archive archive 128 191 --out archived.records --results archived.history", MORE_OF_RECORDS)
    add_folder(words)
    ledger = number(FIRST_CLOSED, GREATEST)
    words.add_argument("first", metavar="FIRST", type=ledger, help=f"the first ledger, {FIRST_CLOSED} or above")
    words.add_argument("last", metavar="LAST", type=ledger, help="the last ledger")
    add_file(words, "--out", "the file of the records that is written")
    add_file(words, "--results", "the file of headers, transactions and results that is written", False)
    add_force(words)
