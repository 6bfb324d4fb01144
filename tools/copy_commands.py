"""The commands that take files out of others: `records after` and `store export`.

Unproved.
"""

from __future__ import annotations

import argparse

import take_out
from command_words import Groups, add_file, add_force, command, group_of, ledger_number

AFTER = "writes the records of a file that are of ledgers after one, byte for byte"
EXPORT = "writes the start image of a store and the records after it, which are an input of catchup"


def run_after(asked: argparse.Namespace) -> None:
    take_out.take_records(asked.file, asked.ledger, asked.out, asked.force)


def run_export(asked: argparse.Namespace) -> None:
    take_out.export_store(asked.folder, asked.image, asked.records, asked.force)


def add_records_after(group: Groups) -> None:
    """Adds the command to those that begin with `records`."""
    after = command(
        group, "after", run_after, AFTER, "records after 63 examples/accounts.records --out later.records")
    after.add_argument("ledger", metavar="LEDGER", type=ledger_number)
    after.add_argument("file", metavar="FILE")
    add_file(after, "--out", "the file that is written")
    add_force(after)


def add_store_export(groups: Groups) -> None:
    """Adds the command to those of a program."""
    group = group_of(groups, "store", "copies what a store has")
    export = command(
        group, "export", run_export, EXPORT, "store export ledger-store --image out.image --records out.records")
    export.add_argument("folder", metavar="FOLDER")
    add_file(export, "--image", "the file of the image that is written")
    add_file(export, "--records", "the file of the records that is written")
    add_force(export)
