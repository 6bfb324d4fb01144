"""The commands that show a file: `show image`, `records`, `store`, `results` and `history`.

Unproved.
"""

from __future__ import annotations

import argparse

import show
import show_history
from command_words import Groups, add_selection, command, group_of, put
from selection import Selection
from stellar_xdr import ENTRY_TYPES, OPERATIONS

OPERATION_TYPES = tuple(name for name, _, _ in OPERATIONS)
IMAGE = "prints the header of a start image, and the entries of its ledger in the order of their keys"
RECORDS = "prints the records of closes of a file, which may follow a start image there"
STORE = "prints the epoch, network and image of a store, and the records after that image"
RESULTS = "prints the results of transactions: a results file of an archive, or an SLH1 file"
HISTORY = "prints a file of ledgers, transactions or results of an archive, or an SLH1 file, which has all three"
PACKED = "The file may be packed by gzip, as those of archives are."


def selection_of(asked: argparse.Namespace) -> Selection:
    return Selection(asked.account, asked.ledger, asked.type)


def run_image(asked: argparse.Namespace) -> None:
    show.show_image(asked.file, selection_of(asked), asked.json, asked.all, put)


def run_records(asked: argparse.Namespace) -> None:
    show.show_records(asked.file, selection_of(asked), asked.json, put)


def run_store(asked: argparse.Namespace) -> None:
    show.show_store(asked.file, selection_of(asked), asked.json, put)


def run_results(asked: argparse.Namespace) -> None:
    show_history.show_results(asked.file, selection_of(asked), asked.json, put)


def run_history(asked: argparse.Namespace) -> None:
    show_history.show_history(asked.file, selection_of(asked), asked.json, put)


def register(groups: Groups) -> None:
    """Adds the commands to those of a program."""
    group = group_of(groups, "show", "prints a file for people, or as JSON lines")
    image = command(group, "image", run_image, IMAGE, "show image examples/accounts.image --type ACCOUNT")
    add_selection(image, "FILE", ENTRY_TYPES, "only entries that this ledger changed last")
    image.add_argument("--all", action="store_true", help="every item of every bucket, with its level")
    records = command(group, "records", run_records, RECORDS, "show records examples/accounts.records --json")
    add_selection(records, "FILE", OPERATION_TYPES, "only the record of this ledger")
    store = command(group, "store", run_store, STORE, "show store ledger-store")
    add_selection(store, "FOLDER", OPERATION_TYPES, "only the record of this ledger")
    results = command(
        group, "results", run_results, RESULTS, "show results results-0000003f.xdr.gz --ledger 63", PACKED)
    add_selection(results, "FILE", OPERATION_TYPES, "only the results of this ledger")
    history = command(group, "history", run_history, HISTORY, "show history ledger-0000003f.xdr.gz --json", PACKED)
    add_selection(history, "FILE", OPERATION_TYPES, "only what is of this ledger")
