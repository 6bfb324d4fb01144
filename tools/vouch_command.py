"""The command `vouch`, which adds verified signatures to records.

Unproved.
"""

from __future__ import annotations

import argparse

from command_words import Groups, Usage, add_file, add_force, command, put, refuse_paths
from ed25519_check import NoVerifier
from vouching import write_vouched

VOUCH = "writes records of closes with a vouch for each Ed25519 signature that verifies"
MORE_OF_VOUCH = """The keys are those of the accounts and signers of IMAGE, and those that RECORDS name. Standard
output has how many signatures there are, and for how many of them there is a vouch. This
command alone needs the Python package cryptography."""
EXAMPLE = """vouch archived.image archived.records --network "Standalone Network ; February 2017" --out vouched"""


def passphrase(text: str) -> str:
    if not text:
        raise argparse.ArgumentTypeError("a passphrase isn't empty")
    return text


def run_vouch(asked: argparse.Namespace) -> None:
    refuse_paths([asked.out], asked.force, [asked.image, asked.records])
    try:
        count = write_vouched(asked.image, asked.records, asked.network, asked.out, asked.force)
    except NoVerifier as why:
        raise Usage(str(why)) from None
    put(count.line())


def register(groups: Groups) -> None:
    """Adds the command to those of a program."""
    words = command(groups, "vouch", run_vouch, VOUCH, EXAMPLE, MORE_OF_VOUCH)
    words.add_argument("image", metavar="IMAGE", help="the start image that the records follow")
    words.add_argument("records", metavar="RECORDS")
    words.add_argument("--network", metavar="TEXT", type=passphrase, required=True, help="the network's passphrase")
    add_file(words, "--out", "the file of records that is written")
    add_force(words)
