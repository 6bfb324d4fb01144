"""The commands that make a ledger's files: `sample` and `make`.

Each writes a start image, and the records after it, which `cat IMAGE RECORDS` joins to an input of `catchup`. It prints
what the program has to print for them, as the Python ledger of the tests worked it out. Unproved.
"""

from __future__ import annotations

import argparse
import sys
from typing import Iterable

from command_words import Groups, Words, add_file, add_force, command, number, refuse_paths
from description import read_description
from made_records import made_from
from new_files import write_files
from sample_files import GREATEST_SEED, MOST_LEDGERS, Sample

# where a transaction ended otherwise than its description expects
DIFFERENT = 1
MAKE = "writes a start image and the records after it, from a description in JSON"
MORE_OF_MAKE = """docs/BRIDGE.md says what a description has. Standard output has what `catchup` has to print
for the files. A transaction that ends otherwise than its `expect` says is a line on
standard error; the files are written all the same, and the exit status is 1."""
MAKE_EXAMPLE = """make examples/first-ledger.json --image first.image --records first.records
  cat first.image first.records | crates/ledger/out/ledger catchup --network "My first ledger\""""
SAMPLE = "writes the start image and the records of what the program's command `sample` closes"
MORE_OF_SAMPLE = """Standard output has the line that `sample --seed SEED --ledgers LEDGERS` has to print. The
passphrase of the network is `sample`. 1000 ledgers take some seconds, 20000 a quarter of
an hour."""
SAMPLE_EXAMPLE = """sample 1 5 --image sample.image --records sample.records
  cat sample.image sample.records | crates/ledger/out/ledger catchup --network sample"""


def write_ledger(asked: argparse.Namespace, image: bytes, records: Iterable[bytes]) -> None:
    """Writes both files, or none of them. Raises FileFault."""
    write_files({asked.image: [image], asked.records: records}, asked.force)


def run_sample(asked: argparse.Namespace) -> int:
    refuse_paths([asked.image, asked.records], asked.force)
    sample = Sample(asked.seed, asked.ledgers)
    write_ledger(asked, sample.image, sample.records())
    sys.stdout.write(sample.line())
    return 0


def run_make(asked: argparse.Namespace) -> int:
    refuse_paths([asked.image, asked.records], asked.force, [asked.description])
    made = made_from(read_description(asked.description))
    write_ledger(asked, made.image, made.records)
    sys.stdout.write(made.output)
    for difference in made.differences:
        print(difference, file=sys.stderr)
    return DIFFERENT if made.differences else 0


def add_outputs(words: Words) -> None:
    """The options of the files that a command writes."""
    add_file(words, "--image", "the file of the image that is written")
    add_file(words, "--records", "the file of the records that is written")
    add_force(words)


def register(groups: Groups) -> None:
    """Adds both commands to those of a program."""
    sample = command(groups, "sample", run_sample, SAMPLE, SAMPLE_EXAMPLE, MORE_OF_SAMPLE)
    sample.add_argument("seed", metavar="SEED", type=number(0, GREATEST_SEED), help=f"0 to {GREATEST_SEED}")
    sample.add_argument("ledgers", metavar="LEDGERS", type=number(1, MOST_LEDGERS), help=f"1 to {MOST_LEDGERS}")
    add_outputs(sample)
    make = command(groups, "make", run_make, MAKE, MAKE_EXAMPLE, MORE_OF_MAKE)
    make.add_argument("description", metavar="DESCRIPTION", help="a file, as examples/first-ledger.json")
    add_outputs(make)
