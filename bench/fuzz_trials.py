"""What is run: commands over a store, with their inputs. The seeds, which the tests have, and a few that tools make.

Python 3.9 or later and its standard library.
"""

from __future__ import annotations

import os
from dataclasses import dataclass
from typing import Iterator, List, NamedTuple, Optional, Tuple

import fuzz_paths  # noqa: F401
import cases
from fuzz_parts import image_length
from harness import FILES, NETWORK, TESTS, Store, read, read_if_any
from image_bytes import marked
from python_ledger import sample
from sample_files import Sample

# the files of a store, in the order of their names
Four = Tuple[bytes, ...]
NO_FILES: Four = (b"",) * len(FILES)
# a command's words and its input; None is for the output of the first command
Step = Tuple[List[bytes], Optional[bytes]]
# the status of words that are no command
NO_COMMAND = 2
# a sample of so many ledgers, from each of these seeds
SAMPLES, SAMPLE_LEDGERS = (1, 2, 3), 3


class Trial(NamedTuple):
    """Commands over the files of a store.

    `kind` is `catchup` (of `data`), `history` (`history` and `changes` of `data`, `verify` of the history), `verify`
    (of `data`), `made` (`init` of the image that `data` begins with, `run` of the rest, `show`), `stored` (`run` of
    `data` over `files`, `show`) or `path` (of `query`, over `files`). After the runs of the two before it `query` is
    asked too, if there is one. With `by_bytes` the program reads one byte at a time.
    """

    kind: str
    passphrase: bytes
    files: Four
    data: bytes
    workers: int = 0
    by_bytes: bool = False
    query: Optional[bytes] = None

    @property
    def steps(self) -> List[Step]:
        network = [b"--network", self.passphrase]
        if self.kind == "catchup":
            return [([b"catchup", *network], self.data)]
        if self.kind == "history":
            words: List[List[bytes]] = [[b"history", *network], [b"changes", *network]]
            return [*((each, self.data) for each in words), ([b"verify"], None)]
        if self.kind == "verify":
            return [([b"verify"], self.data)]
        asked: List[Step] = [] if self.query is None else [([b"path"], self.query)]
        if self.kind == "path":
            return asked
        return [*self.run_steps(network), ([b"show"], b""), *asked]

    def run_steps(self, network: List[bytes]) -> List[Step]:
        """A run, after the making of its store where it has none."""
        run = [b"run", *([b"--workers", b"%d" % self.workers] if self.workers else [])]
        if self.kind == "stored":
            return [(run, self.data)]
        end = image_length(self.data)
        return [([b"init", *network], self.data[:end]), (run, self.data[end:])]

    @property
    def size(self) -> int:
        return len(self.data) + sum(map(len, self.files)) + len(self.query or b"")


@dataclass(frozen=True)
class Seed:
    """A trial that mutations begin from, and where it is from."""

    name: str
    trial: Trial

    @property
    def kind(self) -> str:
        return self.trial.kind


def four_of(store: Store) -> Four:
    return tuple(store.get(name, b"") for name in FILES)


def case_seeds() -> Iterator[Seed]:
    """The cases of commands that have an input or a store; those of `changes` have the inputs of `history`."""
    for name in cases.names():
        case = cases.read_case(name)
        if case.status == NO_COMMAND:
            continue
        word = case.words[0] if case.words else b""
        passphrase = case.words[2] if len(case.words) > 2 else NETWORK.encode()
        if word in (b"catchup", b"init", b"history") and case.given:
            yield Seed(name, Trial("catchup", passphrase, NO_FILES, case.given))
        elif word in (b"run", b"show") and case.before:
            yield Seed(name, Trial("stored", NETWORK.encode(), four_of(case.before), case.given))
        elif word == b"verify" and case.given:
            yield Seed(name, Trial("verify", b"", NO_FILES, case.given))
        elif word == b"path" and case.before:
            yield Seed(name, Trial("path", NETWORK.encode(), four_of(case.before), b"", query=case.given))


def story_seeds() -> Iterator[Seed]:
    """The two stories, of which the long one gives its store and its first records, and the image of examples/."""
    stopped = b"".join(marked(read("stories", "stopped", f"record.{seq}")) for seq in range(62, 67))
    data = read("stories", "stopped", "image") + stopped
    yield Seed("stories/stopped", Trial("catchup", NETWORK.encode(), NO_FILES, data))
    long = read("stories", "beside", "image") + read("stories", "beside", "records")
    yield Seed("stories/beside", Trial("catchup", NETWORK.encode(), NO_FILES, long))
    files = tuple(read_if_any(os.path.join(TESTS, "stories", "beside", name)) for name in FILES)
    yield Seed("stories/beside, its store", Trial("stored", NETWORK.encode(), files, b""))
    examples = os.path.join(os.path.dirname(TESTS), "examples", "accounts.")
    data = read_if_any(examples + "image") + read_if_any(examples + "records")
    yield Seed("examples", Trial("catchup", NETWORK.encode(), NO_FILES, data))


def sample_seeds() -> Iterator[Seed]:
    for number in SAMPLES:
        made = Sample(number, SAMPLE_LEDGERS)
        data = made.image + b"".join(made.records())
        yield Seed(f"sample {number}", Trial("catchup", sample.PASSPHRASE, NO_FILES, data))


def seeds() -> List[Seed]:
    """All seeds, in an order that is always the same."""
    return [*case_seeds(), *story_seeds(), *sample_seeds()]


def with_data(trial: Trial, data: bytes) -> Trial:
    return trial._replace(data=data)


def with_file(trial: Trial, index: int, data: bytes) -> Trial:
    return trial._replace(files=tuple(data if at == index else file for at, file in enumerate(trial.files)))

