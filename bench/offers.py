#!/usr/bin/env python3
"""Measures order books: going through one, asking for its head, and the index after a batch.

    bench/offers.py [PROGRAM]

PROGRAM is the built program, crates/speed/out/speed of this repository where none is given.

`PROGRAM book COUNT` makes a map of COUNT offers of one pair, a layer with 1,000 changed ones over it, and goes through the entire book
by `offer_after`, again and again for a million answers. It is run at 10, 1,000 and 100,000 offers; of the first book the layer makes
one of 1,000.
`PROGRAM head COUNT` makes a map of 20,000 offers of one pair, erases the COUNT best in a layer, and asks a million times for the best
in the layer above. It is run at 100 and at 10,000.
`PROGRAM index COUNT PAIRS` makes the index of COUNT offers, and 1,000 times the index after a batch of 100 changed ones. It is run at
1,000 and at 100,000 offers, in 50 pairs and in one.

Each is run with `-base` after its command too, which does all but what is timed, and that time is taken off. A line of the program
must print as many answers as were asked for.

The script prints the processor time of an answer, and the ratios.

Exit status: 0 where all is well, 1 where an offer of 100,000 costs more than 2.5 times as much as one of 1,000, a head after 10,000
erased offers more than 2.5 times as much as after 100, or an index after a batch among 100,000 offers more than 3 times as much as
among 1,000; 2 where a run fails or prints another line. Python 3.9 or later and its standard library.
"""

import sys
import tempfile

from measuring import built, run, stop

RUNS = 7


def timed(program, folder, words, answers):
    """The seconds of an answer, the base's time taken off."""
    command, *numbers = words
    base, _, _ = run([program, f"{command}-base", *numbers], RUNS, folder)
    whole, _, line = run([program, command, *numbers], RUNS, folder)
    if not line.decode().startswith(f"{command}: {answers} offers, ids "):
        stop(f"{' '.join(words)} printed {line!r}")
    seconds = max(whole - base, 1e-9) / answers
    print(f"{' '.join(words):22} {answers:7} answers   {seconds * 1e6:8.2f} microseconds each")
    return seconds


def ratio(what, many, few, greatest):
    """Whether a ratio is within its bound."""
    print(f"{what}: {many / few:.2f} times as much, at most {greatest}")
    return many / few <= greatest


def main():
    program = sys.argv[1] if len(sys.argv) > 1 else built("speed")
    with tempfile.TemporaryDirectory() as folder:
        walks = [timed(program, folder, ["book", str(count)], 1_000_000) for count in (10, 1_000, 100_000)]
        heads = [timed(program, folder, ["head", str(erased)], 1_000_000) for erased in (100, 10_000)]
        spread = [timed(program, folder, ["index", str(count), "50"], 1_000) for count in (1_000, 100_000)]
        one = [timed(program, folder, ["index", str(count), "1"], 1_000) for count in (1_000, 100_000)]
    within = [
        ratio("an offer of 100,000 and one of 1,000", walks[2], walks[0], 2.5),
        ratio("a head after 10,000 erased offers and after 100", heads[1], heads[0], 2.5),
        ratio("an index after a batch among 100,000 offers and 1,000, in 50 pairs", spread[1], spread[0], 3),
        ratio("the same in one pair", one[1], one[0], 3),
    ]
    sys.exit(not all(within))


if __name__ == "__main__":
    main()
