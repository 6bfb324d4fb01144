#!/usr/bin/env python3
"""Writes the run that is stopped, into stories/stopped: image, and for each ledger from 62 to 66 record.N, its record after a mark, lines.N,
what is printed for it, and end.N, what is printed at the end of the input after it; end.61 is that of the image.

They come from the ledger in Python beside this script. Prints how many bytes the image has, the records up to ledger 64, and what is printed
for these. Python 3.9 or later and its standard library.
"""

import os

import ledger_model as model
import set_cases as sets
from case_tools import A, B, Story, image, sent, write
STORIES = os.path.join(os.path.dirname(os.path.dirname(os.path.abspath(__file__))), "stories")
FIRST, LAST = 61, 66


def main():
    story = Story(image([A, B], seq=FIRST))
    write(f"{STORIES}/stopped/image", story.data)
    write(f"{STORIES}/stopped/end.{FIRST}", f"end {FIRST} {story.ledger.hash.hex()}\n")
    sizes = {}
    for seq in range(FIRST + 1, LAST + 1):
        record = story.record(*[sent("a", seq // 2 - 30, sets.payment("b", 5))] if seq % 2 == 0 else [])
        lines = story.ledger.close(record)
        write(f"{STORIES}/stopped/record.{seq}", model.marked(record))
        write(f"{STORIES}/stopped/lines.{seq}", lines)
        end = f"end {seq} {story.ledger.hash.hex()}\n"
        write(f"{STORIES}/stopped/end.{seq}", end)
        sizes[seq] = len(record) + 4, len(lines), len(end)
    records, lines = (sum(sizes[seq][kind] for seq in (62, 63, 64)) for kind in (0, 1))
    print(f"image {len(story.data)}, records {records}, printed {lines + sizes[64][2]}")


if __name__ == "__main__":
    main()
