#!/usr/bin/env python3
"""Writes the run with and without workers, into stories/beside: image, records, what is printed for them, text, and what the run leaves in the four
files of the store, image0, image1, journal0 and journal1. Ledgers 2 to 401 close.

They come from the ledger and the store in Python beside this script. Python 3.9 or later and its standard library.
"""

import os

import set_cases as sets
from case_tools import A, NETWORK, NO_FILES, Story, image, sent, write
from store_model import FILES, init, run
STORIES = os.path.join(os.path.dirname(os.path.dirname(os.path.abspath(__file__))), "stories")
FIRST, LAST = 1, 401


def main():
    story = Story(image([A], seq=FIRST))
    # one account makes, changes and removes data, so that levels have marks of each kind
    for seq in range(FIRST + 1, LAST + 1):
        name, value = b"n%d" % (seq % 7), None if seq % 14 >= 7 else b"at %d" % seq
        story.close(sent("a", seq - FIRST, sets.manage_data(name, value)))
    start, records = story.data[:story.length], story.data[story.length:]
    (text, err, status), made = init(NETWORK, start, list(NO_FILES))
    assert (text, err, status) == ("", "", 0)
    (text, err, status), left = run(records, made)
    assert (err, status) == ("", 0)
    write(f"{STORIES}/beside/image", start)
    write(f"{STORIES}/beside/records", records)
    write(f"{STORIES}/beside/text", text)
    for name, file in zip(FILES, left):
        write(f"{STORIES}/beside/{name}", file)


if __name__ == "__main__":
    main()
