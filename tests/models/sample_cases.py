"""The cases of samples, which `run_cases.py` writes: the line that `sample` prints, words that ask for none, and the image and the records of a
sample as `init`, `run` and `catchup` take them.

The lines of SAMPLES came from elsewhere: from a program that shares nothing with this one. `sample.py` makes the image and the
records, and the ledger here closes those of the longer runs.
"""

from ledger_model import catchup, marked, sha, take_mark
from case_tools import CASES, image_bytes
import sample
from store_cases import LEGAL, files, kept, over, paid
from store_model import MOST, Store, image_of, init, run, show

# a seed, a number of ledgers, the hash of the last header, and how many transactions there are and how many succeeded
SAMPLES = [
    (1, 1, "297adb86d4a9cc4ffb205cebff107805d3ccb451e070e9637e0beb0aa556a8e7", 9, 9),
    (1, 2, "19cd9ebbafdbe7a786a4c6d1da04271df46e850c9e9b2bb179c3cf5ac71264e1", 18, 18),
    (1, 3, "eef992f533d6ec5612a3dc8760316cc909985bd25b05ee439fd3a5fb28ffda48", 27, 27),
    (1, 4, "d0c7b8d7330832580e05b42b70718dc8a71f55d664cd28a7ac70fa25046b77ef", 36, 36),
    (1, 5, "496c5314103b42c58ad07b2af16db4bab866992ad7e2a48a97f86c88a3c5159e", 45, 45),
    (1, 6, "9f8669dff0e5a1d8016e74b260bafd8195c8cfbb327e86274edb8fbddeac5486", 54, 54),
    (1, 9, "86a864e7405405368ad549ff32df33261d8ce046fa27b7bf6b4556b09a4b069b", 81, 81),
    (1, 17, "65afc3022abd5c92c0c01ab83037b2e8d5d442af396cf70dda90dc8aea5128bd", 153, 152),
    (1, 20, "9771cd041d2ffc4bd0ea9284d8f28e898625402bad9e7d76f2175b26999b0f1d", 180, 179),
    (2, 12, "38eb6663e574d0314f0acab21539f86435ee04133277678d95614052a249ef4b", 108, 108),
    (7, 40, "11c42b57c54a6fee355573f630fbb5541a309e134fb611f5d7457f789d18e01f", 360, 352),
    (4294967295, 18, "cb55c758fa46ad3e4023c956f2b45723b82c81df4d0174eb96b5b40c0a8bb14d", 162, 161),
    (0, 25, "987d142964de45c581ff92f77ef1a5a606cb211d0750be038f55fe9967cf9ec8", 225, 223),
    (123456789, 70, "83ee48714a314613b2fd10c9fe0fbb18aeb7c4194abadcf19bda5dac49cb6ad3", 630, 619),
]
EMPTY = files()


def prints(name, words, line):
    """A case of `sample`: the volume stays, and the input isn't read."""
    before = files(**kept(paid(), 1))
    over(name, words, LEGAL, before, ((f"{line}\n", "", 0), before), None)


def lines():
    """Samples of several seeds and lengths, with the options in both orders and both forms."""
    for index, (seed, ledgers, digest, count, done) in enumerate(SAMPLES):
        forms = [["--seed", str(seed)], ["--ledgers", str(ledgers)]] if index % 2 else [[f"--seed={seed}"], [f"--ledgers={ledgers}"]]
        words = forms[0] + forms[1] if index % 4 < 2 else forms[1] + forms[0]
        prints(f"{ledgers} ledgers of seed {seed}", ["sample", *words], f"sample {seed} {ledgers} {digest} {count} {done}")


def long():
    """A sample of 200 ledgers, twice, and one of the greatest seed."""
    line = sample.closed(1, 200)
    assert line.split()[4] == "1800"
    prints("200 ledgers", ["sample", "--ledgers=200", "--seed=1"], line)
    prints("200 ledgers once more", ["sample", "--seed", "0000000001", "--ledgers", "200"], line)
    prints("20 ledgers of the greatest seed", ["sample", "--seed", "4294967295", "--ledgers", "20"], sample.closed(4294967295, 20))


def words():
    """Words that ask for no sample."""
    before = files(**kept(paid(), 1))
    seed, ledgers = ["--seed", "1"], ["--ledgers", "5"]
    for name, listed in [
        ("sample alone", []), ("no number of ledgers", seed), ("no seed", ledgers), ("two seeds", seed + seed + ledgers),
        ("ledgers twice", seed + ledgers + ["--ledgers=5"]), ("no ledgers", seed + ["--ledgers", "0"]),
        ("too many ledgers", seed + ["--ledgers", "20001"]), ("a seed of 33 bits", ["--seed", "4294967296"] + ledgers),
        ("a seed below 0", ["--seed=-1"] + ledgers), ("a seed of eleven digits", ["--seed", "00000000001"] + ledgers),
        ("an empty seed", ["--seed="] + ledgers), ("a seed that is missing", ledgers + ["--seed"]),
        ("a word more", seed + ledgers + ["x"]), ("a bare double hyphen", ["--"] + seed + ledgers), ("help", ["--help"]),
    ]:
        over(f"words: {name}", ["sample", *listed], LEGAL, before, (("", "usage\n", 2), before), None)


def records_of(seed, ledgers):
    """The records of a sample, and the lines of their ledgers."""
    from ledger_model import ledger_of

    ledger = ledger_of(sha(sample.PASSPHRASE), sample.first_header(seed), [sample.first_file(seed)] + 21 * [b""])
    records, closed = [], []
    for k in range(1, ledgers + 1):
        records.append(sample.record(seed, k, ledger.hash))
        closed.append(ledger.close(records[-1]))
    return records, closed


def stored():
    """The image of a sample in a store, and its records after it."""
    start = image_bytes(sample.first_header(1), [sample.first_file(1)] + 21 * [b""])
    records, closed = records_of(1, 200)
    yielded = init("sample", start, EMPTY)
    assert yielded[0] == ("", "", 0)
    made = over("init: the image of a sample", ["init", "--network=sample"], start, EMPTY, yielded, (0, 0))
    three = b"".join(map(marked, records[:3]))
    out = run(three, made)
    assert out[0][2] == 0 and out[0][0].count("closed ") == 3 and out[0][0].count("end ") == 1
    over("run: three records of a sample", ["run"], three, made, out, (0, 3))
    data = b"".join(map(marked, records))
    out = run(data, made)
    assert out[0][0].startswith("".join(closed)) and out[0][2] == 0
    # rolled after ledgers 63, 127 and 191
    over("run: 200 records of a sample", ["run"], data, made, out, (3, 10))
    shown = show(out[1])
    over("show: after 200 records of a sample", ["show"], b"", out[1], (shown, out[1]), None)
    # the same lines from ledger 128 on
    half = Store(run(b"".join(map(marked, records[:126])), made)[1])
    assert half.ledger.header["seq"] == 127
    data = image_of(half.ledger) + b"".join(map(marked, records[126:]))
    yielded = catchup("sample", data)
    assert yielded[0] == "".join(closed[126:]) + out[0][0][len("".join(closed)):]
    CASES.append(("catchup: from ledger 127 of a sample", ["catchup", "--network", "sample"], data, yielded, EMPTY, EMPTY))


PARTS = [lines, long, words, stored]
