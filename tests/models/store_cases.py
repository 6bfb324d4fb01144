"""The cases of stores, which `run_cases.py` writes: what `init` makes of an image, what `run` opens, and what it leaves. Each says by hand
how it ends, and to which epoch and how many records the files open after it. The parts in FORMAT_1 are of stores of format 1 too.
"""

from ledger_model import Text, catchup, cut_image, marked, sha, take_mark, u32, u64
import set_cases as sets
from case_tools import A, CASES, LUMEN, NETWORK, A_WITH_D, B, C, D, Story, image, sent, test_end
from store_model import FILES, HEADS, LAST_EPOCH, MOST, TOP, Store, init, journal_file, records_of, run, show
from store_model import image_file as file_of_image

ON_TEST = sha(NETWORK.encode())
MAKE = ["init", "--network", NETWORK]

# the format of the stores that cases are of
form = 2

# ---- files, and cases over them


def head():
    """How many bytes come before an image."""
    return HEADS[form]


def image_file(epoch, network, data, gate=1):
    return file_of_image(epoch, network, data, gate, form)


def with_hash(file):
    """A file of format 2 with the hash of its image."""
    return file[:49] + sha(file[81:]) + file[81:]


def files(**given):
    """The four files of a volume. Those that aren't given are empty."""
    return [given.get(name, b"") for name in FILES]


def records_in(data):
    """The records after the marks of a text."""
    text, records = Text(data), []
    while text.at < len(data):
        records.append(text.take(take_mark(text, MOST)))
    return records


def input_of(story):
    """The records of a story, as the input has them."""
    return story.data[story.length:]


def start_of(story):
    """The image of a story."""
    return story.data[:story.length]


def kept(story, records=0, epoch=0, rest=b"\0"):
    """A store of a story's image with the first of its records: a part of the files."""
    journal = journal_file(records_in(input_of(story))[:records], rest)
    return {f"image{epoch % 2}": image_file(epoch, ON_TEST, start_of(story)), f"journal{epoch % 2}": journal}


def opened(volume):
    """The epoch to which the files open, and how many records follow its image."""
    epoch = Store(volume).epoch
    return epoch, len(records_of(2, volume[2 + epoch % 2])[0])


def over(name, words, data, before, ended, left):
    """A case over files. `left` is by hand to what they open after it (`opened`), or None where each stays as it was."""
    yielded, after = ended
    assert after == before if left is None else opened(after) == left, (name, left)
    CASES.append((name, words, data, yielded, before, after))
    return after


def makes(name, data, before, end, left=None, passphrase=NETWORK, joined=False):
    """A case of `init`. `end` is by hand: what is written to standard error after the status, or nothing. The option may be one word."""
    yielded, after = init(passphrase, data, before)
    assert end == (f"{yielded[2]} {yielded[1].strip()}" if yielded[1] else ""), (name, yielded)
    words = ["init", f"--network={passphrase}"] if joined else ["init", "--network", passphrase]
    return over(f"init: {name}", words, data, before, (yielded, after), left)


def runs(name, data, before, end, left=None, closes=None):
    """A case of `run`, with its end by hand."""
    yielded, after = run(data, before)
    test_end(name, yielded, end, closes)
    if form == 1:
        # where it opens, it goes on to the next epoch, which is of format 2, before it reads its input
        name = f"format 1: {name}"
        if left is None and yielded[2] not in (7, 11):
            left = (opened(before)[0] + 1, closes)
    return over(f"run: {name}", ["run"], data, before, (yielded, after), left)


def shows(name, before, end):
    """A case of `show`: `end` is by hand, the status and what is written to standard error, or what the lines say of the store."""
    yielded = show(before)
    lines = [line.split(" ", 1)[1] for line in yielded[0].splitlines()[1:]]
    assert end == (f"{yielded[2]} {yielded[1].strip()}" if yielded[1] else lines), (name, yielded)
    name = name if form == 2 else f"format 1: {name}"
    over(f"show: {name}", ["show"], b"not read", before, (yielded, before), None)


# ---- images and stories

LEGAL = image([A, B])
BROKEN = image([A], coins=100 * LUMEN + 1)
OLD = image([C], seq=2)


def payment(number):
    return sent("a", number, sets.payment("b", 5))


def paid(seq=5, count=3):
    """A story from a ledger on, of a payment a record."""
    story = Story(image([A, B], seq=seq))
    for number in range(count):
        story.close(payment(1 + number))
    return story


def mixed(first, last):
    """A story of the ledgers from `first` to `last`: data comes and goes, and levels take and spill."""
    story, number = Story(image([A_WITH_D, B, D], seq=first)), 0
    for seq in range(first + 1, last + 1):
        listed = []
        if seq % 3 == 0:
            number += 1
            value = None if number % 4 == 0 else b"%d" % seq
            listed = [sent("a", number, sets.manage_data(b"key%d" % (number // 4 % 3), value), sets.payment("b", 1), fee=200)]
        story.close(*listed)
    return story


def quiet(first, last):
    """A story of empty sets."""
    story = Story(image([A], seq=first))
    for _ in range(first, last):
        story.close()
    return story


# ---- making a store


def making():
    """What `init` makes, and of what it makes nothing."""
    made = makes("an image", LEGAL, files(), "", (0, 0))
    assert made == files(image0=b"\1\x80" + bytes(7) + ON_TEST + u64(len(LEGAL)) + sha(LEGAL) + LEGAL, journal0=b"\0")
    makes("twice", LEGAL, made, "12 already there")
    makes("another image, where a store is", OLD, made, "12 already there")
    makes("an empty ledger", image(), files(), "", (0, 0))
    makes("on another network", LEGAL, files(), "", (0, 0), "n")
    length = len(LEGAL)
    makes("a byte after the image", LEGAL + b"\0", files(), f"9 bad input at {length}")
    makes("a record after the image", Story(LEGAL).close().data, files(), f"9 bad input at {length}")
    makes("two images", LEGAL + LEGAL, files(), f"9 bad input at {length}")
    makes("no bytes", b"", files(), "9 bad input at 0")
    makes("three bytes", b"SLI", files(), "9 bad input at 3")
    makes("another magic", b"SLI2" + LEGAL[4:], files(), "9 bad input at 0")
    makes("an image without its last byte", LEGAL[:-1], files(), f"9 bad input at {length - 1}")
    makes("a lumen too many", BROKEN, files(), "10 bad image rule 13")
    makes("a byte after an image with a lumen too many", BROKEN + b"\0", files(), f"9 bad input at {len(BROKEN)}")
    makes("another version", image([A], version=17), files(), "10 bad image rule 2")
    # the input is judged before the volume is asked
    makes("a lumen too many, where a store is", BROKEN, made, "10 bad image rule 13")
    makes("no image, where a store is", b"", made, "9 bad input at 0")


def making_over():
    """What `init` makes over files that were there."""
    short, head = bytes([1]) * 48, bytes([1]) * 49
    made = image_file(0, ON_TEST, LEGAL)
    for name, gate in [("0", 0), ("7", 7), ("255", 255)]:
        old = files(image0=image_file(4, sha(b"n"), OLD, gate), journal0=b"\1junk")
        assert makes(f"over an image after a gate of {name}", LEGAL, old, "", (0, 0)) == files(image0=made, journal0=b"\0")
    beside = files(image1=image_file(1, ON_TEST, OLD, 0), journal1=b"\1junk", journal0=bytes(100))
    after = makes("beside files of the other epochs", LEGAL, beside, "", (0, 0))
    assert after == files(image0=made, image1=beside[1], journal0=b"\0", journal1=b"\1junk")
    after = makes("over open gates of files that are too short", LEGAL, files(image0=short, image1=short), "", (0, 0))
    assert after == files(image0=made, image1=short, journal0=b"\0")
    after = makes("over one byte each", LEGAL, files(**{name: b"\1" for name in FILES}), "", (0, 0))
    assert after == files(image0=made, image1=b"\1", journal0=b"\0", journal1=b"\1")
    # an open image is there, whatever it is
    makes("where the other image is open", LEGAL, files(image1=image_file(1, ON_TEST, OLD)), "12 already there")
    makes("where a head is open", LEGAL, files(image0=head), "12 already there")
    makes("where the head of the other file is open", LEGAL, files(image1=head), "12 already there")
    makes("where a head of format 2 is open", LEGAL, files(image0=made[:49]), "12 already there")
    makes("where an image of format 1 is open", LEGAL, files(image0=file_of_image(0, ON_TEST, OLD, form=1)), "12 already there")
    makes("where an image of another length is open", LEGAL, files(image0=made[:-1]), "12 already there")
    makes("with a passphrase that begins with a hyphen", LEGAL, files(), "", (0, 0), "-a", joined=True)
    makes("with a passphrase of an option's form", LEGAL, files(), "", (0, 0), "--network=a", joined=True)
    shut = image_file(0, ON_TEST, OLD, 0)
    makes("where an image is open after one that isn't", LEGAL, files(image0=shut, image1=head), "12 already there")


def words():
    """Words that are no command: nothing is read, and the volume stays as it is."""
    before = files(**kept(paid(), 1))
    for name, listed in [
        ("nothing", []), ("init alone", ["init"]), ("init without a passphrase", MAKE[:2]), ("init with no passphrase", [*MAKE[:2], ""]),
        ("init without an option", ["init", NETWORK]), ("init of two passphrases", [*MAKE, NETWORK]),
        ("init of another option", ["init", "--networks", NETWORK]), ("init with a capital", ["Init", *MAKE[1:]]),
        ("the option first", [*MAKE[1:], "init"]), ("run and a word", ["run", "x"]), ("run and an option of init", ["run", *MAKE[1:]]),
        ("run with a capital", ["Run"]), ("run and nothing", ["run", ""]), ("run beside nine workers", ["run", "--workers", "9"]),
        ("run with workers twice", ["run", "--workers", "1", "--workers=1"]), ("run with no number of workers", ["run", "--workers"]),
        ("run with an empty number of workers", ["run", "--workers="]), ("run with eleven digits", ["run", "--workers", "0" * 10 + "1"]),
        ("run with a sign", ["run", "--workers", "+1"]), ("init of a hyphen as a word", ["init", "--network", "-a"]), ("help", ["--help"]), ("a bare double hyphen", ["--", "show"]),
        ("show and a word", ["show", "x"]), ("show and an option of run", ["show", "--workers=1"]), ("show with a capital", ["Show"]),
        ("catchup without a passphrase", ["catchup"]), ("catchup of a hyphen as a word", ["catchup", "--network", "-a"]),
        ("workers as a bare number", ["run", "1"]), ("workers below 0", ["run", "--workers=-1"]),
    ]:
        over(f"words: {name}", listed, LEGAL, before, (("", "usage\n", 2), before), None)


# ---- running over a store


def going_on():
    """Records that are closed and kept, run by run."""
    story = paid(5, 6)
    records, lines = records_in(input_of(story)), catchup(NETWORK, story.data)[0]
    start = files(**kept(story))
    runs("no records", b"", start, "end 5", closes=0)
    first = runs("three records", b"".join(map(marked, records[:3])), start, "end 8", (0, 3), 3)
    assert first == files(**kept(story, 3))
    runs("no records, after three", b"", first, "end 8", closes=0)
    second = runs("three records more", b"".join(map(marked, records[3:])), first, "end 11", (0, 6), 3)
    assert second == files(**kept(story, 6))
    assert "".join(CASES[index][3][0].rsplit("end ", 1)[0] for index in (-3, -1)) == lines.rsplit("end ", 1)[0]
    runs("all at once", input_of(story), start, "end 11", (0, 6), 6)
    assert CASES[-1][3][0] == lines and CASES[-1][5] == second
    runs("the record that is kept once more", marked(records[2]), first, "refused 9 WrongSeq 9 8", closes=0)
    # another network gives other hashes
    other = image_file(0, sha(b"n"), start_of(story))
    alone = runs("on the network of the image", marked(records[0]), files(image0=other, journal0=b"\0"), "end 6", (0, 1), 1)
    assert alone[2] == journal_file(records[:1]) and CASES[-1][3][0] == catchup("n", start_of(story) + marked(records[0]))[0]
    assert CASES[-1][3][0].splitlines()[0] != lines.splitlines()[0]


def endings():
    """Ends before the input's: what was kept by then stays kept."""
    story = paid(5, 2)
    start, data, one = files(**kept(story)), input_of(story), files(**kept(story, 1))
    second = len(marked(records_in(data)[0]))
    zero = "00" * 32
    before = Story(start_of(story)).close(payment(1))
    here = before.ledger.hash.hex()
    refused = input_of(before.refused(previous=bytes(32)))
    runs("a refused record after a close", refused, start, f"refused 7 WrongPrevious {here} {zero}", (0, 1), 1)
    runs("nothing after a refused record", refused + data[second:], start, f"refused 7 WrongPrevious {here} {zero}", (0, 1), 1)
    runs("a refused record", data[second:], start, "refused 6 WrongSeq 6 7", closes=0)
    runs("a record of no byte", u32(0x80000000), start, "refused 6 BadXdr 0 Short", closes=0)
    for name, rest, offset in [
        ("a record that is cut", data[second:-1], len(data) - 1), ("a mark that is cut", b"\x80\0", second + 2),
        ("a clear mark", u32(4) + bytes(4), second), ("a record that is too long", u32(0x81000001), second),
        ("the longest record, which is cut", u32(0x81000000), second + 4),
    ]:
        after = runs(f"{name}, after a close", data[:second] + rest, start, f"9 bad input at {offset}", (0, 1), 1)
        assert after == one
    runs("three bytes of a mark", b"\x80\0\0", start, "9 bad input at 3", closes=0)


def gates():
    """Gates after the records of a journal, and what follows them."""
    story = paid(5, 3)
    first, second, third = records_in(input_of(story))
    for gate in (0, 2, 7, 255):
        pending = bytes([gate]) + journal_file([second])[1:]
        start = files(**kept(story, 1, rest=pending))
        runs(f"a complete record after a gate of {gate}", b"", start, "end 6", closes=0)
        after = runs(f"the record after a gate of {gate} once more", marked(second), start, "end 7", (0, 2), 1)
        assert after == files(**kept(story, 2))
    runs("a journal that begins with a gate of 7", marked(first), files(**kept(story, 0, rest=b"\7")), "end 6", (0, 1), 1)
    junk = bytes([1]) * 1000
    after = runs("over more than the record", marked(first), files(**kept(story, 0, rest=b"\0" + junk)), "end 6", (0, 1), 1)
    assert after[2] == journal_file([first]) + junk[len(first) + 5:]
    runs("a record once more over more than it", marked(second), after, "end 7", (0, 2), 1)
    runs("over all but one byte of the record", marked(first), files(**kept(story, 0, rest=bytes(len(first) + 5))), "end 6", (0, 1), 1)
    runs("records with open gates after a shut gate", marked(first), files(**kept(story, 0, rest=b"\0" + journal_file([second, third]))),
         "end 6", (0, 1), 1)


# ---- epochs


def rolls():
    """A store that goes on to the next epoch after ledgers 63, 127 and 191, and to none after others."""
    story = mixed(1, 129)
    records, ends = records_in(input_of(story)), catchup(NETWORK, story.data)[0]
    start = files(**kept(story))
    part = lambda first, last: b"".join(map(marked, records[first - 2:last - 1]))  # noqa: E731
    runs("up to ledger 62", part(2, 62), start, "end 62", (0, 61), 61)
    turned = runs("up to ledger 63: the next epoch, and no records", part(2, 63), start, "end 63", (1, 0), 62)
    assert turned[:1] + turned[2:] == [start[0], journal_file(records[:62]), b"\0"]
    runs("no records, after a new epoch", b"", turned, "end 63", closes=0)
    next_one = runs("the first record of an epoch, in the other journal", part(64, 64), turned, "end 64", (1, 1), 1)
    assert next_one[:3] == turned[:3] and next_one[3] == journal_file(records[62:63])
    later = runs("up to ledger 126 of another epoch", part(65, 126), next_one, "end 126", (1, 63), 62)
    again = runs("up to ledger 127: another epoch, over the first one's files", part(127, 127), later, "end 127", (2, 0), 1)
    assert again[1] == later[1] and again[2] == b"\0" and again[3] == journal_file(records[62:126])
    runs("after two epochs", part(128, 129), again, "end 129", (2, 2), 2)
    at_once = runs("over two epochs at once", input_of(story), start, "end 129", (2, 2), 128)
    assert CASES[-1][3][0] == ends and at_once == CASES[-2][5]
    # no ledger is closed: none is due
    runs("no records, at ledger 63", b"", files(**kept(quiet(63, 63))), "end 63", closes=0)


def rolls_that_are_not_due():
    """Ledgers after which the store stays in its epoch."""
    story = quiet(62, 65)
    records = records_in(input_of(story))
    after = runs("from ledger 63 with its record, whose epoch is left for later", b"".join(map(marked, records[1:])),
                  files(**kept(story, 1)), "end 65", (0, 3), 2)
    assert after == files(**kept(story, 3))
    runs("from an image of ledger 63", input_of(quiet(63, 64)), files(**kept(quiet(63, 64))), "end 64", (0, 1), 1)
    long = quiet(62, 128)
    later = b"".join(map(marked, records_in(input_of(long))[1:]))
    runs("more than 64 records in an epoch", later, files(**kept(long, 1)), "end 128", (1, 1), 65)
    refused = Story(image([A], seq=62)).refused(time=0)
    runs("a refused record of ledger 63", input_of(refused), files(**kept(quiet(62, 62))), "refused 63 StaleTime 1000 0", closes=0)
    refused = quiet(62, 63).refused(time=0)
    runs("a refused record of ledger 64", input_of(refused), files(**kept(quiet(62, 62))), "refused 64 StaleTime 1005 0", (1, 0), 1)
    cut = input_of(quiet(62, 64))[:-1]
    runs("a record of ledger 64 that is cut", cut, files(**kept(quiet(62, 62))), f"9 bad input at {len(cut)}", (1, 0), 1)
    cut = input_of(quiet(62, 63))[:-1]
    runs("a record of ledger 63 that is cut", cut, files(**kept(quiet(62, 62))), f"9 bad input at {len(cut)}", closes=0)


def rolls_over():
    """What is in the files of the epoch to which a store goes on."""
    story = quiet(62, 64)
    old = dict(journal1=b"\1junk")
    shut = [("a shut image", 0, 9), ("an image after a gate of 7", 7, LAST_EPOCH), ("an image after a gate of 255", 255, 1)]
    for name, gate, epoch in shut:
        before = files(**kept(story, epoch=10), image1=image_file(epoch, ON_TEST, OLD, gate), **old)
        runs(f"over {name}", input_of(story), before, "end 64", (11, 1), 2)
    before = files(**kept(story, epoch=10), image1=image_file(9, ON_TEST, OLD), **old)
    runs("over the open image of the epoch before", input_of(story), before, "end 64", (11, 1), 2)
    longer = image_file(9, ON_TEST, LEGAL)
    for name, file in [("one byte of 1", b"\1"), ("48 bytes of 1", b"\1" * 48), ("an open image that is longer", longer)]:
        after = runs(f"over {name}", input_of(story), files(**kept(story, epoch=10), image1=file), "end 64", (11, 1), 2)
        assert after[1][:9] == b"\1" + u64(TOP + 11)
    after = runs("from the other file", input_of(story), files(**kept(story, epoch=7)), "end 64", (8, 1), 2)
    assert after[0][:9] == b"\1" + u64(TOP + 8)


def last_epochs():
    """The last epochs: a store stays in epoch 2^63 - 1."""
    story = quiet(62, 64)
    for epoch, left in [(2**63 - 3, (2**63 - 2, 1)), (2**63 - 2, (2**63 - 1, 1)), (2**63 - 1, (2**63 - 1, 2))]:
        runs(f"at ledger 63 of epoch {epoch}", input_of(story), files(**kept(story, epoch=epoch)), "end 64", left, 2)


# ---- what files open to


def openings():
    """Which image counts."""
    new, old = paid(8, 1), quiet(5, 6)
    both = lambda even, odd: files(**kept(even[1], 1, even[0]), **kept(odd[1], 1, odd[0]))  # noqa: E731
    runs("the image with the greater epoch, in the first file", b"", both((4, new), (3, old)), "end 9", closes=0)
    runs("the image with the greater epoch, in the second file", b"", both((4, old), (5, new)), "end 9", closes=0)
    runs("epochs that are far apart", b"", both((2**63 - 2, new), (1, old)), "end 9", closes=0)
    runs("an open image beside one byte of 1", b"", files(**kept(new), image1=b"\1"), "end 8", closes=0)
    runs("an open image beside 48 bytes of 1", b"", files(**kept(new), image1=b"\1" * 48), "end 8", closes=0)
    for gate in (0, 2, 7, 255):
        shut = image_file(5, ON_TEST, start_of(old), gate)
        name = f"an open image beside one of a greater epoch and a gate of {gate}"
        runs(name, b"", files(**kept(new, 1, 4), image1=shut), "end 9", closes=0)
    runs("a journal of the other epoch that is none", b"", files(**kept(new, 1, 4), journal1=b"\1"), "end 9", closes=0)
    # an image that doesn't count is judged by its head alone
    others = [("of another kind", b"none"), ("of no byte", b""), ("of a ledger that can't be", BROKEN), ("and a byte", OLD + b"\0")]
    for name, other in others:
        runs(f"beside an older image {name}", b"", files(**kept(new, 1, 4), image1=image_file(3, ON_TEST, other)), "end 9", closes=0)


def missing():
    """No image is open."""
    image_with_gate = image_file(0, ON_TEST, LEGAL)
    runs("no files", b"", files(), "11 missing")
    runs("no files, and records", input_of(paid()), files(), "11 missing")
    runs("journals alone", b"", files(journal0=b"\0", journal1=b"\0"), "11 missing")
    runs("open gates of files that are too short", b"", files(image0=b"\1" * 48, image1=b"\1", journal0=b"\0"), "11 missing")
    for gate in (0, 7):
        runs(f"an image after a gate of {gate}", b"", files(image0=bytes([gate]) + image_with_gate[1:], journal0=b"\0"), "11 missing")


def bad_heads():
    """Epochs and lengths that don't fit their files."""
    story = quiet(5, 6)
    good, journal = kept(story), b"\0"
    start, other = start_of(story), image_file(3, ON_TEST, start_of(story))
    ones = b"\1" * 49

    def bad(name, at, **given):
        runs(f"bad store: {name}", input_of(story), files(**{**good, **given}), f"7 bad store at {at}")

    bad("an odd epoch in the first file", "0 1", image0=image_file(1, ON_TEST, start))
    bad("an even epoch in the second file", "1 1", image0=b"", image1=image_file(2, ON_TEST, start), journal1=journal)
    bad("the greatest epoch in the first file", "0 1", image0=image_file(LAST_EPOCH, ON_TEST, start))
    bad("a length that is one too small", "0 41", image0=good["image0"] + b"\0")
    bad("a length that is one too great", "0 41", image0=good["image0"][:-1])
    bad("a length of 2^64 - 1", "0 41", image0=good["image0"][:41] + b"\xff" * 8 + good["image0"][49:])
    bad("another length in the second file", "1 41", image0=b"", image1=other + b"\0", journal1=journal)
    bad("49 bytes of 1", "0 1", image0=ones)
    bad("49 bytes of 1 in the second file", "1 41", image1=ones)
    bad("an odd epoch and another length", "0 1", image0=image_file(1, ON_TEST, start) + b"\0")
    # the other image too, and file by file
    bad("an even epoch in the other file", "1 1", image1=image_file(0, ON_TEST, OLD))
    bad("another length in the other file", "1 41", image0=image_file(4, ON_TEST, start), image1=other[:-1])
    bad("another length, and an even epoch in the other file", "0 41", image0=good["image0"] + b"\0", image1=image_file(2, ON_TEST, OLD))
    bad("an odd epoch in the older image", "0 1", image0=image_file(1, ON_TEST, OLD), image1=other, journal1=journal)
    bad("another length, and no journal", "0 41", image0=good["image0"] + b"\0", journal0=b"")


def bad_images():
    """Images that are none, or that of no legal ledger."""
    def bad(name, data, end=f"7 bad store at 0 {head()}", journal=b"\0", epoch=0):
        made = {f"image{epoch % 2}": image_file(epoch, ON_TEST, data), f"journal{epoch % 2}": journal}
        runs(f"bad store: {name}", b"", files(**made), end)

    bad("an image of no byte", b"")
    bad("another magic", b"SLI2" + LEGAL[4:])
    bad("an image without its last byte", LEGAL[:-1])
    bad("a byte after the image", LEGAL + b"\0")
    bad("a record after the image", Story(LEGAL).close().data)
    bad("an image without its last byte, and no journal", LEGAL[:-1], journal=b"")
    bad("a lumen too many", BROKEN)
    bad("a lumen too many in the second file", BROKEN, f"7 bad store at 1 {head()}", epoch=1)
    bad("another version", image([A], version=17))
    bad("a header of no byte", b"SLI1" + u32(0x80000000) + bytes(8 * 22))
    bad("levels of another hash", image([A], levels=bytes(32)))
    # a journal's own form comes before what the image is a ledger of, and that before its records
    bad("a lumen too many, and no journal", BROKEN, "7 bad store at 2 0", b"")
    bad("a lumen too many, and a record that is cut", BROKEN, "7 bad store at 2 0", journal_file([b"cut"])[:-2])
    bad("a lumen too many, and a record that is none", BROKEN, journal=journal_file([b"none"]))


def bad_journals():
    """Journals that are none, and records that close no ledger."""
    story = paid(5, 3)
    first, second, third = records_in(input_of(story))
    offset, last = len(first) + 5, len(first) + len(second) + 10
    broken = second[:-1] + b"\1"

    def bad(name, journal, end, epoch=0):
        made = {f"image{epoch % 2}": image_file(epoch, ON_TEST, start_of(story)), f"journal{epoch % 2}": journal}
        runs(f"bad store: {name}", marked(first), files(**made), f"7 bad store at {end}")

    bad("no journal", b"", "2 0")
    bad("no journal in the fourth file", b"", "3 0", 1)
    bad("no gate after a record", journal_file([first], b""), f"2 {offset}")
    bad("no gate after two records", journal_file([first, second], b""), f"2 {last}")
    bad("a gate alone", b"\1", "2 0")
    bad("three bytes of a length", b"\1\0\0\0", "2 0")
    bad("a record that is cut", journal_file([first])[:-2], "2 0")
    bad("a second record that is cut", journal_file([first, second])[:-2], f"2 {offset}")
    bad("a second record of which one byte is there", journal_file([first], b"\1\0\0\0\2a"), f"2 {offset}")
    bad("a second record without its length", journal_file([first], b"\1"), f"2 {offset}")
    bad("a record that is too long", b"\1" + u32(16777217) + bytes(99), "2 0")
    bad("the longest record, which is cut", b"\1" + u32(16777216) + bytes(99), "2 0")
    bad("a record of 2^32 - 1 bytes", journal_file([first], b"\1" + u32(2**32 - 1) + bytes(99)), f"2 {offset}")
    bad("a refused record", journal_file([second]), "2 0")
    bad("a refused record in the fourth file", journal_file([first, third]), f"3 {offset}", 1)
    bad("a record twice", journal_file([first, second, second]), f"2 {last}")
    bad("a record of no byte", journal_file([b""]), "2 0")
    bad("a second record that is none", journal_file([first, broken, third]), f"2 {offset}")
    bad("a refused record ahead of one that is cut", journal_file([second, first])[:-2], f"2 {len(second) + 5}")
    bad("a refused record, and no gate", journal_file([first, third], b""), f"2 {len(first) + len(third) + 10}")


def changed(volume, *changes):
    """The files of a volume with bytes written at offsets: each a file, an offset and its bytes."""
    left = [bytearray(file) for file in volume]
    for file, offset, data in changes:
        left[file].extend(bytes(max(0, offset + len(data) - len(left[file]))))
        left[file][offset:offset + len(data)] = data
    return [bytes(file) for file in left]


def two_images():
    """Two open images, the first in epoch 2 with two records and the second in epoch 1 with one."""
    return files(**kept(paid(8, 2), 2, 2), **kept(paid(5, 1), 1, 1))


def precedence():
    """Which fault of two comes first: file by file, and in each the epoch before the length, and that before the hash in format 2; all of
    that before the image. Files that are shut, images that don't count, and their journals aren't judged."""
    volume = two_images()
    first, second = "end 10", "end 6"
    size = [len(file) for file in volume]
    by_format = [
        ("the first image and the second epoch", [(0, 49, b"\0"), (1, 8, b"\0")], "1 1", "0 49"),
        ("the first image and the second length", [(0, 49, b"\0"), (1, 41, b"\1")], "1 41", "0 49"),
        ("the second image twice", [(1, 49, b"\0"), (1, 50, b"\0")], first, "1 49"),
    ]
    for name, changes, end in [
        ("nothing", [], first), ("the first epoch 3", [(0, 8, b"\3")], "0 1"), ("the first epoch 1", [(0, 8, b"\1")], "0 1"),
        ("the second epoch 0", [(1, 8, b"\0")], "1 1"), ("the second epoch 4", [(1, 8, b"\4")], "1 1"),
        ("the first epoch 4", [(0, 8, b"\4")], first), ("the second epoch 3", [(1, 8, b"\3")], second),
        ("a greater length", [(0, 48, bytes([size[0] - head() + 1 & 255]))], "0 41"),
        ("a smaller length", [(0, 48, bytes([size[0] - head() - 1 & 255]))], "0 41"),
        ("the highest byte of a length", [(0, 41, b"\1")], "0 41"), ("the greatest length", [(0, 41, b"\xff" * 8)], "0 41"),
        ("a byte more", [(0, size[0], b"\0")], "0 41"), ("a byte more in the second", [(1, size[1], b"\0")], "1 41"),
        ("a greater length of the second", [(1, 48, bytes([size[1] - head() + 1 & 255]))], "1 41"),
        ("the first epoch and length", [(0, 8, b"\3"), (0, 41, b"\1")], "0 1"),
        ("the second epoch and length", [(1, 8, b"\0"), (1, 41, b"\1")], "1 1"),
        ("both epochs", [(0, 8, b"\3"), (1, 8, b"\0")], "0 1"),
        ("the first length and the second epoch", [(0, 41, b"\1"), (1, 8, b"\0")], "0 41"),
        ("both lengths", [(0, 41, b"\1"), (1, 41, b"\1")], "0 41"),
        ("both images", [(0, 49, b"\0"), (1, 49, b"\0")], "0 49"),
        ("the first shut and its epoch", [(0, 0, b"\0"), (0, 8, b"\3")], second),
        ("the first shut and its length", [(0, 0, b"\7"), (0, 41, b"\1")], second),
        ("the first shut and the second epoch", [(0, 0, b"\0"), (1, 8, b"\0")], "1 1"),
        ("the second shut and its length", [(1, 0, b"\0"), (1, 41, b"\1")], first),
        ("the second journal", [(3, 0, b"\1"), (3, 4, b"\xff")], first),
        ("the first shut and the second image", [(0, 0, b"\0"), (1, 49, b"\0")], "1 49"),
        ("the first shut and the second journal", [(0, 0, b"\0"), (3, 1, b"\xff")], "3 0"),
        *((name, changes, ends[form - 1]) for name, changes, *ends in by_format),
    ]:
        two_images_with(name, changed(volume, *changes), end)


def two_images_with(name, volume, end):
    """Two images with other bytes, and how they open."""
    runs(f"two images with another byte: {name}", b"", volume, end if end.startswith("end") else f"7 bad store at {end}", closes=0)


def hashes():
    """Hashes of images in format 2: each open image is judged by its own, file by file; what has its hash is judged as an image."""
    volume = two_images()
    again = lambda *changes: [with_hash(file) if index < 2 else file for index, file in enumerate(changed(volume, *changes))]  # noqa: E731
    magic = [(0, 81, b"T"), (1, 81, b"T")]
    size = [len(file) for file in volume]
    for index, name in enumerate(("first", "second")):
        for what, offset in [("hash's first byte", 49), ("hash's last byte", 80), ("image's first byte", 81), ("image's last byte", size[index] - 1)]:
            other = bytes([volume[index][offset] ^ 1])
            two_images_with(f"the {name} {what}", changed(volume, (index, offset, other)), f"{index} 49")
    two_images_with("the first image and its hash", again(magic[0]), "0 81")
    two_images_with("the second image and its hash", again(magic[1]), "end 10")
    two_images_with("both images and their hashes", again(*magic), "0 81")
    two_images_with("the first image and its hash, and the second image", changed(again(magic[0]), (1, 81, b"T")), "1 49")
    two_images_with("the first image and its hash, and the second epoch", again(magic[0], (1, 8, b"\0")), "1 1")
    two_images_with("the first shut, and the second image and its hash", again((0, 0, b"\0"), magic[1]), "1 81")


def heads_alone():
    """Files of format 2 up to the image, and to none of it."""
    alone = b"\1" + u64(TOP) + ON_TEST + u64(0) + sha(b"")
    for length, end in [(48, "11 missing"), (49, "7 bad store at 0 41"), (80, "7 bad store at 0 41"), (81, "7 bad store at 0 81")]:
        runs(f"{length} bytes of a head of format 2", b"", files(image0=alone[:length], journal0=b"\0"), end)
    runs("a head of format 2 with another hash", b"", files(image0=alone[:-1] + b"\0", journal0=b"\0"), "7 bad store at 0 49")
    runs("a byte after a head of format 2", b"", files(image0=alone + b"\0", journal0=b"\0"), "7 bad store at 0 41")


def both_formats():
    """An image of each format: the one with the greater epoch counts, and a run brings its store over where it is of format 1."""
    old, new = start_of(paid(5, 1)), start_of(paid(8, 2))
    records = [journal_file(records_in(input_of(story))) for story in (paid(8, 2), paid(5, 1))]

    def two(first, second):
        made = [file_of_image(epoch, ON_TEST, data, form=of) for epoch, data, of in ((4, new, first), (3, old, second))]
        return files(image0=made[0], image1=made[1], journal0=records[0], journal1=records[1])

    runs("an image of format 2 over one of format 1", b"", two(2, 1), "end 10", closes=0)
    after = runs("an image of format 1 over one of format 2", b"", two(1, 2), "end 10", (5, 0), 0)
    assert after[0] == two(1, 2)[0] and after[1][:9] == b"\1" + u64(TOP + 5)
    runs("an image of format 1 over one of format 2 with another hash", b"", changed(two(1, 2), (1, 49, b"\0")), "7 bad store at 1 49")
    runs("an image of format 2 over one of format 1 that is none", b"", changed(two(2, 1), (1, 49, b"\0")), "end 10", closes=0)
    runs("an image of format 2 over one of format 1 of another length", b"", two(2, 1)[:1] + [two(2, 1)[1] + b"\0"] + two(2, 1)[2:],
         "7 bad store at 1 41")


def migrating():
    """A store of format 1 goes on to the next epoch before its input is read, and from there as any other."""
    story = paid(5, 3)
    start, data = files(**kept(story)), input_of(story)
    first = runs("no records", b"", start, "end 5", (1, 0), 0)
    assert first[0] == start[0] and first[1][:9] == b"\1" + u64(TOP + 1) and first[2:] == [b"\0", b"\0"]
    runs("three records", data, start, "end 8", (1, 3), 3)
    after = runs("two records after one that is kept", data[len(marked(records_in(data)[0])):], files(**kept(story, 1)), "end 8", (1, 2), 2)
    assert after[2] == kept(story, 1)["journal0"]
    runs("from the second file", data, files(**kept(story, epoch=7)), "end 8", (8, 3), 3)
    runs("a refused record", marked(records_in(data)[1]), start, "refused 6 WrongSeq 6 7", (1, 0), 0)
    runs("a mark that is cut", b"\x80\0", start, "9 bad input at 2", (1, 0), 0)
    runs("a record that is cut, after a close", data[:-1], start, f"9 bad input at {len(data) - 1}", (1, 2), 2)
    due = quiet(62, 64)
    runs("a ledger after which an epoch is due", input_of(due), files(**kept(due)), "end 64", (2, 1), 2)
    for epoch, left in [(2**63 - 3, (2**63 - 1, 1)), (2**63 - 2, (2**63 - 1, 2))]:
        runs(f"at ledger 63 of epoch {epoch}", input_of(due), files(**kept(due, epoch=epoch)), "end 64", left, 2)
    runs("the epoch 2^63 - 1", b"", files(**kept(due, epoch=LAST_EPOCH)), "7 bad store at 1 1")
    old = dict(image1=image_file(3, ON_TEST, OLD), journal1=b"\1junk")
    after = runs("over the open image of the epoch before", data, files(**kept(story, epoch=4), **old), "end 8", (5, 3), 3)
    assert after[1][:9] == b"\1" + u64(TOP + 5)


def image_bytes():
    """Bytes of an image without which it doesn't read, in the first file and in the second one."""
    story = quiet(5, 5)
    start = start_of(story)
    header = len(take(start[4:]))
    lengths = 8 + header
    last = lengths + sum(8 + len(file) for file in cut_image(Text(start))[1][:21])
    for name, offset, data in [
        ("its magic", 0, b"T"), ("the last byte of its magic", 3, b"2"), ("a clear mark", 4, b"\0"), ("a mark that is too long", 4, b"\x81\0\0\1"),
        ("a longer header", 7, bytes([start[7] + 1])), ("a longer first file", lengths + 7, bytes([start[lengths + 7] + 1])),
        ("a far longer first file", lengths, b"\1"), ("a longer last file", last + 7, b"\1"),
    ]:
        for epoch in (0, 1):
            volume = changed(files(**kept(story, epoch=epoch)), (epoch, head() + offset, data))
            if form == 2:
                volume[epoch] = with_hash(volume[epoch])
            runs(f"an image with another byte in epoch {epoch}: {name}", b"", volume, f"7 bad store at {epoch} {head()}", closes=0)


def before_a_journal():
    """An image is judged before its journal, which has no bytes here."""
    volume = files(**{**kept(quiet(5, 5)), "journal0": b""})
    for name, offset, byte, end in [
        ("an open gate", 0, b"\1", "7 bad store at 2 0"), ("another magic or hash", 49, b"\0", "7 bad store at 0 49"),
        ("another length", 41, b"\1", "7 bad store at 0 41"), ("another epoch", 8, b"\1", "7 bad store at 0 1"),
        ("a shut gate", 0, b"\0", "11 missing"),
    ]:
        runs(f"no journal and {name}", b"", changed(volume, (0, offset, byte)), end)


def take(data):
    """What follows a record mark."""
    return data[4:4 + (int.from_bytes(data[:4], "big") & 0x7FFFFFFF)]


def showing():
    """What `show` reports of stores, and of volumes that have none; it never goes on to another epoch, of a store of format 1
    neither."""
    story, two = paid(5, 3), 200 * LUMEN
    good = kept(story)
    shows("no files", files(), "11 missing")
    shows("journals alone", files(journal0=b"\0", journal1=b"\0"), "11 missing")
    shows("a store without records", files(**good), ["0 records 0", f"{two} 0", "2"])
    shows("a store with three records", files(**kept(story, 3)), ["0 records 3", f"{two} 300", "2"])
    shows("a store of an odd epoch", files(**kept(story, 1, epoch=7)), ["7 records 1", f"{two} 100", "2"])
    shows("a closed gate ahead of a record", files(**{**good, "journal0": b"\0" + journal_file(records_in(input_of(story)))}), ["0 records 0", f"{two} 0", "2"])
    shows("bad store: an odd epoch in the first file", files(**{**good, "image0": image_file(1, ON_TEST, start_of(story))}), "7 bad store at 0 1")
    shows("bad store: an image that breaks a rule", files(image0=image_file(0, ON_TEST, BROKEN), journal0=b"\0"), f"7 bad store at 0 {head()}")
    shows("bad store: a journal of no bytes", files(**{**good, "journal0": b""}), "7 bad store at 2 0")
    if form == 2:
        showing_epochs()


def showing_epochs():
    """Stores around the ledger after which an epoch is due."""
    long = mixed(1, 63)
    before = run(b"".join(map(marked, records_in(input_of(long))[:61])), files(**kept(long)))[1]
    after = run(input_of(long), files(**kept(long)))[1]
    assert opened(before) == (0, 61) and opened(after) == (1, 0)
    shows("ahead of a new epoch", before, ["0 records 61", *show_of(before)])
    shows("a new epoch", after, ["1 records 0", *show_of(after)])
    # a ledger after which an epoch was due, where a run stopped ahead of it
    due = kept(long, 62)
    shows("where an epoch is due", files(**due), ["0 records 62", *show_of(after)])


def show_of(volume):
    """The lumens, the fees and the entries of a store, as the ledger has them."""
    ledger = Store(volume).ledger
    return f"{ledger.header['coins']} {ledger.header['pool']}", f"{len(ledger.entries)}"


def in_format_1(part):
    """A part of the cases with stores of format 1."""
    def cases():
        global form
        form = 1
        part()
        form = 2
    return cases


FORMAT_1 = [openings, bad_heads, bad_images, bad_journals, precedence, image_bytes, before_a_journal, showing, migrating]
PARTS = [
    making, making_over, words, showing, going_on, endings, gates, rolls, rolls_that_are_not_due, rolls_over, last_epochs, openings, missing,
    bad_heads, bad_images, bad_journals, precedence, image_bytes, before_a_journal, hashes, heads_alone, both_formats,
    *map(in_format_1, FORMAT_1),
]
