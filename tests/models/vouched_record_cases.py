"""Cases of records with vouches, which `run_cases.py` writes: their form, and the stores that keep them. Each says by
hand how it ends.
"""

import set_cases as sets
import store_cases as stores
from case_tools import LUMEN, Account, Story, case, entry, image, sent
from ledger_model import marked, u32, u64
from set_cases import NOTHING, key, var
from vouch_cases import payload_vouch, shown, vouch

# an account whose own key signs
KEYED = entry(Account("a", 100 * LUMEN, signers=[], thresholds=(1, 1, 1, 1)))
FORM_2 = u32(sets.FORM_2)


def signed(story, form_2=True):
    """Closes by one transaction of a's, signed by its own key."""
    tx = sent("a", story.account("a")["seq"] + 1, NOTHING, signatures=[shown("a")])
    end = sets.ok(sets.BUMPED) if form_2 else sets.BAD_AUTH
    return story.close(tx, vouches=[vouch("a", tx.hash)] if form_2 else None, expected=[end])


def forms():
    """The two forms of a record, where each of the second ends or breaks off."""
    def one(name, change, end, closes=0):
        story = Story(image([KEYED]))
        record = story.record(vouches=[vouch("a", bytes(32)), payload_vouch("a", b"pay")])
        story.add(change(record))
        case(f"a record of form 2: {name}", story, end, closes)

    full = len(Story(image([KEYED])).record(vouches=[vouch("a", bytes(32)), payload_vouch("a", b"pay")]))
    none = len(Story(image([KEYED])).record(vouches=[]))
    count, first = none - 4, none
    one("two vouches that serve nothing", lambda record: record, "end 6", 1)
    one("no vouches", lambda record: record[:count] + u32(0), "end 6", 1)
    one("its number again in place of the ledger's", lambda record: FORM_2 + FORM_2 + record[8:], f"refused 6 WrongSeq 6 {sets.FORM_2}")
    one("the first word alone", lambda record: FORM_2, "refused 6 BadXdr 4 Short")
    one("two words", lambda record: record[:8], "refused 6 BadXdr 8 Short")
    one("no count of vouches", lambda record: record[:count], f"refused 6 BadXdr {count} Short")
    one("20001 vouches", lambda record: record[:count] + u32(20_001), f"refused 6 BadXdr {count} TooLong")
    one("2^32 - 1 vouches", lambda record: record[:count] + u32(2**32 - 1), f"refused 6 BadXdr {count} TooLong")
    one("20000 vouches of which none is there", lambda record: record[:count] + u32(20_000), f"refused 6 BadXdr {first} Short")
    one("a vouch of arm 1", lambda record: record[:first] + u32(1) + record[first + 4:], f"refused 6 BadXdr {first} BadEnum")
    one("a vouch of arm 2", lambda record: record[:first] + u32(2) + record[first + 4:], f"refused 6 BadXdr {first} BadEnum")
    long = lambda head: u32(1) + head + u32(65) + bytes(68)  # noqa: E731
    one("a signature of 65 bytes", lambda record: record[:count] + long(u32(0) + key("a") + bytes(32)), f"refused 6 BadXdr {first + 68} TooLong")
    one("a payload of 65 bytes", lambda record: record[:count] + long(u32(3) + key("a")), f"refused 6 BadXdr {first + 36} TooLong")
    one("a signature of 65 bytes for a payload", lambda record: record[:count] + long(u32(3) + key("a") + var(b"pay")),
        f"refused 6 BadXdr {first + 44} TooLong")
    one("a byte after it", lambda record: record + b"\0", f"refused 6 BadXdr {full} Trailing")
    one("a byte short", lambda record: record[:-1], f"refused 6 BadXdr {full - 1} Short")
    one("a filling that isn't zero", lambda record: record[:-1] + b"\1", f"refused 6 BadXdr {full - 1} Padding")
    one("the vouches of form 2 behind form 1", lambda record: record[4:], f"refused 6 BadXdr {none - 8} Trailing")


def counts():
    """As many vouches as a record may have, of which the last one is needed."""
    story = Story(image([KEYED]))
    tx = sent("a", 1, NOTHING, signatures=[shown("a")])
    others = [vouch("b", bytes(24) + u64(index), b"") for index in range(20)]
    story.close(tx, vouches=[*others, vouch("a", tx.hash)], expected=[sets.ok(sets.BUMPED)])
    case("vouches of which the last one is needed", story, "end 6", 1)


def kept():
    """A store keeps records of both forms, in the form in which they came; one of format 1 goes on to format 2 first."""
    story = signed(signed(Story(image([KEYED]))), form_2=False)
    signed(story)
    lines = stores.records_in(stores.input_of(story))
    part = lambda first, last: b"".join(map(marked, lines[first:last]))  # noqa: E731
    made = stores.makes("an account whose own key signs", stores.start_of(story), stores.files(), "", (0, 0))
    both = stores.runs("records of both forms", part(0, 2), made, "end 7", (0, 2), 2)
    assert both[2] == stores.journal_file(lines[:2])
    again = stores.runs("records of both forms again", part(2, 3), both, "end 8", (0, 3), 1)
    stores.shows("records of both forms", again, ["0 records 3", f"{100 * LUMEN} 300", "1"])
    former = stores.file_of_image(0, stores.ON_TEST, stores.start_of(story), form=1)
    stores.runs("a record of form 2 over format 1", part(0, 3), stores.files(image0=former, journal0=b"\0"), "end 8", (1, 3), 3)
    # in the journal of an epoch of format 1 it is a fault at its gate
    plain = story_in_form_1()
    others = stores.records_in(stores.input_of(plain))
    at = len(others[0]) + 5

    def bad(name, image_, journal, end):
        volume = stores.files(image0=stores.file_of_image(0, stores.ON_TEST, image_, form=1), journal0=journal)
        stores.runs(f"format 1: {name}", b"", volume, f"7 bad store at {end}")
        stores.shows(f"format 1: {name}", volume, f"7 bad store at {end}")

    start = stores.start_of(plain)
    bad("a record of form 2", stores.start_of(story), stores.journal_file(lines[:1]), "2 0")
    bad("a record of form 2 after one of form 1", start, stores.journal_file([others[0], FORM_2 + others[1] + bytes(4)]), f"2 {at}")
    bad("the first word of form 2 alone", start, stores.journal_file([others[0], FORM_2]), f"2 {at}")
    bad("a refused record before one of form 2", start, stores.journal_file([others[1], FORM_2 + others[0] + bytes(4)]), "2 0")
    bad("a record of form 2, and no gate", start, stores.journal_file([FORM_2 + others[0] + bytes(4)], b""), f"2 {len(others[0]) + 13}")
    bad("a record of form 2 after a broken image", start[:-1] + b"\1", stores.journal_file([FORM_2 + others[0] + bytes(4)]), "0 49")
    # behind a shut gate it is none
    volume = stores.files(image0=stores.file_of_image(0, stores.ON_TEST, start, form=1),
                          journal0=stores.journal_file([others[0]], b"\0" + u32(8) + FORM_2 * 2))
    stores.runs("format 1: a record of form 2 behind a shut gate", b"", volume, "end 6", (1, 0), 0)


def story_in_form_1():
    """Two closes of form 1."""
    return Story(image([KEYED])).close().close()


PARTS = [forms, counts, kept]
