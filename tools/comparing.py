"""What the program printed beside the results and headers of an archive: the first ledger that differs, if one does.

Unproved.
"""

from __future__ import annotations

from itertools import zip_longest
from typing import Callable, Dict, List, Optional, Sequence

from archived_results import ArchivedResults, read_results
from file_source import FileFault
from program_output import ClosedLedger, Ended, Outcome, RefusedLedger, outcomes
from progress import Note
from result_text import result_lines
from stellar_json import json_of
from stellar_text import GAP
from stellar_xdr import ENDS, TRANSACTION_RESULT
from xdr import Value

Put = Callable[[str], object]
NUMBERS: Dict[str, int] = {name: number for number, (name, *_) in ENDS.items()}


def code_text(number: int) -> str:
    """A code of a transaction in words, or its number where there is no such code."""
    return ENDS[number][0] if number in ENDS else f"code {number}"


def ended(pair: Value) -> Ended:
    """What a transaction of an archive ended with."""
    result = pair["result"]
    return Ended(pair["transactionHash"].hex(), result["feeCharged"], NUMBERS[result["result"]["code"]])


def archived_lines(pair: Value) -> List[str]:
    """A transaction of an archive, with what its operations ended with."""
    return result_lines(pair["transactionHash"].hex(), json_of(TRANSACTION_RESULT, pair["result"]))


def printed_line(printed: Ended) -> str:
    return GAP.join([f"  {printed.hash}", code_text(printed.code), f"feeCharged {printed.fee} native"])


def pair_lines(index: int, archived: Optional[Value], printed: Optional[Ended]) -> List[str]:
    """The lines of a transaction on both sides; of equal ones it is one."""
    if archived is not None and printed is not None and ended(archived) == printed:
        return [f"{index:4} equal  {printed_line(printed)}"]
    theirs = ["  none"] if archived is None else archived_lines(archived)
    first, *rest = theirs
    ours = "  none" if printed is None else printed_line(printed)
    return [f"{index:4} archive{first}", *(f"            {line}" for line in rest), f"{index:4} program{ours}"]


def closed_difference(archive: ArchivedResults, closed: ClosedLedger) -> List[str]:
    """The lines of a ledger that differs; none where it is equal. Raises FileFault."""
    results, digest = archive.of(closed.seq), archive.hash_of(closed.seq)
    are_equal = [ended(pair) for pair in results] == closed.transactions
    lines = []
    if digest not in (None, closed.hash):
        lines += [f"header archive  {digest}", f"header program  {closed.hash}"]
    if are_equal and not lines:
        return []
    if are_equal:
        lines.append("all its transactions are equal, but what they changed isn't, or the header's own fields")
    for index, (archived, printed) in enumerate(zip_longest(results, closed.transactions), 1):
        lines += pair_lines(index, archived, printed)
    return [f"ledger {closed.seq} differs", *lines]


def difference_of(archive: ArchivedResults, outcome: Outcome) -> List[str]:
    """The lines of a ledger of the archive that differs; none where it is equal. Raises FileFault."""
    if isinstance(outcome, RefusedLedger):
        return [f"ledger {outcome.seq} differs", f"the archive has it closed, and the program refused: {outcome.fault}"]
    return closed_difference(archive, outcome)


def ranges_text(ledgers: Sequence[int]) -> str:
    """Rising numbers of ledgers as ranges, as `ledgers 2 to 9, 12, 20 to 21`."""
    ranges: List[List[int]] = []
    for ledger in ledgers:
        if ranges and ranges[-1][1] == ledger - 1:
            ranges[-1][1] = ledger
        else:
            ranges.append([ledger, ledger])
    texts = [f"{first}" if first == last else f"{first} to {last}" for first, last in ranges]
    return f"ledger{'' if len(ledgers) == 1 else 's'} {', '.join(texts)}"


def put_end(archive: ArchivedResults, equal: List[int], other: List[int], transactions: int, put: Put) -> None:
    """Prints which ledgers are equal, and which are in one of the files alone."""
    put(f"equal  {ranges_text(equal)}{GAP}transactions {transactions}\n")
    if archive.hashes is None:
        put("the headers aren't compared, since the file of results has none\n")
    if other:
        put(f"in the output alone  {ranges_text(other)}\n")
    behind = [ledger for ledger in archive.ledgers if ledger > equal[-1]]
    if behind:
        put(f"in the archive alone  {ranges_text(behind)}\n")


def compare(results: str, output: str, put: Put) -> bool:
    """Compares an output with results, and answers whether all ledgers that both have are equal. Raises FileFault where
    they have none, and OSError."""
    archive = read_results(results)
    equal: List[int] = []
    other: List[int] = []
    transactions = 0
    with Note() as note:
        for outcome in outcomes(output):
            note.say(f"ledger {outcome.seq}")
            if not archive.has(outcome.seq):
                other.append(outcome.seq)
                continue
            lines = difference_of(archive, outcome)
            if lines:
                put("\n".join(lines) + "\n")
                return False
            equal.append(outcome.seq)
            transactions += len(outcome.transactions) if isinstance(outcome, ClosedLedger) else 0
    if not equal:
        raise FileFault(output, f"none of its ledgers is in {results}")
    put_end(archive, equal, other, transactions, put)
    return True
