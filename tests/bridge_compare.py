"""Whether `compare` of tools/stellar_files.py finds the first ledger that differs, and says how.

The results are those of `bridge_cases/`, which other programs worked out, and the outputs those of the ledger of
`models/` for the same inputs. Then outputs that are another in one place each: a fee, a code, an order, a transaction
more or less, a header, a refusal; and files that are none.
"""

from __future__ import annotations

import gzip
import os
import sys
from typing import Callable, Dict, List, Tuple

import bridge
import bridge_forms
import cases
from harness import TESTS, Tally

import ledger_model  # noqa: E402

THREE, KINDS = "history-results-with-payloads", "history-results-of-every-kind"
# of the case with payloads
MERGED = "632b83d15b0603bb43adcb7d7f23314b8438095134b73e07df795fb0d545ef5a"
CLAIMED = "003907ac002a95a03458517c7a15b4998ef6a23179230521f82973b70f0fac07"
SOLD = "9afb54f503c71714cbfdb4d5231d82c8598fce21a16bb66423c3b17f4d005f74"
BALANCE = "0908ce494e21d97fa80bf93c1698fed69ea3de6f60d933eb11b060c5857ed440"
EQUAL = (
    f"   1 equal    {MERGED}  txSUCCESS  feeCharged 100 native",
    f"   2 equal    {CLAIMED}  txSUCCESS  feeCharged 100 native",
    f"   3 equal    {SOLD}  txFAILED  feeCharged 100 native",
)
ARCHIVED = (
    [f"   1 archive  {MERGED}  txSUCCESS  feeCharged 100 native",
     "                ACCOUNT_MERGE  ACCOUNT_MERGE_SUCCESS  sourceAccountBalance 9999999900 native"],
    [f"   2 archive  {CLAIMED}  txSUCCESS  feeCharged 100 native",
     f"                CREATE_CLAIMABLE_BALANCE  CREATE_CLAIMABLE_BALANCE_SUCCESS  balanceID {BALANCE}"],
    [f"   3 archive  {SOLD}  txFAILED  feeCharged 100 native",
     "                MANAGE_SELL_OFFER  MANAGE_SELL_OFFER_BUY_NO_TRUST"],
)


def output_of(name: str) -> Tuple[cases.Case, str]:
    """A case of history, and what `catchup` prints for its input."""
    case = cases.read_case(name, bridge_forms.FOLDER)
    network = case.words[-1].rpartition(b"=")[2].decode()
    return case, ledger_model.catchup(network, case.given)[0]


def compared(folder: str, results: bytes, output: str) -> bridge.Answer:
    paths = bridge.write_file(f"{folder}/results", results), bridge.write_file(f"{folder}/output", output.encode())
    return bridge.run("compare", *paths)


def try_equal(tally: Tally, folder: str) -> None:
    for name, case in bridge_forms.named_cases():
        if case.words[0] == b"history":
            case, output = output_of(name)
            rows = [line.split() for line in output.splitlines()]
            ledgers = [int(row[1]) for row in rows if row[0] == "closed"]
            numbers = f"ledger {ledgers[0]}" if len(ledgers) == 1 else f"ledgers {ledgers[0]} to {ledgers[-1]}"
            expected = f"equal  {numbers}  transactions {sum(row[0] == 'tx' for row in rows)}\n"
            answer = compared(folder, case.output, output)
            tally.check("equal ledgers are found so", answer == (0, expected, ""), (name, answer))


def lines_of_three(header: str, *rows: object) -> str:
    lines = [line for row in rows for line in ([row] if isinstance(row, str) else row)]
    return "\n".join(["ledger 10 differs", *([header] if header else []), *lines]) + "\n"


def try_different(tally: Tally, folder: str) -> None:
    """Changes the output of a ledger of three transactions, and compares what is said with lines laid out by hand."""
    case, output = output_of(THREE)
    merged, claimed, sold, closed, end = output.splitlines(keepends=True)
    digest, wrong = closed.split()[2], "00" * 32
    headers = f"header archive  {digest}\nheader program  {wrong}"
    why = "all its transactions are equal, but what they changed isn't, or the header's own fields"
    swapped = lines_of_three("", ARCHIVED[0], EQUAL[1].replace("2 equal  ", "1 program").replace("equal", "program"),
                             ARCHIVED[1], EQUAL[0].replace("1 equal  ", "2 program"), EQUAL[2])
    for what, text, expected in (
        ("another fee", merged + claimed.replace(" 100 ", " 101 ") + sold + closed, lines_of_three(
            "", EQUAL[0], ARCHIVED[1], f"   2 program  {CLAIMED}  txSUCCESS  feeCharged 101 native", EQUAL[2])),
        ("another code", merged + claimed + sold.replace(" -1\n", " -13\n") + closed, lines_of_three(
            "", *EQUAL[:2], ARCHIVED[2], f"   3 program  {SOLD}  txFEE_BUMP_INNER_FAILED  feeCharged 100 native")),
        ("no code", merged + claimed + sold.replace(" -1\n", " -99\n") + closed, lines_of_three(
            "", *EQUAL[:2], ARCHIVED[2], f"   3 program  {SOLD}  code -99  feeCharged 100 native")),
        ("another order", claimed + merged + sold + closed, swapped),
        ("one less", merged + claimed + closed.replace(" 3 ", " 2 "), lines_of_three(
            "", *EQUAL[:2], ARCHIVED[2], "   3 program  none")),
        ("one more", merged + claimed + sold + sold + closed.replace(" 3 ", " 4 "), lines_of_three(
            "", *EQUAL, "   4 archive  none", f"   4 program  {SOLD}  txFAILED  feeCharged 100 native")),
        ("another header", merged + claimed + sold + closed.replace(digest, wrong) + end, lines_of_three(
            headers, why, *EQUAL)),
        ("a refusal", "refused 10 StaleTime 9 8\n", lines_of_three(
            "", "the archive has it closed, and the program refused: StaleTime 9 8")),
    ):
        answer = compared(folder, case.output, text)
        tally.check("a ledger that differs is said with its transactions", answer == (1, expected, ""), (what, answer))


def try_parts(tally: Tally, folder: str) -> None:
    """Compares with results alone, packed and not, and with ledgers that one side doesn't have."""
    case, output = output_of("history-ledgers-with-and-without-transactions")
    ledgers = [line.split()[1] for line in output.splitlines() if line.startswith("closed")]
    stream = list(bridge_forms.parts_of(case.output))[2]
    said = "the headers aren't compared, since the file of results has none\n"
    for data in (stream, gzip.compress(stream)):
        answer = compared(folder, data, output)
        is_so = answer.status == 0 and said in answer.out
        tally.check("results without headers are compared", is_so, answer)
    first = output[:output.index("\n", output.index("closed")) + 1]
    answer = compared(folder, case.output, first)
    is_so = answer.status == 0 and f"in the archive alone  ledgers {ledgers[1]} to {ledgers[-1]}\n" in answer.out
    tally.check("what one side alone has is said", is_so, answer)
    later = f"closed 90 {'0' * 64} 0 0\nclosed 91 {'0' * 64} 0 0\nrefused 95 SeqEnd\n"
    answer = compared(folder, case.output, first + later)
    is_so = answer.status == 0 and "in the output alone  ledgers 90 to 91, 95\n" in answer.out
    tally.check("what one side alone has is said", is_so, answer)
    _, other = output_of(THREE)
    answer = compared(folder, case.output, other.replace("closed 10 ", "closed 4 "))
    tally.check("files without a common ledger are refused", bridge.is_refused(answer), answer)


def try_cut(tally: Tally, folder: str) -> None:
    """Compares outputs that are cut in a line, or between transactions and their ledger."""
    case, output = output_of("history-ledgers-with-and-without-transactions")
    start = output.index("\n", output.index("closed")) + 1
    for end in range(start, len(output), 7):
        answer = compared(folder, case.output, output[:end])
        tally.check("an output that is cut is compared as far as it goes", answer.status == 0, (end, answer))


def try_bad(tally: Tally, folder: str) -> None:
    case, output = output_of(THREE)
    lines = output.splitlines(keepends=True)
    changes: Dict[str, Callable[[List[str]], List[str]]] = {
        "line 1 ": lambda rows: ["a word\n", *rows], "line 2 ": lambda rows: [rows[0], rows[1][:-9] + "\n"],
        "line 3 ": lambda rows: [rows[0], rows[1], rows[3]], "line 4 ": lambda rows: rows[:3] + [rows[4]],
    }
    for place, change in changes.items():
        answer = compared(folder, case.output, "".join(change(lines)))
        is_so = bridge.is_refused(answer) and place in answer.err
        tally.check("an output that is none is refused with its line", is_so, (place, answer))
    for data in (b"", b"SLH1", case.output[:400], b"\x1f\x8b", gzip.compress(case.output)[:90], b"\x80\0\0\4aaaa" * 2):
        answer = compared(folder, data, output)
        tally.check("a file of results that is none is refused", bridge.is_refused(answer), (data[:9], answer))
    for text in ("", "{r}", "{r} {none}", "{none} {r}", "{d} {r}", "{r} {d}"):
        words = text.format(r=f"{folder}/results", d=folder, none=f"{folder}/none").split()
        answer = bridge.run("compare", *words)
        tally.check("what can't be compared is refused in one line", bridge.is_refused(answer), (text, answer))
    is_told = "example:" in bridge.run("compare", "--help").out
    tally.check("the help of a command has an example", is_told)


def check(top: str) -> Tally:
    tally = Tally()
    for part in (try_equal, try_different, try_parts, try_cut, try_bad):
        with bridge_forms.scratch() as folder:
            part(tally, folder)
    return tally


if __name__ == "__main__":
    result = check(os.path.dirname(TESTS))
    print("\n".join(result.lines()))
    sys.exit(1 if result.failed else 0)
