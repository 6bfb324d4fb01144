"""Results of transactions as lines for people, made from their JSON form (stellar_json.py). Unproved."""

from __future__ import annotations

from typing import Dict, List

from stellar_text import GAP, fields_of


def operation_result_text(result: Dict) -> str:
    """An operation's result: what it is of, its code, and what it has beside it."""
    code, *ran = result.values()
    if not ran:
        return code
    kind, of_type = ran[0].values()
    code, *payload = of_type.values()
    if not payload:
        return GAP.join([kind, code])
    name = list(of_type)[1]
    is_struct = isinstance(payload[0], dict) and name == "success"
    return GAP.join([kind, code, *fields_of(payload[0] if is_struct else {name: payload[0]})])


def result_lines(digest: str, result: Dict) -> List[str]:
    """The lines of a transaction's result: one of its hash, code and fee, and one an operation."""
    code, *ran = result["result"].values()
    line = GAP.join([f"  {digest}", code, f"feeCharged {result['feeCharged']} native"])
    if not ran:
        return [line]
    if isinstance(ran[0], dict):
        inner = result_lines(ran[0]["transactionHash"], ran[0]["result"])
        return [line, *(f"  {below}" for below in inner)]
    return [line, *(f"    {operation_result_text(operation)}" for operation in ran[0])]


def results_lines(ledger: int, results: List[Dict], count: int) -> List[str]:
    """The lines of a ledger's results, of which `count` may be more than are listed."""
    shown = [] if count == len(results) else [f"shown {len(results)}"]
    head = GAP.join([f"ledger {ledger}", f"results {count}", *shown])
    return [head, *(line for pair in results for line in result_lines(pair["transactionHash"], pair["result"]))]
