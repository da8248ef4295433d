"""Says in words why a setup is refused."""

from __future__ import annotations

import shlex

from .errors import Complaint
from .reports import Refusal
from .setups import SetupFault, faults_of, parse_setup

RULES = {
    1: "each byte of a line is printed ASCII",
    2: "the first word begins a statement; the schema comes first and once, `width` at most once",
    3: "a statement has its words, its fixed words are spelled as shown, and a new name is a name",
    4: "the list of `schema records` is NAME:KIND with commas between, at most 24, and has `ts:u64`",
    5: "no name is given twice, and a question is `live` once",
    6: "a name stands for an attribute, or for a thing of that kind on a line above",
    7: "a number or value has its form and range",
    8: "an index, a tally and `by` are over numbers; measured are numbers below 2^32",
    9: "at most 16 indexes, filters, aggregates and tallies, 16 triggers, 32 questions, 65536 bytes",
    10: "the expression can be read: comparisons joined by && and ||, no parentheses",
    11: "the names in an expression are attributes",
    12: "the operators suit: == != < <= > >= in, not in; of bytes only == and !=",
    13: "the values in an expression are in their attribute's range",
    14: "an expression has at most 32 comparisons",
}
EXAMPLES = {
    1: ("a tab", "a space in its place"),
    2: ("foo x", "schema packet"),
    3: ("index i", "index senders src"),
    4: ("schema records a:u9", "schema records ts:u64,src:u32,len:u16"),
    5: ("index s src, twice", "index s src, then index t dst"),
    6: ("index i nosuch", "index i src"),
    7: ("ask q between f x 3", "ask q between f 1700000000 1700000009"),
    8: ("index i dmac", "index i src"),
    9: ("the 17th index", "16 of them; the rest in another setup"),
    10: ("ask q list len>", "ask q list len>100"),
    11: ("ask q list nope==1", "ask q list ttl==1"),
    12: ("ask q list dmac<0x020000000001", "ask q list dmac==0x020000000001"),
    13: ("ask q list dport==65536", "ask q list dport==65535"),
    14: ("33 comparisons", "`dport in 80..443` in place of many"),
}


def fault_lines(path: str, fault: SetupFault, is_first: bool = True) -> list[str]:
    """The faulty line with the place of the fault below it, the rule, why, and a line that means the same, if there is one."""
    where = f"{path}, line {fault.line}" if fault.line else path
    said = "the setup is refused" if is_first else "a further fault"
    lines = [f"{where}: {said}, code {fault.fault.code}."]
    if fault.text:
        begin = max(0, fault.fault.place - 60)
        shown = "".join(it if " " <= it <= "~" else "?" for it in fault.text[begin : begin + 76])
        lines += ["", f"    {shown}", f"    {' ' * (fault.fault.place - begin)}^"]
    lines += ["", f"Why: {fault.fault.why}.", f"Rule {fault.fault.code}: {RULES[fault.fault.code]}."]
    if fault.fault.right:
        words = "A line that is right and means the same:"
        if fault.fault.is_of_ask:
            words = "`confluo-report ask` takes parentheses, `and`, `or` and `not`; a setup doesn't. Write:"
        lines += [words, "", f"    {fault.fault.right}"]
    return lines


def _packet_lines(refusal: Refusal, path: str, why: str) -> list[str]:
    """A command over packets, and a setup over others."""
    return [f"{path}, line {refusal.place}: the setup is refused, code 4.", f"Why: {why}."]


def _further(path: str, count: int) -> list[str]:
    """That there are more faults."""
    if not count:
        return []
    are = "There is 1 further fault" if count == 1 else f"There are {count} further faults"
    return ["", f"{are}: `confluo-report check {shlex.quote(path)}` shows all."]


def explain_setup(
    refusal: Refusal, path: str | None, data: bytes | None, is_synth: bool = False
) -> list[str]:
    """The refusal in words, with the setup where it is given."""
    if path is None or data is None:
        wrong, right = EXAMPLES.get(refusal.code, ("", ""))
        return [
            f"The setup is refused: its line {refusal.place} breaks rule {refusal.code}.",
            f"Rule {refusal.code}: {RULES.get(refusal.code, 'there is no such rule')}.",
            f"For example not: {wrong}",
            f"But:             {right}",
            "With --setup FILE the line is shown.",
        ]
    faults = faults_of(data)
    if faults:
        fault = faults[0]
        if (fault.line, fault.fault.code) == (refusal.place, refusal.code):
            return fault_lines(path, fault) + _further(path, len(faults) - 1)
        found = f"its first fault is in line {fault.line}, code {fault.fault.code}"
        raise Complaint(f"{path} is not the setup that was refused: {found}")
    setup = parse_setup(data)
    if refusal.code == 4 and not setup.is_packet:
        return _packet_lines(
            refusal, path, "it is over records, and `watch` and `synth` are only over packets"
        )
    if is_synth and refusal.code == 4 and setup.source != "packet":
        return _packet_lines(
            refusal, path, "`synth` draws packets by `schema packet`, and this setup states another schema"
        )
    raise Complaint(f"{path} is not the setup that was refused: it is valid")
