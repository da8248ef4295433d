"""What an expression of a setup in the habits of other tools means, in confluo's grammar, or nothing."""

from __future__ import annotations

import re
from typing import Sequence

from .conditions import ConditionFault, TooLong, nothing, program_form
from .expressions import MOST_ATOMS, Attribute, ExpressionFault, parse_expression

SAME = {"=": "==", "=>": ">=", "=<": "<="}
IS_OF_ASK = re.compile(r"[()!](?!=)|\b(?:and|or|not(?! +in\b)|AND|OR|NOT)\b")


def rephrased(schema: Sequence[Attribute], text: str) -> str:
    """A valid expression that means the same, or nothing where there is none or the text is not understood."""
    try:
        found = program_form(schema, text)
        parse_expression(schema, found)
    except (ConditionFault, ExpressionFault, TooLong):
        return ""
    return "" if found == nothing(schema) else found


def too_long(schema: Sequence[Attribute], text: str) -> str:
    """How long a condition of `ask` would be in a setup, where it is too long for one."""
    try:
        program_form(schema, text)
    except TooLong as fault:
        return (
            f"without parentheses and `not` it has {fault.count} comparisons, and {MOST_ATOMS} are the most"
        )
    except ConditionFault:
        pass
    return ""


def is_of_ask(text: str) -> bool:
    """Whether the text has what conditions of `ask` may have and expressions of a setup may not."""
    return bool(IS_OF_ASK.search(text))
