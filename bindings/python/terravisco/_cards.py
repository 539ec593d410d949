"""Rule cards: a rule with its flags and its budget as bytes that can be kept and sent."""
from __future__ import annotations

from typing import Any, AnyStr, Type, Union

from . import _limits
from ._errors import CardError
from ._library import REFUSED, lent, library, numbers, octets, text
from ._rule import Rule


def card_write(rule: Rule[Any]) -> bytes:
    """The card of a rule, at most 1,064 bytes. One rule with its flags and budget has one card. A budget over 65,535 is refused, by 4."""
    return rule._card(rule.budget)


def card_read(card: bytes, kind: Type[AnyStr] = bytes) -> Rule[AnyStr]:  # type: ignore[assignment]
    """The rule on a card, as one of `bytes` or of `str`. Any bytes may be handed in: what is not just as `card_write` writes it is a `CardError`."""
    answer, rule_bytes = numbers(_limits.CARD_ANSWER), octets(_limits.RULE_BYTES)
    data = memoryview(card).tobytes()
    library.terravisco_card_read(*text(data), *lent(numbers(_limits.RULE_AREA)), *lent(rule_bytes), answer)
    if answer[0] == REFUSED:
        raise CardError(answer[1], answer[2])
    _, _, _, _, _, length, flags, budget, _ = answer
    pattern: Union[str, bytes] = bytes(rule_bytes[:length])
    if issubclass(kind, str):
        pattern = pattern.decode("latin-1")
    return Rule(pattern, flags, budget)  # type: ignore[arg-type,return-value]
