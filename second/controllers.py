"""Half bytes and controllers, written from the text of the documents alone.

The page is document 01. Of document 02, Req 01 changes one rule of it, Req 07
has two rules of its own for one kind, and Req 04 has a page of its own;
kinds.py has the pages' tables. A kind is one of those of kinds.py.
"""

from typing import Callable, NamedTuple, Optional

SELECTOR = 46     # "Byte 46 selects"
TOP = 127         # "above 127 is 18"
TOP_M = 16383     # "m up to 16,383"

# "Numbers the box returns"
APPLIED = 3        # "controller applied"
BAD_HALF = 16      # "a data byte above 0x0F"
UNKNOWN = 17       # "controller not in the table"
OUT_OF_RANGE = 18  # "controller value out of range"
NOT_SELECTED = 19  # "its effect is not selected"
TOO_SHORT = 30     # "a lent buffer too short"
NO_VALUE = 40      # "no controller value gives the stored value"


class Rule(NamedTuple):
    """What a kind's page says of one controller."""

    field: tuple                 # its bytes, "lowest first"
    formula: Optional[Callable]  # raised if Req 01 says so; None: 30 and 62
    top: int                     # highest value taken
    chosen_by: Optional[tuple]   # values of byte 46; None: not shared
    shown: dict                  # stored number to the value shown


def raise_formula(formula, least):
    """Return the formula, "raised to at least" a number if there is one."""
    if least is None:
        return formula
    return lambda v: max(formula(v), least)


def invert(formula, top):
    """Map each stored number to the smallest value that gives it."""
    if formula is None:
        return {}
    # "the smallest value within the controller's range whose formula gives
    # the stored number": going down, a smaller value replaces a larger one.
    # Req 01: "Showing a value back still takes the smallest"
    return {formula(value): value for value in range(top, -1, -1)}


def read_pairs(pairs, formula, top, chosen_by, at_least):
    """Yield (controller, rule) for each pair c>b of a row."""
    for pair in pairs.split():
        controller, places = pair.split('>')
        field = tuple(int(place) for place in places.split(','))
        raised = raise_formula(formula, at_least.get(int(controller)))
        yield int(controller), Rule(field, raised, top, chosen_by,
                                    invert(raised, top))


def read_page(own, shared, at_least):
    """Return the rules of all controllers of a page, in its order."""
    table = {}
    for pairs, formula, top in own:
        table.update(read_pairs(pairs, formula, top, None, at_least))
    for chosen_by, row in shared:
        for pairs, formula in row:
            table.update(read_pairs(pairs, formula, TOP, chosen_by, at_least))
    return table


def split(data: bytes) -> bytes:
    """Return each byte "as its high half, then its low half"."""
    return bytes(half for byte in data for half in (byte >> 4, byte & 0x0F))


def join(halves: bytes) -> bytes:
    """Return the bytes of half bytes that are all at most 0x0F."""
    return bytes(high << 4 | low
                 for high, low in zip(halves[::2], halves[1::2]))


def read(halves: bytes) -> tuple:
    """Join half bytes, or refuse "a data byte above 0x0F"."""
    if any(half > 0x0F for half in halves):
        return 'refused', BAD_HALF
    return 'value', join(halves)


def load(field, edit):
    """Return the number in a field, "all eight bits of each byte read"."""
    number = 0
    for place in reversed(field):
        number = number << 8 | edit[place]
    return number


def store(field, number, edit):
    """Write a number into a field, "lowest first"."""
    for place in field:
        edit[place] = number & 0xFF
        number >>= 8


def is_selected(rule, edit):
    """Say whether byte 46 selects: "any value not listed ... gives 19"."""
    return rule.chosen_by is None or edit[SELECTOR] in rule.chosen_by


def replace_part(controller, value, stored):
    """Return the number that 30 or 62 stores over the stored one."""
    # "Let m be the stored number / 6, at most 16,383."
    m = min(stored // 6, TOP_M)
    # "30 replaces m's upper seven bits, 62 its lower seven"
    if controller == 30:
        m = value << 7 | m & 0x7F
    else:
        m = m & ~0x7F | value
    return 6 * m  # "6 x m is stored"


def show_part(controller, stored):
    """Return what 30 or 62 shows of the stored number, None for nothing."""
    # "the number must be 6 x m with m up to 16,383"
    m, rest = divmod(stored, 6)
    if rest or m > TOP_M:
        return None
    # "they show m's upper and lower seven bits"
    return m >> 7 if controller == 30 else m & 0x7F


def scale(kind, controller: int, value: int) -> tuple:
    """Return ('value', the controller's number) or ('refused', 17 or 18)."""
    rule = kind.table.get(controller)
    # "A controller not in the table or above 127, and 30 and 62, which need
    # a stored number, are 17"
    if rule is None or rule.formula is None:
        return 'refused', UNKNOWN
    # "then a value above its range or above 127 is 18"
    if value > rule.top:
        return 'refused', OUT_OF_RANGE
    return 'value', rule.formula(value)


def apply(kind, controller: int, value: int, edit: bytearray) -> int:
    """Change the edit buffer and return 3, or return 30, 17, 18 or 19."""
    if len(edit) < kind.size:
        return TOO_SHORT
    rule = kind.table.get(controller)
    if rule is None:
        return UNKNOWN
    if value > rule.top:
        return OUT_OF_RANGE
    if not is_selected(rule, edit):
        return NOT_SELECTED
    if rule.formula is None:
        number = replace_part(controller, value, load(rule.field, edit))
    else:
        # "The formula's number is stored as it comes", but for Req 01
        number = rule.formula(value)
    store(rule.field, number, edit)
    return APPLIED


def back(kind, controller: int, edit: bytes) -> tuple:
    """Return ('value', the value shown) or ('refused', 30, 17, 19 or 40)."""
    # "Tests: 30, 17, 19, 40."
    if len(edit) < kind.size:
        return 'refused', TOO_SHORT
    rule = kind.table.get(controller)
    if rule is None:
        return 'refused', UNKNOWN
    if not is_selected(rule, edit):
        return 'refused', NOT_SELECTED
    stored = load(rule.field, edit)
    if rule.formula is None:
        value = show_part(controller, stored)
    else:
        value = rule.shown.get(stored)
    # "refused with 40 exactly if none exists"; Req 01: "a stored 0 in these
    # three fields now gives 40"
    if value is None:
        return 'refused', NO_VALUE
    return 'value', value
