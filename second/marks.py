"""Parts of scripts: dumps of each length, and the marks that they leave.

Req 06: "Units that send 142." A part is given the kind of the box, or a
script that leaves it, and hand, which hands a message over: whole, or on a
socket. A box whose dumps have one length neither reads nor writes marks.
"""

from box import NOT_RECEIVED, RECEIVED
from judging import show
from kinds import (ALL, EDIT, KINDS, PLAYERS, PROGRAM, PROGRAMS, around,
                   edit_place)
from messages import (changed, data_start, dump, dumps, long_dumps, noise,
                      request, resized, waves)
from scenes import EVERY_NUMBER

# The first and the last program, 0x11 (which dumps name) and its neighbours.
NAMED = (0, 0x10, 0x11, 0x12, 0x23)
# These, and the edit buffers.
PLACES = (*NAMED, *map(edit_place, PLAYERS))
# Lengths around the right ones of every kind, going down.
AROUND = around(length for kind in KINDS
                for length in kind.every_length)[::-1]


def asking(kind):
    """Return requests of each type: programs, edit buffer, all programs."""
    return (*(request(kind, PROGRAM, program) for program in NAMED),
            request(kind, EDIT), request(kind, ALL))


def add_in_turn(kind, hand, asked):
    """Dumps of each type in each length, and requests behind each."""
    for given, _ in (*dumps(kind, 17), *long_dumps(kind, 18)):
        hand(given)
        for message in asked:
            hand(message)


def refused(given):
    """Return ways to have a dump refused."""
    start = data_start(given)
    bad = (changed(given, start - 1, 1),            # 15
           changed(given, start, 0x7F),             # 16
           changed(given, len(given) - 2, 0x10))    # 16
    if given[6] == PROGRAM:
        return *bad, changed(given, 7, PROGRAMS)    # 14
    return bad


def add_marked(script, hand):
    """Dumps over marks of either sort, refused and then stored."""
    for mark in (NOT_RECEIVED, RECEIVED):
        for given, _ in dumps(script.kind, 19):
            for place in PLACES:
                script.mark(place, mark)
            for message in (*refused(given), given):
                hand(message)


def set_all(kind, hand):
    """Store dumps that have spare bytes, so that all marks are set."""
    hand(dump(kind, EDIT, noise(10, kind.halves)))
    hand(dump(kind, ALL, waves(kind, 20)))


def add_one_clear(script, hand, places):
    """One mark clear at a time, and all programs asked for."""
    set_all(script.kind, hand)
    for place in places:
        script.mark(place, NOT_RECEIVED)
        show(script.kind, hand)
        script.mark(place, RECEIVED)


def add_spares(script, hand):
    """Spare bytes that somebody else wrote, under marks of either sort."""
    kind = script.kind
    set_all(kind, hand)
    for mark in (NOT_RECEIVED, RECEIVED):
        for place in PLACES:
            script.poke(kind.part(place).stop - 1, 0xA5)
            script.mark(place, mark)
        for asked in asking(kind):
            hand(asked)


def add_unmoved(script, player):
    """Moves, lists and program changes, under marks of either sort."""
    script.turn_to(player)
    for mark, other in ((RECEIVED, NOT_RECEIVED), (NOT_RECEIVED, RECEIVED)):
        for place in PLACES:
            script.mark(place, mark)
        script.mark(edit_place(player), other)
        script.send_hex(player, 'B0 0D 11 C0 01 12 24 F7')
        script.moves_hex(EVERY_NUMBER)
        script.send(player, request(script.kind, EDIT))


def add_between(kind, hand):
    """Dumps of each type at lengths around those of every kind."""
    for given, _ in long_dumps(kind, 21):
        for length in AROUND:
            if length <= len(given) + 1:
                hand(resized(given, length))


def add_marks(script, hand):
    """What dumps and requests do with marks: all of it."""
    kind = script.kind
    add_in_turn(kind, hand, asking(kind))
    add_marked(script, hand)
    add_one_clear(script, hand, PLACES)
    add_spares(script, hand)
    add_between(kind, hand)
