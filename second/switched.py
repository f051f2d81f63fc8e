"""Parts of scripts: the kind that calls bring, changed between them.

A call is judged by the kind that it brings itself, whatever the ones before
it brought; a number that is no kind's is 32, "just before 30", as one that is
no player's is 31, just after it.
"""

from itertools import chain, cycle

from box import MEMORY
from kinds import ALL, AMP_BORDERS, EDIT, KINDS, PROGRAM, others
from messages import (PAD, changed, dump, dumps, edit_with, identity,
                      in_each_length, long_dumps, request, waves)
from player import ROOMS

# Numbers that are no kind's; some would be one's if they were cut.
NO_KINDS = (3, 0xFF, 0x100, 0x101, 0x102, 0xFFFF, 1 << 24, (1 << 24) + 1,
            (1 << 24) + 2, 0x80000000, 0xFF000001, 0xFF000002, 0xFF00FFFF)
# Numbers that are no player's; some would be one's if they were cut.
NO_PLAYERS = (2, 0xFF, 0x100, 0x101, 0xFFFF, 1 << 24, (1 << 24) + 1,
              0x80000000, 0xFF00FFFF)


def spoil(script, no_kind, short, no_player=False):
    """Bring no kind's number, name no player's, if so.

    Also lend a buffer, or None, a byte short.
    """
    if no_kind:
        script.bring(NO_KINDS[0])
    if no_player:
        script.name(NO_PLAYERS[0])
    if short is not None:
        script.lend(short, script.kind.least[short] - 1)


def mend(script, short):
    """Bring, name and lend again what the box wants."""
    script.bring_back()
    script.name_back()
    if short is not None:
        script.lend_back(short)


def add_calls(script):
    """A call of each sort, and a byte on a socket that is none."""
    for socket in (0, 1, 2):
        script.send_hex(socket, 'F8 F7')
    script.whole(identity(0x7F))
    script.moves_hex('0D 11 13 02')
    script.back(13, 0)
    script.scale(5, 128)
    script.amp(15, 256)
    script.screen(35, 0, 1)


def add_no_kinds(script, numbers):
    """Numbers that are no kind's, with something half received."""
    script.send_hex(0, 'B0 0D')
    script.send_hex(1, 'F0 7E')
    for number in numbers:
        script.bring(number)
        add_calls(script)
        # "just before 30"
        script.lend(MEMORY, 0)
        add_calls(script)
        script.lend_back(MEMORY)
    script.bring_back()
    script.send_hex(0, '61 F7')
    script.send_hex(1, '7F 06 01 F7')


def add_other_buffers(script):
    """Calls that bring another kind than what is lent is for."""
    for other in others(script.kind):
        script.bring(other.number)
        add_calls(script)
    script.bring_back()


def add_switched_bytes(script, turns):
    """A channel message whose last byte brings another kind."""
    for turn in turns:
        for text, kind in zip(('B0 0D', '21 0D', '22 C0', '01', '24 B0 13',
                               '0F 09', '7F 09', '40 0C', '1F 0C', '1C F7'),
                              cycle(turn)):
            script.bring(kind.number)
            script.send_hex(0, text)


def add_switched_moves(script):
    """A list handed to each kind in turn: each has its own edit buffers."""
    for text in ('0D 7F 0C 10 13 02 37 7F 40 7F', '13 01 37 7F 33 7F 01 7F',
                 '09 7F 0C 1C 0C 1F 0C 20 09 02'):
        for kind in KINDS:
            script.bring(kind.number)
            script.moves_hex(text)


def add_switched_dumps(script, kind, other):
    """A dump that is begun, or finished, while the other kind is brought."""
    for given, _ in dumps(kind, 14):
        script.bring(other.number)
        script.feed(0, given[:98])
        # to and fro in the midst of it, memory kept
        for place, brought in ((98, kind), (99, other)):
            script.bring(brought.number)
            script.send(0, given[place:place + 1])
        script.bring(kind.number)
        script.feed(0, given[100:])
        script.feed(1, given[:-1])
        # so much stored may be more than the other kind's receiver holds
        script.bring(other.number)
        script.send_hex(1, 'F8 F7')
        script.whole(request(other, EDIT))
        script.bring(kind.number)
        script.send_hex(1, 'F7')
        script.whole(identity(0x7F))


def add_switched_over(script, kind, other):
    """Marked too long with as much stored as one kind can, for another."""
    script.feed(0, dump(kind, ALL, waves(kind, 15))[:-1] + PAD)
    script.bring(other.number)
    script.send_hex(0, 'F8 00 F7')
    script.receiver(0)
    script.bring(kind.number)
    script.feed(0, dump(kind, ALL, waves(kind, 15)))


def add_switched_marks(script, kind, other):
    """Dumps of one kind, and the other's before what they left is shown."""
    between = [*chain.from_iterable(long_dumps(other, 18)[:2])]
    for given, _ in dumps(kind, 18):
        script.bring(kind.number)
        script.whole(given)
        script.bring(other.number)
        for message in (changed(given, 4, other.device), *between):
            script.whole(message)
        script.bring(kind.number)
        for asked in (request(kind, PROGRAM, 0x11), request(kind, EDIT)):
            script.whole(asked)


def add_switched_models(script, kind, other):
    """Amp models that one kind stores, and another shows and is asked of."""
    for model in AMP_BORDERS:
        script.bring(kind.number)
        for given in in_each_length(kind, edit_with(
                kind, dict.fromkeys(kind.table[12].field, model))):
            script.whole(given)
        script.bring(other.number)
        script.whole(request(other, EDIT))
        script.back(12)
        script.amp(model)


def add_switched(script, turns):
    """The kind changed within messages, with enough lent for every kind.

    Each turn is of a kind and another.
    """
    for buffer, room in enumerate(ROOMS):
        script.lend(buffer, room)
    add_switched_bytes(script, turns)
    add_switched_moves(script)
    for kind, other in turns:
        add_switched_dumps(script, kind, other)
        add_switched_over(script, kind, other)
        add_switched_marks(script, kind, other)
        add_switched_models(script, kind, other)
    script.become(script.kind)
