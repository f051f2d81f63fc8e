"""Parts of scripts: lists of moves.

Req 05: "Our lighting desk sends scenes as knob moves." A list is bytes here,
as a script's message holds it: a controller, its value, and so on.
"""

from itertools import chain, product

from box import MEMORY, RECEIVE, REPLY
from controllers import SELECTOR
from duo import ask_both
from kinds import ALL, AMP_BORDERS, EDIT, KINDS, ONE, TWO
from messages import dump, edit_with, noise, request, wave, waves
from moves import MOST
from player import MESSAGE_ROOM
from switched import mend, spoil

# Controllers that want an effect on some kind of box.
SHARED = tuple(dict.fromkeys(
    controller for kind in KINDS for controller, rule in kind.table.items()
    if rule.chosen_by is not None))
# How many moves: none, and "up to 256".
COUNTS = (0, 1, MOST - 1, MOST, MOST + 1)
# Controllers and values at their borders, and some that would be in range if
# they were cut.
CONTROLLERS = (0, 9, 12, 13, 55, 127, 128, 128 + 13, 255)
VALUES = (0, *AMP_BORDERS, 127, 128, 128 + 13, 255)
# Every number that a move can have, but 19 on a Bass box.
EVERY_NUMBER = '0D 7F 09 7F 00 00 0C 1C 13 02 37 7F 33 7F 8D 11 0D 80 0E 40'


def listed(pairs):
    """Return the list of some moves."""
    return bytes(chain.from_iterable(pairs))


def shared_moves(setting, value):
    """Return an effect selected by controller 19, then what may want one."""
    return listed(((19, setting),
                   *((controller, value) for controller in SHARED)))


def add_counts(script):
    """Lists of many lengths, each with number buffers of many lengths."""
    # "a number buffer shorter than the list gives 34": short by one, empty
    for count in COUNTS:
        for room in sorted({0, max(count - 1, 0), count, count + 1}):
            script.lend(REPLY, room)
            script.moves(wave(room, 2 * count))
    script.lend_back(REPLY)
    # a last odd byte is no move
    for length in (1, 3, 2 * MOST + 1, MESSAGE_ROOM):
        script.moves(wave(length, length))


def add_list_order(script):
    """Every choice of reasons for 33, 34, 32, 30, 31 and 32 at once."""
    either = False, True
    choices = product(either, either, either, (None, MEMORY), either, either)
    for many, no_room, no_kind, short, no_player, wrong_setting in choices:
        count = MOST + 1 if many else MOST
        script.lend(REPLY, count - 1 if no_room else count)
        spoil(script, no_kind, short, no_player)
        if wrong_setting:
            script.settings(16, 0)
        script.moves(wave(3, 2 * count))
        mend(script, short)
        script.settings(0, 0)
    script.lend_back(REPLY)


def add_no_sockets_lent(script, receivers):
    """What the sockets have lent does not matter: a list has none."""
    for parts in receivers:
        for socket, buffer in enumerate(RECEIVE):
            script.lend(buffer, 0)
            script.receiver(socket, **parts)
        script.moves_hex(EVERY_NUMBER)
        for socket, buffer in enumerate(RECEIVE):
            script.lend_back(buffer)
            script.receiver(socket)


def add_high(script):
    """Controllers and values above 127: 17, 18 and 19 "in the usual order"."""
    for setting in (2, 6):
        script.moves(listed(((19, setting),
                             *product(CONTROLLERS, VALUES))))


def add_moves(script, values, controllers=range(256)):
    """A list of many controllers with each value, over a mixed buffer."""
    script.whole(dump(script.kind, EDIT, noise(8, script.kind.halves)))
    for value in values:
        script.moves(listed((controller, value)
                            for controller in controllers))
    script.whole(request(script.kind, EDIT))


def add_selected(script, settings, value):
    """Lists that select an effect and then use it."""
    for setting in settings:
        script.moves(shared_moves(setting, value))
    script.whole(request(script.kind, EDIT))
    # "any value not listed, 6 and 10 too, gives 19": from a dump, for 19 at
    # 16 is refused and leaves byte 46
    for setting in (2, 6, 16, 0x8E):
        script.whole(edit_with(script.kind, {SELECTOR: setting}))
        script.moves(shared_moves(16, value))


def add_one_list(script, value):
    """One list that selects each effect in turn and uses it."""
    script.moves(b''.join(shared_moves(setting, value)
                          for setting in range(16)))
    script.whole(request(script.kind, EDIT))


def add_again(script):
    """Moves of a list over what its earlier moves stored."""
    for stored in ('00 00 00', '07 00 00', 'FF FF FF'):
        places = dict(enumerate(bytes.fromhex(stored + 'A5'), 26))
        for text in ('1E 40 3E 01', '3E 7F 1E 7F 3E 00', '0D 7F 0D 80 0D 01',
                     '13 05 3A 00 13 10 3A 07 13 00 33 00 3A 01'):
            script.whole(edit_with(script.kind, places))
            script.moves_hex(text)
    script.whole(request(script.kind, EDIT))


def add_our_channel(script):
    """Lists under many settings: "on our channel" is never another one."""
    for channel, omni in ((5, 0), (15, 1), (15, 0), (0, 1)):
        script.settings(channel, omni)
        script.moves_hex(EVERY_NUMBER)
    script.settings(0, 0)


def add_among(script):
    """Lists while both sockets have something half received."""
    given = dump(script.kind, EDIT, noise(9, script.kind.halves))
    script.feed(0, given[:80])
    script.send_hex(1, 'B0 13 02 37')
    # byte 46 changes under a waiting controller: the other's, then its own
    script.turn_to(ONE)
    script.moves_hex('13 05')
    script.send_hex(1, '7F 37')
    script.turn_to(TWO)
    script.moves_hex('13 01')
    script.send_hex(1, '7F 37')
    script.moves_hex('13 02 0D 11')
    script.send_hex(1, '7F C0 01 C0')
    script.moves_hex('0C 05 0D 22')
    script.send_hex(1, '02 B0')
    # the dump is stored over its player's moves, and moved again
    script.turn_to(ONE)
    script.feed(0, given[80:-1])
    script.moves_hex(EVERY_NUMBER)
    script.send_hex(0, 'F7')
    script.moves_hex(EVERY_NUMBER)
    # running status and an open SysEx are left, to be used or cut
    script.send_hex(1, '0D 64 F0')
    script.moves_hex('0D 33')
    script.send_hex(1, 'F6 F7')
    ask_both(script)


def add_list_pieces(script, piece):
    """A list after each piece of a long dump, and the edit buffer left."""
    kind = script.kind
    given = dump(kind, ALL, waves(kind, 16))
    for start in range(0, len(given), piece):
        script.feed(1, given[start:start + piece])
        script.moves(bytes((13, start // piece, 19, 2, 55, 127)))
    script.whole(request(kind, EDIT))


def add_scenes(script):
    """What lists do, whatever is lent: all of it."""
    add_moves(script, (0, *AMP_BORDERS, 64, 127, 128, 255))
    add_high(script)
    for value in (0, 64, 127):
        add_selected(script, range(16), value)
    add_one_list(script, 99)
    add_again(script)
    add_our_channel(script)
    add_among(script)
    add_list_pieces(script, 1000)
