"""The script of what is lent, scaled, shown back and known: 30 to 34, 40.

It has the wrong players and the screens too.
"""

from itertools import permutations, product

from box import MARKS, MEMORY, RECEIVE, RECEIVED, REPLY
from controllers import SELECTOR
from duo import add_backs, add_no_players
from judging import wrong_settings
from kinds import (ALL, AMP_BORDERS, EDIT, EVERY_CONTROLLER, KINDS,
                   MARK_COUNT, PLAYERS, PROGRAMS, START, around)
from messages import (dump, edit_with, identity, in_each_length, noise,
                      request, wave)
from player import MARK_ROOM, MEMORY_ROOM, MESSAGE_ROOM, OWN_LENT, ROOMS
from scenes import add_counts, add_list_order, add_no_sockets_lent
from screens import add_screens
from script import REVISION, Script
from switched import (NO_KINDS, NO_PLAYERS, add_calls, add_no_kinds,
                      add_other_buffers, add_switched, mend, spoil)

HOLDING = {'running': 0xB0, 'held': 1}
# Counts of stored bytes around the limit of each kind, and between them.
COUNTS = (5500, *around(kind.most_stored for kind in KINDS))


def full(kind):
    """Return a receiver with as much stored as can be."""
    return {'stored': kind.most_stored, 'inside': 1}


def sound(kind):
    """Return receivers that are sound, at their borders."""
    return (
        {}, {'stored': 1, 'inside': 1},
        *({'stored': count, 'inside': 1} for count in COUNTS
          if count <= kind.most_stored),
        {**full(kind), 'over': 1},
        *({'running': status} for status in (0x80, 0xB0, 0xC0, 0xDF, 0xEF)),
        *({'running': status, 'held': 1, 'waiting': byte}
          for status in (0x80, 0xBF, 0xE0, 0xEF) for byte in (0, 0x7F)),
    )


def unsound(kind):
    """Return receivers that are not sound, in every way."""
    filled = full(kind)
    return (
        # "its stored count is 0 to 5,192"; Req 04: "the sound receiver's
        # limits use the kind's own lengths"
        *({'stored': count, 'inside': 1} for count in (
            *COUNTS, 0x8001, 0xFFFF) if count > kind.most_stored),
        # "at least 1 exactly when a SysEx is open"
        {'inside': 1}, {'stored': 1}, {'stored': 0x100},
        {'stored': kind.most_stored},
        # a flag is 0 or 1
        *({**parts, flag: value} for value in (2, 0xFF) for parts, flag in (
            (filled, 'inside'), (filled, 'over'), (HOLDING, 'held'),
            ({}, 'inside'), ({}, 'over'), ({}, 'held'))),
        # "running status is none or 80 to EF"
        *({'running': status}
          for status in (1, 0x7F, 0xF0, 0xF7, 0xF8, 0xFF)),
        # "and none while one is open"
        {**filled, 'running': 0xB0},
        {'stored': 1, 'inside': 1, 'running': 0x80},
        # "a waiting data byte is at most 0x7F"
        {**HOLDING, 'waiting': 0x80}, {**HOLDING, 'waiting': 0xFF},
        # "and stands only under a two-byte status"
        *({'running': status, 'held': 1}
          for status in (0, 0xC0, 0xCF, 0xD0, 0xDF)),
        {**filled, 'held': 1},
        # where none waits its field is 0
        {'waiting': 1}, {'running': 0xB0, 'waiting': 0x7F},
        {**filled, 'waiting': 1},
        # "too long is marked only on an open SysEx with 5,192 stored"
        {'over': 1}, {'running': 0xB0, 'over': 1},
        {'stored': kind.most_stored, 'over': 1},
        *({'stored': count, 'inside': 1, 'over': 1}
          for count in (1, *COUNTS) if count != kind.most_stored),
    )


# Numbers that are no socket's; some would be one's if they were cut.
NO_SOCKETS = (2, 3, 0xFF, 1 << 24, (1 << 24) + 1, 0x80000000, 0xFF0000FF)
# Controllers that would be in the table if they were cut, and others.
NO_CONTROLLERS = (0, 6, 120, 127, 128, 256 + 13, 65536 + 13,
                  (13 << 16) + 13, 0x8000000D, 0xFFFFFFFF)
# Values, and amp models, that would be in range if they were cut, and their
# borders.
VALUES = (*range(8), *AMP_BORDERS, 21, 22, 63, 64, 126, 127, 128, 255, 256,
          65535, 1 << 24, (1 << 24) + 5, (255 << 24) + 127)


def add_beyond(script):
    """Bytes beyond the box's own of memory and marks, all sorts of them."""
    most = max(kind.memory_length for kind in KINDS)
    for place in range(most, MEMORY_ROOM):
        script.poke(place, place % 256)
    for place, mark in zip(range(MARK_COUNT, MARK_ROOM), (2, 0xFF)):
        script.mark(place, mark)


def add_odd(script):
    """Numbers beyond their range, and ops that are none."""
    for op in '\0lw\xFF':
        script.add(op, 0xFF, 0xFF, 0xFF)
    script.whole(identity(0x7F))
    script.edit('P', 7, 1)                  # from beyond the length
    script.edit('B', MESSAGE_ROOM + 2, 0)   # the channel asked for
    script.add('W')
    script.edit('L', 65535)
    script.add('W')
    script.add('R', 0xFE, 0xFF, 0x55)       # revision byte 2
    script.poke(MEMORY_ROOM + 9, 0x77)
    script.mark(5 * MARK_ROOM + 3, 0)       # the fourth program's
    script.lend(OWN_LENT + 1 + REPLY, script.kind.least[REPLY])
    for part in (7, 8 + 4, 0xFF):           # no part, running, no part
        script.add('E', part, 3, 0xB0)
    script.send_hex(1, '0D 7F F7')
    script.whole(identity(0x7F))
    script.settings_back()


def add_receivers(script, socket, receivers, text):
    """Bytes to each of some receivers, then a fresh one."""
    for parts in receivers:
        script.receiver(socket, **parts)
        script.send_hex(socket, text)
    script.receiver(socket)


def add_stale(script, socket):
    """A SysEx over what stands in the receive buffer."""
    kind = script.kind
    given = edit_with(kind, {46: 2})
    script.send(socket, given)
    script.send(socket, request(kind, EDIT))
    # the request's bytes in front of the dump's, shorter and longer
    for count in (1, 2, 7, 8, len(given) - 1, len(given), kind.most_stored):
        script.receiver(socket, stored=count, inside=1)
        script.send_hex(socket, 'F7')


def add_lengths(script, buffer, lengths):
    """Every call with a buffer of several lengths."""
    for length in lengths:
        script.lend(buffer, length)
        for socket in (0, 1, 2):
            script.send_hex(socket, 'F8 B0 0D 11')
        script.whole(identity(0x7F))
        script.moves_hex('0D 11')
        script.back(13, 0)
        script.scale(5)
        script.amp(15)
        script.screen(35, 0, 1)
    script.lend_back(buffer)


def lengths_of(buffer):
    """Return lengths around the least that each kind wants of a buffer."""
    least = (kind.least[buffer] for kind in KINDS)
    return 0, 1, *around(least), ROOMS[buffer], 65535


def add_long_buffers(script, asked):
    """A full receive buffer, a dump and a request, with more lent."""
    for buffer, room in enumerate(ROOMS):
        script.lend(buffer, room)
    kind = script.kind
    for socket in (0, 1):
        # "At most 5,192 are stored": a longer buffer does not raise it
        script.receiver(socket, **full(kind))
        script.send_hex(socket, '05 06 F7')
        for given in in_each_length(kind, dump(
                kind, EDIT, noise(socket, kind.halves))):
            script.feed(socket, given)
            script.feed(socket, asked)
    for buffer in range(len(ROOMS)):
        script.lend_back(buffer)


def add_order(script):
    """Every choice of reasons for 32, 30, 31 and one for 32 at once."""
    kind = script.kind
    choices = product((False, True), (False, True), range(4), (
        None, 'receiver', 'setting', 'mark'))
    for no_kind, wrong_socket, short, wrong in choices:
        own = 1 if wrong_socket else 0
        buffer = (None, MEMORY, MARKS, RECEIVE[own])[short]
        spoil(script, no_kind, buffer)
        script.settings(16 if wrong == 'setting' else 0, 0)
        script.mark(PROGRAMS, 2 if wrong == 'mark' else RECEIVED)
        script.receiver(own, **unsound(kind)[0] if wrong == 'receiver'
                        else full(kind))
        script.send_hex(2 if wrong_socket else 0, 'F7')
        mend(script, buffer)
    script.mark(PROGRAMS, RECEIVED)
    for socket in (0, 1):
        script.receiver(socket)


def add_other(script):
    """What the other socket has lent does not matter."""
    for socket, other in ((0, 1), (1, 0)):
        script.lend(RECEIVE[other], 0)
        script.receiver(other, **unsound(script.kind)[-1])
        script.send(socket, identity(0x7F))
        script.whole(identity(0x7F))
        script.lend_back(RECEIVE[other])
        script.receiver(other)


def add_whole_order(script):
    """Every choice of reasons for 32, 30, 31, 32, 10 and 11 at once."""
    kind = script.kind
    either = False, True
    choices = product((None, MEMORY, MARKS, REPLY), either, either, (
        None, 'setting', 'mark'), either, either)
    for short, no_kind, no_player, wrong, long, unframed in choices:
        spoil(script, no_kind, short, no_player)
        script.revision(3, 0x80 if wrong == 'setting' else REVISION[3])
        script.mark(0, 2 if wrong == 'mark' else RECEIVED)
        message = b'\xF0' + wave(3, kind.longest if long else 20) + b'\xF7'
        script.whole(message[1 if unframed else 0:])
        mend(script, short)
    script.mark(0, RECEIVED)


def add_no_sockets(script, numbers):
    """Bytes on sockets that are none, with something half received."""
    script.send_hex(0, 'B0 0D')
    script.send_hex(1, 'F0 7E')
    for socket in numbers:
        script.send_hex(socket, 'F8 7F B0 F7')
        script.feed(socket, identity(0x7F))
    script.send_hex(0, '61 F7')
    script.send_hex(1, '7F 06 01 F7')


def add_wrong_settings(script):
    """Settings out of range: every call is 32, but K, D, G and X."""
    for _ in wrong_settings(script, script.whole):
        for socket in (0, 1):
            script.send_hex(socket, 'F8 B0')
        script.whole(identity(0x7F))
        script.moves_hex('0D 11')
        script.scale(5)
        script.back(13)
        script.amp(15)
        script.screen(35, 0, 1)


def add_wrong_marks(script, places, marks):
    """Marks neither 1 nor 0: 32 among the box's own, not looked at behind."""
    script.lend(MARKS, MARK_ROOM)
    for place in places:
        for mark in marks:
            script.mark(place, mark)
            add_calls(script)
        if place < MARK_COUNT:
            script.mark(place, RECEIVED)
    script.lend_back(MARKS)


def add_refused(script):
    """Messages of which each byte is refused before it is taken."""
    for socket in (0, 1):
        for byte in bytes.fromhex('F0 7E 7F 06 01 F7 B0 0D 63 F7'):
            script.settings(0, 2)
            script.send(socket, (byte, START, 0xF8))
            script.settings(0, 0)
            script.send(socket, (byte,))


def add_scaling(script, controllers, values):
    """Scaling at values, in the table and out of it, in range and out."""
    for controller in controllers:
        script.controller(controller)
        script.scale(*values)


def fill(script, field, number):
    """Write a number into a field of the player's edit buffer."""
    for place in field:
        script.poke(script.edit_start + place, number % 256)
        number //= 256


def select(script, setting):
    """Set byte 46 of the player's edit buffer."""
    script.poke(script.edit_start + SELECTOR, setting)


def numbers_for(rule):
    """Return numbers that a controller's values give, and some others."""
    if rule.formula is None:
        # "6 x m with m up to 16,383"
        return 0, 1, 6, 762, 768, 49158, 98298, 98299, 98304, 0xFFFFFF
    given = {rule.formula(value) for value in (0, 1, 64, rule.top)}
    more = {number + 1 for number in given} | {256 ** len(rule.field) - 1}
    # below all that are given: Req 01 raises, 56 and 57 add 100
    low = min(given)
    below = {*range(0, low, 25), max(low - 1, 0)}
    return sorted(given | more | below)


def add_back(script, controller):
    """What a controller shows of several numbers, under several effects."""
    rule = script.kind.table[controller]
    script.controller(controller)
    for setting in (*(rule.chosen_by or (0,)), 6):
        select(script, setting)
        for number in numbers_for(rule):
            fill(script, rule.field, number)
            script.add('D')


def add_back_order(script):
    """Every choice of reasons for 32, 30, 31, 17, 19 and 40 at once."""
    # the last one wants an effect, where the kind has any that does
    *_, (controller, rule) = script.kind.table.items()
    either = False, True
    choices = product(either, (None, MEMORY), *(either,) * 4)
    for no_kind, short, no_player, unknown, unselected, no_value in choices:
        spoil(script, no_kind, short, no_player)
        select(script, 6 if unselected else (rule.chosen_by or (0,))[0])
        fill(script, rule.field, 0xFF if no_value else 1)
        script.back(65536 + controller if unknown else controller)
        mend(script, short)


def add_scale_order(script):
    """Every choice of reasons for 32, 17 and 18 at once."""
    for no_kind, unknown, high in product((False, True), repeat=3):
        if no_kind:
            script.bring(NO_KINDS[0])
        script.controller(65536 + 12 if unknown else 12)
        script.scale(script.kind.top_model + (1 if high else 0))
        script.bring_back()


def add_turned_away(script):
    """Calls that are turned away, and the order of their tests."""
    add_order(script)
    add_other(script)
    add_whole_order(script)
    add_no_sockets(script, NO_SOCKETS)
    add_wrong_settings(script)
    add_refused(script)


def add_all(script):
    """All parts, on a box of the script's kind."""
    kind = script.kind
    add_odd(script)
    for socket in (0, 1):
        add_receivers(script, socket, unsound(kind), 'F8 0D F7 F0 B0')
        add_receivers(script, socket, sound(kind), 'F8 05 0D F7 B0')
        add_stale(script, socket)
    for buffer in range(len(ROOMS)):
        add_lengths(script, buffer, lengths_of(buffer))
    add_long_buffers(script, request(kind, ALL))
    add_turned_away(script)
    add_wrong_marks(script, range(MARK_ROOM), (2, 0x80, 0xFF))
    add_counts(script)
    add_list_order(script)
    add_no_sockets_lent(script, unsound(kind)[::9])
    add_no_kinds(script, NO_KINDS)
    add_other_buffers(script)
    add_scaling(script, (*EVERY_CONTROLLER, *NO_CONTROLLERS), VALUES)
    add_scale_order(script)
    script.amp(*VALUES)
    for controller in kind.table:
        add_back(script, controller)
    add_backs(script, (*EVERY_CONTROLLER, *NO_CONTROLLERS))
    for player in PLAYERS:
        script.turn_to(player)
        add_back_order(script)
    add_no_players(script, NO_PLAYERS)
    add_screens(script, range(PROGRAMS))


def make_lent():
    """Return the script of what is lent, scaled, shown back and known."""
    script = Script()
    add_beyond(script)
    for kind in KINDS:
        script.become(kind)
        add_all(script)
    add_switched(script, [*permutations(KINDS, 2)])
    return bytes(script.commands)
