"""The script of bytes on sockets, and of lists of moves among them."""

from functools import partial

from box import END_BYTE
from duo import PAIRS, add_duo, ask_both, mix
from judging import add_forms, show
from kinds import (ALL, AMP_BORDERS, EDIT, KINDS, ONE, PLAYERS, PROGRAM,
                   START, TWO)
from marks import PLACES, add_in_turn, add_one_clear, add_unmoved, asking
from messages import (PAD, all_forms, changed, dump, dumps, edit_with,
                      identity, inserted, noise, request, resized, wave,
                      waves)
from player import MESSAGE_ROOM
from scenes import add_scenes, listed, shared_moves
from script import Script

PIECE = 1000  # bytes of a long dump sent in one piece
# Program changes: "0 (manual), 37 (tuner) and above", and those between.
CHANGES = (0, 1, 2, 17, 36, 37, 38, 127)


def add_running(script, socket):
    """Running status, and what drops it."""
    for text in (
            # "A data byte with no running status is skipped."
            '00 7F 0D 40',
            # "The last one finishes the message; running status stays."
            'B0 0D 7F 0E 40 0F 20',
            # refused messages finish too
            '00 00 0D 33 0C 20 0E 34 37 00 0F 35',
            # "F8 to FF: ... nothing changes, in the middle of a message too"
            'B0 F8 0D F9 70 FA 0E FB 41 FC FD FE FF 0F 21',
            # "drops a half-received message"
            'B0 0D B0 0E 11 0D', 'B0 0F 12', 'B0 0D C0 05 06', '0D 13',
            '90 01 B0 0D 14',
            # "Kinds C and D take one data byte, the others two."
            'C0 01 02 03', 'D0 01 02', 'E0 01 02 03 04 05',
            # "F0 opens a SysEx and clears running status."
            'B0 0D 10 F0 F7 0D 20', 'B0 0D F0 F7 21 0E 22'):
        script.send_hex(socket, text)
    # "F1 to F6, and F7 outside a SysEx, clear running status."
    for status in range(0xF1, 0xF8):
        script.send_hex(socket, f'B0 0D 30 0E {status:02X} 0D 31 0E 32')
    script.send(socket, request(script.kind, EDIT))


def add_real_time(script, socket):
    """F8 to FF inside an identity request and a dump of each type."""
    clocks = bytes(range(0xF8, 0x100))
    script.send_hex(socket, 'F0 F8 7E F9 7F FA 06 FB 01 FC FD FE FF F7')
    for given, asked in dumps(script.kind, 7):
        # why: going down, the places before are not moved
        for place in (len(given) - 1, len(given) // 2, 7, 1):
            given = inserted(given, place, clocks)
        script.feed(socket, given)
        script.feed(socket, asked)


def add_cuts(script, socket, statuses):
    """A SysEx cut by status bytes; F7 finishes it."""
    for status in statuses:
        script.feed(socket, bytes.fromhex(
            f'F0 00 01 0C {status:02X} 0D 40 0E 41 0F F7 0D 42'))
    # "so F0 opens a new one"
    header = script.kind.header.hex()
    for text in ('F0 00 01 F0 7E 7F 06 01 F7',
                 f'F0 F0 {header} 00 01 F7',
                 f'{header} 00 F8 {header} 00 00 23 F7'):
        script.send_hex(socket, text)


def add_cut_dumps(script, socket):
    """Dumps cut just before their F7, then sent again."""
    for given, asked in dumps(script.kind, 8):
        for text in ('B0 0D 50 F7 0D 51', 'C0 05 06', 'F6 0D 52 F7',
                     'F0 7E 7F 06 01 F7'):
            script.feed(socket, given[:-1])
            script.send_hex(socket, text)
        script.feed(socket, asked)
        script.feed(socket, given[:-1])
        script.feed(socket, given)
        script.feed(socket, asked)


def add_too_long(script, socket):
    """A SysEx of as many bytes as can be stored, and more."""
    kind = script.kind
    full = dump(kind, ALL, waves(kind, 9))[:-1]
    # "5,193 with F7 is the longest message"; "F7 then gives 10"
    for mark, tail in enumerate(('F7', 'F8 F7', '00 F7', 'FE 00 F8 F7',
                                 '00 01 02 F7')):
        script.feed(socket, changed(full, kind.longest // 2, mark))
        script.send_hex(socket, tail)
        script.feed(socket, request(kind, ALL))
    # "a cut gives 4"
    for tail in ('B0 0D 53', '00 B0 0D 54', '00 F6 0D 55', '00 F8 C0 56',
                 '00 F0 7E 7F 06 01 F7'):
        script.feed(socket, full)
        script.send_hex(socket, f'{tail} 0D 57 F7 0D 58')
    # "A further byte is dropped", here thousands of them
    data = wave(0, MESSAGE_ROOM)
    for message in (changed(data, 0, START), data, END_BYTE):
        script.feed(socket, message)
    # of the greatest length but not ours, and one byte short
    script.feed(socket, changed(full, 4, 0x7F) + END_BYTE)
    script.feed(socket, full[:-1] + END_BYTE)
    show(kind, partial(script.feed, socket))


def add_channels(script, socket, settings):
    """Every sort of channel message on every channel."""
    for channel, omni in settings:
        script.settings(channel, omni)
        for sent in range(16):
            script.feed(socket, b''.join(
                bytes((upper << 4 | sent, 13, 8 * channel + sent))
                for upper in range(0x8, 0xF)))
    # the settings at the last byte decide
    for channel, omni in ((5, 0), (6, 0), (6, 1), (5, 0)):
        script.settings(0, 0)
        script.send_hex(socket, 'B5 0D')
        script.settings(channel, omni)
        script.send_hex(socket, '44')
    script.settings(0, 0)
    script.send_hex(socket, 'B0 0D 45 F7')


def add_changes(script, socket):
    """Program changes, over programs that all differ."""
    kind = script.kind
    script.feed(socket, dump(kind, ALL, waves(kind, 13)))
    for status in (0xC0, 0xC1, 0xCF):
        # under running status, and each with its own
        script.send(socket, (status, *CHANGES))
        for number in CHANGES:
            script.send(socket, (status, 0xF8, number))
    # the settings at the last byte decide
    for channel, omni in ((5, 1), (5, 0), (0, 0)):
        script.settings(0, 0)
        script.send_hex(socket, 'C0')
        script.settings(channel, omni)
        script.send(socket, CHANGES)
        script.send(socket, request(kind, EDIT))


def add_recalled(script):
    """A program that is stored, recalled, moved and stored over again."""
    kind = script.kind
    for (player, other), program in zip(PAIRS, (0, 0x23)):
        given = dump(kind, PROGRAM, noise(player, kind.halves), program)
        script.feed(other, given)
        # a change half received while the panel stores
        script.send_hex(player, 'C0')
        script.turn_to(player)
        script.whole(edit_with(kind, {46: 2}))
        script.send(player, (program + 1,))
        ask_both(script)
        # moves do not reach the program itself
        script.send_hex(player, 'B0 0C 03 0D 7F 13 02 F7')
        script.whole(request(kind, PROGRAM, program))
        # storing the program again does not reach the edit buffer
        script.feed(other, dump(kind, PROGRAM, wave(player, kind.halves),
                                program))
        ask_both(script)


def add_controllers(script, socket, values, controllers=range(128)):
    """Controllers with several values, over a mixed edit buffer."""
    kind = script.kind
    script.feed(socket, dump(kind, EDIT, noise(3, kind.halves)))
    for value in values:
        feed_moves(script, socket, listed(
            (controller, value) for controller in controllers))
        script.send(socket, request(kind, EDIT))


def feed_moves(script, socket, moves):
    """Send a list of moves one by one, under running status."""
    script.feed(socket, b'\xB0' + moves)


def add_shared(script, socket, values):
    """Shared bytes under many settings of byte 46."""
    for value in values:
        for setting in range(16):
            feed_moves(script, socket, shared_moves(setting, value))
        script.send(socket, request(script.kind, EDIT))
    # from a dump: "any value not listed, 6 and 10 too, gives 19"
    for setting in (2, 6, 10, 16, 0x22, 0x8E, 0xFF):
        script.feed(socket, edit_with(script.kind, {46: setting}))
        # 19 at 16 is refused, so byte 46 stays
        feed_moves(script, socket, shared_moves(16, 99))
        script.send(socket, request(script.kind, EDIT))


def add_raised(script, socket):
    """Fields that a dump makes 0, then moves that are raised and others."""
    kind = script.kind
    for controller in kind.at_least:
        rule = kind.table[controller]
        # "Field ranges are not tested when a dump is stored."
        script.feed(socket, edit_with(kind, {
            46: rule.chosen_by[0], **dict.fromkeys(rule.field, 0)}))
        script.send(socket, request(kind, EDIT))
        feed_moves(script, socket, listed(
            (controller, value) for value in range(8)))
        script.send(socket, request(kind, EDIT))


def add_numbers(script, socket):
    """30 and 62 over stored numbers, above the cap too."""
    for stored in ('00 00 00', '07 00 00', '06 C0 00', 'FA 7F 01',
                   'FB 7F 01', '00 80 01', 'FF FF FF'):
        # "bytes 26 to 28, lowest first"; "Byte 29 stays."
        places = dict(enumerate(bytes.fromhex(stored + 'A5'), 26))
        for moves in ('1E 00 3E 7F', '3E 00 1E 01', '1E 7F 3E 00',
                      '3E 01 1E 40 3E 7F 1E 7F'):
            script.feed(socket, edit_with(script.kind, places))
            script.send_hex(socket, f'B0 {moves}')
            script.send(socket, request(script.kind, EDIT))


def add_refusals(script, socket):
    """The forms of both scripts, as bytes on a socket."""
    hand = partial(script.feed, socket)
    add_forms(script, hand, 970)
    for message in all_forms(script.kind, 9):
        for length in (len(message) - 1, len(message) + 1):
            hand(resized(message, length))


def add_mixed(script):
    """Dumps and controllers on two sockets at once."""
    kind = script.kind
    moves = bytes.fromhex('B0 0D 01 0E 02 F8 13 02 37 7F 38 63')
    mix(script, edit_with(kind, {46: 2}, 5), moves * 12)
    mix(script, moves + request(kind, EDIT),
        dump(kind, PROGRAM, wave(6, kind.halves), 9))
    mix(script, dump(kind, EDIT, noise(4, kind.halves)),
        dump(kind, PROGRAM, noise(5, kind.halves), 0x23))
    mix(script, request(kind, EDIT), request(kind, PROGRAM, 0x23))
    # running status, a waiting byte and a cut are one socket's own
    mix(script, bytes.fromhex('B0 0D 11 0E 12 F6 0F 13 B0 0F 14'),
        bytes.fromhex(f'C0 01 {kind.header.hex()} 00 B0 0D 15 0E 16'))
    mix(script, identity(0x7F), request(kind, EDIT)[:-1] + b'\xF6')


def add_apart(script):
    """A status byte on one socket while the other holds a data byte."""
    for socket, other in PAIRS:
        for status in (0x80, *range(0xF0, 0xF9)):
            script.send_hex(other, 'B0 0D')
            script.send(socket, (status,))
            script.send_hex(other, '11 0E 12')
            script.send_hex(socket, 'F7')


def add_pieces(script):
    """Two long dumps at once, piece by piece, the second damaged."""
    kind = script.kind
    first = dump(kind, ALL, waves(kind, 10))
    second = changed(dump(kind, ALL, waves(kind, 11)), kind.longest - 2, 0x10)
    for start in range(0, kind.longest, PIECE):
        script.feed(0, first[start:start + PIECE])
        script.feed(1, second[start:start + PIECE])
        script.whole(request(kind, EDIT))
    show(kind, partial(script.feed, 1))


def add_noise(script):
    """A long dump without a pattern, and back."""
    kind = script.kind
    script.feed(1, dump(kind, ALL, noise(6, kind.all_halves)))
    show(kind, partial(script.feed, 0))


def add_panel(script):
    """Panel messages while both sockets have something half received."""
    kind = script.kind
    given = dump(kind, EDIT, noise(7, kind.halves))
    script.feed(0, given[:80])
    script.send_hex(1, 'B0 13 02 37')
    # byte 46 changes under a waiting controller
    script.turn_to(TWO)
    script.whole(edit_with(kind, {46: 1}))
    script.whole(request(kind, EDIT))
    script.send_hex(1, '7F 37 7F 33 7F')
    script.turn_to(ONE)
    script.whole(identity(0x7F))
    script.whole(dump(kind, PROGRAM, wave(12, kind.halves), 3))
    script.whole(PAD)
    script.feed(0, given[80:])
    show(kind, script.whole)
    script.send_hex(1, '0D 64 F7')


def add_lengths(script, socket):
    """Dumps of each length, and marks: less than the panel's."""
    hand = partial(script.feed, socket)
    add_in_turn(script.kind, hand, asking(script.kind)[:-1])
    add_one_clear(script, hand, PLACES[-3:])


def add_every_change(script, socket):
    """Every program change there is."""
    script.feed(socket, bytes((0xC0, *range(128))))
    show(script.kind, partial(script.feed, socket))


def add_all(script):
    """All parts, on a box of the script's kind."""
    for socket in PLAYERS:
        add_running(script, socket)
        add_real_time(script, socket)
        add_cuts(script, socket, range(0x80, 0xF8))
        add_channels(script, socket, ((0, 0), (5, 0), (3, 1), (15, 0)))
        add_changes(script, socket)
        add_every_change(script, socket)
        add_shared(script, socket, (0, 21, 64, 127))
        add_raised(script, socket)
        add_unmoved(script, socket)
    add_recalled(script)
    add_cut_dumps(script, 0)
    add_too_long(script, 1)
    add_controllers(script, 0, (0, 1, *AMP_BORDERS, 63, 64, 127))
    add_numbers(script, 1)
    add_refusals(script, 0)
    add_mixed(script)
    add_apart(script)
    add_pieces(script)
    add_panel(script)
    script.turn_to(TWO)
    add_scenes(script)
    add_duo(script)
    add_lengths(script, 1)
    add_noise(script)


def make_sockets():
    """Return the script of sockets."""
    script = Script()
    for kind in KINDS:
        script.become(kind)
        add_all(script)
    return bytes(script.commands)
