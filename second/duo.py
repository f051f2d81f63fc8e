"""Parts of scripts: two players, an edit buffer each.

Req 08: "socket 0 is player one and socket 1 player two; each has an edit
buffer, both share the 36 programs". What one of them does is shown to both.
"""

from itertools import product, zip_longest

from box import MEMORY, NOT_RECEIVED, RECEIVED
from kinds import ALL, EDIT, ONE, PLAYERS, PROGRAM, TWO, edit_place
from messages import (dump, edit_with, identity, in_each_length, noise,
                      request, wave, waves)

PAIRS = ((ONE, TWO), (TWO, ONE))  # a player, and the other
# An effect selected and a move that wants it, among others.
KNOBS = ('0D 11 13 02 37 7F 12 22', '0D 44 13 05 3A 7F 0C 05')


def ask_both(script):
    """Each player's edit buffer, on its socket and by the panel."""
    asked = request(script.kind, EDIT)
    for player in PLAYERS:
        script.send(player, asked)
        script.name(player)
        script.whole(asked)
    script.name_back()


def mix(script, *streams):
    """Send bytes on both sockets, one by one in turn."""
    for pair in zip_longest(*streams):
        for socket, byte in enumerate(pair):
            if byte is not None:
                script.send(socket, (byte,))


def add_edited(script):
    """Edit dumps of each length from each player, over either mark."""
    kind = script.kind
    for (player, other), mark in product(PAIRS, (RECEIVED, NOT_RECEIVED)):
        for given in in_each_length(kind, edit_with(kind, {46: 2}, player)):
            script.mark(edit_place(other), mark)
            script.feed(player, given)
            ask_both(script)
    for player in PLAYERS:
        script.turn_to(player)
        for given in in_each_length(kind, edit_with(kind, {46: 5}, 9)):
            script.whole(given)
            ask_both(script)


def add_knobs(script):
    """The same knobs turned by both, on sockets, by lists, and at once."""
    for player, text in zip(PLAYERS, KNOBS):
        script.send_hex(player, f'B0 {text}')
        ask_both(script)
    for player, text in zip(PLAYERS, KNOBS[::-1]):
        script.turn_to(player)
        script.moves_hex(text)
        ask_both(script)
    mix(script, *(bytes.fromhex(f'B0 {text}') for text in KNOBS))
    ask_both(script)
    # byte 46 of one player selects nothing for the other
    for player in PLAYERS:
        script.turn_to(player)
        script.moves_hex('37 00 3A 00 0D 7F')
        script.send_hex(player, 'B0 37 01 3A 01')


def add_backs(script, controllers):
    """What controllers show of each player's buffer, in turn."""
    for controller, player in product(controllers, PLAYERS):
        script.turn_to(player)
        script.back(controller)


def add_changed(script):
    """Programs copied into one player's buffer, or refused with 21."""
    kind = script.kind
    script.whole(dump(kind, ALL, waves(kind, 24)))
    for player, program in zip(PLAYERS, (5, 36)):
        script.send(player, (0xC0, program, 0))
        ask_both(script)


def add_one_programs(script):
    """Programs that one player stores, and the other is sent."""
    kind = script.kind
    for player, other in PAIRS:
        script.feed(player, dump(kind, PROGRAM, wave(player, kind.halves),
                                 0x23))
        script.feed(other, request(kind, PROGRAM, 0x23))
        script.turn_to(other)
        script.whole(dump(kind, ALL, waves(kind, 25 + player)))
        script.feed(player, request(kind, ALL))
        ask_both(script)


def add_edges(script):
    """Each edit buffer's first and last byte."""
    for player in PLAYERS:
        script.turn_to(player)
        for place, byte in ((0, 0xC1), (script.kind.size - 1, 0xC2)):
            script.poke(script.edit_start + place, byte + 16 * player)
    ask_both(script)


def add_named(script):
    """Each call that names a player, with what is about no edit buffer."""
    kind = script.kind
    for message in (identity(0x7F), request(kind, PROGRAM, 0x11),
                    dump(kind, PROGRAM, wave(26, kind.halves), 0x11),
                    request(kind, EDIT), edit_with(kind, {}), b''):
        script.whole(message)
    for text in ('', '0D 11 00 00'):
        script.moves_hex(text)
    script.back(13, 0)
    script.screen(0, 0, 1)
    script.screen(36, 0)


def add_no_players(script, numbers):
    """Numbers that are no player's: 31 after 30, and before 32."""
    for number in (*numbers, *PLAYERS):
        script.name(number)
        add_named(script)
        script.lend(MEMORY, script.kind.least[MEMORY] - 1)
        add_named(script)
        script.lend_back(MEMORY)
        script.settings(16, 0)
        add_named(script)
        script.settings(0, 0)
    script.name_back()


def add_duo(script):
    """What two players do: all of it, but for wrong ones."""
    kind = script.kind
    for player in PLAYERS:
        script.feed(player, dump(kind, EDIT, noise(27 + player, kind.halves)))
    add_edited(script)
    add_knobs(script)
    add_changed(script)
    add_one_programs(script)
    add_edges(script)
    script.turn_to(ONE)
