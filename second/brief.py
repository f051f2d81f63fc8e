"""The script that is committed: every number, and each rule a few times."""

from functools import partial
from itertools import product
from random import Random

from box import REPLY
from chance import add_random
from duo import add_backs, add_duo, add_no_players
from judging import add_identities, add_orders, add_others, add_unknown
from kinds import (AMP_BORDERS, BASS, EDIT, EVERY_CONTROLLER, MARK_COUNT, ONE,
                   PLAYERS, POD, PRO, PROGRAM, PROGRAMS, TWO, edit_place)
from lent import (NO_CONTROLLERS, VALUES, add_back, add_back_order, add_beyond,
                  add_lengths, add_long_buffers, add_odd, add_receivers,
                  add_scale_order, add_scaling, add_stale, add_turned_away,
                  add_wrong_marks, fill, full, sound, unsound)
from marks import (add_between, add_in_turn, add_marked, add_one_clear,
                   add_spares, add_unmoved)
from messages import changed, dump, identity, request, resized, wave
from moves import MOST
from player import ROOMS
from scenes import (EVERY_NUMBER, add_again, add_among, add_counts,
                    add_high, add_list_order, add_list_pieces, add_moves,
                    add_no_sockets_lent, add_our_channel, add_selected,
                    listed)
from screens import add_screens, add_shown
from script import Script
from sockets import (add_apart, add_changes, add_channels, add_controllers,
                     add_cuts, add_mixed, add_numbers, add_panel, add_pieces,
                     add_raised, add_real_time, add_recalled, add_running,
                     add_shared, feed_moves)
from switched import (NO_KINDS, NO_PLAYERS, add_no_kinds, add_other_buffers,
                      add_switched)


def add_opening(script):
    """Every number that the kind can give; both sockets fresh at the end."""
    for socket in PLAYERS:
        # what stands in the receive buffer is judged: no F0 in front, 11
        script.receiver(socket, stored=1, inside=1)
        script.send_hex(socket, '7E 7F 06 01 F7')
    kind, hand = script.kind, partial(script.feed, 0)
    good = dump(kind, EDIT, wave(1, kind.halves))
    last = len(good) - 1
    for message in (
            good, request(kind, EDIT),                          # 1, 2
            changed(good, 3, 0), changed(good, 6, 3),           # 11, 12
            resized(good, last), request(kind, PROGRAM, 0x24),  # 13, 14
            changed(good, 7, 1), changed(good, last - 1, 0x10),  # 15, 16
            identity(5)):                                       # 22
        script.whole(message)
        hand(message)
    # 4; 3, 17, 18 and 19 or 17; 20; 21 or 1; 21
    script.send_hex(1, 'F0 B0 0D 01 00 00 0C 20 13 06 37 00 B1 0D 01'
                       'C0 05 25 F7')
    script.receiver(1, **full(kind))
    script.send_hex(1, '00 F7')                                 # 10
    script.lend(REPLY, kind.least[REPLY] - 1)
    script.send_hex(0, 'F8')                                    # 30
    script.lend_back(REPLY)
    script.send_hex(2, 'F8')                                    # 31
    script.settings(16, 0)
    script.send_hex(0, 'F8')                                    # 32
    script.settings(0, 0)
    script.moves_hex(EVERY_NUMBER)                              # 0
    script.moves(wave(1, 2 * (MOST + 1)))                       # 33
    script.lend(REPLY, MOST - 1)
    script.moves(wave(1, 2 * MOST))                             # 34
    script.lend_back(REPLY)
    controller, rule = next(iter(kind.table.items()))
    fill(script, rule.field, 0xFF)
    script.back(controller, 13)                                 # 40
    script.scale(127)
    script.amp(*AMP_BORDERS, 255, 256, 1 << 24)                 # known or not
    script.screen(0x23, 0, 1)                                   # a part
    script.name(2)
    script.back(13)                                             # 31
    script.name_back()


def add_lent(script, shown):
    """What is lent, scaled and shown back: less than in the script lent."""
    kind = script.kind
    for buffer, least in enumerate(kind.least):
        add_lengths(script, buffer, (least - 1, ROOMS[buffer]))
    add_long_buffers(script, request(kind, EDIT))
    add_scaling(script, (*kind.table, *NO_CONTROLLERS),
                (0, 64, 127, 128, 1 << 24))
    for controller in shown:
        add_back(script, controller)
    script.turn_to(TWO)
    add_back_order(script)
    add_backs(script, shown)
    script.turn_to(ONE)


def add_bytes(script):
    """Bytes on sockets: less than in the script sockets."""
    add_running(script, 0)
    add_real_time(script, 1)
    add_cuts(script, 0, (0x80, 0xBF, 0xC5, 0xEF, *range(0xF0, 0xF8)))
    add_channels(script, 1, ((5, 0), (3, 1)))
    add_shared(script, 0, (127,))
    add_raised(script, 1)
    add_controllers(script, 1, (16,))
    add_numbers(script, 0)
    add_mixed(script)
    add_apart(script)
    add_pieces(script)
    add_panel(script)


def add_lists(script, receivers):
    """Lists of moves: less than in the scripts sockets and lent."""
    add_counts(script)
    add_list_order(script)
    add_no_sockets_lent(script, receivers)
    add_moves(script, (15, 16, 127), EVERY_CONTROLLER)
    add_high(script)
    add_selected(script, range(16), 127)
    add_our_channel(script)
    add_among(script)
    add_list_pieces(script, 1000)


def add_marks(script):
    """Dumps of each length, and marks, some clear at the end."""
    kind = script.kind
    add_wrong_marks(script, (0, *map(edit_place, PLAYERS), MARK_COUNT), (2,))
    add_in_turn(kind, script.whole, (request(kind, PROGRAM, 0x11),
                                     request(kind, EDIT)))
    add_marked(script, script.whole)
    add_between(kind, script.whole)
    for player in PLAYERS:
        add_unmoved(script, player)


def add_pod(script):
    """A POD's part: document 01, and Reqs 01 and 06."""
    kind = script.kind
    add_odd(script)
    add_receivers(script, 0, unsound(kind), 'F8')
    add_receivers(script, 1, unsound(kind), '0D')
    for socket in (0, 1):
        add_receivers(script, socket, sound(kind), '05 F7')
        add_stale(script, socket)
    add_lent(script, (25, 13, 4, 12, 23, 30, 62, 49, 52, 56, *kind.at_least))
    add_scaling(script, kind.at_least, range(1, 8))
    add_turned_away(script)
    add_other_buffers(script)
    add_lists(script, unsound(kind)[:2])
    add_again(script)
    add_bytes(script)
    add_unknown(kind, script.whole)
    add_orders(kind, partial(script.feed, 1))
    add_identities(script, partial(script.feed, 0), ((9, 0), (15, 1)))
    add_marks(script)
    add_one_clear(script, script.whole, range(PROGRAMS - 1, MARK_COUNT))
    add_spares(script, partial(script.feed, 1))
    add_duo(script)
    add_no_players(script, NO_PLAYERS[::2])
    add_screens(script, range(PROGRAMS))


def add_bass(script):
    """A Bass POD's part: what hangs on the kind, as Req 04 has it."""
    kind = script.kind
    add_receivers(script, 0, unsound(kind)[:6], '0D')
    add_receivers(script, 1, sound(kind)[:9], '05 F7')
    add_lent(script, kind.table)
    add_no_kinds(script, NO_KINDS[::4])
    add_other_buffers(script)
    add_lists(script, unsound(kind)[:1])
    add_scale_order(script)
    add_changes(script, 0)
    add_recalled(script)
    add_controllers(script, 1, (15, 16, 63, 64), EVERY_CONTROLLER)
    add_marks(script)
    add_pieces(script)
    add_others(kind, script.whole)
    for channel in (0, 0x7F):
        script.feed(1, identity(channel))
    add_duo(script)
    add_no_players(script, NO_PLAYERS[1::4])
    add_screens(script, (0, 1, 0x22, 0x23))


def add_pro(script):
    """A POD Pro's part: what is not as for a POD, as Req 07 has it."""
    controllers = (9, 12)
    moves = listed(product(controllers, (0, 1, 2, 126, 127, *AMP_BORDERS)))
    script.feed(0, identity(0x7F))
    add_scaling(script, controllers, VALUES)
    for controller in controllers:
        add_back(script, controller)
    script.moves(listed((controller, 0) for controller in script.kind.table))
    script.moves(moves)
    feed_moves(script, 1, moves)
    script.whole(request(script.kind, EDIT))
    add_shown(script, (0, 0x23))


def make_brief():
    """Return the script that is committed."""
    script = Script()
    add_beyond(script)
    for kind, add_part in ((POD, add_pod), (BASS, add_bass), (PRO, add_pro)):
        script.become(kind)
        add_opening(script)
        add_part(script)
    add_switched(script, ((POD, BASS), (BASS, PRO), (PRO, POD)))
    add_random(script, Random(4), 1100, 6)
    # "A rest of fewer than 4 bytes at the end is ignored"
    return bytes(script.commands) + b'WWW'
