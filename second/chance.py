"""Scripts at random: fragments of bytes on both sockets, turns between."""

from box import REPLY
from judging import WRONG_SETTINGS
from kinds import (ALL, AMP_BORDERS, EDIT, EVERY_CONTROLLER, KINDS,
                   MARK_COUNT, PLAYERS, PROGRAM, PROGRAMS, START, around,
                   edit_place, others, strangers)
from lent import (COUNTS, NO_CONTROLLERS, NO_SOCKETS, VALUES, fill,
                  numbers_for, select, sound, unsound)
from messages import (changed, dump, edit_with, identity, in_each_length,
                      noise, request, resized, wave, waves)
from moves import MOST
from player import MARK_ROOM, MEMORY_ROOM, PARTS, ROOMS
from screens import NO_PROGRAMS, OWNS
from sockets import CHANGES
from switched import NO_KINDS, NO_PLAYERS

REAL_TIME = range(0xF8, 0x100)  # "F8 to FF"
BORDERS = (*range(8), *AMP_BORDERS, 63, 64, 126, 127)  # of values


# Fragments: bytes that one socket sends in a row to a box of a kind


def some_value(chance):
    """Return a controller's value, most often one at a border."""
    return chance.choice((*BORDERS, chance.randrange(128)))


def move(kind, chance):
    """Return a controller message, most often one in the table."""
    return bytes((0xB0, chance.choice((*kind.table, 0, 6, 127,
                                       *EVERY_CONTROLLER[::5])),
                  some_value(chance)))


def running(kind, chance):
    """Return a controller message without its status byte."""
    return move(kind, chance)[1:]


def selecting(_, chance):
    """Return an effect selected, then a controller that may be shared."""
    return bytes((0xB0, 19, chance.randrange(17), chance.randrange(49, 60),
                  some_value(chance)))


def changing(_, chance):
    """Return program changes, one or a few under running status."""
    count = chance.choice((1, 1, 3))
    return bytes((chance.choice((0xC0, 0xC0, 0xC5)),
                  *chance.choices((*CHANGES, *range(1, 37)), k=count)))


def asking(kind, chance):
    """Return a request; all programs are asked for less often."""
    program = request(kind, PROGRAM, chance.randrange(0x26))
    edit = request(kind, EDIT)
    return chance.choice((
        edit, edit, program, program, program, request(kind, ALL),
        *(identity(channel) for channel in (0, 5, 0x7F))))


def storing(kind, chance):
    """Return a dump of a program or of the edit buffer."""
    data = noise(chance.getrandbits(32), kind.halves)
    version = chance.choice((0, 0, 0, 0, 0, 0, 0, 1))
    given = chance.choice((
        dump(kind, EDIT, data, version=version),
        dump(kind, PROGRAM, data, chance.randrange(0x25), version=version),
        edit_with(kind, {46: chance.randrange(17)})))
    return chance.choice(in_each_length(kind, given))


def storing_all(kind, chance):
    """Return a dump of all programs."""
    given = dump(kind, ALL, waves(kind, chance.getrandbits(32)))
    return chance.choice(in_each_length(kind, given))


def foreign(kind, chance):
    """Return a request or a dump of another unit."""
    return chance.choice((asking, storing))(chance.choice(strangers(kind)),
                                            chance)


def begun(kind, chance):
    """Return the beginning of a message."""
    message = chance.choice((asking, storing))(kind, chance)
    return message[:chance.randrange(1, len(message))]


def damage(chance, message):
    """Return a message with a byte changed, cut out or put in."""
    # the fields in front are hit more often than their share
    place = chance.randrange(chance.choice((6, min(len(message), 9),
                                            len(message))))
    byte = chance.randrange(chance.choice((2, 16, 128, 256)))
    return chance.choice((
        changed(message, place, byte), message[:place] + message[place + 1:],
        message[:place] + bytes((byte,)) + message[place:],
        resized(message, len(message) + chance.choice((-1, 1)))))


def damaged(kind, chance):
    """Return a damaged request or dump."""
    return damage(chance, chance.choice((asking, storing))(kind, chance))


def damaged_all(kind, chance):
    """Return a dump of all programs that is damaged, or cut at its end."""
    message = storing_all(kind, chance)
    return chance.choice((damage(chance, message), message[:-1],
                          resized(message, len(message) + 1)))


def any_channel(_, chance):
    """Return a channel message of any status on any channel."""
    return bytes((chance.randrange(0x80, START), chance.randrange(128),
                  chance.randrange(128)))


def stray(_, chance):
    """Return a byte above 0x7F, most often F0 or above."""
    return bytes((chance.randrange(chance.choice((0x80, 0xF0, 0xF0)),
                                   0x100),))


# How often each fragment comes.
FRAGMENTS = {
    move: 60, running: 60, selecting: 40, changing: 20, asking: 40,
    storing: 12, foreign: 4, begun: 20, damaged: 20, any_channel: 20,
    stray: 20, storing_all: 1, damaged_all: 1,
}


def fragment(kind, chance):
    """Return a fragment."""
    make, = chance.choices(tuple(FRAGMENTS), FRAGMENTS.values())
    return make(kind, chance)


# Lists of moves, as scenes.py has them


def high(_, chance):
    """Return a move with its controller or its value above 127, or both."""
    above, any_byte = chance.randrange(128, 256), chance.randrange(256)
    return bytes(chance.choice(((13, 128), (128, 0), (any_byte, above),
                                (above, any_byte))))


def some_moves(kind, chance):
    """Return a move, or an effect selected and a move that may want it."""
    return chance.choice((
        running(kind, chance), running(kind, chance),
        selecting(kind, chance)[1:], selecting(kind, chance)[1:],
        high(kind, chance)))


def short_list(kind, chance):
    """Return a list of a few moves, or of none."""
    return b''.join(some_moves(kind, chance)
                    for _ in range(chance.randrange(8)))


def long_list(kind, chance, count):
    """Return a list of so many moves, all but a few those of a wave."""
    # why: a P writes a wave, and half bytes are controllers too
    moves = wave(chance.randrange(16), 2 * count)
    for _ in range(chance.randrange(8)):
        some = some_moves(kind, chance)
        place = 2 * chance.randrange(count - 1)
        moves = moves[:place] + some + moves[place + len(some):]
    return moves


def full_list(kind, chance):
    """Return a list as long as can be, or one shorter."""
    return long_list(kind, chance, chance.choice((MOST - 1, MOST)))


def over_list(kind, chance):
    """Return a list of one move too many."""
    return long_list(kind, chance, MOST + 1)


def some_list(kind, chance):
    """Return a list that can be carried out, most often a short one."""
    make = chance.choice((*(short_list,) * 9, full_list))
    return make(kind, chance)


# Turns: what else happens between two bytes


def add_calls(script, chance):
    """A few calls of any sort."""
    kind = script.kind
    for _ in range(chance.randrange(1, 5)):
        call = chance.choice((
            lambda: script.send(chance.randrange(2), stray(kind, chance)),
            lambda: script.send(chance.randrange(2),
                                asking(kind, chance)[:3]),
            lambda: script.send(chance.choice(NO_SOCKETS),
                                stray(kind, chance)),
            lambda: script.add('W'),
            lambda: script.add('V'),
            lambda: script.moves(short_list(kind, chance)),
            lambda: script.scale(chance.choice(VALUES)),
            lambda: script.back(chance.choice(EVERY_CONTROLLER)),
            lambda: script.amp(chance.choice(VALUES)),
            lambda: ask_screen(script, chance)))
        call()


def ask_screen(script, chance):
    """Ask for a screen's part: a program, or the own buffer."""
    script.screen(chance.choice((*range(PROGRAMS), *NO_PROGRAMS)),
                  chance.choice((0, chance.choice(OWNS))))


def turn_settings(script, chance):
    """Set channel, omni and a revision byte within their ranges."""
    script.settings(*chance.choice(((0, 0), (0, 0), (0, 1), (5, 0))))
    script.revision(chance.randrange(256), chance.randrange(128))


def turn_wrong(script, chance):
    """A few calls with settings of which one at least is out of its range."""
    script.settings(chance.choice((0, 15, 16, 0xFF)),
                    chance.choice((0, 1, 2, 0xFF)))
    script.add(*chance.choice(WRONG_SETTINGS))
    add_calls(script, chance)
    script.settings_back()


def turn_short(script, chance):
    """A few calls with a buffer too short."""
    buffer = chance.randrange(len(ROOMS))
    least = script.kind.least[buffer]
    script.lend(buffer, chance.choice((0, 1, chance.randrange(least),
                                       least - 1)))
    add_calls(script, chance)
    script.lend_back(buffer)


def turn_long(script, chance):
    """Lend more of a buffer, or as much as must be."""
    buffer = chance.randrange(len(ROOMS))
    script.lend(buffer, chance.randrange(script.kind.least[buffer],
                                         ROOMS[buffer] + 9))


def turn_kind(script, chance):
    """Make the box one of the kinds."""
    script.become(chance.choice(KINDS))


def turn_no_kind(script, chance):
    """A few calls that bring a number that is no kind's."""
    script.bring(chance.choice(NO_KINDS))
    add_calls(script, chance)
    script.bring_back()


def turn_player(script, chance):
    """Name one of the players from now on."""
    script.turn_to(chance.choice(PLAYERS))


def turn_no_player(script, chance):
    """A few calls that name a number that is no player's."""
    script.name(chance.choice(NO_PLAYERS))
    script.add('W')
    script.add('V')
    script.back(chance.choice(EVERY_CONTROLLER))
    ask_screen(script, chance)
    add_calls(script, chance)
    script.name_back()


def turn_screen(script, chance):
    """Screens of what they want lent, and of slices at random."""
    kind = script.kind
    ask_screen(script, chance)
    script.lend_screen(
        chance.choice((kind.programs_length, kind.programs_length - 1,
                       chance.randrange(MEMORY_ROOM))),
        chance.choice((MEMORY_ROOM - kind.size, MEMORY_ROOM - kind.size + 1,
                       chance.randrange(MEMORY_ROOM))))
    ask_screen(script, chance)
    script.lend_screen_back()


def turn_other(script, chance):
    """A few calls that bring another kind with what is lent now."""
    script.bring(chance.choice(others(script.kind)).number)
    add_calls(script, chance)
    script.bring_back()


def turn_unsound(script, chance):
    """A few calls with a receiver that is not sound, then a sound one."""
    socket = chance.randrange(2)
    script.receiver(socket, **chance.choice(unsound(script.kind)))
    add_calls(script, chance)
    script.receiver(socket, **chance.choice(sound(script.kind)))


def turn_receiver(script, chance):
    """Set a receiver, to a sound one or to any bits for a few calls."""
    socket = chance.randrange(2)
    some = (0, 0, 1, 1, 2, 0x7F, 0x80, 0xB0, 0xEF, 0xFF)
    script.receiver(socket, chance.choice((0, 1, 9, 153, *COUNTS)),
                    **{name: chance.choice(some) for name in PARTS.values()})
    add_calls(script, chance)
    script.receiver(socket, **chance.choice(sound(script.kind)))


def turn_stale(script, chance):
    """Open a SysEx over what stands in a receive buffer."""
    lengths = script.kind.every_length
    script.receiver(chance.randrange(2), inside=1, stored=chance.choice(
        (1, 5, *(length - less for length in lengths for less in (1, 2)))))


def turn_socket(script, chance):
    """Send bytes on no socket, or on what may be one."""
    wide = chance.randrange(3) + (chance.randrange(256) << 24)
    script.send(chance.choice((*NO_SOCKETS, wide)),
                asking(script.kind, chance)[:4])


def turn_message(script, chance):
    """Make the message a good one or a damaged one."""
    kind, seed = script.kind, chance.randrange(16)
    script.put(chance.choice((
        asking(kind, chance), damaged(kind, chance), foreign(kind, chance),
        *in_each_length(kind, edit_with(kind, {46: seed}, seed)),
        *in_each_length(kind, dump(kind, PROGRAM, wave(seed, kind.halves),
                                   chance.randrange(0x26))))))


def turn_long_message(script, chance):
    """Make the message a long one, good or damaged, and hand it over."""
    make = chance.choice((storing_all, damaged_all))
    script.put(make(chance.choice((script.kind, script.kind, *KINDS)),
                    chance))
    script.add('W')
    script.add('M', chance.randrange(2))


def turn_length(script, chance):
    """Change the length of the message."""
    lengths = around((length for kind in KINDS
                      for length in kind.every_length), (0, 1))
    script.edit('L', chance.choice((0, 1, 2, *lengths)))


def turn_byte(script, chance):
    """Change a byte of the message, most often to a half byte."""
    script.edit('B', chance.randrange(script.message.length + 1),
                chance.randrange(chance.choice((16, 16, 256))))


def turn_whole(script, _):
    """Hand the message over whole."""
    script.add('W')


def turn_feed(script, chance):
    """Send the message on a socket."""
    script.add('M', chance.randrange(2))


def turn_moves(script, chance):
    """Hand over a list of moves."""
    script.moves(some_list(script.kind, chance))


def turn_too_many(script, chance):
    """Hand over a list of one move too many."""
    script.moves(over_list(script.kind, chance))


def turn_noted(script, chance):
    """A list, with a number buffer about as long as it or an empty one."""
    moves = some_list(script.kind, chance)
    count = len(moves) // 2
    script.lend(REPLY, chance.choice((
        0, count, max(count - 1, 0), count + 1)))
    script.moves(moves)
    script.lend_back(REPLY)


def turn_as_moves(script, _):
    """Take the message, whatever it is, as a list of moves."""
    script.add('V')


def wide(chance):
    """Return a number n + 2^24 x v that would be a value if it were cut."""
    return (some_value(chance) + 256 * chance.randrange(2)
            + (chance.randrange(256) << 24))


def turn_amp(script, chance):
    """Ask whether amp models are known: two near the borders, a wide one."""
    script.amp(chance.choice(AMP_BORDERS), chance.randrange(40), wide(chance))


def turn_scale(script, chance):
    """Ask for scaled values, in the table and out of it."""
    script.controller(chance.choice((*EVERY_CONTROLLER, *NO_CONTROLLERS,
                                     chance.getrandbits(32))))
    script.scale(chance.choice(VALUES), chance.randrange(130), wide(chance))


def turn_back(script, chance):
    """Ask what controllers show."""
    script.back(*chance.choices((*EVERY_CONTROLLER, *NO_CONTROLLERS), k=4))


def turn_field(script, chance):
    """Write a controller's field under some effect, and show it back."""
    controller, rule = chance.choice(tuple(script.kind.table.items()))
    numbers = tuple(rule.shown) or range(0, 98304, 6)
    select(script, chance.choice((*(rule.chosen_by or (0,)), 6)))
    fill(script, rule.field, chance.choice((
        *numbers_for(rule), chance.choice(numbers) + chance.randrange(2))))
    script.back(controller)


def turn_raised(script, chance):
    """Scale and show back around the numbers to which Req 01 raises."""
    kind = chance.choice([kind for kind in KINDS if kind.at_least])
    controller, least = chance.choice(tuple(kind.at_least.items()))
    rule = kind.table[controller]
    select(script, chance.choice(rule.chosen_by))
    fill(script, rule.field, chance.choice((
        0, least - 1, least, least + 1, 25 * chance.randrange(12))))
    script.back(controller)
    script.scale(*chance.choices(range(8), k=2))


def turn_poke(script, chance):
    """Set a byte of memory, beyond what must be lent too."""
    length = script.kind.memory_length
    script.poke(chance.choice((chance.randrange(length),
                               chance.randrange(length, MEMORY_ROOM))),
                chance.randrange(256))


def turn_marks(script, chance):
    """Set marks, those behind the box's own to anything."""
    for place in chance.choices(range(MARK_COUNT), k=chance.randrange(9)):
        script.mark(place, chance.randrange(2))
    script.mark(chance.randrange(MARK_COUNT, MARK_ROOM),
                chance.randrange(256))


def turn_wrong_mark(script, chance):
    """A few calls with a mark neither 1 nor 0."""
    place = chance.randrange(MARK_COUNT)
    script.mark(place, chance.choice((2, 3, chance.randrange(2, 256), 0xFF)))
    add_calls(script, chance)
    script.mark(place, chance.randrange(2))


def turn_spare(script, chance):
    """Set a spare byte beside its mark, and ask for it."""
    kind, program = script.kind, chance.randrange(PROGRAMS)
    place, asked = chance.choice((
        (program, request(kind, PROGRAM, program)),
        (edit_place(script.player), request(kind, EDIT))))
    script.poke(kind.part(place).stop - 1, chance.randrange(256))
    script.mark(place, chance.randrange(2))
    script.whole(asked)


# How often each turn comes.
TURNS = {
    turn_settings: 4, turn_wrong: 3, turn_short: 4, turn_long: 3,
    turn_kind: 4, turn_no_kind: 2, turn_other: 2,
    turn_player: 10, turn_no_player: 2, turn_screen: 4,
    turn_unsound: 4, turn_receiver: 3, turn_stale: 2, turn_socket: 2,
    turn_message: 5, turn_long_message: 1, turn_length: 1, turn_byte: 3,
    turn_whole: 4, turn_feed: 6, turn_scale: 4, turn_back: 3, turn_field: 6,
    turn_raised: 4, turn_poke: 3, turn_amp: 4,
    turn_marks: 4, turn_wrong_mark: 3, turn_spare: 4,
    turn_moves: 8, turn_too_many: 1, turn_noted: 4, turn_as_moves: 3,
}


def turn(script, chance):
    """Take a turn."""
    do, = chance.choices(tuple(TURNS), TURNS.values())
    do(script, chance)


def add_random(script, chance, commands, calm):
    """Fragments on both sockets; a turn every so many runs of bytes."""
    pending = (bytearray(), bytearray())
    end = len(script.commands) + 4 * commands
    turn_message(script, chance)
    while len(script.commands) < end:
        socket = chance.randrange(2)
        for _ in range(chance.choice((1, 1, 2, 40))):
            if not pending[socket]:
                pending[socket].extend(fragment(script.kind, chance))
            script.send(socket, (pending[socket].pop(0),))
            # "in the middle of a message too"
            if chance.randrange(20) == 0:
                script.send(socket, (chance.choice(REAL_TIME),))
        if chance.randrange(calm) == 0:
            turn(script, chance)
