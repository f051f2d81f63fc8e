"""Messages for the program why: accepted ones, and bounced ones."""

from functools import reduce
from itertools import chain, combinations
from random import Random

from box import END_BYTE
from kinds import (ALL, DUMP, EDIT, KINDS, PROGRAM, PROGRAMS, REQUEST, around,
                   strangers)
from messages import (PAD, all_forms, changed, data_start, dump, identity,
                      in_each_length, inserted, noise, request, resized)

SEED = 2
CHANCES = 250  # random messages, some of them alike
ASK_WHO = identity(0x7F)


class Right:
    """The right messages for a box of a kind, a part of memory each."""

    def __init__(self, kind):
        self.kind = kind
        self.one = dump(kind, PROGRAM, noise(1, kind.halves), 0x11)
        self.edited = dump(kind, EDIT, noise(2, kind.halves))
        self.every = dump(kind, ALL, noise(3, kind.all_halves))
        self.ask_one = request(kind, PROGRAM, 0x11)
        self.ask_edit = request(kind, EDIT)
        self.requests = (self.ask_one, self.ask_edit, request(kind, ALL))
        self.dumps = tuple(chain.from_iterable(
            in_each_length(kind, given)
            for given in (self.one, self.edited, self.every)))
        self.all = (ASK_WHO, *self.requests, *self.dumps)
        self.some = (ASK_WHO, self.ask_one, self.one, self.every)


def accepted(right):
    """Yield a message for every line of an accepted one."""
    kind = right.kind
    yield from map(identity, (0, 0x7F))
    for program in range(PROGRAMS):
        yield request(kind, PROGRAM, program)
        yield from in_each_length(kind, dump(
            kind, PROGRAM, noise(program, kind.halves), program))
    yield from right.all


# Ways to bounce, check by check


def padded(message, length):
    """Return a message filled up before its F7."""
    return message[:-1] + PAD * (length - len(message)) + END_BYTE


def too_long(right):
    """Yield messages around the longest of each kind, and far above."""
    borders = around(kind.longest for kind in KINDS)
    for length in borders:
        yield bytes(length)
    for length in (*borders, 65535, 65536, 65537, 200000):
        yield padded(right.ask_one, length)
    for message in right.some:
        # as many bytes more as a count of 16 bits does not see
        yield message + bytes(65536)
    # what one would rather call another number
    yield right.every + b'\n'
    yield right.every + right.every
    yield right.one * PROGRAMS
    yield padded(identity(1), right.kind.longest + 1)
    yield inserted(right.every, 100, b'\xF8')


def no_frames(right):
    """Yield messages without the frame of a SysEx."""
    yield from (b'', b'\xF0', b'\xF7', b'\xF0\xF7', b'\xF0\xF0', b'\xF7\xF7',
                b'\x00', b'\n', b'F0 00 01 0C 01 00 01 F7\n')
    for message in right.some:
        yield message[1:]
        yield message[:-1]
        yield b'\x00' + message
        yield changed(message, 0, 0)
        yield changed(message, len(message) - 1, 0x77)
    for message in (ASK_WHO, right.ask_one, right.one):
        yield message + b'\n'
        yield message + b'\r\n'
    yield right.ask_one + right.ask_one
    yield right.edited + right.one
    # a byte above 0x7F between; F8 too, though a socket would skip it
    for byte in (0x80, 0xF0, 0xF7, 0xF8):
        yield changed(right.one, len(right.one) - 2, byte)
    for place in (5, 6, 7, 80):
        yield changed(right.edited, place, 0x80)
    for place in (1, 5, 80):
        yield inserted(right.one, place, b'\xF8')


def foreign(right):
    """Yield messages of another unit, and near identity requests."""
    header = right.kind.header
    for place, byte in enumerate(header):
        yield changed(right.one, place, byte ^ 1)
    for length in range(2, len(header)):
        yield header[:length] + END_BYTE
    for other in strangers(right.kind):
        yield from all_forms(other, 4)
        yield changed(right.one, 4, other.device)
        yield changed(right.ask_edit, 4, other.device)
        # our header, and the other unit's length
        for message in all_forms(other, 4):
            yield changed(message, 4, right.kind.device)
    # "Any other 7E message is 11."
    for asked in (0, 1):
        yield resized(identity(asked), 5)
        yield resized(identity(asked), 7)
    for place, byte in ((1, 0x7F), (3, 5), (3, 7), (4, 0), (4, 2)):
        yield changed(ASK_WHO, place, byte)
    yield ASK_WHO[:2] + ASK_WHO[3:]
    yield changed(right.one, 1, 0x7E)
    yield padded(ASK_WHO, right.kind.longest)


def identities(_):
    """Yield identity requests for another channel."""
    yield from map(identity, (1, 0x0F, 0x10, 0x7E))
    # "cc at most 0x7F", else 11
    yield identity(0x80)


def no_forms(right):
    """Yield messages whose opcode or type is missing or unknown."""
    for more in (b'', b'\x00', b'\x01'):
        front = right.kind.header + more
        yield front
        yield front + END_BYTE
    for message in (right.ask_edit, right.one):
        for place, byte in ((5, 2), (5, 0x7F), (6, 3), (6, 0x7F)):
            yield changed(message, place, byte)


def wrong_lengths(right):
    """Yield messages of every form that are too short or too long."""
    # the shortest: header, opcode and type; two of them are right
    for form in right.kind.lengths:
        yield right.kind.header + bytes(form) + END_BYTE
    for message in (*right.requests, *right.dumps):
        yield padded(message, len(message) + 1)
    # as many bytes more as a count of 8 bits does not see
    for message in (right.ask_one, right.one):
        yield padded(message, len(message) + 256)
    for message in right.dumps:
        # one byte short, without its F7 and with it
        yield message[:-2]
        yield resized(message, len(message) - 1)
        yield resized(message, 9)
    # at the lengths of other forms
    for message in (right.one, right.edited, right.every):
        for length in right.kind.every_length:
            if length < len(message):
                yield resized(message, length)
    yield padded(right.one, right.kind.longest)


def wrong_fields(right):
    """Yield messages with one field that is out of its range."""
    for message in (right.ask_one, right.one):
        for program in (0x24, 0x7F):
            yield changed(message, 7, program)
    for message in right.dumps:
        first, last = data_start(message), len(message) - 2
        for byte in (1, 0x7F):
            yield changed(message, first - 1, byte)
        for place in (first, last):
            yield changed(message, place, 0x10)
        yield changed(message, (first + last) // 2, 0x7F)


# Several faults at once


def wrong_length(message):
    """Return a dump one byte short, or a request one too long."""
    step = 1 if message[5] == REQUEST else -1
    return resized(message, len(message) + step)


def faults_of(kind, message):
    """Return the ways to spoil a message, in the order of the checks."""
    not_ours = strangers(kind)[0].device
    faults = [lambda whole: padded(whole, kind.longest + 1),  # 10
              lambda whole: changed(whole, 4, not_ours),      # 11
              lambda whole: changed(whole, 5, 2),             # 12
              wrong_length]                                   # 13
    if message[6] == PROGRAM:
        faults.append(lambda whole: changed(whole, 7, 0x24))       # 14
    if message[5] == DUMP:
        first = data_start(message)
        faults.append(lambda whole: changed(whole, first - 1, 1))  # 15
        faults.append(lambda whole: changed(whole, first, 0x10))   # 16
    return faults


def spoilt(right):
    """Yield messages with two faults, and with all from one of them on."""
    for message in (right.ask_one, right.one, right.edited):
        for two in combinations(faults_of(right.kind, message), 2):
            yield reduce(spoil, two, message)
    for message in (right.one, right.every):
        faults = faults_of(right.kind, message)
        for at in range(len(faults) - 1):
            yield reduce(spoil, faults[at:], message)


def spoil(message, fault):
    """Return a message with one more fault."""
    return fault(message)


# At random


def damage(chance, message):
    """Return a message with a byte changed, put in or cut out, or resized."""
    # the fields in front are hit more often than their share
    place = chance.choice((chance.randrange(9), chance.randrange(5, 9),
                           chance.randrange(len(message) + 1)))
    byte = chance.choice((1, 2, 0x24, chance.randrange(0x10, 0x80),
                          chance.randrange(256)))
    more = chance.randrange(1, chance.choice((3, 300)))
    return chance.choice((
        *(changed(message, place, byte) for _ in range(5)),
        inserted(message, place, bytes((byte,))),
        message[:place] + message[place + 1:],
        resized(message, max(len(message) - more, 0)),
        padded(message, len(message) + more),
        message[:-more]))


def at_random(right):
    """Yield right messages of every form with one to three changes."""
    chance = Random(SEED)
    for count in range(CHANCES):
        message = right.all[count % len(right.all)]
        for _ in range(chance.choice((1, 1, 2, 3))):
            message = damage(chance, message)
        yield message


def all_messages(kind):
    """Return all messages for a box of a kind, each of them once."""
    right = Right(kind)
    parts = (accepted, too_long, no_frames, foreign, identities, no_forms,
             wrong_lengths, wrong_fields, spoilt, at_random)
    return tuple(dict.fromkeys(message for part in parts
                               for message in part(right)))
