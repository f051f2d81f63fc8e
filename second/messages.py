"""Messages to put in scripts."""

from itertools import chain
from random import Random

from box import END_BYTE
from kinds import ALL, DUMP, EDIT, END, PROGRAM, REQUEST, START
from player import wave

SEGMENT = 48  # half bytes of an all programs dump that are one wave
PAD = b'\x05'


def waves(kind, seed):
    """Return half bytes of all programs, three waves or more in each."""
    chance = Random(seed)
    return b''.join(wave(chance.randrange(16), SEGMENT)
                    for _ in range(kind.all_halves // SEGMENT))


def noise(seed, length):
    """Return half bytes without a pattern."""
    chance = Random(seed)
    return bytes(chance.randrange(16) for _ in range(length))


def identity(channel):
    """Return the identity request for a channel."""
    return bytes((START, 0x7E, channel, 6, 1, END))


def request(kind, typed, *named):
    """Return a request; only a program request names a program."""
    return kind.header + bytes((REQUEST, typed, *named, END))


def dump(kind, typed, data, *named, version=0):
    """Return a dump; only a program dump names a program."""
    return (kind.header + bytes((DUMP, typed, *named, version)) + data
            + END_BYTE)


def data_start(given):
    """Return the place of a dump's first data byte."""
    return 9 if given[6] == PROGRAM else 8  # after "pp vv", or "vv"


def sized(kind, given, size):
    """Return a dump with so many first bytes of each of its programs."""
    # Req 06: "Two customers' units send 142 half bytes a program"
    start = data_start(given)
    starts = range(start, len(given) - 1, kind.halves)
    return (given[:start] + b''.join(given[at:at + 2 * size] for at in starts)
            + END_BYTE)


def in_each_length(kind, given):
    """Return a dump in each length that it may have, the longest first."""
    return tuple(sized(kind, given, size) for size in kind.sizes)


def long_dumps(kind, seed, version=0):
    """Return the longest dump of each type, each with its request."""
    one, edit = wave(seed, kind.halves), wave(seed + 1, kind.halves)
    return (
        (dump(kind, PROGRAM, one, 0x11, version=version),
         request(kind, PROGRAM, 0x11)),
        (dump(kind, EDIT, edit, version=version), request(kind, EDIT)),
        (dump(kind, ALL, waves(kind, seed), version=version),
         request(kind, ALL)),
    )


def dumps(kind, seed, version=0):
    """Return a dump of each type in each length, each with its request."""
    return tuple((given, asked)
                 for longest, asked in long_dumps(kind, seed, version)
                 for given in in_each_length(kind, longest))


def forms(kind, seed):
    """Return the right messages of the six forms, the longest of each."""
    return tuple(chain.from_iterable(
        (asked, given) for given, asked in long_dumps(kind, seed)))


def all_forms(kind, seed):
    """Return the right messages of the six forms, of each length."""
    return tuple(dict.fromkeys((
        *forms(kind, seed), *(given for given, _ in dumps(kind, seed)))))


def edit_with(kind, places, seed=0):
    """Return an edit buffer dump with some bytes of the buffer given."""
    data = bytearray(wave(seed, kind.halves))
    for place, byte in places.items():
        data[2 * place:2 * place + 2] = (byte >> 4, byte & 0x0F)
    return dump(kind, EDIT, bytes(data))


def changed(message, place, byte):
    """Return a message with another byte at a place."""
    return message[:place] + bytes((byte,)) + message[place + 1:]


def inserted(message, place, data):
    """Return a message with bytes put in before a place."""
    return message[:place] + data + message[place:]


def resized(message, length):
    """Return a message cut, or padded by one, with F7 as its last byte."""
    if length == 0:
        return b''
    return (message[:-1] + PAD)[:length - 1] + END_BYTE
