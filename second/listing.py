"""Write a stream for the listing program, or print its lines for a stream.

python3 second/listing.py stream [KIND]  writes the stream
python3 second/listing.py lines [KIND]   reads a stream and prints its lines

KIND is pod, bass or pro, and pod where it is not said. The stream gives every
number that a socket of that box can give, with dumps of each length, good and
damaged, with program changes, and with real-time bytes anywhere.
"""

import sys
from itertools import chain, cycle

from box import END_BYTE, Box
from controllers import split
from kinds import ALL, AMP_BORDERS, EDIT, PROGRAM, kind_told, strangers
from messages import (changed, data_start, dump, identity, in_each_length,
                      request)
from player import rows_of
from scenes import listed
from sockets import CHANGES

REAL_TIME = bytes(range(0xF8, 0x100))  # "F8 to FF"
NUMBERS = {1, 2, 3, 4, *range(10, 23)}


def pattern(length, seed):
    """Return bytes that differ from place to place."""
    return bytes((seed + 37 * place) % 256 for place in range(length))


def halves(length, seed):
    """Return the half bytes of such bytes."""
    return split(pattern(length, seed))


def dumps(kind):
    """Yield dumps of each type, good and damaged, and requests for them."""
    one = dump(kind, PROGRAM, halves(kind.size, 3), 0x23)
    edit = dump(kind, EDIT, halves(kind.size, 5))
    every = dump(kind, ALL, halves(kind.programs_length, 7))
    asked = (request(kind, PROGRAM, 0x23), request(kind, EDIT),
             request(kind, ALL))
    for good in chain.from_iterable(
            in_each_length(kind, given) for given in (one, edit, every)):
        # "a bad half byte in program 36 then leaves 35 new ones"
        yield from (changed(good, -2, 0x10), *asked, good, *asked)
        data = data_start(good)
        yield changed(good, data - 1, 1)       # 15
        yield changed(good, data, 0x7F)        # 16
        yield changed(good, 6, 3)              # 12
        for other in strangers(kind):
            yield changed(good, 4, other.device)  # 11
        yield good[:-2] + END_BYTE             # 13
    yield changed(one, 7, 0x24)                # 14
    yield request(kind, PROGRAM, 0x24)


def moves(kind):
    """Yield every controller under each effect, then amp models."""
    for effect in range(17):
        yield bytes((0xB0, 19, effect))
        for controller in range(128):
            # running status: one status byte for the three moves
            yield bytes((0xB0, controller, 0, controller, 64,
                         controller, 127))
    yield b'\xB0' + listed((12, model) for model in AMP_BORDERS)
    yield request(kind, EDIT)


def the_rest(kind):
    """Yield other channels and statuses, identity, cuts, too long."""
    yield bytes((0xB1, 13, 1, 0xC0, 5, 0x90, 60, 1, 0xE0, 0, 64))
    for status in (0xC0, 0xC1):
        yield bytes((status, *CHANGES))
        yield request(kind, EDIT)
    for channel in (0, 1, 15, 0x7F):
        yield identity(channel)
    for status in (0x80, 0xB0, 0xC0, 0xF0, 0xF1, 0xF6):
        yield bytes((0xF0, 1, 2, status))
    # running status is lost at F6, and the data bytes are skipped
    yield bytes((0xF7, 0xB0, 0xF6, 13, 1))
    most = kind.most_stored
    for count in (most - 1, most):
        yield b'\xF0' + bytes(count) + END_BYTE
    yield b'\xF0' + bytes(most) + bytes((0xB0, 13, 1))


def with_real_time(message, ticks):
    """Return a message with a real-time byte behind every seventh byte."""
    parts = (message[at:at + 7] + bytes((next(ticks),))
             for at in range(0, len(message), 7))
    return b''.join(parts)


def stream(kind):
    """Return the whole stream: each part plain, and with real-time bytes."""
    messages = [*dumps(kind), *moves(kind), *the_rest(kind)]
    ticks = cycle(REAL_TIME)
    return b''.join(messages) + b''.join(
        with_real_time(message, ticks) for message in messages)


def lines(kind, data):
    """Yield the fields of each line."""
    box = Box(kind)
    yield 'at', 'number', 'reply'
    for at, byte in enumerate(data):
        number, length = box.take(0, byte)
        if number:
            yield at, number, length


def main():
    """Do what the first argument says, for the kind that the rest tells."""
    what, *words = sys.argv[1:]
    kind = kind_told(words)
    if what == 'stream':
        data = stream(kind)
        shown = {fields[1] for fields in lines(kind, data)} - {'number'}
        amiss = shown ^ (NUMBERS & rows_of(kind))
        assert not amiss, f'missing, or not to be there: {amiss}'
        sys.stdout.buffer.write(data)
    else:
        for fields in lines(kind, sys.stdin.buffer.read()):
            print(*fields, sep='\t')


if __name__ == '__main__':
    main()
