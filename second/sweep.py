"""Print what the test program sweep should print, by the documents.

For each kind in turn a line for each controller from 0 to 128 (one above the
last): how many values were scaled, applied and shown, each with a digest of
every answer. The last line is of the half bytes.

- scaled: values 0 to 255.
- applied: byte 46 at 0 to 255, values 0 to 128, a buffer of its own for each;
  the digest takes the answer and the weight of the whole buffer after it.
  The buffer has room for any kind's edit buffer.
- shown: byte 46 at 0 to 255; then every number that the controller's field
  can hold, with byte 46 at the first setting that selects its effect.
"""

from itertools import chain, product, repeat
from operator import mul

import controllers
from kinds import KINDS

HEADER = ('kind', 'controller', 'scaled', 'digest', 'applied', 'digest',
          'shown', 'digest')
REFUSED = 65536  # added to a refusal number; every value is below it
FACTOR = 1000003
MODULUS = 4294967291
ROOM = max(kind.size for kind in KINDS)
WEIGHTS = range(1, ROOM + 1)


def mix(digest, number):
    """Take one step of a digest."""
    return (digest * FACTOR + number) % MODULUS


def tally(numbers):
    """Count the values, and mix in the values and the refusals."""
    count = digest = 0
    for number in numbers:
        if number < REFUSED:
            count += 1
        # why: mix written out, for a call at 33 million steps is slow
        digest = (digest * FACTOR + number) % MODULUS
    return count, digest


def mixed(answer):
    """Return the number that an answer mixes in."""
    outcome, number = answer
    return number if outcome == 'value' else REFUSED + number


def buffer_for(value, setting):
    """Return the buffer of a value, with byte 46 at a setting."""
    buffer = bytearray((37 * place + 5 * value + 11) % 256
                       for place in range(ROOM))
    # bytes 26 to 28 hold numbers with m below the cap, and above it
    buffer[28] = value % 3
    buffer[controllers.SELECTOR] = setting
    return buffer


def weigh(buffer):
    """Return the sum of (i + 1) x buffer[i] over the whole buffer."""
    return sum(map(mul, WEIGHTS, buffer))


def fresh_buffers():
    """List (value, buffer, its weight), byte 46 in the outer loop."""
    return [(value, buffer, weigh(buffer))
            for setting in range(256)
            for value in range(129)
            for buffer in (bytes(buffer_for(value, setting)),)]


def scaling(kind, controller):
    """Yield the numbers of scaling: values 0 to 255."""
    for value in range(256):
        yield mixed(controllers.scale(kind, controller, value))


def applying(kind, controller, fresh):
    """Return count and digest of applying to every fresh buffer."""
    count = digest = 0
    for value, before, weight in fresh:
        buffer = bytearray(before)
        number = controllers.apply(kind, controller, value, buffer)
        if number == controllers.APPLIED:
            count += 1
        # why: most buffers stay as they were, and comparing is far quicker
        # than weighing them again
        if buffer != before:
            weight = weigh(buffer)
        digest = mix(mix(digest, number), weight)
    return count, digest


def back_at(kind, controller, setting):
    """Return what back gives with byte 46 at a setting."""
    return controllers.back(kind, controller, buffer_for(0, setting))


def first_selected(kind, controller):
    """Return the smallest byte 46 that back does not refuse with 19."""
    refusal = ('refused', controllers.NOT_SELECTED)
    return next(setting for setting in range(256)
                if back_at(kind, controller, setting) != refusal)


def back_of(kind, controller, numbers):
    """Yield what back gives for numbers written into the field."""
    field = kind.table[controller].field
    buffer = buffer_for(0, first_selected(kind, controller))
    for number in numbers:
        controllers.store(field, number, buffer)
        yield mixed(controllers.back(kind, controller, buffer))


def back_of_all(kind, controller):
    """Return what back gives for every number the field can hold."""
    rule = kind.table.get(controller)
    if rule is None:
        return ()
    end = 256 ** len(rule.field)
    if rule.formula is not None:
        return back_of(kind, controller, range(end))
    # why: for 30 and 62 "the number must be 6 x m with m up to 16,383", so
    # all above 6 x 16,383 are 40; asking 33 million times is slow
    asked = 6 * controllers.TOP_M + 1
    return chain(back_of(kind, controller, range(asked)),
                 repeat(REFUSED + controllers.NO_VALUE, end - asked))


def showing(kind, controller):
    """Return the numbers of showing back, both parts."""
    by_setting = (mixed(back_at(kind, controller, setting))
                  for setting in range(256))
    return chain(by_setting, back_of_all(kind, controller))


def joining():
    """Yield the numbers of every pair of bytes read as half bytes."""
    for high in range(256):
        for low in range(256):
            outcome, found = controllers.read((high, low))
            yield found[0] if outcome == 'value' else REFUSED + found


def halves():
    """Return count and digest of joining, and of splitting every byte."""
    count, digest = tally(joining())
    for half in controllers.split(bytes(range(256))):
        digest = mix(digest, half)
    return count, digest


def show(*fields):
    """Print one line, its fields parted by one tab."""
    print(*fields, sep='\t')


def main():
    """Print the header, a line for each controller, and the halves."""
    show(*HEADER)
    fresh = fresh_buffers()
    for kind, controller in product(KINDS, range(129)):
        show(kind.number, controller, *tally(scaling(kind, controller)),
             *applying(kind, controller, fresh),
             *tally(showing(kind, controller)))
    show('halves', *halves())


if __name__ == '__main__':
    main()
