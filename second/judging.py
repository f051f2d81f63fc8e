"""Parts of scripts: every form, right and wrong.

A part is given the kind of the box, or a script that leaves it, and hand,
which hands a message over: whole, or on a socket.
"""

from kinds import ALL, EDIT, PROGRAM, strangers
from messages import (all_forms, changed, data_start, dump, dumps, forms,
                      identity, in_each_length, noise, request, resized,
                      wave, waves)
from script import REVISION

# commands that put one setting out of its range
WRONG_SETTINGS = (
    ('C', 16, 0), ('C', 0xFF, 1), ('C', 0, 2), ('C', 15, 0xFF),
    *(('R', place, 0, byte) for place in range(4) for byte in (0x80, 0xFF)),
)


def show(kind, hand):
    """Ask for all of memory."""
    hand(request(kind, ALL))
    hand(request(kind, EDIT))


def add_dumps(kind, hand):
    """Good dumps stored, and requested back."""
    for program in (0, 1, 0x10, 0x22, 0x23):
        hand(dump(kind, PROGRAM, wave(program + 1, kind.halves), program))
        hand(request(kind, PROGRAM, program))
        hand(request(kind, EDIT))
    hand(dump(kind, PROGRAM, noise(1, kind.halves), 0x23))
    hand(request(kind, PROGRAM, 0x23))
    # equal bytes are stored again
    for data in (wave(9, kind.halves), *(noise(2, kind.halves),) * 2):
        hand(dump(kind, EDIT, data))
        show(kind, hand)
    for seed in (1, 2):
        hand(dump(kind, ALL, waves(kind, seed)))
        show(kind, hand)
        hand(request(kind, PROGRAM, seed))


def add_programs(kind, hand):
    """Programs above 0x23, in requests and in dumps."""
    for program in (0x24, 0x7F):
        hand(request(kind, PROGRAM, program))
        for given in in_each_length(kind, dump(
                kind, PROGRAM, wave(7, kind.halves), program)):
            hand(given)
        show(kind, hand)


def add_halves(kind, hand, step):
    """One bad half byte in a dump, then its request; a good one last."""
    for given, asked in dumps(kind, 3):
        last = len(given) - 2
        for place in (*range(data_start(given), last, step), last):
            for byte in (0x10, 0x7F):
                hand(changed(given, place, byte))
                hand(asked)
        hand(given)
        hand(asked)


def add_versions(kind, hand):
    """Versions other than 0."""
    for version in (1, 0x7F):
        for given, asked in dumps(kind, 4, version):
            hand(given)
            hand(asked)


def add_unknown(kind, hand):
    """Opcodes and types that are not in the table."""
    for message in forms(kind, 5):
        for place, byte in ((5, 2), (5, 0x7F), (6, 3), (6, 0x7F)):
            hand(changed(message, place, byte))
    show(kind, hand)


def add_headers(kind, hand):
    """Each byte of the header changed in turn."""
    for message in forms(kind, 6):
        for place, byte in enumerate(kind.header):
            for other in (byte ^ 1, byte ^ 0x40, 0x7E):
                hand(changed(message, place, other))
    show(kind, hand)


def add_others(kind, hand):
    """Another unit's forms, and a dump with one unit's header only."""
    for other in strangers(kind):
        for message in all_forms(other, 7):
            hand(message)                            # 11, or 10
        for message in all_forms(kind, 7):
            hand(changed(message, 4, other.device))  # 11
        for given, _ in dumps(other, 7):
            hand(changed(given, 4, kind.device))     # 13, or 10
    hand(request(kind, EDIT))


def add_orders(kind, hand):
    """Several faults at once: the first number in the order wins."""
    bad = changed(wave(8, kind.halves), 70, 0x10)
    worst = dump(kind, PROGRAM, bad, 0x24, version=1)
    not_ours = strangers(kind)[0].device
    # "A finished SysEx is tested 10, 11, 12, 13, 14, 15, 16"
    for message in (
            changed(changed(resized(worst, 20), 4, not_ours), 6, 3),  # 11
            changed(resized(worst, 20), 6, 3),                        # 12
            resized(worst, len(worst) - 1),                           # 13
            resized(request(kind, PROGRAM, 0x24), 10),                # 13
            *in_each_length(kind, worst),                             # 14
            *in_each_length(kind, changed(worst, 7, 0x23)),           # 15
            dump(kind, EDIT, bad, version=0x7F)):                     # 15
        hand(message)
    show(kind, hand)


def add_identities(script, hand, settings):
    """Identity requests for every channel, and messages near them."""
    for channel, omni in settings:
        script.settings(channel, omni)
        for asked in (*range(16), 0x10, 0x7E, 0x7F):
            hand(identity(asked))
        # "Any other 7E message is 11."
        for place, byte in ((1, 0x7F), (3, 5), (3, 7), (4, 0), (4, 2)):
            hand(changed(identity(0x7F), place, byte))
        for length in range(8):
            hand(resized(identity(channel), length))
    script.settings(0, 0)


def add_revisions(script, hand):
    """Revision bytes in the identity reply."""
    for revision in (bytes.fromhex('7F 00 01 55'), REVISION):
        for place, byte in enumerate(revision):
            script.revision(place, byte)
            hand(identity(0x7F))


def wrong_settings(script, hand):
    """Put one setting at a time out of its range, and back."""
    for wrong in WRONG_SETTINGS:
        script.add(*wrong)
        yield
        script.settings_back()
        hand(identity(0x7F))


def add_forms(script, hand, step):
    """Every form, right and wrong; a bad half byte every step places."""
    kind = script.kind
    add_dumps(kind, hand)
    add_programs(kind, hand)
    add_halves(kind, hand, step)
    add_versions(kind, hand)
    add_unknown(kind, hand)
    add_headers(kind, hand)
    add_others(kind, hand)
    add_orders(kind, hand)
    add_identities(script, hand,
                   ((0, 0), (0, 1), (9, 0), (15, 1), (15, 0)))
    add_revisions(script, hand)
