"""Parts of scripts: the screen, which is handed a part of what it lends.

Req 08: "the bytes of a shared program or of the player's own buffer in the
memory they already occupy".
"""

from itertools import product

from kinds import ALL, EDIT, KINDS, ONE, PLAYERS, TWO, around
from messages import dump, noise, wave, waves
from player import MEMORY_ROOM
from switched import mend, spoil

# Programs above 0x23; some would be one if they were cut.
NO_PROGRAMS = (36, 37, 127, 128, 255, 256, 65536, 65536 + 35, 1 << 24,
               0x80000000, 0xFFFFFFFF)
# Numbers that ask for the own buffer; some would be 0 if they were cut.
OWNS = (1, 2, 0xFF, 0x100, 1 << 24, 0xFF000000, 0xFF00FFFF)


def add_unlike(script):
    """Fill memory, so that each program and edit buffer differs."""
    kind = script.kind
    script.whole(dump(kind, ALL, waves(kind, 22)))
    for player, data in ((TWO, noise(23, kind.halves)),
                         (ONE, wave(23, kind.halves))):
        script.turn_to(player)
        script.whole(dump(kind, EDIT, data))


def ask(script):
    """A program and the own buffer, and a program above 0x23."""
    script.screen(35, 0, 1)
    script.screen(36, 0)


def add_shown(script, programs):
    """Programs on each player's screen, then its own buffer."""
    for player in PLAYERS:
        script.turn_to(player)
        for program in (*programs, *NO_PROGRAMS):
            script.screen(program, 0)
        # whatever program is named beside it
        for program in (0, 35, 36, 0xFFFFFFFF):
            script.screen(program, *OWNS, 0)
    script.turn_to(ONE)


def add_slices(script):
    """Slices that are just long enough and just not, and that overlap."""
    length = script.kind.programs_length
    for lent in (0, 1, *around(kind.programs_length for kind in KINDS),
                 MEMORY_ROOM, 65535):
        script.lend_screen(lent, length)
        ask(script)
    for place in (0, 1, *around(MEMORY_ROOM - kind.size for kind in KINDS),
                  MEMORY_ROOM, 65535):
        script.lend_screen(length, place)
        ask(script)
    script.lend_screen_back()


def add_screen_order(script):
    """Every choice of reasons for 32, 30, 31 and 14 at once."""
    either = False, True
    choices = product(either, either, either, either, (0, 1), (35, 36))
    for no_kind, few, short, no_player, own, program in choices:
        spoil(script, no_kind, None, no_player)
        script.lend_screen(script.kind.programs_length - few,
                           MEMORY_ROOM - script.kind.size + short)
        script.screen(program, own)
        mend(script, None)
    script.lend_screen_back()


def add_screens(script, programs):
    """What a screen is handed: all of it."""
    add_unlike(script)
    add_shown(script, programs)
    add_slices(script)
    add_screen_order(script)
