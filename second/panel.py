"""The script of panel messages."""

from box import END_BYTE
from judging import add_forms, show, wrong_settings
from kinds import EDIT, END, KINDS, ONE, START, TWO, around
from marks import add_marks
from messages import (PAD, all_forms, changed, edit_with, forms, identity,
                      request, resized, wave)
from player import MESSAGE_ROOM
from script import Script


def add_lengths(script):
    """Every length from one past the right one down to 0."""
    # why: going down, a shorter message costs three commands, and a dump
    # comes to its shorter lengths too
    for message in (identity(0x7F), *forms(script.kind, 0)):
        for length in range(len(message) + 1, -1, -1):
            script.whole(resized(message, length))


def add_frames(script):
    """Messages right but for their frame."""
    for message in (identity(0x7F), *all_forms(script.kind, 1)):
        script.whole(message[1:])
        for byte in (0x70, 0xF1, END, 0xF8):
            script.whole(changed(message, 0, byte))
        script.whole(message[:-1])
        for byte in (0, 0x77, START, 0xF8):
            script.whole(changed(message, len(message) - 1, byte))
        for byte in (0, START, END):
            script.whole(message + bytes((byte,)))


def add_middles(script):
    """A byte above 0x7F inside a message."""
    for message in (identity(0x7F), *all_forms(script.kind, 2)):
        for place in (1, len(message) // 2, len(message) - 2):
            for byte in (0x80, START, END, 0xF8):
                script.whole(changed(message, place, byte))
    show(script.kind, script.whole)


def add_shortest(script):
    """Messages of 0, 1 and 2 bytes."""
    some = (0, 0x7F, 0x80, START, END, 0xF8)
    script.whole(b'')
    for first in some:
        script.whole(bytes((first,)))
        for second in some:
            script.whole(bytes((first, second)))


def add_longest(script):
    """Messages as long as the longest of each kind, and over."""
    borders = around((kind.longest for kind in KINDS), range(3))
    for length in (*borders, MESSAGE_ROOM):
        framed = bytes((START,)) + wave(length, length - 2) + END_BYTE
        for message in (framed, changed(framed, 9, 0xF8),
                        changed(framed, 0, 5), framed[:-1] + PAD):
            script.whole(message)


def add_settings(script):
    """Settings out of range: 32 before 10 and 11."""
    kind = script.kind
    messages = (identity(0x7F), request(kind, EDIT), edit_with(kind, {}),
                b'', request(kind, EDIT)[:-1], wave(0, kind.longest + 1))
    for _ in wrong_settings(script, script.whole):
        for message in messages:
            script.whole(message)
    for message in messages:
        script.whole(message)


def make_whole():
    """Return the script of panel messages."""
    script = Script()
    for kind in KINDS:
        script.become(kind)
        script.turn_to(ONE)
        add_lengths(script)
        add_frames(script)
        add_forms(script, script.whole, 97)
        script.turn_to(TWO)
        add_middles(script)
        add_shortest(script)
        add_longest(script)
        add_settings(script)
        add_marks(script, script.whole)
    return bytes(script.commands)
