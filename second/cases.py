"""Check controllers.py, box.py and moves.py against document 01's cases.

Cases of Reqs 01 and 04 to 08, of document 02, stand beside them; where no
player is named, it is player one. The numbers here are the documents', and
none of them is computed from a kind.
"""

from itertools import permutations, product

from box import Box, Receiver
from controllers import apply, back, join, read, scale, split, store
from kinds import BASS, KINDS, POD, PRO
from lent import sound, unsound
from moves import carry_out, in_pairs
from switched import NO_KINDS, NO_PLAYERS

LONG = (26, 27, 28)  # "30 and 62, bytes 26 to 28"
# "identity 02 00 00 00", "identity 00 00 00 04"; the revision of a fresh box
POD_REPLY = 'F0 7E 7F 06 02 00 01 0C 00 00 00 01 30 31 30 30 F7'
BASS_REPLY = 'F0 7E 7F 06 02 00 01 0C 02 00 00 00 30 31 30 30 F7'
PRO_REPLY = 'F0 7E 7F 06 02 00 01 0C 00 00 00 04 30 31 30 30 F7'
# "one edit buffer, 72 bytes each"; Req 04: "80 data bytes a program"
SIZES = {POD: 72, BASS: 80, PRO: 72}
# Req 07: "All else is as for a POD, including Req 06."
PODS = (POD, PRO)


def expect(case, got, wanted):
    """Raise where a case gives something else than the document."""
    if got != wanted:
        raise AssertionError(f'{case}: {got} instead of {wanted}')


def buffer_with(changes, length=72):
    """Return zero bytes with some places changed."""
    buffer = bytearray(length)
    for place, byte in changes.items():
        buffer[place] = byte
    return buffer


def memory_with(one, two, programs=None):
    """Return memory: programs, zero where none are given, then buffers."""
    return (programs or bytes(36 * len(one))) + one + two


def check_halves():
    """Half bytes out and in, and one that is none."""
    # "A7 travels as 0A 07; 0A 07 reads A7; 10 00 is 16."
    expect('A7 travels', split(b'\xA7'), b'\x0A\x07')
    expect('0A 07 joins', join(b'\x0A\x07'), b'\xA7')
    expect('0A 07 reads', read(b'\x0A\x07'), ('value', b'\xA7'))
    expect('10 00', read(b'\x10\x00'), ('refused', 16))


def check_scaling():
    """The numbers that controllers give."""
    cases = (
        (25, 63, 0), (25, 64, 1),
        (23, 0, 96), (23, 64, 47), (23, 127, 0),
        (42, 21, 0), (42, 22, 1), (42, 127, 5),
        (51, 127, 6350), (52, 127, 312), (54, 127, 774),
        (56, 0, 100), (56, 127, 2894),
        (12, 27, 27),
        # Req 01: "51 is raised to at least 200, 58 to at least 150 and 54 to
        # at least 1"
        (51, 0, 200), (51, 3, 200), (51, 4, 200), (51, 5, 250),
        (58, 0, 150), (58, 5, 150), (58, 6, 150), (58, 7, 175),
        (54, 0, 1), (54, 1, 6),
        # their neighbours are not
        (50, 0, 0), (52, 0, 0), (53, 0, 0), (55, 0, 0), (57, 0, 100),
        (59, 0, 0),
    )
    for controller, value, number in cases:
        expect(f'{controller} at {value}', scale(POD, controller, value),
               ('value', number))
    # "A controller not in the table or above 127, and 30 and 62 ... are 17"
    for controller in (0, 30, 62, 120, 127, 128):
        expect(f'{controller} at 200', scale(POD, controller, 200),
               ('refused', 17))
    # "then a value above its range or above 127 is 18"
    for controller, value in ((12, 28), (71, 16), (19, 16), (25, 128)):
        expect(f'{controller} at {value}', scale(POD, controller, value),
               ('refused', 18))


def check_applying():
    """The answer, and the whole buffer afterwards."""
    cases = (
        # controller, value, byte 46, answer, bytes changed
        (51, 127, 0, 3, {48: 0xCE, 49: 0x18}),
        (56, 0, 2, 3, {49: 100, 50: 0}),
        (56, 127, 2, 3, {49: 0x4E, 50: 0x0B}),
        (12, 27, 0, 3, {8: 27}),
        (12, 28, 0, 18, {}),
        # Req 01: the raised number is stored
        (51, 0, 0, 3, {48: 200, 49: 0}),
        (51, 4, 0, 3, {48: 200, 49: 0}),
        (51, 5, 0, 3, {48: 250, 49: 0}),
        (58, 0, 5, 3, {48: 150, 49: 0}),
        (58, 6, 9, 3, {48: 150, 49: 0}),
        (58, 7, 9, 3, {48: 175, 49: 0}),
        (54, 0, 15, 3, {53: 1, 54: 0}),
        (54, 1, 15, 3, {53: 6, 54: 0}),
        (55, 127, 1, 19, {}),
        (55, 128, 1, 18, {}),
        (0, 128, 1, 17, {}),
        # "any value not listed, 6 and 10 too, gives 19"
        (51, 1, 6, 19, {}),
        (51, 1, 10, 19, {}),
    )
    for controller, value, setting, answer, changes in cases:
        buffer = buffer_with({46: setting})
        case = f'{controller} at {value}, byte 46 at {setting}'
        expect(case, apply(POD, controller, value, buffer), answer)
        expect(case, buffer, buffer_with({46: setting, **changes}))
    short = bytearray(71)
    expect('71 bytes applied', apply(POD, 0, 128, short), 30)
    expect('71 bytes kept', short, bytearray(71))


def check_parts():
    """30 and 62 over a stored number."""
    buffer = bytearray(72)
    steps = (
        # "From zero, 30 at 64: bytes 00 C0 00; then 62 at 1: 06 C0 00."
        (30, 64, '00 C0 00'), (62, 1, '06 C0 00'),
        # "30 and 62 both 127: FA 7F 01."
        (30, 127, '06 7D 01'), (62, 127, 'FA 7F 01'),
    )
    for controller, value, stored in steps:
        case = f'{controller} at {value}'
        expect(case, apply(POD, controller, value, buffer), 3)
        expect(case, buffer, buffer_with(dict(
            zip(LONG, bytes.fromhex(stored)))))
    # the cap: "at most 16,383", and the dropped remainder
    for controller, before, after in ((62, 0xFFFFFF, 97536), (30, 7, 6)):
        store(LONG, before, buffer)
        apply(POD, controller, 0, buffer)
        expect(f'{controller} over {before}',
               int.from_bytes(buffer[26:29], 'little'), after)


def check_back():
    """What the edit buffer shows."""
    cases = (
        (13, {9: 63}, ('value', 126)),
        (23, {16: 0}, ('value', 126)),
        (25, {0: 2}, ('refused', 40)),
        (52, {50: 1}, ('refused', 40)),
        (52, {50: 2}, ('value', 1)),
        # Req 01: "Showing a value back still takes the smallest"
        (51, {48: 200}, ('value', 0)),
        (51, {48: 250}, ('value', 5)),
        (58, {46: 5, 48: 150}, ('value', 0)),
        (58, {46: 5, 48: 175}, ('value', 7)),
        (54, {53: 1}, ('value', 0)),
        (54, {53: 6}, ('value', 1)),
        # "a stored 0 in these three fields now gives 40", and so does all
        # else below the least, and just above it
        *((51, {48: number}, ('refused', 40))
          for number in (0, 1, 50, 100, 150, 199, 201)),
        *((58, {46: 5, 48: number}, ('refused', 40))
          for number in (0, 1, 25, 125, 149, 151)),
        (54, {53: 0}, ('refused', 40)),
        (54, {53: 2}, ('refused', 40)),
        # their neighbours still show it
        *((controller, {}, ('value', 0)) for controller in (50, 52, 53)),
        (55, {46: 2}, ('value', 0)),
        (59, {46: 5}, ('value', 0)),
        # "within the controller's range"
        (12, {8: 27}, ('value', 27)),
        (12, {8: 28}, ('refused', 40)),
        (19, {46: 16}, ('refused', 40)),
        # "any value not listed ... gives 19"
        (55, {46: 1, 48: 2}, ('refused', 19)),
        # "they show m's upper and lower seven bits"
        (30, {26: 0x06, 27: 0xC0}, ('value', 64)),
        (62, {26: 0x06, 27: 0xC0}, ('value', 1)),
        (30, {26: 0xFA, 27: 0x7F, 28: 0x01}, ('value', 127)),
        (62, {26: 0x00, 27: 0x80, 28: 0x01}, ('refused', 40)),
        (62, {26: 0x07}, ('refused', 40)),
        (0, {}, ('refused', 17)),
    )
    for controller, changes, answer in cases:
        expect(f'back {controller} of {changes}',
               back(POD, controller, buffer_with(changes)), answer)
    expect('back of 71 bytes', back(POD, 0, bytearray(71)), ('refused', 30))


def send(box, data, socket=0):
    """Take bytes on a socket; list (place, number, reply length) but 0."""
    answers = ((place, *box.take(socket, byte))
               for place, byte in enumerate(bytes.fromhex(data)))
    return [answer for answer in answers if answer[1]]


def check_calls():
    """Controllers as bytes on a socket of a fresh box."""
    cases = (
        # "12 at 27 applied, at 28 is 18."
        ('B0 0C 1B', 3, {8: 27}),
        ('B0 0C 1C', 18, {}),
        # "55 with byte 46 at 1 is 19.": 19 at 1 before it
        ('B0 13 01 37 7F', 19, {46: 1}),
        # byte 46 at 2 selects it
        ('B0 13 02 37 7F', 3, {46: 2, 48: 1}),
        # Req 01: "At chorus speed 0 the unit got a period of 0"
        ('B0 33 00', 3, {48: 200}),
        ('B0 13 05 3A 00', 3, {46: 5, 48: 150}),
        ('B0 36 00', 3, {53: 1}),
    )
    for data, number, changes in cases:
        for socket in (0, 1):
            box = Box(POD)
            place = len(bytes.fromhex(data)) - 1
            expect(data, send(box, data, socket)[-1], (place, number, 0))
            # Req 08: "the sender's own buffer"
            edits = [bytes(72), bytes(72)]
            edits[socket] = buffer_with(changes)
            expect(data, box.memory, memory_with(*edits))


def check_forms():
    """Programs and lengths, on a socket and as whole messages."""
    halves = '0A 07' * 72
    kept = bytes(38 * 72)
    stored = bytes(35 * 72) + b'\xA7' * 72 + bytes(144)
    cases = (
        # "Program 0x23 taken, 0x24 is 14."
        ('F0 00 01 0C 01 00 00 23 F7', 2, 154, kept),
        ('F0 00 01 0C 01 00 00 24 F7', 14, 0, kept),
        (f'F0 00 01 0C 01 01 00 23 00 {halves} F7', 1, 0, stored),
        (f'F0 00 01 0C 01 01 00 24 00 {halves} F7', 14, 0, kept),
        # "A program dump of 153 bytes is 13."
        (f'F0 00 01 0C 01 01 00 23 00 {halves[2:]} F7', 13, 0, kept),
    )
    for data, number, length, memory in cases:
        check_form(POD, data, (number, length), memory)


def check_form(kind, data, answer, memory):
    """A message on a socket of a fresh box, and handed over whole."""
    message = bytes.fromhex(data)
    box = Box(kind)
    expect(f'{data} whole', box.whole(message), answer)
    expect(f'{data} whole', box.memory, memory)
    box = Box(kind)
    expect(data, send(box, data), [(len(message) - 1, *answer)])
    expect(data, box.memory, memory)


def check_listing():
    """The four numbered lines of the listing."""
    expect('listing',
           send(Box(POD), 'B0 0D 7F F8 0E 40 F0 7E 7F 06 01 F7 C0 05'),
           [(2, 3, 0), (5, 3, 0), (11, 2, 17), (13, 21, 0)])


def check_receivers():
    """Receivers at the borders of being sound."""
    for kind in KINDS:
        for listed, wanted in ((sound, True), (unsound, False)):
            for parts in listed(kind):
                expect(f'{kind.word}: {parts} is sound',
                       receiver_with(parts).is_sound(kind), wanted)
    # "the sound receiver's limits use the kind's own lengths"
    for count, pod, bass in ((5192, True, True), (5193, False, True),
                             (5768, False, True), (5769, False, False)):
        receiver = receiver_with({'stored': count, 'inside': 1})
        expect(f'{count} stored', [receiver.is_sound(kind)
                                   for kind in (POD, PRO, BASS)],
               [pod, pod, bass])


def receiver_with(parts):
    """Return a fresh receiver with some parts changed."""
    receiver = Receiver()
    vars(receiver).update(parts)
    return receiver


# Req 04


def check_kinds():
    """The lengths of each kind, as the documents give them."""
    # "2,664 bytes in all", "5,193 with F7 is the longest message"; "A Bass
    # box's longest message and its buffers are 5,769 bytes, its memory 2,960.
    # Whole lengths are 170, 169 and 5,769; requests keep theirs."; Req 06:
    # "whole lengths 152, 151 and 5,121 too", "The Bass kind has one length";
    # Req 08: "Memory grows by one edit buffer"
    for kind, memory, longest, lengths in (
            *((kind, 2664 + 72, 5193, [(9,), (8,), (8,), (154, 152),
                                       (153, 151), (5193, 5121)])
              for kind in PODS),
            (BASS, 2960 + 80, 5769, [(9,), (8,), (8,), (170,), (169,),
                                     (5769,)])):
        expect(f'{kind.word}, lent', kind.least,
               (memory, longest, longest, longest, 38))
        expect(f'{kind.word}, lengths', [*kind.lengths.values()], lengths)
    # "80 data bytes a program (160 half bytes), all programs 5,760"
    expect('bass, half bytes', (BASS.halves, BASS.all_halves), (160, 5760))
    # "These 49 controllers are all."; "Only these controllers"; "and
    # controller 9"
    expect('controllers', [len(kind.table) for kind in KINDS], [49, 10, 50])


def check_identities():
    """What each kind says it is, and that it keeps to its channel."""
    for kind, reply in ((POD, POD_REPLY), (BASS, BASS_REPLY),
                        (PRO, PRO_REPLY)):
        box = Box(kind)
        expect(f'{kind.word}, identity',
               send(box, 'F0 7E 7F 06 01 F7 F0 7E 01 06 01 F7'),
               [(5, 2, 17), (11, 22, 0)])
        expect(f'{kind.word}, identity reply', box.reply[:17],
               bytes.fromhex(reply))


def check_bass_forms():
    """Each length right and one off, and either unit's header."""
    ours, theirs = 'F0 00 01 0C 02', 'F0 00 01 0C 01'
    one, every = '0A 07' * 80, '0A 07' * 2880
    kept, edit = bytes(3040), memory_with(b'\xA7' * 80, bytes(80))
    last = bytes(35 * 80) + b'\xA7' * 80 + bytes(160)
    cases = (
        (f'{ours} 00 00 23 F7', 2, 170, kept),
        (f'{ours} 00 01 F7', 2, 169, kept),
        (f'{ours} 00 02 F7', 2, 5769, kept),
        (f'{ours} 01 00 23 00 {one} F7', 1, 0, last),
        (f'{ours} 01 01 00 {one} F7', 1, 0, edit),
        (f'{ours} 01 02 00 {every} F7', 1, 0, b'\xA7' * 2880 + bytes(160)),
        *((f'{ours} {form} F7', 13, 0, kept) for form in (
            '00 00', '00 00 23 00', '00 01 00', '00 02 00',
            f'01 00 23 00 {one[2:]}', f'01 00 23 00 {one} 00',
            f'01 01 00 {one[2:]}', f'01 01 00 {one} 00',
            f'01 02 00 {every[2:]}')),
        (f'{ours} 01 02 00 {every} 00 F7', 10, 0, kept),
        # a POD's lengths under our header
        (f'{ours} 01 00 23 00 {"00" * 144} F7', 13, 0, kept),
        (f'{ours} 01 02 00 {"00" * 5184} F7', 13, 0, kept),
        # a POD's header
        *((f'{theirs} {form} F7', 11, 0, kept) for form in (
            '00 01', f'01 00 23 00 {one}', f'01 01 00 {"00" * 144}')),
        # "a bad half byte in program 36 then leaves 35 new ones"
        (f'{ours} 01 02 00 {every[:-2]} 10 F7', 16, 0, kept),
        (f'{ours} 01 00 24 01 {one[:-2]} 10 F7', 14, 0, kept),
        (f'{ours} 01 00 23 01 {one[:-2]} 10 F7', 15, 0, kept),
    )
    for data, number, length, memory in cases:
        check_form(BASS, data, (number, length), memory)
    # and the Bass POD's header for a POD
    for kind in PODS:
        check_form(kind, f'{ours} 00 01 F7', (11, 0), bytes(2736))
        check_form(kind, f'{ours} 01 01 00 {one} F7', (11, 0), bytes(2736))


def check_bass_moves():
    """Each controller of a Bass box at its ends, and those it has not."""
    moves = (
        # controller, byte, then values and what they store
        (12, 3, {0: 0, 15: 15, 16: None}),
        (19, 49, {0: 0, 15: 15, 16: None}),
        (64, 2, {0: 0, 63: 0, 64: 1, 127: 1}),
        *((controller, place, {0: 0, 1: 0, 2: 1, 127: 63})
          for controller, place in ((13, 4), (14, 6), (15, 7), (16, 8),
                                    (17, 10), (18, 11), (1, 50))),
    )
    for controller, place, values in moves:
        for value, stored in values.items():
            check_move(BASS, controller, value, place, stored)
    for controller in {*range(130)} - {move[0] for move in moves}:
        check_missing(BASS, controller)
    expect('bass, 79 bytes', back(BASS, 12, bytes(79)), ('refused', 30))


def check_missing(kind, controller):
    """A controller that a kind has not: 17, and nothing is stored."""
    case, buffer = f'{kind.word}, {controller}', bytearray(80)
    for value in (0, 1, 2, 126, 127, 128):
        expect(case, apply(kind, controller, value, buffer), 17)
        expect(case, scale(kind, controller, value), ('refused', 17))
    expect(case, buffer, bytes(80))
    expect(case, back(kind, controller, buffer), ('refused', 17))


def check_move(kind, controller, value, place, stored):
    """A move on a fresh box, scaled and applied; None is out of range."""
    case = f'{kind.word}, {controller} at {value}'
    box = Box(kind)
    data = bytes((0xB0, controller, value)).hex()
    if stored is None:
        expect(case, box.scale(controller, value), ('refused', 18))
        expect(case, send(box, data), [(2, 18, 0)])
    else:
        expect(case, box.scale(controller, value), ('value', stored))
        expect(case, send(box, data), [(2, 3, 0)])
    size = SIZES[kind]
    expect(case, box.memory, memory_with(
        buffer_with({place: stored or 0}, size), bytes(size)))


def check_bass_back():
    """What the edit buffer of a Bass box shows."""
    for controller, changes, answer in (
            # byte 3 holding 16
            (12, {3: 15}, ('value', 15)), (12, {3: 16}, ('refused', 40)),
            (19, {49: 16}, ('refused', 40)), (64, {2: 1}, ('value', 64)),
            (64, {2: 2}, ('refused', 40)), (13, {4: 63}, ('value', 126)),
            (1, {50: 64}, ('refused', 40)),
            # byte 46 plays no part
            (1, {46: 6, 50: 63}, ('value', 126))):
        expect(f'bass, back {controller} of {changes}',
               back(BASS, controller, buffer_with(changes, 80)), answer)


def check_changes():
    """Program changes: copied on a Bass box, 21 on a POD."""
    memory = b''.join(bytes((place + 1,)) * 80 for place in range(38))
    for number, program in ((0, None), (1, 0), (2, 1), (36, 35), (37, None),
                            (127, None)):
        for channel, omni in ((0, 0), (0, 1), (3, 1), (3, 0)):
            box = Box(BASS)
            box.memory[:], box.settings.omni = memory, omni
            heard = omni or channel == 0
            copied = heard and program is not None
            answer = 1 if copied else 21 if heard else 20
            case = f'program change {number} on {channel}, omni {omni}'
            # the second one under running status
            expect(case, send(box, f'C{channel} {number:02X} {number:02X}'),
                   [(1, answer, 0), (2, answer, 0)])
            edit = memory[80 * program if copied else 2880:][:80]
            expect(case, box.memory, memory_with(edit, memory[2960:],
                                                 memory[:2880]))
        for kind in PODS:
            box, case = Box(kind), f'program change {number}, {kind.word}'
            expect(case, send(box, f'C0 {number:02X}'), [(1, 21, 0)])
            expect(case, box.memory, bytes(2736))


def check_order():
    """32 for the kind "just before 30", in every call."""
    for number in (*NO_KINDS, 65536, 65537, 65538, 1 << 32):
        box = Box(POD)
        box.kind_number, box.lent = number, [0] * 5
        case = f'kind {number}'
        expect(case, box.take(2, 0xF8), (32, 0))
        expect(case, box.whole(b''), (32, 0))
        expect(case, box.scale(128, 128), ('refused', 32))
        expect(case, box.back(128, 2), ('refused', 32))
        expect(case, box.amp(0), ('refused', 32))
        expect(case, box.screen(36, 0, 2, b'', b''), (32, b''))
    # a POD's buffers lent to a Bass call
    box = Box(POD)
    box.kind_number = 1
    expect('30', (box.take(2, 0xF8), box.whole(b''), box.back(128)),
           ((30, 0), (30, 0), ('refused', 30)))
    # 5,500 stored is more than a POD's receiver holds
    box = Box(POD)
    box.receivers[0].stored, box.receivers[0].inside = 5500, 1
    expect('5,500 stored', box.take(0, 0xF8), (32, 0))


# Req 05


def check_list(kind, data, noted, edit, before=b''):
    """A list on a box with some first bytes of the edit buffer given."""
    box = Box(kind)
    box.settings.channel = 5  # "on our channel"
    box.edit(0)[:len(before)] = before
    moves, numbers = in_pairs(bytes.fromhex(data)), bytearray(b'\xEE' * 300)
    expect(f'{kind.word}, list {data}', carry_out(box, moves, numbers), 0)
    # "the number noted for each move"; those behind keep their bytes
    expect(f'{kind.word}, numbers of {data}', numbers,
           bytes(noted) + b'\xEE' * (300 - len(noted)))
    expect(f'{kind.word}, memory after {data}', box.memory,
           memory_with(edit, bytes(len(edit))))


def check_pod_lists():
    """Lists on a POD: each number, in its order, and what is stored."""
    cases = (
        ('', (), {}),
        # "12 at 27 applied, at 28 is 18": a refused move stops nothing
        ('0C 1B 0C 1C 0D 7F', (3, 18, 3), {8: 27, 9: 63}),
        # "55 with byte 46 at 1 is 19"; then 2 is selected and back again
        ('13 01 37 7F 13 02 37 7F 13 01 37 00', (3, 19, 3, 3, 3, 19),
         {46: 1, 48: 1}),
        # "From zero, 30 at 64: bytes 00 C0 00; then 62 at 1: 06 C0 00."
        ('1E 40 3E 01', (3, 3), {26: 0x06, 27: 0xC0}),
        # "30 and 62 both 127: FA 7F 01."
        ('1E 7F 3E 7F', (3, 3), {26: 0xFA, 27: 0x7F, 28: 0x01}),
        # Req 01: "51 is raised to at least 200"
        ('33 00', (3,), {48: 200}),
        # the last of several wins
        ('0D 02 0D 04 0D 80 0D 06', (3, 3, 18, 3), {9: 3}),
        # "a controller above 127 is 17, a value above 127 is 18, in the usual
        # order": 17, 18, 19
        ('80 00 8D 7F FF FF 00 80 00 FF', (17,) * 5, {}),
        ('0D 80 0D FF 1E 80 3E FF 37 80 13 80 13 10', (18,) * 7, {}),
        ('37 7F 37 80 B7 80', (19, 18, 17), {}),
    )
    for data, noted, changes in cases:
        check_list(POD, data, noted, buffer_with(changes))
    # what stands in the edit buffer at first is seen: 19 where 6 is selected
    before = buffer_with({9: 1, 46: 6})
    check_list(POD, '33 7F 0E 7F', (19, 3), buffer_with(
        {9: 1, 11: 63, 46: 6}), before)


def check_bass_lists():
    """Lists on a Bass box: its ten controllers, and others."""
    ten = '0C 0F 13 0F 40 40 0D 7F 0E 7F 0F 7F 10 7F 11 7F 12 7F 01 7F'
    stored = {3: 15, 49: 15, 2: 1, **dict.fromkeys(
        (4, 6, 7, 8, 10, 11, 50), 63)}
    check_list(BASS, ten, (3,) * 10, buffer_with(stored, 80))
    # a POD's others are 17, with any value; no effect is ever asked for
    check_list(BASS, '37 00 1E 80 17 7F 13 02 37 7F', (17, 17, 17, 3, 17),
               buffer_with({49: 2}, 80))
    check_list(BASS, '0C 10 13 10 0D 80 8D 80 FF 00', (18, 18, 18, 17, 17),
               buffer_with({}, 80))


def check_one_by_one():
    """A list against "the moves sent one by one on our channel"."""
    moves = [*product((0, 1, 9, 12, 13, 19, 30, 42, 51, 55, 58, 62, 64, 127),
                      (0, 1, 5, 14, 15, 16, 27, 28, 31, 32, 64, 127))]
    for kind, (channel, omni), socket in product(
            KINDS, ((0, 0), (9, 0), (15, 1)), (0, 1)):
        box, other = Box(kind), Box(kind)
        box.settings.channel = other.settings.channel = channel
        box.settings.omni = other.settings.omni = omni
        numbers = bytearray(len(moves))
        carry_out(box, moves, numbers, socket)
        singly = [send(other, bytes((0xB0 + channel, *move)).hex(), socket)
                  for move in moves]
        case = f'{kind.word}, channel {channel}, omni {omni}'
        expect(case, [[(2, number, 0)] for number in numbers], singly)
        expect(case, box.memory, other.memory)


def check_counts():
    """256 moves and 257, and number buffers that just do and just do not."""
    for count, room, number in (
            (0, 0, 0), (1, 0, 34), (1, 1, 0), (255, 254, 34), (255, 255, 0),
            (256, 255, 34), (256, 0, 34), (256, 256, 0), (256, 300, 0),
            # "more moves than 256 gives 33", before 34
            (257, 256, 33), (257, 257, 33), (257, 0, 33), (4096, 5000, 33)):
        for kind in KINDS:
            # the last move stores what the others do not
            moves = [(13, 2)] * (count - 1) + [(13, 126)] * (count > 0)
            box, numbers = Box(kind), bytearray(room)
            box.lent[1:] = [0] * 4  # no buffer but memory and the numbers
            case = f'{kind.word}, {count} moves, {room} numbers'
            expect(case, carry_out(box, moves, numbers), number)
            taken = number == 0
            expect(case, numbers, bytes((3,)) * (count if taken else 0)
                   + bytes(room - count if taken else room))
            expect(case, max(box.edit(0)), 63 if taken and count else 0)


def first_of(numbers, reasons, otherwise=0):
    """Return the first number whose reason holds."""
    return next((number for number, holds in zip(numbers, reasons) if holds),
                otherwise)


def check_list_order():
    """Each choice of reasons at once: 33, 34, 32, 30, 31, 32."""
    for kind, *reasons in product(KINDS, *((False, True),) * 6):
        many, no_room, no_kind, short, no_player, wrong_setting = reasons
        box, moves = Box(kind), [(13, 127)] * (257 if many else 256)
        memory = bytes(box.memory)
        numbers = bytearray(len(moves) - no_room)
        if no_kind:
            box.kind_number = 3  # "none of the three kinds"
        box.lent[0] -= short
        box.settings.omni = 2 if wrong_setting else 0
        # "Refusals, tested 33, 34, then 30 and 32"; Req 08: "31 after 30"
        wanted = first_of((33, 34, 32, 30, 31, 32), reasons)
        case = f'{kind.word}, reasons {reasons}'
        expect(case, carry_out(box, moves, numbers, 2 if no_player else 1),
               wanted)
        # "nothing changes on any of these four"
        if wanted:
            expect(case, (box.memory, numbers), (memory, bytes(len(numbers))))
    # "channel 0 to 15", "four revision bytes of at most 0x7F"
    box = Box(POD)
    box.settings.channel = 16
    expect('channel 16', carry_out(box, [], bytearray()), 32)
    box = Box(POD)
    box.settings.revision[3] = 0x80
    expect('revision 80', carry_out(box, [], bytearray()), 32)


def check_between():
    """A list between the bytes of messages, which it does not touch."""
    halves = '0A 07' * 72
    box, numbers = Box(POD), bytearray(2)
    send(box, 'B0 13 02 37')
    # byte 46 changes while 55 waits for its value
    carry_out(box, [(19, 1), (13, 127)], numbers)
    expect('between', (numbers, send(box, '7F')), (b'\3\3', [(0, 19, 0)]))
    expect('between', box.edit(0), buffer_with({9: 63, 46: 1}))
    # a dump is stored over the moves, and later moves over the dump
    send(box, f'F0 00 01 0C 01 01 01 00 {halves}')
    carry_out(box, [(13, 2)], numbers)
    expect('between', send(box, 'F7'), [(0, 1, 0)])
    expect('between', box.edit(0), b'\xA7' * 72)
    carry_out(box, [(13, 0)], numbers)
    expect('between', box.edit(0), b'\xA7' * 9 + b'\0' + b'\xA7' * 62)


# Req 06

HEAD = 'F0 00 01 0C 01'
SET, CLEAR = b'\1' * 38, bytes(38)


def marks_with(places, mark, others):
    """Return 38 marks: these places have one mark, the others another."""
    return bytes(mark if place in places else others for place in range(38))


def check_dump(data, places, size, players=(0, 1)):
    """A dump of a POD, over full memory and over marks of either sort."""
    message = bytes.fromhex(data)
    for kind, before, player, whole in product(PODS, (SET, CLEAR), players,
                                               (False, True)):
        box = Box(kind)
        box.memory[:], box.marks[:] = b'\xEE' * 2736, before
        case = (f'{kind.word}, {len(message)} bytes, marks of {before[0]}, '
                f'player {player}, whole {whole}')
        if whole:
            expect(case, box.whole(message, player), (1, 0))
        else:
            expect(case, send(box, data, player), [(len(message) - 1, 1, 0)])
        # "A short dump sets the spare byte to 0 and clears the mark."
        expect(case, box.memory, b''.join(
            b'\xA7' * size + bytes(72 - size) if place in places
            else b'\xEE' * 72 for place in range(38)))
        expect(case, box.marks, marks_with(places, size == 72, before[0]))


def check_short_dumps():
    """Dumps of each type and length, and lengths that are neither."""
    for form, places in (('01 00 00 00', [0]), ('01 00 23 00', [35]),
                         ('01 02 00', range(36))):
        for size in (71, 72):
            halves = '0A 07' * size * len(places)
            check_dump(f'{HEAD} {form} {halves} F7', places, size)
    # Req 08: the sender's own buffer and mark, 36 or 37
    for player, size in product((0, 1), (71, 72)):
        check_dump(f'{HEAD} 01 01 00 {"0A 07" * size} F7', [36 + player],
                   size, [player])
    # "13 is for a length that is neither": 150 to 156, 5,120 to 5,192
    for form, lengths in (('01 00 23 00', (150, 151, 153, 155, 156)),
                          ('01 01 00', (150, 152, 154, 155, 156)),
                          ('01 02 00', (152, 154, 5120, 5122, 5192))):
        for length in lengths:
            front = bytes.fromhex(f'{HEAD} {form}')
            for kind in PODS:
                check_kept(kind, front + bytes(length - 1 - len(front))
                           + b'\xF7', 13)


def check_kept(kind, message, number):
    """A message that is refused, over marks of either sort."""
    for marks in (SET, CLEAR):
        box = Box(kind)
        box.marks[:] = marks
        case = f'{kind.word}, {message[:9].hex(" ")}, {len(message)} bytes'
        expect(case, box.whole(message), (number, 0))
        expect(case, (any(box.memory), box.marks), (False, marks))


def check_refused_dumps():
    """Dumps of either length that are refused: no mark is moved."""
    one, every = '0A 07' * 71, '0A 07' * 2556
    for form, number in (
            (f'01 00 23 00 {one} 10 00', 16), (f'01 01 01 {one} 00 00', 15),
            (f'01 00 24 00 {one}', 14), (f'01 00 24 01 {one}', 14),
            (f'01 00 23 01 {one}', 15), (f'01 01 01 {one}', 15),
            (f'01 02 01 {every}', 15), (f'01 00 23 00 {one[:-2]} 10', 16),
            (f'01 01 00 10 {one[2:]}', 16), (f'01 02 00 {every[:-2]} 10', 16),
            (f'02 00 23 00 {one}', 12), (f'01 03 00 {every}', 12)):
        for kind in PODS:
            check_kept(kind, bytes.fromhex(f'{HEAD} {form} F7'), number)
    # "The Bass kind has one length only."
    for form in (f'01 00 23 00 {one}', f'01 01 00 {one}',
                 f'01 00 23 00 {"00" * 158}', f'01 01 00 {"00" * 158}',
                 f'01 02 00 {every}', f'01 02 00 {"00" * 5688}'):
        check_kept(BASS, bytes.fromhex(f'F0 00 01 0C 02 {form} F7'), 13)


def check_reply(box, asked, front, programs, player=0):
    """A request, and the whole reply: its programs as they are sent."""
    before = bytes(box.memory), bytes(box.marks)
    reply = bytes.fromhex(front) + split(programs) + b'\xF7'
    case = f'{asked}, {box.marks.hex()}'
    expect(case, box.whole(bytes.fromhex(f'{HEAD} {asked} F7'), player),
           (2, len(reply)))
    expect(case, box.reply[:len(reply)], reply)
    expect(case, (box.memory, box.marks), before)


def check_short_replies():
    """Replies for marks of either sort; the spare bytes stay in memory."""
    programs = [bytes((place,)) * 72 for place in range(1, 39)]
    for kind, places in product(PODS, (
            (), (0,), (35,), (36,), (37,), (3, 36), range(36), range(38))):
        box = Box(kind)
        # the spare byte is not 0 where a mark is clear: it stays
        box.memory[:], box.marks[:] = b''.join(programs), marks_with(
            places, 0, 1)
        # "Single dumps go out in the length their mark says"
        for place in (0, 3, 35):
            size = 71 if place in places else 72
            check_reply(box, f'00 00 {place:02X}',
                        f'{HEAD} 01 00 {place:02X} 00',
                        programs[place][:size])
        for player, place in ((0, 36), (1, 37)):
            check_reply(box, '00 01', f'{HEAD} 01 01 00', programs[place][
                :71 if place in places else 72], player)
        # "an all programs dump is long only if all 36 marks are set"
        size = 71 if {*places} - {36, 37} else 72
        check_reply(box, '00 02', f'{HEAD} 01 02 00',
                    b''.join(one[:size] for one in programs[:36]))


def check_marks_lent():
    """Too few marks, and marks neither 1 nor 0, in every call."""
    for kind in KINDS:
        box = Box(kind, mark_count=40)
        expect(f'{kind.word}, fresh', box.marks, b'\1' * 40)
        # "too few marks lent is 30", before 31 and 32
        box.lent[4], box.settings.omni = 37, 2
        check_called(box, (30, 30, 32))
        box.settings.omni = 0
        check_called(box, (30, 30, 0))
        box.lent[4] = 38
        check_called(box, (31, 10, 0))
        # "a mark neither 1 nor 0 is 32"; behind the 38 it is not looked at
        box.lent[4] = 40
        for place, mark in ((0, 2), (35, 0xFF), (36, 2), (37, 2), (38, 2),
                            (39, 0xFF)):
            box.marks[place] = mark
            expect(f'{kind.word}, mark {place}', box.take(1, 0xF8),
                   (32 if place < 38 else 0, 0))
            check_called(box, (31, 32 if place < 38 else 10, 0))
            box.marks[place] = 1


def check_called(box, numbers):
    """The numbers of a byte on no socket, of too long a message, of a list."""
    expect(f'{box.kind.word}, {box.lent[4]} lent, {box.marks.hex()}',
           (box.take(2, 0xF8), box.whole(bytes(6000)), carry_out(
               box, [], bytearray())),
           ((numbers[0], 0), (numbers[1], 0), numbers[2]))
    # scaling and showing back are lent none
    expect(f'{box.kind.word}, asked', (box.scale(13, 2), box.back(13)),
           (('value', 1), ('value', 0)))


def check_marks_left():
    """What leaves the marks: all on a Bass box, all but dumps elsewhere."""
    one = '0A 07' * 80
    for kind, marks in product(KINDS, (SET, CLEAR, marks_with([36], 0, 1))):
        box = Box(kind)
        box.marks[:] = marks
        # "A controller leaves the mark as it was."; a program change too
        for player in (0, 1):
            send(box, 'B0 0D 7F C0 01 24 F0 7E 7F 06 01 F7', player)
            carry_out(box, [(13, 2)], bytearray(1), player)
        expect(f'{kind.word}, moves', box.marks, marks)
    for marks in (SET, CLEAR):
        box = Box(BASS)
        box.marks[:] = marks
        for form, answer in (
                (f'01 00 23 00 {one}', (1, 0)), (f'01 01 00 {one}', (1, 0)),
                (f'01 02 00 {one * 36}', (1, 0)), ('00 00 23', (2, 170)),
                ('00 01', (2, 169)), ('00 02', (2, 5769))):
            message = bytes.fromhex(f'F0 00 01 0C 02 {form} F7')
            expect(f'bass, {form[:11]}', box.whole(message), answer)
            expect(f'bass, {form[:11]}', box.marks, marks)


# Req 07


def check_gain():
    """Controller 9: "to byte 35 by v/2"; "9 on a POD is still 17"."""
    for value, stored in ((0, 0), (1, 0), (2, 1), (126, 63), (127, 63)):
        check_move(PRO, 9, value, 35, stored)
    expect('9 at 128', scale(PRO, 9, 128), ('refused', 18))
    for kind in (POD, BASS):
        check_missing(kind, 9)
    for stored, shown in ((0, ('value', 0)), (63, ('value', 126)),
                          (64, ('refused', 40))):
        expect(f'back 9 of {stored}', back(PRO, 9, buffer_with({35: stored})),
               shown)


def check_models():
    """Amp models: which are known, taken by controller 12 and shown back."""
    # "up to 27 on a POD, 31 on a POD Pro, 15 on a Bass POD"
    for kind, place, top in ((POD, 8, 27), (PRO, 8, 31), (BASS, 3, 15)):
        for model in (0, 15, 16, *range(27, 33)):
            known = model <= top
            case = f'{kind.word}, amp model {model}'
            expect(case, Box(kind).amp(model), ('value', 1 if known else 0))
            check_move(kind, 12, model, place, model if known else None)
            expect(case, back(kind, 12, buffer_with({place: model}, 80)),
                   ('value', model) if known else ('refused', 40))
        # no bit is cut
        for model in (127, 128, 255, 256, 65536, 2**32 - 1):
            expect(f'{kind.word}, amp model {model}', Box(kind).amp(model),
                   ('value', 0))


def check_either():
    """Each dump there is: "Either unit's dump may be stored in either"."""
    for (kind, other), size in product(permutations(PODS), (71, 72)):
        # byte 8 is 31
        one = split(bytes(8) + b'\x1F' + b'\xA7' * (size - 9))
        for asked, front, programs in (
                ('00 00 23', '01 00 23 00', 1), ('00 01', '01 01 00', 1),
                ('00 02', '01 02 00', 36)):
            check_carried(kind, other, f'{HEAD} {asked} F7', bytes.fromhex(
                f'{HEAD} {front}') + one * programs + b'\xF7')


def check_carried(kind, other, asked, given):
    """A dump that one kind stores and another sends, and stores in turn."""
    box, case = Box(kind), f'{kind.word}, {len(given)} bytes'
    expect(case, box.whole(given), (1, 0))
    box.kind_number = other.number
    expect(case, box.whole(bytes.fromhex(asked)), (2, len(given)))
    expect(case, box.reply[:len(given)], given)
    fresh = Box(other)
    expect(case, send(fresh, given.hex()), [(len(given) - 1, 1, 0)])
    expect(case, (fresh.memory, fresh.marks), (box.memory, box.marks))


def check_gain_lists():
    """One list with 9 and amp models, for each kind."""
    for kind, noted, changes in (
            (POD, (17, 3, 18, 18, 18, 17, 17), {8: 27}),
            (BASS, (17, 18, 18, 18, 18, 17, 17), {}),
            (PRO, (3, 3, 3, 3, 18, 18, 3), {8: 31, 35: 1})):
        check_list(kind, '09 7F 0C 1B 0C 1C 0C 1F 0C 20 09 80 09 02', noted,
                   buffer_with(changes, SIZES[kind]))


def check_as_pod():
    """Every other controller of a POD Pro against a POD's."""
    buffers = [buffer_with({46: setting, 26: 7}) for setting in range(17)]
    for controller in {*range(130)} - {9, 12}:
        for value in range(130):
            expect(f'{controller} at {value}', scale(PRO, controller, value),
                   scale(POD, controller, value))
        for buffer, value in product(buffers, (0, 1, 64, 127, 128)):
            pod, pro = bytearray(buffer), bytearray(buffer)
            expect(f'{controller} at {value}',
                   (apply(PRO, controller, value, pro), pro,
                    back(PRO, controller, pro)),
                   (apply(POD, controller, value, pod), pod,
                    back(POD, controller, pod)))


# Req 08

PAIRS = ((0, 1), (1, 0))  # a player, and the other
# "31 after 30 wherever a named player is not 0 or 1"
WRONG = (*NO_PLAYERS, 65536, 65537, 2**32 - 1)


def numbered_box(kind):
    """Return a box whose programs hold 1 to 36, the edit buffers 37 and 38."""
    box = Box(kind)
    box.memory[:] = b''.join(bytes((byte,)) * SIZES[kind]
                             for byte in range(1, 39))
    return box


def check_fresh():
    """A fresh box: memory and marks, player two's too."""
    for kind, length in ((POD, 2736), (BASS, 3040), (PRO, 2736)):
        box = Box(kind)
        expect(f'{kind.word}, fresh', (box.memory, box.marks),
               (bytes(length), b'\1' * 38))


def check_own():
    """What reaches the sender's own buffer, and nothing else."""
    every = dict.fromkeys(range(72), 0xA7)
    for kind, data, number, changes in (
            (POD, 'B0 0D 7F', 3, {9: 63}), (BASS, 'B0 0D 7F', 3, {4: 63}),
            (POD, f'{HEAD} 01 01 00 {"0A 07" * 72} F7', 1, every),
            (POD, f'{HEAD} 01 01 00 {"0A 07" * 71} F7', 1, {**every, 71: 0}),
            (BASS, f'F0 00 01 0C 02 01 01 00 {"0A 07" * 80} F7', 1,
             dict.fromkeys(range(80), 0xA7)),
            (BASS, 'C0 06', 1, dict.fromkeys(range(80), 6)),
            (POD, 'C0 06', 21, {})):
        for player in (0, 1):
            box = numbered_box(kind)
            wanted = bytearray(box.memory)
            for place, byte in changes.items():
                wanted[(36 + player) * SIZES[kind] + place] = byte
            case = f'{kind.word}, {data[:23]}, player {player}'
            expect(case, send(box, data, player)[-1][1], number)
            expect(case, box.memory, wanted)


def check_sent():
    """An edit request is answered from the sender's own buffer."""
    for kind, device, size in ((POD, 1, 72), (BASS, 2, 80), (PRO, 1, 72)):
        asked = f'F0 00 01 0C {device:02X} 00 01 F7'
        for player, whole in product((0, 1), (False, True)):
            box, case = numbered_box(kind), f'{asked}, player {player}'
            own = split(bytes((37 + player,)) * size)
            answer = (box.whole(bytes.fromhex(asked), player) if whole
                      else send(box, asked, player)[-1][1:])
            expect(case, answer, (2, len(own) + 9))
            expect(case, box.reply[8:8 + len(own)], own)


def check_named():
    """Lists and values shown back, of each player's own buffer."""
    for kind, place in ((POD, 9), (BASS, 4), (PRO, 9)):
        for player, other in PAIRS:
            box, numbers = Box(kind), bytearray(1)
            case = f'{kind.word}, player {player}'
            expect(case, carry_out(box, [(13, 127)], numbers, player), 0)
            expect(case, (numbers, box.edit(player)), (
                b'\3', buffer_with({place: 63}, SIZES[kind])))
            expect(case, any(box.edit(other)), False)
            expect(case, (box.back(13, player), box.back(13, other)),
                   (('value', 126), ('value', 0)))


def check_rotary():
    """A rotary move under a flanger, beside a player who selected rotary."""
    for player, other in PAIRS:
        box = Box(POD)
        send(box, 'B0 13 05', player)
        send(box, 'B0 13 02', other)
        memory = bytes(box.memory)
        case = f'rotary, player {player}'
        # "55>48" where byte 46 is 2; 5 selects 58
        expect(case, send(box, 'B0 37 7F', player), [(2, 19, 0)])
        expect(case, carry_out(box, [(55, 127)], bytearray(1), player), 0)
        expect(case, box.back(55, player), ('refused', 19))
        expect(case, box.memory, memory)
        expect(case, send(box, 'B0 37 7F', other), [(2, 3, 0)])
        expect(case, (box.edit(player), box.edit(other)), (
            buffer_with({46: 5}), buffer_with({46: 2, 48: 1})))


def check_shared():
    """A program that one player stores is the other's too."""
    for player, other in PAIRS:
        box = Box(POD)
        send(box, f'{HEAD} 01 00 23 00 {"0A 07" * 71} F7', player)
        expect('shared', send(box, f'{HEAD} 00 00 23 F7', other),
               [(8, 2, 152)])
        expect('shared', box.reply[9:151], b'\x0A\x07' * 71)


def check_no_players():
    """Wrong players: 31, where no edit buffer is touched too."""
    for kind, player in product(KINDS, WRONG):
        box, numbers = numbered_box(kind), bytearray(1)
        before = bytes(box.memory), bytes(box.marks), bytes(box.reply)
        header = f'F0 00 01 0C {2 if kind is BASS else 1:02X}'
        case = f'{kind.word}, player {player}'
        for data in ('', 'F0 7E 7F 06 01 F7', f'{header} 00 00 00 F7',
                     f'{header} 00 01 F7', f'{header} 01 00 00 00'
                     + '00' * 2 * SIZES[kind] + 'F7'):
            expect(case, box.whole(bytes.fromhex(data), player), (31, 0))
        expect(case, carry_out(box, [], numbers, player), 31)
        expect(case, carry_out(box, [(13, 1)], numbers, player), 31)
        expect(case, box.back(13, player), ('refused', 31))
        expect(case, (box.memory, box.marks, box.reply, numbers),
               (*before, b'\0'))


def check_whole_order():
    """Each choice of reasons at once: 32, 30, 31, 32, 10, else 11."""
    for kind, *reasons in product(KINDS, *((False, True),) * 5):
        no_kind, short, no_player, wrong_mark, long = reasons
        box = Box(kind)
        box.kind_number = 3 if no_kind else kind.number
        box.lent[0] -= short
        box.marks[37] = 2 if wrong_mark else 1
        wanted = first_of((32, 30, 31, 32, 10), reasons, 11)
        expect(f'{kind.word}, reasons {reasons}', box.whole(
            bytes(6000 if long else 0), 2 if no_player else 1), (wanted, 0))


def check_back_order():
    """Each choice of reasons at once: 32, 30, 31, 17, else 40."""
    for kind, *reasons in product(KINDS, *((False, True),) * 4):
        no_kind, short, no_player, unknown = reasons
        box = Box(kind)
        # no amp model is 255
        box.memory[:] = b'\xFF' * len(box.memory)
        box.kind_number = 3 if no_kind else kind.number
        box.lent[0] -= short
        expect(f'{kind.word}, reasons {reasons}',
               box.back(0 if unknown else 12, 2 if no_player else 1),
               ('refused', first_of((32, 30, 31, 17), reasons, 40)))


def check_screens():
    """Each program and own buffer, and programs above 0x23."""
    for kind, player in product(KINDS, (0, 1)):
        box, size = numbered_box(kind), SIZES[kind]
        programs, own = box.memory[:36 * size], bytes((37 + player,)) * size
        # of longer slices, the first bytes
        for lent in ((programs, own), (box.memory, own + b'\xEE')):
            case = f'{kind.word}, screen of {player}'
            for program in range(36):
                expect(case, box.screen(program, 0, player, *lent),
                       (0, bytes((program + 1,)) * size))
            for program in (36, 37, 127, 255, 256, 65536, 1 << 24, 2**32 - 1):
                expect(case, box.screen(program, 0, player, *lent), (14, b''))
            for program, own_number in product(
                    (0, 35, 36, 2**32 - 1),
                    (1, 2, 256, 65536, 1 << 24, 2**32 - 1)):
                expect(case, box.screen(program, own_number, player, *lent),
                       (0, own))
        for wrong in WRONG:
            expect(case, box.screen(0, 0, wrong, programs, own), (31, b''))


def check_screen_order():
    """Each choice of reasons at once: 32, 30, 30, 31, 14."""
    for kind, own, *reasons in product(KINDS, (0, 1), *((False, True),) * 5):
        no_kind, few, short, no_player, above = reasons
        box, size = numbered_box(kind), SIZES[kind]
        box.kind_number = 3 if no_kind else kind.number
        number, part = box.screen(
            36 if above else 35, own, 2 if no_player else 1,
            bytes(36 * size - few), bytes(size - short))
        case = f'{kind.word}, own {own}, reasons {reasons}'
        # "for the screen then 14": where a program is asked for
        expect(case, number, first_of((32, 30, 30, 31, 14), (
            *reasons[:4], above and own == 0)))
        # "a refusal hands it an empty part of the programs"
        expect(case, len(part), 0 if number else size)


def check():
    """Raise on the first wrong case."""
    check_halves()
    check_scaling()
    check_applying()
    check_parts()
    check_back()
    check_calls()
    check_forms()
    check_listing()
    check_receivers()
    check_kinds()
    check_identities()
    check_bass_forms()
    check_bass_moves()
    check_bass_back()
    check_changes()
    check_order()
    check_pod_lists()
    check_bass_lists()
    check_one_by_one()
    check_counts()
    check_list_order()
    check_between()
    check_short_dumps()
    check_refused_dumps()
    check_short_replies()
    check_marks_lent()
    check_marks_left()
    check_gain()
    check_models()
    check_either()
    check_gain_lists()
    check_as_pod()
    check_fresh()
    check_own()
    check_sent()
    check_named()
    check_rotary()
    check_shared()
    check_no_players()
    check_whole_order()
    check_back_order()
    check_screens()
    check_screen_order()


check()
