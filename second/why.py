"""Say why a message is refused, or what is done, as Req 02 asks.

python3 second/why.py line [KIND]       reads a message and prints its line
python3 second/why.py cases DIR [KIND]  writes cases: NNNN.in has a message,
                                        NNNN.out its line

KIND is pod, bass or pro, and pod where it is not said.

Req 02: "The reason must be true: that check fails on these bytes, every
earlier one holds, and a fresh box set as the listing program's, handed the
message whole, returns that number."

Checks and forms are read here from document 01, with the kind's sizes and
device byte, and not by box.py, which must give the same number for every
case. The cases (bounced.py) must give every line of the table in
docs/DECISIONS.md.
"""

import re
import sys
from itertools import combinations
from pathlib import Path
from typing import Callable, NamedTuple

from bounced import all_messages
from box import Box
from kinds import kind_told

DECISIONS = Path(__file__).parent.parent / 'docs' / 'DECISIONS.md'
LETTERS = 'ABCD'
# "0x00 to 0x23, shown 1A to 9D"
NAMES = tuple(f'{row}{letter}' for row in range(1, 10) for letter in LETTERS)
# "programs in number order, then the edit buffer"
PARTS = (*(f'program {name}' for name in NAMES), 'edit buffer')

# "Identity: F0 7E cc 06 01 F7, cc at most 0x7F."
IDENTITY = re.compile(rb'\xF0\x7E([\x00-\x7F])\x06\x01\xF7')
FORM_START = 5  # "Then opcode and type"


class Form(NamedTuple):
    """A row of the table of forms, and what an accepted message does."""

    fields: str    # "Bytes" but the data
    programs: int  # whose half bytes are its data
    number: int    # 2: "reply written", 1: "dump stored"
    done: str      # what was done, the program left open

    def lengths(self, kind):
        """Return each "Whole length" for a kind of box, the longest first."""
        bare = FORM_START + len(self.fields.split()) + 1
        # a request has no data, whatever the size of a program
        return tuple(dict.fromkeys(bare + 2 * size * self.programs
                                   for size in kind.sizes))


FORMS = (
    Form('00 00 pp', 0, 2, 'program {} sent'),
    Form('00 01', 0, 2, 'edit buffer sent'),
    Form('00 02', 0, 2, 'all programs sent'),
    Form('01 00 pp vv', 1, 1, 'program {} stored'),
    Form('01 01 vv', 1, 1, 'edit buffer stored'),
    Form('01 02 vv', len(NAMES), 1, 'all programs stored'),
)
BY_START = {bytes.fromhex(form.fields[:5]): form for form in FORMS}


def longest(kind):
    """Return the length of the longest message."""
    return max(max(form.lengths(kind)) for form in FORMS)


class Reading:
    """A message as a box of a kind reads it."""

    def __init__(self, kind, message):
        self.kind = kind
        self.message = message
        self.identity = IDENTITY.fullmatch(message)
        # of opcode and type; None for no form
        self.form = BY_START.get(message[FORM_START:FORM_START + 2])
        names = self.form.fields.split() if self.form else []
        body = message[FORM_START:-1]
        self.fields = {name: body[place:place + 1]
                       for place, name in enumerate(names)}
        self.data = body[len(names):] if self.form else b''

    def field(self, name):
        """Return the byte of a field, none where there is no such field."""
        return self.fields.get(name, b'')

    def is_short_enough(self):
        """Check 10: "10 if over 5,193 bytes"."""
        return len(self.message) <= longest(self.kind)

    def is_ours(self):
        """Check 11: "Any other 7E message is 11.", "too short included"."""
        # "11 if it does not begin with F0, end with F7 as another byte, or
        # has a byte above 0x7F between"; "All the rest begins F0 00 01 0C
        # 01, else 11", or "device byte 02"
        device = re.escape(bytes((self.kind.device,)))
        the_rest = rb'\xF0\x00\x01\x0C' + device + rb'[\x00-\x7F]*\xF7'
        return bool(self.identity or re.fullmatch(the_rest, self.message))

    def has_form(self):
        """Check 12: "opcode or type unknown or missing"."""
        return bool(self.identity or self.form)

    def has_length(self):
        """Check 13: Req 06: "13 is for a length that is neither"."""
        return (self.form is None
                or len(self.message) in self.form.lengths(self.kind))

    def has_program(self):
        """Check 14: "program above 0x23"."""
        return all(program <= 0x23 for program in self.field('pp'))

    def has_version(self):
        """Check 15: "version not 0"."""
        return all(version == 0 for version in self.field('vv'))

    def has_halves(self):
        """Check 16: "a data byte above 0x0F"."""
        return all(half <= 0x0F for half in self.data)

    def is_for_us(self):
        """Check 22: "identity request for another channel, not omni"."""
        # "Taken when cc is the channel, or 7F", on channel 0
        return (self.identity is None
                or self.identity[1] in (b'\x00', b'\x7F'))


class Check(NamedTuple):
    """A check, and the number of a message on which it fails first."""

    number: int
    name: str
    holds: Callable  # holds, too, where it is not about such a message
    expected: str    # what hangs on the kind and the form left open


# "10 ..., then 11 ...; then as above": "A finished SysEx is tested 10, 11,
# 12, 13, 14, 15, 16".  12 to 16 are not about an identity request, "else 22".
CHECKS = (
    Check(10, 'too long', Reading.is_short_enough,
          'at most {longest} bytes'),
    Check(11, 'ours', Reading.is_ours,
          'F0 7E cc 06 01 F7 or F0 00 01 0C {device:02X} .. F7, '
          'with nothing above 0x7F between'),
    Check(12, 'opcode and type', Reading.has_form,
          'opcode 00 or 01, then type 00, 01 or 02'),
    Check(13, 'length', Reading.has_length, '{lengths} bytes'),
    Check(14, 'program', Reading.has_program, 'at most 0x23 (9D)'),
    Check(15, 'version', Reading.has_version, '0x00'),
    Check(16, 'half bytes', Reading.has_halves, 'at most 0x0F'),
    Check(22, 'channel', Reading.is_for_us, '0x00 or 0x7F'),
)


def shown(program):
    """Return how a program is shown."""
    # Req 11: "n/4 + 1 and the letter A to D for n mod 4"
    return f'{program // 4 + 1}{LETTERS[program % 4]}'


def reason(kind, message):
    """Return number, name and what was expected; or number and what is done.

    "the number, the failed check's name and what it expected"; "Accepted
    messages get a line that says what was done."
    """
    reading = Reading(kind, message)
    form = reading.form
    for check in CHECKS:
        if not check.holds(reading):
            return check.number, check.name, check.expected.format(
                longest=longest(kind), device=kind.device,
                lengths=form and ' or '.join(map(str, form.lengths(kind))))
    if form is None:
        return 2, 'identity answered'
    programs = map(shown, reading.field('pp'))
    return form.number, form.done.format(*programs)


def tabbed(number, *fields):
    """Return a line: fields parted by one tab, closed by a line feed."""
    return '\t'.join((str(number), *fields)) + '\n'


# What the lines are held against


def read_table(kind):
    """Yield every line that the table of docs/DECISIONS.md lets us print."""
    text = DECISIONS.read_text(encoding='utf-8')
    _, section = text.split('\n## The reason for a number')
    section, *_ = section.split('\n## ')
    heads, *rows = re.findall(r'^\| (.*) \|$', section, re.MULTILINE)
    # a head names each kind whose column it is
    column = next(at for at, head in enumerate(heads.split(' | '))
                  if f'`{kind.word}`' in head)
    for row in rows:
        number, second, *_ = cells = row.split(' | ')
        # what does not follow the kind stands under the first
        third = cells[2 if cells[column] == 'the same' else column]
        expected = [(one,) for one in re.findall('`(.*?)`', third)] or [()]
        for name, many in re.findall(r'`(.*?)`( \(to 9D\))?', second):
            for program in NAMES if many else NAMES[:1]:
                for last in expected:
                    yield tabbed(number, name.replace('1A', program), *last)


def seen_in(box, length):
    """Return what a box did, by its reply, or else by its memory."""
    reply = box.reply[:length]
    if reply.startswith(b'\xF0\x7E'):
        return 'identity answered'
    if reply:
        typed, program = reply[6:8]
        asked = (PARTS[program], 'edit buffer', 'all programs')[typed]
        return f'{asked} sent'
    # no case stores a program that is all zero, as fresh memory is
    size = box.kind.size
    touched = tuple(part for place, part in enumerate(PARTS)
                    if any(box.memory[place * size:][:size]))
    if touched == PARTS[:-1]:
        touched = ('all programs',)
    return f'{" and ".join(touched)} stored'


def hold_against_box(kind, message):
    """Raise where a fresh box gives another number, or does otherwise."""
    number, told, *_ = reason(kind, message)
    box = Box(kind)
    given, length = box.whole(message)
    assert number == given, f'{message[:12].hex(" ")}: {number}, not {given}'
    if number in (1, 2):
        assert told == seen_in(box, length), f'{told}: {seen_in(box, length)}'
    else:
        kept = not any(box.memory) and all(box.marks)
        assert kept and not length, f'{number}, and not refused'


def failing_pairs(kind, message):
    """Return the numbers of each two checks that both fail."""
    reading = Reading(kind, message)
    return combinations((check.number for check in CHECKS
                         if not check.holds(reading)), 2)


def possible_pairs():
    """Return the numbers of each two checks that can fail together."""
    # Opcode and type say what 13 to 16 expect, so these hold where 12 fails;
    # only an identity request fails 22, and all else holds for it.
    return (pair for pair in combinations(
        (check.number for check in CHECKS), 2)
            if pair[0] != 12 and pair[1] != 22)


def expect_all(what, got, wanted):
    """Raise where two sets are not the same."""
    amiss = set(got) ^ set(wanted)
    assert not amiss, f'{what} missing, or not to be there: {sorted(amiss)}'


def cases(kind):
    """Return each message with its line, once they show all there is."""
    messages = all_messages(kind)
    for message in messages:
        hold_against_box(kind, message)
    lines = [tabbed(*reason(kind, message)) for message in messages]
    expect_all('lines', lines, read_table(kind))
    expect_all('pairs', (pair for message in messages
                         for pair in failing_pairs(kind, message)),
               possible_pairs())
    return zip(messages, lines)


def main():
    """Do what the first argument says, for the kind that the last tells."""
    what, *words = sys.argv[1:]
    if what == 'line':
        message = sys.stdin.buffer.read()
        sys.stdout.write(tabbed(*reason(kind_told(words), message)))
        return
    folder, *words = words
    for count, (message, line) in enumerate(cases(kind_told(words))):
        case = Path(folder, f'{count:04}')
        case.with_suffix('.in').write_bytes(message)
        case.with_suffix('.out').write_text(line)


if __name__ == '__main__':
    main()
