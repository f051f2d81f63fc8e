"""What hangs on the kind of box: one entry each, and what follows from it.

POD's page is document 01, with Reqs 01 and 06 of document 02; BASS's is Req
04, whose text names what it takes from source document 001; PRO is a POD but
for what Req 07 names, from source document 004. A further kind is a further
entry of KINDS.
"""

from dataclasses import dataclass, replace
from functools import cached_property
from itertools import chain

from controllers import TOP, read_page

PROGRAMS = 36  # "36 programs (0x00 to 0x23, shown 1A to 9D)"
# Req 08: "socket 0 is player one and socket 1 player two; each has an edit
# buffer"
ONE, TWO = PLAYERS = 0, 1
# Req 06: "Each program and the edit buffer now carry a mark"
MARK_COUNT = PROGRAMS + len(PLAYERS)
START, END = 0xF0, 0xF7
REQUEST, DUMP = 0, 1          # opcodes
PROGRAM, EDIT, ALL = 0, 1, 2  # types
MAKER = bytes.fromhex('00 01 0C')  # in every header and identity reply


@dataclass(frozen=True, eq=False)
class Kind:
    """A kind of box, as the documents give it."""

    number: int      # as a call brings it
    word: str        # as a program is told it
    sizes: tuple     # bytes of a program that a dump may have, most first
    device: int      # the header's last byte
    identity: bytes  # what an identity reply says it is
    changes: range   # program changes that copy a program, in number order
    amp: str         # the amp model's pair, taken as received
    top_model: int   # the highest amp model known, and taken
    own: tuple       # its other controllers: pairs, formula, highest value
    shared: tuple    # values of byte 46, then pairs, each with a formula
    at_least: dict   # controllers whose number is raised, and to what

    @property
    def size(self):
        """Return how many bytes of memory a program has."""
        return self.sizes[0]

    @property
    def has_marks(self):
        """Say whether dumps have several lengths, so that marks are kept."""
        return len(self.sizes) > 1

    def part(self, place):
        """Return a program's part of memory, or an edit buffer's."""
        return slice(place * self.size, (place + 1) * self.size)

    @property
    def programs_length(self):
        """Return the length of the programs."""
        return PROGRAMS * self.size

    @property
    def memory_length(self):
        """Return the length of the programs and both edit buffers."""
        return MARK_COUNT * self.size

    @property
    def halves(self):
        """Return how many half bytes all of a program is."""
        return 2 * self.size

    @property
    def all_halves(self):
        """Return how many half bytes all programs are."""
        return PROGRAMS * self.halves

    @cached_property
    def header(self):
        """Return what "all the rest begins" with."""
        return bytes((START, *MAKER, self.device))

    @cached_property
    def lengths(self):
        """Return each "Whole length" by "opcode and type", longest first."""
        bare = len(self.header) + 2 + 1  # opcode and type, F7

        def dumped(fields, programs):
            """Return the lengths with so many fields before the data."""
            return tuple(bare + fields + 2 * size * programs
                         for size in self.sizes)

        return {
            (REQUEST, PROGRAM): (bare + 1,),  # "pp"
            (REQUEST, EDIT): (bare,),
            (REQUEST, ALL): (bare,),
            (DUMP, PROGRAM): dumped(2, 1),  # "pp vv data"
            (DUMP, EDIT): dumped(1, 1),     # "vv data"
            (DUMP, ALL): dumped(1, PROGRAMS),
        }

    @cached_property
    def every_length(self):
        """Return the whole lengths of all forms."""
        return tuple(chain.from_iterable(self.lengths.values()))

    @cached_property
    def longest(self):
        """Return the length of "the longest message", with F7."""
        return max(self.every_length)

    @cached_property
    def most_stored(self):
        """Return how many bytes of a SysEx are stored at most."""
        # "F7 is not stored"
        return self.longest - 1

    @cached_property
    def least(self):
        """Return the least lengths of memory, other buffers and marks."""
        return (self.memory_length, *(self.longest,) * 3, MARK_COUNT)

    @cached_property
    def table(self):
        """Return the rules of its controllers, the amp model's first."""
        amp = self.amp, lambda v: v, self.top_model
        return read_page((amp, *self.own), self.shared, self.at_least)

    @property
    def has_effects(self):
        """Say whether some of its controllers want an effect selected."""
        return bool(self.shared)

    def knows(self, model):
        """Say whether an amp model is known."""
        return model <= self.top_model


# "v is the value received, division drops the remainder, a pair c>b is
# controller and byte."
POD = Kind(
    number=0,
    word='pod',
    # "one edit buffer, 72 bytes each"; Req 06: "units send 142 half bytes a
    # program, the paper's 71 bytes. On a POD box take both"
    sizes=(72, 71),
    device=0x01,  # "All the rest begins F0 00 01 0C 01"
    identity=bytes.fromhex('00 00 00 01'),
    changes=range(0),  # "channel message other than a controller": 21
    amp='12>8',
    top_model=27,  # "12>8 up to 27"
    own=(
        # "v/64"
        ('25>0 26>1 27>2 28>3 50>4 36>5 22>6 73>7 47>24 37>38',
         lambda v: v // 64, TOP),
        # "v/2"
        ('13>9 20>10 14>11 15>12 16>13 21>14 17>15 24>17 32>34 34>36 38>39 '
         '39>40 40>41 41>42 18>43 72>45 1>47',
         lambda v: v // 2, TOP),
        # "v"; "71>44 and 19>46 up to 15"
        ('4>18 44>19 45>20 7>22 46>23', lambda v: v, TOP),
        ('71>44 19>46', lambda v: v, 15),
        # "23>16: (127 - v) x 194 / 256"
        ('23>16', lambda v: (127 - v) * 194 // 256, TOP),
        # "30 and 62, bytes 26 to 28, lowest first": no formula of v alone
        ('30>26,27,28 62>26,27,28', None, TOP),
    ),
    # "Bytes 48 to 54 are shared."  "Two-byte fields are lowest first."
    shared=(
        ((14,), (
            ('49>48', lambda v: v // 2),)),
        ((7, 11), (
            ('42>48', lambda v: v // 22),)),
        ((0, 1, 3, 4, 8, 12, 13, 15), (
            ('51>48,49', lambda v: v * 50),
            ('52>50,51', lambda v: v * 256 // 104),
            ('53>52', lambda v: v),
            ('54>53,54', lambda v: v * 256 // 42))),
        ((2,), (
            ('55>48', lambda v: v // 64),
            ('56>49,50 57>51,52', lambda v: v * 22 + 100))),
        ((5, 9), (
            ('58>48,49', lambda v: v * 25),
            ('59>50', lambda v: v))),
    ),
    # Req 01: "After the formula, 51 is raised to at least 200, 58 to at least
    # 150 and 54 to at least 1."
    at_least={51: 200, 58: 150, 54: 1},
)

# Req 04: "Hold a Bass POD too."
BASS = Kind(
    number=1,
    word='bass',
    # "80 data bytes a program (160 half bytes)"; Req 06: "The Bass kind has
    # one length only."
    sizes=(80,),
    device=0x02,  # "device byte 02"
    identity=bytes.fromhex('02 00 00 00'),  # "identity 02 00 00 00"
    # "a program change of 1 to 36 .. copies program 0 to 35"
    changes=range(1, 37),
    # "Only these controllers"; "12>3 and 19>49 as received up to 15"
    amp='12>3',
    top_model=15,
    own=(
        ('19>49', lambda v: v, 15),
        # "64>2 by v/64"
        ('64>2', lambda v: v // 64, TOP),
        # "13>4, 14>6, 15>7, 16>8, 17>10, 18>11, 1>50 by v/2"
        ('13>4 14>6 15>7 16>8 17>10 18>11 1>50', lambda v: v // 2, TOP),
    ),
    shared=(),
    at_least={},
)

# Req 07: "As a third kind"; "All else is as for a POD, including Req 06."
PRO = replace(
    POD,
    number=2,
    word='pro',
    identity=bytes.fromhex('00 00 00 04'),  # "identity 00 00 00 04"
    top_model=31,  # "amp model up to 31"
    # "controller 9 to byte 35 by v/2 (digital output gain)"
    own=(*POD.own, ('9>35', lambda v: v // 2, TOP)),
)

# Req 04: "A box is set as POD or Bass POD before use.", or as a POD Pro
KINDS = (POD, BASS, PRO)
BY_NUMBER = {kind.number: kind for kind in KINDS}
BY_WORD = {kind.word: kind for kind in KINDS}
EVERY_CONTROLLER = tuple(dict.fromkeys(
    controller for kind in KINDS for controller in kind.table))


def edit_place(player):
    """Return the place of a player's edit buffer, and of its mark."""
    # "programs in number order, then the edit buffer"; Req 08: "Memory grows
    # by one edit buffer, player two's, last."
    return PROGRAMS + player


def others(kind):
    """Return the other kinds."""
    return tuple(other for other in KINDS if other is not kind)


def strangers(kind):
    """Return a kind for each header that is "not ours"."""
    return tuple({other.header: other for other in KINDS
                  if other.header != kind.header}.values())


def around(numbers, steps=(-1, 0, 1)):
    """Return numbers and those a few steps off, each once, in order."""
    return tuple(sorted({number + step
                         for number in numbers for step in steps}))


# Amp models that are just known to a kind, and that just are not.
AMP_BORDERS = around((kind.top_model for kind in KINDS), (0, 1))


def kind_told(words):
    """Return the kind that a program's words tell: POD where none does."""
    word, = words or (POD.word,)
    return BY_WORD[word]
