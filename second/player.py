"""Play a script in the form of REPLAY.md; the answers are box.py's."""

from collections import Counter
from operator import mul

from box import NO_PLAYER, REPLIED, REPLY, TAKEN, Box
from controllers import APPLIED, NOT_SELECTED, OUT_OF_RANGE, UNKNOWN
from kinds import KINDS, ONE, POD
from moves import carry_out, in_pairs

MESSAGE_ROOM = 8192  # "a message buffer of 8,192 bytes"
MEMORY_ROOM = 3100   # "memory of 3,100 bytes"
BUFFER_ROOM = 5800   # receive and reply buffers "of 5,800 bytes"
MARK_ROOM = 40       # "marks of 40 bytes"
ROOMS = (MEMORY_ROOM, BUFFER_ROOM, BUFFER_ROOM, BUFFER_ROOM, MARK_ROOM)
# what Z calls the two slices of memory that X lends
PROGRAMS_LENT, OWN_LENT = len(ROOMS), len(ROOMS) + 1
REFUSED = 65536      # "the value, or 65,536 + the refusal number"
VALUE = 'value'      # stands for all values among the numbers given
PART = 'part'        # stands for 0 where a screen is handed a part
WRONG_PLAYER = 'player 31'  # stands for 31 where a player is named
MOVE = 'n'           # stands for a call's letter where a move is counted
# a row for each answer to whether an amp model is known
KNOWN = {1: 'known', 0: 'not known'}
# a row for each number that is noted for a move
MOVED = {number: f'move {number}' for number in (
    APPLIED, UNKNOWN, OUT_OF_RANGE, NOT_SELECTED)}
# "Numbers the box returns", a row for values, those of amp models, of moves,
# of screens and of wrong players
ROWS = (*range(5), *range(10, 23), *range(30, 35), 40, VALUE,
        *KNOWN.values(), *MOVED.values(), PART, WRONG_PLAYER)
# "stored + 2^16 x inside + 2^24 x over + 2^32 x running + 2^40 x held + 2^48
# x waiting"
PLACES = {'stored': 0, 'inside': 16, 'over': 24, 'running': 32, 'held': 40,
          'waiting': 48}
# "2 inside, 3 over, 4 running, 5 held, 6 waiting"
PARTS = {2: 'inside', 3: 'over', 4: 'running', 5: 'held', 6: 'waiting'}
BLOCK = 60           # bytes that a digest weighs at once


def wave(seed, length):
    """Return half bytes as P writes them from place 0."""
    # why: 16 places on they are the same again
    turn = bytes((seed + 7 * place) % 16 for place in range(16))
    return (turn * (length // 16 + 1))[:length]


class Message:
    """The message buffer and its length."""

    def __init__(self):
        self.buffer = bytearray(MESSAGE_ROOM)
        self.length = 0

    def edit(self, op, n, v):
        """Do L, B or P."""
        if op == 'L':
            # "a larger n is taken as 8,192"
            self.length = min(n, MESSAGE_ROOM)
        elif op == 'B':
            # "message byte n % 8,192 is v"
            self.buffer[n % MESSAGE_ROOM] = v
        elif n < self.length:
            # "from place n up to (not including) the length become
            # (v + 7 x place) % 16"
            self.buffer[n:self.length] = wave(v + 7 * n, self.length - n)

    def content(self):
        """Return "the first `length` bytes of the message"."""
        return bytes(self.buffer[:self.length])


class Digest:
    """The sum over all places i of (i + 1) x byte i of a buffer."""

    def __init__(self, buffer):
        self.buffer = buffer
        self.seen = bytes(len(buffer))
        self.sum = 0

    def now(self):
        """Return the digest of the buffer as it stands."""
        # why: most calls change little, and comparing is far quicker than
        # weighing every byte again
        if self.buffer != self.seen:
            old, self.seen = self.seen, bytes(self.buffer)
            for start in range(0, len(old), BLOCK):
                part = slice(start, start + BLOCK)
                if old[part] != self.seen[part]:
                    self.sum += (weigh(self.seen[part], start)
                                 - weigh(old[part], start))
        return self.sum


def weigh(data, start):
    """Return the part that bytes from a place on have in the digest."""
    return sum(map(mul, range(start + 1, start + 1 + len(data)), data))


class Replay:
    """The program that plays a script."""

    def __init__(self):
        self.message = Message()
        # as much is lent at first as a POD wants, and the kind's number is 0
        self.box = Box(POD, MEMORY_ROOM, BUFFER_ROOM, MARK_ROOM)
        # "of memory, of the marks, of the reply buffer, of receive buffers 0
        # and 1"
        self.digests = [Digest(buffer) for buffer in (
            self.box.memory, self.box.marks, self.box.reply,
            *self.box.receive)]
        # of memory, what X lends: how many first bytes, from which place on
        self.screen_lent = {PROGRAMS_LENT: POD.programs_length,
                            OWN_LENT: POD.programs_length}
        self.controller = 0
        self.player = ONE
        self.calls = 0
        # how many calls gave (the kind's number, letter, row), and how many
        # moves (the kind's number, MOVE, row)
        self.given = Counter()
        self.changing = {'Y': self.poke, 'A': self.set_mark,
                         'C': self.set_channel, 'R': self.set_revision,
                         'Z': self.lend, 'E': self.set_receiver,
                         'N': self.set_controller, 'T': self.set_kind,
                         'O': self.set_player}
        self.calling = {'W': self.whole, 'S': self.take, 'M': self.feed,
                        'K': self.scale, 'D': self.back, 'G': self.amp,
                        'V': self.move, 'X': self.screen}

    def play(self, op, a, b, v):
        """Do one command; return its lines."""
        if op in self.calling:
            return self.calling[op](a, b, v)
        if op in self.changing:
            self.changing[op](a, b, v)
        elif op in 'LBP':
            self.message.edit(op, a + 256 * b, v)
        # "a command with an op that is not listed" is ignored
        return ()

    def poke(self, a, b, v):
        """Do Y: "memory byte n % 3,100 is v"."""
        self.box.memory[(a + 256 * b) % MEMORY_ROOM] = v

    def set_mark(self, a, b, v):
        """Do A: "mark byte n % 40 is v"."""
        self.box.marks[(a + 256 * b) % MARK_ROOM] = v

    def set_channel(self, a, b, _):
        """Do C: "channel is a, omni is b"."""
        self.box.settings.channel, self.box.settings.omni = a, b

    def set_revision(self, a, _, v):
        """Do R: "revision byte a % 4 is v"."""
        self.box.settings.revision[a % 4] = v

    def lend(self, a, b, v):
        """Do Z: "by v % 7, from now on"."""
        what, n = v % 7, a + 256 * b
        if what in self.screen_lent:
            # "n at most 3,100"
            self.screen_lent[what] = min(n, MEMORY_ROOM)
        else:
            # "the first n bytes are lent, at most its own length"
            self.box.lent[what] = min(n, ROOMS[what])

    def set_receiver(self, a, b, v):
        """Do E: "part a % 8 of the receiver of socket b % 2 is v"."""
        receiver = self.box.receivers[b % 2]
        part = a % 8
        if part == 0:
            receiver.stored = receiver.stored & 0xFF00 | v
        elif part == 1:
            receiver.stored = receiver.stored & 0xFF | v << 8
        elif part in PARTS:
            setattr(receiver, PARTS[part], v)

    def set_controller(self, a, b, _):
        """Do N: "(65,536 x itself + n) % 2^32"."""
        self.controller = (65536 * self.controller + a + 256 * b) % 2**32

    def set_kind(self, a, b, v):
        """Do T: "the kind's number is n + 2^24 x v"."""
        self.box.kind_number = widened(a, b, v)

    def set_player(self, a, b, v):
        """Do O: "the player's number is n + 2^24 x v"."""
        self.player = widened(a, b, v)

    def whole(self, *_):
        """Do W."""
        return self.lines('W', *self.box.whole(self.message.content(),
                                               self.player))

    def take(self, a, b, v):
        """Do S: "byte v on socket a + 2^24 x b"."""
        number, length = self.box.take(a + (b << 24), v)
        return self.lines('S', number, length)

    def feed(self, a, b, _):
        """Do M: an S for each byte of the message."""
        return [line for byte in self.message.content()
                for line in self.take(a, b, byte)]

    def scale(self, a, b, v):
        """Do K: "for value n + 2^24 x v"."""
        value = widened(a, b, v)
        return self.asked('K', *self.box.scale(self.controller, value))

    def back(self, *_):
        """Do D."""
        return self.asked('D', *self.box.back(self.controller, self.player))

    def amp(self, a, b, v):
        """Do G: "whether amp model n + 2^24 x v is known"."""
        return self.asked('G', *self.box.amp(widened(a, b, v)))

    def move(self, *_):
        """Do V: "the moves that the message holds, two bytes each"."""
        moves = in_pairs(self.message.content())
        # "the reply buffer, of which as much is lent as Z says"
        numbers = memoryview(self.box.reply)[:self.box.lent[REPLY]]
        number = carry_out(self.box, moves, numbers, self.player)
        line = self.line('V', self.count('V', number), number, 0)
        if number != TAKEN:
            return (line,)
        noted = bytes(numbers[:len(moves)])
        self.given.update((self.box.kind_number, MOVE, MOVED[number])
                          for number in noted)
        # "a further line has the letter n, a tab and .. the numbers"
        return line, tabbed('n', noted.hex())

    def screen(self, a, b, v):
        """Do X: "the part that the screen is handed"."""
        programs = self.box.memory[:self.screen_lent[PROGRAMS_LENT]]
        buffer = self.box.memory[self.screen_lent[OWN_LENT]:]
        number, part = self.box.screen(self.controller, widened(a, b, v),
                                       self.player, programs, buffer)
        at = self.count('X', PART if number == TAKEN else number)
        line = tabbed('X', at, number, len(part), weigh(part, 0))
        if number != TAKEN:
            return (line,)
        # "a further line has the letter x, a tab and the part's bytes"
        return line, tabbed('x', part.hex())

    def count(self, letter, number):
        """Count a call and what it gave; return its count."""
        if number == NO_PLAYER and letter != 'S':
            number = WRONG_PLAYER
        self.given[self.box.kind_number, letter, number] += 1
        self.calls += 1
        return self.calls - 1

    def lines(self, letter, number, length):
        """Return the lines of a call of W, S or M."""
        at = self.count(letter, number)
        # "a line where the number is not 0": a W never gives 0
        if number == TAKEN:
            return ()
        line = self.line(letter, at, number, length)
        if number != REPLIED:
            return (line,)
        # "a further line has the letter r, a tab and the reply's bytes"
        return line, tabbed('r', self.box.reply[:length].hex())

    def line(self, letter, at, number, length):
        """Return the line of a call of W, S, M or V."""
        digests = (digest.now() for digest in self.digests)
        receivers = map(as_number, self.box.receivers)
        return tabbed(letter, at, number, length, *digests, *receivers)

    def asked(self, letter, outcome, number):
        """Return the lines of a K, a D or a G."""
        if outcome == VALUE:
            row = KNOWN[number] if letter == 'G' else VALUE
            return (tabbed(letter, self.count(letter, row), number),)
        at = self.count(letter, number)
        return (tabbed(letter, at, REFUSED + number),)

    def end(self):
        """Return the lines "at the end of the script"."""
        return (tabbed('m', self.box.memory.hex()),
                tabbed('k', self.box.marks.hex()), tabbed('c', self.calls))


def widened(a, b, v):
    """Return "n + 2^24 x v"."""
    return a + 256 * b + (v << 24)


def as_number(receiver):
    """Return a receiver "as one number"."""
    return sum(getattr(receiver, name) << shift
               for name, shift in PLACES.items())


def tabbed(*fields):
    """Return a line, its fields "parted by one tab"."""
    return '\t'.join(map(str, fields)) + '\n'


def play(script):
    """Play a script; return its lines and what was given."""
    replay = Replay()
    lines = []
    # "A rest of fewer than 4 bytes at the end is ignored"
    for start in range(0, len(script) - 3, 4):
        op, a, b, v = script[start:start + 4]
        lines.extend(replay.play(chr(op), a, b, v))
    lines.extend(replay.end())
    return lines, replay.given


def rows_of(kind):
    """Return the rows that a kind of box can give."""
    return {*ROWS} - (set() if kind.has_effects
                      else {NOT_SELECTED, MOVED[NOT_SELECTED]})


def tally(given):
    """Return a Counter of rows by each kind, and one by no kind behind."""
    counts = {kind.number: Counter() for kind in KINDS}
    by_none = Counter()
    for (kind, _, number), calls in given.items():
        counts.get(kind, by_none)[number] += calls
    return *counts.values(), by_none
