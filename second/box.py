"""The box of document 01 with Reqs 01, 04 and 06 to 08, from their text."""

from typing import NamedTuple, Optional

from controllers import TOO_SHORT, apply, back, read, scale, split
from kinds import (BY_NUMBER, DUMP, EDIT, END, MAKER, MARK_COUNT, ONE,
                   PLAYERS, PROGRAM, PROGRAMS, REQUEST, START, TWO,
                   edit_place)

TOP_BYTE = 0x7F   # "Bytes below 0x80 are added"
TOP_CHANNEL = 15  # "channel 0 to 15"
VERSION = 0       # "Dump version is 0."
REAL_TIME = 0xF8  # "F8 to FF"
END_BYTE = bytes((END,))

# "Numbers the box returns"
TAKEN = 0             # "byte taken, nothing finished"
STORED = 1            # "dump stored"
REPLIED = 2           # "reply written, with its length"
CUT = 4               # "SysEx cut"
TOO_LONG = 10         # "SysEx too long"
NOT_OURS = 11         # "not ours"
NO_FORM = 12          # "opcode or type unknown or missing"
WRONG_LENGTH = 13     # "wrong length"
NO_PROGRAM = 14       # "program above 0x23"
WRONG_VERSION = 15    # "version not 0"
OTHER_CHANNEL = 20    # "channel message on another channel, not omni"
NO_CONTROLLER = 21    # "channel message other than a controller"
OTHER_IDENTITY = 22   # "identity request for another channel, not omni"
NO_PLAYER = 31        # "socket not 0 or 1", or Req 08's "named player"
NOT_SOUND = 32        # "receiver not sound, or a setting out of its range"
NO_KIND = 32          # Req 07: "32 is for none of the three kinds"

# Marks: "whether the spare byte was received"
RECEIVED, NOT_RECEIVED = 1, 0

# "Identity: F0 7E cc 06 01 F7", before and after cc
IDENTITY_FRONT = bytes.fromhex('F0 7E')
IDENTITY_BACK = bytes.fromhex('06 01 F7')
EVERY_CHANNEL = 0x7F  # "Taken when cc is the channel, or 7F"
# "F0 7E cc 06 02 00 01 0C ..", after cc and up to what the kind says it is
IDENTITY_REPLY = bytes((6, 2)) + MAKER

# The channel messages that are looked into, by a status byte's upper half
CONTROLLER, PROGRAM_CHANGE = 0xB, 0xC

# The buffers that are lent, in the order of a kind's least lengths
MEMORY, RECEIVE, REPLY, MARKS = 0, (1, 2), 3, 4


class Settings:
    """Channel, omni and revision, as the listing program sets them."""

    def __init__(self):
        # "channel 0, no omni, revision 30 31 30 30"
        self.channel = 0
        self.omni = 0
        self.revision = bytearray.fromhex('30 31 30 30')

    def in_range(self):
        """Say whether every setting is in its range."""
        # "channel 0 to 15, omni 1 or 0 (yes or no), four revision bytes of
        # at most 0x7F"
        return (self.channel <= TOP_CHANNEL and self.omni in (0, 1)
                and max(self.revision) <= TOP_BYTE)

    def hear(self, channel):
        """Say whether the box listens to this channel."""
        return self.omni == 1 or channel == self.channel


class Taken(NamedTuple):
    """What a receiver makes of a byte: a number, or a finished message."""

    number: int = TAKEN
    sysex: Optional[bytes] = None    # as it stands, and F7
    channel: Optional[bytes] = None  # with its status byte


def takes_two(status):
    """Say whether a status byte has two data bytes."""
    # "Kinds C and D take one data byte, the others two."
    return status >> 4 in (0x8, 0x9, 0xA, 0xB, 0xE)


class Receiver:
    """The "small record that the firmware lends call after call"."""

    def __init__(self):
        # "A fresh receiver has nothing open, stored, waiting or running."
        self.stored = 0   # how many bytes of the receive buffer
        self.inside = 0   # 1: a SysEx is open
        self.over = 0     # 1: it is marked too long
        self.running = 0  # running status; 0: none
        self.held = 0     # 1: the first data byte of two waits
        self.waiting = 0  # that byte; 0 where none waits

    def is_sound(self, kind):
        """Say whether "a receiver is sound"; a flag is 0 or 1."""
        return (self.inside <= 1 and self.over <= 1 and self.held <= 1
                and self.is_open_sound(kind) and self.is_channel_sound())

    def is_open_sound(self, kind):
        """Say so of an open SysEx, with flags of 0 or 1."""
        # "its stored count is 0 to 5,192, at least 1 exactly when a SysEx is
        # open"; "too long is marked only on an open SysEx with 5,192 stored".
        # Req 04: "the sound receiver's limits use the kind's own lengths"
        return (self.stored <= kind.most_stored
                and (self.stored >= 1) == (self.inside == 1)
                and (self.over == 0 or self.stored == kind.most_stored))

    def is_channel_sound(self):
        """Say so of running status and a waiting byte."""
        # "running status is none or 80 to EF, and none while one is open"
        if self.running != 0 and (self.inside == 1
                                  or not 0x80 <= self.running < START):
            return False
        # "a waiting data byte is at most 0x7F and stands only under a
        # two-byte status"
        if self.held == 1:
            return self.waiting <= TOP_BYTE and takes_two(self.running)
        return self.waiting == 0

    def take(self, kind, byte, receive):
        """Take one byte, beside the receive buffer; return what it makes."""
        # "F8 to FF: reply number 0, and nothing changes, in the middle of a
        # message too."
        if byte >= REAL_TIME:
            return Taken()
        if self.inside == 1:
            return self.take_inside(kind, byte, receive)
        if byte > TOP_BYTE:
            self.take_status(byte, receive)
            return Taken()
        return Taken(channel=self.take_data(byte))

    def take_inside(self, kind, byte, receive):
        """Take a byte below F8 in an open SysEx."""
        if byte <= TOP_BYTE:
            self.collect(kind, byte, receive)
            return Taken()
        stored, over = self.stored, self.over
        self.stored = self.inside = self.over = 0
        # "Any other status byte below F8 cuts it (number 4); that byte then
        # acts as it would outside a SysEx, so F0 opens a new one."
        if byte != END:
            self.take_status(byte, receive)
            return Taken(CUT)
        # "F7 then gives 10, a cut gives 4"
        if over == 1:
            return Taken(TOO_LONG)
        # "F7 finishes it."  "F7 is not stored."
        return Taken(sysex=bytes(receive[:stored]) + END_BYTE)

    def collect(self, kind, byte, receive):
        """Add a byte below 0x80 to the open SysEx."""
        # "At most 5,192 are stored ... A further byte is dropped and the
        # message marked too long"
        if self.stored == kind.most_stored:
            self.over = 1
        else:
            receive[self.stored] = byte
            self.stored += 1

    def take_status(self, byte, receive):
        """Take 80 to F7 with no SysEx open."""
        # "80 to EF outside a SysEx sets running status and drops a
        # half-received message."  "F1 to F6, and F7 outside a SysEx, clear
        # running status."  "F0 opens a SysEx and clears running status."
        self.held = self.waiting = 0
        self.running = byte if byte < START else 0
        if byte == START:
            self.inside = self.stored = 1
            receive[0] = byte

    def take_data(self, byte):
        """Return the channel message that a data byte finishes, or None."""
        # "A data byte with no running status is skipped."
        if self.running == 0:
            return None
        if not takes_two(self.running):
            return bytes((self.running, byte))
        if self.held == 0:
            self.held, self.waiting = 1, byte
            return None
        # "The last one finishes the message; running status stays."
        message = bytes((self.running, self.waiting, byte))
        self.held = self.waiting = 0
        return message


def is_framed(message):
    """Say whether a whole message has the frame of a SysEx."""
    # "11 if it does not begin with F0, end with F7 as another byte, or has a
    # byte above 0x7F between"
    return (len(message) > 1 and message[0] == START and message[-1] == END
            and max(message[1:-1], default=0) <= TOP_BYTE)


def is_identity(message):
    """Say whether a SysEx is an identity request."""
    # "Identity: F0 7E cc 06 01 F7, cc at most 0x7F."; "Any other 7E message
    # is 11": it does not begin with the header
    return (message[:2] == IDENTITY_FRONT and message[3:] == IDENTITY_BACK
            and message[2] <= TOP_BYTE)


def places_of(typed, named, player):
    """Return the places of what a player's request or dump is about."""
    if typed == PROGRAM:
        return range(named[0], named[0] + 1)
    if typed == EDIT:
        return range(edit_place(player), edit_place(player) + 1)
    # "All programs go in number order; that dump does not touch the edit
    # buffer."
    return range(PROGRAMS)


class Box:
    """Kind, settings, memory, marks, sockets and reply buffer, as lent.

    A message's player is its sender, whose edit buffer it is about.
    """

    def __init__(self, kind, memory_length=None, buffer_length=None,
                 mark_count=MARK_COUNT):
        self.kind_number = kind.number  # what every call brings
        self.settings = Settings()
        # "Fresh memory is all zero."
        self.memory = bytearray(memory_length or kind.memory_length)
        # Req 06: "a fresh box has all marks set"
        self.marks = bytearray((RECEIVED,)) * mark_count
        self.receivers = (Receiver(), Receiver())  # "Two sockets, 0 and 1."
        buffer_length = buffer_length or kind.longest
        self.receive = (bytearray(buffer_length), bytearray(buffer_length))
        self.reply = bytearray(buffer_length)
        # of each buffer, how many first bytes a call is lent
        self.lent = list(kind.least)

    @property
    def kind(self):
        """Return the kind whose number is brought, None for no kind."""
        return BY_NUMBER.get(self.kind_number)

    def edit(self, player):
        """Return a player's edit buffer, of the kind that is brought."""
        return memoryview(self.memory)[self.kind.part(edit_place(player))]

    def is_short(self, *buffers):
        """Say whether one of these buffers is lent too short."""
        least = self.kind.least
        return any(self.lent[buffer] < least[buffer] for buffer in buffers)

    def are_marks_sound(self):
        """Say whether each mark of the box's own is 1 or 0."""
        return {*self.marks[:MARK_COUNT]} <= {RECEIVED, NOT_RECEIVED}

    def whole(self, message: bytes, player: int = ONE) -> tuple:
        """Judge a message handed over at once: (number, reply length)."""
        # "30 for the memory or the reply buffer, 32 for a setting, then 10
        # if over 5,193 bytes, then 11 ...; then as above"
        refusal = self.turn_away_set(player, MEMORY, MARKS, REPLY)
        if refusal is not None:
            return refusal, 0
        if len(message) > self.kind.longest:
            return TOO_LONG, 0
        if not is_framed(message):
            return NOT_OURS, 0
        return self.judge_sysex(player, message)

    def take(self, socket: int, byte: int) -> tuple:
        """Take one byte on one socket: (number, reply length)."""
        # a number that is no socket's is lent the second one's
        own = ONE if socket == ONE else TWO
        # "A call tests 30, 31, 32 in that order, then takes the byte."
        refusal = self.turn_away_set(
            socket, MEMORY, MARKS, RECEIVE[own], REPLY)
        if refusal is not None:
            return refusal, 0
        receiver = self.receivers[own]
        if not receiver.is_sound(self.kind):
            return NOT_SOUND, 0
        number, sysex, channel = receiver.take(
            self.kind, byte, self.receive[own])
        if sysex is not None:
            return self.judge_sysex(own, sysex)
        # "The reply length is 0 unless the number is 2."
        if channel is not None:
            return self.judge_channel(own, *channel), 0
        return number, 0

    def turn_away(self, player, *buffers):
        """Return why a call is refused, None if it isn't.

        It is a player's, and is lent these buffers.
        """
        # Req 04: "gives 32, just before 30"
        if self.kind is None:
            return NO_KIND
        if self.is_short(*buffers):
            return TOO_SHORT
        # Req 08: "31 after 30 wherever a named player is not 0 or 1"
        if player not in PLAYERS:
            return NO_PLAYER
        return None

    def turn_away_set(self, player, *buffers):
        """Return why a call that has settings is refused, None if it isn't."""
        refusal = self.turn_away(player, *buffers)
        if refusal is not None:
            return refusal
        if not self.settings.in_range():
            return NOT_SOUND
        # Req 06: "a mark neither 1 nor 0 is 32"; a call that is not lent the
        # marks does not look at them
        if MARKS in buffers and not self.are_marks_sound():
            return NOT_SOUND
        return None

    def scale(self, controller: int, value: int) -> tuple:
        """Return the number of a controller's value, or why it has none."""
        if self.kind is None:
            return 'refused', NO_KIND
        return scale(self.kind, controller, value)

    def back(self, controller: int, player: int = ONE) -> tuple:
        """Return the value that a controller shows, or why it shows none."""
        refusal = self.turn_away(player, MEMORY)
        if refusal is not None:
            return 'refused', refusal
        return back(self.kind, controller, self.edit(player))

    def screen(self, program: int, own: int, player: int, programs: bytes,
               buffer: bytes) -> tuple:
        """Return the number, and the part that a player's screen is handed.

        Req 08: "The screen lends the programs and its player's buffer as two
        slices"; own asks for the buffer, unless it is 0.
        """
        # "a refusal hands it an empty part of the programs"
        nothing = programs[:0]
        if self.kind is None:
            return NO_KIND, nothing
        if (len(programs) < self.kind.programs_length
                or len(buffer) < self.kind.size):
            return TOO_SHORT, nothing
        if player not in PLAYERS:
            return NO_PLAYER, nothing
        if own != 0:
            return TAKEN, buffer[:self.kind.size]
        # "for the screen then 14 for a program above 0x23"
        if program >= PROGRAMS:
            return NO_PROGRAM, nothing
        return TAKEN, programs[self.kind.part(program)]

    def amp(self, model: int) -> tuple:
        """Return 1 for an amp model that is known, 0 for one that isn't."""
        if self.kind is None:
            return 'refused', NO_KIND
        # Req 07: "the box says whether an amp model is known"
        return 'value', int(self.kind.knows(model))

    def judge_channel(self, player, status, first, second=0):
        """Return the number of a player's finished channel message."""
        # "a finished channel message 20, 21, 17, 18, 19"; Req 04: "a program
        # change .. that passes check 20"
        if not self.settings.hear(status & 0x0F):
            return OTHER_CHANNEL
        if status >> 4 == PROGRAM_CHANGE and first in self.kind.changes:
            return self.recall(player, self.kind.changes.index(first))
        if status >> 4 != CONTROLLER:
            return NO_CONTROLLER
        return apply(self.kind, first, second, self.edit(player))

    def recall(self, player, program):
        """Copy a program into a player's edit buffer: "and returns 1"."""
        self.edit(player)[:] = self.memory[self.kind.part(program)]
        return STORED

    def judge_sysex(self, player, message):
        """Judge a player's finished SysEx that is not too long."""
        # "A finished SysEx is tested 10, 11, 12, 13, 14, 15, 16"
        if is_identity(message):
            return self.identify(message[2])
        # "All the rest begins F0 00 01 0C 01, else 11, too short included.",
        # or 02 as Req 04 has it
        if not message.startswith(self.kind.header):
            return NOT_OURS, 0
        fields = message[len(self.kind.header):-1]
        form = tuple(fields[:2])
        if form not in self.kind.lengths:
            return NO_FORM, 0
        # Req 06: "13 is for a length that is neither"
        if len(message) not in self.kind.lengths[form]:
            return WRONG_LENGTH, 0
        return self.judge_fields(player, *form, fields[2:])

    def judge_fields(self, player, opcode, typed, fields):
        """Judge a message of known form and right length."""
        # "00 00 pp", "01 00 pp vv data": only these name a program
        count = 1 if typed == PROGRAM else 0
        named, rest = fields[:count], fields[count:]
        if any(program >= PROGRAMS for program in named):
            return NO_PROGRAM, 0
        places = places_of(typed, named, player)
        if opcode == REQUEST:
            return self.answer(typed, named, places)
        return self.load(rest, places), 0

    def load(self, fields, places):
        """Store "vv data" in its places; return the number."""
        if fields[0] != VERSION:
            return WRONG_VERSION
        # "Storing programs of a long dump as they arrive" is a mistake: all
        # half bytes are read before the first byte is stored.
        outcome, found = read(fields[1:])
        if outcome == 'refused':
            return found
        # "Field ranges are not tested when a dump is stored."
        size = len(found) // len(places)
        for at, place in enumerate(places):
            self.store(place, found[at * size:][:size])
        return STORED

    def store(self, place, data):
        """Store a program, or an edit buffer, of one length or the other."""
        # Req 06: "A short dump sets the spare byte to 0 and clears the mark."
        spare = bytes(self.kind.size - len(data))
        self.memory[self.kind.part(place)] = data + spare
        if self.kind.has_marks:
            self.marks[place] = NOT_RECEIVED if spare else RECEIVED

    def answer(self, typed, named, places):
        """Write the dump that answers a request."""
        size = self.sent_size(places)
        data = b''.join(self.memory[self.kind.part(place)][:size]
                        for place in places)
        # "Requests are answered by the dump with the same type, version 0."
        return self.write(self.kind.header, (DUMP, typed), named, (VERSION,),
                          split(data), END_BYTE)

    def sent_size(self, places):
        """Return how many bytes of each of these places go out."""
        # Req 06: "Single dumps go out in the length their mark says; an all
        # programs dump is long only if all 36 marks are set."
        if self.kind.has_marks and not all(self.marks[place] == RECEIVED
                                           for place in places):
            return min(self.kind.sizes)
        return self.kind.size

    def identify(self, channel):
        """Answer an identity request, or refuse it with 22."""
        # "Taken when cc is the channel, or 7F, or omni is on; else 22."
        if channel != EVERY_CHANNEL and not self.settings.hear(channel):
            return OTHER_IDENTITY, 0
        # "with cc as received"
        return self.write(IDENTITY_FRONT, (channel,), IDENTITY_REPLY,
                          self.kind.identity, self.settings.revision,
                          END_BYTE)

    def write(self, *pieces):
        """Write a reply: "first bytes of the reply buffer"."""
        reply = b''.join(map(bytes, pieces))
        self.reply[:len(reply)] = reply
        return REPLIED, len(reply)
