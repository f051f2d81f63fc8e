"""Write a script in the form of REPLAY.md."""

from box import Settings
from kinds import ONE, POD, edit_place
from messages import SEGMENT
from player import OWN_LENT, PARTS, PROGRAMS_LENT, Message, wave

WORTH_P = 8  # so many changes at once are worth a P
REVISION = bytes(Settings().revision)


class Script:
    """The commands written so far; message, kind and player they leave."""

    def __init__(self, kind=POD):
        self.commands = bytearray()
        self.message = Message()
        self.player = ONE
        self.kind = POD  # at first the kind's number and what is lent are
        if kind is not POD:
            self.become(kind)

    def add(self, op, a=0, b=0, v=0):
        """Write one command."""
        self.commands += bytes((ord(op), a, b, v))

    def add_wide(self, op, number):
        """Write a command with a number n + 2^24 x v."""
        self.add(op, number % 256, number // 256 % 256, number >> 24)

    def edit(self, op, n, v=0):
        """Write L, B or P, and do it."""
        self.add(op, n % 256, n // 256, v)
        self.message.edit(op, n, v)

    def put(self, message):
        """Make the message these bytes, with few commands."""
        self.edit('L', len(message))
        place = self.next_change(message, 0)
        while place is not None:
            if self.gain(message, place) < WORTH_P:
                self.edit('B', place, message[place])
            else:
                self.edit('P', place, (message[place] - 7 * place) % 16)
            place = self.next_change(message, place + 1)

    def next_change(self, message, start):
        """Return the next place where the buffer is to change, or None."""
        buffer = self.message.buffer
        return next((place for place in range(start, len(message))
                     if buffer[place] != message[place]), None)

    def gain(self, message, place):
        """Count the changes that a P here gets right in a row."""
        changes = 0
        part = slice(place, place + SEGMENT)
        for old, new, written in zip(self.message.buffer[part], message[part],
                                     wave(message[place], SEGMENT)):
            if new != written:
                break
            changes += new != old
        return changes

    def settings(self, channel, omni):
        """Set channel and omni."""
        self.add('C', channel, omni)

    def revision(self, place, byte):
        """Set one revision byte."""
        self.add('R', place, 0, byte)

    def settings_back(self):
        """Set every setting as it is at first."""
        self.settings(0, 0)
        for place, byte in enumerate(REVISION):
            self.revision(place, byte)

    def poke(self, place, byte):
        """Set a byte of memory."""
        self.add('Y', place % 256, place // 256, byte)

    def mark(self, place, mark):
        """Set a mark: a program's, an edit buffer's or one behind."""
        self.add('A', place, 0, mark)

    def lend(self, buffer, length):
        """Lend so many bytes of a buffer from now on."""
        self.add('Z', length % 256, length // 256, buffer)

    def lend_back(self, buffer):
        """Lend as much of a buffer as the kind wants."""
        self.lend(buffer, self.kind.least[buffer])

    def bring(self, number):
        """Bring this number n + 2^24 x v as the kind's from now on."""
        self.add_wide('T', number)

    def bring_back(self):
        """Bring the number of the kind that the box is."""
        self.bring(self.kind.number)

    def become(self, kind):
        """Make the box another kind: its number, and what it wants lent."""
        self.kind = kind
        self.bring_back()
        for buffer in range(len(kind.least)):
            self.lend_back(buffer)
        self.lend_screen_back()

    def name(self, number):
        """Name this number n + 2^24 x v as the player's from now on."""
        self.add_wide('O', number)

    def turn_to(self, player):
        """Name a player from now on, and lend a screen its buffer."""
        self.player = player
        self.name_back()
        self.lend_screen_back()

    def name_back(self):
        """Name the player that was turned to."""
        self.name(self.player)

    @property
    def edit_start(self):
        """Return where the edit buffer of the player turned to begins."""
        return self.kind.part(edit_place(self.player)).start

    def lend_screen(self, length, place):
        """Lend a screen so many first bytes, and memory from a place on."""
        self.lend(PROGRAMS_LENT, length)
        self.lend(OWN_LENT, place)

    def lend_screen_back(self):
        """Lend a screen the programs and its player's buffer."""
        self.lend_screen(self.kind.programs_length, self.edit_start)

    def receiver(self, socket, stored=0, **parts):
        """Set all of a receiver; a part that is not named is 0."""
        self.add('E', 0, socket, stored % 256)
        self.add('E', 1, socket, stored // 256)
        for part, name in PARTS.items():
            self.add('E', part, socket, parts.get(name, 0))

    def controller(self, number):
        """Set the controller's number."""
        for half in (number >> 16, number & 0xFFFF):
            self.add('N', half % 256, half // 256)

    def scale(self, *values):
        """Ask for the controller's number for values n + 2^24 x v."""
        for value in values:
            self.add_wide('K', value)

    def back(self, *controllers):
        """Ask what controllers show."""
        for controller in controllers:
            self.controller(controller)
            self.add('D')

    def screen(self, program, *owns):
        """Ask for a screen's part, with numbers own n + 2^24 x v."""
        self.controller(program)
        for own in owns:
            self.add_wide('X', own)

    def amp(self, *models):
        """Ask whether amp models n + 2^24 x v are known."""
        for model in models:
            self.add_wide('G', model)

    def whole(self, message):
        """Hand a message over whole."""
        self.put(message)
        self.add('W')

    def moves(self, moves):
        """Hand over a list of moves, bytes here: controller, then value."""
        self.put(moves)
        self.add('V')

    def moves_hex(self, text):
        """Hand over a list of moves written in hex."""
        self.moves(bytes.fromhex(text))

    def feed(self, socket, message):
        """Send a message by M on a socket a + 2^24 x b."""
        self.put(message)
        self.add('M', socket % 256, socket >> 24)

    def send(self, socket, data):
        """Send bytes by S on a socket a + 2^24 x b."""
        for byte in data:
            self.add('S', socket % 256, socket >> 24, byte)

    def send_hex(self, socket, text):
        """Send bytes written in hex on a socket by S."""
        self.send(socket, bytes.fromhex(text))
