"""Two players at once: Req 08's sentence on pairs of runs, held against runs.

"Take two runs under demand 3's premises with equal memory and marks, the same
settings and kind, no call refused with 30 to 34, the same bytes from player
one, the same panel, list and sheet calls at the same places, and the same
finished program and all programs dumps from player two, finishing at the same
places among these. All else from player two differs at will. Then player
one's numbers, replies and edit buffer are equal, and so are the programs;
likewise with the players exchanged."

A duo has one player's bytes, panel messages and lists that name either
player, screens of the first, and dumps that store programs from the other. A
run makes all these calls in one order, a dump's at its last byte; between
them comes what the other player sends at will in that run (`Duo.at_will`):
knobs, edit dumps, program changes, requests, cut and refused messages,
garbage, and real-time bytes in the dumps too. A dump that is refused stores
nothing, and is at will.

Compared are the player's calls, those that name it too, each by its number,
what it is handed and the length of that (a reply, the numbers of a list, a
screen's part), and at the end its edit buffer, the programs and their marks.
The numbers of the other's dumps that store programs are compared as well.
"""

from box import STORED, Box
from chance import REAL_TIME, asking, some_list, storing, storing_all
from kinds import EDIT, PLAYERS, PROGRAM, PROGRAMS, START, edit_place
from messages import dump, in_each_length, noise
from streams import Opening, finished, make_stream

BYTE, PANEL, LIST, SCREEN, DUMP = 'byte', 'panel', 'list', 'screen', 'dump'


def stores_programs(kind, message):
    """Say whether a finished message stores a program or all."""
    return (message[0] == START and message[6:7] != bytes((EDIT,))
            and Box(kind).whole(message)[0] == STORED)


def some_dump(kind, chance):
    """Return a dump of a program, now and then of all, of any length."""
    if chance.randrange(6) == 0:
        return storing_all(kind, chance)
    return chance.choice(in_each_length(kind, dump(
        kind, PROGRAM, noise(chance.getrandbits(32), kind.halves),
        chance.randrange(PROGRAMS))))


def some_edit(kind, chance):
    """Return an edit buffer's dump of any length."""
    return chance.choice(in_each_length(kind, dump(
        kind, EDIT, noise(chance.getrandbits(32), kind.halves))))


def storing_none(kind, chance):
    """Return any bytes that store no program."""
    while True:
        stream = make_stream(kind, chance, chance.randrange(300))
        if not any(stores_programs(kind, message)
                   for message in finished(kind, stream).values()):
            return stream


def ticking(message, chance):
    """Return a message with real-time bytes anywhere."""
    ticks = bytearray(message)
    for _ in range(chance.randrange(4)):
        ticks.insert(chance.randrange(len(ticks) + 1),
                     chance.choice(REAL_TIME))
    return bytes(ticks)


def pieces(stream, count, chance):
    """Return bytes cut into so many pieces, anywhere."""
    cuts = sorted(chance.choices(range(len(stream) + 1), k=count - 1))
    return [stream[start:end]
            for start, end in zip((0, *cuts), (*cuts, len(stream)))]


class Duo(Opening):
    """What is the same in two runs: how they begin, and their calls.

    A call is what it is, whose and its data.
    """

    def __init__(self, kind, player, chance):
        super().__init__(kind, chance)
        self.player, self.other = player, PLAYERS[1 - player]
        self.calls = [(BYTE, player, byte) for byte in make_stream(
            kind, chance, chance.randrange(200, 1200))]
        for call in (*self.panel_calls(chance), *self.other_calls(chance)):
            self.calls.insert(chance.randrange(len(self.calls) + 1), call)

    def panel_calls(self, chance):
        """Yield panel messages and lists, of either player."""
        for _ in range(chance.randrange(8)):
            yield (PANEL, chance.choice(PLAYERS),
                   chance.choice((asking, storing))(self.kind, chance))
            yield (LIST, chance.choice(PLAYERS),
                   some_list(self.kind, chance))

    def other_calls(self, chance):
        """Yield the player's screens, and the other player's dumps."""
        for _ in range(chance.randrange(5)):
            yield (SCREEN, self.player,
                   (chance.randrange(PROGRAMS), chance.randrange(2)))
            yield DUMP, self.other, some_dump(self.kind, chance)

    def run(self, chance):
        """Return the script of a run, and what its calls are."""
        script, named = self.begin()
        for place, (piece, (what, player, data)) in enumerate(zip(
                self.between(chance), self.calls)):
            script.send(self.other, piece)
            add_call(script, what, player, data)
            named += [None] * len(piece)
            named.append((what, place) if what == DUMP
                         or player == self.player else None)
        return bytes(script.commands), named

    def between(self, chance):
        """Yield the other's bytes before each call."""
        start = 0
        for end, (what, _, data) in enumerate(self.calls, 1):
            if what == DUMP or end == len(self.calls):
                stream = self.at_will(data if what == DUMP else b'', chance)
                yield from pieces(stream, end - start, chance)
                start = end

    def at_will(self, given, chance):
        """Return the other's bytes up to the last of a dump, or of none."""
        return (storing_none(self.kind, chance) + some_edit(self.kind, chance)
                + storing_none(self.kind, chance)
                + ticking(given[:-1], chance))

    def seen(self, named, lines):
        """Return what the player is given, its buffer and the programs."""
        memory, marks = map(read_hex, lines[-3:-1])
        places = (*range(PROGRAMS), edit_place(self.player))
        held = {f'place {place} at the end':
                (memory[self.kind.part(place)].hex(), marks[place])
                for place in places}
        return {**held, **{
            named[int(at)]: answer for at, *answer in answers(lines)
            if named[int(at)] is not None}}

    def others(self, lines):
        """Return the other player's edit buffer at the end."""
        return read_hex(lines[-3])[self.kind.part(edit_place(self.other))]


def add_call(script, what, player, data):
    """Write one call that is the same in both runs."""
    if what == BYTE:
        script.send(player, (data,))
    elif what == DUMP:
        script.send(player, data[-1:])
    elif what == SCREEN:
        script.turn_to(player)
        script.screen(*data)
    else:
        script.name(player)
        (script.whole if what == PANEL else script.moves)(data)


def answers(lines):
    """Yield each call's count, number, length and further line."""
    for line, following in zip(lines, lines[1:]):
        letter, *fields = line.split('\t')
        if letter in ('S', 'W', 'V', 'X'):
            further = following if following[0] in 'rnx' else ''
            yield *fields[:3], further


def read_hex(line):
    """Return the bytes of a line that is a letter and hex digits."""
    return bytes.fromhex(line.split('\t')[1])


def play_duo(kind, player, chance, play):
    """Play a duo twice; return what, two scripts, and what must be equal.

    Behind these is the other player's buffer of each run, in a pair.
    """
    duo = Duo(kind, player, chance)
    (one, named), (two, again) = duo.run(chance), duo.run(chance)
    lines, other_lines = play(one), play(two)
    return (f'what player {player} is given', one, two,
            duo.seen(named, lines), duo.seen(again, other_lines),
            (duo.others(lines), duo.others(other_lines)))
