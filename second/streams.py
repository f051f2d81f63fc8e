"""Two sockets, panel and desk at once: what demand 3 says, held against runs.

A plan has a kind of box, a stream of bytes for each socket, the panel's
messages and the lighting desk's lists of moves, each with the player that it
names. It is played five times, from the same memory and marks and under the
same settings: mixed in an order of finishing, mixed otherwise in the same
order, mixed in another order, and for each of the two orders one message at a
time. Both receivers start fresh, no call is turned away for what it lends or
is set to, every call lends its own socket's receiver and buffer, and the
settings stay, the kind too: demand 3's premises.

A call is named by its source and its place there: the place of a byte in
its socket's stream, of a message among the panel's or of a list among the
desk's. "Finishing" calls are those of the last bytes of finished messages ("A
message the panel hands over whole is finished at its call"; Req 05: "Demand 3
counts each move of a list not refused with 30 to 34 as a message finished at
that call"); a byte that cuts a SysEx has a number and finishes nothing. A
list's number is those noted for its moves. Compared are:

any two runs (`Run.own`): "each socket's finished messages depend on that
socket's bytes alone". For each socket, the same places have a number, and
each has the same number, receive buffer and receiver, and a reply with the
same first bytes: it is of the same form, and names the same program. 3 and 19
count as one, for which of them a finished controller message gets depends
on byte 46, and so on what the others finished before it; which length a
reply has depends in the same way on marks. (A program change that a Bass box
takes is 1 in any run: what it copies depends on the others, and its number
does not.)

two runs in the same order of finishing (`Run.all`): nothing but that order
matters. Each place has the same number, reply length, reply, receive buffer
and receiver, each finishing call leaves the same memory, marks and reply
buffer, and memory and marks at the end are the same, byte for byte.

a run and one message at a time (`Run.effects`): "The programs, the edit
buffer and the replies sent are exactly those of carrying out the finished
messages whole, one at a time, in the order their last bytes arrived." Req 08:
"Demand 3 is read with the sender's buffer in each message." A SysEx is handed
over whole, naming its sender, a channel message is sent on its sender's
socket with nothing between its bytes, a program change too. A list's moves
are "sent one by one on our channel"; one above 127, which no wire carries, is
a list for itself. What a socket finishes is found by box.py from that
socket's bytes alone. Each finishing call has the same number, reply length
and reply and leaves the same memory and marks (Req 06: "Demands 2 and 3 read
both lengths and the marks"), a list what its last move leaves. "Unfinished
and cut messages have no effect": they are left out there, and so are an empty
list and one of too many moves, which is refused with 33.
"""

from typing import NamedTuple, Union

from box import CONTROLLER, CUT, END_BYTE, TOO_LONG, Receiver
from chance import (REAL_TIME, asking, fragment, over_list, some_list,
                    storing, storing_all)
from controllers import APPLIED, NOT_SELECTED, TOP
from kinds import MARK_COUNT, PLAYERS, START
from messages import PAD, edit_with, in_each_length
from moves import MOST, TOO_MANY, in_pairs
from script import Script

SOCKETS, PANEL, DESK = PLAYERS, 2, 3
# Numbers of calls that finish nothing: an empty list has none, and one that
# is refused has that of its refusal.
NOTHING = (CUT, (), (TOO_MANY,))
# Of a reply's line, the letter, the tab and the bytes before the data: up to
# "pp", or to "vv" where no program is named.
FRONT = len('r\t') + 2 * 8


class Answer(NamedTuple):
    """What a player printed of one call."""

    number: Union[int, tuple]  # of a list, those of its moves
    length: int
    memory: str         # digests
    marks: str
    reply_buffer: str
    receive: str        # of its own socket; empty where it has none
    receiver: str
    reply: str          # in hex; empty where none was written


def finished(kind, stream):
    """Return {place: message} of what a socket's bytes alone finish."""
    receiver, receive = Receiver(), bytearray(kind.longest)
    messages = {}
    for place, byte in enumerate(stream):
        number, sysex, channel = receiver.take(kind, byte, receive)
        if number == TOO_LONG:
            # as long as one can tell: one byte at least was dropped
            sysex = bytes(receive[:kind.most_stored]) + PAD + END_BYTE
        message = sysex if channel is None else channel
        if message is not None:
            messages[place] = message
    return messages


def make_stream(kind, chance, length):
    """Return a socket's bytes, with real-time bytes anywhere."""
    stream = bytearray()
    while len(stream) < length:
        for byte in fragment(kind, chance):
            stream.append(byte)
            if chance.randrange(20) == 0:
                stream.append(chance.choice(REAL_TIME))
    return bytes(stream)


def make_desk(kind, chance):
    """Return the desk's lists of moves, some of too many."""
    return [chance.choice((*(some_list,) * 15, over_list))(kind, chance)
            for _ in range(chance.randrange(12))]


def finished_moves(moves):
    """Return the moves that a list finishes: none where it is refused."""
    pairs = in_pairs(moves)
    return pairs if len(pairs) <= MOST else []


class Opening:
    """Kind, settings, memory and marks, with which runs begin."""

    def __init__(self, kind, chance):
        self.kind = kind
        self.settings = chance.choice(((0, 0), (0, 1), (5, 0)))
        self.programs = storing_all(kind, chance)
        self.edits = [chance.choice(in_each_length(kind, edit_with(
            kind, {46: chance.randrange(16)}, player))) for player in PLAYERS]
        self.marks = {chance.randrange(MARK_COUNT): chance.randrange(2)
                      for _ in range(chance.randrange(9))}

    def begin(self):
        """Return a script that sets all, and names for its calls."""
        script = Script(self.kind)
        script.whole(self.programs)
        for player, message in zip(PLAYERS, self.edits):
            script.name(player)
            script.whole(message)
        for place, mark in self.marks.items():
            script.mark(place, mark)
        script.settings(*self.settings)
        return script, [None] * (1 + len(self.edits))


class Plan(Opening):
    """What sockets, panel and desk send, and how runs begin."""

    def __init__(self, kind, chance):
        super().__init__(kind, chance)
        panel = [chance.choice((asking, storing))(kind, chance)
                 for _ in range(chance.randrange(8))]
        desk = make_desk(kind, chance)
        streams = [make_stream(kind, chance, chance.randrange(300, 3000))
                   for _ in SOCKETS]
        self.sources = (*streams, panel, desk)
        self.named = {source: chance.choices(PLAYERS, k=len(calls))
                      for source, calls in ((PANEL, panel), (DESK, desk))}
        self.finished = (*(finished(kind, stream) for stream in streams),
                         dict(enumerate(panel)),
                         dict(enumerate(map(finished_moves, desk))))

    def sender(self, source, place):
        """Return whose call it is: its socket's, or the player it names."""
        return source if source in SOCKETS else self.named[source][place]

    def order(self, chance):
        """Return an order of finishing: a source for each message or list."""
        order = [source for source, messages in enumerate(self.finished)
                 for _ in messages]
        chance.shuffle(order)
        return order

    def mix(self, chance, order):
        """Return every call's (source, place), finishing in this order."""
        ends = [*map(len, self.sources)]
        calls, places, turn = [], [0] * len(ends), 0
        # how long a source may go on: byte by byte, or in runs
        longest = chance.choice((1, 3, 100, 6000))
        while places != ends:
            source = chance.randrange(len(ends))
            for _ in range(chance.randrange(longest) + 1):
                place = places[source]
                finishing = place in self.finished[source]
                # one that would finish before its turn waits
                if place == ends[source] or (finishing
                                             and order[turn] != source):
                    break
                calls.append((source, place))
                places[source] += 1
                turn += finishing
        return calls

    def in_order(self, order):
        """Return the finishing calls' (source, place) in this order."""
        places = [iter(messages) for messages in self.finished]
        return [(source, next(places[source])) for source in order]

    def mixed_script(self, calls):
        """Return the script of mixed calls, and what its calls are."""
        script, named = self.begin()
        for source, place in calls:
            if source in SOCKETS:
                script.send(source, self.sources[source][place:place + 1])
                continue
            script.name(self.sender(source, place))
            hand = script.whole if source == PANEL else script.moves
            hand(self.sources[source][place])
        return bytes(script.commands), named + calls

    def single_script(self, calls):
        """Return the script of one message at a time, and its calls."""
        script, named = self.begin()
        for source, place in calls:
            player = self.sender(source, place)
            script.name(player)
            for count in self.add_singly(script, source, player,
                                         self.finished[source][place]):
                named += [None] * (count - 1) + [(source, place)]
        return bytes(script.commands), named

    def add_singly(self, script, source, player, message):
        """Carry out a message, or a list's moves; yield each one's calls."""
        if source == DESK:
            for move in message:
                yield self.add_move(script, player, bytes(move))
        elif source == PANEL or message[0] == START:
            script.whole(message)
            yield 1
        else:
            script.send(player, message)
            yield len(message)

    def add_move(self, script, player, move):
        """Carry out a list's move; return how many calls that takes."""
        if max(move) > TOP:
            script.moves(move)
            return 1
        channel, _ = self.settings
        script.send(player, (CONTROLLER << 4 | channel, *move))
        return 1 + len(move)


class Run:
    """What a player printed of a plan's calls."""

    def __init__(self, named, lines):
        self.answers = {}
        self.held = lines[-3:-1]  # memory and marks at the end
        for line, following in zip(lines, lines[1:]):
            letter, at, *fields = line.split('\t')
            if letter in ('S', 'W', 'V') and named[int(at)] is not None:
                call = named[int(at)]
                self.add(call, read_answer(call[0], fields, following))

    def add(self, call, answer):
        """Keep an answer, a further one of a list behind those before it."""
        if call in self.answers:
            answer = answer._replace(
                number=self.answers[call].number + answer.number)
        self.answers[call] = answer

    def own(self):
        """Return of each socket's calls what its bytes alone decide."""
        return {
            call: (APPLIED if answer.number == NOT_SELECTED
                   else answer.number,
                   answer.reply[:FRONT], answer.receive, answer.receiver)
            for call, answer in self.answers.items() if call[0] in SOCKETS}

    def all(self):
        """Return of every call what the order of finishing decides."""
        # a cut's place among what the others finish is not in that order
        calls = {call: answer if answer.number != CUT
                 else answer._replace(memory='', marks='', reply_buffer='')
                 for call, answer in self.answers.items()}
        return {**calls, 'held': self.held}

    def effects(self):
        """Return of every finishing call what it did."""
        calls = {call: (answer.number, answer.length, answer.reply,
                        answer.memory, answer.marks)
                 for call, answer in self.answers.items()
                 if answer.number not in NOTHING}
        return {**calls, 'held': self.held}


def read_answer(source, fields, following):
    """Return the answer of a call's line and of the line behind it."""
    number, length, memory, marks, reply_buffer, *sockets = fields
    own = sockets[source::2] if source in SOCKETS else ('', '')
    reply = following if following.startswith('r') else ''
    return Answer(read_number(source, number, following), int(length),
                  memory, marks, reply_buffer, *own, reply)


def read_number(source, number, following):
    """Return a call's number; of a list, or of a move of it, a tuple."""
    if source != DESK:
        return int(number)
    letter, _, noted = following.partition('\t')
    return tuple(bytes.fromhex(noted)) if letter == 'n' else (int(number),)


def play_plan(kind, chance, play):
    """Play a plan, and yield (what, two scripts, what must be equal)."""
    plan = Plan(kind, chance)
    orders = plan.order(chance), plan.order(chance)
    one, two, other = (plan.mixed_script(plan.mix(chance, order))
                       for order in (orders[0], *orders))
    singles = [plan.single_script(plan.in_order(order)) for order in orders]
    first, again, third, *whole = (
        Run(named, play(script))
        for script, named in (one, two, other, *singles))
    yield ('any two runs', one[0], other[0], first.own(), third.own())
    yield ('the same order of finishing', one[0], two[0], first.all(),
           again.all())
    yield ('one message at a time', one[0], singles[0][0], first.effects(),
           whole[0].effects())
    yield ('one message at a time', other[0], singles[1][0], third.effects(),
           whole[1].effects())
