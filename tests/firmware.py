"""The firmware's box, run on files and pipes, against documents 01 and 02.

python3 tests/firmware.py BOX FAULTY RUNNER..

Called in the repository's root. RUNNER.. is what runs a program, BOX the
firmware, FAULTY the same over a library that finds a fault at the first byte.
Says nothing where all is well.
"""

import os
import re
import signal
import subprocess
import sys
import tempfile
import time
from contextlib import closing
from fcntl import F_SETPIPE_SZ, fcntl, ioctl
from pathlib import Path
from struct import unpack, unpack_from
from termios import FIONREAD
from typing import NamedTuple

BOX, FAULTY, *RUNNER = sys.argv[1:]
PATIENCE = 60  # seconds for a check, under an emulator too
MOST_SAID = 4096  # a box that says more waits for ever, and is ended
PROGRAMS = 36
PLAYERS = 2
# "Each program and the edit buffer now carry a mark"; "each [player] has an
# edit buffer"
SET = bytes((PROGRAMS + PLAYERS) * [1])

IDENTITY = bytes.fromhex('F0 7E 7F 06 01 F7')
# a controller, an identity request and a program change for another channel
OTHER_CHANNEL = bytes.fromhex('B1 0D 7F F0 7E 01 06 01 F7 C1 05')


def pattern(length, seed):
    """Return bytes that differ from place to place."""
    return bytes((seed + 37 * place) % 256 for place in range(length))


def changed(message, place, byte):
    """Return a message with another byte at a place."""
    whole = bytearray(message)
    whole[place] = byte
    return bytes(whole)


class Kind(NamedTuple):
    """A kind of unit as the documents have it, and its messages."""

    word: str
    size: int       # bytes of a program
    memory: int
    device: int     # the header's last byte
    identity: str
    changes: bool   # whether a program change is taken

    def sysex(self, *pieces):
        """Return a message of this unit."""
        return b''.join((bytes((0xF0, 0x00, 0x01, 0x0C, self.device)),
                         *map(bytes, pieces), b'\xF7'))

    def ask(self, program):
        """Return the request for a program."""
        return self.sysex((0, 0, program))

    def ask_edit(self):
        """Return the request for the edit buffer."""
        return self.sysex((0, 1))

    def ask_all(self):
        """Return the request for all programs."""
        return self.sysex((0, 2))

    def dump(self, program, data):
        """Return the dump of a program."""
        return self.sysex((1, 0, program, 0), halves(data))

    def dump_edit(self, data):
        """Return the dump of the edit buffer."""
        return self.sysex((1, 1, 0), halves(data))

    def dump_all(self, data):
        """Return the dump of all programs."""
        return self.sysex((1, 2, 0), halves(data))

    def identified(self):
        """Return the answer to the identity request."""
        return bytes.fromhex(f'F0 7E 7F 06 02 00 01 0C {self.identity}'
                             '30 31 30 30 F7')

    def program(self, seed):
        """Return the bytes of a program."""
        return pattern(self.size, seed)

    def programs(self, seed):
        """Return the bytes of all programs."""
        return pattern(PROGRAMS * self.size, seed)

    def short(self, data):
        """Return the bytes of programs without the last of each."""
        return b''.join(data[place:][:self.size - 1]
                        for place in range(0, len(data), self.size))


def halves(data):
    """Return the half bytes of bytes."""
    # "A byte travels as its high half, then its low half."
    return bytes(half for byte in data for half in (byte >> 4, byte & 0x0F))


# "Memory grows by one edit buffer, player two's, last."
POD = Kind('pod', 72, 2664 + 72, 0x01, '00 00 00 01', False)
BASS = Kind('bass', 80, 2960 + 80, 0x02, '02 00 00 00', True)
PRO = Kind('pro', 72, 2664 + 72, 0x01, '00 00 00 04', False)
KINDS = POD, BASS, PRO


class Ran(NamedTuple):
    """What a run of the box left."""

    status: int
    said: str
    replies: tuple


class Bench:
    """A folder with a programs file, and the box of a kind beside it."""

    def __init__(self, folder, kind):
        self.kind = kind
        self.folder = Path(folder)
        self.programs = self.folder / 'programs'
        self.new = self.folder / 'programs.new'
        self.inputs = self.folder / 'input0', self.folder / 'input1'
        self.outputs = self.folder / 'output0', self.folder / 'output1'
        self.started = []
        # what is fed: two programs, and twice all programs; and a file
        self.one, self.other = kind.program(3), kind.program(4)
        self.every, self.every_other = kind.programs(5), kind.programs(6)
        self.some = pattern(kind.memory, 1) + SET
        self.zero = bytes(kind.size)
        self.zeros = PLAYERS * self.zero

    def begin(self, program, *words):
        """Start a program with these words."""
        box = subprocess.Popen([*RUNNER, program, *words],
                               stderr=subprocess.PIPE, text=True)
        self.started.append(box)
        return box

    def start(self, *files, program=BOX):
        """Start the box; without files, on those of the folder."""
        files = files or (self.programs, *self.inputs, *self.outputs)
        return self.begin(program, self.kind.word, *files)

    def end(self, box):
        """Wait for the box and return what it left."""
        said = box.stderr.read(MOST_SAID)
        return Ran(box.wait(), said, tuple(
            path.read_bytes() if path.is_file() else b''
            for path in self.outputs))

    def run(self, *streams, **options):
        """Run the box to its end with these bytes in its inputs."""
        for path in self.inputs + self.outputs:
            if path.is_fifo():
                path.unlink()
        for path, stream in zip(self.inputs, streams):
            path.write_bytes(stream)
        return self.end(self.start(**options))

    def run_piped(self, *streams):
        """Run the box to its end, with its inputs fed by pipes."""
        for path, stream in zip(self.inputs, streams):
            source = path.with_suffix('.bytes')
            source.write_bytes(stream)
            path.unlink(missing_ok=True)
            os.mkfifo(path)
            self.started.append(subprocess.Popen(
                ['sh', '-c', 'exec cat "$0" >"$1"', source, path]))
        return self.end(self.start())

    def live(self):
        """Start the box on four pipes; return it and our ends of them."""
        for path in self.inputs + self.outputs:
            path.unlink(missing_ok=True)
            os.mkfifo(path)
        box = self.start()
        # in the box's order: each side waits for the other here
        return (box, [open(path, 'wb', 0) for path in self.inputs],
                [open(path, 'rb') for path in self.outputs])

    def saved(self):
        """Return the bytes of the programs file."""
        return self.programs.read_bytes()

    def saved_program(self, program):
        """Return the bytes of a program, or an edit buffer, of the file."""
        return self.saved()[program * self.kind.size:][:self.kind.size]

    def wait_until_saved(self, program, data):
        """Wait until the programs file has this program."""
        while not (self.programs.exists()
                   and self.saved_program(program) == data):
            time.sleep(0.02)

    def stands(self):
        """Return what another file in the programs file's place changes."""
        stat = self.programs.stat()
        return stat.st_ino, stat.st_mtime_ns

    def close(self):
        """End what is still running."""
        for process in self.started:
            process.kill()
            process.wait()


def well(*replies):
    """Return what a run leaves in which nothing failed."""
    return Ran(0, '', replies)


def failed_at(ran, path):
    """Say whether a run failed and named this file, and only this."""
    return (ran.status == 1 and ran.said.count('\n') == 1
            and f' {path}: ' in ran.said)


def check_exports(_):
    """The archive offers what the header declares, and nothing else."""
    archive = Path('target/staticlib/libcosterbloom.a').read_bytes()
    assert archive.startswith(b'!<arch>\n/ ')
    # the archive's first member is its index: a count, places, names
    index = archive[68:][:int(archive[56:66])]
    count, = unpack_from('>I', index)
    offered = index[4 + 4 * count:].rstrip(b'\0\n').split(b'\0')
    header = Path('include/costerbloom.h').read_bytes()
    declared = re.findall(rb'^uint\d+_t (costerbloom_\w+)\(', header, re.M)
    assert sorted(offered) == sorted(declared), offered


def check_bench_case(bench):
    """Document 01's listing input, with a request on the other socket."""
    kind = bench.kind
    # the program change at its end is 21: on a Bass POD of 37, not of 5
    change = 'C0 25' if kind.changes else 'C0 05'
    stream = bytes.fromhex('B0 0D 7F F8 0E 40 F0 7E 7F 06 01 F7' + change)
    assert bench.run(stream, kind.ask(0)) == well(kind.identified(),
                                                  kind.dump(0, bench.zero))
    # "v/2: 13>9 .. 14>11"; "13>4, 14>6 .. by v/2"
    drive, bass = (4, 6) if kind is BASS else (9, 11)
    edit = bytearray(kind.size)
    edit[drive], edit[bass] = 0x7F // 2, 0x40 // 2
    assert bench.saved() == (bytes(PROGRAMS * kind.size) + edit + bench.zero
                             + SET)


def check_program_change(bench):
    """A program change is stored and kept by a Bass POD alone."""
    bench.programs.write_bytes(bench.some)
    kind = bench.kind
    # "a program change of 1 to 36 .. copies program 0 to 35 into the edit
    # buffer", the sender's own; "0 (manual), 37 (tuner) and above" do not
    streams = [bytes((0xC0, 1, change, 0, 0x25, 0x7F)) + kind.ask_edit()
               for change in (8, 36)]
    places = (7, 35) if kind.changes else (PROGRAMS, PROGRAMS + 1)
    edits = [bench.some[place * kind.size:][:kind.size] for place in places]
    assert bench.run(*streams) == well(*map(kind.dump_edit, edits))
    assert bench.saved() == (bench.some[:PROGRAMS * kind.size]
                             + b''.join(edits) + SET)


def check_pro_moves(bench):
    """Controller 12 at 31 and controller 9 are applied by a POD Pro alone."""
    stream = bytes.fromhex('B0 0C 1F 09 7F')
    assert bench.run(stream, b'') == well(b'', b'')
    edit = bytearray(bench.kind.size)
    if bench.kind is PRO:
        # "amp model up to 31, and controller 9 to byte 35 by v/2"
        edit[8], edit[35] = 0x1F, 0x7F // 2
    assert bench.saved() == (bytes(PROGRAMS * bench.kind.size) + edit
                             + bench.zero + SET)


def check_other_device(bench):
    """A dump with the other device byte is not ours, on either socket."""
    bench.programs.write_bytes(bench.some)
    other = POD if bench.kind is BASS else BASS
    streams = (other.dump(0, other.program(3)) + other.ask(0),
               other.dump_all(other.programs(5)) + other.ask_edit())
    assert bench.run(*streams) == well(b'', b'')
    assert bench.saved() == bench.some


def check_exchanged(bench):
    """A POD Pro's dumps and its file are a POD's too, and the other way."""
    other = POD if bench.kind is PRO else PRO
    # "Either unit's dump may be stored in either", with an amp model that
    # a POD does not know
    one, short = changed(bench.one, 8, 31), other.short(bench.other)
    assert (bench.run(other.dump(7, one), other.dump_edit(short))
            == well(b'', b''))
    saved = bench.saved()
    with closing(Bench(bench.folder, other)) as beside:
        assert (beside.run(other.ask(7) + IDENTITY, other.ask_edit())
                == well(other.dump(7, one) + other.identified(),
                        other.dump_edit(short)))
    assert bench.saved() == saved


def check_kept(bench):
    """What one run stored, the next one sends: programs to both players."""
    kind, one, other = bench.kind, bench.one, bench.other
    edit = kind.dump_edit(other)
    file = bytes(35 * kind.size) + one + bench.zero + other + SET
    assert bench.run(kind.dump(0x23, one), edit) == well(b'', b'')
    assert bench.saved() == file
    program = kind.dump(0x23, one)
    assert (bench.run(kind.ask(0x23) + kind.ask_edit(),
                      kind.ask_edit() + kind.ask(0x23))
            == well(program + kind.dump_edit(bench.zero), edit + program))
    assert bench.saved() == file
    assert not bench.new.exists()


def check_duo(bench):
    """Each player's edit buffer is their own; the programs are both's."""
    kind, one, other = bench.kind, bench.one, bench.other
    programs = bench.some[:PROGRAMS * kind.size]
    bench.programs.write_bytes(bench.some)
    # "v/2: 13>9"; "13>4 .. by v/2": a move, into its player's buffer alone
    drive = 4 if kind is BASS else 9
    moved = [changed(data, drive, value // 2)
             for data, value in ((one, 0x7F), (other, 0x10))]
    assert (bench.run(kind.dump_edit(one) + b'\xB0\x0D\x7F'
                      + kind.ask_edit(),
                      kind.dump_edit(other) + b'\xB0\x0D\x10'
                      + kind.ask_edit())
            == well(*map(kind.dump_edit, moved)))
    assert bench.saved() == programs + b''.join(moved) + SET
    for player, before in enumerate(moved):
        # what the other sends of these leaves this player's buffer
        streams = [kind.ask_edit(), kind.ask_edit()]
        streams[1 - player] = (kind.dump_edit(kind.program(20 + player))
                               + b'\xB0\x0D\x33\xC0\x07')
        ran = bench.run(*streams)
        assert ran.status == 0 and ran.replies[player] == kind.dump_edit(
            before), ran
        assert bench.saved_program(PROGRAMS + player) == before
        assert bench.saved()[:PROGRAMS * kind.size] == programs
        bench.programs.write_bytes(programs + b''.join(moved) + SET)


def check_earlier(bench):
    """A file of one player, with or without marks, is read and made new."""
    kind, size = bench.kind, bench.kind.size
    memory = bench.some[:-len(SET) - size]
    programs, edit = memory[:-size], memory[-size:]
    # programs and the edit buffer, then as many marks or none
    clear = b'\1\0' + SET[2:PROGRAMS] + b'\0'
    for marks in b'', SET[:PROGRAMS + 1], clear:
        sent = kind.short if marks is clear and kind is not BASS else bytes
        bench.programs.write_bytes(memory + marks)
        assert (bench.run(kind.ask_all() + kind.ask_edit(), kind.ask_edit())
                == well(kind.dump_all(sent(programs))
                        + kind.dump_edit(sent(edit)),
                        kind.dump_edit(bench.zero)))
        assert bench.saved() == memory + marks
        assert bench.run(kind.dump(0, bench.one), b'') == well(b'', b'')
        # player two's buffer is fresh, and its mark is set
        assert bench.saved() == (bench.one + memory[size:] + bench.zero
                                 + (marks or SET[:-1]) + b'\1')
        assert bench.run(b'', kind.dump_edit(bench.other)) == well(b'', b'')
        assert bench.saved() == (bench.one + memory[size:] + bench.other
                                 + (marks or SET[:-1]) + b'\1')


def check_short(bench):
    """What came short, the next run sends short, and nothing else."""
    kind, size = bench.kind, bench.kind.size
    one, other = kind.short(bench.one), kind.short(bench.other)
    dump, edit = kind.dump(0, one), kind.dump_edit(other)
    bench.programs.write_bytes(bench.some)
    assert bench.run(dump, edit) == well(b'', b'')
    # "A short dump sets the spare byte to 0 and clears the mark."
    programs = one + b'\0' + bench.some[size:PROGRAMS * size]
    edits = bench.some[PROGRAMS * size:][:size] + other + b'\0'
    file = programs + edits + b'\0' + SET[1:PROGRAMS] + b'\1\0'
    assert bench.saved() == file
    # "an all programs dump is long only if all 36 marks are set"
    every = kind.dump_all(kind.short(programs))
    long = kind.dump(1, programs[size:][:size])
    assert (bench.run(kind.ask(0) + kind.ask(1), kind.ask_edit()
                      + kind.ask_all()) == well(dump + long, edit + every))
    assert bench.saved() == file
    long = kind.dump(0, bench.one)
    every = kind.dump_all(bench.one + programs[size:])
    assert bench.run(long + kind.ask_all(), b'') == well(every, b'')
    assert bench.saved() == (bench.one + programs[size:] + edits
                             + SET[:PROGRAMS] + b'\1\0')
    # "Single dumps go out in the length their mark says": each player's
    assert (bench.run(kind.ask_edit(), kind.ask_edit())
            == well(kind.dump_edit(edits[:size]), edit))


def check_short_all(bench):
    """All programs that came short are kept and sent so."""
    kind = bench.kind
    every = kind.dump_all(kind.short(bench.every))
    assert bench.run(b'', every) == well(b'', b'')
    programs = bytearray(bench.every)
    programs[kind.size - 1::kind.size] = bytes(PROGRAMS)
    assert bench.saved() == (programs + bench.zeros + bytes(PROGRAMS)
                             + PLAYERS * b'\1')
    assert (bench.run(kind.ask_all(), kind.ask_edit())
            == well(every, kind.dump_edit(bench.zero)))


def check_mark_alone(bench):
    """A dump that changes nothing but a mark is saved as any other."""
    kind = bench.kind
    bench.programs.write_bytes(bytes(kind.memory) + SET)
    box, (in0, in1), _ = bench.live()
    in0.write(kind.dump(0, kind.short(bench.zero)))
    while bench.saved() != bytes(kind.memory) + b'\0' + SET[1:]:
        time.sleep(0.02)
    in0.close()
    in1.close()
    assert bench.end(box).status == 0


def check_marks_left(bench):
    """What is no dump moves no mark, and on a Bass POD nothing does."""
    kind = bench.kind
    memory = bench.some[:kind.memory]
    marks = bytes(place % 3 % 2 for place in range(len(SET)))
    bench.programs.write_bytes(memory + marks)
    stream = bytes.fromhex('B0 0D 7F C0 01') + kind.ask(1) + kind.ask_all()
    if kind is BASS:
        stream += (kind.dump(0, bench.one) + kind.dump_all(bench.every)
                   + kind.dump_edit(bench.other))
    assert bench.run(stream, b''.join(refused(bench))).status == 0
    assert bench.saved()[:kind.memory] != memory
    assert bench.saved()[kind.memory:] == marks


def refused(bench):
    """Return messages that store nothing, each for another reason."""
    kind = bench.kind
    good = kind.dump_all(bench.every)
    short = kind.dump_all(kind.short(bench.every))
    return (changed(good, -2, 0x10), changed(good, 7, 1),
            good[:-2] + good[-1:],
            changed(kind.dump(0, bench.one), 7, 0x24),
            good[:-1] + b'\xF6', OTHER_CHANNEL, good[:-1],
            changed(short, -2, 0x10), changed(short, 7, 1),
            short[:-2] + short[-1:],
            changed(kind.dump(0, kind.short(bench.one)), 7, 0x24),
            short[:-1] + b'\xF6', short[:-1])


def check_refused(bench):
    """Refused, cut and unfinished messages leave the file as it was."""
    bench.programs.write_bytes(bench.some)
    for message in refused(bench):
        for streams in ((message, b''), (b'', message)):
            assert bench.run(*streams) == well(b'', b'')
            assert bench.saved() == bench.some


def busy(kind, programs):
    """Return a stream that stores and asks for these programs."""
    sent, replies = [], []
    for program in programs:
        good = kind.dump(program, kind.program(program))
        ask = kind.ask(program)
        sent += (good, b'\xFE', ask, changed(good, 9, 0x10), good[:100],
                 IDENTITY, ask)
        replies += good, kind.identified(), good
    return b''.join(sent), b''.join(replies)


def check_apart(bench):
    """Each socket's replies are those of its bytes alone."""
    kind = bench.kind
    (stream0, replies0), (stream1, replies1) = (
        busy(kind, range(18)), busy(kind, range(18, 36)))
    for run in (bench.run, bench.run_piped):
        assert run(stream0, stream1) == well(replies0, replies1)
        assert bench.saved() == b''.join(map(kind.program,
                                             range(36))) + bench.zeros + SET
        bench.programs.unlink()


def check_long(bench):
    """Of two long dumps at once, one stands whole at any time."""
    kind, ends = bench.kind, (bench.every + bench.zeros + SET,
                              bench.every_other + bench.zeros + SET)
    dumps = kind.dump_all(bench.every), kind.dump_all(bench.every_other)
    # real-time bytes, so that the same place comes at different times
    streams = (dumps[0] + kind.ask_all(),
               50 * b'\xFE' + dumps[1] + kind.ask_all())
    for run in (bench.run, bench.run_piped):
        ran = run(*streams)
        assert ran.status == 0 and all(sent in dumps for sent in ran.replies)
        assert bench.saved() in ends
        bench.programs.unlink()


def check_mixed(bench):
    """The dump whose last byte comes last stands, whoever began first."""
    kind = bench.kind
    first = kind.dump_all(bench.every)
    second = kind.dump_all(bench.every_other)
    box, (in0, in1), (out0, out1) = bench.live()
    in0.write(first[:-1])
    in1.write(second + kind.ask_all())
    assert out1.read(len(second)) == second
    in0.write(first[-1:] + kind.ask_all())
    assert out0.read(len(first)) == first
    in0.close()
    in1.write(kind.ask_all())
    assert out1.read(len(first)) == first
    in1.close()
    assert bench.end(box).status == 0
    assert bench.saved() == bench.every + bench.zeros + SET


def fill(bench):
    """Start the box; let socket 0 answer until its pipe is full."""
    box, inputs, outputs = bench.live()
    size = fcntl(outputs[0], F_SETPIPE_SZ, 65536)
    every = bench.kind.dump_all(bench.every)
    times = size // len(every) + 2
    inputs[0].write(every + times * bench.kind.ask_all())
    unread = 0
    # a pipe is full for poll when its last page is begun
    while unread <= size - os.sysconf('SC_PAGE_SIZE'):
        time.sleep(0.01)
        unread, = unpack('i', ioctl(outputs[0], FIONREAD, bytes(4)))
    return box, inputs, outputs, times


def check_unread(bench):
    """A reply that nobody reads keeps the other socket from nothing."""
    box, (in0, in1), (out0, out1), times = fill(bench)
    in1.write(IDENTITY)
    answer = bench.kind.identified()
    assert out1.read(len(answer)) == answer
    # and it keeps what is stored from no save
    in1.write(bench.kind.dump(8, bench.one))
    bench.wait_until_saved(8, bench.one)
    in0.close()
    in1.close()
    sent = out0.read()
    first = bench.kind.dump_all(bench.every)
    assert len(sent) == times * len(first) and sent.startswith(first)
    assert bench.end(box).status == 0


def check_signal(bench):
    """A signal to stop: what is finished is saved, half a dump is not."""
    kind = bench.kind
    for number, data in ((signal.SIGTERM, bench.one),
                         (signal.SIGINT, bench.other)):
        box, (in0, in1), (out0, _) = bench.live()
        sent = kind.dump(8, data)
        in1.write(kind.dump(7, bench.every[:kind.size])[:-1])
        in0.write(sent + kind.ask(8))
        assert out0.read(len(sent)) == sent
        box.send_signal(number)
        assert bench.end(box).status == 0
        assert bench.saved_program(7) == bench.zero
        assert bench.saved_program(8) == data


def check_signal_when_stuck(bench):
    """A signal to stop while a reply waits for its reader."""
    box, *_ = fill(bench)
    box.send_signal(signal.SIGTERM)
    assert bench.end(box).status == 0
    assert bench.saved() == bench.every + bench.zeros + SET


def check_signal_when_busy(bench):
    """A signal to stop while both inputs are always ready."""
    box = bench.start(bench.programs, '/dev/zero', '/dev/zero',
                      *bench.outputs)
    while not bench.new.exists():  # the last step before the loop
        time.sleep(0.01)
    box.send_signal(signal.SIGINT)
    assert bench.end(box) == well(b'', b'')
    assert bench.saved() == bytes(bench.kind.memory) + SET


def check_power_cut(bench):
    """What was stored is in the file soon, while nothing else comes."""
    kind = bench.kind
    box, (in0, in1), _ = bench.live()
    in0.write(kind.dump(8, bench.one))
    bench.wait_until_saved(8, bench.one)
    # within the second after a save: due when it is over, with no byte more
    in1.write(kind.dump(9, bench.other))
    bench.wait_until_saved(9, bench.other)
    in0.write(bytes.fromhex('B0 0D 7F') + kind.dump(10, bench.one)[:-1])
    while bench.saved_program(PROGRAMS) == bench.zero:  # player one's move
        time.sleep(0.02)
    box.kill()
    box.wait()
    assert bench.saved_program(10) == bench.zero
    assert len(bench.saved()) == kind.memory + len(SET)
    assert (bench.run(kind.ask(8), kind.ask(9))
            == well(kind.dump(8, bench.one), kind.dump(9, bench.other)))


def check_seldom(bench):
    """A stream of stores is saved no more than once a second."""
    _, (in0, _), _ = bench.live()
    written = []
    while len(written) < 3:
        data = bench.kind.program(int(1000 * time.monotonic()))
        in0.write(bench.kind.dump(0, data))
        time.sleep(0.02)
        if bench.programs.exists():
            at = bench.programs.stat().st_mtime_ns
            written += [at] if at not in written else []
    # a little less than a second, since the file's clock is a coarse one
    assert all(later - earlier > 900_000_000
               for earlier, later in zip(written, written[1:])), written


def check_waits(bench):
    """While bytes wait on an input, nothing is saved before the end."""
    kind = bench.kind
    os.mkfifo(bench.inputs[0])
    box = bench.start(bench.programs, bench.inputs[0], '/dev/zero',
                      *bench.outputs)
    sent = kind.dump(8, bench.one)
    with open(bench.inputs[0], 'wb', 0) as in0:
        in0.write(sent + kind.ask(8))
        while not (bench.outputs[0].exists()
                   and bench.outputs[0].read_bytes() == sent):
            time.sleep(0.02)
        time.sleep(1.5)
        assert not bench.programs.exists()
        box.send_signal(signal.SIGTERM)
        assert bench.end(box) == well(sent, b'')
    assert bench.saved_program(8) == bench.one


def check_nothing_stored(bench):
    """Where nothing is stored, no file takes the programs file's place."""
    kind = bench.kind
    bench.programs.write_bytes(bench.some)
    before = bench.stands()
    box, (in0, in1), (out0, _) = bench.live()
    in0.write(b''.join(refused(bench)) + IDENTITY)
    answer = kind.identified()
    assert out0.read(len(answer)) == answer
    time.sleep(1.5)
    assert bench.stands() == before
    in0.close()
    in1.close()
    assert bench.end(box).status == 0
    assert bench.stands() == before and bench.saved() == bench.some
    assert not bench.new.exists()


def check_usage(bench):
    """Too few or too many words, or one that is no kind."""
    files = [bench.programs, *bench.inputs, *bench.outputs]
    wrong = [[], ['pod'], ['pod', *files[:-1]], ['bass', *files, 'more'],
             files]
    wrong += [[word, *files] for word in ('POD', 'po', 'bas', 'bassy', 'pr',
                                          'pros', 'pod pro', '1', '')]
    for words in wrong:
        ran = bench.end(bench.begin(BOX, *words))
        assert ran.status == 2, ran
        assert ran.said.startswith('usage: box KIND PROGRAMS '), ran
    assert not any(bench.folder.iterdir())


def expect_refused(bench, file, *numbers):
    """This programs file is refused with these numbers, and not touched."""
    bench.programs.write_bytes(file)
    before = bench.stands()
    ran = bench.run(bench.kind.dump(0, bench.one), IDENTITY)
    assert ran.status == 1 and f' {bench.programs} ' in ran.said, ran
    assert ran.said.count('\n') == 1, ran
    assert re.findall(r' (\d+)', ran.said) == [*map(str, numbers)], ran
    assert bench.stands() == before
    assert bench.saved() == file
    assert sorted(bench.folder.iterdir()) == [*bench.inputs, bench.programs]


def lengths(kind):
    """Return the lengths of a programs file, that of today first."""
    slots = PROGRAMS + PLAYERS
    return (slots * kind.size + slots, (slots - 1) * kind.size + slots - 1,
            (slots - 1) * kind.size)


def check_wrong_length(bench):
    """A programs file of another length is refused."""
    own = lengths(bench.kind)
    wrong = {0, 1, bench.kind.memory, 2 * own[0]}
    wrong |= {length + more for length in own for more in (-1, 1)}
    wrong |= {length for kind in KINDS for length in lengths(kind)}
    for length in wrong - {*own}:
        expect_refused(bench, pattern(length, 9), length, *own)


def check_wrong_mark(bench):
    """A programs file with a mark that is neither 0 nor 1 is refused."""
    for place, mark in ((0, 2), (17, 0xFF), (35, 2), (36, 0x80), (37, 2)):
        file = changed(bench.some, bench.kind.memory + place, mark)
        expect_refused(bench, file, place, mark, 0, 1)
    earlier = bench.some[:-len(SET) - bench.kind.size] + SET[2:]
    expect_refused(bench, earlier + b'\2', PROGRAMS, 2, 0, 1)


def check_cannot_load(bench):
    """A programs file that is there and cannot be opened is no fresh one."""
    bench.programs.symlink_to(bench.programs)
    ran = bench.run(bench.kind.dump(0, bench.one), IDENTITY)
    assert failed_at(ran, bench.programs), ran
    assert bench.programs.is_symlink()


def check_cannot_open(bench):
    """A file that cannot be opened is named before any byte is taken."""
    bench.programs.write_bytes(bench.some)
    files = [bench.programs, *bench.inputs, *bench.outputs]
    for path in bench.inputs:
        path.write_bytes(bench.kind.dump(0, bench.one) + IDENTITY)
    nowhere = bench.folder / 'nowhere' / 'file'
    for place in range(5):
        words = files[:place] + [nowhere] + files[place + 1:]
        ran = bench.end(bench.start(*words))
        named = nowhere if place else nowhere.with_suffix('.new')
        assert failed_at(ran, named), ran
        assert ran.replies == (b'', b'')
        assert bench.saved() == bench.some


def check_cannot_move(bench):
    """A socket that fails is left out; the other goes on; all is saved."""
    kind, one, other = bench.kind, bench.one, bench.other
    bench.inputs[0].write_bytes(kind.dump(0, one) + kind.ask(0)
                                + kind.dump(2, one))
    bench.inputs[1].write_bytes(kind.dump(1, other) + 50 * IDENTITY
                                + kind.ask(1))
    replies = 50 * kind.identified() + kind.dump(1, other)
    rest = bench.inputs[1], '/dev/full', bench.outputs[1]
    ran = bench.end(bench.start(bench.programs, bench.inputs[0], *rest))
    assert failed_at(ran, '/dev/full'), ran
    assert ran.replies[1] == replies
    assert bench.saved() == one + other + bytes(36 * kind.size) + SET
    ran = bench.end(bench.start(bench.programs, bench.folder, *rest))
    assert failed_at(ran, bench.folder), ran
    assert ran.replies[1] == replies


def check_unplugged(bench):
    """An output whose reader is gone fails like any other."""
    kind = bench.kind
    box, (in0, in1), (out0, out1) = bench.live()
    out0.close()
    in0.write(kind.dump(0, bench.one) + IDENTITY)
    assert f' {bench.outputs[0]}: ' in box.stderr.readline()
    in1.write(kind.ask(0))
    in1.close()
    assert out1.read() == kind.dump(0, bench.one)
    assert bench.end(box).status == 1
    assert bench.saved_program(0) == bench.one


def check_cannot_save(bench):
    """A disk that is full at the end: the old programs stand."""
    bench.programs.write_bytes(bench.some)
    bench.new.symlink_to('/dev/full')
    ran = bench.run(bench.kind.dump(0, bench.one), IDENTITY)
    assert failed_at(ran, bench.new), ran
    assert ran.replies == (b'', bench.kind.identified())
    assert bench.saved() == bench.some


def check_saved_later(bench):
    """A disk that is full for a while: told, and tried again."""
    kind = bench.kind
    bench.programs.write_bytes(bench.some)
    bench.new.symlink_to('/dev/full')
    box, (in0, in1), (out0, _) = bench.live()
    in0.write(kind.dump(0, bench.one))
    assert f' {bench.new}: ' in box.stderr.readline()
    in0.write(kind.ask(0))
    sent = kind.dump(0, bench.one)
    assert out0.read(len(sent)) == sent
    assert bench.saved() == bench.some
    bench.new.unlink()
    bench.wait_until_saved(0, bench.one)
    in0.close()
    in1.close()
    assert bench.end(box).status == 0
    assert bench.saved() == bench.one + bench.some[kind.size:]


def check_fault(bench):
    """A fault that the library finds: said, and nothing is saved."""
    bench.programs.write_bytes(bench.some)
    before = bench.stands()
    ran = bench.run(IDENTITY, b'', program=FAULTY)
    assert ran.status == 3 and ' 32,' in ran.said, ran
    assert bench.stands() == before
    assert bench.saved() == bench.some


EACH = (check_bench_case, check_program_change, check_pro_moves,
        check_other_device, check_kept, check_duo, check_earlier,
        check_marks_left, check_refused, check_apart, check_long,
        check_mixed, check_unread, check_signal, check_signal_when_stuck,
        check_signal_when_busy, check_power_cut, check_seldom, check_waits,
        check_nothing_stored, check_wrong_length, check_wrong_mark,
        check_cannot_load, check_cannot_open, check_cannot_move,
        check_unplugged, check_cannot_save, check_saved_later, check_fault)
PODS = (check_short, check_short_all, check_mark_alone, check_exchanged,
        *EACH)
CHECKS = {POD: (check_exports, check_usage, *PODS), BASS: EACH, PRO: PODS}


def out_of_patience(*_):
    """Fail where the box hangs."""
    raise TimeoutError(f'the box still runs after {PATIENCE} seconds')


def main():
    """Do every check in a folder of its own."""
    signal.signal(signal.SIGALRM, out_of_patience)
    for kind, checks in CHECKS.items():
        for check in checks:
            signal.alarm(PATIENCE)
            with tempfile.TemporaryDirectory() as folder:
                with closing(Bench(folder, kind)) as bench:
                    check(bench)


if __name__ == '__main__':
    main()
