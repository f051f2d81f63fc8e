"""Play scripts at random through the C interface, held against box.py.

tests/soak builds the player and calls this; it says what the arguments are.
"""

import argparse
import os
import shlex
import subprocess
import sys
import time
from collections import Counter
from itertools import zip_longest
from pathlib import Path
from random import Random, SystemRandom

from brief import add_opening
from chance import add_random
from isolation import play_duo
from kinds import KINDS, PLAYERS
from player import MOVE, play, rows_of, tally
from replay import SCRIPTS, histogram
from script import Script
from streams import play_plan

PLAYER = shlex.split(os.environ['PLAYER'])  # the words that run tests/play.c
PATIENCE = 120     # seconds for one script
COMMANDS = 4000    # of a script's random part, about
CALM = (1, 6, 60)  # runs of bytes between two turns, about
WIDTH = 400        # characters of a line that are shown
KEPT = Path('target/soak')


class Difference(Exception):
    """The C interface and the second program differ; with the scripts."""

    def __init__(self, said, *scripts):
        super().__init__(said)
        self.scripts = scripts


class Soak:
    """What was compared so far."""

    def __init__(self):
        self.scripts = 0
        self.printed = 0
        self.given = Counter()
        self.pairs = 0   # of runs of a duo
        self.unlike = 0  # of these, with unlike buffers of the other player

    def compare(self, script):
        """Play a script both ways; return its lines where they are equal."""
        lines, given = play(script)
        wanted = ''.join(lines).encode()
        got = play_in_c(script)
        if got != wanted:
            raise Difference(first_difference(got, wanted), script)
        self.scripts += 1
        self.printed += len(wanted)
        self.given += given
        return wanted.decode().splitlines()

    def compare_seed(self, seed):
        """Compare all that a seed makes."""
        chance = Random(seed)
        for calm in CALM:
            self.compare(random_script(chance, calm))
        for kind in KINDS:
            self.hold(kind, play_plan(kind, chance, self.compare))
            for player in PLAYERS:
                self.compare_duo(kind, player, chance)

    def compare_duo(self, kind, player, chance):
        """Compare two runs in which the player's part is the same."""
        *pair, others = play_duo(kind, player, chance, self.compare)
        self.hold(kind, [pair])
        self.pairs += 1
        self.unlike += others[0] != others[1]

    def hold(self, kind, pairs):
        """Hold pairs of runs of a box of this kind against each other."""
        for what, one, other, *found in pairs:
            if found[0] != found[1]:
                raise Difference(f'{kind.word}, {what}: '
                                 f'{first_unlike(*found)}', one, other)

    def report(self, seconds):
        """Print what was compared, and the histogram."""
        letters = Counter()
        for (_, letter, _), count in self.given.items():
            letters[letter] += count
        moves = letters.pop(MOVE, 0)  # no calls of their own
        print(f'{self.scripts} scripts, {sum(letters.values())} calls, '
              f'{letters["S"]} bytes on sockets, {letters["V"]} lists with '
              f'{moves} moves carried out, {self.printed} bytes printed and '
              f'compared, {self.pairs} pairs of runs of a duo, {self.unlike} '
              f'with unlike buffers of the other player, {seconds:.0f} s')
        sys.stdout.writelines(histogram(self.given))


def random_script(chance, calm):
    """Return a script: every number of each kind, then at random."""
    script = Script()
    for kind in chance.sample(KINDS, len(KINDS)):
        script.become(kind)
        add_opening(script)
    add_random(script, chance, COMMANDS, calm)
    return bytes(script.commands)


def play_in_c(script):
    """Return what the player prints, and how it failed if it did."""
    try:
        run = subprocess.run(PLAYER, input=script, stdout=subprocess.PIPE,
                             timeout=PATIENCE, check=False)
    except subprocess.TimeoutExpired:
        return b'no end\n'
    if run.returncode != 0:
        return run.stdout + b'status %d\n' % run.returncode
    return run.stdout


def first_difference(got, wanted):
    """Say which line differs first."""
    pairs = zip_longest(got.decode('latin-1').splitlines(),
                        wanted.decode().splitlines(), fillvalue='nothing')
    return next(f'line {at}:\n  C:      {one[:WIDTH]}\n'
                f'  second: {other[:WIDTH]}'
                for at, (one, other) in enumerate(pairs, 1) if one != other)


def first_unlike(found, other):
    """Say which call differs first."""
    return next(f'{call}:\n  {found.get(call)}\n  {other.get(call)}'
                for call in {**found, **other}
                if found.get(call) != other.get(call))


def keep(name, scripts):
    """Keep scripts in files; yield their paths."""
    KEPT.mkdir(parents=True, exist_ok=True)
    for at, script in enumerate(scripts):
        path = KEPT / f'{name}-{at}.script'
        path.write_bytes(script)
        yield str(path)


def names(seed):
    """Yield what to play: one seed, or all scripts and then new seeds."""
    if seed is not None:
        yield seed
        return
    yield from SCRIPTS
    while True:
        yield SystemRandom().getrandbits(48)


def compare(soak, name):
    """Compare a script of replay.py, or all that a seed makes."""
    try:
        if name in SCRIPTS:
            soak.compare(SCRIPTS[name][0]())
        else:
            soak.compare_seed(name)
    except Difference as difference:
        print(f'difference in {name}', *keep(name, difference.scripts))
        if name not in SCRIPTS:
            print(f'again: tests/soak --seed {name}')
        sys.exit(f'{difference}')
    except Exception as fault:
        raise RuntimeError(f'in {name}') from fault


def main():
    """Compare until the time is up, and see that enough was tried.

    Each kind must have given every number, and most pairs really differ.
    """
    parser = argparse.ArgumentParser(prog='tests/soak')
    parser.add_argument('seconds', nargs='?', type=float, default=60)
    parser.add_argument('--seed', type=int, help='this one seed alone')
    given = parser.parse_args()
    soak, start = Soak(), time.monotonic()
    for name in names(given.seed):
        compare(soak, name)
        if time.monotonic() - start > given.seconds:
            break
    soak.report(time.monotonic() - start)
    for kind, rows in zip(KINDS, tally(soak.given)):
        missing = rows_of(kind) - {*rows}
        if missing:
            sys.exit(f'never given, {kind.word}: {missing}')
    if 2 * soak.unlike < soak.pairs:
        sys.exit('most pairs of runs do not differ')


if __name__ == '__main__':
    main()
