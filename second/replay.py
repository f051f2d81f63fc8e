"""Write a replay script, print what a script must print, or count it.

python3 second/replay.py brief      writes the script that is committed
python3 second/replay.py whole      writes the script of panel messages
python3 second/replay.py sockets    writes the script of bytes on sockets and
                                    of lists of moves among them
python3 second/replay.py lent       writes the script of what is lent, scaled,
                                    shown back and known, and of screens
python3 second/replay.py answers    reads a script and prints its lines
python3 second/replay.py histogram  reads a script and prints, for each number
                                    of the table, how many calls of each kind
                                    gave it, and the same of amp models, of
                                    lists' moves, of screens and of wrong
                                    players

Scripts and lines are in the form of REPLAY.md; the answers are box.py's.
"""

import sys

from brief import make_brief
from kinds import KINDS
from lent import make_lent
from panel import make_whole
from player import (KNOWN, MOVED, WRONG_PLAYER, PART, ROWS, VALUE, play, rows_of,
                    tabbed, tally)
from sockets import make_sockets

# Each script, and the rows that it does not show of any kind.
SCRIPTS = {
    'brief': (make_brief, set()),
    'whole': (make_whole, {0, 3, 4, *range(17, 22), 30, 31, 33, 34, 40,
                           VALUE, *KNOWN.values(), *MOVED.values(), PART,
                           WRONG_PLAYER}),
    'sockets': (make_sockets, {*range(30, 35), 40, VALUE, *KNOWN.values(),
                               PART, WRONG_PLAYER}),
    'lent': (make_lent, {4, 12, 15, 16, 22}),
}


def make(name):
    """Return a script, once its answers show every number."""
    maker, others = SCRIPTS[name]
    script = maker()
    _, given = play(script)
    for kind, rows in zip(KINDS, tally(given)):
        amiss = {*rows} ^ (rows_of(kind) - others)
        assert not amiss, (f'{name}, {kind.word}: not shown, or not to be '
                           f'shown: {amiss}')
    return script


def histogram(given):
    """Return a line for each row of what calls and moves gave.

    The fields are of each kind, and of the numbers that are no kind's.
    """
    counts = tally(given)
    return [tabbed('number', *(kind.word for kind in KINDS), 'none'),
            *(tabbed(row, *(rows[row] for rows in counts)) for row in ROWS)]


def main():
    """Write a script, or print what one gives."""
    name = sys.argv[1]
    if name not in ('answers', 'histogram'):
        sys.stdout.buffer.write(make(name))
        return
    lines, given = play(sys.stdin.buffer.read())
    sys.stdout.writelines(lines if name == 'answers' else histogram(given))


if __name__ == '__main__':
    main()
