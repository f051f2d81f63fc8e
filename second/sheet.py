"""Print what the program sheet should print: a POD's, as Req 03 asks.

The headings are those of the table in docs/DECISIONS.md; each must name a
column of Req 03, by its controllers, its rule and its least number.
"""

import re
from pathlib import Path

from controllers import TOP, scale
from kinds import POD

DECISIONS = Path(__file__).parent.parent / 'docs' / 'DECISIONS.md'
# Req 03: "the six longer rules (threshold, times 50, 256/104, 256/42, times
# 22 plus 100, times 25)"; each as document 01 writes it, with its controllers
COLUMNS = (
    ((23,), '(127 - v) x 194 / 256'),
    ((51,), 'v x 50'),
    ((52,), 'v x 256/104'),
    ((54,), 'v x 256/42'),
    ((56, 57), 'v x 22 + 100'),
    ((58,), 'v x 25'),
)


def head(column, rule):
    """Return the heading of a column."""
    # "minimums of Req 01 included"
    least = POD.at_least.get(column[0])
    return (f'{", ".join(map(str, column))}: {rule}'
            + (f', at least {least}' if least else ''))


def read_headings():
    """Return the headings that docs/DECISIONS.md fixes."""
    text = DECISIONS.read_text(encoding='utf-8')
    _, section = text.split('\n## The sheet (Req 03)')
    section, *_ = section.split('\n## ')
    return re.findall(r'^\| \d \| `(.*)` \|$', section, re.MULTILINE)


def number(column, value):
    """Return the one number that all controllers of a column have."""
    (answer,) = {scale(POD, controller, value) for controller in column}
    outcome, found = answer
    assert outcome == 'value', (column, value)
    return found


def main():
    """Print the headings, and a line for each value."""
    headings = ['value', *(head(*column) for column in COLUMNS)]
    assert headings == read_headings(), headings
    print(*headings, sep='\t')
    for value in range(TOP + 1):
        print(value, *(number(column, value) for column, _ in COLUMNS),
              sep='\t')


if __name__ == '__main__':
    main()
