"""Choosing the block: document 02, #110.

Made apart from the library, in the document's words, to be read beside it: every block of a list is checked, and the count is
taken from its sentence. Programs compare the library and `choose` with it.
"""

import re
from collections import namedtuple
from functools import lru_cache

from walls import CELLAR_RANGES, STOREY_RANGES, check, check_line, lines_of, number_pattern, read_line

Block = namedtuple('Block', 'F price')
Choice = namedtuple('Choice', 'refusal place checked')

LENGTHS = (1, 64)
# F has the same range in records of both kinds.
BLOCK_RANGES = Block(F=STOREY_RANGES.F, price=(1, 1000000))
assert BLOCK_RANGES.F == CELLAR_RANGES.F


def within(number, ends):
    low, high = ends
    return low <= number <= high


def bad_list(blocks):
    """26: "the list is empty, too long or has a number out of range"."""
    return not within(len(blocks), LENGTHS) or not all(
        within(number, ends) for block in blocks for number, ends in zip(block, BLOCK_RANGES))


# What follows is kept of the last calls, since programs ask for many lists of one record.

@lru_cache(maxsize=1000)
def record(line):
    """The record of a line, None where there is none, and 1 or 2 where document 01 refuses it so, else 0."""
    refusal = check_line(line).refusal
    return read_line(line), refusal if refusal in (1, 2) else 0


@lru_cache(maxsize=100000)
def accepted_with(wall, F):
    """Whether "F, put in for the record's own, makes the record accepted"."""
    return check(wall._replace(F=F)).refusal == 0


def cheaper(block, other):
    return block.price < other.price


def better(block, other):
    """Whether an accepted block is rather taken than another, wherever in the list they stand: "the cheapest block"."""
    return cheaper(block, other)


def best(blocks, accepted):
    """The place of the accepted block than which no accepted one is better, "the earlier of equals"; places count from 1."""
    return next(place for place, block in enumerate(blocks, 1)
                if block in accepted and not any(better(other, block) for other in accepted))


def checked(blocks, accepted):
    """How many blocks are checked: "those whose price is below that of every accepted block before them"."""
    return sum(all(cheaper(block, before) for before in blocks[:place] if before in accepted)
               for place, block in enumerate(blocks))


def choice(line, blocks):
    """The result of a record's line of either kind and a list. "A bad list is found first, then a record that is refused as 1
    or 2"; then 27, "when no block is accepted, exactly then, with place 0 and the list's length as its count"."""
    if bad_list(blocks):
        return Choice(26, 0, 0)
    wall, refusal = record(line)
    if refusal:
        return Choice(refusal, 0, 0)
    accepted = {block for block in blocks if accepted_with(wall, block.F)}
    if not accepted:
        return Choice(27, 0, len(blocks))
    return Choice(0, best(blocks, accepted), checked(blocks, accepted))


# ---- The program

NUMBER = number_pattern(9).removeprefix(b' ')
BLOCK_LINE = re.compile(NUMBER + b' ' + NUMBER)


def read_block(line):
    """The block of a line, F and its price; None if it is not two numbers of document 01's form with one space between."""
    return Block(*map(int, line.split(b' '))) if BLOCK_LINE.fullmatch(line) else None


def choice_of_text(stream):
    """The first line is the record's, each further one a block's; one that is none makes the list a bad one."""
    line, *rest = lines_of(stream) or [b'']
    blocks = list(map(read_block, rest))
    return Choice(26, 0, 0) if None in blocks else choice(line, blocks)


def choose(stream):
    """What `choose` prints for its standard input."""
    return b'%d %d %d\n' % choice_of_text(stream)
