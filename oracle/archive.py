"""Archived schedules: document 02, #107.

Made apart from the library, in the document's words, to be read beside it: line by line, each put in the current block if
it fits. Programs compare the library, `pack` and `unpack` with it.
"""

from collections import namedtuple
from itertools import takewhile

Archived = namedtuple('Archived', 'refusal count')

BLOCK = 512
MOST_USED = 508


def low_byte_first(number):
    return bytes([number % 256, number // 256])


def number_of(low, high):
    return low + 256 * high


def sum_of_others(block):
    """The sum of all bytes of a block but bytes 2 and 3, modulo 65536."""
    return (sum(block) - sum(block[2:4])) % 65536


# ---- The text

def lines_of(text):
    """The lines, each with its byte 10; what stands behind the last byte 10 is a line without it."""
    *lines, behind = text.split(b'\n')
    return [line + b'\n' for line in lines] + ([behind] if behind else [])


def can_be_stored(line):
    """It is ended by byte 10 and has at most 508 bytes with its end byte."""
    return line.endswith(b'\n') and len(line) <= MOST_USED


def used_parts(lines):
    """What the blocks hold: "each line in the current block if it fits, else opens the next"."""
    parts = []
    for line in lines:
        if parts and len(parts[-1]) + len(line) <= MOST_USED:
            parts[-1] += line
        else:
            parts.append(line)
    return parts


def block_of(used_part):
    """The number of bytes used, the sum, the lines from byte 4 on, the remainder zero."""
    used = low_byte_first(len(used_part))
    behind = used_part + bytes(MOST_USED - len(used_part))
    return used + low_byte_first(sum_of_others(used + bytes(2) + behind)) + behind


def blocks_of(lines):
    """The blocks, block k from byte 512k on."""
    return b''.join(map(block_of, used_parts(lines)))


# ---- The three functions

def count(text):
    """The block count, or 24 and count 0 for bad text. Empty text takes no block."""
    lines = lines_of(text)
    return Archived(0, len(used_parts(lines))) if all(map(can_be_stored, lines)) else Archived(24, 0)


def write(text, buffer):
    """What is handed back and what a lent buffer holds afterwards: 24 also for more blocks than the buffer holds, nothing
    being written; "bytes behind the last block stay"."""
    told = count(text)
    if told.refusal or told.count > len(buffer) // BLOCK:
        return Archived(24, 0), buffer
    blocks = blocks_of(lines_of(text))
    return told, blocks + buffer[len(blocks):]


def is_valid(block):
    """Length, count, sum and remainder are right, and the used part is empty or ends in byte 10."""
    if len(block) != BLOCK:
        return False
    used = number_of(block[0], block[1])
    used_part, remainder = block[4:4 + used], block[4 + used:]
    return (used <= MOST_USED and number_of(block[2], block[3]) == sum_of_others(block) and not any(remainder)
            and (used == 0 or used_part.endswith(b'\n')))


def read(block):
    """What is handed back, and the bytes that the block yields: its used part, or nothing and 23."""
    if not is_valid(block):
        return Archived(23, 0), b''
    used = number_of(block[0], block[1])
    return Archived(0, used), block[4:4 + used]


# ---- The two programs

def pieces(archive):
    """The blocks of an archive; the last piece may be shorter."""
    return [archive[at:at + BLOCK] for at in range(0, len(archive), BLOCK)]


def pack(text):
    """What `pack` prints, the blocks of the lines before the first bad one, and what it tells of that one. Lines are counted
    from 1."""
    lines = lines_of(text)
    good = list(takewhile(can_be_stored, lines))
    told = ''
    if len(good) < len(lines):
        front = lines[len(good)][:MOST_USED]
        too_long = len(front) == MOST_USED and b'\n' not in front
        fault = 'is longer than 508 bytes with its end' if too_long else 'has no end'
        told = f'pack: refusal 24: line {len(good) + 1} {fault}\n'
    return blocks_of(good), told


def unpack(archive):
    """What `unpack` prints, the lines of all blocks that are not refused, and what it tells of the others. Blocks are counted
    from 0."""
    printed, told = [], []
    for number, block in enumerate(pieces(archive)):
        back, used_part = read(block)
        printed.append(used_part)
        if back.refusal:
            told.append(f'unpack: refusal 23: block {number}, from byte {BLOCK * number} on, is left out\n')
    return b''.join(printed), ''.join(told)
