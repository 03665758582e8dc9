"""Texts and blocks on which the archive is compared with the oracle, edges first.

    python3 oracle/archive_inputs.py text      a text of good lines, the stored input of `pack`
    python3 oracle/archive_inputs.py archive   good blocks, also less tightly filled and empty ones, that of `unpack`
    python3 oracle/archive_inputs.py files N FOLDER
        N texts and N archives, good ones and bad ones, each with what the program must print for it and tell on standard
        error: FOLDER/pack.1.in, pack.1.out, pack.1.err, unpack.1.in and so on

The same N gives the same inputs, and a smaller N gives the first of them.
"""

import sys
from itertools import chain, islice, product
from pathlib import Path

from archive import (BLOCK, MOST_USED, block_of, blocks_of, count, lines_of, low_byte_first, pack, pieces, sum_of_others,
                     unpack)
from generate import Numbers, WITHIN_A_LINE, near, random_lines
from walls import A, K, line_of


# ---- Texts

def line_of_length(length, byte=b'S'):
    """A line of one byte, repeated; the length counts its end byte."""
    return byte * (length - 1) + b'\n'


def lengths_as_text(*lengths):
    return b''.join(map(line_of_length, lengths))


def text_with_sum(total):
    """A line of 508 bytes whose block has this sum before it is taken modulo 65536: its count bytes and its end give 263."""
    full, last = divmod(total - 263, 255)
    return (b'\xff' * full + bytes([last]) + bytes(MOST_USED))[:MOST_USED - 1] + b'\n'


def short_texts():
    yield from (b'', b'\n\n', b'S 175\n', b'S 175', b'S 175\nS 175', b'\nS', b'S 175\r\n', b'\r', b'\n\r', b'\0\0\n\0')
    yield from (bytes([byte]) + end for byte in range(256) for end in (b'', b'\n'))
    every_byte = WITHIN_A_LINE + b'\n'
    yield from (every_byte, every_byte * 2, every_byte * 3, bytes(range(256)), bytes(range(256)) + b'\n')
    yield from (line_of(A) + b'\n' + line_of(K), (line_of(A) + b'\n' + line_of(K) + b'\n') * 20)


def texts_at_the_line_length():
    """Lines around 508 bytes, of several bytes, alone, with and without their end, before and behind others."""
    for byte, length in product((b'S', b'\0', b'\xff', b'\r'), (*range(253, 260), *range(505, 512), *range(1015, 1019))):
        line = line_of_length(length, byte)
        yield from (line, line[:-1], b'\n' + line, line + b'\n', line * 2, b'\n' + line[:-1], line + line[:-1])
    for length in (4000, 65535, 65536, 65537, 65536 + 508):
        yield from (line_of_length(length), lengths_as_text(20) * 100 + line_of_length(length))


def texts_at_the_block_end():
    """Lines that fill a block exactly, or one byte less or more; also where a later line would still fit in an earlier
    block; many tiny lines; and sums around the modulus."""
    for first in (1, 2, 100, 253, 254, 255, 300, 500, 506, 507, 508):
        for second in near(MOST_USED - first)[-3:]:
            if second > 0:
                yield lengths_as_text(first, second)
                yield lengths_as_text(first, second, 1)
                yield lengths_as_text(508, first, second, 508, 2)
    yield from (lengths_as_text(*lengths) for lengths in product((100, 208, 300, 508), repeat=4))
    yield from (lengths_as_text(length) * number for length, number in product((1, 2, 3, 6, 127, 254), near(2, 84, 508, 1016)))
    yield from map(text_with_sum, (*near(65535, 65536), *near(129548)[:2], 263, 300, 513))


def text_edges():
    return chain(short_texts(), texts_at_the_line_length(), texts_at_the_block_end())


class Pools:
    """Random lines and bytes from which lines are cut: to make each byte of each line anew takes too long."""

    def __init__(self, numbers):
        self.numbers = numbers
        self.lines = [line + b'\n' for line in islice(random_lines(numbers), 400)]
        self.bytes = [bytes(numbers.one_of(values) for _ in range(6000)) for values in (WITHIN_A_LINE, b'\0\xff', b'\0\1S')]

    def line(self, length):
        """A line of this length, its end byte counted."""
        pool = self.numbers.one_of(self.bytes)
        at = self.numbers.within(0, len(pool) - MOST_USED)
        return pool[at:at + length - 1] + b'\n'


def random_good_text(pools):
    """Lines of many lengths, every third as long as what is left of the block, or one byte less or more."""
    within, one_in, one_of = pools.numbers.within, pools.numbers.one_in, pools.numbers.one_of
    lines, left, longest = [], MOST_USED, one_of((3, 30, 200, MOST_USED))
    for _ in range(within(0, 14)):
        length = left + within(-1, 1) if one_in(3) else within(1, longest)
        length = min(max(length, 1), MOST_USED)
        line = one_of(pools.lines) if one_in(4) else pools.line(length)
        left = (left if len(line) <= left else MOST_USED) - len(line)
        lines.append(line)
    return b''.join(lines)


def random_text(pools):
    """One in eight is bad: a line that is too long in some place, or the last one not ended."""
    text, numbers = random_good_text(pools), pools.numbers
    if not numbers.one_in(8):
        return text
    if numbers.one_in(2):
        return text[:-1] if numbers.one_in(2) else text + pools.line(numbers.within(2, MOST_USED))[:-1]
    lines = lines_of(text)
    place = numbers.within(0, len(lines))
    return b''.join([*lines[:place], pools.line(MOST_USED)[:-1], pools.line(numbers.within(2, 8)), *lines[place:]])


def texts(count):
    """Each edge once, then random texts."""
    pools = Pools(Numbers(8))
    return islice(chain(dict.fromkeys(text_edges()), iter(lambda: random_text(pools), None)), count)


# ---- Blocks

HALF_FILLED = block_of((line_of(A) + b'\n') * 3 + line_of(K) + b'\n')
FULL = block_of(lengths_as_text(200, 100, 208))
GOOD_BLOCKS = [bytes(BLOCK), block_of(b'\n'), block_of(b'S 175\n'), HALF_FILLED, FULL, block_of(line_of_length(507)),
               *(block_of(text_with_sum(total)) for total in (65535, 65536, 129548))]


def with_number(block, place, number):
    """The block with a number in two of its bytes, low byte first."""
    return block[:place] + low_byte_first(number) + block[place + 2:]


def with_right_sum(block):
    return with_number(block, 2, sum_of_others(block))


def with_byte(block, place, byte):
    return block[:place] + bytes([byte]) + block[place + 1:]


def wrong_sums(block):
    """Sums that a reader of the document may take for the right one, and those around the right one."""
    right = sum_of_others(block)
    whole = sum(block) - sum(block[2:4])
    yield from ((right + more) % 65536 for more in (1, -1, 256, -256, 32768))
    yield from (whole % 65535, sum(block[4:]) % 65536, sum(block[1:2] + block[4:]) % 65536, sum(block) % 65536)
    yield from (right // 256 + right % 256 * 256, right ^ 65535, right % 256, min(whole, 65535), 0, 65535)


def blocks_with_one_fault():
    for block in GOOD_BLOCKS:
        yield from ((block * 3)[:length] for length in (0, 1, 2, 3, 4, 5, 511, 513, 516, 1024, 1536))
        yield from (block[:4] + more + block[4:] for more in (b'\0', b'\n'))
        yield from (with_number(block, 2, wrong) for wrong in wrong_sums(block))
        used = block[0] + 256 * block[1]
        for other in (*near(0, used, 256, MOST_USED, BLOCK), 65535, used + 256, used + BLOCK, used + 32768, 256 * used % 65536):
            yield with_number(block, 0, other)
            yield with_right_sum(with_number(block, 0, other))


def blocks_with_one_byte_put_in():
    """A byte put in each place behind the sum, with the right sum for it: a fault in the remainder, and at the used part's
    end where it is not byte 10, and none elsewhere."""
    for block in (bytes(BLOCK), block_of(b'\n'), HALF_FILLED, block_of(line_of_length(507)), FULL):
        for place in range(4, BLOCK):
            yield with_right_sum(with_byte(block, place, 10))
            yield with_right_sum(with_byte(block, place, 255))
    for byte in range(256):
        yield with_right_sum(with_byte(block_of(b'S 175\n'), 9, byte))
        yield with_right_sum(with_byte(FULL, BLOCK - 1, byte))
        yield with_right_sum(with_byte(HALF_FILLED, BLOCK - 1, byte))


def block_edges():
    good_texts = (text for text in text_edges() if count(text).refusal == 0)
    return chain(GOOD_BLOCKS, blocks_with_one_fault(), blocks_with_one_byte_put_in(),
                 chain.from_iterable(pieces(blocks_of(lines_of(text))) for text in good_texts))


def random_used_part(pools):
    """Whole lines of at most 508 bytes together, or none; one in five fills its block."""
    full = pools.numbers.one_in(5)
    lines, left = [], MOST_USED if full else pools.numbers.within(0, MOST_USED)
    while left > 0 and (full or not pools.numbers.one_in(6)):
        lines.append(pools.line(pools.numbers.within(1, left)))
        left -= len(lines[-1])
    return b''.join(lines)


def damaged(numbers, block):
    """The block changed as a wrong writer or a bad disk may do it; some of the changes are no fault."""
    kind, place, byte = numbers.within(1, 8), numbers.within(0, BLOCK - 1), numbers.within(0, 255)
    used = block[0] + 256 * block[1]
    if kind == 1:
        return with_byte(block, place, byte)
    if kind == 2:
        return with_right_sum(with_byte(block, place, byte))
    if kind == 3:
        return with_right_sum(with_number(block, 0, numbers.one_of((used - 1, used + 1, numbers.within(0, 515))) % 65536))
    if kind == 4:
        return with_number(block, 2, numbers.one_of(list(wrong_sums(block))))
    if kind == 5:
        return block[:numbers.within(0, BLOCK - 1)] if byte < 128 else block + block[:byte]
    if kind == 6:
        # the used part not ended, or one byte behind it
        return with_right_sum(with_byte(block, min(3 + used + byte % 2, BLOCK - 1), byte))
    other = numbers.within(0, BLOCK - 1)
    exchanged = with_byte(with_byte(block, place, block[other]), other, block[place])
    return exchanged if kind == 7 else with_right_sum(exchanged)


def random_block(pools):
    block = block_of(random_used_part(pools))
    return block if pools.numbers.one_in(3) else damaged(pools.numbers, block)


def blocks(count):
    """Each edge once, then random blocks."""
    pools = Pools(Numbers(9))
    return islice(chain(dict.fromkeys(block_edges()), iter(lambda: random_block(pools), None)), count)


# ---- Streams for the programs

def random_archive(pools):
    """Some blocks, good or bad, less tightly filled than the writer does it; the last piece may be shorter."""
    archive = b''.join(random_block(pools).ljust(BLOCK, b'\0')[:BLOCK] for _ in range(pools.numbers.within(0, 9)))
    return archive[:-pools.numbers.within(1, 511)] if pools.numbers.one_in(4) else archive


def stored_text():
    """Every sixth edge that is good and short, then random texts."""
    edges = [text for text in dict.fromkeys(text_edges()) if count(text).refusal == 0 and len(text) < 2000]
    pools = Pools(Numbers(10))
    return b''.join(edges[::6] + [random_good_text(pools) for _ in range(40)])


def stored_archive():
    pools = Pools(Numbers(11))
    return b''.join([*GOOD_BLOCKS, *(block_of(random_used_part(pools)) for _ in range(300))])


def each_tenth(inputs):
    return islice(inputs, 0, None, 10)


def write_files(number, folder):
    """Each tenth of the edges, then random texts and archives."""
    pools = Pools(Numbers(12))
    some_texts = chain(each_tenth(dict.fromkeys(text_edges())), iter(lambda: random_text(pools), None))
    archives = chain(each_tenth(blocks_with_one_fault()), iter(lambda: random_archive(pools), None))
    for program, answer, inputs in (('pack', pack, some_texts), ('unpack', unpack, archives)):
        for at, stream in enumerate(islice(inputs, number), 1):
            printed, told = answer(stream)
            (folder / f'{program}.{at}.in').write_bytes(stream)
            (folder / f'{program}.{at}.out').write_bytes(printed)
            (folder / f'{program}.{at}.err').write_text(told)


def main():
    if sys.argv[1:2] == ['files'] and len(sys.argv) == 4:
        write_files(int(sys.argv[2]), Path(sys.argv[3]))
    elif sys.argv[1:] == ['text']:
        sys.stdout.buffer.write(stored_text())
    elif sys.argv[1:] == ['archive']:
        sys.stdout.buffer.write(stored_archive())
    else:
        sys.exit(__doc__)


if __name__ == '__main__':
    main()
