"""Records with lists of blocks on which the library is compared with the oracle, and inputs of `choose`.

    python3 oracle/selection_inputs.py text           a record and 64 blocks, the stored input of `choose`
    python3 oracle/selection_inputs.py files FOLDER
        inputs of `choose`, FOLDER/1, FOLDER/2 and so on, and FOLDER/expected, the line that it must print for each; prints how
        many there are
"""

import sys
from itertools import chain, islice, product
from pathlib import Path

from cases import read_choices, read_lines
from generate import (C, CELLAR_WALLS, Numbers, S, STOREY_WALLS, TELLING_BYTES, cellar_edges, moderate_cellar, moderate_storey,
                      near, random_damage, storey_edges, wide_cellar, wide_storey, wrong_words)
from selection import BLOCK_RANGES, Block, LENGTHS, accepted_with, choose, record
from walls import A, K, line_of

LEAST_STRENGTH, GREATEST_STRENGTH = BLOCK_RANGES.F
GREATEST_LENGTH = LENGTHS[1]


def least_accepted(wall):
    """The least F in range with which a record is accepted, or None. Greater strength never hurts, so it is found by halves."""
    if not accepted_with(wall, GREATEST_STRENGTH):
        return None
    refused, accepted = LEAST_STRENGTH - 1, GREATEST_STRENGTH
    while accepted - refused > 1:
        middle = (refused + accepted) // 2
        if accepted_with(wall, middle):
            accepted = middle
        else:
            refused = middle
    return accepted


# ---- Lists

# Where a rule of either kind of wall changes with F.
STRENGTHS = near(180, 350, 500, 1000)
# .. and what would be in range in fewer bits.
BEYOND = (2**16 + 298, 2**32, 2**32 + 298, 2**63 + 298, 2**64 - 1)


def small_lists():
    """Every list of up to four blocks of few strengths and prices, for A and K."""
    for wall in (A, K):
        least = least_accepted(wall)
        for strengths, prices in (((least - 1, least), (1, 2, 3)), ((least - 1, least, least + 1), (1, 2))):
            blocks = list(map(Block._make, product(strengths, prices)))
            for length in range(1, 5):
                yield from ((line_of(wall), list(chosen)) for chosen in product(blocks, repeat=length))


def lists_of_many():
    """Lengths at their bounds and what would be within them in fewer bits; and the cheapest block in each place of 64, with the
    others accepted or not."""
    for wall in (A, K, S(t=114, a=114)):
        least = least_accepted(wall) or 500
        dear, cheap, refused = Block(least, 20), Block(least + 1, 10), Block(least - 1, 5)
        for length in near(1, 32, GREATEST_LENGTH, 2 * GREATEST_LENGTH, 256):
            for others in (dear, refused):
                yield line_of(wall), [others] * length
                if length > 1:
                    yield line_of(wall), [cheap] + [others] * (length - 1)
                    yield line_of(wall), [others] * (length - 1) + [cheap]
        yield from ((line_of(wall), [dear] * (2**16 + length)) for length in (0, 1, GREATEST_LENGTH))
        for place in range(GREATEST_LENGTH):
            for others in (dear, refused):
                yield line_of(wall), [*[others] * place, cheap, *[others] * (GREATEST_LENGTH - 1 - place)]
            falling = [Block(least, GREATEST_LENGTH - at) for at in range(GREATEST_LENGTH)]
            falling[place] = Block(least - 1, 1)
            yield line_of(wall), falling
            yield line_of(wall), falling[::-1]


def lists_with_numbers_at_their_ends():
    """A number at the ends of its range or beyond them, in each place of some lists, also where the block would not be checked;
    for records of both kinds, refused ones and lines that are none."""
    edges = [Block(F, 10) for F in (*near(*BLOCK_RANGES.F, *STRENGTHS), *BEYOND)]
    edges += [Block(500, price) for price in (*near(*BLOCK_RANGES.price), *BEYOND)]
    edges += [Block(0, 0), Block(2**64 - 1, 2**64 - 1)]
    others = [[], [Block(500, 1)], [Block(179, 20), Block(500, 20)], [Block(500, 5)] * (GREATEST_LENGTH - 1)]
    for line in (line_of(A), line_of(K), line_of(S(t=114, a=114)), line_of(S(F=0)), line_of(C(t=1001)), b'S 175', b''):
        for edge, list_of_others in product(edges, others):
            for place in {0, len(list_of_others) // 2, len(list_of_others)}:
                yield line, [*list_of_others[:place], edge, *list_of_others[place:]]


def lists_for_lines():
    """Each case of a line with a good list, a short one of weak blocks, and bad ones."""
    good = [Block(500, 20), Block(180, 10), Block(1000, 15), Block(5000, 15)]
    for line in read_lines():
        yield from ((line, blocks) for blocks in (good, [Block(179, 1)], [], [*good, Block(0, 5)], good * 17))


def lists_for_records():
    """Records of all kinds with blocks at the strengths where a rule changes and around the least one that is accepted, as
    prices fall and as they rise; and with another own F."""
    walls = chain(STOREY_WALLS, CELLAR_WALLS, islice(storey_edges(), 0, None, 17), islice(cellar_edges(), 0, None, 11))
    for wall in walls:
        least = least_accepted(wall)
        strengths = STRENGTHS if least is None else near(180, 500, least)
        strengths = [F for F in strengths if LEAST_STRENGTH <= F <= GREATEST_STRENGTH]
        yield line_of(wall), [Block(F, F) for F in strengths]
        yield line_of(wall), [Block(F, F) for F in reversed(strengths)]
        for own in (LEAST_STRENGTH - 1, LEAST_STRENGTH, GREATEST_STRENGTH, GREATEST_STRENGTH + 1):
            yield line_of(wall._replace(F=own)), [Block(F, 10) for F in strengths]


def random_line(numbers):
    """A record of either kind, now and then out of range, with an own F out of range, or damaged."""
    kind = numbers.within(1, 20)
    if kind <= 2:
        return line_of((wide_storey if kind == 1 else wide_cellar)(numbers))
    wall = (moderate_storey if kind <= 13 else moderate_cellar)(numbers)
    if numbers.one_in(12):
        return random_damage(numbers, line_of(wall))
    if numbers.one_in(12):
        wall = wall._replace(F=numbers.one_of((0, 1, 179, 5000, 5001, 999999999)))
    return line_of(wall)


def random_length(numbers):
    kind = numbers.within(1, 40)
    if kind <= 2:
        return 0 if kind == 1 else GREATEST_LENGTH + numbers.within(1, 8)
    return GREATEST_LENGTH if kind <= 4 else numbers.within(1, numbers.one_of((2, 3, 6, 12, 30, GREATEST_LENGTH)))


def random_strength(numbers, least):
    """Around the least accepted one, as merchants have them, where a rule changes, or any."""
    kind = numbers.within(1, 4)
    if kind == 1:
        F = least + numbers.within(-2, 2)
    elif kind == 2:
        F = 10 * numbers.within(15, 60)
    elif kind == 3:
        F = numbers.one_of(STRENGTHS)
    else:
        F = numbers.within(LEAST_STRENGTH, numbers.one_of((400, 1200, GREATEST_STRENGTH)))
    return min(max(F, LEAST_STRENGTH), GREATEST_STRENGTH)


def random_blocks(numbers, strengths):
    """A list with these strengths, in two of six as prices fall or rise, and now and then with a number out of range."""
    greatest_price = numbers.one_of((2, 4, 12, 60, 1000, BLOCK_RANGES.price[1]))
    blocks = [Block(numbers.one_of(strengths), numbers.within(1, greatest_price)) for _ in range(random_length(numbers))]
    order = numbers.within(1, 6)
    if order <= 2:
        blocks.sort(key=lambda block: block.price, reverse=order == 1)
    if blocks and numbers.one_in(12):
        name = numbers.one_of(Block._fields)
        low, high = getattr(BLOCK_RANGES, name)
        place = numbers.within(0, len(blocks) - 1)
        blocks[place] = blocks[place]._replace(**{name: numbers.one_of((low - 1, high + 1, 2**32 + low))})
    return blocks


def random_choices(numbers):
    """Random records, each with several lists of the same few strengths: whether a record is accepted with one is then
    calculated once."""
    while True:
        line = random_line(numbers)
        wall, _ = record(line)
        least = (least_accepted(wall) if wall else None) or numbers.within(180, 1000)
        strengths = [random_strength(numbers, least) for _ in range(8)]
        for _ in range(8):
            yield line, random_blocks(numbers, strengths)


def choices(count):
    """Edges and random records with random lists in turn, then these alone: so a smaller count has some of all kinds too."""
    edges = chain(small_lists(), lists_of_many(), lists_with_numbers_at_their_ends(), lists_for_lines(), lists_for_records())
    random_ones = random_choices(Numbers(19))
    return islice(chain(chain.from_iterable(zip(edges, random_ones)), random_ones), count)


# ---- Inputs of the program

def text_of(line, blocks):
    """The record's line and a line for each block, all ended by byte 10."""
    return b'\n'.join([line, *(b'%d %d' % block for block in blocks), b''])


CHOSEN = [Block(297, 5), Block(500, 30), Block(400, 20), Block(298, 20), Block(180, 10)]


def texts_of_cases():
    for line, blocks, _ in read_choices():
        yield text_of(line, list(map(Block._make, blocks)))


def texts_at_their_end():
    """No input, no list, empty lines, and the last line without its end; a list cut short at each byte."""
    yield from (b'\n' * number for number in (*range(4), GREATEST_LENGTH, GREATEST_LENGTH + 1, GREATEST_LENGTH + 2))
    for line in (line_of(A), line_of(K), line_of(S(t=114, a=114)), line_of(S(F=0)), b'S 175', b''):
        text = text_of(line, CHOSEN)
        yield from (line, line + b'\n', line + b'\n\n', line + b'\n\n\n', text[:-1], text + b'\n', b'\n' + text, text + text)
    text = text_of(line_of(A), [Block(297, 5), Block(298, 1000)])
    yield from (text[:length] for length in range(len(text) - 14, len(text)))


def texts_with_a_wrong_record():
    """A record's line with something before it, behind it or missing, with a good and with a bad list."""
    for line in (line_of(A), line_of(K)):
        wrong = [line + behind for behind in (b' ', b' 0', b'0', b'\r', b'\0', b'\t', b'.', b' 298 10')]
        wrong += [before + line for before in (b' ', b'\t', b'\0', b'\xef\xbb\xbf', b'\r')]
        wrong += [line.lower(), line[1:], line[2:], line[:-2], line[:1] + b' ' + line[1:], line + b'\r\n', line + b'\n' + line]
        yield from (text_of(form, blocks) for form in wrong for blocks in (CHOSEN, [*CHOSEN, Block(0, 1)]))


def texts_with_a_wrong_block():
    """A block's line in forms that are mostly wrong, between others and as the last line, which has no end."""
    forms = {b'298', b'298 ', b' 298 10', b'298 10 ', b'298  10', b'298 10 1', b'298 10\r', b'298,10', b'298;10', b'298\t10',
             b'10', b' ', b'  ', b'\r', b'# 298 10', b'S 298 10', b'298 10 0', b'298\0 10', b'298 10\0', b'298 10 20 30'}
    forms.update(word + b' 10' for word in wrong_words(b'298'))
    forms.update(b'298 ' + word for word in wrong_words(b'10'))
    forms.update(b'298 10'[:place] + bytes([byte]) + b'298 10'[place + more:]
                 for place in range(7) for byte in TELLING_BYTES for more in (0, 1))
    for form in sorted(forms):
        yield text_of(line_of(A), CHOSEN[:2]) + form + b'\n500 20\n'
        yield text_of(line_of(A), CHOSEN) + form


def texts_of_many_lines():
    """Lists of 63 to 66 lines, with and without the last end, for good and bad records; the 65th line a block's or not."""
    for line in (line_of(A), line_of(K), line_of(S(F=0)), b'S 175'):
        for length in near(GREATEST_LENGTH, GREATEST_LENGTH + 1):
            text = text_of(line, [Block(500, length - at) for at in range(length)])
            yield from (text, text[:-1])
        full = text_of(line, [Block(500, 7)] * GREATEST_LENGTH)
        yield from (full + behind for behind in (b'\n', b'\r', b'\0', b'0', b'x\n', b'\n\n', b'500 6', b'500 6\n500 5\n'))


def long_texts():
    """Lines and lists of many lengths, up to some millions of bytes: the record is then refused as 1 where the list is good."""
    line, good, bad = line_of(A), text_of(b'', CHOSEN), text_of(b'', [*CHOSEN, Block(0, 1)])
    for length in (100, 191, *near(200, 256, 1024, 4096, 8192, 65536), 1000000):
        for byte in (b' ', b'0', b'\0'):
            yield from ((line + byte * length)[:length] + behind for behind in (good, bad))
        yield b'7' * length
        yield b'\n' * length
        yield line + b'\n' + b'7' * length
        yield line + b'\n' + b'500 ' + b'1' * length + b'\n'
        yield line + b'\n' + (b'500 7\n' * length)[:max(length, 6) // 6 * 6]
    yield from (text_of(line, CHOSEN) + b' ' * 3000000, text_of(line, [Block(500, 7)] * 300000), b'7' * 3000000 + good)


def texts():
    """Each once."""
    return dict.fromkeys(chain(texts_of_cases(), texts_at_their_end(), texts_with_a_wrong_record(), texts_with_a_wrong_block(),
                               texts_of_many_lines(), long_texts()))


def stored_text():
    """A bonded outer wall and 64 blocks. Three are accepted at the lowest price, of which the second has the greatest F, five
    cheaper ones are not, and nor are the first two of the list."""
    numbers = Numbers(1625)
    wall = S(use=2, t=365, a=245, support=2, L=5200, bonded=1)
    blocks = [Block(10 * numbers.within(12, 50), 140 + numbers.within(0, 60)) for _ in range(GREATEST_LENGTH)]
    return text_of(line_of(wall), blocks)


def write_files(folder):
    inputs = list(texts())
    for number, text in enumerate(inputs, 1):
        (folder / str(number)).write_bytes(text)
    (folder / 'expected').write_bytes(b''.join(map(choose, inputs)))
    print(len(inputs))


def main():
    if sys.argv[1:2] == ['files'] and len(sys.argv) == 3:
        write_files(Path(sys.argv[2]))
    elif sys.argv[1:] == ['text']:
        sys.stdout.buffer.write(stored_text())
    else:
        sys.exit(__doc__)


if __name__ == '__main__':
    main()
