"""Lines and rows on which the library is compared with the oracle, edges first.

    python3 oracle/generate.py lines N
        a schedule of N lines; the last one is not ended by byte 10, unless it is empty
    python3 oracle/generate.py rows N
        N rows, one a line, each as 19 words of 16 hexadecimal digits: the bits of the cells in the line's order

The same N gives the same lines, and a smaller N gives the first of them. Behind the edges, which are fewer than
25000, come random lines and rows without end.
"""

import math
import random
import struct
import sys
from itertools import chain, cycle, islice, product

from cases import read_lines
from walls import (A, CELLAR_RANGES, CellarWall, K, RANGE_NUMBERS, STOREY_RANGES, StoreyWall, WIND_RANGE, check,
                   exact_load, factor_r, general_load, greatest_height, line_of, minimum_load, need, row_of)

LARGEST = 999999999
S, C = A._replace, K._replace


def near(*values):
    """The values with their neighbours, without repetition, none below 0."""
    return sorted({n for v in values for n in (v - 1, v, v + 1) if n >= 0})


# ---- Records at the edges

THICKNESS_THRESHOLDS = (115, 150, 175, 200, 240, 250, 300, 365, 1000)
THICKNESSES = near(*THICKNESS_THRESHOLDS)

STOREY_WALLS = [
    A, S(use=2), S(use=3, t=140, a=140, held=4, c=4000, n=2), S(use=3, t=140, a=140, held=3, c=1900, n=2),
    S(use=4, n=1), S(held=3, c=1500), S(held=4, c=3000), S(held=4, c=2000), S(support=2), S(support=3), S(support=4),
    S(t=240, a=240), S(t=240, a=175), S(use=2, t=365, a=245), S(t=365, a=365, h=5000), S(bonded=1), S(w=400),
    S(support=2, L=6000, M=12000), S(t=365, a=365, support=2, L=10000, M=5000),
    S(h=3600, mark=1), S(use=2, h=3300, mark=1, wind=1250), S(use=3, t=240, a=240, h=3600, F=350, mark=1, wind=500),
]
CELLAR_WALLS = [K, C(c=2500), C(c=3750), C(e=0), C(e=2500), C(bonded=1), C(t=200), C(h=2600, e=2600, c=3000), C(e=2875),
                C(h=2600, e=2990, c=3000)]


def storey_thresholds(wall):
    """The values at which a rule changes, for each number."""
    t, h, c, L, M, G, Q = wall.t, wall.h, wall.c, wall.L, wall.M, wall.G, wall.Q
    return StoreyWall(
        use=(), t=THICKNESS_THRESHOLDS, h=(2750, 3000, 3300, 3600, 12 * t, c, 3 * c), w=(40000 // t, 100000 // t),
        held=(), c=(h, h // 3, 15 * t, 30 * t, 2000, 4500), support=(), L=(4200, 6000, 9600, M // 2, M, 2 * M),
        a=(100, t // 2, 9 * t // 20, 175, t), F=(180, 350, 500, 1000), bonded=(), G=(2 * Q,), Q=(G // 2,),
        q=(3000, 5000), H=(20000,), n=(1, 2, 3), M=(L // 2, L, 2 * L, 6000), mark=(), wind=(1250,))


def cellar_thresholds(wall):
    h, e = wall.h, wall.e
    return CellarWall(
        t=(200,), h=(2600, e, 20 * e // 23), e=(h, 23 * h // 20), c=(h, 2 * h), y=(), F=(180,), bonded=(), G=(), Q=(),
        p=(5000,))


def each_number_at_its_edges(wall, ranges, thresholds):
    for name, ends, changes in zip(wall._fields, ranges, thresholds):
        for value in [*near(*ends, *changes), LARGEST]:
            yield wall._replace(**{name: value})


def thickness_edges():
    """Thickness against bearing and use."""
    for t in THICKNESSES:
        for a in near(100, t // 2, 9 * t // 20, 175, t):
            yield S(t=t, a=a)
        for use in (2, 3, 4):
            yield S(t=t, a=t, use=use, n=1)
            yield S(t=t, a=t, use=use, n=1, q=3001)
            yield S(t=t, a=t, use=use, n=1, h=12 * t)


def area_edges():
    """Each thickness and length whose product is at a limit of the area or beside it."""
    for area in near(40000, 100000):
        for t in range(115, 1001):
            if area % t == 0:
                yield S(t=t, a=t, w=area // t)


def holding_edges():
    """Thickness against holding and distance, with and without full bearing."""
    for t in THICKNESSES:
        for a in (t, t - 1):
            for c in near(A.h, A.h // 3, 15 * t, 2000):
                yield S(t=t, a=a, held=3, c=c)
            for c in near(A.h, 30 * t, 4500):
                yield S(t=t, a=a, held=4, c=c)


def two_way_edges():
    """L against M and the support, where the reduction begins and ends and where the shorter span is 6000. On the thicker
    wall the support governs more often."""
    for wall in (A, S(t=365, a=365)):
        for support in (1, 2, 3, 4):
            for L in (4499, 4500, 5001, 5999, 6000, 6001, 7000, 9000, 10000):
                for M in near(0, L // 2, L, 2 * L, 6000):
                    yield wall._replace(support=support, L=L, M=M)


def calcium_silicate_edges():
    """Use, thickness, strength, wind, mark and full bearing against the height limit: a wall as high as its limit (5000
    where there is none), and one higher by 1 mm. On three sides, near the free edge, a thin bearing leaf is not refused
    as 5."""
    for use in (1, 2, 3, 4):
        for t in (115, 149, 150, 174, 175, 199, 200, 239, 240, 299, 300, 301, 365):
            for F in (349, 350, 499, 500, 999, 1000):
                for wind in (1250, 1251):
                    for mark, a in ((1, t), (0, t), (1, t - 1)) if F == 500 else ((1, t),):
                        wall = S(use=use, t=t, held=3, c=1900, a=a, F=F, n=1, mark=mark, wind=wind)
                        height = min(greatest_height(wall), 5000)
                        yield wall._replace(h=height)
                        yield wall._replace(h=height + 1)


def slenderness_edges():
    """E = 270t, which only the length of two sides reaches."""
    for t in (240, 245, 250, 251, 300, 365, 600, 740):
        for a in (t, 174, t // 2 + 1):
            wall = S(t=t, a=min(a, t))
            for h in near(540 * t // factor_r(wall)):
                for held, c in ((2, 0), (3, 15 * t + 1), (4, 30 * t + 1)):
                    yield wall._replace(h=h, held=held, c=c, F=5000)


def load_edges():
    """G against Q on both sides of q = 3000: where 1.4(G + Q) and 1.35G + 1.5Q meet, at G = 2Q; and small loads, which have
    each fraction of both formulas (#108)."""
    for q in (2999, 3000, 3001):
        for Q in (1, 10, 1000, 30000, 5000000):
            for G in near(2 * Q):
                yield S(G=G, Q=Q, q=q)
    for q in (3000, 3001):
        for Q in range(13):
            for G in range(1, 25):
                yield S(G=G, Q=Q, q=q)


def cellar_load_edges():
    """Small loads, which have each fraction of 1.35G + 1.5Q (#108), where the need is 0."""
    for Q in range(13):
        for G in range(1, 25):
            yield C(e=0, G=G, Q=Q)


def fill_edges():
    """Fills around h and around 1.15h, which has each of its twenty fractions for h from 2500 to 2519; and the greatest fill
    for each B, with G equal to the need and beside it."""
    for h in (*range(2500, 2520), 1, 2, 3, 6, 7, 13, 20, 1000, 2599, 2600):
        greatest = 23 * h // 20
        for e in near(h, greatest):
            yield C(h=h, e=e)
        for c in (h, 3 * h // 2, 2 * h):
            wall = C(h=h, e=greatest, c=c)
            for G in near(need(wall)):
                yield wall._replace(G=G)


def load_before_rounding(wall):
    return exact_load(wall.G, wall.Q, wall.q) if isinstance(wall, StoreyWall) else general_load(wall.G, wall.Q)


def with_load(wall, N):
    """Records whose load is N, before it is rounded the least and the greatest of twenty and of forty (#108): with hardly
    any imposed load, and with hardly any dead load, where for q ≤ 3000 the load of a storey wall is 1.4(G + Q)."""
    below_half = 100 * N + 49
    dead = (wall._replace(G=(below_half - 150 * Q) // 135, Q=Q) for Q in range(20))
    imposed = (wall._replace(G=G, Q=(below_half - dead_factor * G) // imposed_factor)
               for G in range(1, 21) for dead_factor, imposed_factor in ((140, 140), (135, 150)))
    for records in (dead, imposed):
        found = [record for record in records if check(record).load == N > 0]
        if found:
            yield min(found, key=load_before_rounding)
            yield max(found, key=load_before_rounding)


def verdict_edges(walls):
    """N equal to the resistance and beside it, for storey walls also with the same loads on both sides of q = 3000; for
    cellar walls also G equal to the need and beside it."""
    for wall in walls:
        result = check(wall)
        if result.load > 0:
            for N in near(result.resistance):
                for record in with_load(wall, N):
                    yield record
                    if isinstance(wall, StoreyWall):
                        yield from (record._replace(q=q) for q in (3000, 3001) if q != wall.q)
            if isinstance(wall, CellarWall):
                for G in near(need(wall)):
                    yield wall._replace(G=G)


def storey_edges():
    for wall in STOREY_WALLS:
        yield from each_number_at_its_edges(wall, STOREY_RANGES, storey_thresholds(wall))
    yield from thickness_edges()
    yield from area_edges()
    yield from holding_edges()
    yield from two_way_edges()
    yield from calcium_silicate_edges()
    yield from load_edges()
    yield from slenderness_edges()
    yield from verdict_edges(STOREY_WALLS)
    yield from verdict_edges(islice(random_storey_walls(Numbers(1)), 60))


def cellar_edges():
    for wall in CELLAR_WALLS:
        yield from each_number_at_its_edges(wall, CELLAR_RANGES, cellar_thresholds(wall))
    for h in (1, 2, 1000, 2599, 2600):
        for c in near(h, 2 * h):
            yield C(h=h, e=h, c=c)
            yield C(h=h, e=h, c=c, y=1)
    yield from fill_edges()
    yield from cellar_load_edges()
    yield from verdict_edges(CELLAR_WALLS)
    numbers = Numbers(2)
    yield from verdict_edges(moderate_cellar(numbers) for _ in range(50))


# ---- Random records

class Numbers:
    """Random whole numbers. Only random() is promised to stay the same in later versions of Python."""

    def __init__(self, seed):
        self.random = random.Random(seed).random

    def within(self, low, high):
        return low + int(self.random() * (high - low + 1))

    def one_of(self, values):
        return values[self.within(0, len(values) - 1)]

    def one_in(self, count):
        return self.within(1, count) == 1


def holding(numbers, t):
    held = numbers.one_of((2, 3, 4))
    return held, 0 if held == 2 else numbers.within(300, 18 * t) if held == 3 else numbers.within(500, 36 * t)


def moderate_storey(numbers):
    """A wall as offices enter it, often accepted."""
    within, one_in = numbers.within, numbers.one_in
    t = within(115, 400) if one_in(3) else numbers.one_of((115, 150, 175, 200, 240, 300, 365))
    held, c = holding(numbers, t)
    wall = StoreyWall(
        use=numbers.one_of((1, 1, 1, 2, 3, 4)), t=t, h=within(1800, 3000 if one_in(5) else 2750),
        w=within(200, 1000) if one_in(4) else within(1000, 9000), held=held, c=c, support=within(1, 4),
        L=within(1000, 6100 if one_in(4) else 6000), a=within(t // 2, t) if one_in(3) else t,
        F=within(170, 1500), bonded=1 if one_in(5) else 0, G=within(1, 160000), Q=within(0, 90000),
        q=within(0, 5100 if one_in(5) else 3000), H=within(2500, 20100), n=1 if one_in(3) else within(1, 5),
        M=0 if one_in(2) else within(1000, 12000), mark=within(0, 1), wind=within(0, 10000 if one_in(5) else 1300))
    return wall._replace(h=within(2700, 3700)) if wall.mark == 1 and one_in(3) else wall


def moderate_cellar(numbers):
    within, one_in = numbers.within, numbers.one_in
    h = within(1800, 2620)
    return CellarWall(
        t=within(195, 500), h=h, e=within(0, 23 * h // 20 + 20), c=within(h // 2, 3 * h), y=within(10000, 22000),
        F=within(175, 1500), bonded=1 if one_in(4) else 0, G=within(1, 150000), Q=within(0, 60000),
        p=within(0, 5050))


def wide_number(numbers, low, high):
    """Mostly within the range and as often small as large, sometimes beyond it."""
    if numbers.one_in(40):
        return numbers.within(0, 1 << numbers.within(0, 30))
    return low + numbers.within(0, (high - low) >> numbers.within(0, 12))


def wide_storey(numbers):
    wall = StoreyWall(*(wide_number(numbers, low, high) for low, high in STOREY_RANGES))
    if numbers.one_in(4):
        return wall
    held, c = holding(numbers, wall.t)
    return wall._replace(held=held, c=c, a=numbers.within(1, wall.t))


def wide_cellar(numbers):
    return CellarWall(*(wide_number(numbers, low, high) for low, high in CELLAR_RANGES))


def random_storey_walls(numbers):
    while True:
        yield wide_storey(numbers) if numbers.one_in(4) else moderate_storey(numbers)


# ---- Damaged lines

TELLING_BYTES = b'\0\t\r +-./019:CSs\xb0\xff'
# Each byte value but the one that ends a line of a schedule.
WITHIN_A_LINE = bytes(byte for byte in range(256) if byte != 10)


def wrong_words(word):
    """A number in forms that are wrong, or as large as the form allows."""
    yield from (b'', b'x', b'00', b'-0', b'0' * 10, b'0x' + word, b'\xd9\xa1')
    yield from (before + word for before in (b' ', b'\t', b'0', b'+', b'-'))
    yield from (word + behind for behind in (b'.', b'.0', b',', b'e0'))
    yield from (b'0', b'1' * 9, b'9' * 9, b'1' * 10, b'4294967296', b'18446744073709551616', b'9' * 30)


def damaged_words(line):
    """Each number of a line in a wrong form, numbers missing or added, and other letters."""
    words = line.split(b' ')
    for place, word in enumerate(words[1:], 1):
        before, behind = words[:place], words[place + 1:]
        for wrong in wrong_words(word):
            yield b' '.join([*before, wrong, *behind])
        yield b' '.join(before)
        yield b' '.join([*before[:-1], before[-1] + word, *behind])
        # A number out of range before a wrong byte further on.
        yield b' '.join([*before, b'9' * 9, *behind, b''])
    for more in (b' ', b'  ', b' 0', b' 1', b' 1 0', b' 0 0 0', b'\r', b'\0', b'\t', b'0', b'.', b'S', b' S'):
        yield line + more
    for letter in (b'', b' ', b'T', b'B', b'D', b'R', b's', b'c', b'SS', b'SC', b'S ', b'C ', b'\0', b'1', b'\xd3'):
        yield letter + line[1:]
    yield from (b' ' + line, b'\t' + line, b'\xef\xbb\xbf' + line, line + line, line + b' ' + line)


def damaged_bytes(line):
    """A line cut short, and with a byte removed, added or replaced, at each place."""
    for place in range(len(line)):
        yield line[:place]
        yield line[:place] + line[place + 1:]
        for byte in TELLING_BYTES:
            yield line[:place] + bytes([byte]) + line[place + 1:]
            if byte in b' 09\r':
                yield line[:place] + bytes([byte]) + line[place:]


def replaced_bytes(line, values=range(256)):
    """Each of the values at each place."""
    for place in range(len(line)):
        for byte in values:
            yield line[:place] + bytes([byte]) + line[place + 1:]


def beginnings(line):
    """Each beginning of a line, from none of it to all."""
    for length in range(len(line) + 1):
        yield line[:length]


def long_lines():
    line = line_of(A)
    for length in (*range(197, 205), 255, 256, 257, 511, 512, 513, 1023, 1024, 1025, 4095, 4096, 4097):
        yield (line + b' 1' * length)[:length]
        yield line + b' ' * (length - len(line))
        yield line + b'0' * (length - len(line))
        yield b'S' * length
    yield from (b'\xff' * 8192, b'0' * 65535, b' ' * 65536, line + b'\r' * 65472, b'C' * 70000)
    for letter in (b'S', b'C'):
        for count in (9, 10, 11, 16, 17, 18, 19, 20, 21):
            yield letter + b' 999999999' * count
            yield letter + b' 0' * count
            yield letter + b' 1' * count


def lines_of_one_byte():
    yield b''
    for byte in WITHIN_A_LINE:
        yield bytes([byte])


def random_damage(numbers, line):
    for _ in range(numbers.within(1, 3)):
        place = numbers.within(0, len(line))
        byte = bytes([numbers.one_of(TELLING_BYTES) if numbers.one_in(2) else numbers.one_of(b' 0123456789')])
        line = line[:place] + numbers.one_of((b'', byte)) + line[place + numbers.within(0, 1):]
    return line


# ---- Lines

def random_lines(numbers):
    while True:
        kind = numbers.within(1, 20)
        if kind <= 12:
            yield line_of(moderate_storey(numbers))
        elif kind <= 15:
            yield line_of(moderate_cellar(numbers))
        elif kind <= 17:
            yield line_of(wide_storey(numbers))
        elif kind <= 18:
            yield line_of(wide_cellar(numbers))
        else:
            kind_of_wall = numbers.one_of((moderate_storey, moderate_cellar))
            yield random_damage(numbers, line_of(kind_of_wall(numbers)))


def edge_lines():
    yield from read_lines()
    yield from map(line_of, chain(storey_edges(), cellar_edges()))
    for line in (line_of(A), line_of(K)):
        yield from damaged_words(line)
    yield from damaged_bytes(line_of(A))
    yield from lines_of_one_byte()
    yield from long_lines()
    yield from replaced_bytes(b'C 200 9 9 9 900 180 1 99 9 9', WITHIN_A_LINE)


def lines(count):
    """Each edge once, then random lines."""
    return islice(chain(dict.fromkeys(edge_lines()), random_lines(Numbers(3))), count)


def schedule_of(lines):
    """A schedule whose last line is not ended by byte 10, unless it is empty."""
    stream = b'\n'.join(lines)
    return stream + b'\n' if stream.endswith(b'\n') else stream


# ---- Rows: 19 words, the bits of the cells in order

def bits(value):
    return struct.unpack('<Q', struct.pack('<d', value))[0]


INFINITY, SIGN = bits(math.inf), 1 << 63
SPECIAL = [
    0, SIGN, 1, SIGN | 1, (1 << 52) - 1, 1 << 52, SIGN | 1 << 52,            # zeros, subnormals, the least normal
    *map(bits, (0.1, 0.5, 1.5, -0.5, -1.0, -175.0, 175.5, -math.pi, 1e300)),
    *map(bits, (2.0**31, 2.0**32, 2.0**32 + 175, 2.0**52 + 1, 2.0**53 - 1, 2.0**53, 2.0**53 + 2, 2.0**63,
                2.0**64 - 2048, 2.0**64, 2.0**64 + 4096, -2.0**63, 2.0**1023, sys.float_info.max)),
    INFINITY, SIGN | INFINITY,
    INFINITY | 1, INFINITY | (1 << 51) - 1, SIGN | INFINITY | 1,             # signalling NaN
    INFINITY | 1 << 51, INFINITY | (1 << 52) - 1, (1 << 64) - 1, INFINITY | 1 << 51 | 175,  # quiet NaN
]
HELD, DISTANCE, DEAD = map(StoreyWall._fields.index, ('held', 'c', 'G'))


def words_of(wall):
    return list(map(bits, row_of(wall)))


def with_word(words, place, word):
    return [*words[:place], word, *words[place + 1:]]


def cell_edges():
    """Bounds and thresholds of each cell with the floating-point numbers around them."""
    edges = zip(STOREY_RANGES, storey_thresholds(S(held=3, c=1500)))
    for place, (ends, changes) in enumerate(edges):
        yield place, sorted({bits(cell) for value in {*ends, *changes, 175} for cell in (
            float(value), value - 1.0, value + 1.0, value + 0.5, -float(value),
            math.nextafter(value, math.inf), math.nextafter(value, -math.inf))} | set(SPECIAL))


def rows_at_cell_edges():
    for wall in (A, S(held=3, c=1500), S(held=4, c=3000)):
        for place, values in cell_edges():
            for value in values:
                yield with_word(words_of(wall), place, value)


def rows_of_holdings():
    """Numbers of sides, and what would be one in fewer bits, against distances."""
    sides = [float(n) for n in (*range(-4, 8), 2**8 + 2, 2**16 + 3, 2**32 + 2, 2**32 + 4, 2**63, 2**64)]
    around = [math.nextafter(n, end) for n in (2.0, 3.0, 4.0) for end in (-math.inf, math.inf)]
    for held in (*sides, *around, -0.0, 2.5, 3.5, 4.5, 1e308, math.inf, -math.inf, math.nan):
        for distance in (0.0, -0.0, 5e-324, 0.5, 1.0, 5.0, -5.0, 1500.0, 1500.5, 30000.0, 30001.0, math.inf, math.nan):
            yield with_word(with_word(words_of(A), HELD, bits(held)), DISTANCE, bits(distance))


def rows_of_powers():
    """G with each exponent, and with each single bit of the fraction set."""
    for exponent in range(2048):
        for fraction in (0, (1 << 52) - 1):
            yield with_word(words_of(A), DEAD, exponent << 52 | fraction)
    for exponent in range(1023, 1023 + 25):
        for bit in range(52):
            yield with_word(words_of(A), DEAD, exponent << 52 | 1 << bit)


def random_rows(numbers):
    for words in map(words_of, random_storey_walls(numbers)):
        if numbers.one_in(20):
            words[DISTANCE] = numbers.one_of(SPECIAL)
        if numbers.one_in(8):
            place = numbers.within(0, len(words) - 1)
            word = words[place]
            words[place] = numbers.one_of((min(word + 1, (1 << 64) - 1), max(word - 1, 0), word ^ SIGN,
                                           word ^ 1 << numbers.within(0, 63), numbers.one_of(SPECIAL)))
        yield words


def rows(count):
    edges = chain(map(words_of, storey_edges()), rows_at_cell_edges(), rows_of_holdings(), rows_of_powers())
    return islice(chain(edges, random_rows(Numbers(4))), count)


def storey_records(count):
    """Records that both a line and a row can hold."""
    walls = chain(storey_edges(), random_storey_walls(Numbers(5)))
    return islice((wall for wall in walls if max(wall) <= LARGEST), count)


# ---- A design wind W beside the record: document 02, #106

# At and around the bounds of W and of its figure, and what would be within them in fewer bits.
WINDS = [*near(*WIND_RANGE, 780), 5000, 2**16 + 1, 2**32, 2**32 + 780, 2**63, 2**64 - 1]


def minimum_load_edges():
    """Records with W at and around its bounds; with N at the resistance and beside it; with G at the need and beside it, also
    where the load is above the resistance, which is 13 before 21; and with the greatest heights, the greatest need and the
    shallowest bearings."""
    for wall in STOREY_WALLS:
        yield from ((wall, W) for W in WINDS)
    yield from ((wall, 780) for wall in verdict_edges(STOREY_WALLS))
    high = (S(use=1, t=t, a=a, h=h, F=5000) for t in (240, 365, 1000) for a in (101, t // 2 + 1, 175, t) if a <= t
            for h in (2750, 3600, 20 * t, 30 * t) if h <= 20000)
    greatest = S(t=240, a=120, h=20000, held=4, c=500, F=5000)
    shallow = (S(t=t, a=a, h=h) for t in (200, 202, 203) for a in (101, 102) for h in (1, 2, 600, 2749, 2750))
    for wall in (*STOREY_WALLS, *high, greatest, *shallow):
        for W in (1, 2, 780, 1250, 9999, 10000):
            for G in near(minimum_load(wall, W)):
                yield wall._replace(G=G, Q=1000), W
                yield wall._replace(G=G, Q=10000000), W
    for G in (1, 2, 100, 6061, 6062, 77714, 77715):
        yield from ((S(G=G), W) for W in near(160 * G * (300 * A.a - A.h) // (9 * A.h**2)))
    # With these, 27 N/m for each 40 N/m² of W, the exact need is whole.
    for W in near(40, 400, 4000, 10000):
        for G in near(27 * W // 40):
            yield S(t=200, a=102, h=600, G=G), W


def random_walls_with_wind(numbers):
    """Random records and W, every third with G at the need or beside it."""
    for wall in random_storey_walls(numbers):
        W = numbers.one_of(WINDS) if numbers.one_in(10) else wide_number(numbers, *WIND_RANGE)
        if numbers.one_in(3) and wall.h < 300 * wall.a and W <= 10001:
            wall = wall._replace(G=max(0, minimum_load(wall, W) + numbers.within(-2, 1)))
        yield wall, W


def random_lines_with_wind(numbers):
    for wall, W in random_walls_with_wind(numbers):
        kind = numbers.within(1, 20)
        if kind == 1:
            yield line_of(moderate_cellar(numbers)), W
        elif kind == 2:
            yield random_damage(numbers, line_of(wall)), W
        else:
            yield line_of(wall), W


def lines_with_wind(count):
    """Each edge once, then random lines; all with W."""
    edges = chain(((line_of(wall), W) for wall, W in minimum_load_edges()),
                  ((line, W) for line in read_lines() for W in (0, 780, 10001)))
    return islice(chain(dict.fromkeys(edges), random_lines_with_wind(Numbers(6))), count)


def wind_cells():
    """The words of cells for W: at and around its bounds, with the floating-point numbers around them, and the special ones."""
    return sorted({bits(cell) for W in WINDS for cell in (
        float(W), W + 0.5, -float(W), math.nextafter(W, math.inf), math.nextafter(W, -math.inf))} | set(SPECIAL))


def random_rows_with_wind(numbers):
    for wall, W in random_walls_with_wind(numbers):
        words = [*words_of(wall), bits(float(W))]
        if numbers.one_in(8):
            place = numbers.within(0, len(words) - 1)
            words[place] = numbers.one_of((words[place] ^ 1 << numbers.within(0, 63), numbers.one_of(SPECIAL)))
        yield words


def rows_with_wind(count):
    """The words of a row's cells and, last, that of W's cell."""
    edges = chain(([*words_of(wall), bits(float(W))] for wall, W in minimum_load_edges()),
                  ([*words_of(wall), word] for wall in STOREY_WALLS for word in wind_cells()),
                  ([*words, bits(780.0)] for words in chain(rows_at_cell_edges(), rows_of_holdings())))
    return islice(chain(edges, random_rows_with_wind(Numbers(7))), count)


# ---- A low and a high record: document 02, #109

# By how much the high record is above the low one in each number that may differ: one to three values, in every
# combination.
SMALL_WIDTHS = tuple(product(range(3), repeat=len(RANGE_NUMBERS)))
OTHER_NUMBERS = tuple(name for name in StoreyWall._fields if name not in RANGE_NUMBERS)


def loaded_to_the_resistance(numbers, wall):
    """The wall with loads that are about its resistance, where it has one."""
    resistance = check(wall).resistance
    Q = numbers.within(0, resistance // 2)
    # The load is the smaller of both formulas up to q = 3000, and so reaches the resistance with the greater G.
    general, simplified = (100 * resistance - 150 * Q) // 135, 100 * resistance // 140 - Q
    G = general if wall.q > 3000 else max(general, simplified)
    return wall._replace(G=max(1, G + numbers.within(-2, 2)), Q=Q)


def tall_calcium_silicate(numbers, wall):
    """The wall with a height of #102 or beside it, F where that height begins, and hardly any load."""
    t = numbers.one_of((175, 175, 200, 240))
    return wall._replace(t=t, a=t, h=numbers.one_of((2751, 3000, 3001, 3300)), F=numbers.one_of((350, 500)), G=1, Q=0,
                         mark=1, wind=numbers.within(0, 1250))


def slender(numbers, wall):
    """An inner wall with E = 270t or above it, with hardly any load."""
    t = numbers.one_of((240, 300, 365))
    wall = wall._replace(use=1, t=t, a=t, held=2, c=0, G=1, Q=0)
    return wall._replace(h=540 * t // factor_r(wall) + numbers.within(0, 1))


def near_a_verdict(numbers, wall):
    """The wall with its load, or another number that may differ, where a verdict changes; or as slender as is allowed."""
    kind = numbers.within(1, 11)
    if kind <= 4:
        return loaded_to_the_resistance(numbers, wall)
    if kind == 5:
        return tall_calcium_silicate(numbers, wall)
    if kind == 11:
        return slender(numbers, wall)
    name, values = (('F', (179, 180)), ('q', (3000, 3001)), ('q', (5000, 5001)), ('L', (6000, 6001)),
                    ('H', (20000, 20001)))[kind - 6]
    loads = {'G': numbers.within(1, 20000), 'Q': numbers.within(0, 20000)}
    return wall._replace(**loads, **{name: numbers.one_of(values)})


def range_around(numbers, wall, widths):
    """A low and a high record with these widths. The wall has the greatest loads, span and building height and the
    least strength of the records between, or the opposite of these, or lies anywhere between. Where L differs M is 0."""
    place, low, high = numbers.within(1, 3), {}, {}
    if widths[RANGE_NUMBERS.index('L')] > 0:
        wall = wall._replace(M=0)
    for name, width in zip(RANGE_NUMBERS, widths):
        least, greatest = getattr(STOREY_RANGES, name)
        at_high_end = (place == 1) != (name == 'F')
        below = numbers.within(0, width) if place == 3 else width if at_high_end else 0
        low[name] = max(least, getattr(wall, name) - below)
        high[name] = min(greatest, low[name] + width)
    return wall._replace(**low), wall._replace(**high)


def with_bad_range(numbers, low, high):
    """The pair with a low value above its high one, with another number that differs, or with L that differs and M
    above 0."""
    kind = numbers.within(1, 3)
    if kind == 1:
        name = numbers.one_of(RANGE_NUMBERS)
        return low._replace(**{name: getattr(high, name) + numbers.one_of((1, 1, 100))}), high
    if kind == 2:
        name = numbers.one_of(OTHER_NUMBERS)
        return low, high._replace(**{name: max(0, getattr(high, name) + numbers.one_of((-1, 1)))})
    M = numbers.one_of((1, 6000, 12000))
    return low._replace(M=M), high._replace(M=M, L=high.L + numbers.one_of((-1, 1)))


def with_number_out_of_range(numbers, low, high):
    """The pair with a number out of range in the low record, the high one or both."""
    place, which = numbers.within(0, len(low) - 1), numbers.within(1, 3)
    least, greatest = STOREY_RANGES[place]
    beyond = numbers.one_of((greatest + 1, LARGEST, least - 1 if least > 0 else greatest + 1))
    changed = {StoreyWall._fields[place]: beyond}
    return low._replace(**changed) if which != 1 else low, high._replace(**changed) if which != 2 else high


def now_and_then_refused(numbers, pair):
    """Two of six pairs with something that is mostly refused, as 2 or as 25."""
    kind = numbers.within(1, 6)
    if kind == 1:
        return with_bad_range(numbers, *pair)
    return with_number_out_of_range(numbers, *pair) if kind == 2 else pair


def small_ranges(numbers):
    """Pairs of records between which at most 729 lie, 64 on average where none is beyond its range."""
    for widths in cycle(SMALL_WIDTHS):
        wall = near_a_verdict(numbers, moderate_storey(numbers))
        yield now_and_then_refused(numbers, range_around(numbers, wall, widths))


def wide_ranges(numbers):
    """Pairs of records between which any number of records lies; a line can hold each of them."""
    ends = [getattr(STOREY_RANGES, name)[1] for name in RANGE_NUMBERS]
    while True:
        wall = near_a_verdict(numbers, wide_storey(numbers) if numbers.one_in(5) else moderate_storey(numbers))
        wall = StoreyWall(*(min(number, LARGEST) for number in wall))
        widths = [0 if numbers.one_in(3) else end >> numbers.within(0, 24) for end in ends]
        yield now_and_then_refused(numbers, range_around(numbers, wall, widths))


def random_range_lines(numbers):
    """Pairs of lines of which the low one, the high one or both are damaged or a cellar wall's."""
    for pair in wide_ranges(numbers):
        lines = list(map(line_of, pair))
        for place in numbers.one_of(((0,), (1,), (0, 1))):
            cellar = numbers.one_in(3)
            lines[place] = line_of(moderate_cellar(numbers)) if cellar else random_damage(numbers, lines[place])
        yield tuple(lines)


def range_lines(count):
    """Each case of a line beside A, as the low and as the high line, then random pairs."""
    line = line_of(A)
    edges = chain.from_iterable(((other, line), (line, other)) for other in read_lines())
    return islice(chain(dict.fromkeys(edges), random_range_lines(Numbers(14))), count)


def random_range_rows(numbers):
    """Pairs of rows, every second with one cell of the low row, the high one or both that has other bits."""
    for pair in wide_ranges(numbers):
        low, high = map(words_of, pair)
        place, which = numbers.within(0, len(low) - 1), numbers.within(1, 6)
        word = numbers.one_of((low[place] ^ 1 << numbers.within(0, 63), high[place] ^ SIGN, numbers.one_of(SPECIAL)))
        yield (with_word(low, place, word) if which in (1, 3) else low,
               with_word(high, place, word) if which in (2, 3) else high)


def range_rows(count):
    """The words of both rows: each row at an edge of a cell beside A, as the low row, as the high one and as both, then
    random pairs."""
    words = words_of(A)
    edges = chain.from_iterable(((other, words), (words, other), (other, other))
                                for other in chain(rows_at_cell_edges(), rows_of_holdings()))
    return islice(chain(edges, random_range_rows(Numbers(15))), count)


def main():
    if len(sys.argv) != 3 or sys.argv[1] not in ('lines', 'rows'):
        sys.exit(__doc__)
    kind, count = sys.argv[1], int(sys.argv[2])
    if kind == 'lines':
        sys.stdout.buffer.write(schedule_of(lines(count)))
    else:
        for words in rows(count):
            print(' '.join('%016x' % word for word in words))


if __name__ == '__main__':
    main()
