"""The simplified check of unreinforced masonry walls, in exact fractions.

A calculation of document 01 and of those requests of document 02 that have landed, made apart from the library, in
document 01's order and with its letters, to be read beside it. Programs compare the library with it.
"""

import re
from collections import namedtuple
from fractions import Fraction
from itertools import product
from math import ceil, floor, inf, isfinite, prod

# ---- The two lines

StoreyWall = namedtuple('StoreyWall', 'use t h w held c support L a F bonded G Q q H n M mark wind')
CellarWall = namedtuple('CellarWall', 't h e c y F bonded G Q p')

# Lowest and highest value of each number; what depends on another number stands in storey_in_range.
STOREY_RANGES = StoreyWall(
    use=(1, 4), t=(1, 1000), h=(1, 20000), w=(1, 20000), held=(2, 4), c=(0, 30000), support=(1, 4),
    L=(1, 20000), a=(1, 1000), F=(1, 5000), bonded=(0, 1), G=(1, 10000000), Q=(0, 10000000),
    q=(0, 100000), H=(1, 200000), n=(1, 20), M=(0, 20000), mark=(0, 1), wind=(0, 10000))
CELLAR_RANGES = CellarWall(
    t=(1, 1000), h=(1, 20000), e=(0, 20000), c=(1, 30000), y=(1, 30000), F=(1, 5000), bonded=(0, 1),
    G=(1, 10000000), Q=(0, 10000000), p=(0, 100000))


def number_pattern(digits):
    """A space and a number: "1 to 9 digits, without leading zeros (a lone 0 is allowed)", or at most so many digits."""
    return b' (?:0|[1-9][0-9]{0,%d})' % (digits - 1)


def line_pattern(letter, count, digits=9):
    """A letter and so many numbers."""
    return re.compile(b'%b(?:%b){%d}' % (letter, number_pattern(digits), count))


STOREY_LINE = line_pattern(b'S', len(StoreyWall._fields))
CELLAR_LINE = line_pattern(b'C', len(CellarWall._fields))


def read_line(line):
    """The record of a line, or None if it is not a line of this form."""
    if STOREY_LINE.fullmatch(line):
        return StoreyWall(*map(int, line.split(b' ')[1:]))
    if CELLAR_LINE.fullmatch(line):
        return CellarWall(*map(int, line.split(b' ')[1:]))
    return None


# Document 02, #104

def beginning_pattern(letter, count, digits=9):
    """What a line of line_pattern can begin with: nothing, or the letter, fewer numbers than the line has and, behind
    them, nothing, one more number or its space. (What a number begins with, one digit at least, is a number.)"""
    number = number_pattern(digits)
    return re.compile(b'(?:%b(?:%b){0,%d}(?:%b| )?)?' % (letter, number, count - 1, number))


STOREY_BEGINNING = beginning_pattern(b'S', len(StoreyWall._fields))
CELLAR_BEGINNING = beginning_pattern(b'C', len(CellarWall._fields))


def begins_a_line(part):
    """Whether some line of the right form, in range or not, begins with these bytes."""
    return bool(STOREY_BEGINNING.fullmatch(part) or CELLAR_BEGINNING.fullmatch(part))


def taken(line):
    """How many bytes are taken: up to and including the first wrong byte, or all where there is none. A byte is wrong
    when no line of the form begins with the bytes up to and including it."""
    if begins_a_line(line):
        return len(line)
    return next(count for count in range(1, len(line) + 1) if not begins_a_line(line[:count]))


def line_of(wall):
    """The line of a record."""
    letter = 'S' if isinstance(wall, StoreyWall) else 'C'
    return ' '.join([letter, *map(str, wall)]).encode()


def each_in_range(wall, ranges):
    return all(low <= number <= high for number, (low, high) in zip(wall, ranges))


def storey_in_range(wall):
    """Each number in its range; a is at most t, and c is 0 exactly if held is 2."""
    return (each_in_range(wall, STOREY_RANGES) and wall.a <= wall.t
            and (wall.c == 0) == (wall.held == 2))


def cellar_in_range(wall):
    return each_in_range(wall, CELLAR_RANGES)


# ---- Storey wall

def factor_r(wall):
    """r of the factor r/20."""
    bearing_suffices = wall.a >= 175 if wall.t >= 240 else wall.a == wall.t
    if not bearing_suffices:
        return 20
    if wall.t <= 175:
        return 15
    if wall.t <= 250:
        return 18
    return 20


def exact_buckling_length(wall):
    """The buckling length in tenths of a mm, before it is rounded."""
    t, h, held, c = wall.t, wall.h, wall.held, wall.c
    k = factor_r(wall) * h
    if held == 3 and c <= 15 * t:
        return max(Fraction(1800 * c**2 * k, 3600 * c**2 + k**2), Fraction(3 * h))
    if held == 4 and c <= 30 * t:
        if h <= c:
            return Fraction(200 * c**2 * k, 400 * c**2 + k**2)
        return Fraction(5 * c)
    return Fraction(k, 2)


def buckling_length(wall):
    """E: the exact value rounded up."""
    return ceil(exact_buckling_length(wall))


def governing_span(wall):
    """#101: with M above 0 the shorter of L and M stands for L."""
    return min(wall.L, wall.M) if wall.M > 0 else wall.L


def span_reduced(wall):
    """#101: M above 0, M ≤ 2L and L ≤ 2M."""
    return wall.M > 0 and wall.M <= 2 * wall.L and wall.L <= 2 * wall.M


def span_in_m(wall):
    """#101: with the reduction 0.85 times the shorter span, unrounded."""
    return Fraction(85, 100) * governing_span(wall) if span_reduced(wall) else governing_span(wall)


def span_value_m(wall):
    """m, for supports 2 to 4."""
    if wall.support == 2:
        return min(5400, 9600 - span_in_m(wall))
    if wall.support == 3:
        return 1998
    return 5400


def exact_resistance(wall, E):
    """The resistance in N/m before it is rounded, for a buckling length E."""
    t, a, F = wall.t, wall.a, wall.F
    smaller = Fraction(17 * F * (850000 * a * t - 11 * E**2), 3000000 * t)
    if wall.support != 1:
        smaller = min(smaller, Fraction(17 * F * a, 18000) * span_value_m(wall))
    not_below_0 = max(smaller, Fraction(0))
    if wall.w * t < 100000 or wall.bonded == 1:
        return not_below_0 * Fraction(4, 5)
    return not_below_0


def storey_resistance(wall, E):
    """Rounded down once."""
    return floor(exact_resistance(wall, E))


def general_load(G, Q):
    """Document 01's load before it is rounded: 1.35G + 1.5Q."""
    return Fraction(135 * G + 150 * Q, 100)


def simplified_load(G, Q):
    """#103: 1.4(G + Q)."""
    return Fraction(140 * (G + Q), 100)


def exact_load(G, Q, q):
    """#103: for q ≤ 3000 the smaller of both, above it document 01's."""
    return min(simplified_load(G, Q), general_load(G, Q)) if q <= 3000 else general_load(G, Q)


def rounded_load(exact):
    """#108: N is the exact load "to the nearest newton per metre, an exact half upwards"."""
    return floor(exact + Fraction(1, 2))


def storey_load(wall):
    return rounded_load(exact_load(wall.G, wall.Q, wall.q))


def general_height(wall):
    """Document 01's greatest clear height."""
    if wall.t < 240:
        return 2750
    return inf if wall.use == 1 else 12 * wall.t


def calcium_silicate_height(wall):
    """#102: the height that is named for the thickness and for F ≥ 350, or None. A thickness between two rows takes the
    thinner row."""
    if wall.use == 1:
        return 3600 if wall.t < 240 else None
    rows = {115: 2750, 150: 2750, 175: 3300 if wall.F >= 500 else 3000, 200: 3600, 240: 3600, 300: 12 * wall.t}
    reached = [row for row in rows if row <= wall.t]
    return rows[max(reached)] if reached else None


def greatest_height(wall):
    """#102: the named height with the mark, a = t, F ≥ 350 and for uses other than 1 wind ≤ 1250; where none is named,
    document 01's stays."""
    named = None
    if wall.mark == 1 and wall.a == wall.t and wall.F >= 350 and (wall.use == 1 or wall.wind <= 1250):
        named = calcium_silicate_height(wall)
    return general_height(wall) if named is None else named


# ---- Cellar wall

def cellar_b(wall):
    h, c = wall.h, wall.c
    if c >= 2 * h:
        return Fraction(20)
    if c <= h:
        return Fraction(40)
    return 60 - Fraction(20 * c, h)


def greatest_fill(wall):
    """#105: "e may reach 1.15h", and is compared with it without rounding."""
    return Fraction(115, 100) * wall.h


def need(wall):
    """y × h × e²/(1000000 × B × t), rounded up; #105: "takes e as entered"."""
    return ceil(wall.y * wall.h * wall.e**2 / (1000000 * cellar_b(wall) * wall.t))


def cellar_resistance(wall):
    """17Ft/9, times 4/5 if bonded, rounded down."""
    exact = Fraction(17 * wall.F * wall.t, 9)
    return floor(exact * Fraction(4, 5) if wall.bonded == 1 else exact)


def cellar_load(wall):
    """#103 is for storey walls only."""
    return rounded_load(general_load(wall.G, wall.Q))


# ---- Results and refusals

Result = namedtuple('Result', 'refusal second load resistance spare')

A = read_line(b'S 1 175 2625 5000 2 0 1 5000 175 500 0 60000 90000 2250 9000 3 0 0 0')
K = read_line(b'C 365 2500 2000 6000 20000 500 0 40000 10000 5000')


def refused(number):
    """A refusal that leaves four zeros."""
    return Result(number, 0, 0, 0, 0)


def filled(number, second, N, resistance):
    """An accepted result, or a refusal that fills all five."""
    return Result(number, second, N, resistance, resistance - N)


def refused_use(wall):
    """use 2 and t < 150; or use 4 and n > 1; or use 3, t < 150 and either n > 2 or neither (held 4, c ≤ 4500)
    nor (held 3, c ≤ 2000)"""
    held_near = (wall.held == 4 and wall.c <= 4500) or (wall.held == 3 and wall.c <= 2000)
    return ((wall.use == 2 and wall.t < 150)
            or (wall.use == 4 and wall.n > 1)
            or (wall.use == 3 and wall.t < 150 and (wall.n > 2 or not held_near)))


def refused_bearing(wall):
    """a ≤ 100, or 2a < t (for t = 365: 20a < 9t)"""
    return wall.a <= 100 or (20 * wall.a < 9 * wall.t if wall.t == 365 else 2 * wall.a < wall.t)


# Number and test of the refusals that leave zeros, in the order in which they are given.
STOREY_REFUSALS = [
    (2, lambda wall: not storey_in_range(wall)),
    (3, lambda wall: wall.t < 115),
    (4, lambda wall: wall.w * wall.t < 40000),
    (5, refused_use),
    (6, lambda wall: wall.h > greatest_height(wall)),
    (7, lambda wall: wall.q > 5000 or (wall.q > 3000 and wall.use != 1 and wall.t < 175)),
    (8, lambda wall: wall.H > 20000),
    (9, lambda wall: governing_span(wall) > 6000 and wall.support != 4),
    (10, refused_bearing),
    (11, lambda wall: wall.F < 180),
    (12, lambda wall: buckling_length(wall) > 270 * wall.t),
]
CELLAR_REFUSALS = [
    (2, lambda wall: not cellar_in_range(wall)),
    (14, lambda wall: wall.t < 200),
    (15, lambda wall: wall.h > 2600),
    (16, lambda wall: wall.e > greatest_fill(wall)),
    (17, lambda wall: wall.p > 5000),
    (11, lambda wall: wall.F < 180),
]


def first_refusal(refusals, wall):
    """The number of the first refusal that applies, or 0."""
    return next((number for number, applies in refusals if applies(wall)), 0)


def check_storey(wall):
    number = first_refusal(STOREY_REFUSALS, wall)
    if number:
        return refused(number)
    E = buckling_length(wall)
    N = storey_load(wall)
    resistance = storey_resistance(wall, E)
    return filled(13 if N > resistance else 0, E, N, resistance)


def check_cellar(wall):
    number = first_refusal(CELLAR_REFUSALS, wall)
    if number:
        return refused(number)
    required = need(wall)
    N = cellar_load(wall)
    resistance = cellar_resistance(wall)
    number = 18 if N > resistance else 19 if wall.G < required else 0
    return filled(number, required, N, resistance)


def check(wall):
    """The result of a record of either kind."""
    return check_storey(wall) if isinstance(wall, StoreyWall) else check_cellar(wall)


def check_line(line):
    """The result of a line of bytes."""
    wall = read_line(line)
    return refused(1) if wall is None else check(wall)


# ---- Document 02, #106: the minimum load in the top storey

WIND_RANGE = (1, 10000)


def minimum_load(wall, W):
    """The need: 9Wh²/(160(300a − h)), rounded up."""
    return ceil(Fraction(9 * W * wall.h**2, 160 * (300 * wall.a - wall.h)))


def check_minimum_load(wall, W):
    """The result of a storey record with the design wind W. "A W out of range is refusal 2 in that refusal's place"; the
    ordinary check's "refusal is passed on as it is"; 21 comes last. Accepted and 21 carry the need."""
    low, high = WIND_RANGE
    if not low <= W <= high:
        return refused(2)
    ordinary = check_storey(wall)
    if ordinary.refusal:
        return ordinary
    required = minimum_load(wall, W)
    return filled(21 if wall.G < required else 0, required, ordinary.load, ordinary.resistance)


def storey_alone(line):
    """The record of an `S` line; None, refusal 1, also for a `C` line."""
    wall = read_line(line)
    return wall if isinstance(wall, StoreyWall) else None


def check_minimum_load_line(line, W):
    wall = storey_alone(line)
    return refused(1) if wall is None else check_minimum_load(wall, W)


# ---- Document 02, #109: early design with ranges

RangeResult = namedtuple('RangeResult', 'refusal answer')

# What the low and the high record may differ in.
RANGE_NUMBERS = ('G', 'Q', 'F', 'L', 'q', 'H')


def count_between(low, high):
    """How many records lie between two that are not refused as 25."""
    return prod(upper - lower + 1 for lower, upper in zip(low, high))


def records_between(low, high):
    """The records each of whose numbers lies between, "ends included"."""
    return map(StoreyWall._make, product(*(range(lower, upper + 1) for lower, upper in zip(low, high))))


def accepted(wall):
    return check_storey(wall).refusal == 0


def answer_by_definition(low, high):
    """The answer: "1 if every record between them is accepted, 2 if none is, 3 otherwise". Once both an accepted and a
    refused one are found, the records behind them can change nothing."""
    verdicts = set()
    for wall in records_between(low, high):
        verdicts.add(accepted(wall))
        if len(verdicts) == 2:
            return 3
    return 1 if verdicts == {True} else 2


def answer_by_worst_and_best(low, high):
    """The same from two records between them, the one with the greatest loads, span and building height and the least
    strength, and the one with the least of those and the greatest strength. By demand 3 every record between them is
    accepted if the first is, and the second is if any is; selftest.py compares this with the definition."""
    if accepted(high._replace(F=low.F)):
        return 1
    return 3 if accepted(low._replace(F=high.F)) else 2


# The definition is run where no more records than these lie between; between the widest ranges lie some 10^32.
MOST_ENUMERATED = 4000


def may_differ(name, wall):
    """G, Q, F, L, q, H; "where M isn't 0, L must agree too"."""
    return name in RANGE_NUMBERS and (name != 'L' or wall.M == 0)


def refused_range(low, high):
    """25: "a low value is above its high value or another number differs, L with M above 0 included"."""
    return any(lower > upper if may_differ(name, low) else lower != upper
               for name, lower, upper in zip(StoreyWall._fields, low, high))


def check_range(low, high):
    """The result of two storey records. A number out of range is 2, "low record first"; then 25; "a refusal stands with
    0 in place of the 1, 2 or 3"."""
    if not storey_in_range(low) or not storey_in_range(high):
        return RangeResult(2, 0)
    if refused_range(low, high):
        return RangeResult(25, 0)
    few = count_between(low, high) <= MOST_ENUMERATED
    return RangeResult(0, answer_by_definition(low, high) if few else answer_by_worst_and_best(low, high))


def storey_refusal(line):
    """1 or 2 where document 01 refuses a line of a storey record so, else 0; a `C` line is refusal 1 here (#106)."""
    wall = storey_alone(line)
    if wall is None:
        return 1
    return 0 if storey_in_range(wall) else 2


def check_range_lines(low_line, high_line):
    refusal = storey_refusal(low_line) or storey_refusal(high_line)
    return RangeResult(refusal, 0) if refusal else check_range(storey_alone(low_line), storey_alone(high_line))


# ---- The text of a result

def text(result):
    """Five numbers, one space between, a minus sign where negative, then byte 10."""
    return b'%d %d %d %d %d\n' % result


def lent(result, buffer):
    """What is handed back and what a lent buffer holds afterwards."""
    if len(buffer) < 64:
        return refused(20), buffer
    line = text(result)
    return result, line + buffer[len(line):]


def lines_of(stream):
    """The lines of a program's standard input: "nonempty input behind the last byte 10 counts as a line"."""
    *lines, behind = stream.split(b'\n')
    return [*lines, behind] if behind else lines


def schedule(stream):
    """What the schedule program prints for its standard input."""
    return b''.join(text(refused(1) if len(line) > 200 else check_line(line)) for line in lines_of(stream))


# ---- Worksheet row

def whole_number(cell):
    """The whole number that an f64 is exactly, or None for a fraction, an infinity and a NaN."""
    if not isfinite(cell):
        return None
    numerator, denominator = cell.as_integer_ratio()
    return numerator if denominator == 1 else None


def row_of(wall):
    """The cells of the row that counts as the line of a storey record."""
    return [float(number) for number in wall]


def check_row(cells):
    """The result of a row of 19 cells, the numbers of a line in its order: that of the line with the same numbers, and
    refusal 2 where a cell is no whole number."""
    numbers = [whole_number(cell) for cell in cells]
    return refused(2) if None in numbers else check_storey(StoreyWall(*numbers))


def check_minimum_load_row(cells, wind):
    """The result of a row with the design wind, a cell like the others."""
    *numbers, W = [whole_number(cell) for cell in (*cells, wind)]
    return refused(2) if None in (*numbers, W) else check_minimum_load(StoreyWall(*numbers), W)


def check_range_rows(low_cells, high_cells):
    """The result of a low and a high row."""
    low, high = ([whole_number(cell) for cell in cells] for cells in (low_cells, high_cells))
    return RangeResult(2, 0) if None in (*low, *high) else check_range(StoreyWall(*low), StoreyWall(*high))
