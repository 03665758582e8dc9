"""Compares the shared library with the oracle: acceptance cases, lines and the bytes taken of them, rows, lent buffers,
and rows with lines; lines and rows of the minimum load and of ranges; choices; texts and blocks of the archive.

    python3 callers/python/compare.py libwallcheck.so [LINES ROWS RECORDS MINIMUM RANGES CHOICES TEXTS BLOCKS]

Without numbers 200000 lines, 200000 rows and 100000 records are compared, 120000 lines and as many rows of the minimum
load, 6561 small ranges, as many wide ones, twice as many other pairs of lines and three times as many of rows,
50000 choices, 20000 texts and 100000 blocks of the archive.
"""

import ctypes
import struct
import sys
from collections import Counter
from itertools import chain, islice
from pathlib import Path

sys.path.insert(0, str(Path(__file__).resolve().parent.parent.parent / 'oracle'))

import archive
import archive_inputs
import generate
import selection
import selection_inputs
import walls
from cases import (read_archive_blocks, read_archive_texts, read_choices, read_lines, read_minimum_load_lines,
                   read_minimum_load_rows, read_range_lines, read_range_rows, read_rows)

EDITION = 110
CELLS = ('usage thickness height length held distance support span bearing strength bonded dead imposed floorload '
         'building storeys otherspan calciumsilicate wind').split()
GUARD = bytes(range(0xA0, 0xB0))
FILL = 0xA5
# Stands behind a text or a block, and would end its last line or its used part if a function looked there.
BEHIND = b'\n\n'
# Stands behind a list, and would be chosen if a function looked there.
BEHIND_LIST = (5000, 1)


class Result(ctypes.Structure):
    _fields_ = [('refusal', ctypes.c_uint64), ('length_or_need', ctypes.c_uint64), ('load', ctypes.c_uint64),
                ('resistance', ctypes.c_uint64), ('spare', ctypes.c_int64)]


class Reading(ctypes.Structure):
    _fields_ = [('result', Result), ('taken', ctypes.c_uint64)]


class RangeResult(ctypes.Structure):
    _fields_ = [('refusal', ctypes.c_uint64), ('answer', ctypes.c_uint64)]


class Block(ctypes.Structure):
    _fields_ = [('strength', ctypes.c_uint64), ('price', ctypes.c_uint64)]


class Choice(ctypes.Structure):
    _fields_ = [('refusal', ctypes.c_uint64), ('place', ctypes.c_uint64), ('checked', ctypes.c_uint64)]


class Archived(ctypes.Structure):
    _fields_ = [('refusal', ctypes.c_uint64), ('count', ctypes.c_uint64)]


class Cells(ctypes.Structure):
    _fields_ = [(name, ctypes.c_double) for name in CELLS]


class Library:
    def __init__(self, path):
        library = ctypes.CDLL(path)
        line, out = [ctypes.c_char_p, ctypes.c_size_t], [ctypes.c_void_p, ctypes.c_size_t]
        self.edition = self.entry(library.wallcheck_edition, [], ctypes.c_uint64)
        self.line = self.entry(library.wallcheck_line, line)
        self.line_taken = self.entry(library.wallcheck_line_taken, line, Reading)
        self.line_into = self.entry(library.wallcheck_line_into, line + out)
        self.row = self.entry(library.wallcheck_row, [Cells])
        self.row_into = self.entry(library.wallcheck_row_into, [Cells] + out)
        self.minimum_load_line = self.entry(library.wallcheck_minimum_load_line, line + [ctypes.c_uint64])
        self.minimum_load_line_into = self.entry(library.wallcheck_minimum_load_line_into,
                                                 line + [ctypes.c_uint64] + out)
        self.minimum_load_row = self.entry(library.wallcheck_minimum_load_row, [Cells, ctypes.c_double])
        self.minimum_load_row_into = self.entry(library.wallcheck_minimum_load_row_into, [Cells, ctypes.c_double] + out)
        self.range_lines = self.entry(library.wallcheck_range_lines, line + line, RangeResult)
        self.range_rows = self.entry(library.wallcheck_range_rows, [Cells, Cells], RangeResult)
        self.choose = self.entry(library.wallcheck_choose, line + [ctypes.POINTER(Block), ctypes.c_size_t], Choice)
        self.archive_count = self.entry(library.wallcheck_archive_count, line, Archived)
        self.archive_write = self.entry(library.wallcheck_archive_write, line + out, Archived)
        self.archive_read = self.entry(library.wallcheck_archive_read, line, Archived)

    @staticmethod
    def entry(function, argument_types, result_type=Result):
        function.argtypes, function.restype = argument_types, result_type
        return function


class Comparison:
    """Counts what agrees, and shows the first differences."""

    def __init__(self):
        self.different = 0

    def equal(self, what, got, expected):
        if got != expected:
            self.different += 1
            if self.different <= 20:
                print(f'python: {what}\n  is        {got}\n  should be {expected}', file=sys.stderr)


def numbers_of(result):
    return result.refusal, result.length_or_need, result.load, result.resistance, result.spare


def range_of(result):
    return result.refusal, result.answer


def choice_of(choice):
    return choice.refusal, choice.place, choice.checked


def archived_of(archived):
    return archived.refusal, archived.count


def reading_of(reading):
    return numbers_of(reading.result), reading.taken


def cells_of(words):
    """The cells with these bits; a signalling NaN stays one."""
    return Cells.from_buffer_copy(struct.pack('<19Q', *words))


def values_of(words):
    """The values of the cells with these bits."""
    return struct.unpack(f'<{len(words)}d', struct.pack(f'<{len(words)}Q', *words))


def row_result(words):
    return walls.check_row(values_of(words))


def lend(entry, arguments, length, numbers=numbers_of):
    """Calls an entry with a buffer between guards: what is handed back, and all bytes afterwards."""
    area = ctypes.create_string_buffer(GUARD + bytes([FILL]) * length + GUARD, 2 * len(GUARD) + length)
    result = entry(*arguments, ctypes.byref(area, len(GUARD)), length)
    return numbers(result), area.raw


def lent(result, length):
    """The same as the oracle has it."""
    back, buffer = walls.lent(result, bytes([FILL]) * length)
    return tuple(back), GUARD + buffer + GUARD


def compare_cases(library, comparison):
    compared = 0
    for line, (expected, taken) in read_lines().items():
        comparison.equal(line, numbers_of(library.line(line, len(line))), expected)
        comparison.equal(line, reading_of(library.line_taken(line, len(line))), (expected, taken))
        compared += 1
    for cells, expected in read_rows():
        comparison.equal(cells, numbers_of(library.row(Cells(*cells))), expected)
        compared += 1
    comparison.equal('edition', library.edition(), EDITION)
    return compared + 1


def compare_minimum_load_cases(library, comparison):
    compared = 0
    for line, wind, expected in read_minimum_load_lines():
        comparison.equal((line, wind), numbers_of(library.minimum_load_line(line, len(line), wind)), expected)
        compared += 1
    for cells, wind, expected in read_minimum_load_rows():
        comparison.equal((cells, wind), numbers_of(library.minimum_load_row(Cells(*cells), wind)), expected)
        compared += 1
    return compared


def compare_lines(library, comparison, count):
    compared = 0
    for line in generate.lines(count):
        expected = walls.check_line(line)
        comparison.equal(line, numbers_of(library.line(line, len(line))), expected)
        comparison.equal(line, reading_of(library.line_taken(line, len(line))), (expected, walls.taken(line)))
        comparison.equal(line, lend(library.line_into, (line, len(line)), 64), lent(expected, 64))
        compared += 1
    return compared


def compare_near_lines(library, comparison):
    """Document 02, #104: A and K with each byte replaced by each byte value, and each beginning of them."""
    compared = 0
    for whole in map(walls.line_of, (walls.A, walls.K)):
        for line in chain(generate.replaced_bytes(whole), generate.beginnings(whole)):
            expected = walls.check_line(line), walls.taken(line)
            comparison.equal(line, reading_of(library.line_taken(line, len(line))), expected)
            compared += 1
    return compared


def compare_rows(library, comparison, count):
    compared = 0
    for words in generate.rows(count):
        expected, cells = row_result(words), cells_of(words)
        comparison.equal(words, numbers_of(library.row(cells)), expected)
        comparison.equal(words, lend(library.row_into, (cells,), 64), lent(expected, 64))
        compared += 1
    return compared


def compare_minimum_load_lines(library, comparison, count):
    compared = 0
    for line, wind in generate.lines_with_wind(count):
        arguments, expected = (line, len(line), wind), walls.check_minimum_load_line(line, wind)
        comparison.equal((line, wind), numbers_of(library.minimum_load_line(*arguments)), expected)
        comparison.equal((line, wind), lend(library.minimum_load_line_into, arguments, 64), lent(expected, 64))
        compared += 1
    return compared


def compare_minimum_load_rows(library, comparison, count):
    compared = 0
    for words in generate.rows_with_wind(count):
        *cells, wind = values_of(words)
        arguments, expected = (cells_of(words[:-1]), wind), walls.check_minimum_load_row(cells, wind)
        comparison.equal(words, numbers_of(library.minimum_load_row(*arguments)), expected)
        comparison.equal(words, lend(library.minimum_load_row_into, arguments, 64), lent(expected, 64))
        compared += 1
    return compared


def range_of_lines(library, low, high):
    return range_of(library.range_lines(low, len(low), high, len(high)))


def range_of_rows(library, low, high):
    """Of two rows with these words."""
    return range_of(library.range_rows(cells_of(low), cells_of(high)))


def compare_range_cases(library, comparison):
    compared = 0
    for low, high, expected in read_range_lines():
        comparison.equal((low, high), range_of_lines(library, low, high), expected)
        compared += 1
    for low, high, expected in read_range_rows():
        comparison.equal((low, high), range_of(library.range_rows(Cells(*low), Cells(*high))), expected)
        compared += 1
    line = walls.line_of(walls.A)
    for low, high in ((None, None), (None, line), (line, None)):
        got = range_of(library.range_lines(low, len(low or b''), high, len(high or b'')))
        comparison.equal((low, high), got, (1, 0))
        compared += 1
    return compared


def compare_ranges(library, comparison, pairs, results):
    """Each pair of records as lines and as rows. How many pairs there are, how many of them have an answer, and how many
    records lie between these. Where few lie between two, the oracle checks each, or, where the answer is 3, as many as that
    takes."""
    compared = answered = between = 0
    for low, high in pairs:
        expected = walls.check_range(low, high)
        lines, words = map(walls.line_of, (low, high)), map(generate.words_of, (low, high))
        comparison.equal((low, high), range_of_lines(library, *lines), expected)
        comparison.equal((low, high), range_of_rows(library, *words), expected)
        results[expected] += 1
        if expected.refusal == 0:
            answered += 1
            between += walls.count_between(low, high)
        compared += 1
    return compared, answered, between


def compare_range_lines(library, comparison, count, results):
    compared = 0
    for low, high in generate.range_lines(count):
        expected = walls.check_range_lines(low, high)
        comparison.equal((low, high), range_of_lines(library, low, high), expected)
        results[expected] += 1
        compared += 1
    return compared


def compare_range_rows(library, comparison, count, results):
    compared = 0
    for low, high in generate.range_rows(count):
        expected = walls.check_range_rows(values_of(low), values_of(high))
        comparison.equal((low, high), range_of_rows(library, low, high), expected)
        results[expected] += 1
        compared += 1
    return compared


def compare_all_ranges(library, comparison, count):
    """What is compared, and how often each answer and each refusal comes, in words. Each has to come many times."""
    results = Counter()
    small_pairs = islice(generate.small_ranges(generate.Numbers(17)), count)
    small, answered, between = compare_ranges(library, comparison, small_pairs, results)
    wide_pairs = islice(generate.wide_ranges(generate.Numbers(18)), count)
    wide, *_ = compare_ranges(library, comparison, wide_pairs, results)
    lines = compare_range_lines(library, comparison, 2 * count, results)
    rows = compare_range_rows(library, comparison, 3 * count, results)
    for expected in ((0, 1), (0, 2), (0, 3), (1, 0), (2, 0), (25, 0)):
        comparison.equal(f'{expected} comes {results[expected]} times', results[expected] >= count // 100, True)
    answers = ', '.join(f'{results[0, answer]} of {answer}' for answer in (1, 2, 3))
    refusals = ', '.join(f'{results[refusal, 0]} of {refusal}' for refusal in (1, 2, 25))
    return (f'{small} small ranges, {answered} of them with an answer and together {between} records between, '
            f'{wide} wide ones, {lines} other pairs of lines and {rows} of rows of ranges, '
            f'with the answers {answers} and the refusals {refusals}')


def choice_among(library, line, blocks):
    """What the library chooses among blocks, each F and a price."""
    return choice_of(library.choose(line, len(line), (Block * (len(blocks) + 1))(*blocks, BEHIND_LIST), len(blocks)))


def compare_choice_cases(library, comparison):
    compared = 0
    for line, blocks, expected in read_choices():
        comparison.equal((line, blocks), choice_among(library, line, blocks), expected)
        compared += 1
    line, one = walls.line_of(walls.K), (Block * 1)((500, 10))
    for line, blocks, expected in ((None, None, (26, 0, 0)), (line, None, (26, 0, 0)), (None, one, (1, 0, 0))):
        got = choice_of(library.choose(line, len(line or b''), blocks, len(blocks or ())))
        comparison.equal((line, blocks), got, expected)
        compared += 1
    return compared


def classes_of_choice(line, blocks, expected):
    """What a choice is an example of."""
    if expected.refusal == 27:
        yield 'of 27, storey' if line.startswith(b'S') else 'of 27, cellar'
    elif expected.refusal:
        yield f'of {expected.refusal}'
    else:
        yield 'of a storey wall' if line.startswith(b'S') else 'of a cellar wall'
        if len(blocks) > 1:
            yield {1: 'of the first', len(blocks): 'of the last'}.get(expected.place, 'of one between')
        if expected.checked < len(blocks):
            yield 'with blocks that are not checked'
        (wall, _), chosen = selection.record(line), blocks[expected.place - 1]
        if any(block.price == chosen.price and selection.accepted_with(wall, block.F) for block in blocks[expected.place:]):
            yield 'of the earlier of equals'


CLASSES = ('of a storey wall', 'of a cellar wall', 'of the first', 'of one between', 'of the last', 'of the earlier of equals',
           'with blocks that are not checked', 'of 27, storey', 'of 27, cellar', 'of 26', 'of 1', 'of 2')


def compare_all_choices(library, comparison, count):
    """What is compared, and how often each class of it comes, in words. Each has to come many times."""
    compared, results = 0, Counter()
    for line, blocks in selection_inputs.choices(count):
        expected = selection.choice(line, blocks)
        comparison.equal((line, blocks), choice_among(library, line, blocks), expected)
        results.update(classes_of_choice(line, blocks, expected))
        compared += 1
    for name in CLASSES:
        comparison.equal(f'choices {name} come {results[name]} times', results[name] >= max(1, count // 100), True)
    return f'{compared} choices, ' + ', '.join(f'{results[name]} {name}' for name in CLASSES)


def count_of_archive(library, text):
    return archived_of(library.archive_count(text + BEHIND, len(text)))


def archived_into(library, text, length):
    return lend(library.archive_write, (text + BEHIND, len(text)), length, archived_of)


def archived_into_by_oracle(text, length):
    told, buffer = archive.write(text, bytes([FILL]) * length)
    return told, GUARD + buffer + GUARD


def block_of_archive(library, block):
    """What the library hands back for a block, and the bytes that the block then yields."""
    told = archived_of(library.archive_read(block + BEHIND, len(block)))
    return told, block[4:4 + told[1]]


def compare_archive_cases(library, comparison):
    compared = 0
    for text, expected, blocks in read_archive_texts():
        size = 512 * len(blocks)
        comparison.equal(text, count_of_archive(library, text), expected)
        written = GUARD + b''.join(blocks) + bytes([FILL]) * 30 + GUARD
        comparison.equal(text, archived_into(library, text, size + 30), (expected, written))
        compared += 1
    for block, expected in read_archive_blocks():
        comparison.equal(block, block_of_archive(library, block)[0], expected)
        compared += 1
    comparison.equal('no text', archived_of(library.archive_count(None, 0)), (0, 0))
    comparison.equal('no text, no buffer', archived_of(library.archive_write(None, 0, None, 0)), (0, 0))
    comparison.equal('no block', archived_of(library.archive_read(None, 0)), (23, 0))
    return compared + 3


def compare_archive_texts(library, comparison, count):
    """Each text counted, and written into a buffer that just holds its blocks, one that is a byte shorter, one of half the
    length and a longer one; and its blocks read back."""
    compared = 0
    for text in archive_inputs.texts(count):
        told = archive.count(text)
        size = 512 * told.count
        comparison.equal(text, count_of_archive(library, text), told)
        for length in {size, max(size - 1, 0), size // 2, size + 1 + compared % 600}:
            comparison.equal((text, length), archived_into(library, text, length), archived_into_by_oracle(text, length))
        _, area = archived_into(library, text, size)
        read_back = [block_of_archive(library, block) for block in archive.pieces(area[len(GUARD):len(GUARD) + size])]
        comparison.equal(text, (b''.join(used for _, used in read_back), sum(answer[0] for answer, _ in read_back)),
                         (b'' if told.refusal else text, 0))
        compared += 1
    return compared


def compare_archive_blocks(library, comparison, count):
    compared = 0
    for block in archive_inputs.blocks(count):
        comparison.equal(block, block_of_archive(library, block), archive.read(block))
        compared += 1
    return compared


def compare_changed_blocks(library, comparison):
    """Document 02, #107: "after exactly one byte of one block is changed, that block is refused". Each byte of a block is
    changed to every other value: of one without lines, a full one, one filled by half and one with the greatest sum."""
    compared = 0
    every_byte = [bytes([value]) for value in range(256)]
    for block in (bytes(512), archive_inputs.FULL, archive_inputs.HALF_FILLED, archive.block_of(b'\xff' * 507 + b'\n')):
        area = ctypes.create_string_buffer(block, len(block))
        for place, before in enumerate(block):
            for value in every_byte[:before] + every_byte[before + 1:]:
                area[place] = value
                got = library.archive_read(area, 512)
                if (got.refusal, got.count) != (23, 0):
                    comparison.equal((block, place, value), archived_of(got), (23, 0))
                compared += 1
            area[place] = every_byte[before]
        comparison.equal(block, archived_of(library.archive_read(area, 512)), archive.read(block)[0])
    return compared


def compare_spoiled_archives(library, comparison):
    """The same with archives of several blocks: "all others yield theirs"."""
    compared, numbers = 0, generate.Numbers(13)
    for text in archive_inputs.texts(4000):
        blocks = archive.pieces(archived_into(library, text, 512 * archive.count(text).count)[1][len(GUARD):-len(GUARD)])
        if not 2 <= len(blocks) <= 12:
            continue
        place = numbers.within(0, 512 * len(blocks) - 1)
        spoiled, at = divmod(place, 512)
        expected = [((0, len(used)), used) for used in archive.used_parts(archive.lines_of(text))]
        expected[spoiled] = (23, 0), b''
        value = (blocks[spoiled][at] + numbers.within(1, 255)) % 256
        blocks[spoiled] = archive_inputs.with_byte(blocks[spoiled], at, value)
        comparison.equal((text, place, value), [block_of_archive(library, block) for block in blocks], expected)
        compared += 1
    return compared


def compare_rows_with_lines(library, comparison, count):
    compared = 0
    for wall in generate.storey_records(count):
        line, cells = walls.line_of(wall), cells_of(generate.words_of(wall))
        comparison.equal(line, numbers_of(library.row(cells)), numbers_of(library.line(line, len(line))))
        compared += 1
    return compared


def compare_buffers(library, comparison):
    """Each length from 0 to 128, for each case as line and, where it is a storey record, as row."""
    compared = 0
    for line in read_lines():
        expected, wall = walls.check_line(line), walls.read_line(line)
        for length in range(129):
            comparison.equal(line, lend(library.line_into, (line, len(line)), length), lent(expected, length))
            compared += 1
            if isinstance(wall, walls.StoreyWall):
                words = generate.words_of(wall)
                got = lend(library.row_into, (cells_of(words),), length)
                comparison.equal(words, got, lent(row_result(words), length))
                compared += 1
    comparison.equal('no line, no buffer', numbers_of(library.line_into(None, 0, None, 0)), walls.refused(20))
    comparison.equal('no line', numbers_of(library.line(None, 0)), walls.refused(1))
    comparison.equal('no line', reading_of(library.line_taken(None, 0)), (walls.refused(1), 0))
    return compared + 3


def compare_minimum_load_buffers(library, comparison):
    """Each length from 0 to 128, for each case."""
    compared = 0
    for length in range(129):
        for line, wind, expected in read_minimum_load_lines():
            got = lend(library.minimum_load_line_into, (line, len(line), wind), length)
            comparison.equal((line, wind), got, lent(walls.Result(*expected), length))
            compared += 1
        for cells, wind, expected in read_minimum_load_rows():
            got = lend(library.minimum_load_row_into, (Cells(*cells), wind), length)
            comparison.equal((cells, wind), got, lent(walls.Result(*expected), length))
            compared += 1
    return compared


def main():
    if len(sys.argv) not in (2, 10):
        sys.exit(__doc__)
    lines, rows, records, minimum, ranges, choices, texts, blocks = map(
        int, sys.argv[2:] or (200000, 200000, 100000, 120000, 6561, 50000, 20000, 100000))
    library, comparison = Library(str(Path(sys.argv[1]).resolve())), Comparison()
    cases = (compare_cases(library, comparison) + compare_minimum_load_cases(library, comparison)
             + compare_range_cases(library, comparison) + compare_choice_cases(library, comparison)
             + compare_archive_cases(library, comparison))
    buffers = compare_buffers(library, comparison) + compare_minimum_load_buffers(library, comparison)
    print('python:', cases, 'cases,', buffers, 'buffers,',
          compare_lines(library, comparison, lines), 'lines,', compare_near_lines(library, comparison),
          'lines near to A and K,', compare_rows(library, comparison, rows), 'rows,',
          compare_rows_with_lines(library, comparison, records), 'rows with their lines;',
          compare_minimum_load_lines(library, comparison, minimum), 'lines and',
          compare_minimum_load_rows(library, comparison, minimum), 'rows of the minimum load;',
          compare_all_ranges(library, comparison, ranges) + ';',
          compare_all_choices(library, comparison, choices) + ';',
          compare_archive_texts(library, comparison, texts), 'texts,', compare_archive_blocks(library, comparison, blocks),
          'blocks,', compare_changed_blocks(library, comparison), 'blocks with one byte changed and',
          compare_spoiled_archives(library, comparison), 'archives with one such block:',
          comparison.different, 'differences')
    sys.exit(1 if comparison.different else 0)


if __name__ == '__main__':
    main()
