"""The acceptance cases, which all callers read: callers/cases.txt and callers/rows.txt, those of the minimum load, of ranges,
of choosing the block and of the archive."""

from pathlib import Path

CALLERS = Path(__file__).resolve().parent.parent / 'callers'


def rows_of(name, before=1):
    """What stands in the first columns of each case, in one or in two, with the columns behind them."""
    cases = {}
    for row in (CALLERS / name).read_bytes().split(b'\n'):
        if row and not row.startswith(b'#'):
            columns = row.split(b'\t')
            case = tuple(columns[:before])
            if case in cases:
                raise ValueError(f'{case} stands twice in {name}')
            cases[case] = columns[before:]
    return cases


def numbers_of(column):
    return tuple(map(int, column.split()))


def read(name, before=1):
    """What stands in the first columns of each case, with the numbers of each column behind them."""
    return {case: list(map(numbers_of, columns)) for case, columns in rows_of(name, before).items()}


def cells_of(row):
    cells = list(map(float, row.split()))
    if len(cells) != 19:
        raise ValueError(f'{row} has not 19 cells')
    return cells


def read_lines():
    """Each line with its result and the count of bytes taken, which only lines of refusal 1 have written out."""
    lines = {}
    for (line,), (result, *count) in read('cases.txt').items():
        if len(count) != (result[0] == 1):
            raise ValueError(f'{line} has no count though it is refusal 1, or a count though it is not')
        lines[line] = (result, count[0][0] if count else len(line))
    return lines


def read_rows():
    """The 19 cells and the result of each row."""
    for (row,), (result,) in read('rows.txt').items():
        yield cells_of(row), result


def read_minimum_load_lines():
    """Each line with its design wind and the result."""
    for (line, wind), (result,) in read('minimum_load_lines.txt', before=2).items():
        yield line, int(wind), result


def read_minimum_load_rows():
    """The 19 cells of each row, the cell of the design wind, and the result."""
    for (row, wind), (result,) in read('minimum_load_rows.txt', before=2).items():
        yield cells_of(row), float(wind), result


def read_range_lines():
    """The low and the high record's line, with refusal and answer."""
    for (low, high), (result,) in read('range_lines.txt', before=2).items():
        yield low, high, result


def read_range_rows():
    """The 19 cells of the low and of the high row, with refusal and answer."""
    for (low, high), (result,) in read('range_rows.txt', before=2).items():
        yield cells_of(low), cells_of(high), result


def blocks_of(column):
    """F and price of each block; none for an empty column."""
    return list(map(numbers_of, column.split(b', '))) if column else []


def read_choices():
    """Each record's line with its blocks, and refusal, place and count."""
    for (line, blocks), (result,) in read('choices.txt', before=2).items():
        yield line, blocks_of(blocks), result


def bytes_of(column):
    """Pieces with a space between: hexadecimal digits, and where `*` and a number stand behind them, so many times."""
    pieces = (piece.partition('*') for piece in column.decode().split())
    return b''.join(bytes.fromhex(digits) * int(times or 1) for digits, _, times in pieces)


def read_archive_texts():
    """Each text with refusal and count, and the blocks that it takes."""
    for (text,), (result, *blocks) in rows_of('archive_texts.txt').items():
        yield bytes_of(text), numbers_of(result), list(map(bytes_of, blocks))


def read_archive_blocks():
    """Each block, or what is handed in for one, with refusal and count."""
    for (block,), (result,) in rows_of('archive_blocks.txt').items():
        yield bytes_of(block), numbers_of(result)
