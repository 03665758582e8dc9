"""Reads the standard input of a program, prints what the program must print for it, and tells on standard error what it must
tell; the status is 1 where something is told. Without a name the program is schedule.

    python3 oracle/generate.py lines 25000 | python3 oracle/expected.py
    python3 oracle/expected.py pack <examples/terraced-house.txt >walls.archive
    python3 oracle/expected.py unpack <walls.archive
    python3 oracle/expected.py choose <examples/blocks.txt
"""

import sys

from archive import pack, unpack
from selection import choose
from walls import schedule

PROGRAMS = {'schedule': lambda stream: (schedule(stream), ''), 'pack': pack, 'unpack': unpack,
            'choose': lambda stream: (choose(stream), '')}


def main():
    name = sys.argv[1] if len(sys.argv) == 2 else 'schedule'
    if len(sys.argv) > 2 or name not in PROGRAMS:
        sys.exit(__doc__)
    printed, told = PROGRAMS[name](sys.stdin.buffer.read())
    sys.stdout.buffer.write(printed)
    sys.stderr.write(told)
    sys.exit(1 if told else 0)


if __name__ == '__main__':
    main()
