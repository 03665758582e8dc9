"""Compares walls.py, selection.py and archive.py with the figures of documents 01 and 02 and the worked examples, and the
callers' cases with all three.

    python3 oracle/selftest.py
"""

from itertools import islice, product
from math import inf, nan, nextafter

import archive
from archive_inputs import GOOD_BLOCKS, HALF_FILLED, with_byte
from cases import (read_archive_blocks, read_archive_texts, read_choices, read_lines, read_minimum_load_lines,
                   read_minimum_load_rows, read_range_lines, read_range_rows, read_rows)
from generate import Numbers, small_ranges
from selection import Block, accepted_with, choice, choose
from walls import (A, K, StoreyWall, answer_by_worst_and_best, beginning_pattern, buckling_length, cellar_load, check,
                   check_line, check_minimum_load, check_minimum_load_line, check_minimum_load_row, check_range,
                   check_range_lines, check_range_rows, check_row, greatest_height, lent, line_of, line_pattern,
                   minimum_load, need, records_between, refused, row_of, schedule, span_reduced, storey_load,
                   storey_resistance, taken, text, whole_number)

S, C = A._replace, K._replace

WHOLE_CASE = [A, S(support=2, L=6000), S(G=200000), K]
WHOLE_CASE_PRINTED = b"""\
0 19688 210000 352425 142425
0 19688 210000 297500 87500
13 19688 405000 352425 -52575
0 27398 69000 344722 275722
1 0 0 0 0
"""

# The table of refusals: number and example; for 16 another than document 01's, which is 19 by document 02, #105. The example
# of 1 is no record, and that of 20 a buffer.
REFUSALS = [
    (2, S(a=176)), (3, S(t=114, a=114)), (4, S(w=228)), (5, S(use=2, t=140, a=140)), (6, S(h=2751)),
    (7, S(q=5001)), (8, S(H=20001)), (9, S(L=6001)), (10, S(a=100)), (11, S(F=179)),
    (12, S(t=240, a=240, h=7201)), (13, S(G=200000)), (14, C(t=199)), (15, C(h=2601)), (16, C(e=2876)),
    (17, C(p=5001)), (18, C(Q=300000)), (19, C(G=27397)),
]
FILLED = (13, 18, 19)

# Twelve marked figures, with t=a=175 as A has: what is computed, of which record, and its value.
MARKED = [
    (buckling_length, S(h=2625), 19688),
    (buckling_length, S(held=3, c=1500), 16525), (buckling_length, S(held=3, c=2626), 19688),
    (buckling_length, S(held=4, c=3000), 13762), (buckling_length, S(held=4, c=2625), 12600),
    (buckling_length, S(held=4, c=2624), 13120),
    (buckling_length, S(held=3, c=500, h=2000), 7500), (buckling_length, S(held=3, c=500, h=2400), 7378),
    (lambda wall: storey_resistance(wall, buckling_length(wall)), A, 352425),
    (lambda wall: storey_resistance(wall, buckling_length(wall)), S(support=2, L=6000), 297500),
    (need, C(c=2500), 13699), (need, C(c=3750), 18265),
]

# Worked examples and remarks on single rules: a record and its result.
WORKED = [
    (S(use=2, support=2, L=5500, Q=140000), (0, 19688, 280000, 338819, 58819)),
    (S(use=2, t=365, a=245, support=2, L=5500, F=180, G=30000, Q=70000), (0, 26250, 140000, 170765, 30765)),
    (S(held=3, t=240, a=240, h=2750, w=1750, c=1750, F=1051), (0, 20250, 210000, 1103022, 893022)),
    (C(e=2680, y=18000, F=400, G=72500, Q=0), (0, 44276, 97875, 275777, 177902)),
    (S(t=365, a=164), (10, 0, 0, 0, 0)),
    (S(t=240, a=120, h=4800), (13, 48000, 210000, 0, -210000)),
    (S(F=182, bonded=1), (13, 19688, 210000, 102626, -107374)),
    # Document 02, #101
    (S(support=2, L=6000, M=12000), (0, 19688, 210000, 352425, 142425)),
    (S(support=2, L=5999, M=12000), (0, 19688, 210000, 297582, 87582)),
    # Document 02, #102
    (S(use=2, h=3300, mark=1, wind=1250), (0, 24750, 210000, 312363, 102363)),
    (S(use=2, h=3301, mark=1, wind=1250), (6, 0, 0, 0, 0)),
    (S(h=3600, mark=1), (0, 27000, 210000, 291626, 81626)),
    # Document 02, #103. Version two accepted the first of these walls with q = 3001 and refused it with q = 3000.
    (S(G=261055, Q=0, q=3001), (0, 19688, 352424, 352425, 1)),
    (S(G=261055, Q=0, q=3000), (0, 19688, 352424, 352425, 1)),
    (S(G=161732, q=3001), (13, 19688, 353338, 352425, -913)),
    (S(G=161732, q=3000), (0, 19688, 352425, 352425, 0)),
    # Document 02, #105. The first was document 01's example for 16.
    (C(e=2501), (19, 42843, 69000, 344722, 275722)),
    (C(e=2875), (19, 56614, 69000, 344722, 275722)),
    (C(e=2875, c=3750), (0, 37743, 69000, 344722, 275722)),
    (C(e=2875, c=2500), (0, 28307, 69000, 344722, 275722)),
    # Document 02, #108: loads of 13.5 and 1.35
    (S(G=10, Q=0), (0, 19688, 14, 352425, 352411)), (S(G=1, Q=0), (0, 19688, 1, 352425, 352424)),
    (C(e=0, G=10, Q=0), (0, 0, 14, 344722, 344708)), (C(e=0, G=1, Q=0), (0, 0, 1, 344722, 344721)),
    # .. above the resistance by 0.45, by 0.35 and by 0.5, of both kinds of wall
    (S(G=261047, Q=8), (0, 19688, 352425, 352425, 0)),
    (S(t=365, a=243, G=389911, Q=5), (0, 26250, 526387, 526387, 0)),
    (S(t=365, a=243, G=389910, Q=6), (13, 26250, 526388, 526387, -1)),
    (C(t=300, F=900, G=377777, Q=1), (0, 33334, 510000, 510000, 0)),
    (C(G=255341, Q=8), (0, 27398, 344722, 344722, 0)), (C(G=255350, Q=0), (18, 27398, 344723, 344722, -1)),
]

# Document 02, #106: a record, the design wind, and the result.
MINIMUM_LOADS = [
    (A, 780, (0, 6062, 210000, 352425, 142425)),
    (S(t=365, a=243), 780, (0, 4303, 210000, 526387, 316387)),
    (S(G=6062), 780, (0, 6062, 134487, 352425, 217938)),
    (S(G=6061), 780, (21, 6062, 134485, 352425, 217940)),
    (S(G=6061, Q=400000), 780, (13, 19688, 568485, 352425, -216060)),
    (S(t=200, a=102, h=600, G=27), 40, (0, 27, 126038, 240040, 114002)),
    (S(t=200, a=102, h=600, G=27), 41, (21, 28, 126038, 240040, 114002)),
    (S(a=100), 780, (10, 0, 0, 0, 0)),
    (A, 1, (0, 8, 210000, 352425, 142425)), (A, 10000, (21, 77714, 210000, 352425, 142425)),
    (A, 0, (2, 0, 0, 0, 0)), (A, 10001, (2, 0, 0, 0, 0)), (S(t=114, a=114), 0, (2, 0, 0, 0, 0)),
]

# Document 02, #109: a low and a high record and the answer. A has N 210000 and the resistance 352425.
RANGES = [
    (A, A, 1), (S(G=200000), S(G=200000), 2), (S(F=179), S(F=179), 2), (S(support=2, L=6000, M=12000),) * 2 + (1,),
    # 1.4(G + Q) is 352424.8 where G + Q is 251732, and 352426.2 where it is 251733
    (A, S(G=161732), 1), (A, S(G=161733), 3), (S(G=161732), S(G=161733), 3), (S(G=161733), S(G=161734), 2),
    (A, S(Q=191732), 1), (A, S(Q=191733), 3), (S(Q=191733), S(Q=10000000), 2),
    # the resistance is 704.85F, 210045 for F=298, 209340 for F=297 and 126873 for F=180; N is 126001 for G=1
    (S(F=298), A, 1), (S(F=297), A, 3), (S(F=1), S(F=297), 2), (S(F=180, G=1), S(F=181, G=1), 1),
    (S(F=179, G=1), S(F=180, G=1), 3), (S(F=178, G=1), S(F=179, G=1), 2),
    # support 2: the resistance is 297500 for L=6000 and greater for L=5999; 1.4(G + Q) is 297500 for G=122500
    (S(support=2, G=122500, L=1), S(support=2, G=122500, L=6000), 1),
    (S(support=2, G=122501, L=5999), S(support=2, G=122501, L=6000), 3),
    (S(support=2, G=122501, L=6000), S(support=2, G=122501, L=6000), 2),
    # with G=161732 N is 352425 up to q=3000 and 353338 above
    (S(G=161732, q=0), S(G=161732, q=3000), 1), (S(G=161732, q=0), S(G=161732, q=3001), 3),
    (S(G=161732, q=3001), S(G=161732, q=5000), 2),
    # limits
    (S(q=0), S(q=5000), 1), (S(q=0), S(q=5001), 3), (S(q=5001), S(q=100000), 2),
    (S(use=2, t=150, a=150, Q=0), S(use=2, t=150, a=150, Q=0, q=3000), 1),
    (S(use=2, t=150, a=150, Q=0), S(use=2, t=150, a=150, Q=0, q=3001), 3),
    (S(H=1), S(H=20000), 1), (S(H=1), S(H=20001), 3), (S(H=20001), S(H=200000), 2),
    (S(L=1), S(L=6000), 1), (S(L=1), S(L=6001), 3), (S(L=6001), S(L=20000), 2),
    (S(L=1, support=4), S(L=20000, support=4), 1),
    (S(h=3600, mark=1, F=400), S(h=3600, mark=1), 1), (S(h=3600, mark=1, F=349), S(h=3600, mark=1), 3),
    (S(h=3600, mark=1, F=1), S(h=3600, mark=1, F=349), 2), (S(h=2751, F=1), S(h=2751, F=5000), 2),
    # E is 270t for h=7200 and above it for h=7201
    (S(t=240, a=240, h=7200, G=1, Q=0), S(t=240, a=240, h=7200, G=1, Q=1), 1),
    (S(t=240, a=240, h=7201, G=1, Q=0), S(t=240, a=240, h=7201, G=1, Q=1), 2),
    # both accepted, and the one with F=298 and G=161732 is not; both refused, and A is not
    (S(F=298), S(G=161732), 3), (S(F=297), S(G=161733), 3), (S(F=179), S(q=5001), 3),
    # all six
    (S(G=59999, Q=89999, F=499, L=4999, q=2249, H=8999), A, 1),
    (A, S(G=60001, Q=90001, F=501, L=5001, q=2251, H=9001), 1),
    (S(G=1, Q=0, F=1, L=1, q=0, H=1), S(G=10000000, Q=10000000, F=5000, L=20000, q=100000, H=200000), 3),
    (S(h=2751, G=1, Q=0, F=1, L=1, q=0, H=1),
     S(h=2751, G=10000000, Q=10000000, F=5000, L=20000, q=100000, H=200000), 2),
]
# .. and what is refused as 25
BAD_RANGES = [
    (S(G=60001), A), (S(Q=90001), A), (S(F=501), A), (S(L=5001), A), (S(q=2251), A), (S(H=9001), A),
    (A, S(use=2)), (A, S(t=176)), (A, S(h=2626)), (A, S(h=2624)), (A, S(w=5001)), (A, S(support=2)), (A, S(a=174)),
    (A, S(bonded=1)), (A, S(n=4)), (A, S(n=2)), (A, S(M=1)), (S(M=1), A), (A, S(mark=1)), (A, S(wind=1)),
    (S(held=3, c=1500), S(held=4, c=1500)), (S(held=3, c=1500), S(held=3, c=1501)), (A, S(held=3, c=1500)),
    (S(M=1), S(M=1, L=5001)), (S(M=20000, L=5001), S(M=20000)), (S(G=60001, h=3000), S(F=100, t=200)),
]
# .. and two lines with a refusal: that of the low line comes first, and 1 and 2 of either before 25
RANGE_REFUSALS = [
    (b'', b'', 1), (b'S 175', line_of(A), 1), (line_of(A), b'S 175', 1), (line_of(K), line_of(K), 1),
    (line_of(A), line_of(K), 1),
    (line_of(C(t=1001)), line_of(A), 1), (line_of(C(t=1001)), line_of(S(a=176)), 1), (b'S 175', line_of(S(a=176)), 1),
    (line_of(S(a=176)), b'S 175', 2), (line_of(S(a=176)), line_of(K), 2), (line_of(S(a=176)), line_of(A), 2),
    (line_of(A), line_of(S(a=176)), 2), (line_of(A), line_of(A) + b' ', 1), (line_of(S(G=60001)), line_of(S(a=176)), 2),
    (line_of(S(G=60001)), b'S 175', 1), (line_of(S(G=0)), line_of(A), 2), (line_of(A), line_of(S(H=200001)), 2),
    (line_of(S(t=114)), line_of(A), 2), (line_of(S(t=114, a=114)), line_of(A), 25),
    (line_of(S(G=200000)), line_of(A), 25),
]

# Document 02, #110: a record, blocks as F and price, and refusal, place and count. A has N 210000; the resistance is 209340
# for F=297 and 210045 for F=298. K has N 69000 and the resistance 124100 for F=180, which is the least F of all.
CHOICES = [
    (A, [(298, 10)], (0, 1, 1)), (A, [(297, 10)], (27, 0, 1)), (A, [(5000, 1000000)], (0, 1, 1)), (A, [(1, 1)], (27, 0, 1)),
    (A, [(500, 10), (400, 10)], (0, 1, 1)), (A, [(400, 10), (500, 10)], (0, 1, 1)), (A, [(298, 10)] * 64, (0, 1, 1)),
    (A, [(297, 10), (298, 10)], (0, 2, 2)), (A, [(298, 10), (297, 10)], (0, 1, 1)), (A, [(297, 1), (298, 2)], (0, 2, 2)),
    (A, [(500, 30), (400, 20), (298, 10)], (0, 3, 3)), (A, [(298, 10), (400, 20), (500, 30)], (0, 1, 1)),
    (A, [(500, 30), (297, 20), (400, 25), (400, 20)], (0, 4, 4)),
    # checked are 1, which is accepted, 3, 4, which is not accepted, and 6
    (A, [(500, 20), (400, 30), (300, 10), (297, 5), (298, 10), (500, 9)], (0, 6, 4)),
    # checked are 1, 2, 3, 5 and 6, of which 2, 5 and 6 are accepted
    (A, [(297, 1), (298, 10), (297, 9), (500, 10), (298, 9), (5000, 8)], (0, 6, 5)),
    (A, [(179, 1), (180, 2), (297, 3)], (27, 0, 3)), (A, [(297, 5)] * 64, (27, 0, 64)),
    (A, [(297, 1)] * 63 + [(298, 1000000)], (0, 64, 64)), (A, [(298, 2)] + [(297, 1)] * 63, (0, 1, 64)),
    (A, [(298, 65 - place) for place in range(1, 65)], (0, 64, 64)),
    (S(F=1), [(298, 10)], (0, 1, 1)), (S(F=179), [(297, 5), (500, 10)], (0, 2, 2)), (S(F=297), [(500, 1)], (0, 1, 1)),
    (K, [(180, 7)], (0, 1, 1)), (K, [(179, 7)], (27, 0, 1)), (K, [(179, 7), (180, 8), (5000, 7)], (0, 3, 3)),
    # N is 124100 for Q=46733 and 124101 for Q=46734
    (C(Q=46733), [(180, 1)], (0, 1, 1)), (C(Q=46734), [(180, 1), (181, 2)], (0, 2, 2)),
    # refused whatever F is: as 3 and as 19
    (S(t=114, a=114), [(5000, 1), (500, 2)], (27, 0, 2)), (C(G=27397), [(500, 2), (5000, 1)], (27, 0, 2)),
    # the height of #102 for F >= 350
    (S(h=3600, mark=1, G=30000, Q=30000), [(349, 1), (350, 2)], (0, 2, 2)),
    # ends of the ranges and what is beyond them
    (A, [], (26, 0, 0)), (A, [(298, 10)] * 65, (26, 0, 0)), (A, [(298, 0)], (26, 0, 0)), (A, [(298, 1000001)], (26, 0, 0)),
    (A, [(298, 1), (0, 1)], (26, 0, 0)), (A, [(5001, 1), (298, 1)], (26, 0, 0)), (A, [(2**64 - 1, 1)], (26, 0, 0)),
    (S(F=0), [(298, 10)], (2, 0, 0)), (S(F=5001), [(298, 10)], (2, 0, 0)), (C(t=1001), [(500, 1)], (2, 0, 0)),
    (S(F=0), [(0, 10)], (26, 0, 0)), (S(a=176), [], (26, 0, 0)),
]
# .. and a line that is no record's
NO_RECORDS = [
    (b'', [(298, 10)], (1, 0, 0)), (b'S 175', [(298, 10)] * 64, (1, 0, 0)), (line_of(A) + b' ', [(298, 10)], (1, 0, 0)),
    (b'S 175', [], (26, 0, 0)), (b'S 175', [(298, 10)] * 65, (26, 0, 0)), (b'', [(298, 0)], (26, 0, 0)),
]
# .. and what `choose` prints for a text: a record's line, its list and that end
CHOSEN = [
    (b'', b'26 0 0\n'), (b'\n', b'26 0 0\n'), (line_of(A), b'26 0 0\n'), (line_of(A) + b'\n', b'26 0 0\n'),
    (line_of(A) + b'\n\n', b'26 0 0\n'), (line_of(A) + b'\n298 10', b'0 1 1\n'), (line_of(K) + b'\n179 7\n', b'27 0 1\n'),
    (line_of(A) + b'\n297 10\n500 30\n298 20\n', b'0 3 3\n'), (line_of(A) + b'\n298 10\n\n', b'26 0 0\n'),
    (line_of(A) + b'\n298 10\r\n', b'26 0 0\n'), (line_of(A) + b'\r\n298 10\n', b'1 0 0\n'), (b'\n298 10', b'1 0 0\n'),
    (b'\n298 010', b'26 0 0\n'), (line_of(A) + b'\n298  10', b'26 0 0\n'), (line_of(A) + b'\n 298 10', b'26 0 0\n'),
    (line_of(A) + b'\n298 10 ', b'26 0 0\n'), (line_of(A) + b'\n298\t10', b'26 0 0\n'), (line_of(A) + b'\n298', b'26 0 0\n'),
    (line_of(A) + b'\n298 10 1', b'26 0 0\n'), (line_of(A) + b'\n+298 10', b'26 0 0\n'),
    (line_of(A) + b'\n298 1000000000', b'26 0 0\n'), (line_of(A) + b'\n298 10' * 64, b'0 1 1\n'),
    (line_of(A) + b'\n298 10' * 65, b'26 0 0\n'), (b'1' * 1000000 + b'\n298 10\n', b'1 0 0\n'),
    (b'1' * 1000000 + b'\n298 0\n', b'26 0 0\n'), (line_of(S(a=176)) + b'\n298 10\n', b'2 0 0\n'),
]

# Document 02, #103 and #108: G, Q, N for q up to 3000, and N above 3000 and for a cellar wall.
LOADS = [
    (60000, 90000, 210000, 216000), (200000, 90000, 405000, 405000),
    (60000, 29900, 125850, 125850), (60000, 30000, 126000, 126000), (60000, 30100, 126140, 126150),
    (10000000, 10000000, 28000000, 28500000),
    # 1.35; 2.7; 4.05; 5.4; 2.8 and 2.85; 4.2 and 4.35; 5.6 and 5.85; 15.4 and 16.35
    (1, 0, 1, 1), (2, 0, 3, 3), (3, 0, 4, 4), (4, 0, 5, 5), (1, 1, 3, 3), (1, 2, 4, 4), (1, 3, 6, 6), (1, 10, 15, 16),
    # an exact half: 13.5; 40.5; 28.5; 55.5; and 15, which is 13.5 + 1.5
    (10, 0, 14, 14), (30, 0, 41, 41), (20, 1, 29, 29), (30, 10, 56, 56), (10, 1, 15, 15),
]

# Document 02, #104: a line and how many of its bytes are taken.
TAKEN = [
    (b'', 0), (b'S', 1), (b'C', 1), (b's', 1), (b' ', 1), (b'SS', 2), (b'S\t175', 2), (b'1 175', 1),
    (b'S 175', 5), (b'S 01', 4), (b'S 012', 4), (b'S  1', 3), (b'S 1  ', 5), (b'S 1.5 2', 4), (b'S -1', 3),
    (b'S 1,', 4), (b'S 999999999', 11), (b'S 9999999999', 12), (b'S 99999999990', 12), (b'S 0 0 0', 7), (b'S 00', 4),
    (line_of(A), 68), (line_of(A) + b' ', 69), (line_of(A) + b'\r', 69), (line_of(A) + b'0', 69),
    (line_of(A) + b' 0 0', 69), (line_of(A)[:-1] + b'1', 68), (line_of(A)[:-1] + b'10', 69),
    (line_of(A)[:-1] + b'x0', 68), (line_of(A)[:-2], 66), (line_of(K), 49), (line_of(K) + b' ', 50),
    (line_of(K) + b'0', 50), (line_of(K) + b'00000 ', 55), (line_of(K) + b'000000', 55),
]

# Document 02, #105: a clear height and the greatest fill that passes refusal 16. Between 2500 and 2519, 1.15h has each of
# its twenty fractions.
FILLS = {
    2500: 2875, 2501: 2876, 2502: 2877, 2503: 2878, 2504: 2879, 2505: 2880, 2506: 2881,
    2507: 2883, 2508: 2884, 2509: 2885, 2510: 2886, 2511: 2887, 2512: 2888, 2513: 2889,
    2514: 2891, 2515: 2892, 2516: 2893, 2517: 2894, 2518: 2895, 2519: 2896,
    1: 1, 6: 6, 7: 8, 20: 23, 2599: 2988, 2600: 2990,
}

# Document 02, #102, written out: the greatest clear heights with the mark and a = t, thickness by thickness, for these
# strengths.
STRENGTHS = (349, 350, 499, 500, 999, 1000)
# Uses 2 to 4 with wind 1250
OUTER = {
    115: (2750, 2750, 2750, 2750, 2750, 2750),
    149: (2750, 2750, 2750, 2750, 2750, 2750),
    150: (2750, 2750, 2750, 2750, 2750, 2750),
    174: (2750, 2750, 2750, 2750, 2750, 2750),
    175: (2750, 3000, 3000, 3300, 3300, 3300),
    199: (2750, 3000, 3000, 3300, 3300, 3300),
    200: (2750, 3600, 3600, 3600, 3600, 3600),
    239: (2750, 3600, 3600, 3600, 3600, 3600),
    240: (2880, 3600, 3600, 3600, 3600, 3600),
    299: (3588, 3600, 3600, 3600, 3600, 3600),
    300: (3600, 3600, 3600, 3600, 3600, 3600),
    301: (3612, 3612, 3612, 3612, 3612, 3612),
    365: (4380, 4380, 4380, 4380, 4380, 4380),
}
# Use 1 with any wind
INNER = {t: (2750, 3600, 3600, 3600, 3600, 3600) if t < 240 else (inf,) * 6 for t in OUTER}
# Document 01's, for uses 2 to 4
GENERAL = {t: (heights[0],) * 6 for t, heights in OUTER.items()}

# Document 02, #107: a text and its blocks, of each the bytes used and the sum. S 175 and its end byte add up to 282.
S_175 = b'S 175\n'
ARCHIVES = [
    (b'', []), (b'\n', [(1, 11)]), (S_175, [(6, 288)]), (S_175 * 2, [(12, 576)]),
    (S_175 * 84, [(504, 23688 + 248 + 1)]), (S_175 * 85, [(504, 23688 + 248 + 1), (6, 288)]),
    (b'S' * 507 + b'\n', [(508, 83 * 507 + 10 + 252 + 1)]), (b'\xff' * 507 + b'\n', [(508, 129548 - 65536)]),
    (b'\n' * 508, [(508, 5080 + 252 + 1)]), (b'\n' * 509, [(508, 5080 + 252 + 1), (1, 11)]),
    (b'\n' * 507 + b'\0\n', [(507, 5070 + 251 + 1), (2, 12)]),
]
BAD_TEXTS = [b'S', b'\0', b'\nS', S_175 + b'S 175', b'S' * 508 + b'\n', b'\n' + b'S' * 508 + b'\n\n', b'S' * 508]
# The block of S 175, byte by byte: 6 used, the sum 288 = 1 * 256 + 32.
BLOCK_OF_S_175 = bytes([6, 0, 32, 1, 83, 32, 49, 55, 53, 10]) + bytes(502)
# The block of the longest line, of S: 508 = 1 * 256 + 252 used, the sum 42344 = 165 * 256 + 104.
LONGEST_LINE = b'S' * 507 + b'\n'
BLOCK_OF_LONGEST_LINE = bytes([252, 1, 104, 165]) + LONGEST_LINE
BAD_BLOCKS = [
    BLOCK_OF_S_175[:511], BLOCK_OF_S_175 + b'\0', b'', with_byte(BLOCK_OF_S_175, 2, 33), with_byte(BLOCK_OF_S_175, 8, 54),
    bytes([5, 0, 31, 1]) + BLOCK_OF_S_175[4:], bytes([7, 0, 33, 1]) + BLOCK_OF_S_175[4:],
    bytes([6, 0, 33, 1]) + BLOCK_OF_S_175[4:511] + b'\1', bytes([6, 0, 33, 1, 83, 32, 49, 55, 53, 11]) + bytes(502),
    bytes([253, 1, 254, 0]) + bytes(508), bytes([255, 255, 254, 1]) + bytes(508),
]

# What pack and unpack print and tell.
PACKED = [
    (b'', b'', ''), (S_175, BLOCK_OF_S_175, ''), (S_175 + LONGEST_LINE, BLOCK_OF_S_175 + BLOCK_OF_LONGEST_LINE, ''),
    (S_175 + b'S', BLOCK_OF_S_175, 'pack: refusal 24: line 2 has no end\n'),
    (S_175 + b'S' * 507, BLOCK_OF_S_175, 'pack: refusal 24: line 2 has no end\n'),
    (S_175 + b'S' * 508, BLOCK_OF_S_175, 'pack: refusal 24: line 2 is longer than 508 bytes with its end\n'),
    (S_175 + b'S' * 508 + b'\n' + S_175, BLOCK_OF_S_175, 'pack: refusal 24: line 2 is longer than 508 bytes with its end\n'),
    (b'S' * 508 + b'\nS', b'', 'pack: refusal 24: line 1 is longer than 508 bytes with its end\n'),
]
UNPACKED = [
    (b'', b'', ''), (BLOCK_OF_S_175 + bytes(512) + BLOCK_OF_S_175, S_175 * 2, ''),
    (BLOCK_OF_S_175 + b'\1' * 512 + BLOCK_OF_S_175[:511], S_175,
     'unpack: refusal 23: block 1, from byte 512 on, is left out\n'
     'unpack: refusal 23: block 2, from byte 1024 on, is left out\n'),
    (b'\0', b'', 'unpack: refusal 23: block 0, from byte 0 on, is left out\n'),
]

count = 0


def agree(what, got, figure):
    global count
    if got != figure:
        raise AssertionError(f'{what}: {got} and not {figure}')
    count += 1


def records():
    """Every record named above."""
    return [*WHOLE_CASE, *(wall for _, wall in REFUSALS), *(wall for _, wall, _ in MARKED),
            *(wall for wall, _ in WORKED)]


def documents():
    stream = b''.join(line_of(wall) + b'\n' for wall in WHOLE_CASE) + b'S 175'
    agree('whole case', schedule(stream), WHOLE_CASE_PRINTED)
    agree('whole case, last line ended', schedule(stream + b'\n'), WHOLE_CASE_PRINTED)
    agree('refusal 1', check_line(b'S 175'), refused(1))
    for number, wall in REFUSALS:
        result = check_line(line_of(wall))
        agree(f'refusal {number}', result.refusal, number)
        agree(f'numbers of refusal {number}', result[1:] == (0, 0, 0, 0), number not in FILLED)
    agree('a buffer of 63', lent(check(A), b'.' * 63), (refused(20), b'.' * 63))
    agree('a buffer of 64', lent(check(A), b'.' * 64), (check(A), text(check(A)) + b'.' * 35))
    for number, (function, wall, figure) in enumerate(MARKED, 1):
        agree(f'marked figure {number}', function(wall), figure)
    for wall, result in WORKED:
        agree(line_of(wall), check(wall), result)
    agree('t = 365, a = 165 passes refusal 10', check(S(t=365, a=165)).refusal, 0)
    agree('at 176 mm r jumps to 18', buckling_length(S(t=176, a=176)), 23625)
    for L, reduced in [(4500, True), (4499, False)]:
        agree(f'reduction with L={L}, M=9000', span_reduced(S(L=L, M=9000)), reduced)
    for L, M, support, number in [(9000, 6000, 1, 0), (9000, 6001, 1, 9), (6001, 0, 1, 9), (7000, 7000, 1, 9), (7000, 7000, 4, 0)]:
        agree(f'refusal 9 with L={L}, M={M}, support {support}', check(S(L=L, M=M, support=support)).refusal, number)
    for use, wind, table in [(1, 1250, INNER), (1, 1251, INNER), *((use, 1250, OUTER) for use in (2, 3, 4)),
                             *((use, 1251, GENERAL) for use in (2, 3, 4))]:
        for t, heights in table.items():
            for F, height in zip(STRENGTHS, heights):
                wall = S(use=use, t=t, a=t, F=F, mark=1, wind=wind)
                agree(f'height of {line_of(wall)}', greatest_height(wall), height)
                for other in (wall._replace(mark=0), wall._replace(a=t - 1)):
                    agree(f'height of {line_of(other)}', greatest_height(other), table[t][0])
    for G, Q, up_to_3000, above in LOADS:
        for q, N in [(0, up_to_3000), (3000, up_to_3000), (3001, above), (100000, above)]:
            agree(f'load for G={G}, Q={Q}, q={q}', storey_load(S(G=G, Q=Q, q=q)), N)
        agree(f'load of a cellar wall for G={G}, Q={Q}', cellar_load(C(G=G, Q=Q)), above)
    for h, e in FILLS.items():
        agree(f'fill {e} passes 16 with h={h}', check(C(h=h, e=e)).refusal in (0, 19), True)
        agree(f'fill {e + 1} with h={h}', check(C(h=h, e=e + 1)), refused(16))
    for more in (b'', b' 0', b' 0 0', b' 0 0 0 0'):
        agree('a line with too few or too many numbers', check_line(line_of(A)[:-6] + more), refused(1))


def minimum_loads():
    # W=780, h=2625
    agree('minimum load for a=175', minimum_load(A, 780), 6062)
    agree('minimum load for a=243', minimum_load(S(t=365, a=243), 780), 4303)
    for wall, W, result in MINIMUM_LOADS:
        agree(f'minimum load of {line_of(wall)}, W={W}', check_minimum_load(wall, W), result)
        agree(f'minimum load of the line {line_of(wall)}, W={W}', check_minimum_load_line(line_of(wall), W), result)
        agree(f'minimum load of the row of {line_of(wall)}, W={W}', check_minimum_load_row(row_of(wall), float(W)), result)
    for line in (line_of(K), line_of(C(t=199)), b'S 175', b''):
        for W in (0, 780):
            agree(f'minimum load of {line}, W={W}', check_minimum_load_line(line, W), refused(1))
    for cell in (779.5, -780.0, nextafter(780, 0), inf, nan, -0.0):
        agree(f'minimum load with a cell {cell}', check_minimum_load_row(row_of(A), cell), refused(2))


def ranges():
    for low, high, answer in RANGES:
        what = f'range from {line_of(low)} to {line_of(high)}'
        agree(what, check_range(low, high), (0, answer))
        agree(f'lines of the {what}', check_range_lines(line_of(low), line_of(high)), (0, answer))
        agree(f'rows of the {what}', check_range_rows(row_of(low), row_of(high)), (0, answer))
        agree(f'worst and best of the {what}', answer_by_worst_and_best(low, high), answer)
    for low, high in BAD_RANGES:
        what = f'range from {line_of(low)} to {line_of(high)}'
        agree(f'lines of the {what}', check_range_lines(line_of(low), line_of(high)), (25, 0))
        agree(f'rows of the {what}', check_range_rows(row_of(low), row_of(high)), (25, 0))
    for low, high, number in RANGE_REFUSALS:
        agree(f'refusal of {low} and {high}', check_range_lines(low, high), (number, 0))
    for cell in (60000.5, nextafter(60000, 0), 0.0, -1.0, inf, nan):
        row = row_of(A)
        row[StoreyWall._fields.index('G')] = cell
        for low, high in ((row, row_of(A)), (row_of(A), row), (row, row)):
            agree(f'range of rows with a cell {cell}', check_range_rows(low, high), (2, 0))
    agree('records between', set(records_between(S(F=499), S(G=60002))),
          {S(F=499), S(F=499, G=60001), S(F=499, G=60002), A, S(G=60001), S(G=60002)})
    agree('records between two that are alike', list(records_between(A, A)), [A])


def worst_and_best_of_ranges():
    """Demand 3: the two records of answer_by_worst_and_best give what the definition gives, which check_range runs for so few
    records as here."""
    for low, high in islice(small_ranges(Numbers(16)), 3000):
        refusal, answer = check_range(low, high)
        if refusal == 0:
            agree(f'worst and best of the range from {line_of(low)} to {line_of(high)}', answer_by_worst_and_best(low, high), answer)


def choices():
    for wall, F, is_accepted in [(A, 297, False), (A, 298, True), (K, 179, False), (K, 180, True)]:
        agree(f'{line_of(wall)} with F={F}', accepted_with(wall, F), is_accepted)
    for wall, blocks, result in CHOICES:
        agree(f'choice of {line_of(wall)} among {blocks}', choice(line_of(wall), list(map(Block._make, blocks))), result)
    for line, blocks, result in NO_RECORDS:
        agree(f'choice of {line} among {blocks}', choice(line, list(map(Block._make, blocks))), result)
    for stream, printed in CHOSEN:
        agree(f'choose of {stream[:100]}', choose(stream), printed)


def choice_in_one_pass(wall, blocks):
    """The place and the count for a good list by one pass over it, in which the best block so far is kept: a block is checked
    where its price is below that one's, and is the best so far where it is then accepted."""
    place = count = 0
    lowest = inf
    for at, block in enumerate(blocks, 1):
        if block.price < lowest:
            count += 1
            if accepted_with(wall, block.F):
                place, lowest = at, block.price
    return place, count


def choices_of_small_lists():
    """Every list of up to four blocks of two strengths, one of them accepted, and three prices."""
    for wall, refused_strength, accepted_strength in ((A, 297, 298), (K, 179, 180)):
        blocks = list(map(Block._make, product((refused_strength, accepted_strength), (1, 2, 3))))
        for length in range(1, 5):
            for chosen in product(blocks, repeat=length):
                refusal, *answer = choice(line_of(wall), chosen)
                place, count = choice_in_one_pass(wall, chosen)
                agree(f'choice of {line_of(wall)} among {chosen}', (refusal, *answer), (0 if place else 27, place, count))


def archives():
    for stored, blocks in ARCHIVES:
        size = 512 * len(blocks)
        told, buffer = archive.write(stored, b'.' * (size + 100))
        fronts = [(block[0] + 256 * block[1], block[2] + 256 * block[3]) for block in archive.pieces(buffer[:size])]
        agree(f'count of {stored[:20]}', archive.count(stored), (0, len(blocks)))
        agree(f'used bytes and sums of {stored[:20]}', (told, fronts, buffer[size:]), ((0, len(blocks)), blocks, b'.' * 100))
        agree(f'{stored[:20]} read back', archive.unpack(buffer[:size]), (stored, ''))
        if blocks:
            agree(f'{stored[:20]}, a byte too few', archive.write(stored, b'.' * (size - 1)), ((24, 0), b'.' * (size - 1)))
    agree('the block of S 175', archive.write(S_175, b'.' * 512), ((0, 1), BLOCK_OF_S_175))
    agree('the block of S 175, read', archive.read(BLOCK_OF_S_175), ((0, 6), S_175))
    agree('512 zeros', archive.read(bytes(512)), ((0, 0), b''))
    for bad in BAD_TEXTS:
        agree(f'count of {bad[:20]}', archive.count(bad), (24, 0))
        agree(f'blocks of {bad[:20]}', archive.write(bad, b'.' * 4096), ((24, 0), b'.' * 4096))
    for bad in BAD_BLOCKS:
        agree(f'block {bad[:20]}', archive.read(bad), ((23, 0), b''))
    for block in GOOD_BLOCKS:
        agree(f'block {block[:20]}', archive.read(block)[0].refusal, 0)
    # "after exactly one byte of one block is changed, that block is refused"
    accepted = [(place, byte) for place, before in enumerate(HALF_FILLED) for byte in range(256)
                if archive.read(with_byte(HALF_FILLED, place, byte))[0].refusal == 0]
    agree('the block with one byte replaced', accepted, list(enumerate(HALF_FILLED)))


def archive_programs():
    for stored, printed, told in PACKED:
        agree(f'pack of {stored[:20]}', archive.pack(stored), (printed, told))
    for blocks, printed, told in UNPACKED:
        agree(f'unpack of {blocks[:20]}', archive.unpack(blocks), (printed, told))


def bytes_taken():
    for line, figure in TAKEN:
        agree(f'bytes taken of {line}', taken(line), figure)
    # The sentence itself, in a small form, two numbers of at most two digits: the beginnings of all its lines.
    strings = [bytes(string) for length in range(9) for string in product(b'S 01x', repeat=length)]
    lines = filter(line_pattern(b'S', 2, 2).fullmatch, strings)
    agree('beginnings of lines of a small form', set(filter(beginning_pattern(b'S', 2, 2).fullmatch, strings)),
          {line[:length] for line in lines for length in range(len(line) + 1)})


def program():
    agree('no input', schedule(b''), b'')
    agree('empty lines', schedule(b'\n\n'), b'1 0 0 0 0\n' * 2)
    agree('a line over 200 bytes', schedule(line_of(A) + b' ' * 133), b'1 0 0 0 0\n')
    agree('longest line of the form', check_line(b'S' + b' 999999999' * 19), refused(2))


def rows():
    for wall in records():
        if isinstance(wall, StoreyWall):
            agree(f'row of {line_of(wall)}', check_row(row_of(wall)), check(wall))
    for cell, number in [(-0.0, 0), (175.0, 175), (2.0**53, 2**53), (-1.0, -1), (0.5, None), (5e-324, None),
                         (nextafter(175, 0), None), (nextafter(175, 200), None), (inf, None), (-inf, None),
                         (nan, None)]:
        agree(f'cell {cell}', whole_number(cell), number)


def callers():
    lines = read_lines()
    for line, (result, figure) in lines.items():
        agree(line, check_line(line), result)
        agree(f'bytes taken of {line}', taken(line), figure)
    for cells, result in read_rows():
        agree(f'row {cells}', check_row(cells), result)
    for line, W, result in read_minimum_load_lines():
        agree(f'minimum load of {line}, W={W}', check_minimum_load_line(line, W), result)
    for cells, wind, result in read_minimum_load_rows():
        agree(f'minimum load of row {cells}, W={wind}', check_minimum_load_row(cells, wind), result)
    for low, high, result in read_range_lines():
        agree(f'range from {low} to {high}', check_range_lines(low, high), result)
    for low, high, result in read_range_rows():
        agree(f'range of rows from {low} to {high}', check_range_rows(low, high), result)
    for line, blocks, result in read_choices():
        agree(f'choice of {line} among {blocks}', choice(line, list(map(Block._make, blocks))), result)
    for wall in records():
        agree(f'{line_of(wall)} stands in callers/cases.txt', line_of(wall) in lines, True)
    for stored, result, blocks in read_archive_texts():
        agree(f'count of {stored[:20]}', archive.count(stored), result)
        written = archive.write(stored, b'.' * (512 * result[1] + 30))
        agree(f'blocks of {stored[:20]}', written, (result, b''.join(blocks) + b'.' * 30))
    for block, result in read_archive_blocks():
        used_part = block[4:4 + result[1]]
        agree(f'block {block[:20]}', archive.read(block), (result, used_part))


if __name__ == '__main__':
    documents()
    minimum_loads()
    ranges()
    worst_and_best_of_ranges()
    choices()
    choices_of_small_lists()
    archives()
    archive_programs()
    bytes_taken()
    program()
    rows()
    callers()
    print(f'oracle: {count} figures agree')
