/* Simplified check of unreinforced masonry walls (EN 1996-3 with its German annex). MANUAL.md has the rules.
 *
 * Version 4. A change of a struct or of a function's arguments raises the first number of the version and of the
 * shared library's name (libwallcheck.so.4); a changed result or a new function raises the second number.
 *
 * The functions keep no state and allocate nothing: any number of threads may call them at once. The caller owns
 * every buffer; the library reads or writes it during the call only and keeps no pointer to it. A null pointer is
 * allowed where the length beside it is 0. `line` and `out`, and `text` and `out`, must not overlap.
 *
 * Lengths are in mm, line loads in N/m. */
#ifndef WALLCHECK_H
#define WALLCHECK_H

#include <stddef.h>
#include <stdint.h>

#ifdef __cplusplus
extern "C" {
#endif

/* The least length of an output buffer; the text of every result fits. */
#define WALLCHECK_OUT_LEN 64

/* The five numbers of a result, in the order in which they are printed.
 *
 * Refusal: 0 accepted; 1 not a line of this form; 2 a number out of range;
 * storey walls: 3 thickness, 4 area, 5 use, 6 clear height, 7 imposed floor load, 8 building height, 9 span,
 * 10 bearing, 11 strength, 12 slenderness, 13 load above the resistance;
 * cellar walls: 14 thickness, 15 clear height, 16 height of fill, 17 load on the ground, 11 strength,
 * 18 load above the resistance, 19 dead load below the required one;
 * 20 output buffer under 64 bytes;
 * the functions of the minimum load alone: 21 dead load below the minimum load.
 * Refusals other than 13, 18, 19 and 21 leave the other four numbers 0.
 * 23 and 24 come with wallcheck_archived alone, 25 with wallcheck_range alone, 26 and 27 with wallcheck_choice alone. */
typedef struct {
    uint64_t refusal;        /* 0 accepted, else the first refusal that applies */
    uint64_t length_or_need; /* storey wall: buckling length in tenths of a mm; cellar wall: required dead load;
                              * minimum load, accepted or refusal 21: that load */
    uint64_t load;           /* design load N: 1.35G + 1.5Q; storey wall with q up to 3000: the smaller of that and
                              * 1.4(G + Q); to the nearest N/m, an exact half upwards */
    uint64_t resistance;     /* resistance */
    int64_t spare;           /* resistance - load */
} wallcheck_result;

/* The result of a line and how many of its bytes were taken, front to back: up to and including the first wrong byte,
 * or all where there is none. A byte is wrong when no line of the right form, in range or not, begins with the bytes up
 * to and including it. So where refusal 1 comes with fewer bytes taken than the line has, the last one taken is the
 * first wrong one; with all of them, the last byte is wrong or the line ends too early. */
typedef struct {
    wallcheck_result result;
    uint64_t taken;
} wallcheck_reading;

/* A worksheet row: a storey wall in cells, the 19 numbers of its line in the line's order. Each cell must be exactly a
 * whole number in its range (negative zero counts as 0); a fraction, an infinity, a NaN and every other number is
 * refusal 2. In brackets: the letter of the formulas. */
typedef struct {
    double usage;           /* 1 inner, 2 single-leaf outer, 3 bearing leaf or party wall, 4 garage outer */
    double thickness;       /* (t) 1..1000 */
    double height;          /* (h) clear height, 1..20000 */
    double length;          /* (w) wall length, 1..20000 */
    double held;            /* 2, 3 or 4 sides held */
    double distance;        /* (c) two sides: 0; three: distance of the free edge, 1..30000; four: spacing of the
                             * holding walls, 1..30000 */
    double support;         /* 1 intermediate, 2 end under a floor, 3 end under a roof, 4 end with centring strip */
    double span;            /* (L) span of the floor, 1..20000 */
    double bearing;         /* (a) bearing depth, 1..thickness */
    double strength;        /* (F) in hundredths of N/mm2, 1..5000 */
    double bonded;          /* 0 or 1 */
    double dead;            /* (G) dead load, 1..10000000 */
    double imposed;         /* (Q) imposed load, 0..10000000 */
    double floorload;       /* (q) imposed floor load in N/m2, 0..100000 */
    double building;        /* (H) building height, 1..200000 */
    double storeys;         /* (n) full storeys, 1..20 */
    double otherspan;       /* (M) the other span of a slab that spans both ways, 1..20000; 0 for a one-way slab */
    double calciumsilicate; /* 1 calcium silicate masonry in normal or thin-bed mortar, else 0 */
    double wind;            /* characteristic wind load in N/m2, 0..10000; it enters the height limit of calcium
                             * silicate walls alone */
} wallcheck_cells;

/* What the functions of ranges return: refusal 0 and an answer; or refusal 1, 2 or 25 and answer 0. */
typedef struct {
    uint64_t refusal; /* 0; 1 not a storey wall's line; 2 a number out of range; 25 a low value above its high value, or
                       * another number that differs */
    uint64_t answer;  /* 1 every record between is accepted; 2 none is; 3 some are and others are not */
} wallcheck_range;

/* A building block that a merchant offers, and not one of the archive's blocks of 512 bytes. */
typedef struct {
    uint64_t strength; /* (F) of the masonry with this block, in hundredths of N/mm2, 1..5000; the block's own class is another
                        * number */
    uint64_t price;    /* 1..1000000, in any unit, the same for all blocks of a list */
} wallcheck_block;

/* What wallcheck_choose returns: refusal 0, a place and a count; refusal 27, place 0 and a count; or refusal 26, 1 or 2, place 0
 * and count 0. */
typedef struct {
    uint64_t refusal; /* 0; 26 a list that is empty, too long or has a number out of range; 1 not a line of this form; 2 a
                       * number of the line out of range; 27 no block is accepted */
    uint64_t place;   /* of the chosen block in the list; places count from 1 */
    uint64_t checked; /* how many blocks were checked; with refusal 27 all of the list */
} wallcheck_choice;

/* What the functions of the archive return: refusal 0 and a count; or refusal 23 or 24 and count 0. */
typedef struct {
    uint64_t refusal; /* 0; 23 a block that is refused; 24 a text that cannot be stored, or a buffer that is too short */
    uint64_t count;   /* the blocks of a text, or the bytes that a block yields */
} wallcheck_archived;

/* The length of an archive's block, in bytes. */
#define WALLCHECK_BLOCK_LEN 512

/* The edition of the rules by which this library computes: a number to file with the results. 100 is the first edition;
 * later ones have greater numbers. */
uint64_t wallcheck_edition(void);

/* The result of a line of `len` bytes, without an end-of-line byte:
 * S and 19 numbers for a storey wall, C and 10 numbers for a cellar wall. */
wallcheck_result wallcheck_line(const uint8_t *line, size_t len);

/* The same result, and how many bytes were taken. */
wallcheck_reading wallcheck_line_taken(const uint8_t *line, size_t len);

/* The result of a line, also as text in `out`: its five numbers with one space between, a minus sign where negative,
 * then byte 10. The bytes of `out` behind the text stay as they are. Where `out_len` is under 64, refusal 20 is
 * returned whatever the line is, and nothing is written. */
wallcheck_result wallcheck_line_into(const uint8_t *line, size_t len, uint8_t *out, size_t out_len);

/* The result of a worksheet row: that of the line with the same numbers. */
wallcheck_result wallcheck_row(wallcheck_cells cells);

/* The same, and the result as text in `out`, as in wallcheck_line_into. */
wallcheck_result wallcheck_row_into(wallcheck_cells cells, uint8_t *out, size_t out_len);

/* The minimum load in the top storey: whether the dead load of a storey wall reaches what it needs against the wind.
 * `wind` is the design wind load in N/m2, a whole number, 1..10000; the wind in the record is the characteristic one and
 * does not enter here. Load helps in this check: MANUAL.md says with which loads to call it.
 *
 * A line that is not of the form S and 19 numbers, a cellar wall's among them, is refusal 1; `wind` out of range is
 * refusal 2, in that refusal's place: before 3 to 13. Any other refusal of the ordinary check is returned as it is.
 * Where the ordinary check accepts, the result is accepted or refusal 21, its second number is the minimum load
 * 9 wind h^2 / (160 (300 a - h)), rounded up, and its other numbers are those of the ordinary check. */
wallcheck_result wallcheck_minimum_load_line(const uint8_t *line, size_t len, uint64_t wind);

/* The same, and the result as text in `out`, as in wallcheck_line_into. */
wallcheck_result wallcheck_minimum_load_line_into(const uint8_t *line, size_t len, uint64_t wind, uint8_t *out,
                                                  size_t out_len);

/* The same for a worksheet row; `wind` is a cell like the others. */
wallcheck_result wallcheck_minimum_load_row(wallcheck_cells cells, double wind);

/* The same, and the result as text in `out`, as in wallcheck_line_into. */
wallcheck_result wallcheck_minimum_load_row_into(wallcheck_cells cells, double wind, uint8_t *out, size_t out_len);

/* Early design with ranges: whether a storey wall is accepted while loads, strength, span and building height are known
 * only as ranges. `low` and `high` are lines of the form S and 19 numbers that agree except in G, Q, F, L, q and H, where
 * `low` has the low value of each and `high` the high one; with M above 0 they agree in L too. A record lies between them
 * if each of its numbers does, ends included. The answer is 1 if every record between them is accepted, as wallcheck_line
 * accepts it, 2 if none is, 3 otherwise, each exactly then.
 *
 * A line that is not of this form, a cellar wall's among them, is refusal 1, a number out of range refusal 2; what the low
 * line has comes before what the high line has. Refusal 25, behind both: a low value is above its high value, or another
 * number differs, L with M above 0 included. `low` and `high` may overlap or be the same. */
wallcheck_range wallcheck_range_lines(const uint8_t *low, size_t low_len, const uint8_t *high, size_t high_len);

/* The same for two worksheet rows. */
wallcheck_range wallcheck_range_rows(wallcheck_cells low, wallcheck_cells high);

/* Choosing the block: which of a list of 1 to 64 blocks is the cheapest with which a wall is accepted. `line` is that of a storey
 * or a cellar wall. A block is accepted where wallcheck_line accepts the line with the block's strength in place of its own F.
 * Of the accepted blocks the cheapest is chosen, the earlier of equals: no other block of the list that is accepted costs
 * less. Checked are the blocks whose price is below that of every accepted block before them.
 *
 * Refusal 26 comes first: the list is empty, has more than 64 blocks or a strength or a price out of range. Then, as
 * wallcheck_line has them, refusals 1 and 2; for these the line's own F counts like its other numbers. Then 27, exactly when no
 * block is accepted, with the list's length as its count. A strength from 1 to 179 is in range, and such a block is not
 * accepted. Nothing is written. */
wallcheck_choice wallcheck_choose(const uint8_t *line, size_t len, const wallcheck_block *blocks, size_t count);

/* Archived schedules: lines, each ended by byte 10, in blocks of 512 bytes, so that one bad block costs its own lines
 * alone. Bytes 0 and 1 of a block hold the number of bytes used, at most 508, low byte first; bytes 2 and 3 the sum of
 * all other bytes of the block modulo 65536, low byte first; lines follow from byte 4, whole; the remainder is zero.
 *
 * How many blocks the lines of a text take, 0 for an empty text. Refusal 24: the text is not empty and does not end in
 * byte 10, or has a line of more than 508 bytes with its end byte. */
wallcheck_archived wallcheck_archive_count(const uint8_t *text, size_t len);

/* Writes these blocks, the first from byte 0 of `out` on, the next from byte 512 on, and so forth, and returns their
 * number. They need WALLCHECK_BLOCK_LEN bytes each. The bytes of `out` behind the last block stay as they are. Refusal 24
 * also where the blocks are more than the buffer holds. With refusal 24 nothing is written. */
wallcheck_archived wallcheck_archive_write(const uint8_t *text, size_t len, uint8_t *out, size_t out_len);

/* How many bytes a block yields: its bytes from byte 4 on, whole lines. Refusal 23, and nothing is yielded: the length is
 * not 512, or count, sum or remainder is wrong, or there are used bytes and the last is not byte 10. The block without
 * lines, 512 zeros, yields 0 bytes. */
wallcheck_archived wallcheck_archive_read(const uint8_t *block, size_t len);

#ifdef __cplusplus
}
#endif

#endif
