/* Runs the acceptance cases against the library: each line, each storey record as a worksheet row too, and each row,
 * alone and into lent buffers of several lengths; of each line also the count of bytes taken. The same of the minimum
 * load in the top storey. Each pair of lines and of rows of a range. Each record with a list of blocks to choose from. Each
 * text is archived into buffers of several lengths and read back, and each block is read.
 *
 *     gcc -std=c11 -Wall -Wextra -I include callers/c/acceptance.c libwallcheck.a -o acceptance
 *     ./acceptance callers/cases.txt callers/rows.txt callers/minimum_load_lines.txt callers/minimum_load_rows.txt \
 *         callers/range_lines.txt callers/range_rows.txt callers/choices.txt callers/archive_texts.txt \
 *         callers/archive_blocks.txt
 */
#include <stdio.h>
#include <stdlib.h>
#include <string.h>

#include "wallcheck.h"

enum { EDITION = 110, CELLS = 19 };

_Static_assert(sizeof(wallcheck_result) == 40, "five numbers of eight bytes");
_Static_assert(sizeof(wallcheck_reading) == 48, "a result and the count");
_Static_assert(offsetof(wallcheck_reading, taken) == 40, "the count is the last");
_Static_assert(sizeof(wallcheck_range) == 16, "two numbers of eight bytes");
_Static_assert(offsetof(wallcheck_range, answer) == 8, "the answer is the second");
_Static_assert(sizeof(wallcheck_block) == 16, "two numbers of eight bytes");
_Static_assert(offsetof(wallcheck_block, price) == 8, "the price is the second");
_Static_assert(sizeof(wallcheck_choice) == 24, "three numbers of eight bytes");
_Static_assert(offsetof(wallcheck_choice, place) == 8, "the place is the second");
_Static_assert(offsetof(wallcheck_choice, checked) == 16, "the count is the last");
_Static_assert(sizeof(wallcheck_archived) == 16, "two numbers of eight bytes");
_Static_assert(offsetof(wallcheck_archived, count) == 8, "the count is the second");
_Static_assert(sizeof(wallcheck_cells) == CELLS * sizeof(double), "nineteen cells");
_Static_assert(offsetof(wallcheck_cells, held) == 4 * sizeof(double), "held is the fifth");
_Static_assert(offsetof(wallcheck_cells, wind) == 18 * sizeof(double), "the wind is the last");

enum { GUARD = 16, LONGEST = 100, FILL = 0xA5 };
static const size_t out_lengths[] = {0, 63, 64, LONGEST};
enum { OUT_LENGTHS = sizeof out_lengths / sizeof out_lengths[0] };

static long agreed, different;

static void report(const char *what, const char *line, int agrees)
{
    if (agrees) {
        agreed++;
    } else {
        different++;
        fprintf(stderr, "c: %s differs: %s\n", what, line);
    }
}

static int same(wallcheck_result x, wallcheck_result y)
{
    return x.refusal == y.refusal && x.length_or_need == y.length_or_need && x.load == y.load &&
           x.resistance == y.resistance && x.spare == y.spare;
}

/* A lent part of `bytes`, between guards, and what is expected in it. */
struct lent {
    uint8_t bytes[GUARD + LONGEST + GUARD];
    uint8_t expected[GUARD + LONGEST + GUARD];
};

static wallcheck_result lend(struct lent *lent, size_t out_len, wallcheck_result result)
{
    char text[WALLCHECK_OUT_LEN];
    int len = snprintf(text, sizeof text, "%llu %llu %llu %llu %lld\n", (unsigned long long)result.refusal,
                       (unsigned long long)result.length_or_need, (unsigned long long)result.load,
                       (unsigned long long)result.resistance, (long long)result.spare);
    memset(lent->bytes, FILL, sizeof lent->bytes);
    memset(lent->expected, FILL, sizeof lent->expected);
    if (out_len < WALLCHECK_OUT_LEN)
        return (wallcheck_result){.refusal = 20};
    memcpy(lent->expected + GUARD, text, (size_t)len);
    return result;
}

static int as_lent(const struct lent *lent)
{
    return memcmp(lent->bytes, lent->expected, sizeof lent->bytes) == 0;
}

static void run_line(const char *line, const uint8_t *bytes, size_t len, wallcheck_result expected, uint64_t taken)
{
    wallcheck_reading reading = wallcheck_line_taken(bytes, len);
    report("line", line, same(wallcheck_line(bytes, len), expected));
    report("line with the bytes taken", line, same(reading.result, expected) && reading.taken == taken);
    for (int i = 0; i < OUT_LENGTHS; i++) {
        struct lent lent;
        wallcheck_result back = lend(&lent, out_lengths[i], expected);
        wallcheck_result got = wallcheck_line_into(bytes, len, lent.bytes + GUARD, out_lengths[i]);
        report("line into a buffer", line, same(got, back) && as_lent(&lent));
    }
}

static void run_row(const char *line, wallcheck_cells cells, wallcheck_result expected)
{
    report("row", line, same(wallcheck_row(cells), expected));
    for (int i = 0; i < OUT_LENGTHS; i++) {
        struct lent lent;
        wallcheck_result back = lend(&lent, out_lengths[i], expected);
        wallcheck_result got = wallcheck_row_into(cells, lent.bytes + GUARD, out_lengths[i]);
        report("row into a buffer", line, same(got, back) && as_lent(&lent));
    }
}

/* The row of 19 numbers with a space before each but the first. */
static wallcheck_cells cells_of(const char *numbers)
{
    double x[CELLS];
    char *rest = (char *)numbers;
    for (int i = 0; i < CELLS; i++)
        x[i] = strtod(rest, &rest);
    wallcheck_cells cells;
    memcpy(&cells, x, sizeof cells);
    return cells;
}

static wallcheck_result result_of(const char *numbers)
{
    unsigned long long refusal, length_or_need, load, resistance;
    long long spare;
    if (sscanf(numbers, "%llu %llu %llu %llu %lld", &refusal, &length_or_need, &load, &resistance, &spare) != 5) {
        fprintf(stderr, "c: not a result: %s\n", numbers);
        exit(1);
    }
    return (wallcheck_result){refusal, length_or_need, load, resistance, spare};
}

/* How many bytes of a line are taken: behind refusal 1 a column says it, any other line has all its bytes taken. */
static uint64_t taken_of(const char *line, wallcheck_result result, const char *columns)
{
    const char *tab = strchr(columns, '\t');
    if ((result.refusal == 1) != (tab != NULL)) {
        fprintf(stderr, "c: a count of bytes is missing, or stands where none belongs: %s\n", line);
        exit(1);
    }
    return tab == NULL ? strlen(line) : strtoull(tab + 1, NULL, 10);
}

/* Runs a line, and its row if it is of the form `S`. */
static void run_line_case(const char *line, const char *columns)
{
    wallcheck_result expected = result_of(columns);
    run_line(line, (const uint8_t *)line, strlen(line), expected, taken_of(line, expected, columns));
    if (expected.refusal != 1 && line[0] == 'S')
        run_row(line, cells_of(line + 1), expected);
}

static void run_row_case(const char *row, const char *columns)
{
    run_row(row, cells_of(row), result_of(columns));
}

static void run_minimum_load_line(const char *line, const uint8_t *bytes, size_t len, uint64_t wind,
                                  wallcheck_result expected)
{
    report("minimum load of a line", line, same(wallcheck_minimum_load_line(bytes, len, wind), expected));
    for (int i = 0; i < OUT_LENGTHS; i++) {
        struct lent lent;
        wallcheck_result back = lend(&lent, out_lengths[i], expected);
        wallcheck_result got = wallcheck_minimum_load_line_into(bytes, len, wind, lent.bytes + GUARD, out_lengths[i]);
        report("minimum load of a line into a buffer", line, same(got, back) && as_lent(&lent));
    }
}

static void run_minimum_load_row(const char *line, wallcheck_cells cells, double wind, wallcheck_result expected)
{
    report("minimum load of a row", line, same(wallcheck_minimum_load_row(cells, wind), expected));
    for (int i = 0; i < OUT_LENGTHS; i++) {
        struct lent lent;
        wallcheck_result back = lend(&lent, out_lengths[i], expected);
        wallcheck_result got = wallcheck_minimum_load_row_into(cells, wind, lent.bytes + GUARD, out_lengths[i]);
        report("minimum load of a row into a buffer", line, same(got, back) && as_lent(&lent));
    }
}

/* The columns behind the first. */
static const char *behind_tab(const char *line, const char *columns)
{
    const char *tab = strchr(columns, '\t');
    if (tab == NULL) {
        fprintf(stderr, "c: a column is missing: %s\n", line);
        exit(1);
    }
    return tab + 1;
}

/* The result behind the column of the design wind. */
static wallcheck_result result_behind_wind(const char *line, const char *columns)
{
    return result_of(behind_tab(line, columns));
}

/* Runs a line with its design wind, and its row if it is of the form `S`. */
static void run_minimum_load_line_case(const char *line, const char *columns)
{
    uint64_t wind = strtoull(columns, NULL, 10);
    wallcheck_result expected = result_behind_wind(line, columns);
    run_minimum_load_line(line, (const uint8_t *)line, strlen(line), wind, expected);
    if (expected.refusal != 1)
        run_minimum_load_row(line, cells_of(line + 1), (double)wind, expected);
}

static void run_minimum_load_row_case(const char *row, const char *columns)
{
    run_minimum_load_row(row, cells_of(row), strtod(columns, NULL), result_behind_wind(row, columns));
}

/* A refusal and the number behind it, an answer or a count. */
struct refusal_and_number {
    unsigned long long refusal, number;
};

static struct refusal_and_number two_numbers(const char *numbers)
{
    struct refusal_and_number two;
    if (sscanf(numbers, "%llu %llu", &two.refusal, &two.number) != 2) {
        fprintf(stderr, "c: not a refusal and a number: %s\n", numbers);
        exit(1);
    }
    return two;
}

static wallcheck_range range_of(const char *numbers)
{
    struct refusal_and_number two = two_numbers(numbers);
    return (wallcheck_range){two.refusal, two.number};
}

static int same_range(wallcheck_range x, wallcheck_range y)
{
    return x.refusal == y.refusal && x.answer == y.answer;
}

/* Whether a line is the letter S and as many words as a row has cells. */
static int has_cells(const char *line, size_t len)
{
    int spaces = 0;
    for (size_t i = 0; i < len; i++)
        spaces += line[i] == ' ';
    return len > 0 && line[0] == 'S' && spaces == CELLS;
}

/* Runs a low and a high line, and their rows where both are of the form `S`. */
static void run_range_lines_case(const char *low, const char *columns)
{
    const char *high = columns, *numbers = behind_tab(low, columns);
    size_t low_len = strlen(low), high_len = (size_t)(numbers - 1 - high);
    wallcheck_range expected = range_of(numbers);
    wallcheck_range got = wallcheck_range_lines((const uint8_t *)low, low_len, (const uint8_t *)high, high_len);
    report("range of lines", low, same_range(got, expected));
    if (expected.refusal != 1 && has_cells(low, low_len) && has_cells(high, high_len))
        report("range of rows of lines", low,
               same_range(wallcheck_range_rows(cells_of(low + 1), cells_of(high + 1)), expected));
}

static void run_range_rows_case(const char *low, const char *columns)
{
    wallcheck_range expected = range_of(behind_tab(low, columns));
    report("range of rows", low, same_range(wallcheck_range_rows(cells_of(low), cells_of(columns)), expected));
}

/* A null pointer with length 0, as low line and as high line. */
static void run_range_null(void)
{
    const char *numbers = "S 1 175 2625 5000 2 0 1 5000 175 500 0 60000 90000 2250 9000 3 0 0 0";
    const uint8_t *line = (const uint8_t *)numbers;
    const wallcheck_range no_line = {.refusal = 1};
    size_t len = strlen(numbers);
    report("range of lines", "both null", same_range(wallcheck_range_lines(NULL, 0, NULL, 0), no_line));
    report("range of lines", "low null", same_range(wallcheck_range_lines(NULL, 0, line, len), no_line));
    report("range of lines", "high null", same_range(wallcheck_range_lines(line, len, NULL, 0), no_line));
}

/* The blocks that a case names. Behind them stands one that would be chosen if the function looked there. */
enum { MOST_BLOCKS = 200 };
struct blocks {
    wallcheck_block at[MOST_BLOCKS + 1];
    size_t count;
};

/* Each block as F and price, with a comma and a space between, up to the next tab. */
static struct blocks blocks_of(const char *column)
{
    struct blocks blocks = {.count = 0};
    const char *rest = column;
    while (*rest != '\t') {
        unsigned long long strength, price;
        int taken;
        if (blocks.count == MOST_BLOCKS || sscanf(rest, "%llu %llu%n", &strength, &price, &taken) != 2) {
            fprintf(stderr, "c: not blocks: %s\n", column);
            exit(1);
        }
        blocks.at[blocks.count++] = (wallcheck_block){strength, price};
        rest += taken;
        rest += strspn(rest, ", ");
    }
    blocks.at[blocks.count] = (wallcheck_block){5000, 1};
    return blocks;
}

static wallcheck_choice choice_of(const char *numbers)
{
    unsigned long long refusal, place, checked;
    if (sscanf(numbers, "%llu %llu %llu", &refusal, &place, &checked) != 3) {
        fprintf(stderr, "c: not a choice: %s\n", numbers);
        exit(1);
    }
    return (wallcheck_choice){refusal, place, checked};
}

static int same_choice(wallcheck_choice x, wallcheck_choice y)
{
    return x.refusal == y.refusal && x.place == y.place && x.checked == y.checked;
}

/* Runs a record's line with a list of blocks, which stays as it is. */
static void run_choice_case(const char *line, const char *columns)
{
    struct blocks blocks = blocks_of(columns), before = blocks;
    wallcheck_choice got = wallcheck_choose((const uint8_t *)line, strlen(line), blocks.at, blocks.count);
    report("choice", line, same_choice(got, choice_of(behind_tab(line, columns))));
    report("list afterwards", line, memcmp(blocks.at, before.at, (blocks.count + 1) * sizeof blocks.at[0]) == 0);
}

/* A null pointer with length 0, as line and as list. */
static void run_choice_null(void)
{
    const char *numbers = "C 365 2500 2000 6000 20000 500 0 40000 10000 5000";
    const uint8_t *line = (const uint8_t *)numbers;
    const wallcheck_block block = {500, 10};
    const wallcheck_choice no_line = {.refusal = 1}, no_list = {.refusal = 26};
    report("choice", "both null", same_choice(wallcheck_choose(NULL, 0, NULL, 0), no_list));
    report("choice", "list null", same_choice(wallcheck_choose(line, strlen(numbers), NULL, 0), no_list));
    report("choice", "line null", same_choice(wallcheck_choose(NULL, 0, &block, 1), no_line));
}

/* The bytes that a case names. */
enum { MOST_BYTES = 8192 };
struct bytes {
    uint8_t at[MOST_BYTES];
    size_t len;
};

static void not_bytes(const char *column)
{
    fprintf(stderr, "c: not bytes: %s\n", column);
    exit(1);
}

/* Puts a piece of `len` characters behind the bytes: hexadecimal digits, and where `*` and a number stand behind them, so
 * many times. */
static void add_piece(struct bytes *bytes, const char *piece, size_t len)
{
    size_t digits = strspn(piece, "0123456789abcdef");
    size_t times = piece[digits] == '*' ? strtoull(piece + digits + 1, NULL, 10) : 1;
    if (digits == 0 || digits % 2 != 0 || (digits != len && piece[digits] != '*') ||
        digits / 2 * times > MOST_BYTES - bytes->len)
        not_bytes(piece);
    for (size_t i = 0; i < digits / 2 * times; i++) {
        const char *digit = piece + 2 * i % digits;
        bytes->at[bytes->len++] = (uint8_t)strtoul((char[]){digit[0], digit[1], '\0'}, NULL, 16);
    }
}

/* The bytes of all pieces, which have spaces or tabs between. Behind them stand bytes 10, which would end a line or a used
 * part if a function looked there. */
static struct bytes bytes_of(const char *columns)
{
    struct bytes bytes = {.len = 0};
    memset(bytes.at, '\n', sizeof bytes.at);
    const char *piece = columns + strspn(columns, " \t\n");
    while (*piece != '\0') {
        size_t len = strcspn(piece, " \t\n");
        add_piece(&bytes, piece, len);
        piece += len;
        piece += strspn(piece, " \t\n");
    }
    return bytes;
}

static int same_archived(wallcheck_archived x, wallcheck_archived y)
{
    return x.refusal == y.refusal && x.count == y.count;
}

static wallcheck_archived archived_of(const char *numbers)
{
    struct refusal_and_number two = two_numbers(numbers);
    return (wallcheck_archived){two.refusal, two.number};
}

/* Writes the blocks of a text into a buffer of `out_len` bytes between guards: either all of them stand there afterwards, or
 * nothing is written; what is before and behind them stays. */
static void run_archive_write(const char *row, const struct bytes *text, const struct bytes *blocks, size_t out_len,
                              wallcheck_archived expected)
{
    static uint8_t area[GUARD + 2 * MOST_BYTES + GUARD], expected_area[sizeof area];
    memset(area, FILL, sizeof area);
    memset(expected_area, FILL, sizeof area);
    if (expected.refusal == 0 && out_len < blocks->len)
        expected = (wallcheck_archived){.refusal = 24};
    if (expected.refusal == 0)
        memcpy(expected_area + GUARD, blocks->at, blocks->len);
    wallcheck_archived got = wallcheck_archive_write(text->at, text->len, area + GUARD, out_len);
    report("archive", row, same_archived(got, expected) && memcmp(area, expected_area, sizeof area) == 0);
}

/* Reads each block alone: together they yield the text. */
static void run_archive_read_back(const char *row, const struct bytes *text, const struct bytes *blocks)
{
    struct bytes yielded = {.len = 0};
    for (size_t at = 0; at < blocks->len; at += WALLCHECK_BLOCK_LEN) {
        wallcheck_archived got = wallcheck_archive_read(blocks->at + at, WALLCHECK_BLOCK_LEN);
        report("block of an archive", row, got.refusal == 0 && got.count <= WALLCHECK_BLOCK_LEN - 4);
        if (got.count > WALLCHECK_BLOCK_LEN - 4)
            return;
        memcpy(yielded.at + yielded.len, blocks->at + at + 4, got.count);
        yielded.len += got.count;
    }
    report("text read back", row, yielded.len == text->len && memcmp(yielded.at, text->at, text->len) == 0);
}

/* Behind refusal and count stand the blocks of the text, each in a column of its own. */
static void run_archive_text_case(const char *row, const char *columns)
{
    const char *tab = strchr(columns, '\t');
    struct bytes text = bytes_of(row), blocks = bytes_of(tab == NULL ? "" : tab);
    wallcheck_archived expected = archived_of(columns);
    if (blocks.len != WALLCHECK_BLOCK_LEN * expected.count)
        not_bytes(columns);
    report("count of blocks", row, same_archived(wallcheck_archive_count(text.at, text.len), expected));
    const size_t lengths[] = {0, 512, blocks.len, blocks.len + 1, blocks.len + 511, blocks.len + 512, 2 * MOST_BYTES};
    for (size_t i = 0; i < sizeof lengths / sizeof lengths[0]; i++)
        run_archive_write(row, &text, &blocks, lengths[i], expected);
    if (blocks.len > 0)
        run_archive_write(row, &text, &blocks, blocks.len - 1, expected);
    if (expected.refusal == 0)
        run_archive_read_back(row, &text, &blocks);
}

static void run_archive_block_case(const char *row, const char *columns)
{
    struct bytes block = bytes_of(row);
    report("block", row, same_archived(wallcheck_archive_read(block.at, block.len), archived_of(columns)));
}

/* A null pointer with length 0, as text, as buffer and as block. */
static void run_archive_null(void)
{
    const uint8_t line[] = "S 175\n";
    const wallcheck_archived nothing = {.refusal = 0}, bad_text = {.refusal = 24}, bad_block = {.refusal = 23};
    report("count of blocks", "null", same_archived(wallcheck_archive_count(NULL, 0), nothing));
    report("archive", "null, buffer null", same_archived(wallcheck_archive_write(NULL, 0, NULL, 0), nothing));
    report("archive", "buffer null", same_archived(wallcheck_archive_write(line, 6, NULL, 0), bad_text));
    report("block", "null", same_archived(wallcheck_archive_read(NULL, 0), bad_block));
}

/* A null pointer with length 0, as line and as buffer. */
static void run_null(void)
{
    wallcheck_cells cells = {0};
    wallcheck_result no_line = {.refusal = 1}, no_buffer = {.refusal = 20};
    run_line("null", NULL, 0, no_line, 0);
    report("line into a buffer", "null, buffer null", same(wallcheck_line_into(NULL, 0, NULL, 0), no_buffer));
    report("row into a buffer", "buffer null", same(wallcheck_row_into(cells, NULL, 0), no_buffer));
    run_minimum_load_line("null", NULL, 0, 780, no_line);
    report("minimum load of a line into a buffer", "null, buffer null",
           same(wallcheck_minimum_load_line_into(NULL, 0, 780, NULL, 0), no_buffer));
    report("minimum load of a row into a buffer", "buffer null",
           same(wallcheck_minimum_load_row_into(cells, 780, NULL, 0), no_buffer));
}

/* Runs each case of a file: what stands before the first tab, with the columns behind it. */
static void run_file(const char *path, void (*run)(const char *, const char *))
{
    char row[4096];
    FILE *file = fopen(path, "r");
    if (file == NULL) {
        perror(path);
        exit(1);
    }
    while (fgets(row, sizeof row, file) != NULL) {
        char *tab = strchr(row, '\t');
        if (strchr(row, '\n') == NULL) {
            fprintf(stderr, "c: not a whole line, or longer than %zu bytes: %s\n", sizeof row, row);
            exit(1);
        }
        if (row[0] == '#' || tab == NULL)
            continue;
        *tab = '\0';
        run(row, tab + 1);
    }
    fclose(file);
}

int main(int argc, char **argv)
{
    if (argc != 10) {
        fprintf(stderr, "usage: acceptance cases.txt rows.txt minimum_load_lines.txt minimum_load_rows.txt "
                        "range_lines.txt range_rows.txt choices.txt archive_texts.txt archive_blocks.txt\n");
        return 1;
    }
    run_file(argv[1], run_line_case);
    run_file(argv[2], run_row_case);
    run_file(argv[3], run_minimum_load_line_case);
    run_file(argv[4], run_minimum_load_row_case);
    run_file(argv[5], run_range_lines_case);
    run_file(argv[6], run_range_rows_case);
    run_file(argv[7], run_choice_case);
    run_file(argv[8], run_archive_text_case);
    run_file(argv[9], run_archive_block_case);
    run_null();
    run_range_null();
    run_choice_null();
    run_archive_null();
    report("edition", "", wallcheck_edition() == EDITION);
    if (different > 0) {
        fprintf(stderr, "c: %ld cases differ\n", different);
        return 1;
    }
    printf("c: %ld cases agree\n", agreed);
    return 0;
}
