/* Rows as a C program hands them over. The cells are passed by value: gcc copies them by single moves, while rustc and
 * clang copy more than 128 bytes by `rep movsq`, which takes some 10 ns more whatever the library then does. */
#include "wallcheck.h"

wallcheck_result rows_check(const wallcheck_cells *cells)
{
    return wallcheck_row(*cells);
}

wallcheck_result rows_check_into(const wallcheck_cells *cells, uint8_t *out, size_t out_len)
{
    return wallcheck_row_into(*cells, out, out_len);
}

wallcheck_result rows_minimum_load(const wallcheck_cells *cells, double wind)
{
    return wallcheck_minimum_load_row(*cells, wind);
}

wallcheck_result rows_minimum_load_into(const wallcheck_cells *cells, double wind, uint8_t *out, size_t out_len)
{
    return wallcheck_minimum_load_row_into(*cells, wind, out, out_len);
}

wallcheck_range rows_range(const wallcheck_cells *low, const wallcheck_cells *high)
{
    return wallcheck_range_rows(*low, *high);
}
