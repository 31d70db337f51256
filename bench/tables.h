/* The two tables in C, filled in two ways: line by line (plain.c), and eight lines at once (blocked.c). */
#ifndef TABLES_H
#define TABLES_H

#include "sheet.h"

/* What a cell by amount holds where there is no time. */
#define NO_TIME 4294967295u

/* Fill the lines from the first one on, up to so many, after those before it. */
void fill_by_interval(const byte_number *bytes, const struct sheet *sheet, cell_number *cells, place_number first, place_number lines);
void fill_by_amount(const byte_number *bytes, const struct sheet *sheet, cell_number *cells, place_number first, place_number lines);

/* One cell by amount, from the lines before. */
cell_number cell_by_amount(const byte_number *bytes, const cell_number *cells, const struct row *row, place_number n, place_number line);

/* Fill so many lines, eight at once where the sheet allows it, and what is left line by line. */
void fill_by_interval_in_blocks(const byte_number *bytes, const struct sheet *sheet, cell_number *cells, place_number lines);
void fill_by_amount_in_blocks(const byte_number *bytes, const struct sheet *sheet, cell_number *cells, place_number lines);

#endif
