/*
 * The two tables in plain C again, now as the library fills them: eight lines at once, row by row, so that a gap is read once for
 * eight cells. No cell of such lines needs another one of them where no deadline, or no job length, is below eight, since a gap
 * is no shorter than the deadline. On other sheets, and for what is left over, the lines are filled one by one.
 */
#include "tables.h"

enum { BLOCK = 8 };

/* Raises the most that is added in each of eight lines to what a follower adds, whose cells stand n apart. */
static inline void raise_most(cell_number *most, const cell_number *adds, place_number n)
{
    for (place_number i = 0; i < BLOCK; i++) {
        cell_number added = adds[i * n];
        most[i] = most[i] < added ? added : most[i];
    }
}

/* A gap that leads before the first line of the table from some of the eight adds nothing: no row is due in the lines that it reaches. */
static inline void most_added(const byte_number *bytes, const cell_number *cells, const struct row *row, place_number n,
                              place_number s, cell_number *most)
{
    place_number place = row->gaps;
    for (set_number rest = row->followers; rest != 0; rest &= rest - 1) {
        place_number gap = word(bytes, place);
        if (gap <= s)
            raise_most(most, &cells[(s - gap) * n + (place_number)__builtin_ctzll(rest)], n);
        place += GAP_SIZE;
    }
}

/* The cells of one row in eight lines from s on. */
static void fill_block_by_interval(const byte_number *bytes, const struct row *row, cell_number *cells, place_number n,
                                   place_number s, place_number k)
{
    cell_number most[BLOCK] = {0};
    cell_number deadline = row->deadline, length = row->length;
    most_added(bytes, cells, row, n, s, most);
    for (place_number i = 0; i < BLOCK; i++)
        cells[(s + i) * n + k] = s + i < deadline ? 0 : length + most[i];
}

/* How many of so many lines are filled eight at once: none where the shortest time of a row is below eight. */
static place_number lines_in_blocks(cell_number shortest, place_number lines)
{
    return shortest < BLOCK ? 0 : lines - lines % BLOCK;
}

void fill_by_interval_in_blocks(const byte_number *bytes, const struct sheet *sheet, cell_number *cells, place_number lines)
{
    place_number n = sheet->rows;
    cell_number shortest = LONGEST_TIME;
    for (place_number k = 0; k < n; k++)
        shortest = sheet->row[k].deadline < shortest ? sheet->row[k].deadline : shortest;
    place_number in_blocks = lines_in_blocks(shortest, lines);
    for (place_number s = 0; s < in_blocks; s += BLOCK)
        for (place_number k = 0; k < n; k++)
            fill_block_by_interval(bytes, &sheet->row[k], cells, n, s, k);
    fill_by_interval(bytes, sheet, cells, in_blocks, lines);
}

/* A gap and the time after it together, or none where that is beyond the longest. */
static inline cell_number time_via(cell_number gap, cell_number after)
{
    return after <= LONGEST_TIME - gap ? gap + after : NO_TIME;
}

/* Lowers the soonest end time of each of eight lines to that by way of a follower, whose cells stand n apart. */
static inline void lower_soonest(cell_number *soonest, const cell_number *afters, place_number n, cell_number gap)
{
    for (place_number i = 0; i < BLOCK; i++) {
        cell_number time = time_via(gap, afters[i * n]);
        soonest[i] = time < soonest[i] ? time : soonest[i];
    }
}

/* The soonest end times by way of a follower, in eight lines from the one on that lacks the row's job. */
static inline void soonest_via(const byte_number *bytes, const cell_number *cells, const struct row *row, place_number n,
                               place_number line, cell_number *soonest)
{
    place_number place = row->gaps;
    for (set_number rest = row->followers; rest != 0; rest &= rest - 1) {
        lower_soonest(soonest, &cells[line * n + (place_number)__builtin_ctzll(rest)], n, word(bytes, place));
        place += GAP_SIZE;
    }
}

/* The cells of one row in eight lines, of which none is below the job length. */
static void fill_block_by_amount(const byte_number *bytes, const struct row *row, cell_number *cells, place_number n,
                                 place_number line, place_number k)
{
    cell_number soonest[BLOCK];
    for (place_number i = 0; i < BLOCK; i++)
        soonest[i] = NO_TIME;
    soonest_via(bytes, cells, row, n, line - row->length, soonest);
    for (place_number i = 0; i < BLOCK; i++)
        cells[(line + i) * n + k] = soonest[i];
}

/* The same where the first lines are below the job length: these are few, and are filled cell by cell. */
static void fill_first_block_by_amount(const byte_number *bytes, const struct row *row, cell_number *cells, place_number n,
                                       place_number line, place_number k)
{
    for (place_number i = 0; i < BLOCK; i++)
        cells[(line + i) * n + k] = cell_by_amount(bytes, cells, row, n, line + i);
}

void fill_by_amount_in_blocks(const byte_number *bytes, const struct sheet *sheet, cell_number *cells, place_number lines)
{
    place_number n = sheet->rows;
    cell_number shortest = LONGEST_TIME;
    for (place_number k = 0; k < n; k++)
        shortest = sheet->row[k].length < shortest ? sheet->row[k].length : shortest;
    place_number in_blocks = lines_in_blocks(shortest, lines);
    for (place_number line = 0; line < in_blocks; line += BLOCK) {
        for (place_number k = 0; k < n; k++) {
            const struct row *row = &sheet->row[k];
            if (row->length <= line)
                fill_block_by_amount(bytes, row, cells, n, line, k);
            else
                fill_first_block_by_amount(bytes, row, cells, n, line, k);
        }
    }
    fill_by_amount(bytes, sheet, cells, in_blocks, lines);
}
