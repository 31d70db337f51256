/*
 * The two tables in plain C, over the same bytes and the same cells as the library's, by the straightforward loops: line by line and
 * row by row over the followers that a set has, gaps read from the bytes.
 */
#include "tables.h"

static cell_number most_added(const byte_number *bytes, const cell_number *cells, const struct row *row, place_number n, place_number s)
{
    cell_number most = 0;
    place_number place = row->gaps;
    for (set_number rest = row->followers; rest != 0; rest &= rest - 1) {
        place_number gap = word(bytes, place);
        if (gap <= s) {
            cell_number added = cells[(s - gap) * n + (place_number)__builtin_ctzll(rest)];
            if (most < added)
                most = added;
        }
        place += GAP_SIZE;
    }
    return most;
}

void fill_by_interval(const byte_number *bytes, const struct sheet *sheet, cell_number *cells, place_number first, place_number lines)
{
    place_number n = sheet->rows;
    for (place_number s = first; s < lines; s++) {
        for (place_number k = 0; k < n; k++) {
            const struct row *row = &sheet->row[k];
            cells[s * n + k] = s < row->deadline ? 0 : row->length + most_added(bytes, cells, row, n, s);
        }
    }
}

static cell_number soonest_via(const byte_number *bytes, const cell_number *cells, const struct row *row, place_number n, place_number line)
{
    cell_number soonest = NO_TIME;
    place_number place = row->gaps;
    for (set_number rest = row->followers; rest != 0; rest &= rest - 1) {
        cell_number gap = word(bytes, place);
        cell_number after = cells[line * n + (place_number)__builtin_ctzll(rest)];
        if (after <= LONGEST_TIME - gap && gap + after < soonest)
            soonest = gap + after;
        place += GAP_SIZE;
    }
    return soonest;
}

cell_number cell_by_amount(const byte_number *bytes, const cell_number *cells, const struct row *row, place_number n, place_number line)
{
    return line < row->length ? row->deadline : soonest_via(bytes, cells, row, n, line - row->length);
}

void fill_by_amount(const byte_number *bytes, const struct sheet *sheet, cell_number *cells, place_number first, place_number lines)
{
    place_number n = sheet->rows;
    for (place_number line = first; line < lines; line++)
        for (place_number k = 0; k < n; k++)
            cells[line * n + k] = cell_by_amount(bytes, cells, &sheet->row[k], n, line);
}
