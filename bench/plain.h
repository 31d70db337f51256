/* The calls that are measured, in plain C, with nothing proved. A sheet that is read is trusted; values that are written are judged. */
#ifndef PLAIN_H
#define PLAIN_H

#include "numbers.h"

/* The values of a sheet in the same columns as marnipode_values, which comes with headers of the machine and cannot be had here. */
typedef struct {
    const byte_number *label;
    place_number label_size;
    const column_number *boundaries;
    const column_number *lengths;
    const column_number *fallbacks;
    place_number modes;
    const column_number *speeds;
    const column_number *deadlines;
    const set_number *followers;
    place_number rows;
    const column_number *gaps;
    place_number gap_count;
    const column_number *task_lengths;
    const column_number *task_periods;
    const column_number *task_deadlines;
    const column_number *task_jitters;
    place_number tasks;
} plain_values;

/* How many bytes a written sheet has, or the number of the refusal; the other is 0. */
typedef struct {
    byte_number number;
    place_number size;
} plain_write_answer;

/* How the tables are filled: line by line, or eight lines at once where the sheet allows it. */
typedef enum { BY_LINES, IN_BLOCKS } filling;

/* The margin at t, after the table by interval is filled up to it. */
signed_number plain_margin(filling way, const byte_number *bytes, place_number t, cell_number *cells);

/* The earliest interval with the smallest margin up to a horizon, after the table by interval is filled up to it; 0 where one is overrun. */
place_number plain_tightest(filling way, const byte_number *bytes, place_number horizon, cell_number *cells);

/* The shortest interval for an amount, after the table by amount is filled up to it. */
cell_number plain_shortest(filling way, const byte_number *bytes, place_number amount, cell_number *cells);

/* Judges values as the reader would judge their sheet, and writes it at the front of the output; a refusal writes nothing. */
plain_write_answer plain_write(const plain_values *values, byte_number *output, place_number output_size);

#endif
