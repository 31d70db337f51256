/* What is asked of the two tables, answered in plain C, whichever way they are filled. */
#include "plain.h"
#include "tables.h"

static void fill_intervals(filling way, const byte_number *bytes, const struct sheet *sheet, cell_number *cells, place_number lines)
{
    if (way == IN_BLOCKS)
        fill_by_interval_in_blocks(bytes, sheet, cells, lines);
    else
        fill_by_interval(bytes, sheet, cells, 0, lines);
}

static void fill_amounts(filling way, const byte_number *bytes, const struct sheet *sheet, cell_number *cells, place_number lines)
{
    if (way == IN_BLOCKS)
        fill_by_amount_in_blocks(bytes, sheet, cells, lines);
    else
        fill_by_amount(bytes, sheet, cells, 0, lines);
}

static cell_number largest(const cell_number *line, place_number n)
{
    cell_number most = 0;
    for (place_number k = 0; k < n; k++)
        if (most < line[k])
            most = line[k];
    return most;
}

signed_number plain_margin(filling way, const byte_number *bytes, place_number t, cell_number *cells)
{
    struct sheet sheet;
    read_sheet(bytes, &sheet);
    fill_intervals(way, bytes, &sheet, cells, t + 1);
    signed_number left = (signed_number)t - largest(&cells[t * sheet.rows], sheet.rows);
    for (place_number i = 0; i < sheet.tasks; i++) {
        const struct task *task = &sheet.task[i];
        place_number until = t + task->jitter;
        if (task->deadline <= until)
            left -= (signed_number)task->length * (signed_number)(1 + (until - task->deadline) / task->period);
    }
    return left;
}

/* What falls due at t of the fixed tasks; a task whose job does so waits for its next one. */
static place_number due_at(const struct sheet *sheet, place_number *dues, place_number t)
{
    place_number work = 0;
    for (place_number i = 0; i < sheet->tasks; i++) {
        if (dues[i] == t) {
            work += sheet->task[i].length;
            dues[i] = t + sheet->task[i].period;
        }
    }
    return work;
}

place_number plain_tightest(filling way, const byte_number *bytes, place_number horizon, cell_number *cells)
{
    struct sheet sheet;
    place_number dues[TASKS], fixed = 0, least = horizon + 1, at = 0;
    read_sheet(bytes, &sheet);
    fill_intervals(way, bytes, &sheet, cells, horizon + 1);
    for (place_number i = 0; i < sheet.tasks; i++)
        dues[i] = sheet.task[i].deadline - sheet.task[i].jitter;
    for (place_number t = 1; t <= horizon; t++) {
        fixed += due_at(&sheet, dues, t);
        place_number used = largest(&cells[t * sheet.rows], sheet.rows) + fixed;
        if (t < used)
            return 0;
        if (t - used < least) {
            least = t - used;
            at = t;
        }
    }
    return at;
}

cell_number plain_shortest(filling way, const byte_number *bytes, place_number amount, cell_number *cells)
{
    struct sheet sheet;
    read_sheet(bytes, &sheet);
    fill_amounts(way, bytes, &sheet, cells, amount);
    cell_number soonest = NO_TIME;
    for (place_number k = 0; k < sheet.rows; k++)
        if (cells[(amount - 1) * sheet.rows + k] < soonest)
            soonest = cells[(amount - 1) * sheet.rows + k];
    return soonest;
}
