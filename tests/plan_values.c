/* The values of a plan in columns, as the writer is given them. */
#include "plans.h"

static void fill_row(const plan *made, unsigned row, columns *given)
{
    uint64_t set = 0;
    for (unsigned i = 0; i < MOST_ROWS; i++) {
        if (made->gaps[row][i] == 0)
            continue;
        set |= UINT64_C(1) << i;
        add_value(&given->gaps, made->gaps[row][i]);
    }
    add_value(&given->speeds, made->speeds[row]);
    add_value(&given->deadlines, made->deadlines[row]);
    add_followers(given, set);
}

void fill_columns(const plan *made, columns *given)
{
    clear_columns(given);
    given->label[0] = 'A';
    given->label_size = 1;
    for (unsigned i = 0; i < MOST_ROWS; i++) {
        add_value(&given->boundaries, boundary_of(i));
        add_value(&given->lengths, made->mode_lengths[i]);
        add_value(&given->fallbacks, made->fallbacks[i]);
    }
    for (unsigned i = 0; i < made->rows; i++)
        fill_row(made, i, given);
    for (unsigned i = 0; i < made->tasks; i++) {
        add_value(&given->task_lengths, fixed_tasks[i].length);
        add_value(&given->task_periods, fixed_tasks[i].period);
        add_value(&given->task_deadlines, fixed_tasks[i].deadline);
        add_value(&given->task_jitters, made->jitters[i]);
    }
}
