/* How columns are filled, compared and handed to the writer. */
#include "columns.h"

#include <string.h>

void clear_columns(columns *given)
{
    given->label_size = 0;
    given->boundaries.count = given->lengths.count = given->fallbacks.count = 0;
    given->speeds.count = given->deadlines.count = given->follower_count = given->gaps.count = 0;
    given->task_lengths.count = given->task_periods.count = given->task_deadlines.count = given->task_jitters.count = 0;
}

bool add_value(column *to, uint64_t value)
{
    if (to->count == MOST_GAPS || UINT16_MAX < value)
        return false;
    to->values[to->count++] = (uint16_t)value;
    return true;
}

bool add_followers(columns *to, uint64_t followers)
{
    if (to->follower_count == MOST_IN_COLUMN)
        return false;
    to->followers[to->follower_count++] = followers;
    return true;
}

static void read_label(columns *told, const uint8_t *sheet, size_t size)
{
    marnipode_label_answer label = marnipode_label(sheet, size);
    told->label_size = label.size;
    memcpy(told->label, sheet + label.start, label.size);
}

/* Of a row's gaps, that to each row is asked for; it is 0 where that row may not follow. */
static void read_row(columns *told, const uint8_t *sheet, size_t size, size_t number, size_t rows)
{
    marnipode_row_answer row = marnipode_row(sheet, size, number);
    add_value(&told->speeds, row.speed);
    add_value(&told->deadlines, row.deadline);
    add_followers(told, row.followers);
    for (size_t to = 0; to < rows; to++) {
        uint16_t gap = marnipode_gap(sheet, size, number, to);
        if (gap != 0)
            add_value(&told->gaps, gap);
    }
}

void read_columns(columns *told, const uint8_t *sheet, size_t size)
{
    marnipode_judge_answer judged = marnipode_judge(sheet, size);
    clear_columns(told);
    if (judged.number != 0)
        return;
    read_label(told, sheet, size);
    for (size_t i = 0; i < judged.modes; i++) {
        marnipode_mode_answer mode = marnipode_mode(sheet, size, i);
        add_value(&told->boundaries, mode.boundary);
        add_value(&told->lengths, mode.length);
        add_value(&told->fallbacks, mode.fallback);
    }
    for (size_t i = 0; i < judged.rows; i++)
        read_row(told, sheet, size, i, judged.rows);
    for (size_t i = 0; i < judged.tasks; i++) {
        marnipode_task_answer task = marnipode_task(sheet, size, i);
        add_value(&told->task_lengths, task.length);
        add_value(&told->task_periods, task.period);
        add_value(&told->task_deadlines, task.deadline);
        add_value(&told->task_jitters, task.jitter);
    }
}

static bool is_same_column(const column *first, const column *second)
{
    return first->count == second->count && memcmp(first->values, second->values, first->count * sizeof first->values[0]) == 0;
}

bool are_same(const columns *first, const columns *second)
{
    return first->label_size == second->label_size && memcmp(first->label, second->label, first->label_size) == 0 &&
           is_same_column(&first->boundaries, &second->boundaries) && is_same_column(&first->lengths, &second->lengths) &&
           is_same_column(&first->fallbacks, &second->fallbacks) && is_same_column(&first->speeds, &second->speeds) &&
           is_same_column(&first->deadlines, &second->deadlines) && first->follower_count == second->follower_count &&
           memcmp(first->followers, second->followers, first->follower_count * sizeof first->followers[0]) == 0 &&
           is_same_column(&first->gaps, &second->gaps) && is_same_column(&first->task_lengths, &second->task_lengths) &&
           is_same_column(&first->task_periods, &second->task_periods) &&
           is_same_column(&first->task_deadlines, &second->task_deadlines) &&
           is_same_column(&first->task_jitters, &second->task_jitters);
}

bool are_even(const columns *given)
{
    return given->boundaries.count == given->lengths.count && given->boundaries.count == given->fallbacks.count &&
           given->speeds.count == given->deadlines.count && given->speeds.count == given->follower_count &&
           given->task_lengths.count == given->task_periods.count && given->task_lengths.count == given->task_deadlines.count &&
           given->task_lengths.count == given->task_jitters.count;
}

marnipode_write_answer write_columns(const columns *given, uint8_t *output, size_t size)
{
    return marnipode_write_columns(
        given->label, given->label_size, given->boundaries.values, given->boundaries.count, given->lengths.values,
        given->lengths.count, given->fallbacks.values, given->fallbacks.count, given->speeds.values, given->speeds.count,
        given->deadlines.values, given->deadlines.count, given->followers, given->follower_count, given->gaps.values,
        given->gaps.count, given->task_lengths.values, given->task_lengths.count, given->task_periods.values,
        given->task_periods.count, given->task_deadlines.values, given->task_deadlines.count, given->task_jitters.values,
        given->task_jitters.count, output, size);
}

marnipode_write_answer write_struct(const columns *given, uint8_t *output, size_t size)
{
    const marnipode_values values = {
        .label = given->label,
        .label_size = given->label_size,
        .boundaries = given->boundaries.values,
        .lengths = given->lengths.values,
        .fallbacks = given->fallbacks.values,
        .modes = given->boundaries.count,
        .speeds = given->speeds.values,
        .deadlines = given->deadlines.values,
        .followers = given->followers,
        .rows = given->speeds.count,
        .gaps = given->gaps.values,
        .gap_count = given->gaps.count,
        .task_lengths = given->task_lengths.values,
        .task_periods = given->task_periods.values,
        .task_deadlines = given->task_deadlines.values,
        .task_jitters = given->task_jitters.values,
        .tasks = given->task_lengths.count,
    };
    return marnipode_write(&values, output, size);
}
