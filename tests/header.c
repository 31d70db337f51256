/* Holds the library to what the header says by itself: the limits, null pointers for no elements, what stands for no time. */
#include <stdbool.h>
#include <stdio.h>
#include <stdlib.h>
#include <string.h>

#include "marnipode.h"
#include "score.h"

/* A sheet as it is written: each row has the same deadline, 1, and follows itself after 1; all times are 1. */
typedef struct {
    size_t label;
    size_t modes;
    size_t rows;
    size_t tasks;
    unsigned top_speed;
} outline;

static uint8_t sheet[4096];
static size_t size;

static score counted;

static void compare(const char *what, bool is_right)
{
    counted.compared++;
    if (is_right)
        return;
    counted.wrong++;
    printf("%s is not as the header says\n", what);
}

static void write_bytes(const uint8_t *bytes, size_t count)
{
    memcpy(sheet + size, bytes, count);
    size += count;
}

/* Speeds end at the top speed and rise by one. */
static unsigned speed_of(const outline *made, size_t number, size_t count)
{
    return made->top_speed - (unsigned)(count - 1 - number);
}

static void write_outline(const outline *made)
{
    size = 0;
    write_bytes((uint8_t[]){MARNIPODE_LABEL, 0, (uint8_t)made->label}, 3);
    memset(sheet + size, 'L', made->label);
    size += made->label;
    for (size_t i = 0; i < made->modes; i++) {
        unsigned speed = speed_of(made, i, made->modes);
        write_bytes((uint8_t[]){MARNIPODE_MODE, 0, 4, (uint8_t)(speed >> 8), (uint8_t)speed, 0, 1}, 7);
    }
    for (size_t i = 0; i < made->rows; i++) {
        unsigned speed = speed_of(made, i, made->rows);
        uint32_t itself = i < 32 ? UINT32_C(1) << i : 1;
        write_bytes((uint8_t[]){MARNIPODE_ROW, 0, 10, (uint8_t)(speed >> 8), (uint8_t)speed, 0, 1}, 7);
        write_bytes((uint8_t[]){(uint8_t)(itself >> 24), (uint8_t)(itself >> 16), (uint8_t)(itself >> 8), (uint8_t)itself, 0, 1}, 6);
    }
    for (size_t i = 0; i < made->tasks; i++)
        write_bytes((uint8_t[]){MARNIPODE_TASK, 0, 6, 0, 1, 0, 1, 0, 1}, 9);
    write_bytes((uint8_t[]){MARNIPODE_END, 0, 0}, 3);
}

static void compare_refusal(const char *what, outline made, unsigned number)
{
    write_outline(&made);
    compare(what, marnipode_judge(sheet, size).number == number);
}

static void compare_limits(void)
{
    const outline full = {MARNIPODE_LONGEST_LABEL, MARNIPODE_MOST_MODES, MARNIPODE_MOST_ROWS, MARNIPODE_MOST_TASKS,
                          MARNIPODE_HIGHEST_SPEED};
    write_outline(&full);
    marnipode_judge_answer judged = marnipode_judge(sheet, size);
    compare("the largest sheet", judged.number == 0 && judged.place == 0 && judged.modes == full.modes &&
                                     judged.rows == full.rows && judged.tasks == full.tasks);
    compare("the longest label", marnipode_label(sheet, size).size == MARNIPODE_LONGEST_LABEL);

    outline more = full;
    more.label++;
    compare_refusal("a longer label", more, MARNIPODE_REFUSED_WRONG_LENGTH);
    more = full;
    more.modes++;
    compare_refusal("a mode too many", more, MARNIPODE_REFUSED_TOO_MANY);
    more = full;
    more.rows++;
    compare_refusal("a row too many", more, MARNIPODE_REFUSED_TOO_MANY);
    more = full;
    more.tasks++;
    compare_refusal("a task too many", more, MARNIPODE_REFUSED_TOO_MANY);
    more = full;
    more.top_speed++;
    compare_refusal("a higher speed", more, MARNIPODE_REFUSED_OUT_OF_RANGE);
}

/* One row that nothing keeps from following itself, so that the demand at an interval is that interval. */
static void compare_questions(uint32_t *cells)
{
    const size_t count = (size_t)MARNIPODE_LONGEST_TIME + 1;
    write_outline(&(outline){1, 1, 1, 0, 1});
    marnipode_demand_answer demand = marnipode_demand(sheet, size, 5, cells, count, NULL, 0);
    compare("a null witness area", demand.number == MARNIPODE_REFUSED_SHORT_WITNESS_AREA && demand.place == 0);
    compare("the largest cell of a line", cells[5] == 5);
    demand = marnipode_demand(sheet, size, 0, cells, 1, NULL, 0);
    compare("a null witness area for no rows", demand.number == 0 && demand.amount == 0 && demand.count == 0);
    compare("the longest interval", marnipode_margin(sheet, size, MARNIPODE_LONGEST_TIME, cells, count).number == 0);
    compare("a longer interval", marnipode_margin(sheet, size, count, cells, count).number == MARNIPODE_REFUSED_QUESTION);
    compare("few cells", marnipode_margin(sheet, size, 1, cells, 1).number == MARNIPODE_REFUSED_FEW_CELLS);
    compare("null cells", marnipode_margin(sheet, size, 0, NULL, 0).number == MARNIPODE_REFUSED_FEW_CELLS);

    marnipode_shortest_answer shortest = marnipode_shortest(sheet, size, MARNIPODE_LARGEST_AMOUNT, cells, count);
    compare("the largest amount", shortest.number == MARNIPODE_REFUSED_NEVER_REACHED && shortest.time == 0);
    compare("a cell without a time", cells[MARNIPODE_LARGEST_AMOUNT - 1] == MARNIPODE_NO_TIME);
    compare("a cell with the longest time", cells[MARNIPODE_LARGEST_AMOUNT - 2] == MARNIPODE_LONGEST_TIME);
    shortest = marnipode_shortest(sheet, size, (uint64_t)MARNIPODE_LARGEST_AMOUNT + 1, cells, count);
    compare("a larger amount", shortest.number == MARNIPODE_REFUSED_QUESTION);
}

/* How many of an answer's demands are as given. */
static size_t demands_of(const marnipode_explain_answer *answer, uint64_t given)
{
    size_t count = 0;
    for (size_t i = 0; i < MARNIPODE_MOST_TASKS; i++)
        count += answer->demands[i] == given;
    return count;
}

/* The same row alone leaves nothing of any interval; beside fixed tasks it overruns interval 1. */
static void compare_explanations(uint32_t *cells)
{
    const size_t count = (size_t)MARNIPODE_LONGEST_TIME + 1;
    uint8_t row = 1;
    write_outline(&(outline){1, 1, 1, 0, 1});
    marnipode_explain_answer why = marnipode_explain(sheet, size, MARNIPODE_LONGEST_TIME, cells, count, NULL, 0);
    compare("the longest horizon", why.number == 0 && why.overrun == 0 && why.cause == MARNIPODE_CAUSE_NONE);
    compare("the earliest interval", why.margin == 0 && why.interval == 1);
    why = marnipode_explain(sheet, size, 0, cells, 1, NULL, 0);
    compare("a horizon without an interval", why.number == 0 && why.margin == 0 && why.interval == 0);
    compare("a longer horizon", marnipode_explain(sheet, size, count, cells, count, NULL, 0).number == MARNIPODE_REFUSED_QUESTION);
    compare("null cells of explain", marnipode_explain(sheet, size, 0, NULL, 0, NULL, 0).number == MARNIPODE_REFUSED_FEW_CELLS);

    write_outline(&(outline){1, 1, 1, 1, 1});
    why = marnipode_explain(sheet, size, 1, cells, 2, NULL, 0);
    compare("a null witness area at an overrun", why.number == MARNIPODE_REFUSED_SHORT_WITNESS_AREA && why.overrun == 0);
    why = marnipode_explain(sheet, size, 1, cells, 2, &row, 1);
    compare("the cause together", why.number == 0 && why.overrun == 1 && why.cause == MARNIPODE_CAUSE_TOGETHER);
    compare("the witness of an overrun", why.count == 1 && row == 0);
    compare("the demand of the only task", why.demands[0] == 1 && demands_of(&why, 0) == MARNIPODE_MOST_TASKS - 1);

    write_outline(&(outline){1, 1, 1, MARNIPODE_MOST_TASKS, 1});
    why = marnipode_explain(sheet, size, 1, cells, 2, &row, 1);
    compare("the most tasks", why.cause == MARNIPODE_CAUSE_FIXED && demands_of(&why, 1) == MARNIPODE_MOST_TASKS);
    compare("the excess", why.engine == 1 && why.excess == MARNIPODE_MOST_TASKS);
}

/* What is written of the largest sheet, and its follower sets, which are changed to be refused. */
static uint8_t output[MARNIPODE_MOST_WRITTEN];
static uint64_t sets[MARNIPODE_MOST_ROWS];

/*
 * The largest sheet: every row is followed by every row, every mode but the last has a band, and every task a jitter. All times are 1, but
 * for the deadlines of the tasks, which are 2.
 */
static marnipode_values largest_values(void)
{
    static uint16_t ones[MARNIPODE_MOST_ROWS * MARNIPODE_MOST_ROWS], speeds[MARNIPODE_MOST_ROWS], fallbacks[MARNIPODE_MOST_MODES];
    static uint16_t twos[MARNIPODE_MOST_TASKS];
    static uint8_t label[MARNIPODE_LONGEST_LABEL];
    const size_t gaps = sizeof ones / sizeof ones[0];
    const uint16_t *boundaries = speeds + MARNIPODE_MOST_ROWS - MARNIPODE_MOST_MODES;
    memset(label, 'L', sizeof label);
    for (size_t i = 0; i < gaps; i++)
        ones[i] = 1;
    for (size_t i = 0; i < MARNIPODE_MOST_ROWS; i++) {
        speeds[i] = (uint16_t)(i + 1);
        sets[i] = (UINT64_C(1) << MARNIPODE_MOST_ROWS) - 1;
    }
    for (size_t i = 0; i < MARNIPODE_MOST_MODES; i++)
        fallbacks[i] = (uint16_t)(i + 1 < MARNIPODE_MOST_MODES ? boundaries[i] - 1 : boundaries[i]);
    for (size_t i = 0; i < MARNIPODE_MOST_TASKS; i++)
        twos[i] = 2;
    return (marnipode_values){label, sizeof label, boundaries, ones, fallbacks, MARNIPODE_MOST_MODES, speeds, ones, sets,
                              MARNIPODE_MOST_ROWS, ones, gaps, ones, ones, twos, ones, MARNIPODE_MOST_TASKS};
}

/* A mode whose fall-back is its boundary is 2 bytes shorter. */
static void compare_fallbacks(void)
{
    marnipode_values values = largest_values();
    marnipode_write(&values, output, sizeof output);
    compare("a band, read", marnipode_mode(output, sizeof output, 0).fallback == values.fallbacks[0] &&
                                values.fallbacks[0] < values.boundaries[0]);
    values.fallbacks = values.boundaries;
    marnipode_write_answer written = marnipode_write(&values, output, sizeof output);
    compare("one column for both", written.number == 0 && written.size == MARNIPODE_MOST_WRITTEN - 2 * (MARNIPODE_MOST_MODES - 1));
    compare("no band, read", marnipode_mode(output, written.size, 0).fallback == values.boundaries[0]);
}

/* A task whose jitter is 0 is 2 bytes shorter. */
static void compare_jitters(void)
{
    static const uint16_t zeros[MARNIPODE_MOST_TASKS];
    marnipode_values values = largest_values();
    marnipode_write(&values, output, sizeof output);
    compare("a jitter, read", marnipode_task(output, sizeof output, 0).jitter == 1);
    values.task_jitters = zeros;
    marnipode_write_answer written = marnipode_write(&values, output, sizeof output);
    compare("a column of zeros", written.number == 0 && written.size == MARNIPODE_MOST_WRITTEN - 2 * MARNIPODE_MOST_TASKS);
    marnipode_task_answer task = marnipode_task(output, written.size, 0);
    compare("no jitter, read", task.deadline == 2 && task.jitter == 0);
    values.task_jitters = values.task_deadlines;
    compare("a jitter that is the deadline", marnipode_write(&values, output, sizeof output).number == MARNIPODE_REFUSED_OUT_OF_RANGE);
}

static void compare_writing(void)
{
    marnipode_values values = largest_values();
    marnipode_write_answer written = marnipode_write(&values, output, sizeof output);
    compare("the largest written sheet", written.number == 0 && written.place == 0 && written.size == MARNIPODE_MOST_WRITTEN);
    compare("the largest sheet, read", marnipode_judge(output, written.size).rows == MARNIPODE_MOST_ROWS);
    written = marnipode_write(&values, output, sizeof output - 1);
    compare("a short output", written.number == MARNIPODE_REFUSED_SHORT_OUTPUT && written.place == 0 && written.size == 0);
    compare("a null output", marnipode_write(&values, NULL, 0).number == MARNIPODE_REFUSED_SHORT_OUTPUT);
    sets[0] |= UINT64_C(1) << 63;
    compare("a gap too few", marnipode_write(&values, output, sizeof output).number == MARNIPODE_REFUSED_WRONG_LENGTH);
    sets[0] ^= UINT64_C(1);
    compare("the row of the highest bit", marnipode_write(&values, output, sizeof output).number == MARNIPODE_REFUSED_UNKNOWN_FOLLOWER);
    values = (marnipode_values){0};
    compare("null columns", marnipode_write(&values, output, sizeof output).number == MARNIPODE_REFUSED_WRONG_LENGTH);
}

/* Values by number are 0 past the last one. */
static void compare_values(void)
{
    write_outline(&(outline){1, 1, 1, 1, 1});
    compare("the values of a sheet", marnipode_mode(sheet, size, 0).boundary == 1 && marnipode_row(sheet, size, 0).followers == 1 &&
                                         marnipode_gap(sheet, size, 0, 0) == 1 && marnipode_task(sheet, size, 0).period == 1);
    compare("a mode without a band", marnipode_mode(sheet, size, 0).fallback == 1);
    compare("a mode past the last", marnipode_mode(sheet, size, 1).boundary == 0 && marnipode_mode(sheet, size, SIZE_MAX).length == 0 &&
                                        marnipode_mode(sheet, size, 1).fallback == 0);
    compare("a row past the last", marnipode_row(sheet, size, 1).speed == 0 && marnipode_row(sheet, size, SIZE_MAX).length == 0);
    compare("a gap past the last", marnipode_gap(sheet, size, 0, 1) == 0 && marnipode_gap(sheet, size, SIZE_MAX, SIZE_MAX) == 0);
    compare("a task without a jitter", marnipode_task(sheet, size, 0).jitter == 0);
    compare("a task past the last", marnipode_task(sheet, size, 1).length == 0 && marnipode_task(sheet, size, SIZE_MAX).period == 0 &&
                                        marnipode_task(sheet, size, 1).jitter == 0);
}

/* No bytes at all are a sheet that is cut off. */
static void compare_no_sheet(void)
{
    marnipode_judge_answer judged = marnipode_judge(NULL, 0);
    compare("a null sheet", judged.number == MARNIPODE_REFUSED_CUT_OFF && judged.place == 0 && judged.rows == 0);
    marnipode_label_answer label = marnipode_label(NULL, 0);
    compare("the label of a null sheet", label.start == 0 && label.size == 0);
    compare("the values of a null sheet", marnipode_mode(NULL, 0, 0).boundary == 0 && marnipode_row(NULL, 0, 0).speed == 0 &&
                                              marnipode_gap(NULL, 0, 0, 0) == 0 && marnipode_task(NULL, 0, 0).length == 0);
    marnipode_field_answer field = marnipode_field_at(NULL, 0, 7);
    compare("a field of a null sheet",
            field.number == MARNIPODE_REFUSED_CUT_OFF && field.place == 7 && field.kind == MARNIPODE_NO_FIELD);
    compare("demand of a null sheet", marnipode_demand(NULL, 0, 1, NULL, 0, NULL, 0).number == MARNIPODE_REFUSED_CUT_OFF);
    compare("margin of a null sheet", marnipode_margin(NULL, 0, 1, NULL, 0).number == MARNIPODE_REFUSED_CUT_OFF);
    compare("shortest of a null sheet", marnipode_shortest(NULL, 0, 1, NULL, 0).number == MARNIPODE_REFUSED_CUT_OFF);
    compare("explain of a null sheet", marnipode_explain(NULL, 0, 1, NULL, 0, NULL, 0).number == MARNIPODE_REFUSED_CUT_OFF);
    compare("a verdict of a null sheet",
            marnipode_verdict_by_interval(NULL, 0, 1, NULL, 0).number == MARNIPODE_REFUSED_CUT_OFF &&
                marnipode_verdict_by_amount(NULL, 0, 1, NULL, 0).number == MARNIPODE_REFUSED_CUT_OFF);
}

int main(void)
{
    static uint32_t cells[MARNIPODE_LONGEST_TIME + 1];
    compare_limits();
    compare_questions(cells);
    compare_explanations(cells);
    compare_writing();
    compare_fallbacks();
    compare_jitters();
    compare_values();
    compare_no_sheet();
    print_score("header in all", 13, counted);
    return counted.wrong == 0 ? EXIT_SUCCESS : EXIT_FAILURE;
}
