/* The bytes of a plan's file, as docs/FORMAT.md lays them out. */
#include "fields.h"
#include "plans.h"

static uint8_t *put_word(uint8_t *at, unsigned number)
{
    at[0] = (uint8_t)(number / 256);
    at[1] = (uint8_t)(number % 256);
    return at + 2;
}

static uint8_t *put_header(uint8_t *at, uint8_t tag, unsigned size)
{
    *at = tag;
    return put_word(at + 1, size);
}

/* A fall-back stands in the field only where it is not the boundary, as the writer has it. */
static uint8_t *put_modes(uint8_t *at, const plan *made)
{
    for (unsigned i = 0; i < MOST_ROWS; i++) {
        bool has_band = made->fallbacks[i] != boundary_of(i);
        at = put_header(at, MODE_TAG, has_band ? 6 : 4);
        at = put_word(at, boundary_of(i));
        at = put_word(at, made->mode_lengths[i]);
        if (has_band)
            at = put_word(at, made->fallbacks[i]);
    }
    return at;
}

static uint8_t *put_gaps(uint8_t *at, const unsigned *gaps)
{
    for (unsigned i = 0; i < MOST_ROWS; i++)
        if (gaps[i] != 0)
            at = put_word(at, gaps[i]);
    return at;
}

static uint8_t *put_row(uint8_t *at, const plan *made, unsigned row)
{
    const unsigned *gaps = made->gaps[row];
    unsigned followers = 0, set = 0;
    for (unsigned i = 0; i < MOST_ROWS; i++) {
        followers += gaps[i] != 0;
        set |= (unsigned)(gaps[i] != 0) << i;
    }
    at = put_header(at, ROW_TAG, 8 + 2 * followers);
    at = put_word(at, made->speeds[row]);
    at = put_word(at, made->deadlines[row]);
    at = put_word(at, 0);
    at = put_word(at, set);
    return put_gaps(at, gaps);
}

/* A jitter stands in the field only where it is not 0, likewise. */
static uint8_t *put_tasks(uint8_t *at, const plan *made)
{
    for (unsigned i = 0; i < made->tasks; i++) {
        at = put_header(at, TASK_TAG, made->jitters[i] == 0 ? 6 : 8);
        at = put_word(at, fixed_tasks[i].length);
        at = put_word(at, fixed_tasks[i].period);
        at = put_word(at, fixed_tasks[i].deadline);
        if (made->jitters[i] != 0)
            at = put_word(at, made->jitters[i]);
    }
    return at;
}

size_t write_plan(const plan *made, uint8_t *bytes)
{
    uint8_t *at = put_header(bytes, LABEL_TAG, 1);
    *at++ = 'A';
    at = put_modes(at, made);
    for (unsigned i = 0; i < made->rows; i++)
        at = put_row(at, made, i);
    at = put_tasks(at, made);
    at = put_header(at, END_TAG, 0);
    return (size_t)(at - bytes);
}
