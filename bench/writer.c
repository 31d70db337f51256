/* A writer in plain C for the same values, by the same rules as the library's, with loops of its own. */
#include "plain.h"
#include "sheet.h"

enum { LONGEST_LABEL = 32, HIGHEST_SPEED = 20000 };

/* Why values are refused. */
enum {
    OUT_OF_ORDER = 3,
    WRONG_LENGTH = 5,
    TOO_MANY = 6,
    OUT_OF_RANGE = 7,
    NOT_RISING = 8,
    UNKNOWN_FOLLOWER = 9,
    SHORT_GAP = 10,
    SHORT_OUTPUT = 15
};

static byte_number judge_label(const plain_values *values)
{
    if (values->label_size == 0 || LONGEST_LABEL < values->label_size)
        return WRONG_LENGTH;
    for (place_number i = 0; i < values->label_size; i++)
        if (values->label[i] < 0x20 || 0x7E < values->label[i])
            return OUT_OF_RANGE;
    return 0;
}

static int is_speed(column_number speed)
{
    return 0 < speed && speed <= HIGHEST_SPEED;
}

/* A mode without a band has its boundary as fall-back, and a shorter field, where nothing is said about it. */
static int has_band(const plain_values *values, place_number i)
{
    return values->fallbacks[i] != values->boundaries[i];
}

static int is_fallback(column_number fallback, column_number last, column_number boundary)
{
    return 0 < fallback && last <= fallback && fallback <= boundary;
}

static byte_number judge_modes(const plain_values *values)
{
    column_number last = 0;
    for (place_number i = 0; i < values->modes; i++) {
        column_number boundary = values->boundaries[i];
        if (i == MODES)
            return TOO_MANY;
        if (!is_speed(boundary) || values->lengths[i] == 0)
            return OUT_OF_RANGE;
        if (has_band(values, i) && !is_fallback(values->fallbacks[i], last, boundary))
            return OUT_OF_RANGE;
        if (boundary <= last)
            return NOT_RISING;
        last = boundary;
    }
    return values->modes == 0 ? OUT_OF_ORDER : 0;
}

/* The shortest of a row's gaps tells whether one is 0 and whether one is below the deadline. */
static column_number shortest_gap(const column_number *gaps, place_number count)
{
    column_number shortest = LONGEST_TIME;
    for (place_number i = 0; i < count; i++)
        if (gaps[i] < shortest)
            shortest = gaps[i];
    return shortest;
}

/* Which mode is the last is known only at a row. */
static byte_number judge_row(const plain_values *values, place_number k, const column_number *gaps, place_number count)
{
    if (k == ROWS)
        return TOO_MANY;
    column_number speed = values->speeds[k], deadline = values->deadlines[k];
    column_number shortest = shortest_gap(gaps, count);
    if (has_band(values, values->modes - 1) || !is_speed(speed) || deadline == 0 || shortest == 0)
        return OUT_OF_RANGE;
    if (values->boundaries[values->modes - 1] < speed || (0 < k && speed <= values->speeds[k - 1]))
        return NOT_RISING;
    return shortest < deadline ? SHORT_GAP : 0;
}

static place_number size_of_set(set_number set)
{
    return (place_number)__builtin_popcountll(set);
}

static byte_number judge_rows(const plain_values *values)
{
    place_number passed = 0;
    for (place_number k = 0; k < values->rows; k++) {
        place_number count = size_of_set(values->followers[k]);
        if (ROWS < count || values->gap_count - passed < count)
            return WRONG_LENGTH;
        byte_number number = judge_row(values, k, &values->gaps[passed], count);
        if (number != 0)
            return number;
        passed += count;
    }
    if (passed < values->gap_count)
        return WRONG_LENGTH;
    return values->rows == 0 ? OUT_OF_ORDER : 0;
}

/* A jitter is below its deadline, so that no deadline is 0 either. */
static byte_number judge_tasks(const plain_values *values)
{
    for (place_number i = 0; i < values->tasks; i++) {
        if (i == TASKS)
            return TOO_MANY;
        if (values->task_lengths[i] == 0 || values->task_periods[i] == 0 || values->task_deadlines[i] <= values->task_jitters[i])
            return OUT_OF_RANGE;
    }
    return 0;
}

/* Which rows there are is known only at the end. */
static byte_number judge_followers(const plain_values *values)
{
    for (place_number k = 0; k < values->rows; k++)
        if (values->followers[k] >> values->rows != 0)
            return UNKNOWN_FOLLOWER;
    return 0;
}

/* In the order of the file: the first broken rule is the answer. */
static byte_number judge_values(const plain_values *values)
{
    byte_number number = judge_label(values);
    if (number == 0)
        number = judge_modes(values);
    if (number == 0)
        number = judge_rows(values);
    if (number == 0)
        number = judge_tasks(values);
    if (number == 0)
        number = judge_followers(values);
    return number;
}

static place_number size_of_mode(const plain_values *values, place_number i)
{
    return has_band(values, i) ? MODE_SIZE + FALLBACK_SIZE : MODE_SIZE;
}

/* A task without a jitter has a shorter field. */
static int has_jitter(const plain_values *values, place_number i)
{
    return values->task_jitters[i] != 0;
}

static place_number size_of_task(const plain_values *values, place_number i)
{
    return has_jitter(values, i) ? TASK_SIZE + JITTER_SIZE : TASK_SIZE;
}

static place_number size_of_sheet(const plain_values *values)
{
    place_number size = HEAD_SIZE + values->label_size;
    for (place_number i = 0; i < values->modes; i++)
        size += HEAD_SIZE + size_of_mode(values, i);
    for (place_number i = 0; i < values->tasks; i++)
        size += HEAD_SIZE + size_of_task(values, i);
    return size + (HEAD_SIZE + ROW_SIZE) * values->rows + GAP_SIZE * values->gap_count + HEAD_SIZE;
}

/* This and the next ones return the place behind what they put. */
static byte_number *put_word(byte_number *at, place_number number)
{
    at[0] = (byte_number)(number / 256);
    at[1] = (byte_number)(number % 256);
    return at + 2;
}

static byte_number *put_head(byte_number *at, byte_number tag, place_number size)
{
    at[0] = tag;
    return put_word(at + 1, size);
}

static byte_number *put_label(byte_number *at, const plain_values *values)
{
    at = put_head(at, LABEL, values->label_size);
    for (place_number i = 0; i < values->label_size; i++)
        at[i] = values->label[i];
    return at + values->label_size;
}

static byte_number *put_modes(byte_number *at, const plain_values *values)
{
    for (place_number i = 0; i < values->modes; i++) {
        at = put_head(at, MODE, size_of_mode(values, i));
        at = put_word(at, values->boundaries[i]);
        at = put_word(at, values->lengths[i]);
        if (has_band(values, i))
            at = put_word(at, values->fallbacks[i]);
    }
    return at;
}

static byte_number *put_rows(byte_number *at, const plain_values *values)
{
    const column_number *gaps = values->gaps;
    for (place_number k = 0; k < values->rows; k++) {
        set_number followers = values->followers[k];
        place_number count = size_of_set(followers);
        at = put_head(at, ROW, ROW_SIZE + GAP_SIZE * count);
        at = put_word(at, values->speeds[k]);
        at = put_word(at, values->deadlines[k]);
        at = put_word(at, followers / 65536);
        at = put_word(at, followers % 65536);
        for (place_number i = 0; i < count; i++)
            at = put_word(at, gaps[i]);
        gaps += count;
    }
    return at;
}

static byte_number *put_tasks(byte_number *at, const plain_values *values)
{
    for (place_number i = 0; i < values->tasks; i++) {
        at = put_head(at, TASK, size_of_task(values, i));
        at = put_word(at, values->task_lengths[i]);
        at = put_word(at, values->task_periods[i]);
        at = put_word(at, values->task_deadlines[i]);
        if (has_jitter(values, i))
            at = put_word(at, values->task_jitters[i]);
    }
    return at;
}

plain_write_answer plain_write(const plain_values *values, byte_number *output, place_number output_size)
{
    plain_write_answer answer = {judge_values(values), 0};
    if (answer.number != 0)
        return answer;
    if (output_size < size_of_sheet(values)) {
        answer.number = SHORT_OUTPUT;
        return answer;
    }
    byte_number *at = put_label(output, values);
    at = put_modes(at, values);
    at = put_rows(at, values);
    at = put_tasks(at, values);
    at = put_head(at, END, 0);
    answer.size = (place_number)(at - output);
    return answer;
}
