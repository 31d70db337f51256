/* The words about a sheet's values by number. */
#include "words.h"

/* The numbers that a line says from a word on; as many as are asked for, and no more. */
static bool numbers_said(const line *said, size_t from, uint64_t *numbers, size_t count)
{
    for (size_t i = 0; i < count; i++) {
        if (!number_at(said, from + i, &numbers[i]))
            return false;
    }
    return said->count == from + count;
}

/* Tells of numbers that are not those that the line says. */
static void hold_numbers(trial *now, const uint64_t *got, const uint64_t *must, size_t count)
{
    hold_sheet(now, "a call for a value");
    for (size_t i = 0; i < count; i++) {
        if (got[i] != must[i])
            wrong(now, "expected %llu as number %zu, got %llu", (unsigned long long)must[i], i, (unsigned long long)got[i]);
    }
}

/* `BOUNDARY LENGTH`, or `BOUNDARY LENGTH FALLBACK`: without a fall-back it is the boundary, so that `0 0` is no mode. */
static bool mode_said(const line *said, size_t from, uint64_t *must)
{
    if (said->count == from + 3)
        return numbers_said(said, from, must, 3);
    if (!numbers_said(said, from, must, 2))
        return false;
    must[2] = must[0];
    return true;
}

/* `mode NUMBER is BOUNDARY LENGTH`, `mode NUMBER is BOUNDARY LENGTH FALLBACK` */
void read_mode(trial *now, const line *said)
{
    uint64_t number, must[3];
    if (!number_at(said, 1, &number) || !says(said, 2, "is") || !mode_said(said, 3, must)) {
        misread(now);
        return;
    }
    compare(now);
    lend_sheet(now);
    marnipode_mode_answer got = marnipode_mode(now->sheet.start, now->sheet.size, number);
    hold_numbers(now, (uint64_t[]){got.boundary, got.length, got.fallback}, must, 3);
}

/* `row NUMBER is RPM DEADLINE SET LENGTH`, the set as a decimal number */
void read_row(trial *now, const line *said)
{
    uint64_t number, must[4];
    if (!number_at(said, 1, &number) || !says(said, 2, "is") || !numbers_said(said, 3, must, 4)) {
        misread(now);
        return;
    }
    compare(now);
    lend_sheet(now);
    marnipode_row_answer got = marnipode_row(now->sheet.start, now->sheet.size, number);
    hold_numbers(now, (uint64_t[]){got.speed, got.deadline, got.followers, got.length}, must, 4);
}

/* `gap FROM TO is GAP` */
void read_gap(trial *now, const line *said)
{
    uint64_t from, to, must;
    if (!number_at(said, 1, &from) || !number_at(said, 2, &to) || !says(said, 3, "is") || !numbers_said(said, 4, &must, 1)) {
        misread(now);
        return;
    }
    compare(now);
    lend_sheet(now);
    hold_numbers(now, (uint64_t[]){marnipode_gap(now->sheet.start, now->sheet.size, from, to)}, &must, 1);
}

/* `LENGTH PERIOD DEADLINE`, or `LENGTH PERIOD DEADLINE JITTER`: without a jitter it is 0. */
static bool task_said(const line *said, size_t from, uint64_t *must)
{
    if (said->count == from + 4)
        return numbers_said(said, from, must, 4);
    must[3] = 0;
    return numbers_said(said, from, must, 3);
}

/* `task NUMBER is LENGTH PERIOD DEADLINE`, `task NUMBER is LENGTH PERIOD DEADLINE JITTER` */
void read_task(trial *now, const line *said)
{
    uint64_t number, must[4];
    if (!number_at(said, 1, &number) || !says(said, 2, "is") || !task_said(said, 3, must)) {
        misread(now);
        return;
    }
    compare(now);
    lend_sheet(now);
    marnipode_task_answer got = marnipode_task(now->sheet.start, now->sheet.size, number);
    hold_numbers(now, (uint64_t[]){got.length, got.period, got.deadline, got.jitter}, must, 4);
}

void hold_no_values(trial *now)
{
    static const uint64_t none[12];
    lend_sheet(now);
    const uint8_t *sheet = now->sheet.start;
    size_t size = now->sheet.size;
    marnipode_mode_answer mode = marnipode_mode(sheet, size, 0);
    marnipode_row_answer row = marnipode_row(sheet, size, 0);
    marnipode_task_answer task = marnipode_task(sheet, size, 0);
    const uint64_t got[] = {mode.boundary, mode.length, mode.fallback, row.speed,   row.deadline,
                            row.followers, row.length,  task.length,   task.period, task.deadline,
                            task.jitter,   marnipode_gap(sheet, size, 0, 0)};
    hold_numbers(now, got, none, sizeof got / sizeof got[0]);
}
