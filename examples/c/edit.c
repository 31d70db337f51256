/*
 * Changes one gap of a sheet and writes it back: edit FILE FROM TO GAP NEW takes the sheet in FILE, sets the gap from row FROM to row
 * TO, and writes the sheet to NEW. Only a gap that is there can be changed. Skipped fields are not written, nor a fall-back that is the
 * mode's boundary, nor a jitter of 0.
 * It ends with 0 where NEW is written, 1 where the sheet or its new values were refused, 2 where it was called wrongly.
 */
#include <errno.h>
#include <stdio.h>
#include <stdlib.h>
#include <string.h>

#include "marnipode.h"

enum { MOST_FILE = 1 << 20, MOST_GAPS = MARNIPODE_MOST_ROWS * MARNIPODE_MOST_ROWS };

/* A sheet's values, in columns as the writer takes them. */
typedef struct {
    uint16_t boundaries[MARNIPODE_MOST_MODES], lengths[MARNIPODE_MOST_MODES], fallbacks[MARNIPODE_MOST_MODES];
    uint16_t speeds[MARNIPODE_MOST_ROWS], deadlines[MARNIPODE_MOST_ROWS];
    uint64_t followers[MARNIPODE_MOST_ROWS];
    uint16_t gaps[MOST_GAPS];
    uint16_t task_lengths[MARNIPODE_MOST_TASKS], task_periods[MARNIPODE_MOST_TASKS], task_deadlines[MARNIPODE_MOST_TASKS];
    uint16_t task_jitters[MARNIPODE_MOST_TASKS];
} columns;

static int wrong_call(const char *what, const char *why)
{
    fprintf(stderr, "edit: %s: %s\n", what, why);
    return 2;
}

/* Tells a refusal, as the status with which this program then ends. */
static int refused(unsigned number, size_t place)
{
    printf("refused %u at %zu\n", number, place);
    return 1;
}

/* The number that a word of the command spells, in digits alone; above all that are allowed where it spells none. */
static unsigned long number_of(const char *word)
{
    errno = 0;
    unsigned long number = strtoul(word, NULL, 10);
    return word[0] == '\0' || word[strspn(word, "0123456789")] != '\0' || errno != 0 ? (unsigned long)-1 : number;
}

/* Reads a file; 0 where it has been, also where it has no bytes, else the status with which this program then ends. */
static int read_sheet(const char *name, uint8_t *bytes, size_t *size)
{
    FILE *file = fopen(name, "rb");
    if (file == NULL)
        return wrong_call(name, strerror(errno));
    *size = fread(bytes, 1, MOST_FILE, file);
    int failed = ferror(file);
    fclose(file);
    return failed || *size == MOST_FILE ? wrong_call(name, "cannot be read, or is longer than this program reads") : 0;
}

/* All values of an accepted sheet, by number. Where the gap from one row to another stands among the gaps is told too. */
static marnipode_values values_of(const uint8_t *sheet, size_t size, columns *held, size_t from, size_t to, uint16_t **gap)
{
    marnipode_judge_answer judged = marnipode_judge(sheet, size);
    marnipode_label_answer label = marnipode_label(sheet, size);
    size_t gaps = 0;
    for (size_t i = 0; i < judged.modes; i++) {
        marnipode_mode_answer mode = marnipode_mode(sheet, size, i);
        held->boundaries[i] = mode.boundary;
        held->lengths[i] = mode.length;
        held->fallbacks[i] = mode.fallback;
    }
    for (size_t i = 0; i < judged.rows; i++) {
        marnipode_row_answer row = marnipode_row(sheet, size, i);
        held->speeds[i] = row.speed;
        held->deadlines[i] = row.deadline;
        held->followers[i] = row.followers;
        for (size_t j = 0; j < judged.rows; j++) {
            if ((row.followers >> j & 1) == 0)
                continue;
            if (i == from && j == to)
                *gap = &held->gaps[gaps];
            held->gaps[gaps++] = marnipode_gap(sheet, size, i, j);
        }
    }
    for (size_t i = 0; i < judged.tasks; i++) {
        marnipode_task_answer task = marnipode_task(sheet, size, i);
        held->task_lengths[i] = task.length;
        held->task_periods[i] = task.period;
        held->task_deadlines[i] = task.deadline;
        held->task_jitters[i] = task.jitter;
    }
    return (marnipode_values){sheet + label.start, label.size, held->boundaries, held->lengths, held->fallbacks, judged.modes,
                              held->speeds, held->deadlines, held->followers, judged.rows, held->gaps, gaps,
                              held->task_lengths, held->task_periods, held->task_deadlines, held->task_jitters, judged.tasks};
}

static int save(const char *name, const uint8_t *bytes, size_t size)
{
    FILE *file = fopen(name, "wb");
    if (file == NULL)
        return wrong_call(name, strerror(errno));
    size_t saved = fwrite(bytes, 1, size, file);
    if (fclose(file) != 0 || saved != size)
        return wrong_call(name, "cannot be written");
    return 0;
}

int main(int argc, char **argv)
{
    static uint8_t sheet[MOST_FILE], output[MARNIPODE_MOST_WRITTEN];
    static columns held;
    uint16_t *gap = NULL;
    if (argc != 6)
        return wrong_call("usage", "edit FILE FROM TO GAP NEW");
    unsigned long ticks = number_of(argv[4]);
    if (MARNIPODE_LONGEST_TIME < ticks)
        return wrong_call(argv[4], "is no number of ticks up to 65535");
    size_t size;
    if (read_sheet(argv[1], sheet, &size) != 0)
        return 2;
    marnipode_judge_answer judged = marnipode_judge(sheet, size);
    if (judged.number != 0)
        return refused(judged.number, judged.place);
    marnipode_values values = values_of(sheet, size, &held, number_of(argv[2]), number_of(argv[3]), &gap);
    if (gap == NULL)
        return wrong_call(argv[3], "may not follow that row");
    unsigned before = *gap;
    *gap = (uint16_t)ticks;
    marnipode_write_answer written = marnipode_write(&values, output, sizeof output);
    if (written.number != 0)
        return refused(written.number, written.place);
    if (save(argv[5], output, written.size) != 0)
        return 2;
    printf("gap %s to %s: %u, was %u; %zu bytes\n", argv[2], argv[3], (unsigned)*gap, before, written.size);
    return 0;
}
