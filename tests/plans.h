/* Families of small sheets as plain numbers, before they are files. */
#ifndef TESTS_PLANS_H
#define TESTS_PLANS_H

#include <stdbool.h>
#include <stddef.h>
#include <stdint.h>

#include "columns.h"

enum { MOST_ROWS = 3, MOST_TASKS = 4 };

/* Room for a file: three rows, two bands and four fixed tasks with a jitter take 127 bytes. */
enum { MOST_PLAN_FILE = 128 };

/*
 * Three modes, up to 1,000, 2,000 and 3,000 rpm, with the lengths of their jobs and their fall-backs. Each row has a speed, and the mode
 * that it is in by that; a deadline; and a gap to each row, 0 where that row may not follow. Of the fixed tasks there are none or the
 * first ones, each with a jitter. Up to the horizon it is asked about every interval and every amount.
 */
typedef struct {
    unsigned mode_lengths[MOST_ROWS];
    unsigned fallbacks[MOST_ROWS];
    unsigned rows;
    unsigned speeds[MOST_ROWS];
    unsigned modes[MOST_ROWS];
    unsigned deadlines[MOST_ROWS];
    unsigned gaps[MOST_ROWS][MOST_ROWS];
    unsigned tasks;
    unsigned jitters[MOST_TASKS];
    unsigned horizon;
} plan;

/* A fixed-period task. Its jitter is the plan's. */
typedef struct {
    unsigned length;
    unsigned period;
    unsigned deadline;
} fixed_task;

extern const fixed_task fixed_tasks[MOST_TASKS];

/* How many gaps there are to choose from where a row may follow. */
enum { GAP_LENGTHS = 3 };

/*
 * How long the times of a family are: the shortest job length, which is also the shortest deadline; how many deadlines there are from
 * it on; by how much the gaps of one and two rows are longer than the deadline; and the horizon. Where there would be too many plans,
 * those of one, two and three rows are taken in steps.
 */
typedef struct {
    unsigned shortest;
    unsigned deadlines;
    unsigned longer[GAP_LENGTHS];
    unsigned horizon;
    unsigned steps[MOST_ROWS];
} scale;

/*
 * A family of plans by where its rows stand among the boundaries: their speeds, and the modes that they are in by those; whether its
 * modes have bands, and its fixed tasks jitters; and its times.
 */
typedef struct {
    const char *name;
    const char *rows;
    unsigned speeds[MOST_ROWS];
    unsigned modes[MOST_ROWS];
    bool has_bands;
    bool has_jitters;
    const scale *times;
} family;

/* The family of a name, or null. */
const family *find_family(const char *name);

/* How many plans of a family have so many rows, and the one of a number below that. */
unsigned plans_of(const family *chosen, unsigned rows);
plan make_plan(const family *chosen, unsigned rows, unsigned number);

/* The highest speed of a mode. */
unsigned boundary_of(unsigned mode);

/* The job length of a row. */
unsigned length_of(const plan *made, unsigned row);

/* Tells the bounds of a family. */
void print_bounds(const family *chosen);

/* Writes the file of a plan, and says how many bytes it has. */
size_t write_plan(const plan *made, uint8_t *bytes);

/* The values of a plan in columns. */
void fill_columns(const plan *made, columns *given);

#endif
