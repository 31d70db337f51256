/* How the plans of a family are made from numbers, whose digits say one after the other what a plan has. */
#include "plans.h"

#include <stdio.h>
#include <string.h>

/* Choices for each digit. Of three rows all followers are one digit, a bit for each pair of rows. */
enum { LENGTHS = 3, GAPS = GAP_LENGTHS + 1, TASKS = MOST_TASKS + 1, SETS = 1 << (MOST_ROWS * MOST_ROWS) };

/* The deadline of the second task is longer than its period. The third takes all of interval 2, and the fourth is too much there. */
const fixed_task fixed_tasks[MOST_TASKS] = {{1, 5, 4}, {2, 3, 5}, {2, 7, 2}, {1, 9, 2}};

/*
 * Eight lines of a table are filled at once where no deadline, or no job length, is below 8: times from 7 on meet both ways. Up to the
 * horizon 33 there are four times eight lines and two that are left over, so that a gap of 17 adds work within eight lines too. The
 * steps have no divisor in common with the number of any choice, so that each choice is met with each other one.
 */
static const scale small_times = {1, 2, {0, 1, 2}, 9, {1, 1, 1}};
static const scale times_around_eight = {7, 3, {0, 1, 8}, 33, {1, 29, 83}};

/* A boundary speed belongs to the slower mode. */
static const family families[] = {
    {"at-boundaries", "at boundary speeds, each in a mode of its own", {1000, 2000, 3000}, {0, 1, 2}, false, false, &small_times},
    {"above-boundaries", "one rpm above the boundary of the mode before their own", {1, 1001, 2001}, {0, 1, 2}, false, true, &small_times},
    {"shared-mode", "below a boundary, at it, in the same mode, and one rpm above it", {999, 1000, 1001}, {0, 0, 1}, true, false,
     &small_times},
    {"around-eight", "at boundary speeds, each in a mode of its own", {1000, 2000, 3000}, {0, 1, 2}, false, false, &times_around_eight},
};

enum { FAMILIES = sizeof families / sizeof families[0] };

/*
 * The fall-backs of a family with bands take turns: no band, and bands of two modes that begin one rpm below the rows at 999, 1,000
 * and 1,001 rpm, at them and above them, at the lowest speed, and at the boundary before. Their number has no divisor in common with
 * that of any other choice, so that each turn meets each job length, deadline and gap.
 */
static const unsigned turns[][MOST_ROWS] = {
    {1000, 2000, 3000}, {999, 2000, 3000},  {998, 1001, 3000}, {1, 1000, 3000},
    {999, 1000, 3000},  {1000, 1000, 3000}, {998, 1002, 3000},
};

enum { TURNS = sizeof turns / sizeof turns[0] };

/*
 * So do the jitters of the fixed tasks in a family that has them, and their turns are as many: none, 1 for each task, one less than its
 * deadline for each, with which their first jobs fall due at 1, and mixed ones. The second task's is also longer than its period.
 */
static const unsigned jitter_turns[TURNS][MOST_TASKS] = {
    {0, 0, 0, 0}, {1, 1, 1, 1}, {3, 4, 1, 1}, {0, 1, 0, 1}, {2, 3, 1, 0}, {1, 4, 0, 0}, {3, 0, 0, 1},
};

const family *find_family(const char *name)
{
    for (unsigned i = 0; i < FAMILIES; i++)
        if (strcmp(families[i].name, name) == 0)
            return &families[i];
    return NULL;
}

unsigned plans_of(const family *chosen, unsigned rows)
{
    unsigned deadlines = chosen->times->deadlines;
    switch (rows) {
    case 1:
        return TASKS * LENGTHS * deadlines * GAPS;
    case 2:
        return TASKS * LENGTHS * LENGTHS * deadlines * deadlines * GAPS * GAPS * GAPS * GAPS;
    default:
        return SETS * deadlines * deadlines * deadlines * LENGTHS * LENGTHS * LENGTHS;
    }
}

/* The next digit of a number, among so many. */
static unsigned take(unsigned *number, unsigned choices)
{
    unsigned digit = *number % choices;
    *number /= choices;
    return digit;
}

static void take_lengths(plan *made, const scale *ticks, unsigned *number)
{
    for (unsigned i = 0; i < made->rows; i++)
        made->mode_lengths[i] = ticks->shortest + take(number, LENGTHS);
}

static void take_deadlines(plan *made, const scale *ticks, unsigned *number)
{
    for (unsigned i = 0; i < made->rows; i++)
        made->deadlines[i] = ticks->shortest + take(number, ticks->deadlines);
}

/* No follower, or a gap that is longer than the deadline by one of the family's numbers. */
static void take_gaps(plan *made, const scale *ticks, unsigned *number)
{
    for (unsigned i = 0; i < made->rows * made->rows; i++) {
        unsigned row = i / made->rows, choice = take(number, GAPS);
        made->gaps[row][i % made->rows] = choice == 0 ? 0 : made->deadlines[row] + ticks->longer[choice - 1];
    }
}

/*
 * Three rows have no gap or one that follows from the deadline: out of a row with the shortest deadline it is that, out of any other
 * it is 2, 1 and 0 longer, so that going on to a faster row is sooner than slowing down.
 */
static void shape_gaps(plan *made, const scale *ticks, unsigned set)
{
    for (unsigned i = 0; i < MOST_ROWS * MOST_ROWS; i++) {
        unsigned row = i / MOST_ROWS, follower = i % MOST_ROWS, deadline = made->deadlines[row];
        unsigned gap = deadline == ticks->shortest ? deadline : deadline + 2 - follower;
        made->gaps[row][follower] = set >> i & 1 ? gap : 0;
    }
}

/* Up to two rows every choice is made; of three rows the choices of fixed tasks take turns. */
static void take_all(plan *made, const scale *ticks, unsigned number)
{
    if (made->rows < MOST_ROWS) {
        made->tasks = take(&number, TASKS);
        take_lengths(made, ticks, &number);
        take_deadlines(made, ticks, &number);
        take_gaps(made, ticks, &number);
    } else {
        made->tasks = number % TASKS;
        unsigned set = take(&number, SETS);
        take_deadlines(made, ticks, &number);
        take_lengths(made, ticks, &number);
        shape_gaps(made, ticks, set);
    }
}

/* The first turn is that of a family without bands. */
static void take_fallbacks(plan *made, const family *chosen, unsigned number)
{
    unsigned turn = chosen->has_bands ? number % TURNS : 0;
    memcpy(made->fallbacks, turns[turn], sizeof made->fallbacks);
}

static void take_jitters(plan *made, const family *chosen, unsigned number)
{
    unsigned turn = chosen->has_jitters ? number % TURNS : 0;
    memcpy(made->jitters, jitter_turns[turn], sizeof made->jitters);
}

plan make_plan(const family *chosen, unsigned rows, unsigned number)
{
    plan made = {.mode_lengths = {1, 1, 1}, .rows = rows, .horizon = chosen->times->horizon};
    take_fallbacks(&made, chosen, number);
    take_jitters(&made, chosen, number);
    for (unsigned i = 0; i < rows; i++) {
        made.speeds[i] = chosen->speeds[i];
        made.modes[i] = chosen->modes[i];
    }
    take_all(&made, chosen->times, number);
    return made;
}

unsigned boundary_of(unsigned mode)
{
    return 1000 * (mode + 1);
}

/* Above the fall-back of its mode a row has the longer of two lengths. No row is in the last mode's band, since there is none. */
unsigned length_of(const plan *made, unsigned row)
{
    unsigned mode = made->modes[row];
    unsigned length = made->mode_lengths[mode];
    if (made->speeds[row] <= made->fallbacks[mode])
        return length;
    unsigned next = made->mode_lengths[mode + 1];
    return length < next ? next : length;
}

static void print_fallbacks(const family *chosen)
{
    printf("fall-backs of the modes:");
    for (unsigned i = 0; chosen->has_bands && i < TURNS; i++)
        printf(" (%u, %u, %u)", turns[i][0], turns[i][1], turns[i][2]);
    printf(chosen->has_bands ? ", in turn\n" : " their boundaries\n");
}

static void print_jitters(const family *chosen)
{
    printf("their jitters:");
    for (unsigned i = 0; chosen->has_jitters && i < TURNS; i++)
        printf(" (%u, %u, %u, %u)", jitter_turns[i][0], jitter_turns[i][1], jitter_turns[i][2], jitter_turns[i][3]);
    printf(chosen->has_jitters ? ", in turn\n" : " 0\n");
}

static void print_times(const scale *ticks)
{
    unsigned shortest = ticks->shortest;
    printf("every follower set, job lengths of a mode %u to %u, deadlines %u to %u\n", shortest, shortest + LENGTHS - 1, shortest,
           shortest + ticks->deadlines - 1);
    printf("gaps of one and two rows: the deadline, or longer by %u or %u\n", ticks->longer[1], ticks->longer[2]);
    printf("gaps of three rows: the deadline out of a row with deadline %u; out of others 2, 1 and 0 longer to rows 0, 1 and 2\n",
           shortest);
    printf("of the plans of one, two and three rows one in %u, %u and %u\n", ticks->steps[0], ticks->steps[1], ticks->steps[2]);
}

void print_bounds(const family *chosen)
{
    printf("search %s: 1 to %d rows, %s\n", chosen->name, MOST_ROWS, chosen->rows);
    print_times(chosen->times);
    print_fallbacks(chosen);
    printf("fixed tasks: none, or the first ones of");
    for (unsigned i = 0; i < MOST_TASKS; i++)
        printf(" (%u, %u, %u)", fixed_tasks[i].length, fixed_tasks[i].period, fixed_tasks[i].deadline);
    printf("\n");
    print_jitters(chosen);
}
