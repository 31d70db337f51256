/*
 * Holds all answers of the library on a family of small sheets, and all memory that it was lent, to what every allowed sequence of
 * rows shows. The sequences are found by brute force, without the library and without a table. Most families have short times; that
 * of times around eight reaches lines of a table that are filled eight at once.
 */
#include <inttypes.h>
#include <stdio.h>
#include <stdlib.h>
#include <string.h>

#include "calls.h"
#include "sequences.h"

/* What is told; more than this is counted only. */
enum { MOST_TOLD = 20 };

/* Each call is lent so many cells more than three rows need. */
enum { MORE_CELLS = 10, CELL = sizeof(uint32_t) };

typedef struct {
    uint64_t sheets;
    uint64_t sequences;
    uint64_t answers;
    uint64_t causes[MARNIPODE_CAUSE_TOGETHER + 1];
    uint64_t wrong;
} counts;

/* A plan with its file and what its sequences show, and the memory that is lent. */
typedef struct {
    plan made;
    findings found;
    uint8_t bytes[MOST_PLAN_FILE];
    size_t size;
    area sheet;
    area cells;
    area witness;
    area output;
    counts counted;
} search;

static size_t lent_cells(unsigned horizon)
{
    return MOST_ROWS * (horizon + 1) + MORE_CELLS;
}

/*
 * What a fixed task of a plan needs up to an interval: its jobs are counted one by one, each a period after the one before, as long as
 * they fall due in it when the first is released as late as it can be.
 */
static int64_t demand_of(const plan *made, unsigned task, int64_t interval)
{
    const fixed_task *fixed = &fixed_tasks[task];
    int64_t needed = 0;
    for (int64_t due = fixed->deadline; due <= interval + made->jitters[task]; due += fixed->period)
        needed += fixed->length;
    return needed;
}

/* What the fixed tasks of a plan need. */
static int64_t fixed_demand(const plan *made, int64_t interval)
{
    int64_t needed = 0;
    for (unsigned i = 0; i < made->tasks; i++)
        needed += demand_of(made, i, interval);
    return needed;
}

static int64_t margin_at(const search *now, uint64_t interval)
{
    int64_t ticks = (int64_t)interval;
    return ticks - now->found.demand[interval] - fixed_demand(&now->made, ticks);
}

/* The first interval up to a horizon that is overrun, or 0. */
static int64_t overrun_by(const search *now, uint64_t horizon)
{
    for (uint64_t interval = 1; interval <= horizon; interval++)
        if (margin_at(now, interval) < 0)
            return (int64_t)interval;
    return 0;
}

/* An amount that is never reached is refused by 14. */
static outcome shortest_for(const search *now, uint64_t amount)
{
    uint32_t time = now->found.shortest[amount - 1];
    return time == NEVER ? (outcome){.number = 14} : (outcome){.value = time};
}

/* The earliest interval from 1 to a horizon with the smallest margin, or 0. */
static uint64_t tightest_by(const search *now, uint64_t horizon)
{
    uint64_t tightest = horizon == 0 ? 0 : 1;
    for (uint64_t interval = 2; interval <= horizon; interval++)
        if (margin_at(now, interval) < margin_at(now, tightest))
            tightest = interval;
    return tightest;
}

/* The cause where an interval is overrun. */
static unsigned cause_at(const search *now, int64_t interval)
{
    if (interval < now->found.demand[interval])
        return MARNIPODE_CAUSE_ENGINE;
    return interval < fixed_demand(&now->made, interval) ? MARNIPODE_CAUSE_FIXED : MARNIPODE_CAUSE_TOGETHER;
}

static outcome fails_at(const search *now, int64_t interval)
{
    outcome must = {.value = interval, .count = now->found.witness_count[interval]};
    must.why.cause = cause_at(now, interval);
    must.why.engine = now->found.demand[interval];
    for (unsigned i = 0; i < now->made.tasks; i++)
        must.why.demands[i] = (uint64_t)demand_of(&now->made, i, interval);
    must.why.excess = (uint64_t)-margin_at(now, (uint64_t)interval);
    return must;
}

/* Up to the horizon 0 there is no interval, and nothing is left of it, so that both numbers are 0 there too. */
static outcome explained_by(const search *now, uint64_t horizon)
{
    int64_t overrun = overrun_by(now, horizon);
    if (overrun != 0)
        return fails_at(now, overrun);
    uint64_t tightest = tightest_by(now, horizon);
    return (outcome){.why.margin = (uint64_t)margin_at(now, tightest), .why.interval = tightest};
}

static outcome must_answer(const search *now, call asked, uint64_t number)
{
    switch (asked) {
    case DEMAND:
        return (outcome){.value = now->found.demand[number], .count = now->found.witness_count[number]};
    case MARGIN:
        return (outcome){.value = margin_at(now, number)};
    case SHORTEST:
        return shortest_for(now, number);
    case EXPLAIN:
        return explained_by(now, number);
    default:
        return (outcome){.value = overrun_by(now, number)};
    }
}

/* Counts a wrong answer, and says whether it is told: then the line begins with the sheet as a text of cases has it. */
static bool tell_sheet(search *now)
{
    if (MOST_TOLD < ++now->counted.wrong)
        return false;
    printf("sheet ");
    for (size_t i = 0; i < now->size; i++)
        printf("%02X", now->bytes[i]);
    return true;
}

static bool tell_wrong(search *now, call asked, uint64_t number)
{
    if (!tell_sheet(now))
        return false;
    printf(": %s %" PRIu64, name_of(asked), number);
    return true;
}

/* The interval whose witness a call gives: explain's is that of the overrun, or of 0, which has no rows. */
static uint64_t witnessed_by(const search *now, call asked, uint64_t number)
{
    return asked == EXPLAIN ? (uint64_t)overrun_by(now, number) : number;
}

static void tell_answer(search *now, call asked, uint64_t number, outcome got, outcome must)
{
    char spelled[SPELLED], expected[SPELLED];
    area rows = {.start = now->found.witness[witnessed_by(now, asked, number)], .size = MOST_JOBS};
    if (!tell_wrong(now, asked, number))
        return;
    spell(expected, asked, must, &rows);
    spell(spelled, asked, got, &now->witness);
    printf(" expected %s, got %s\n", expected, spelled);
}

static void tell_memory(search *now, call asked, uint64_t number, const char *fault)
{
    if (tell_wrong(now, asked, number))
        printf(" %s\n", fault);
}

/* Whether the first lent bytes are those that must stand there, and the others hold their marks. */
static bool holds(const area *lent, const void *must, size_t used)
{
    return memcmp(lent->start, must, used) == 0 && is_kept(lent, used, lent->size - used);
}

/* Cells by amount go up to the amount, or to one more than the horizon; cells by interval from 0 to the interval. */
static bool cells_hold(const search *now, call asked, uint64_t number)
{
    bool by_amount = asked == SHORTEST || asked == VERDICT_BY_AMOUNT;
    size_t columns = asked == SHORTEST ? number : number + 1;
    return holds(&now->cells, by_amount ? now->found.least : now->found.best, now->made.rows * columns * CELL);
}

static const char *witness_fault(const search *now, uint64_t interval)
{
    if (guard_changed(&now->witness) != NULL)
        return "wrote outside the witness area that it was lent";
    if (!holds(&now->witness, now->found.witness[interval], now->found.witness_count[interval]))
        return "left another witness area than it must";
    return NULL;
}

static bool gives_witness(call asked)
{
    return asked == DEMAND || asked == EXPLAIN;
}

/* What is wrong with lent memory after a call; null where nothing is. */
static const char *memory_fault(const search *now, call asked, uint64_t number)
{
    if (guard_changed(&now->cells) != NULL)
        return "wrote outside the cells that it was lent";
    if (!cells_hold(now, asked, number))
        return "left other cells than it must";
    if (guard_changed(&now->sheet) != NULL || memcmp(now->sheet.start, now->bytes, now->size) != 0)
        return "changed the sheet or what stands beside it";
    return gives_witness(asked) ? witness_fault(now, witnessed_by(now, asked, number)) : NULL;
}

static void compare_call(search *now, call asked, uint64_t number)
{
    outcome must = must_answer(now, asked, number);
    lend(&now->cells, lent_cells(now->made.horizon) * CELL);
    if (gives_witness(asked))
        lend(&now->witness, MOST_JOBS);
    outcome got = ask(asked, &now->sheet, number, &now->cells, &now->witness);
    now->counted.answers++;
    now->counted.causes[must.why.cause] += asked == EXPLAIN;
    const char *fault = memory_fault(now, asked, number);
    if (!is_same(got, must))
        tell_answer(now, asked, number, got, must);
    else if (fault != NULL)
        tell_memory(now, asked, number, fault);
}

/* What is wrong with the values that are told of the sheet, or with the sheet that is written of them; null where nothing is. */
static const char *values_fault(search *now)
{
    static columns must, told;
    fill_columns(&now->made, &must);
    read_columns(&told, now->sheet.start, now->sheet.size);
    if (!are_same(&told, &must))
        return "has other values when it is read by number";
    for (unsigned i = 0; i < now->made.rows; i++)
        if (marnipode_row(now->sheet.start, now->sheet.size, i).length != length_of(&now->made, i))
            return "has another job length when it is read by number";
    lend(&now->output, MOST_PLAN_FILE);
    marnipode_write_answer got = write_columns(&told, now->output.start, now->output.size);
    if (got.number != 0 || got.size != now->size || guard_changed(&now->output) != NULL)
        return "is not written back";
    return holds(&now->output, now->bytes, now->size) ? NULL : "is not written back byte for byte";
}

static void compare_values(search *now)
{
    const char *fault = values_fault(now);
    now->counted.answers++;
    if (fault != NULL && tell_sheet(now))
        printf(" %s\n", fault);
}

/* Every interval up to the horizon, and every amount with the horizon one below it, whose cells are the same. */
static void compare_plan(search *now)
{
    now->size = write_plan(&now->made, now->bytes);
    find_all(&now->made, &now->found);
    lend_copy(&now->sheet, now->bytes, now->size);
    for (uint64_t interval = 0; interval <= now->made.horizon; interval++) {
        compare_call(now, DEMAND, interval);
        compare_call(now, MARGIN, interval);
        compare_call(now, VERDICT_BY_INTERVAL, interval);
        compare_call(now, EXPLAIN, interval);
    }
    for (uint64_t amount = 1; amount <= now->made.horizon; amount++) {
        compare_call(now, SHORTEST, amount);
        compare_call(now, VERDICT_BY_AMOUNT, amount - 1);
    }
    compare_values(now);
    now->counted.sheets++;
    now->counted.sequences += now->found.sequences;
}

/*
 * Each call has all lent cells compared; demand and explain, which are asked at every interval, the witness area too. One answer a
 * sheet is that its values were told and written back.
 */
static void print_counts(const family *chosen, counts counted)
{
    unsigned horizon = chosen->times->horizon;
    uint64_t intervals = counted.sheets * (horizon + 1);
    printf("%" PRIu64 " sheets, %" PRIu64 " intervals, %" PRIu64 " amounts, %" PRIu64 " sequences, ", counted.sheets, intervals,
           counted.sheets * horizon, counted.sequences);
    printf("%" PRIu64 " answers, %" PRIu64 " cells, %" PRIu64 " bytes\n", counted.answers,
           (counted.answers - counted.sheets) * lent_cells(horizon), 2 * intervals * MOST_JOBS);
    printf("explained: %" PRIu64 " that hold; overrun by the engine task %" PRIu64 ", by fixed tasks %" PRIu64 ", together %" PRIu64 "\n",
           counted.causes[MARNIPODE_CAUSE_NONE], counted.causes[MARNIPODE_CAUSE_ENGINE], counted.causes[MARNIPODE_CAUSE_FIXED],
           counted.causes[MARNIPODE_CAUSE_TOGETHER]);
    printf("search %s in all: %" PRIu64 " compared, %" PRIu64 " wrong\n", chosen->name, counted.answers, counted.wrong);
}

static void compare_family(search *now, const family *chosen)
{
    for (unsigned rows = 1; rows <= MOST_ROWS; rows++) {
        for (unsigned number = 0; number < plans_of(chosen, rows); number += chosen->times->steps[rows - 1]) {
            now->made = make_plan(chosen, rows, number);
            compare_plan(now);
        }
    }
}

int main(int argc, char **argv)
{
    static search now;
    const family *chosen = argc == 2 ? find_family(argv[1]) : NULL;
    if (chosen == NULL) {
        fprintf(stderr, "usage: search FAMILY, one of those in plans.c\n");
        return 2;
    }
    now.sheet = make_area(MOST_PLAN_FILE, 0);
    now.cells = make_area(lent_cells(MOST_HORIZON) * CELL, 1);
    now.witness = make_area(MOST_JOBS, 2);
    now.output = make_area(MOST_PLAN_FILE, 3);
    print_bounds(chosen);
    printf("intervals and horizons 0 to %u, amounts 1 to %u; each call is lent %zu cells, demand and explain %d bytes\n",
           chosen->times->horizon, chosen->times->horizon, lent_cells(chosen->times->horizon), MOST_JOBS);
    compare_family(&now, chosen);
    print_counts(chosen, now.counted);
    return now.counted.wrong == 0 ? EXIT_SUCCESS : EXIT_FAILURE;
}
