/* How every sequence of a plan is met, one after the other in row order, and entered wherever it counts. */
#include "sequences.h"

#include <stdbool.h>
#include <string.h>

/* A sequence, its end time and its amount, and the amount of the rows before its last one. */
typedef struct {
    uint8_t rows[MOST_JOBS];
    unsigned count;
    uint32_t end;
    uint32_t amount;
    uint32_t amount_before;
} sequence;

/* The sequence with one row more; false where that row may not follow. Any row may be the first. */
static bool extend(const plan *made, const sequence *before, unsigned row, sequence *longer)
{
    unsigned last = before->count == 0 ? row : before->rows[before->count - 1];
    if (0 < before->count && made->gaps[last][row] == 0)
        return false;
    *longer = *before;
    longer->rows[longer->count++] = (uint8_t)row;
    longer->end = made->deadlines[row];
    if (0 < before->count)
        longer->end += before->end - made->deadlines[last] + made->gaps[last][row];
    longer->amount_before = before->amount;
    longer->amount += length_of(made, row);
    return true;
}

/*
 * Whether a sequence is looked at: it ends by the horizon, or its amount was below that before its last row. A start of a sequence
 * ends no later than the sequence, so that all that end by the horizon are met, and for each amount one that reaches it first.
 */
static bool is_looked_at(const plan *made, const sequence *met)
{
    return met->end <= made->horizon || met->amount_before < made->horizon;
}

/* Sequences come in row order, so the first that raises a demand stays its witness until a larger one comes. */
static void enter_interval(findings *found, const sequence *met, unsigned interval)
{
    if (met->amount <= found->demand[interval])
        return;
    found->demand[interval] = met->amount;
    found->witness_count[interval] = met->count;
    memcpy(found->witness[interval], met->rows, MOST_JOBS);
}

/* The cells and demands that a sequence raises: from its end time on. */
static void enter_intervals(const plan *made, findings *found, const sequence *met)
{
    for (unsigned interval = met->end; interval <= made->horizon; interval++) {
        uint32_t *cell = &found->best[interval * made->rows + met->rows[0]];
        if (*cell < met->amount)
            *cell = met->amount;
        enter_interval(found, met, interval);
    }
}

/* The cells and shortest times that a sequence lowers: up to its amount. */
static void enter_amounts(const plan *made, findings *found, const sequence *met)
{
    for (unsigned i = 0; i < met->amount && i < made->horizon; i++) {
        uint32_t *cell = &found->least[i * made->rows + met->rows[0]];
        if (met->end < *cell)
            *cell = met->end;
        if (met->end < found->shortest[i])
            found->shortest[i] = met->end;
    }
}

static void meet_all_from(const plan *made, findings *found, const sequence *before)
{
    for (unsigned row = 0; row < made->rows; row++) {
        sequence met;
        if (!extend(made, before, row, &met) || !is_looked_at(made, &met))
            continue;
        found->sequences++;
        enter_intervals(made, found, &met);
        enter_amounts(made, found, &met);
        meet_all_from(made, found, &met);
    }
}

void find_all(const plan *made, findings *found)
{
    const sequence none = {.count = 0};
    memset(found, 0, sizeof *found);
    memset(found->least, 0xFF, sizeof found->least);
    memset(found->shortest, 0xFF, sizeof found->shortest);
    meet_all_from(made, found, &none);
}
