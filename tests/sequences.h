/* Every sequence that a plan allows, and what follows from them alone: no table is used to find another. */
#ifndef TESTS_SEQUENCES_H
#define TESTS_SEQUENCES_H

#include <stdint.h>

#include "plans.h"

/*
 * Intervals go from 0 to the horizon, amounts from 1 to the same number. Gaps, deadlines and lengths are at least 1 where the horizon
 * is 9, and at least 7 where it is 33, so that no sequence that is looked at has more than 9 rows.
 */
enum { MOST_HORIZON = 33, MOST_JOBS = 16 };

/* No sequence reaches the amount. */
#define NEVER UINT32_MAX

/* What the sequences show: cells by interval and by amount, as docs/FORMAT.md lays them out; demands, witnesses, shortest times. */
typedef struct {
    uint32_t best[MOST_ROWS * (MOST_HORIZON + 1)];
    uint32_t least[MOST_ROWS * MOST_HORIZON];
    uint32_t demand[MOST_HORIZON + 1];
    uint32_t shortest[MOST_HORIZON];
    uint8_t witness[MOST_HORIZON + 1][MOST_JOBS];
    unsigned witness_count[MOST_HORIZON + 1];
    uint64_t sequences;
} findings;

void find_all(const plan *made, findings *found);

#endif
