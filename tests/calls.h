/* The six calls that fill cells, asked alike, and what an answer says. */
#ifndef TESTS_CALLS_H
#define TESTS_CALLS_H

#include <stdbool.h>
#include <stddef.h>
#include <stdint.h>

#include "lent.h"
#include "marnipode.h"

typedef enum { DEMAND, MARGIN, VERDICT_BY_INTERVAL, SHORTEST, VERDICT_BY_AMOUNT, EXPLAIN, CALLS } call;

/* What explain says beside the overrun interval and the count of its witness; of any other call all is 0. */
typedef struct {
    unsigned cause;
    uint64_t engine;
    uint64_t demands[MARNIPODE_MOST_TASKS];
    uint64_t excess;
    uint64_t margin;
    uint64_t interval;
} reasons;

/*
 * An answer: the refusal's number and place, 0 where there is none; the amount, margin, time or overrun interval; how many rows the
 * witness has; and the reasons. In a refusal the last three must be 0, so all of them are compared.
 */
typedef struct {
    unsigned number;
    size_t place;
    int64_t value;
    size_t count;
    reasons why;
} outcome;

const char *name_of(call asked);

/* Makes a call on what is lent. Only demand and explain are lent the witness area. */
outcome ask(call asked, const area *sheet, uint64_t number, const area *cells, const area *witness);

bool is_same(outcome got, outcome must);

/* Room for the words of an answer with a witness of 300 rows. */
enum { SPELLED = 1600 };

/* A call's answer in the words of a case, with the rows of its witness. */
void spell(char *room, call asked, outcome got, const area *witness);

#endif
