/* A sheet's values in columns, as the cases give them and as the reading calls tell them, and how they are lent to the writer. */
#ifndef TESTS_COLUMNS_H
#define TESTS_COLUMNS_H

#include <stdbool.h>
#include <stddef.h>
#include <stdint.h>

#include "marnipode.h"

/* Room for more than a sheet may have, and for a label whose length takes more than two bytes. */
enum { MOST_LABEL = 70000, MOST_IN_COLUMN = 64, MOST_GAPS = 4096 };

/* A column of times or speeds. */
typedef struct {
    uint16_t values[MOST_GAPS];
    size_t count;
} column;

/* Every column has a count of its own, so that columns of a kind can be of unlike length. */
typedef struct {
    uint8_t label[MOST_LABEL];
    size_t label_size;
    column boundaries;
    column lengths;
    column fallbacks;
    column speeds;
    column deadlines;
    uint64_t followers[MOST_IN_COLUMN];
    size_t follower_count;
    column gaps;
    column task_lengths;
    column task_periods;
    column task_deadlines;
    column task_jitters;
} columns;

/* No values at all. */
void clear_columns(columns *given);

/* Adds a number to a column; false where there is no room for it. */
bool add_value(column *to, uint64_t value);
bool add_followers(columns *to, uint64_t followers);

/* The values that the reading calls tell of a sheet: by number, as many as the judge counts. */
void read_columns(columns *told, const uint8_t *sheet, size_t size);

bool are_same(const columns *first, const columns *second);

/* Whether the columns of each kind are equally long, so that they are also what the struct of the header says. */
bool are_even(const columns *given);

/* Writes them by the call that takes the columns one by one, or by the one that takes the struct. */
marnipode_write_answer write_columns(const columns *given, uint8_t *output, size_t size);
marnipode_write_answer write_struct(const columns *given, uint8_t *output, size_t size);

#endif
