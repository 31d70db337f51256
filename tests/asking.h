/* A call on freshly marked memory, held to what it may change. */
#ifndef TESTS_ASKING_H
#define TESTS_ASKING_H

#include "calls.h"
#include "trial.h"

/* How many cells a call fills on the sheet: as many for each row as there are intervals or amounts. */
size_t cells_used(const trial *now, call asked, uint64_t number);

/*
 * Makes a call that is lent so many cells and witness bytes, and gives its answer. What it must leave is held to the marks, and the
 * cells that it fills to those of another call that must fill the same ones.
 */
outcome try_call(trial *now, call asked, uint64_t number, size_t cells, size_t witness);

#endif
