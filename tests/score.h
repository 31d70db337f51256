/* How much was compared, and how much of it was wrong. */
#ifndef TESTS_SCORE_H
#define TESTS_SCORE_H

#include <stdint.h>

typedef struct {
    uint64_t compared;
    uint64_t wrong;
} score;

score sum_of(score first, score second);

/* The line that tells a score. */
void print_score(const char *name, int size, score counted);

#endif
