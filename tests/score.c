/* How scores are added and told. */
#include "score.h"

#include <inttypes.h>
#include <stdio.h>

score sum_of(score first, score second)
{
    return (score){first.compared + second.compared, first.wrong + second.wrong};
}

void print_score(const char *name, int size, score counted)
{
    printf("%.*s: %" PRIu64 " compared, %" PRIu64 " wrong\n", size, name, counted.compared, counted.wrong);
}
