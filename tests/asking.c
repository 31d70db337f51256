/* How a call is made, and what it leaves is held to what it must leave. */
#include "asking.h"

#include <inttypes.h>

#include "fields.h"

enum { CELL = sizeof(uint32_t), LARGEST_NUMBER = 65536 };

/* Amounts from 1 to the call's number, or intervals from 0 to it, or amounts up to one more; none for a number that no call takes. */
static size_t columns(call asked, uint64_t number)
{
    if (LARGEST_NUMBER < number)
        return 0;
    return asked == SHORTEST ? number : number + 1;
}

size_t cells_used(const trial *now, call asked, uint64_t number)
{
    return fields_with(now->bytes, now->size, ROW_TAG) * columns(asked, number);
}

/* Whether a call that answers so has filled its cells: with no refusal, and with 13 and 14, which come last. */
static bool fills(unsigned number)
{
    return number == 0 || number == 13 || number == 14;
}

/* The call that must fill the same cells. */
static call twin_of(call asked)
{
    static const call twins[] = {MARGIN, VERDICT_BY_INTERVAL, MARGIN, VERDICT_BY_AMOUNT, SHORTEST, VERDICT_BY_INTERVAL};
    return twins[asked];
}

/* The cells of an amount are those of the horizon one below it. */
static uint64_t twin_number(call asked, uint64_t number)
{
    if (asked == SHORTEST)
        return number - 1;
    return asked == VERDICT_BY_AMOUNT ? number + 1 : number;
}

static void hold_cells_to(trial *now, call asked, call twin, size_t used)
{
    const uint32_t *ours = cells_of(&now->cells), *theirs = cells_of(&now->twin_cells);
    size_t count = used < cell_count(&now->cells) ? used : cell_count(&now->cells);
    size_t at = 0;
    while (at < count && ours[at] == theirs[at])
        at++;
    if (at < count)
        wrong(now, "cell %zu is %" PRIu32 " by %s but %" PRIu32 " by %s", at, ours[at], name_of(asked), theirs[at], name_of(twin));
}

/* The twin's memory has other marks, so that a cell that neither of the two fills is noticed. */
static void hold_to_twin(trial *now, call asked, uint64_t number, size_t used)
{
    call twin = twin_of(asked);
    lend_sheet(now);
    lend(&now->twin_cells, now->cells.size);
    ask(twin, &now->sheet, twin_number(asked, number), &now->twin_cells, NULL);
    hold_sheet(now, name_of(twin));
    hold_area(now, name_of(twin), "cell", &now->twin_cells, used, CELL);
    hold_cells_to(now, asked, twin, used);
}

outcome try_call(trial *now, call asked, uint64_t number, size_t cells, size_t witness)
{
    const char *who = name_of(asked);
    lend_sheet(now);
    lend(&now->cells, cells * CELL);
    lend(&now->witness, witness);
    outcome got = ask(asked, &now->sheet, number, &now->cells, &now->witness);
    size_t used = fills(got.number) ? cells_used(now, asked, number) : 0;
    hold_sheet(now, who);
    hold_area(now, who, "cell", &now->cells, used, CELL);
    hold_area(now, who, "witness byte", &now->witness, got.count, 1);
    if (0 < used)
        hold_to_twin(now, asked, number, used);
    now->has_called = true;
    return got;
}
