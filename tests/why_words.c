/* The word about the call explain: why the verdict fails, with the numbers of the first overrun, or why it holds. */
#include "words.h"

/* The names of the causes; a word that is none of them is no cause. */
static unsigned cause_at(const line *said, size_t at)
{
    if (says(said, at, "engine"))
        return MARNIPODE_CAUSE_ENGINE;
    if (says(said, at, "fixed"))
        return MARNIPODE_CAUSE_FIXED;
    return says(said, at, "together") ? MARNIPODE_CAUSE_TOGETHER : MARNIPODE_CAUSE_NONE;
}

/* The demands of the fixed tasks from a word on, up to `excess`. Says how many words they are. */
static bool demands_said(const line *said, size_t at, uint64_t *demands, size_t *count)
{
    *count = 0;
    while (!says(said, at + *count, "excess")) {
        if (*count == MARNIPODE_MOST_TASKS || !number_at(said, at + *count, &demands[*count]))
            return false;
        ++*count;
    }
    return true;
}

/* `fails INTERVAL CAUSE amount AMOUNT each DEMAND .. excess EXCESS by ROW ..` */
static bool overrun_said(const line *said, outcome *must, uint8_t *rows)
{
    size_t tasks;
    *must = (outcome){.why.cause = cause_at(said, 4)};
    if (!says(said, 2, "fails") || !signed_number_at(said, 3, &must->value) || must->value <= 0)
        return false;
    if (must->why.cause == MARNIPODE_CAUSE_NONE || !says(said, 5, "amount") || !number_at(said, 6, &must->why.engine))
        return false;
    if (!says(said, 7, "each") || !demands_said(said, 8, must->why.demands, &tasks))
        return false;
    return number_at(said, 9 + tasks, &must->why.excess) && rows_said(said, 10 + tasks, rows, &must->count);
}

/* `holds nothing`, or `holds margin MARGIN at INTERVAL`. */
static bool margin_said(const line *said, outcome *must)
{
    *must = (outcome){0};
    if (!says(said, 2, "holds"))
        return false;
    if (says(said, 3, "nothing"))
        return said->count == 4;
    return says(said, 3, "margin") && number_at(said, 4, &must->why.margin) && says(said, 5, "at") &&
           number_at(said, 6, &must->why.interval) && 0 < must->why.interval && said->count == 7;
}

void read_why(trial *now, const line *said)
{
    uint8_t rows[MOST_WITNESS];
    uint64_t horizon;
    outcome must;
    bool is_said = overrun_said(said, &must, rows) || margin_said(said, &must) || refusal_said(said, 2, &must);
    if (!number_at(said, 1, &horizon) || !is_said) {
        misread(now);
        return;
    }
    compare(now);
    hold_witnessed(now, said, EXPLAIN, horizon, must, rows);
}
