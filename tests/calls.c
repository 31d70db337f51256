/* How each call is made, and how its numbers become one kind of answer. */
#include "calls.h"

#include <inttypes.h>
#include <stdio.h>
#include <string.h>

const char *name_of(call asked)
{
    static const char *const names[] = {"demand", "margin", "verdict by interval", "shortest", "verdict by amount",
                                        "explain"};
    return names[asked];
}

static outcome ask_demand(const area *sheet, uint64_t interval, const area *cells, const area *witness)
{
    marnipode_demand_answer got = marnipode_demand(sheet->start, sheet->size, interval, cells_of(cells), cell_count(cells),
                                                   witness->start, witness->size);
    return (outcome){.number = got.number, .place = got.place, .value = got.amount, .count = got.count};
}

static outcome ask_margin(const area *sheet, uint64_t interval, const area *cells)
{
    marnipode_margin_answer got = marnipode_margin(sheet->start, sheet->size, interval, cells_of(cells), cell_count(cells));
    return (outcome){.number = got.number, .place = got.place, .value = got.margin};
}

static outcome ask_shortest(const area *sheet, uint64_t amount, const area *cells)
{
    marnipode_shortest_answer got = marnipode_shortest(sheet->start, sheet->size, amount, cells_of(cells), cell_count(cells));
    return (outcome){.number = got.number, .place = got.place, .value = got.time};
}

static outcome verdict(marnipode_verdict_answer got)
{
    return (outcome){.number = got.number, .place = got.place, .value = (int64_t)got.overrun};
}

static outcome ask_explain(const area *sheet, uint64_t horizon, const area *cells, const area *witness)
{
    marnipode_explain_answer got = marnipode_explain(sheet->start, sheet->size, horizon, cells_of(cells), cell_count(cells),
                                                     witness->start, witness->size);
    outcome told = {.number = got.number, .place = got.place, .value = (int64_t)got.overrun, .count = got.count};
    told.why = (reasons){got.cause, got.engine, {0}, got.excess, got.margin, got.interval};
    memcpy(told.why.demands, got.demands, sizeof told.why.demands);
    return told;
}

outcome ask(call asked, const area *sheet, uint64_t number, const area *cells, const area *witness)
{
    uint32_t *lent = cells_of(cells);
    size_t count = cell_count(cells);
    switch (asked) {
    case DEMAND:
        return ask_demand(sheet, number, cells, witness);
    case MARGIN:
        return ask_margin(sheet, number, cells);
    case VERDICT_BY_INTERVAL:
        return verdict(marnipode_verdict_by_interval(sheet->start, sheet->size, number, lent, count));
    case SHORTEST:
        return ask_shortest(sheet, number, cells);
    case EXPLAIN:
        return ask_explain(sheet, number, cells, witness);
    default:
        return verdict(marnipode_verdict_by_amount(sheet->start, sheet->size, number, lent, count));
    }
}

static bool is_same_reason(const reasons *got, const reasons *must)
{
    return got->cause == must->cause && got->engine == must->engine && got->excess == must->excess &&
           got->margin == must->margin && got->interval == must->interval &&
           memcmp(got->demands, must->demands, sizeof must->demands) == 0;
}

bool is_same(outcome got, outcome must)
{
    return got.number == must.number && got.place == must.place && got.value == must.value && got.count == must.count &&
           is_same_reason(&got.why, &must.why);
}

static int spell_refusal(char *room, outcome got)
{
    if (got.value == 0 && got.count == 0)
        return snprintf(room, SPELLED, "refused %u %zu", got.number, got.place);
    return snprintf(room, SPELLED, "refused %u %zu with value %" PRId64 " and count %zu", got.number, got.place, got.value,
                    got.count);
}

static int spell_value(char *room, call asked, outcome got)
{
    if (got.place != 0)
        return snprintf(room, SPELLED, "%" PRId64 " with place %zu", got.value, got.place);
    if (asked == DEMAND || asked == MARGIN || asked == SHORTEST)
        return snprintf(room, SPELLED, "%" PRId64, got.value);
    if (got.value == 0)
        return snprintf(room, SPELLED, "holds");
    return snprintf(room, SPELLED, "overrun %" PRId64, got.value);
}

/* All reasons behind what is spelled already, also those that must be 0. */
static size_t spell_reasons(char *room, size_t used, const reasons *why)
{
    used += (size_t)snprintf(room + used, SPELLED - used, ", cause %u amount %" PRIu64 " each", why->cause, why->engine);
    for (size_t i = 0; i < MARNIPODE_MOST_TASKS; i++)
        used += (size_t)snprintf(room + used, SPELLED - used, " %" PRIu64, why->demands[i]);
    used += (size_t)snprintf(room + used, SPELLED - used, " excess %" PRIu64 ", margin %" PRIu64 " at %" PRIu64, why->excess,
                             why->margin, why->interval);
    return used;
}

void spell(char *room, call asked, outcome got, const area *witness)
{
    size_t used = (size_t)(got.number != 0 ? spell_refusal(room, got) : spell_value(room, asked, got));
    if (asked == EXPLAIN)
        used = spell_reasons(room, used, &got.why);
    if (got.number != 0)
        return;
    for (size_t i = 0; i < got.count && i < witness->size && used + 8 < SPELLED; i++)
        used += (size_t)snprintf(room + used, SPELLED - used, "%s %u", i == 0 ? " by" : "", (unsigned)witness->start[i]);
}
