/* The words about the calls' answers, and about the cells as the last call left them. */
#include <inttypes.h>
#include <string.h>

#include "asking.h"
#include "words.h"

bool refusal_said(const line *said, size_t at, outcome *must)
{
    uint64_t number, place;
    if (!says(said, at, "refused") || !number_at(said, at + 1, &number) || !number_at(said, at + 2, &place))
        return false;
    *must = (outcome){.number = (unsigned)number, .place = place};
    return 0 < number && number <= UINT8_MAX && said->count == at + 3;
}

/* A word and a number, which may be all that follows. */
static bool value_said(const line *said, const char *before, outcome *must)
{
    *must = (outcome){0};
    return says(said, 2, before) && signed_number_at(said, 3, &must->value);
}

static void tell_answer(trial *now, call asked, outcome got, word expected)
{
    char spelled[SPELLED];
    spell(spelled, asked, got, &now->witness);
    wrong(now, "expected %.*s, got %s from %s", (int)expected.size, expected.start, spelled, name_of(asked));
}

void hold_answer(trial *now, call asked, outcome got, outcome must, word expected)
{
    if (!is_same(got, must))
        tell_answer(now, asked, got, expected);
}

/* What the line expects, without `is`. */
static word expected_by(const line *said)
{
    return rest_of(said, says(said, 2, "is") ? 3 : 2);
}

/* A call on some cells more than it uses, so that it can be seen to leave them, unless the text lends fewer. */
static outcome try_on_lent(trial *now, call asked, uint64_t number)
{
    enum { MORE = 7 };
    size_t cells = cells_used(now, asked, number) + MORE;
    if (now->most_cells < cells)
        cells = now->most_cells;
    return try_call(now, asked, number, cells, now->most_witness);
}

static void hold_call(trial *now, const line *said, call asked, uint64_t number, outcome must)
{
    hold_answer(now, asked, try_on_lent(now, asked, number), must, expected_by(said));
}

bool rows_said(const line *said, size_t at, uint8_t *rows, size_t *count)
{
    *count = 0;
    if (said->count == at)
        return true;
    if (!says(said, at, "by") || said->count == at + 1 || MOST_WITNESS < said->count - at - 1)
        return false;
    for (size_t i = at + 1; i < said->count; i++) {
        uint64_t row;
        if (!number_at(said, i, &row) || UINT8_MAX < row)
            return false;
        rows[(*count)++] = (uint8_t)row;
    }
    return true;
}

void hold_witnessed(trial *now, const line *said, call asked, uint64_t number, outcome must, const uint8_t *rows)
{
    outcome got = try_on_lent(now, asked, number);
    if (!is_same(got, must) || memcmp(now->witness.start, rows, must.count) != 0)
        tell_answer(now, asked, got, expected_by(said));
}

static bool demand_said(const line *said, outcome *must, uint8_t *rows)
{
    if (refusal_said(said, 2, must))
        return true;
    return value_said(said, "is", must) && 0 <= must->value && rows_said(said, 4, rows, &must->count);
}

void read_demand(trial *now, const line *said)
{
    uint8_t rows[MOST_WITNESS];
    uint64_t interval;
    outcome must;
    if (!number_at(said, 1, &interval) || !demand_said(said, &must, rows)) {
        misread(now);
        return;
    }
    compare(now);
    hold_witnessed(now, said, DEMAND, interval, must, rows);
}

void read_margin(trial *now, const line *said)
{
    uint64_t interval;
    outcome must;
    bool is_value = value_said(said, "is", &must) && said->count == 4;
    if (!number_at(said, 1, &interval) || (!is_value && !refusal_said(said, 2, &must))) {
        misread(now);
        return;
    }
    compare(now);
    hold_call(now, said, MARGIN, interval, must);
}

static bool verdict_said(const line *said, outcome *must)
{
    if (refusal_said(said, 2, must))
        return true;
    if (value_said(said, "overrun", must))
        return 0 < must->value && said->count == 4;
    return says(said, 2, "holds") && said->count == 3;
}

/* Both verdicts, the one by amount last, so that the cells behind the line are those by amount. */
void read_verdict(trial *now, const line *said)
{
    uint64_t horizon;
    outcome must;
    if (!number_at(said, 1, &horizon) || !verdict_said(said, &must)) {
        misread(now);
        return;
    }
    compare(now);
    hold_call(now, said, VERDICT_BY_INTERVAL, horizon, must);
    hold_call(now, said, VERDICT_BY_AMOUNT, horizon, must);
}

void read_shortest(trial *now, const line *said)
{
    uint64_t amount;
    outcome must;
    bool is_value = value_said(said, "is", &must) && 0 <= must.value && said->count == 4;
    if (!number_at(said, 1, &amount) || (!is_value && !refusal_said(said, 2, &must))) {
        misread(now);
        return;
    }
    compare(now);
    hold_call(now, said, SHORTEST, amount, must);
}

/* `is VALUE`, or `kept`: then the cell holds its mark. */
static bool cell_said(const line *said, bool *kept, uint64_t *value)
{
    *kept = says(said, 2, "kept") && said->count == 3;
    return *kept || (says(said, 2, "is") && number_at(said, 3, value) && said->count == 4);
}

static void hold_cell(trial *now, const line *said, size_t index, bool is_right)
{
    word expected = expected_by(said);
    if (!is_right)
        wrong(now, "expected %.*s, got %" PRIu32, (int)expected.size, expected.start, cells_of(&now->cells)[index]);
}

void read_cell(trial *now, const line *said)
{
    uint64_t index, value;
    bool kept;
    if (!number_at(said, 1, &index) || !cell_said(said, &kept, &value)) {
        misread(now);
        return;
    }
    compare(now);
    if (!now->has_called || cell_count(&now->cells) <= index)
        wrong(now, "no call was lent this cell");
    else if (kept)
        hold_cell(now, said, index, is_kept(&now->cells, index * sizeof(uint32_t), sizeof(uint32_t)));
    else
        hold_cell(now, said, index, cells_of(&now->cells)[index] == value);
}
