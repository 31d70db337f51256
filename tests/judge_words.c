/* The words about a file as a whole: that it is accepted or refused, and its label. */
#include <string.h>

#include "asking.h"
#include "fields.h"
#include "marnipode.h"
#include "words.h"

static void hold_judge(trial *now, marnipode_judge_answer must)
{
    lend_sheet(now);
    marnipode_judge_answer got = marnipode_judge(now->sheet.start, now->sheet.size);
    hold_sheet(now, "the judge");
    if (got.number != must.number || got.place != must.place)
        wrong(now, "expected %u %zu from the judge, got %u %zu", must.number, must.place, got.number, got.place);
    if (got.modes != must.modes || got.rows != must.rows || got.tasks != must.tasks)
        wrong(now, "expected %zu modes, %zu rows and %zu tasks from the judge, got %zu, %zu and %zu", must.modes, must.rows,
              must.tasks, got.modes, got.rows, got.tasks);
}

void read_accepted(trial *now, const line *said)
{
    if (said->count != 1) {
        misread(now);
        return;
    }
    compare(now);
    size_t modes = fields_with(now->bytes, now->size, MODE_TAG);
    size_t rows = fields_with(now->bytes, now->size, ROW_TAG);
    size_t tasks = fields_with(now->bytes, now->size, TASK_TAG);
    hold_judge(now, (marnipode_judge_answer){0, 0, modes, rows, tasks});
}

static void hold_label(trial *now, size_t start, size_t size)
{
    lend_sheet(now);
    marnipode_label_answer got = marnipode_label(now->sheet.start, now->sheet.size);
    if (got.start != start || got.size != size)
        wrong(now, "expected a label of %zu bytes at %zu, got %zu at %zu", size, start, got.size, got.start);
    hold_sheet(now, "the call for the label");
}

/* Every call is made twice: with the number 1, and with one that it would refuse itself. */
static void hold_all_calls(trial *now, outcome must, word expected)
{
    enum { CELLS = 3 };
    for (unsigned i = 0; i < 2 * CALLS; i++) {
        call asked = (call)(i % CALLS);
        uint64_t number = i < CALLS ? 1 : 65537;
        hold_answer(now, asked, try_call(now, asked, number, CELLS, MOST_WITNESS), must, expected);
    }
}

void read_refused(trial *now, const line *said)
{
    outcome must;
    if (!refusal_said(said, 0, &must)) {
        misread(now);
        return;
    }
    compare(now);
    hold_judge(now, (marnipode_judge_answer){(uint8_t)must.number, must.place, 0, 0, 0});
    hold_label(now, 0, 0);
    hold_no_values(now);
    hold_all_calls(now, must, rest_of(said, 0));
}

/* The label's place is found by the headers, and the bytes there are those of the case. */
void read_label(trial *now, const line *said)
{
    uint8_t label[MOST_WITNESS];
    size_t size = 0;
    if (!says(said, 1, "is") || !add_bytes(said, 2, label, sizeof label, &size) || size == 0) {
        misread(now);
        return;
    }
    compare(now);
    size_t start = field_with(now->bytes, now->size, LABEL_TAG) + 3;
    hold_label(now, start, size);
    if (now->size < start + size || memcmp(now->bytes + start, label, size) != 0)
        wrong(now, "the sheet has another label");
}
