/* The words about steps through a file: a field that the reader finds, and every file that stops before its end. */
#include "fields.h"
#include "marnipode.h"
#include "words.h"

/* The kind that the reader gives a tag of a case; false for a tag that no field has. */
static bool kind_of(uint64_t tag, uint8_t *kind)
{
    *kind = tag == SKIPPED_TAG ? MARNIPODE_SKIPPED : (uint8_t)tag;
    return tag == SKIPPED_TAG || (LABEL_TAG <= tag && tag <= END_TAG);
}

/* `is TAG START SIZE NEXT` */
static bool found_said(const line *said, marnipode_field_answer *must)
{
    uint64_t tag, start, size, next;
    if (!says(said, 2, "is") || !number_at(said, 3, &tag) || !number_at(said, 4, &start) || !number_at(said, 5, &size))
        return false;
    *must = (marnipode_field_answer){.start = start, .size = size};
    if (!number_at(said, 6, &next) || !kind_of(tag, &must->kind))
        return false;
    must->next = next;
    return said->count == 7;
}

static bool step_said(const line *said, marnipode_field_answer *must)
{
    outcome refusal;
    if (!refusal_said(said, 2, &refusal))
        return found_said(said, must);
    *must = (marnipode_field_answer){.number = (uint8_t)refusal.number, .place = refusal.place};
    return true;
}

static bool is_same_field(marnipode_field_answer got, marnipode_field_answer must)
{
    return got.number == must.number && got.place == must.place && got.kind == must.kind && got.start == must.start &&
           got.size == must.size && got.next == must.next;
}

void read_field(trial *now, const line *said)
{
    uint64_t place;
    marnipode_field_answer must;
    if (!number_at(said, 1, &place) || !step_said(said, &must)) {
        misread(now);
        return;
    }
    compare(now);
    lend_sheet(now);
    marnipode_field_answer got = marnipode_field_at(now->sheet.start, now->sheet.size, place);
    hold_sheet(now, "the reader");
    word expected = rest_of(said, 2);
    if (!is_same_field(got, must))
        wrong(now, "expected %.*s, got number %u, place %zu, kind %u, start %zu, size %zu, next %zu", (int)expected.size,
              expected.start, got.number, got.place, got.kind, got.start, got.size, got.next);
}

/* The file of the first `size` bytes. The rest of the sheet stands behind it, so that a judge who reads on would find it whole. */
static void compare_prefix(trial *now, size_t size)
{
    size_t place = cut_off_field(now->bytes, size);
    compare(now);
    marnipode_judge_answer got = marnipode_judge(now->sheet.start, size);
    if (got.number != 1 || got.place != place)
        wrong(now, "expected 1 %zu for the first %zu bytes, got %u %zu", place, size, got.number, got.place);
    if (got.modes != 0 || got.rows != 0 || got.tasks != 0)
        wrong(now, "the first %zu bytes are refused, but with numbers that are not 0", size);
}

void read_prefixes(trial *now, const line *said)
{
    if (said->count != 1 || now->size == 0) {
        misread(now);
        return;
    }
    lend_sheet(now);
    for (size_t size = 0; size < now->size; size++)
        compare_prefix(now, size);
    hold_sheet(now, "the judge");
}
