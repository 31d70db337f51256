/* The words about the writer: the values that it is given, and what it makes of an output. */
#include <string.h>

#include "words.h"

static columns given, told;

/* `values`, or `values of sheet`: those that the reading calls tell of the sheet. */
void read_values(trial *now, const line *said)
{
    clear_columns(&given);
    if (said->count == 1)
        return;
    if (!now->has_sheet || !says(said, 1, "of") || !says(said, 2, "sheet") || said->count != 3) {
        misread(now);
        return;
    }
    lend_sheet(now);
    read_columns(&given, now->sheet.start, now->sheet.size);
    hold_sheet(now, "a call for values");
}

/* The numbers of a line, from a word on, each for one column. */
static bool add_each(const line *said, size_t from, column *const *to, size_t count)
{
    uint64_t value;
    for (size_t i = 0; i < count; i++) {
        if (!number_at(said, from + i, &value) || !add_value(to[i], value))
            return false;
    }
    return true;
}

/* `RPM DEADLINE SET GAP GAP ..`, the set in hexadecimal, high byte first. */
static bool add_row(const line *said)
{
    line set = {.words = {said->words[4]}, .count = 1, .fits = true};
    uint8_t bytes[sizeof(uint64_t)];
    size_t size = 0;
    uint64_t followers = 0;
    if (said->count < 5 || !add_bytes(&set, 0, bytes, sizeof bytes, &size))
        return false;
    for (size_t i = 0; i < size; i++)
        followers = followers << 8 | bytes[i];
    if (!add_each(said, 2, (column *const[]){&given.speeds, &given.deadlines}, 2) || !add_followers(&given, followers))
        return false;
    for (size_t i = 5; i < said->count; i++) {
        if (!add_each(said, i, (column *const[]){&given.gaps}, 1))
            return false;
    }
    return true;
}

/* `BOUNDARY LENGTH`, or `BOUNDARY LENGTH FALLBACK`: without a fall-back it is the boundary. */
static bool add_mode(const line *said)
{
    size_t fallback = said->count == 5 ? 4 : 2;
    return (said->count == 4 || said->count == 5) &&
           add_each(said, 2, (column *const[]){&given.boundaries, &given.lengths}, 2) &&
           add_each(said, fallback, (column *const[]){&given.fallbacks}, 1);
}

/* `LENGTH PERIOD DEADLINE`, or `LENGTH PERIOD DEADLINE JITTER`: without a jitter it is 0. */
static bool add_task(const line *said)
{
    if (!add_each(said, 2, (column *const[]){&given.task_lengths, &given.task_periods, &given.task_deadlines}, 3))
        return false;
    if (said->count == 5)
        return add_value(&given.task_jitters, 0);
    return said->count == 6 && add_each(said, 5, (column *const[]){&given.task_jitters}, 1);
}

static bool add_said(const line *said)
{
    if (says(said, 1, "label"))
        return add_bytes(said, 2, given.label, MOST_LABEL, &given.label_size);
    if (says(said, 1, "mode"))
        return add_mode(said);
    if (says(said, 1, "row"))
        return add_row(said);
    return says(said, 1, "task") && add_task(said);
}

void read_with(trial *now, const line *said)
{
    if (!add_said(said))
        misread(now);
}

/* `without COLUMN`: the last number of a column is taken away, so that the columns of its kind part. */
void read_without(trial *now, const line *said)
{
    static const struct {
        const char *name;
        size_t *count;
    } named[] = {
        {"boundary", &given.boundaries.count},      {"length", &given.lengths.count},
        {"fallback", &given.fallbacks.count},       {"speed", &given.speeds.count},
        {"deadline", &given.deadlines.count},       {"set", &given.follower_count},
        {"gap", &given.gaps.count},                 {"task-length", &given.task_lengths.count},
        {"task-period", &given.task_periods.count}, {"task-deadline", &given.task_deadlines.count},
        {"task-jitter", &given.task_jitters.count},
    };
    for (size_t i = 0; i < sizeof named / sizeof named[0]; i++) {
        if (says(said, 1, named[i].name) && 0 < *named[i].count && said->count == 2) {
            --*named[i].count;
            return;
        }
    }
    misread(now);
}

/* One of the two calls, into an output that holds marks; what it must write is the sheet, or nothing. */
static void hold_writing(trial *now, const char *who, uint64_t room, marnipode_write_answer must,
                         marnipode_write_answer (*call_it)(const columns *, uint8_t *, size_t))
{
    told = given;
    lend(&now->output, room);
    marnipode_write_answer got = call_it(&told, now->output.start, now->output.size);
    if (got.number != must.number || got.place != must.place || got.size != must.size)
        wrong(now, "expected %u at %zu and %zu bytes from %s, got %u at %zu and %zu", must.number, must.place, must.size, who,
              got.number, got.place, got.size);
    hold_area(now, who, "byte", &now->output, must.size, 1);
    if (memcmp(now->output.start, now->bytes, must.size) != 0)
        wrong(now, "%s wrote another sheet", who);
    if (!are_same(&told, &given))
        wrong(now, "%s changed the values", who);
}

/* `write ROOM gives sheet`, `write ROOM refused NUMBER 0` */
void read_write(trial *now, const line *said)
{
    uint64_t room;
    outcome refusal;
    marnipode_write_answer must = {0, 0, now->size};
    bool gives = now->has_sheet && says(said, 2, "gives") && says(said, 3, "sheet") && said->count == 4;
    bool refused = refusal_said(said, 2, &refusal);
    if (!number_at(said, 1, &room) || MOST_OUTPUT < room || (gives && room < now->size) || gives == refused) {
        misread(now);
        return;
    }
    if (refused)
        must = (marnipode_write_answer){(uint8_t)refusal.number, refusal.place, 0};
    compare(now);
    hold_writing(now, "write_columns", room, must, write_columns);
    if (are_even(&given))
        hold_writing(now, "write", room, must, write_struct);
}

/* `reads back`: the sheet is accepted, and the reading calls tell the values again. */
void read_reads(trial *now, const line *said)
{
    if (!says(said, 1, "back") || said->count != 2) {
        misread(now);
        return;
    }
    compare(now);
    lend_sheet(now);
    if (marnipode_judge(now->sheet.start, now->sheet.size).number != 0)
        wrong(now, "the sheet is refused");
    read_columns(&told, now->sheet.start, now->sheet.size);
    hold_sheet(now, "a call for values");
    if (!are_same(&told, &given))
        wrong(now, "the sheet has other values");
}
