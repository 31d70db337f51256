/* How comparisons are counted and told, and how the sheet and other lent memory are held to what they were. */
#include "trial.h"

#include <stdarg.h>
#include <stdio.h>
#include <string.h>

/* What is told of one text; more than this is counted only. */
enum { MOST_TOLD = 20 };

void start_trial(trial *now)
{
    now->sheet = make_area(MOST_SHEET, 0);
    now->cells = make_area(MOST_LENT, 1);
    now->twin_cells = make_area(MOST_LENT, 2);
    now->witness = make_area(MOST_WITNESS, 3);
    now->output = make_area(MOST_OUTPUT, 4);
}

void forget_sheet(trial *now)
{
    now->size = 0;
    now->has_sheet = false;
    now->most_cells = UINT64_MAX;
    now->most_witness = UINT64_MAX;
    now->has_called = false;
}

void open_file(trial *now, const char *file)
{
    now->file = file;
    now->line_number = 0;
    now->told = 0;
    now->group_name = (word){"outside of groups", 17};
    now->group_line = 0;
    now->group = (score){0, 0};
    now->before = (score){0, 0};
    forget_sheet(now);
}

void compare(trial *now)
{
    now->group.compared++;
    now->is_open = true;
    now->is_wrong = false;
}

void wrong(trial *now, const char *format, ...)
{
    if (!now->is_open)
        compare(now);
    if (!now->is_wrong)
        now->group.wrong++;
    now->is_wrong = true;
    now->told++;
    if (now->told == MOST_TOLD + 1)
        printf("%s: more is wrong than is told here\n", now->file);
    if (MOST_TOLD < now->told)
        return;
    va_list values;
    va_start(values, format);
    printf("%s:%zu: ", now->file, now->line_number);
    vprintf(format, values);
    printf("\n");
    va_end(values);
}

void misread(trial *now)
{
    wrong(now, "cannot be understood: %.*s", (int)now->line_text.size, now->line_text.start);
}

/* Tells the group that ends here. One without a case could not fail, so that is wrong. */
static void close_group(trial *now)
{
    if (now->group_line != 0 && now->group.compared == 0) {
        now->line_number = now->group_line;
        wrong(now, "the group has no case");
    }
    if (0 < now->group.compared)
        print_score(now->group_name.start, (int)now->group_name.size, now->group);
    now->before = sum_of(now->before, now->group);
    now->group = (score){0, 0};
}

void open_group(trial *now, word name)
{
    size_t here = now->line_number;
    close_group(now);
    now->line_number = here;
    now->group_line = here;
    now->group_name = name;
}

void close_file(trial *now)
{
    close_group(now);
    now->is_open = false;
    if (now->before.compared == 0) {
        wrong(now, "the text has no case");
        close_group(now);
    }
}

void lend_sheet(trial *now)
{
    lend_copy(&now->sheet, now->bytes, now->size);
}

void hold_sheet(trial *now, const char *who)
{
    const char *side = guard_changed(&now->sheet);
    if (side != NULL)
        wrong(now, "%s wrote %s the sheet", who, side);
    if (memcmp(now->sheet.start, now->bytes, now->size) != 0)
        wrong(now, "%s changed the sheet", who);
}

void hold_area(trial *now, const char *who, const char *what, const area *lent, size_t used, size_t each)
{
    const char *side = guard_changed(lent);
    if (side != NULL)
        wrong(now, "%s wrote %s the %zu %ss that it was lent", who, side, lent->size / each, what);
    size_t at = first_change(lent, used * each);
    if (at < lent->size)
        wrong(now, "%s changed %s %zu, which it must leave", who, what, at / each);
}
