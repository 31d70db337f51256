/* What a word of a case works on: where the text stands, the sheet, what is lent, and what was compared. */
#ifndef TESTS_TRIAL_H
#define TESTS_TRIAL_H

#include <stdbool.h>
#include <stddef.h>
#include <stdint.h>

#include "lent.h"
#include "score.h"
#include "text.h"

/* The longest sheet has three skipped fields of the greatest length; the longest witness of a case has fewer rows than the area. */
enum { MOST_SHEET = 200000, MOST_WITNESS = 300 };

/* The most room that a sheet is written into: more than the largest one takes. */
enum { MOST_OUTPUT = 8192 };

typedef struct {
    /* The text, the line in it, and what has been told of it. */
    const char *file;
    size_t line_number;
    word line_text;
    unsigned told;

    /* The group, and the scores of it and of the groups before it. `is_open` and `is_wrong` are of one comparison. */
    word group_name;
    size_t group_line;
    score group;
    score before;
    bool is_open;
    bool is_wrong;

    /* The sheet's bytes, and the memory that a call is given: they stand in `sheet` while it runs. */
    uint8_t bytes[MOST_SHEET];
    size_t size;
    bool has_sheet;
    area sheet;
    area cells;
    area twin_cells;
    area witness;
    area output;

    /* The most cells and witness bytes that a call is lent, and whether a call has filled `cells` for this sheet. */
    uint64_t most_cells;
    uint64_t most_witness;
    bool has_called;
} trial;

void start_trial(trial *now);

/* A text begins or ends. Its end tells the last group. */
void open_file(trial *now, const char *file);
void close_file(trial *now);

/* A group begins, and the one before it, if any, is told. */
void open_group(trial *now, word name);

/* One comparison more: what is wrong until the next one makes it a wrong one, once. */
void compare(trial *now);

/* Tells what is wrong at this line, as printf would, and counts it. */
void wrong(trial *now, const char *format, ...)
#ifdef __GNUC__
    __attribute__((format(printf, 2, 3)))
#endif
    ;

/* The line cannot be understood, which counts as a wrong answer. */
void misread(trial *now);

/* Forgets the sheet, and what was lent for it. */
void forget_sheet(trial *now);

/* Puts the sheet where the calls are given it, and says after a call whether it still stands there as it did. */
void lend_sheet(trial *now);
void hold_sheet(trial *now, const char *who);

/* Holds lent memory to its marks after a call: the guard zones, and all elements of so many bytes but the first `used`. */
void hold_area(trial *now, const char *who, const char *what, const area *lent, size_t used, size_t each);

#endif
