/* The sheets that are measured, made on the spot. */
#ifndef MADE_H
#define MADE_H

#include <stddef.h>
#include <stdint.h>

enum { MOST_ROWS = 32, MOST_MODES = 8, MOST_TASKS = 16, MOST_SHEET = 4096 };

/* A sheet's bytes, how many rows it has, and how many followers all rows have together. */
typedef struct {
    uint8_t bytes[MOST_SHEET];
    size_t size;
    unsigned rows;
    unsigned edges;
} made_sheet;

/*
 * A sheet whose rows have the same count of followers: each row is followed by itself and the next ones, the first after the
 * last. Deadlines and gaps fall as the speed rises. The first modes have bands and the first tasks jitters, as many as are said.
 */
void make_even_sheet(made_sheet *made, const char *label, unsigned bands, unsigned rows, unsigned followers, unsigned longest,
                     unsigned tasks, unsigned jitters);

/* A sheet of 32 rows whose followers are chosen in the same way, and whose deadlines and job lengths are below eight ticks. */
void make_short_sheet(made_sheet *made, unsigned followers);

/*
 * A sheet of 32 rows by chance, the same one every time: deadlines of 8 to 1,200 ticks, 1 to 32 followers, gaps up to 600 ticks longer
 * than the deadline, job lengths of 8 to 2,000.
 */
void make_mixed_sheet(made_sheet *made);

#endif
