/* A sheet as the C that is measured has it: its numbers are read once, its gaps stay in the bytes. */
#ifndef SHEET_H
#define SHEET_H

#include "numbers.h"

enum { ROWS = 32, TASKS = 16, MODES = 8, LONGEST_TIME = 65535 };

/* The tags of the fields. */
enum { LABEL = 1, MODE = 2, ROW = 3, TASK = 4, END = 5 };

/*
 * Bytes of a field ahead of its content, of a row's content ahead of its gaps, of a mode's content ahead of a fall-back, and of a task's
 * content ahead of a jitter.
 */
enum { HEAD_SIZE = 3, ROW_SIZE = 8, GAP_SIZE = 2, MODE_SIZE = 4, FALLBACK_SIZE = 2, TASK_SIZE = 6, JITTER_SIZE = 2 };

struct mode {
    cell_number boundary, length, fallback;
};

struct row {
    cell_number speed, length, deadline;
    set_number followers;
    place_number gaps;
};

struct task {
    cell_number length, period, deadline, jitter;
};

struct sheet {
    place_number modes, rows, tasks;
    struct mode mode[MODES];
    struct row row[ROWS];
    struct task task[TASKS];
};

static inline cell_number word(const byte_number *bytes, place_number at)
{
    return (cell_number)bytes[at] * 256 + bytes[at + 1];
}

/* Reads a sheet, which is trusted. */
void read_sheet(const byte_number *bytes, struct sheet *sheet);

#endif
