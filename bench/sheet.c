/* How a sheet is read for the tables in C. */
#include "sheet.h"

/* The slowest mode that reaches the speed has its length; above the fall-back it is the next mode's where that is longer. */
static cell_number job_length(const struct sheet *sheet, cell_number speed)
{
    const struct mode *mode = sheet->mode;
    while (mode->boundary < speed)
        mode++;
    return mode->fallback < speed && mode->length < mode[1].length ? mode[1].length : mode->length;
}

static void read_mode(const byte_number *bytes, place_number start, place_number size, struct mode *mode)
{
    mode->boundary = word(bytes, start);
    mode->length = word(bytes, start + 2);
    mode->fallback = size == MODE_SIZE ? mode->boundary : word(bytes, start + MODE_SIZE);
}

static void read_row(const byte_number *bytes, place_number start, const struct sheet *sheet, struct row *row)
{
    row->speed = word(bytes, start);
    row->length = job_length(sheet, row->speed);
    row->deadline = word(bytes, start + 2);
    row->followers = (set_number)word(bytes, start + 4) * 65536 + word(bytes, start + 6);
    row->gaps = start + ROW_SIZE;
}

static void read_task(const byte_number *bytes, place_number start, place_number size, struct task *task)
{
    task->length = word(bytes, start);
    task->period = word(bytes, start + 2);
    task->deadline = word(bytes, start + 4);
    task->jitter = size == TASK_SIZE ? 0 : word(bytes, start + TASK_SIZE);
}

void read_sheet(const byte_number *bytes, struct sheet *sheet)
{
    place_number size;
    sheet->modes = sheet->rows = sheet->tasks = 0;
    for (place_number at = 0; bytes[at] != END; at += HEAD_SIZE + size) {
        place_number start = at + HEAD_SIZE;
        size = word(bytes, at + 1);
        if (bytes[at] == MODE)
            read_mode(bytes, start, size, &sheet->mode[sheet->modes++]);
        else if (bytes[at] == ROW)
            read_row(bytes, start, sheet, &sheet->row[sheet->rows++]);
        else if (bytes[at] == TASK)
            read_task(bytes, start, size, &sheet->task[sheet->tasks++]);
    }
}
