/* Compares the judge's refusals of bad files in bulk, which are made here, with those that the rules of docs/FORMAT.md give them. */
#include <stdio.h>
#include <stdlib.h>
#include <string.h>

#include "fields.h"
#include "lent.h"
#include "marnipode.h"
#include "score.h"

/* What is told of one kind of bad file; more than this is counted only. */
enum { MOST_TOLD = 20 };

/* The longest of these files: a header and 255 bytes. */
enum { MOST_FILE = 258 };

typedef struct {
    unsigned number;
    size_t place;
} refusal;

/* A file, and how it must be refused. */
typedef struct {
    uint8_t bytes[MOST_FILE];
    size_t size;
    refusal must;
} bad_file;

/* Whether a file is refused as it must be, with no other number than those of the refusal, and left as it was. */
static bool is_refused(const bad_file *file, area *lent, marnipode_judge_answer *got)
{
    lend_copy(lent, file->bytes, file->size);
    *got = marnipode_judge(lent->start, lent->size);
    if (guard_changed(lent) != NULL || memcmp(lent->start, file->bytes, file->size) != 0)
        return false;
    if (got->modes != 0 || got->rows != 0 || got->tasks != 0)
        return false;
    return got->number == file->must.number && got->place == file->must.place;
}

static void print_file(const bad_file *file, marnipode_judge_answer got)
{
    printf("the file");
    for (size_t i = 0; i < file->size; i++)
        printf(" %02X", file->bytes[i]);
    printf(": expected refused %u %zu, got %u %zu with %zu modes, %zu rows, %zu tasks\n", file->must.number, file->must.place,
           got.number, got.place, got.modes, got.rows, got.tasks);
}

/* Compares all files of a kind, each made from its number, and tells of the kind. */
static score compare_files(const char *kind, unsigned count, void (*make)(bad_file *file, unsigned number))
{
    area lent = make_area(MOST_FILE, 0);
    score counted = {0, 0};
    for (unsigned number = 0; number < count; number++) {
        bad_file file = {.size = 0};
        marnipode_judge_answer got;
        make(&file, number);
        counted.compared++;
        if (is_refused(&file, &lent, &got))
            continue;
        if (++counted.wrong <= MOST_TOLD)
            print_file(&file, got);
    }
    print_score(kind, (int)strlen(kind), counted);
    return counted;
}

/* Every file of two bytes is refused by 1 at 0. */
static void make_two_bytes(bad_file *file, unsigned number)
{
    file->bytes[0] = (uint8_t)(number / 256);
    file->bytes[1] = (uint8_t)(number % 256);
    file->size = 2;
    file->must = (refusal){1, 0};
}

/*
 * A header alone: a refused tag by 2, a length past the file by 1. With length 0 a skipped field stands and the file stops behind
 * it, a label has a wrong length, and every other kind passes over the label.
 */
static refusal refusal_of_header(unsigned tag, unsigned length)
{
    if (tag < LABEL_TAG || (END_TAG < tag && tag < SKIPPED_TAG))
        return (refusal){2, 0};
    if (length != 0)
        return (refusal){1, 0};
    if (tag == LABEL_TAG)
        return (refusal){5, 0};
    return tag < SKIPPED_TAG ? (refusal){3, 0} : (refusal){1, 3};
}

/* Every file of a tag, a length's high byte 0 and its low byte. */
static void make_header(bad_file *file, unsigned number)
{
    file->bytes[0] = (uint8_t)(number / 256);
    file->bytes[2] = (uint8_t)(number % 256);
    file->size = 3;
    file->must = refusal_of_header(number / 256, number % 256);
}

/* Every file of one skipped field of up to 255 bytes stops behind it. */
static void make_skipped_field(bad_file *file, unsigned number)
{
    file->bytes[0] = (uint8_t)(SKIPPED_TAG + number / 256);
    file->bytes[2] = (uint8_t)(number % 256);
    file->size = 3 + number % 256;
    file->must = (refusal){1, file->size};
}

/* Every length of a mode behind a label, up to the longest that fits: where it is 4 or 6 the file stops behind it. */
static void make_mode(bad_file *file, unsigned number)
{
    static const uint8_t start[] = {LABEL_TAG, 0, 1, 'A', MODE_TAG, 0, 0, 3, 232, 0, 5, 3, 232};
    memcpy(file->bytes, start, sizeof start);
    file->bytes[6] = (uint8_t)number;
    file->size = 7 + number;
    file->must = number == 4 || number == 6 ? (refusal){1, file->size} : (refusal){5, 4};
}

/* A bad fall-back of a mode from 1,001 to 2,000 rpm, which is the last: at the mode where it can be no fall-back, else at the row. */
static refusal refusal_of_fallback(unsigned fallback)
{
    if (fallback < 1000 || 2000 < fallback)
        return (refusal){7, 11};
    return fallback < 2000 ? (refusal){7, 20} : (refusal){1, 31};
}

/* Every fall-back of that mode. With the right one the file stops behind the row. */
static void make_fallback(bad_file *file, unsigned number)
{
    static const uint8_t whole[] = {LABEL_TAG, 0, 1, 'A', MODE_TAG, 0, 4, 3, 232, 0, 5, MODE_TAG, 0, 6, 7, 208,
                                    0,         3, 0, 0,   ROW_TAG,  0, 8, 3, 232, 0, 5, 0,        0, 0, 0};
    memcpy(file->bytes, whole, sizeof whole);
    file->bytes[18] = (uint8_t)(number / 256);
    file->bytes[19] = (uint8_t)(number % 256);
    file->size = sizeof whole;
    file->must = refusal_of_fallback(number);
}

/* A label, a mode, a row and the header of a fixed task, whose content is still to come. */
static const uint8_t up_to_task[] = {LABEL_TAG, 0, 1, 'A', MODE_TAG, 0, 4, 3, 232, 0, 5, ROW_TAG, 0, 8, 3, 232, 0, 5, 0, 0, 0, 0,
                                     TASK_TAG,  0, 0};

enum { TASK_PLACE = sizeof up_to_task - 3, MOST_TASK = MOST_FILE - sizeof up_to_task };

/* A file up to a task of so many bytes: length 2, period 10, deadline 1,000, and 0 from there on. */
static void make_task_of(bad_file *file, unsigned size)
{
    static const uint8_t numbers[] = {0, 2, 0, 10, 3, 232};
    memcpy(file->bytes, up_to_task, sizeof up_to_task);
    memcpy(file->bytes + sizeof up_to_task, numbers, sizeof numbers);
    file->bytes[TASK_PLACE + 2] = (uint8_t)size;
    file->size = sizeof up_to_task + size;
}

/* Every length of a fixed task, up to the longest that fits: where it is 6 or 8 the file stops behind it. */
static void make_task(bad_file *file, unsigned number)
{
    make_task_of(file, number);
    file->must = number == 6 || number == 8 ? (refusal){1, file->size} : (refusal){5, TASK_PLACE};
}

/* Every jitter of that task. With one below the deadline the file stops behind the task. */
static void make_jitter(bad_file *file, unsigned number)
{
    make_task_of(file, 8);
    file->bytes[file->size - 2] = (uint8_t)(number / 256);
    file->bytes[file->size - 1] = (uint8_t)(number % 256);
    file->must = number < 1000 ? (refusal){1, file->size} : (refusal){7, TASK_PLACE};
}

int main(void)
{
    score all = compare_files("every file of two bytes", 65536, make_two_bytes);
    all = sum_of(all, compare_files("every file of three bytes whose middle byte is 0", 65536, make_header));
    all = sum_of(all, compare_files("files of one skipped field, each tag and each length up to 255", 32768, make_skipped_field));
    all = sum_of(all, compare_files("files of a label and a mode of each length up to 251", 252, make_mode));
    all = sum_of(all, compare_files("files that stop before the end field, each fall-back of the last mode", 65536, make_fallback));
    all = sum_of(all, compare_files("files up to a fixed task of each length up to 233", MOST_TASK + 1, make_task));
    all = sum_of(all, compare_files("files that stop before the end field, each jitter of a fixed task", 65536, make_jitter));
    print_score("bad files in all", 16, all);
    return all.wrong == 0 ? EXIT_SUCCESS : EXIT_FAILURE;
}
