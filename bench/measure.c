/*
 * Measures whole calls of the proved library beside the same jobs in plain C, the tables in two ways: in turn on the same bytes or
 * values, the best of several runs each, answers, cells and written bytes compared. With the word `ratios` it prints no times, for
 * a machine whose times say nothing.
 */
#include <stdio.h>
#include <stdlib.h>
#include <string.h>
#include <time.h>

#include "made.h"
#include "marnipode.h"
#include "plain.h"

enum { LEAST_RUNS = 7 };

/* One sheet is written too quickly for the clock, so a run writes it this many times. */
enum { WRITES = 2000 };

/* What is asked: the margin at an interval, the shortest interval for an amount, or why a horizon holds. */
typedef enum { MARGIN, SHORTEST, EXPLAIN } question;

static const char *const names[] = {"by interval", "by amount", "explain"};

/* Who is asked: the library, plain C line by line, and plain C eight lines at once. */
typedef enum { OURS, PLAIN, BLOCKED, SIDES } side;

/* The longest job: of margin and shortest interval the loads do not matter, and what explain looks through has to hold. */
static const unsigned longest_job[] = {2000, 2000, 200};

/* Short jobs are run more often, for about this long. */
static const double LEAST_SECONDS = 0.4;

static made_sheet sheet;
static uint32_t *cells[SIDES];
static size_t cell_count;
static int ratios_only;

/* The values of the sheet, in columns, and how they are lent to each writer. */
static uint16_t boundaries[MOST_MODES], lengths[MOST_MODES], fallbacks[MOST_MODES];
static uint16_t speeds[MOST_ROWS], deadlines[MOST_ROWS], gaps[MOST_ROWS * MOST_ROWS];
static uint64_t follower_sets[MOST_ROWS];
static uint16_t task_lengths[MOST_TASKS], task_periods[MOST_TASKS], task_deadlines[MOST_TASKS], task_jitters[MOST_TASKS];
static marnipode_values values;
static plain_values same_values;

/* The sheet as each of them writes it. */
static uint8_t our_sheet[MOST_SHEET], plain_sheet[MOST_SHEET];

static double seconds(void)
{
    struct timespec now;
    clock_gettime(CLOCK_MONOTONIC, &now);
    return (double)now.tv_sec + 1e-9 * (double)now.tv_nsec;
}

static void fail(const char *what)
{
    fprintf(stderr, "bench: %s\n", what);
    exit(1);
}

static int64_t ask_ours(question asked, uint64_t t)
{
    uint8_t refused;
    int64_t answer;
    if (asked == SHORTEST) {
        marnipode_shortest_answer shortest = marnipode_shortest(sheet.bytes, sheet.size, t, cells[OURS], cell_count);
        refused = shortest.number;
        answer = shortest.time;
    } else if (asked == MARGIN) {
        marnipode_margin_answer margin = marnipode_margin(sheet.bytes, sheet.size, t, cells[OURS], cell_count);
        refused = margin.number;
        answer = margin.margin;
    } else {
        marnipode_explain_answer why = marnipode_explain(sheet.bytes, sheet.size, t, cells[OURS], cell_count, NULL, 0);
        refused = why.number;
        answer = (int64_t)why.interval;
    }
    if (refused != 0)
        fail("the sheet is refused");
    return answer;
}

static int64_t ask_in_c(side whom, question asked, uint64_t t)
{
    filling way = whom == BLOCKED ? IN_BLOCKS : BY_LINES;
    if (asked == SHORTEST)
        return (int64_t)plain_shortest(way, sheet.bytes, t, cells[whom]);
    if (asked == MARGIN)
        return plain_margin(way, sheet.bytes, t, cells[whom]);
    return (int64_t)plain_tightest(way, sheet.bytes, t, cells[whom]);
}

static double time_of(side whom, question asked, uint64_t t, int64_t *answer)
{
    double began = seconds();
    *answer = whom == OURS ? ask_ours(asked, t) : ask_in_c(whom, asked, t);
    return seconds() - began;
}

/* One run of each side, whose answers and cells have to be the same; a time that is the best so far is kept. */
static void run_all(question asked, uint64_t t, size_t lines, double *best)
{
    int64_t answers[SIDES];
    for (side whom = OURS; whom < SIDES; whom++) {
        double took = time_of(whom, asked, t, &answers[whom]);
        best[whom] = took < best[whom] ? took : best[whom];
    }
    for (side whom = PLAIN; whom < SIDES; whom++) {
        if (answers[OURS] != answers[whom] || (asked == EXPLAIN && answers[OURS] == 0))
            fail("the answers differ, or an interval is overrun");
        if (memcmp(cells[OURS], cells[whom], lines * sheet.rows * sizeof **cells) != 0)
            fail("the cells differ");
    }
}

/* Measures a question on the sheet that was made, whose followers are told in words. */
static void measure(question asked, const char *followers, uint64_t t)
{
    double best[SIDES] = {1e9, 1e9, 1e9};
    size_t lines = asked == SHORTEST ? t : t + 1;
    double began = seconds();
    for (int run = 0; run < LEAST_RUNS || seconds() - began < LEAST_SECONDS; run++)
        run_all(asked, t, lines, best);
    double edges = (double)lines * sheet.edges;
    printf("%-12s %4u %9s %7llu", names[asked], sheet.rows, followers, (unsigned long long)t);
    for (side whom = OURS; !ratios_only && whom < SIDES; whom++)
        printf(" %9.2f", 1e3 * best[whom]);
    for (side whom = OURS; !ratios_only && whom < SIDES; whom++)
        printf(" %9.2f", 1e9 * best[whom] / edges);
    printf(" %9.2f %9.2f\n", best[OURS] / best[PLAIN], best[OURS] / best[BLOCKED]);
}

/* The same on a sheet whose rows have the same count of followers. */
static void measure_even(question asked, unsigned rows, unsigned followers, uint64_t t)
{
    char said[16];
    snprintf(said, sizeof said, "%u", followers);
    make_even_sheet(&sheet, "measure", 0, rows, followers, longest_job[asked], 1, 1);
    measure(asked, said, t);
}

static void measure_short(question asked, unsigned followers, uint64_t t)
{
    char said[16];
    snprintf(said, sizeof said, "%u", followers);
    make_short_sheet(&sheet, followers);
    measure(asked, said, t);
}

static void measure_mixed(question asked, uint64_t t)
{
    make_mixed_sheet(&sheet);
    measure(asked, "1 to 32", t);
}

/* The values of one row, whose gaps come behind those that are there already; gives how many gaps there are then. */
static size_t take_row(size_t number, size_t rows, size_t gap_count)
{
    marnipode_row_answer row = marnipode_row(sheet.bytes, sheet.size, number);
    speeds[number] = row.speed;
    deadlines[number] = row.deadline;
    follower_sets[number] = row.followers;
    for (size_t follower = 0; follower < rows; follower++)
        if (row.followers >> follower & 1)
            gaps[gap_count++] = marnipode_gap(sheet.bytes, sheet.size, number, follower);
    return gap_count;
}

/* Both writers are lent the same columns, with the values that the library tells of the sheet. */
static void take_values(void)
{
    marnipode_judge_answer judged = marnipode_judge(sheet.bytes, sheet.size);
    marnipode_label_answer label = marnipode_label(sheet.bytes, sheet.size);
    size_t gap_count = 0;
    if (judged.number != 0)
        fail("the sheet is refused");
    for (size_t i = 0; i < judged.modes; i++) {
        marnipode_mode_answer mode = marnipode_mode(sheet.bytes, sheet.size, i);
        boundaries[i] = mode.boundary;
        lengths[i] = mode.length;
        fallbacks[i] = mode.fallback;
    }
    for (size_t i = 0; i < judged.rows; i++)
        gap_count = take_row(i, judged.rows, gap_count);
    for (size_t i = 0; i < judged.tasks; i++) {
        marnipode_task_answer task = marnipode_task(sheet.bytes, sheet.size, i);
        task_lengths[i] = task.length;
        task_periods[i] = task.period;
        task_deadlines[i] = task.deadline;
        task_jitters[i] = task.jitter;
    }
    values = (marnipode_values){sheet.bytes + label.start, label.size, boundaries, lengths, fallbacks, judged.modes, speeds, deadlines,
                                follower_sets, judged.rows, gaps, gap_count, task_lengths, task_periods, task_deadlines,
                                task_jitters, judged.tasks};
    same_values = (plain_values){sheet.bytes + label.start, label.size, boundaries, lengths, fallbacks, judged.modes, speeds, deadlines,
                                 follower_sets, judged.rows, gaps, gap_count, task_lengths, task_periods, task_deadlines,
                                 task_jitters, judged.tasks};
}

static size_t write_ours(void)
{
    marnipode_write_answer answer = marnipode_write(&values, our_sheet, MOST_SHEET);
    if (answer.number != 0)
        fail("the values are refused");
    return answer.size;
}

static size_t write_plain(void)
{
    plain_write_answer answer = plain_write(&same_values, plain_sheet, MOST_SHEET);
    if (answer.number != 0)
        fail("the values are refused in plain C");
    return answer.size;
}

/* The time of one sheet. What stands in the output before is another byte in each run, so that one that is not written is seen. */
static double time_of_writing(size_t (*write_one)(void), uint8_t *output, int run, size_t *size)
{
    memset(output, run, MOST_SHEET);
    double began = seconds();
    for (int i = 0; i < WRITES; i++)
        *size = write_one();
    return (seconds() - began) / WRITES;
}

static void measure_writing(const char *which, const char *label, unsigned bands, unsigned followers, unsigned tasks, unsigned jitters)
{
    make_even_sheet(&sheet, label, bands, MOST_ROWS, followers, longest_job[MARGIN], tasks, jitters);
    take_values();
    double best_ours = 1e9, best_plain = 1e9;
    double began = seconds();
    for (int run = 0; run < LEAST_RUNS || seconds() - began < LEAST_SECONDS; run++) {
        size_t size, same;
        double took = time_of_writing(write_ours, our_sheet, run, &size);
        best_ours = took < best_ours ? took : best_ours;
        took = time_of_writing(write_plain, plain_sheet, run, &same);
        best_plain = took < best_plain ? took : best_plain;
        if (size != same || size != sheet.size)
            fail("the sizes of the written sheets differ");
        if (memcmp(our_sheet, plain_sheet, MOST_SHEET) != 0 || memcmp(our_sheet, sheet.bytes, sheet.size) != 0)
            fail("the written bytes differ");
    }
    printf("%-12s %4d %9u %7zu", which, MOST_ROWS, followers, sheet.size);
    if (!ratios_only)
        printf(" %9.3f %9.3f", 1e6 * best_ours, 1e6 * best_plain);
    printf(" %9.2f\n", best_ours / best_plain);
}

static void head(const char *title)
{
    printf("\n%s\n%-12s %4s %9s %7s", title, "table", "rows", "followers", "up to");
    if (!ratios_only)
        printf(" %9s %9s %9s %9s %9s %9s", "ms", "ms in C", "in blocks", "ns/edge", "ns in C", "in blocks");
    printf(" %9s %9s\n", "to C", "to blocks");
}

static void head_of_writing(const char *title)
{
    printf("\n%s\n%-12s %4s %9s %7s", title, "sheet", "rows", "followers", "bytes");
    if (!ratios_only)
        printf(" %9s %9s", "us", "us in C");
    printf(" %9s\n", "ratio");
}

/* The counts of followers of the main tables. */
static const unsigned counts[] = {32, 3, 2, 1};

enum { COUNTS = sizeof counts / sizeof counts[0] };

static void measure_tables(void)
{
    head("Whole calls: margin at 65,535, and the shortest interval for 65,536");
    for (unsigned i = 0; i < COUNTS; i++) {
        measure_even(MARGIN, MOST_ROWS, counts[i], MARNIPODE_LONGEST_TIME);
        measure_even(SHORTEST, MOST_ROWS, counts[i], MARNIPODE_LARGEST_AMOUNT);
    }
    head("The same on a sheet of mixed deadlines, gaps, job lengths and followers");
    measure_mixed(MARGIN, MARNIPODE_LONGEST_TIME);
    measure_mixed(SHORTEST, MARNIPODE_LARGEST_AMOUNT);
    head("The same where deadlines and job lengths are below eight ticks, so that all go line by line");
    for (unsigned i = 0; i < COUNTS; i++) {
        measure_short(MARGIN, counts[i], MARNIPODE_LONGEST_TIME);
        measure_short(SHORTEST, counts[i], MARNIPODE_LARGEST_AMOUNT);
    }
    head("Why it holds up to 65,535: the table by interval, then one pass over it");
    for (unsigned i = 0; i < COUNTS; i++)
        measure_even(EXPLAIN, MOST_ROWS, counts[i], MARNIPODE_LONGEST_TIME);
}

static void measure_growth(void)
{
    head("With the rows, three followers each");
    for (unsigned rows = 4; rows <= MOST_ROWS; rows *= 2)
        measure_even(MARGIN, rows, 3, MARNIPODE_LONGEST_TIME);
    head("With the followers");
    for (unsigned followers = 1; followers <= MOST_ROWS; followers *= 2)
        measure_even(MARGIN, MOST_ROWS, followers, MARNIPODE_LONGEST_TIME);
    head("With the interval");
    for (uint64_t lines = 4096; lines <= MARNIPODE_LONGEST_TIME + 1; lines *= 2)
        measure_even(MARGIN, MOST_ROWS, 3, lines - 1);
}

int main(int argc, char **argv)
{
    ratios_only = argc == 2 && strcmp(argv[1], "ratios") == 0;
    cell_count = (size_t)MOST_ROWS * (MARNIPODE_LONGEST_TIME + 1);
    for (side whom = OURS; whom < SIDES; whom++)
        if ((cells[whom] = calloc(cell_count, sizeof **cells)) == NULL)
            return 2;
    printf("One edge is one follower of one cell. Best of at least %d runs, in turn, on the same bytes; answers, cells and written bytes are equal.\n", LEAST_RUNS);
    printf("C fills tables line by line, and in blocks of eight lines; the last two columns are our time by that of each.\n");
    measure_tables();
    measure_growth();
    head_of_writing("Sheets written from values, which are judged first: the largest there is, and a usual one");
    measure_writing("largest", "A label of 32 bytes, the longest", MOST_MODES - 1, MOST_ROWS, MOST_TASKS, MOST_TASKS);
    measure_writing("usual", "measure", 0, 3, 2, 0);
    for (side whom = OURS; whom < SIDES; whom++)
        free(cells[whom]);
    return 0;
}
