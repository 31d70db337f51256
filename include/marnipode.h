/*
 * The calls of the desk for C and C++, over the archive libmarnipode.a (x86-64), which tools/install makes of the crate marnipode_c.
 *
 * A sheet is a file of speeds, job lengths, deadlines and gaps; docs/FORMAT.md has it byte by byte. Times are in ticks of 10
 * microseconds, amounts are sums of job lengths, so they are in ticks too.
 *
 * What a caller owes, since no call can see it:
 *   - a pointer stands for as many elements as the size or count after it says, aligned as its type asks; for 0 elements it
 *     may be null;
 *   - nothing else writes an argument while a call runs, and a lent area (cells, witness, output) overlaps no other argument;
 *   - MARNIPODE_MOST_STACK bytes of stack are left, and what `memcpy` takes.
 * Nothing else is asked: any bytes may be given as a sheet, any numbers as its values, and any number as an interval, amount,
 * horizon, place, or number of a mode, row or task. A lent area may hold anything before.
 *
 * What a call answers: `number` is 0 where it succeeds, and `place` is 0 then; else `number` is that of the refusal, named below,
 * and `place` is the byte, from 0, at which the faulty field starts (docs/FORMAT.md has the exceptions), 0 from 11 on and in
 * every refusal to write. All else in a refusal is 0. Nothing that was lent is touched but at 13 and 14: there the cells are
 * filled already, just as without a refusal, and 13 writes no byte of the witness area.
 *
 * Calls keep nothing from one to the next and allocate nothing, so several threads may call at once on areas of their own. The
 * archive needs `memcpy` and nothing else: a program without a C library can use it by bringing that one function.
 */
#ifndef MARNIPODE_H
#define MARNIPODE_H

#include <stddef.h>
#include <stdint.h>

#ifdef __cplusplus
extern "C" {
#endif

/* The version of this header and its archive; as a number, 1.2.3 is 10203. CHANGELOG.md says what a new one changes. */
#define MARNIPODE_VERSION "3.0.0"
#define MARNIPODE_VERSION_NUMBER 30000

/* The most modes, rows and fixed tasks of a sheet, and the most bytes of its label. */
#define MARNIPODE_MOST_MODES 8
#define MARNIPODE_MOST_ROWS 32
#define MARNIPODE_MOST_TASKS 16
#define MARNIPODE_LONGEST_LABEL 32

/* The most bytes that a written sheet has: an output of so many cannot give refusal 15. */
#define MARNIPODE_MOST_WRITTEN 2684

/* The highest speed of a sheet, in rpm; its longest time, which is also the longest interval or horizon that can be asked about. */
#define MARNIPODE_HIGHEST_SPEED 20000
#define MARNIPODE_LONGEST_TIME UINT32_C(65535)

/* The largest amount that can be asked about, and what a cell by amount holds where there is no time. */
#define MARNIPODE_LARGEST_AMOUNT UINT32_C(65536)
#define MARNIPODE_NO_TIME UINT32_C(4294967295)

/* No call takes more stack than this, in bytes, with all that it calls but `memcpy`, which the program brings. */
#define MARNIPODE_MOST_STACK 3072

/* And writing a sheet takes no more than this. */
#define MARNIPODE_MOST_STACK_TO_WRITE 1024

/*
 * Each refusal. README.md says what to do about it, docs/FORMAT.md what breaks the rule of this number, in which order the
 * rules are tried, and where they are defined and proved.
 */
enum {
    MARNIPODE_REFUSED_CUT_OFF = 1,             /* the file stops where a field must start or inside a field */
    MARNIPODE_REFUSED_UNKNOWN_TAG = 2,         /* a tag that no field has */
    MARNIPODE_REFUSED_OUT_OF_ORDER = 3,        /* fields out of order, a second label, or a required kind left out */
    MARNIPODE_REFUSED_BYTES_BEHIND_END = 4,    /* bytes behind the end field */
    MARNIPODE_REFUSED_WRONG_LENGTH = 5,        /* a length that does not fit the tag, or a row's follower set */
    MARNIPODE_REFUSED_TOO_MANY = 6,            /* a mode, row or fixed task more than a sheet may have */
    MARNIPODE_REFUSED_OUT_OF_RANGE = 7,        /* a number or a byte of the label out of range, such as a jitter at or above its deadline */
    MARNIPODE_REFUSED_NOT_RISING = 8,          /* speeds that do not rise, or a row above the last boundary */
    MARNIPODE_REFUSED_UNKNOWN_FOLLOWER = 9,    /* a follower that is no row of the sheet */
    MARNIPODE_REFUSED_SHORT_GAP = 10,          /* a gap shorter than the deadline of its row */
    MARNIPODE_REFUSED_QUESTION = 11,           /* an interval, horizon or amount out of range */
    MARNIPODE_REFUSED_FEW_CELLS = 12,          /* fewer cells than the call uses */
    MARNIPODE_REFUSED_SHORT_WITNESS_AREA = 13, /* a witness with more rows than its area has bytes */
    MARNIPODE_REFUSED_NEVER_REACHED = 14,      /* no sequence reaches the amount by MARNIPODE_LONGEST_TIME */
    MARNIPODE_REFUSED_SHORT_OUTPUT = 15        /* an output that is shorter than the sheet to be written */
};

/* What kind of field the reader found: its tag, or the first of the skipped tags for any of them; 0 in a refusal. */
enum {
    MARNIPODE_NO_FIELD = 0,
    MARNIPODE_LABEL = 1,
    MARNIPODE_MODE = 2,
    MARNIPODE_ROW = 3,
    MARNIPODE_TASK = 4,
    MARNIPODE_END = 5,
    MARNIPODE_SKIPPED = 128
};

/* Which part exceeds an interval: it asks for strictly more than the interval. Where each alone does, the engine task is named. */
enum {
    MARNIPODE_CAUSE_NONE = 0,    /* no interval is overrun, or the call is refused */
    MARNIPODE_CAUSE_ENGINE = 1,  /* the engine task alone, whatever the fixed tasks ask for */
    MARNIPODE_CAUSE_FIXED = 2,   /* the fixed tasks alone, and the engine task alone does not */
    MARNIPODE_CAUSE_TOGETHER = 3 /* neither of them alone, only both together */
};

/* How many modes, rows and fixed tasks an accepted sheet has. */
typedef struct {
    uint8_t number;
    size_t place;
    size_t modes;
    size_t rows;
    size_t tasks;
} marnipode_judge_answer;

/* Where a sheet's label stands in its bytes, and how many it has. Of a refused sheet both are 0. */
typedef struct {
    size_t start;
    size_t size;
} marnipode_label_answer;

/* A field: its kind, where its content starts and how many bytes that has, and where the next field starts. */
typedef struct {
    uint8_t number;
    size_t place;
    uint8_t kind;
    size_t start;
    size_t size;
    size_t next;
} marnipode_field_answer;

/* The demand, and how many rows its witness has. */
typedef struct {
    uint8_t number;
    size_t place;
    uint32_t amount;
    size_t count;
} marnipode_demand_answer;

/* The margin, below 0 where the interval is overrun. */
typedef struct {
    uint8_t number;
    size_t place;
    int64_t margin;
} marnipode_margin_answer;

/* The shortest interval for an amount. */
typedef struct {
    uint8_t number;
    size_t place;
    uint32_t time;
} marnipode_shortest_answer;

/* The first interval that is overrun, 0 where the verdict holds. */
typedef struct {
    uint8_t number;
    size_t place;
    uint64_t overrun;
} marnipode_verdict_answer;

/*
 * Why a verdict fails, 0 where it holds: the first interval that is overrun; the cause; what the engine task asks for there; what
 * each fixed task asks for there, in file order, 0 past the last; the excess, all that is asked for less the interval; and how many
 * rows the witness has. Why it holds, 0 where it fails: the smallest margin, and the earliest interval that has it.
 */
typedef struct {
    uint8_t number;
    size_t place;
    uint64_t overrun;
    uint8_t cause;
    uint32_t engine;
    uint64_t demands[MARNIPODE_MOST_TASKS];
    uint64_t excess;
    size_t count;
    uint64_t margin;
    uint64_t interval;
} marnipode_explain_answer;

/* How many bytes a written sheet has. */
typedef struct {
    uint8_t number;
    size_t place;
    size_t size;
} marnipode_write_answer;

/*
 * A mode: the highest speed that is still in it; its job length; and its fall-back, the speed down to which an engine that slows down
 * hangs on to the next faster mode. The speeds above the fall-back and up to the boundary are the mode's band: there a job takes as
 * long as in this mode or in the next one, whichever is longer. A fall-back equal to the boundary means that there is no band.
 */
typedef struct {
    uint16_t boundary;
    uint16_t length;
    uint16_t fallback;
} marnipode_mode_answer;

/*
 * A row: its speed, its deadline, its follower set (bit j says that row j may come next), and its job length, which its mode gives or,
 * in a band, the next mode where that has the longer one.
 */
typedef struct {
    uint16_t speed;
    uint16_t deadline;
    uint64_t followers;
    uint16_t length;
} marnipode_row_answer;

/*
 * A fixed task: its job length; its period, the least time from one stroke of its clock to the next, with a job at each stroke; its
 * deadline, counted from the stroke; and its jitter: each job is released up to so many ticks after its clock. In an interval that starts
 * when a job is released as late as it can be, its deadline is so many ticks nearer. The jitter is 0 for a task released on its clock.
 */
typedef struct {
    uint16_t length;
    uint16_t period;
    uint16_t deadline;
    uint16_t jitter;
} marnipode_task_answer;

/*
 * The values of a sheet, in columns: a mode, a row or a task is what stands at its number in each column of its kind. The gaps stand
 * one behind the other, those of row 0 first, and of each row one for each row of its follower set, lowest first. Follower sets have
 * room for 64 rows; bits from MARNIPODE_MOST_ROWS on name rows that do not exist, and are refused by 9.
 *
 * Every mode has a fall-back, so that column is lent like the others: null stands for no modes, not for no bands. A mode without a
 * band has its boundary there once more, and where no mode has a band the same pointer can be given for both columns. The last mode
 * has no band, since there is no faster one to hang on to.
 *
 * Every task has a jitter, so that column is lent like the others too: null stands for no tasks, not for no jitters. A task released on
 * its clock has 0 there, and where none has a jitter it is a column of zeros.
 */
typedef struct {
    const uint8_t *label;
    size_t label_size;
    const uint16_t *boundaries;
    const uint16_t *lengths;
    const uint16_t *fallbacks;
    size_t modes;
    const uint16_t *speeds;
    const uint16_t *deadlines;
    const uint64_t *followers;
    size_t rows;
    const uint16_t *gaps;
    size_t gap_count;
    const uint16_t *task_lengths;
    const uint16_t *task_periods;
    const uint16_t *task_deadlines;
    const uint16_t *task_jitters;
    size_t tasks;
} marnipode_values;

/* Judges a sheet: refusals 1 to 10. */
marnipode_judge_answer marnipode_judge(const uint8_t *sheet, size_t size);

/* The label of a sheet. */
marnipode_label_answer marnipode_label(const uint8_t *sheet, size_t size);

/* One step of the field reader at a place: the field there, skipped and end fields too, or refusal 1 or 2. */
marnipode_field_answer marnipode_field_at(const uint8_t *sheet, size_t size, size_t at);

/*
 * The values of a sheet by number, from 0; marnipode_judge tells how many there are. Past the last one, and of a refused sheet, all
 * numbers are 0, which no value of an accepted sheet is, but for a follower set and a jitter. The gap is that from a row to a row, 0
 * where the second may not follow the first.
 */
marnipode_mode_answer marnipode_mode(const uint8_t *sheet, size_t size, size_t number);
marnipode_row_answer marnipode_row(const uint8_t *sheet, size_t size, size_t number);
uint16_t marnipode_gap(const uint8_t *sheet, size_t size, size_t from, size_t to);
marnipode_task_answer marnipode_task(const uint8_t *sheet, size_t size, size_t number);

/*
 * Writes the sheet of these values at the front of the output: label, modes, rows, fixed tasks, end. The bytes behind it stay as they
 * were. Reading it gives the same values again. Skipped fields are not written, nor is a fall-back that is its mode's boundary or a
 * jitter that is 0, since the shorter field says the same; an accepted sheet that has none of these, written from its values, is the
 * same byte for byte.
 *
 * Refused is what the judge would refuse, by the same number, but at place 0, since nothing is written: 5 for an empty or too long
 * label, and for more or fewer gaps than the follower sets have rows; 3 for no modes or no rows; 6 to 10 as of a sheet, also 7 for a
 * fall-back that is 0, above its boundary, below the boundary before it, or, of the last mode, not its boundary, and for a jitter at
 * or above its task's deadline. Then 15 where the output is shorter than the sheet.
 */
static inline marnipode_write_answer marnipode_write(const marnipode_values *values, uint8_t *output, size_t output_size);

/*
 * The same with each column's own count, for languages that have no use for the struct. Columns of a kind that are not equally long
 * are refused by 5, where the shortest of them ends.
 */
marnipode_write_answer marnipode_write_columns(const uint8_t *label, size_t label_size, const uint16_t *boundaries,
                                               size_t boundary_count, const uint16_t *lengths, size_t length_count,
                                               const uint16_t *fallbacks, size_t fallback_count, const uint16_t *speeds,
                                               size_t speed_count, const uint16_t *deadlines, size_t deadline_count,
                                               const uint64_t *followers, size_t follower_count, const uint16_t *gaps,
                                               size_t gap_count, const uint16_t *task_lengths, size_t task_length_count,
                                               const uint16_t *task_periods, size_t task_period_count,
                                               const uint16_t *task_deadlines, size_t task_deadline_count,
                                               const uint16_t *task_jitters, size_t task_jitter_count, uint8_t *output,
                                               size_t output_size);

static inline marnipode_write_answer marnipode_write(const marnipode_values *values, uint8_t *output, size_t output_size)
{
    return marnipode_write_columns(values->label, values->label_size, values->boundaries, values->modes, values->lengths,
                                   values->modes, values->fallbacks, values->modes, values->speeds, values->rows,
                                   values->deadlines, values->rows, values->followers, values->rows, values->gaps,
                                   values->gap_count, values->task_lengths, values->tasks, values->task_periods, values->tasks,
                                   values->task_deadlines, values->tasks, values->task_jitters, values->tasks, output,
                                   output_size);
}

/*
 * The calls below want cells. With n rows (`rows` of marnipode_judge) they use n times (interval + 1), n times (horizon + 1), or,
 * for `marnipode_shortest`, n times the amount; fewer give refusal 12, more are left as they were. The most that a call can use
 * are MARNIPODE_MOST_ROWS times 65,536 cells, 8 MiB. They are used in lines of n, a cell for each row:
 *
 *   - by interval, the cell at s times n + k then holds the most work of a sequence from row k that ends by s, 0 where none ends
 *     in time. The demand at s is the largest cell of line s;
 *   - by amount, the cell at (a - 1) times n + k holds the least end time of a sequence from row k with at least the work a, or
 *     MARNIPODE_NO_TIME: a time above MARNIPODE_LONGEST_TIME counts as none, here and for refusal 14.
 */

/*
 * The demand at an interval. The rows of its witness go to the witness area, one to a byte; the bytes after them stay as they
 * were. A witness has never more rows than the interval has ticks, so an area of that size cannot give refusal 13.
 */
marnipode_demand_answer marnipode_demand(const uint8_t *sheet, size_t size, uint64_t interval, uint32_t *cells, size_t cell_count,
                                         uint8_t *witness, size_t witness_size);

/* The margin at an interval: what demand and fixed tasks leave of it. Cells by interval. */
marnipode_margin_answer marnipode_margin(const uint8_t *sheet, size_t size, uint64_t interval, uint32_t *cells, size_t cell_count);

/* The shortest interval in which an amount, 1 to MARNIPODE_LARGEST_AMOUNT, can be asked for; refusal 14 where there is none. Cells by amount. */
marnipode_shortest_answer marnipode_shortest(const uint8_t *sheet, size_t size, uint64_t amount, uint32_t *cells, size_t cell_count);

/*
 * The verdict from 1 up to a horizon, by way of either table. It says nothing about intervals beyond the horizon. Both answer the
 * same; all cells are filled, also after an overrun.
 */
marnipode_verdict_answer marnipode_verdict_by_interval(const uint8_t *sheet, size_t size, uint64_t horizon, uint32_t *cells,
                                                       size_t cell_count);
marnipode_verdict_answer marnipode_verdict_by_amount(const uint8_t *sheet, size_t size, uint64_t horizon, uint32_t *cells,
                                                     size_t cell_count);

/*
 * Why the verdict from 1 up to a horizon fails or holds. Cells and refusals 1 to 12 are those of the verdict by interval.
 *
 *   - Where it fails, the rows of the witness of the engine's demand at the overrun go to the witness area, one to a byte; the
 *     bytes after them stay as they were. Refusal 13 looks at this witness, not at the one at the horizon; an area of as many bytes
 *     as the horizon has ticks cannot give it.
 *   - Where it holds, the witness area stays as it was, and refusal 13 never comes. At interval 1 at most 1 is left, so the smallest
 *     margin is 0 or 1, and its interval tells more than the number. Up to the horizon 0 there is no interval: then both are 0,
 *     and only then is the interval 0.
 */
marnipode_explain_answer marnipode_explain(const uint8_t *sheet, size_t size, uint64_t horizon, uint32_t *cells, size_t cell_count,
                                           uint8_t *witness, size_t witness_size);

#ifdef __cplusplus
}
#endif

#endif
