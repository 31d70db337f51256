/* How the sheets that are measured are made. */
#include "made.h"

#include <string.h>

static void put_byte(made_sheet *made, unsigned number)
{
    made->bytes[made->size++] = (uint8_t)number;
}

static void put_word(made_sheet *made, unsigned number)
{
    put_byte(made, number / 256);
    put_byte(made, number % 256);
}

static void put_head(made_sheet *made, unsigned tag, unsigned size)
{
    put_byte(made, tag);
    put_word(made, size);
}

static void put_label(made_sheet *made, const char *label)
{
    *made = (made_sheet){.size = 0};
    put_head(made, 1, (unsigned)strlen(label));
    for (const char *text = label; *text != 0; text++)
        put_byte(made, (unsigned char)*text);
}

/* The boundaries are 1,500 rpm and 1,000 more for each mode. A band begins halfway from the boundary before. */
static void put_mode(made_sheet *made, unsigned number, unsigned length, int has_band)
{
    unsigned boundary = 1500 + 1000 * number;
    put_head(made, 2, has_band ? 6 : 4);
    put_word(made, boundary);
    put_word(made, length);
    if (has_band)
        put_word(made, boundary - 500);
}

/* The head of a row, the next of so many; its gaps come behind it. */
static void put_row(made_sheet *made, unsigned rows, unsigned deadline, uint32_t set)
{
    unsigned followers = 0;
    for (uint32_t rest = set; rest != 0; rest &= rest - 1)
        followers++;
    put_head(made, 3, 8 + 2 * followers);
    put_word(made, 600 + 7500 / rows * made->rows);
    put_word(made, deadline);
    put_word(made, set / 65536);
    put_word(made, set % 65536);
    made->rows++;
    made->edges += followers;
}

/* A row is followed by itself and the next ones. */
static uint32_t next_rows(unsigned row, unsigned rows, unsigned followers)
{
    uint32_t set = 0;
    for (unsigned i = 0; i < followers; i++)
        set |= UINT32_C(1) << (row + i) % rows;
    return set;
}

static void put_even_row(made_sheet *made, unsigned rows, unsigned followers)
{
    unsigned row = made->rows, deadline = 1200 - 30 * row;
    uint32_t set = next_rows(row, rows, followers);
    put_row(made, rows, deadline, set);
    for (unsigned follower = 0; follower < rows; follower++)
        if (set >> follower & 1)
            put_word(made, deadline + 7 * (follower + row) % 100);
}

/* A jitter is half the deadline. */
static void put_task(made_sheet *made, unsigned number, int has_jitter)
{
    unsigned deadline = 1000 + 200 * number;
    put_head(made, 4, has_jitter ? 8 : 6);
    put_word(made, 100 + number);
    put_word(made, 1000 + 300 * number);
    put_word(made, deadline);
    if (has_jitter)
        put_word(made, deadline / 2);
}

/* Lengths fall with the modes. */
void make_even_sheet(made_sheet *made, const char *label, unsigned bands, unsigned rows, unsigned followers, unsigned longest,
                     unsigned tasks, unsigned jitters)
{
    put_label(made, label);
    for (unsigned i = 0; i < MOST_MODES; i++)
        put_mode(made, i, longest / (i + 1), i < bands);
    while (made->rows < rows)
        put_even_row(made, rows, followers);
    for (unsigned i = 0; i < tasks; i++)
        put_task(made, i, i < jitters);
    put_head(made, 5, 0);
}

/* Row 0 alone asks for more than there is time for, so that every amount has a shortest interval. */
void make_short_sheet(made_sheet *made, unsigned followers)
{
    put_label(made, "short");
    for (unsigned i = 0; i < MOST_MODES; i++)
        put_mode(made, i, 7 - i % 7, 0);
    while (made->rows < MOST_ROWS) {
        unsigned row = made->rows, deadline = 5 + row % 3;
        uint32_t set = next_rows(row, MOST_ROWS, followers);
        put_row(made, MOST_ROWS, deadline, set);
        for (unsigned follower = 0; follower < MOST_ROWS; follower++)
            if (set >> follower & 1)
                put_word(made, deadline + (follower + row) % 10);
    }
    put_head(made, 5, 0);
}

/* A number by chance from the least to the most, by a congruential generator whose high bits are taken. */
static unsigned chance(uint64_t *seed, unsigned least, unsigned most)
{
    *seed = *seed * UINT64_C(6364136223846793005) + UINT64_C(1442695040888963407);
    return least + (unsigned)(*seed >> 33) % (most - least + 1);
}

/* So many rows, of which none comes twice. */
static uint32_t rows_by_chance(uint64_t *seed, unsigned count)
{
    uint32_t set = 0;
    while (0 < count) {
        uint32_t row = UINT32_C(1) << chance(seed, 0, MOST_ROWS - 1);
        count -= (set & row) == 0;
        set |= row;
    }
    return set;
}

void make_mixed_sheet(made_sheet *made)
{
    uint64_t seed = 1;
    put_label(made, "mixed");
    for (unsigned i = 0; i < MOST_MODES; i++)
        put_mode(made, i, chance(&seed, 8, 2000), 0);
    while (made->rows < MOST_ROWS) {
        unsigned deadline = chance(&seed, 8, 1200);
        uint32_t set = rows_by_chance(&seed, chance(&seed, 1, MOST_ROWS));
        put_row(made, MOST_ROWS, deadline, set);
        for (; set != 0; set &= set - 1)
            put_word(made, deadline + chance(&seed, 0, 600));
    }
    put_head(made, 5, 0);
}
