/* How lent memory is marked and held to its marks. */
#include "lent.h"

#include <stdio.h>
#include <stdlib.h>
#include <string.h>

/*
 * A mark is 128 to 254, another at each of 127 places in turn: no row number, and in no cell a time or an amount of a case, nor
 * what stands for no time.
 */
enum { LEAST_MARK = 128, MARKS = 127 };

static uint8_t marks[GUARD + MOST_LENT + GUARD + MARKS];

static void make_marks(void)
{
    for (size_t i = 0; i < sizeof marks; i++)
        marks[i] = (uint8_t)(LEAST_MARK + i % MARKS);
}

area make_area(size_t most, size_t shift)
{
    uint8_t *memory = malloc(GUARD + most + GUARD);
    if (memory == NULL || MOST_LENT < most || MARKS <= shift) {
        fprintf(stderr, "no memory for %zu bytes to lend\n", most);
        exit(2);
    }
    if (marks[0] == 0)
        make_marks();
    return (area){memory + GUARD, most, 0, shift};
}

/* The marks of an area from its first guard zone on. */
static const uint8_t *marks_of(const area *lent)
{
    return marks + lent->shift;
}

void lend(area *lent, size_t size)
{
    lent->size = size < lent->most ? size : lent->most;
    memcpy(lent->start - GUARD, marks_of(lent), GUARD + lent->size + GUARD);
}

void lend_copy(area *lent, const uint8_t *bytes, size_t size)
{
    lend(lent, size);
    memcpy(lent->start, bytes, lent->size);
}

uint32_t *cells_of(const area *lent)
{
    return (uint32_t *)(void *)lent->start;
}

size_t cell_count(const area *lent)
{
    return lent->size / sizeof(uint32_t);
}

const char *guard_changed(const area *lent)
{
    if (memcmp(lent->start - GUARD, marks_of(lent), GUARD) != 0)
        return "before";
    if (memcmp(lent->start + lent->size, marks_of(lent) + GUARD + lent->size, GUARD) != 0)
        return "behind";
    return NULL;
}

bool is_kept(const area *lent, size_t from, size_t size)
{
    return memcmp(lent->start + from, marks_of(lent) + GUARD + from, size) == 0;
}

size_t first_change(const area *lent, size_t from)
{
    size_t at = from < lent->size ? from : lent->size;
    if (is_kept(lent, at, lent->size - at))
        return lent->size;
    while (is_kept(lent, at, 1))
        at++;
    return at;
}
