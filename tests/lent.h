/* Memory that is lent to a call: marked before it, with a guard zone on each side, and held to its marks after it. */
#ifndef TESTS_LENT_H
#define TESTS_LENT_H

#include <stdbool.h>
#include <stddef.h>
#include <stdint.h>

/* The most bytes that are lent at once: cells for ten rows up to interval 62,500, and some more. */
enum { MOST_LENT = 4 * 640000 };

/* How many bytes each guard zone has: as many as two cells of every row of the largest sheet. */
enum { GUARD = 256 };

/*
 * An area of memory of which `size` bytes from `start` on are lent. The marks of two areas with different shifts differ at every
 * place, so that what both still hold from before a call cannot look the same.
 */
typedef struct {
    uint8_t *start;
    size_t most;
    size_t size;
    size_t shift;
} area;

area make_area(size_t most, size_t shift);

/* Lends so many bytes of an area, or all where it has fewer: they and the guard zones beside them hold marks from here on. */
void lend(area *lent, size_t size);

/* Lends just the bytes given, between guard zones. */
void lend_copy(area *lent, const uint8_t *bytes, size_t size);

/* Cells of an area that was lent as cells. */
uint32_t *cells_of(const area *lent);
size_t cell_count(const area *lent);

/* Where a call wrote outside what it was lent, "before" or "behind" it; null where it did not. */
const char *guard_changed(const area *lent);

/* Whether so many lent bytes from a place on still hold their marks. */
bool is_kept(const area *lent, size_t from, size_t size);

/* The first lent byte from a place on that no longer holds its mark; the size of what is lent where all do. */
size_t first_change(const area *lent, size_t from);

#endif
