/* How the headers of a file are followed. */
#include "fields.h"

#include <stdbool.h>

enum { HEADER = 3 };

/* Whether a whole field starts at a place. */
static bool is_whole(const uint8_t *sheet, size_t size, size_t at, size_t *next)
{
    if (size < at + HEADER)
        return false;
    *next = at + HEADER + 256 * (size_t)sheet[at + 1] + sheet[at + 2];
    return *next <= size;
}

size_t fields_with(const uint8_t *sheet, size_t size, uint8_t tag)
{
    size_t found = 0, at = 0, next;
    while (is_whole(sheet, size, at, &next) && sheet[at] != END_TAG) {
        found += sheet[at] == tag;
        at = next;
    }
    return found;
}

size_t field_with(const uint8_t *sheet, size_t size, uint8_t tag)
{
    size_t at = 0, next;
    while (is_whole(sheet, size, at, &next) && sheet[at] != tag && sheet[at] != END_TAG)
        at = next;
    return at;
}

size_t cut_off_field(const uint8_t *sheet, size_t size)
{
    size_t at = 0, next;
    while (is_whole(sheet, size, at, &next))
        at = next;
    return at;
}
