/* Where the fields of a file stand by their headers alone, as docs/FORMAT.md lays them out. The library is not asked. */
#ifndef TESTS_FIELDS_H
#define TESTS_FIELDS_H

#include <stddef.h>
#include <stdint.h>

/* The tags; SKIPPED_TAG is the first of those that are skipped. */
enum { LABEL_TAG = 1, MODE_TAG = 2, ROW_TAG = 3, TASK_TAG = 4, END_TAG = 5, SKIPPED_TAG = 128 };

/* How many fields of a tag stand before the end field, or before the file stops. */
size_t fields_with(const uint8_t *sheet, size_t size, uint8_t tag);

/* Where the first field of a tag starts, or the end field, or where the file stops. */
size_t field_with(const uint8_t *sheet, size_t size, uint8_t tag);

/* Where the last field of a file starts that stops before its end: the one that is cut off, or the one that should follow. */
size_t cut_off_field(const uint8_t *sheet, size_t size);

#endif
