/* The words of a line of cases, and the numbers and bytes that they spell. */
#ifndef TESTS_TEXT_H
#define TESTS_TEXT_H

#include <stdbool.h>
#include <stddef.h>
#include <stdint.h>

/* A part of the text. */
typedef struct {
    const char *start;
    size_t size;
} word;

/* Room for a witness of 300 rows and the words before it. */
enum { MOST_WORDS = 400 };

/* The words of a line, counted from 0. `fits` says whether there was room for all of them. */
typedef struct {
    word words[MOST_WORDS];
    size_t count;
    bool fits;
} line;

/* Finds the words between two places of a text, up to a hash: they are parted by blanks. */
void split_line(line *said, const char *start, const char *end);

/* Whether the line has a word there, and it is the one given. */
bool says(const line *said, size_t at, const char *given);

/* All that a line says from a word on. */
word rest_of(const line *said, size_t at);

/* The decimal number that a word spells; false where there is no word or it spells none below 2 to the 64. */
bool number_at(const line *said, size_t at, uint64_t *number);

/* The same with or without a minus before it. */
bool signed_number_at(const line *said, size_t at, int64_t *number);

/*
 * Adds the bytes that the words from one on say to those there are. A word is bytes in hexadecimal, or one byte, a star and how
 * often it stands. False where a word is something else, or where they are more than there is room for.
 */
bool add_bytes(const line *said, size_t from, uint8_t *bytes, size_t room, size_t *size);

#endif
