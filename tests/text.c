/* How a line of cases is read. */
#include "text.h"

#include <string.h>

static const char *pass_blanks(const char *at, const char *end)
{
    while (at < end && *at == ' ')
        at++;
    return at;
}

/* The place of a byte, or the end where it does not stand. */
static const char *find(const char *at, const char *end, char wanted)
{
    const char *found = memchr(at, wanted, (size_t)(end - at));
    return found == NULL ? end : found;
}

void split_line(line *said, const char *start, const char *end)
{
    const char *stop = find(start, end, '#');
    const char *at = pass_blanks(start, stop);
    said->count = 0;
    while (at < stop && said->count < MOST_WORDS) {
        const char *behind = find(at, stop, ' ');
        said->words[said->count++] = (word){at, (size_t)(behind - at)};
        at = pass_blanks(behind, stop);
    }
    said->fits = at == stop;
}

bool says(const line *said, size_t at, const char *given)
{
    if (said->count <= at)
        return false;
    word spoken = said->words[at];
    return spoken.size == strlen(given) && memcmp(spoken.start, given, spoken.size) == 0;
}

word rest_of(const line *said, size_t at)
{
    if (said->count <= at)
        return (word){"", 0};
    const char *start = said->words[at].start;
    word last = said->words[said->count - 1];
    return (word){start, (size_t)(last.start + last.size - start)};
}

/* The number with one decimal digit more. */
static bool add_digit(uint64_t *number, char digit)
{
    if (digit < '0' || '9' < digit)
        return false;
    uint64_t more = (uint64_t)(digit - '0');
    if ((UINT64_MAX - more) / 10 < *number)
        return false;
    *number = *number * 10 + more;
    return true;
}

static bool spells_number(word spoken, uint64_t *number)
{
    *number = 0;
    for (size_t i = 0; i < spoken.size; i++)
        if (!add_digit(number, spoken.start[i]))
            return false;
    return 0 < spoken.size;
}

bool number_at(const line *said, size_t at, uint64_t *number)
{
    return at < said->count && spells_number(said->words[at], number);
}

bool signed_number_at(const line *said, size_t at, int64_t *number)
{
    if (said->count <= at)
        return false;
    word digits = said->words[at];
    bool minus = digits.start[0] == '-';
    if (minus)
        digits = (word){digits.start + 1, digits.size - 1};
    uint64_t spelled;
    if (!spells_number(digits, &spelled) || INT64_MAX < spelled)
        return false;
    *number = minus ? -(int64_t)spelled : (int64_t)spelled;
    return true;
}

/* The value of a hexadecimal digit, 16 for any other character. */
static unsigned value_of(char digit)
{
    static const char digits[] = "0123456789ABCDEF";
    const char *found = memchr(digits, digit, 16);
    return found == NULL ? 16 : (unsigned)(found - digits);
}

static bool spells_byte(const char *pair, uint8_t *byte)
{
    unsigned high = value_of(pair[0]), low = value_of(pair[1]);
    *byte = (uint8_t)(16 * high + low);
    return high < 16 && low < 16;
}

static bool add_pairs(word spoken, uint8_t *bytes, size_t room, size_t *size)
{
    if (spoken.size % 2 != 0 || room - *size < spoken.size / 2)
        return false;
    for (size_t i = 0; i < spoken.size; i += 2)
        if (!spells_byte(spoken.start + i, &bytes[(*size)++]))
            return false;
    return true;
}

/* A byte in two digits, a star, and how often the byte stands. */
static bool add_repeated(word spoken, uint8_t *bytes, size_t room, size_t *size)
{
    uint64_t times;
    uint8_t byte;
    if (!spells_number((word){spoken.start + 3, spoken.size - 3}, &times) || !spells_byte(spoken.start, &byte))
        return false;
    if (room - *size < times)
        return false;
    memset(bytes + *size, byte, times);
    *size += times;
    return true;
}

bool add_bytes(const line *said, size_t from, uint8_t *bytes, size_t room, size_t *size)
{
    for (size_t i = from; i < said->count; i++) {
        word spoken = said->words[i];
        bool repeated = 3 < spoken.size && spoken.start[2] == '*';
        if (!(repeated ? add_repeated : add_pairs)(spoken, bytes, room, size))
            return false;
    }
    return true;
}
