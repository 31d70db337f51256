/* The words that say what the cases behind them are about: a group, a sheet, and what is lent to the calls on it. */
#include "words.h"

void read_group(trial *now, const line *said)
{
    if (said->count < 2)
        misread(now);
    else
        open_group(now, rest_of(said, 1));
}

void read_sheet(trial *now, const line *said)
{
    forget_sheet(now);
    now->has_sheet = true;
    read_more(now, said);
}

void read_more(trial *now, const line *said)
{
    if (!add_bytes(said, 1, now->bytes, MOST_SHEET, &now->size))
        misread(now);
}

void read_lend(trial *now, const line *said)
{
    if (!number_at(said, 1, &now->most_cells) || !number_at(said, 2, &now->most_witness) || said->count != 3)
        misread(now);
}
