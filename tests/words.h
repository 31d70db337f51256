/* The words that a line of cases can begin with. Each is read by one function, which is given the whole line. */
#ifndef TESTS_WORDS_H
#define TESTS_WORDS_H

#include "calls.h"
#include "columns.h"
#include "text.h"
#include "trial.h"

/* sheet_words.c: what the cases from here on are about. */
void read_group(trial *now, const line *said);
void read_sheet(trial *now, const line *said);
void read_more(trial *now, const line *said);
void read_lend(trial *now, const line *said);

/* judge_words.c: what the file is. */
void read_accepted(trial *now, const line *said);
void read_refused(trial *now, const line *said);
void read_label(trial *now, const line *said);

/* reader_words.c: single steps of the reader, and what becomes of a file that is cut off. */
void read_field(trial *now, const line *said);
void read_prefixes(trial *now, const line *said);

/* call_words.c: what the calls answer, and what they leave in the cells. */
void read_demand(trial *now, const line *said);
void read_margin(trial *now, const line *said);
void read_verdict(trial *now, const line *said);
void read_shortest(trial *now, const line *said);
void read_cell(trial *now, const line *said);

/* why_words.c: why the verdict fails or holds. */
void read_why(trial *now, const line *said);

/* value_words.c: the sheet's values by number. */
void read_mode(trial *now, const line *said);
void read_row(trial *now, const line *said);
void read_gap(trial *now, const line *said);
void read_task(trial *now, const line *said);

/* write_words.c: values, and the sheet that is written of them. */
void read_values(trial *now, const line *said);
void read_with(trial *now, const line *said);
void read_without(trial *now, const line *said);
void read_write(trial *now, const line *said);
void read_reads(trial *now, const line *said);

/* Tells of values of a sheet that is refused and so has none. */
void hold_no_values(trial *now);

/* Whether the line ends, from a word on, with `refused NUMBER PLACE`. */
bool refusal_said(const line *said, size_t at, outcome *must);

/* Whether the line ends, from a word on, with `by ROW ROW ..`, or there already: then the witness has no rows. */
bool rows_said(const line *said, size_t at, uint8_t *rows, size_t *count);

/* Tells of an answer that is not the one that the line says from a word on. */
void hold_answer(trial *now, call asked, outcome got, outcome must, word expected);

/* Makes a call that gives a witness on what the text lends, and holds its answer and the rows to what the line says. */
void hold_witnessed(trial *now, const line *said, call asked, uint64_t number, outcome must, const uint8_t *rows);

#endif
