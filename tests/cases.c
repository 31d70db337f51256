/* Compares what the library answers with the texts of cases that are named. README.md says what each word of a text means. */
#include <stdio.h>
#include <stdlib.h>
#include <string.h>

#include "words.h"

/* Each word that a line can begin with, what reads the line, and whether there must be a sheet before it. */
static const struct {
    const char *name;
    void (*read)(trial *now, const line *said);
    bool of_sheet;
} words[] = {
    {"group", read_group, false},
    {"sheet", read_sheet, false},
    {"more", read_more, true},
    {"lend", read_lend, true},
    {"accepted", read_accepted, true},
    {"refused", read_refused, true},
    {"label", read_label, true},
    {"field", read_field, true},
    {"prefixes", read_prefixes, true},
    {"demand", read_demand, true},
    {"margin", read_margin, true},
    {"verdict", read_verdict, true},
    {"shortest", read_shortest, true},
    {"why", read_why, true},
    {"cell", read_cell, true},
    {"mode", read_mode, true},
    {"row", read_row, true},
    {"gap", read_gap, true},
    {"task", read_task, true},
    {"values", read_values, false},
    {"with", read_with, false},
    {"without", read_without, false},
    {"write", read_write, false},
    {"reads", read_reads, true},
};

enum { WORDS = sizeof words / sizeof words[0] };

static void read_words(trial *now, const line *said)
{
    size_t at = 0;
    while (at < WORDS && !says(said, 0, words[at].name))
        at++;
    if (at == WORDS || !said->fits)
        misread(now);
    else if (words[at].of_sheet && !now->has_sheet)
        wrong(now, "there is no sheet yet");
    else
        words[at].read(now, said);
}

static void read_lines(trial *now, const char *text, size_t size)
{
    static line said;
    const char *at = text, *end = text + size;
    while (at < end) {
        const char *stop = memchr(at, '\n', (size_t)(end - at));
        if (stop == NULL)
            stop = end;
        now->line_number++;
        now->is_open = false;
        split_line(&said, at, stop);
        now->line_text = rest_of(&said, 0);
        if (0 < said.count)
            read_words(now, &said);
        at = stop + 1;
    }
}

/* The bytes of a text. None has more than this program reads; what cannot be read has no bytes, and so no case. */
static size_t read_text(const char *name, char *text, size_t room)
{
    FILE *file = fopen(name, "rb");
    if (file == NULL)
        return 0;
    size_t size = fread(text, 1, room, file);
    fclose(file);
    return size;
}

static score compare_text(trial *now, const char *name)
{
    enum { ROOM = 1 << 22 };
    static char text[ROOM];
    size_t size = read_text(name, text, ROOM);
    open_file(now, name);
    printf("%s\n", name);
    if (size == ROOM)
        wrong(now, "the text is longer than this program reads");
    read_lines(now, text, size);
    close_file(now);
    return now->before;
}

int main(int argc, char **argv)
{
    static trial now;
    score all = {0, 0};
    if (argc < 2) {
        fprintf(stderr, "usage: cases TEXT..\n");
        return 2;
    }
    /* What was told stays told if a call ends the program. */
    setvbuf(stdout, NULL, _IOLBF, BUFSIZ);
    start_trial(&now);
    for (int i = 1; i < argc; i++)
        all = sum_of(all, compare_text(&now, argv[i]));
    print_score("cases in all", 12, all);
    return all.wrong == 0 ? EXIT_SUCCESS : EXIT_FAILURE;
}
