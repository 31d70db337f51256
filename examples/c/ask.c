/*
 * Asks about a sheet. ask FILE lists the fields of the file, up to a refusal if one of them is refused. ask FILE INTERVAL
 * prints demand, witness, margin, when that demand is first reached, and the verdict up to the interval by either table.
 * It ends with 0 where it has answered, 1 where the sheet or the interval was refused, 2 where it was called wrongly.
 */
#include <errno.h>
#include <inttypes.h>
#include <stdio.h>
#include <stdlib.h>
#include <string.h>

#include "marnipode.h"

/* Memory to lend. */
static void *lent(size_t size)
{
    void *memory = malloc(size);
    if (memory == NULL) {
        fprintf(stderr, "ask: no memory for %zu bytes\n", size);
        exit(2);
    }
    return memory;
}

/* The number that a word of the command spells, in digits alone. */
static uint64_t number_of(const char *word)
{
    errno = 0;
    unsigned long long number = strtoull(word, NULL, 10);
    if (word[0] == '\0' || word[strspn(word, "0123456789")] != '\0' || errno != 0) {
        fprintf(stderr, "ask: '%s' is no number of ticks\n", word);
        exit(2);
    }
    return number;
}

static void cannot_read(const char *name)
{
    fprintf(stderr, "ask: cannot read %s: %s\n", name, strerror(errno));
    exit(2);
}

/* The bytes of a file. A sheet may have any number of them; this program reads less than a megabyte. */
static uint8_t *read_sheet(const char *name, size_t *size)
{
    const size_t most = 1 << 20;
    FILE *file = fopen(name, "rb");
    if (file == NULL)
        cannot_read(name);
    uint8_t *bytes = lent(most);
    *size = fread(bytes, 1, most, file);
    if (ferror(file))
        cannot_read(name);
    fclose(file);
    if (*size == most) {
        fprintf(stderr, "ask: %s is longer than this program reads\n", name);
        exit(2);
    }
    return bytes;
}

/* Tells a refusal, as the status with which this program then ends. */
static int refused(unsigned number, size_t place)
{
    printf("refused %u at %zu\n", number, place);
    return 1;
}

static const char *kind_of(unsigned number)
{
    static const char *const known[] = {"no field", "label", "mode", "row", "task", "end"};
    return number == MARNIPODE_SKIPPED ? "skipped" : known[number];
}

static int list_fields(const uint8_t *sheet, size_t size)
{
    size_t at = 0;
    for (;;) {
        marnipode_field_answer field = marnipode_field_at(sheet, size, at);
        if (field.number != 0)
            return refused(field.number, field.place);
        printf("%zu %s, content %zu at %zu\n", at, kind_of(field.kind), field.size, field.start);
        if (field.kind == MARNIPODE_END)
            return 0;
        at = field.next;
    }
}

static void print_demand(marnipode_demand_answer demand, const uint8_t *witness)
{
    printf("demand %" PRIu32 "\n", demand.amount);
    for (size_t i = 0; i < demand.count; i++)
        printf(i == 0 ? "witness %u" : " %u", (unsigned)witness[i]);
    if (0 < demand.count)
        printf("\n");
}

/* A demand may be more than can be asked about. */
static void print_first_reached(const uint8_t *sheet, size_t size, uint32_t amount, uint32_t *cells, size_t count)
{
    if (amount == 0 || MARNIPODE_LARGEST_AMOUNT < amount)
        return;
    marnipode_shortest_answer shortest = marnipode_shortest(sheet, size, amount, cells, count);
    printf("reached at %" PRIu32 "\n", shortest.time);
}

static void print_verdict(const char *table, marnipode_verdict_answer verdict)
{
    if (verdict.overrun == 0)
        printf("by %s: holds\n", table);
    else
        printf("by %s: fails %" PRIu64 "\n", table, verdict.overrun);
}

/* With room for any interval and any witness, a question that is refused is one about an interval out of range. */
static int ask(const uint8_t *sheet, size_t size, uint64_t interval)
{
    marnipode_judge_answer judged = marnipode_judge(sheet, size);
    if (judged.number != 0)
        return refused(judged.number, judged.place);
    size_t count = judged.rows * (MARNIPODE_LONGEST_TIME + 1);
    uint32_t *cells = lent(count * sizeof *cells);
    uint8_t *witness = lent(MARNIPODE_LONGEST_TIME);
    int status = 0;

    marnipode_label_answer label = marnipode_label(sheet, size);
    marnipode_demand_answer demand = marnipode_demand(sheet, size, interval, cells, count, witness, MARNIPODE_LONGEST_TIME);
    if (demand.number != 0) {
        status = refused(demand.number, demand.place);
    } else {
        printf("label %.*s\n", (int)label.size, (const char *)sheet + label.start);
        print_demand(demand, witness);
        printf("margin %" PRId64 "\n", marnipode_margin(sheet, size, interval, cells, count).margin);
        print_first_reached(sheet, size, demand.amount, cells, count);
        print_verdict("interval", marnipode_verdict_by_interval(sheet, size, interval, cells, count));
        print_verdict("amount", marnipode_verdict_by_amount(sheet, size, interval, cells, count));
    }
    free(witness);
    free(cells);
    return status;
}

int main(int argc, char **argv)
{
    if (argc != 2 && argc != 3) {
        fprintf(stderr, "usage: ask FILE, or ask FILE INTERVAL\n");
        return 2;
    }
    uint64_t interval = argc == 3 ? number_of(argv[2]) : 0;
    size_t size;
    uint8_t *sheet = read_sheet(argv[1], &size);
    int status = argc == 2 ? list_fields(sheet, size) : ask(sheet, size, interval);
    free(sheet);
    if (fflush(stdout) != 0) {
        fprintf(stderr, "ask: the answer could not be written\n");
        return 2;
    }
    return status;
}
