/* Holds the writer to sheets that are files: each, written from the values that are told of it, comes back byte for byte. */
#include <stdio.h>
#include <stdlib.h>
#include <string.h>

#include "columns.h"
#include "score.h"

enum { ROOM = 1 << 16 };

static size_t read_file(const char *name, uint8_t *bytes)
{
    FILE *file = fopen(name, "rb");
    if (file == NULL)
        return 0;
    size_t size = fread(bytes, 1, ROOM, file);
    fclose(file);
    return size;
}

static bool comes_back(const char *name)
{
    static uint8_t bytes[ROOM], output[ROOM];
    static columns told;
    size_t size = read_file(name, bytes);
    if (size == 0 || marnipode_judge(bytes, size).number != 0)
        return false;
    read_columns(&told, bytes, size);
    marnipode_write_answer got = write_columns(&told, output, size);
    return got.number == 0 && got.size == size && memcmp(output, bytes, size) == 0;
}

int main(int argc, char **argv)
{
    score counted = {0, 0};
    for (int i = 1; i < argc; i++) {
        counted.compared++;
        if (comes_back(argv[i]))
            continue;
        counted.wrong++;
        printf("%s does not come back byte for byte\n", argv[i]);
    }
    print_score("samples in all", 14, counted);
    return 0 < counted.compared && counted.wrong == 0 ? EXIT_SUCCESS : EXIT_FAILURE;
}
