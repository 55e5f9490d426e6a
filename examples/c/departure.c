/*
 * The files of a day and of a sheet, named by its two arguments: whether the sheet is the day's, by
 * one call of the library. Prints `same`, or the number of the first line that departs. Status 0 for
 * `same`, 1 for a departure, 2 where a file cannot be read.
 */
#include "playout.h"

#include <inttypes.h>
#include <stdio.h>
#include <stdlib.h>

/* The bytes of a file. */
struct file {
    uint8_t *bytes;
    size_t length;
};

static struct file whole(const char *name)
{
    struct file file = {NULL, 0};
    size_t room = 4096, read;
    FILE *in = fopen(name, "rb");

    if (in == NULL) {
        fprintf(stderr, "departure: cannot open %s: give the files of a day and of a sheet\n", name);
        exit(2);
    }
    do {
        /* at least one byte, so that no slice has a pointer to nothing */
        file.bytes = realloc(file.bytes, room);
        if (file.bytes == NULL) {
            fprintf(stderr, "departure: there is no memory for %zu bytes\n", room);
            exit(2);
        }
        read = fread(file.bytes + file.length, 1, room - file.length, in);
        file.length += read;
        room *= 2;
    } while (read > 0);
    if (ferror(in)) {
        fprintf(stderr, "departure: cannot read %s to its end: give a file\n", name);
        exit(2);
    }
    fclose(in);
    return file;
}

int main(int count, char **words)
{
    if (count != 3) {
        fprintf(stderr, "usage: departure DAY SHEET\n");
        return 2;
    }

    struct file day = whole(words[1]), sheet = whole(words[2]);
    uint64_t line = playout_departure(day.bytes, day.length, sheet.bytes, sheet.length);

    if (line == 0)
        printf("same\n");
    else
        printf("%" PRIu64 "\n", line);
    free(day.bytes);
    free(sheet.bytes);
    if (fflush(stdout) != 0)
        return 2;
    return line == 0 ? 0 : 1;
}
