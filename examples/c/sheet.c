/*
 * A day on standard input, its sheet on standard output, by one call of the library. Where the
 * bytes lent are too few, 9, it lends twice as many.
 */
#include "playout.h"

#include <inttypes.h>
#include <stdio.h>
#include <stdlib.h>

/* At least one byte, so that no slice has a pointer to nothing. */
static uint8_t *more(uint8_t *bytes, size_t count)
{
    bytes = realloc(bytes, count);
    if (bytes == NULL) {
        fprintf(stderr, "sheet: there is no memory for %zu bytes\n", count);
        exit(1);
    }
    return bytes;
}

int main(void)
{
    size_t room = 4096, length = 0, read;
    uint8_t *day = more(NULL, room);

    while ((read = fread(day + length, 1, room - length, stdin)) > 0) {
        length += read;
        if (length == room)
            day = more(day, room *= 2);
    }

    size_t lent = 4096;
    uint8_t *out = more(NULL, lent);
    playout_written sheet = playout_sheet(day, length, out, lent);

    while (sheet.number == PLAYOUT_SHORT_BYTES) {
        out = more(out, lent *= 2);
        sheet = playout_sheet(day, length, out, lent);
    }
    if (sheet.number != PLAYOUT_ACCEPTED) {
        fprintf(stderr, "sheet: refused with %" PRIu32 "\n", sheet.number);
        return 1;
    }
    fwrite(out, 1, sheet.written, stdout);
    free(day);
    free(out);
    return fflush(stdout) == 0 ? 0 : 1;
}
