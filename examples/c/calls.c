/*
 * Lists of calls on channels, by the library: what examples/check holds to the model's answers.
 *
 * It reads lines of five numbers with a tab between them: a kind, three more numbers, and how many
 * bytes are lent.
 *
 *     0                       a new table, with no server; no answer
 *     1 identity priority     one server more
 *     2 period                a fresh channel of the table
 *     3 identity identity verb
 *     4                       the next frame
 *     5 frame                 all frames up to this one
 *     6 identity number       the sheet's line of a refusal
 *
 * To 1 and 2 it answers with the number and how many servers the table has; to the others with the
 * number, the bytes written, the lent bytes that are as they were, the frame and the roles; then
 * come the bytes written.
 */
#include "playout.h"

#include <inttypes.h>
#include <stdio.h>
#include <string.h>

/* Lent bytes that are not written keep this mark, which no sheet has. */
enum { ROOM = 65536, MARK = '.' };

static uint8_t out[ROOM];

static unsigned servers_of(const playout_server *servers)
{
    unsigned count = 0;

    while (count < PLAYOUT_SERVERS && servers[count].identity != 0)
        count++;
    return count;
}

static void print_made(uint32_t number, const playout_table *table)
{
    printf("%" PRIu32 "\t%u\n", number, servers_of(table->servers));
}

static void print_called(uint32_t number, size_t written, size_t lent, const playout_channel *at)
{
    size_t kept = 0;

    for (size_t i = written; i < lent; i++)
        kept += out[i] == MARK;
    printf("%" PRIu32 "\t%zu\t%zu\t%" PRIu32 "\t", number, written, kept, at->frame);
    for (unsigned place = 0; place < servers_of(at->servers); place++)
        printf("%u", at->servers[place].role);
    printf("\n");
    fwrite(out, 1, written, stdout);
}

/* A call on a channel: of the kinds 3 to 6. */
static playout_channel call(playout_channel at, const unsigned long *n)
{
    playout_channel_answered answer = {0, 0, at};
    size_t lent = n[4];

    memset(out, MARK, lent);
    if (n[0] == 3) {
        answer = playout_channel_verb(at, (uint32_t)n[3], (uint16_t)n[1], (uint16_t)n[2], out, lent);
    } else if (n[0] == 4) {
        answer = playout_channel_advance(at, out, lent);
    } else if (n[0] == 5) {
        answer = playout_channel_advance_to(at, (uint32_t)n[1], out, lent);
    } else {
        playout_written line =
            playout_channel_refused(at, (uint16_t)n[1], (uint32_t)n[2], out, lent);
        answer.number = line.number;
        answer.written = line.written;
    }
    /* a refused call hands back the channel as it was */
    if (answer.number != PLAYOUT_ACCEPTED && memcmp(&answer.channel, &at, sizeof at) != 0)
        printf("a refused call changed the channel\n");
    print_called(answer.number, answer.written, lent, &answer.channel);
    return answer.channel;
}

int main(void)
{
    playout_table table = playout_table_empty();
    playout_channel_opened opened = playout_channel_fresh(table, PLAYOUT_MIN_PERIOD);
    playout_channel at = opened.channel;
    char line[256];
    unsigned long n[5];

    while (fgets(line, sizeof line, stdin) != NULL) {
        if (sscanf(line, "%lu\t%lu\t%lu\t%lu\t%lu", &n[0], &n[1], &n[2], &n[3], &n[4]) != 5 ||
            n[0] > 6 || n[4] > ROOM) {
            fprintf(stderr, "calls: this is not a call: %s", line);
            return 1;
        }
        if (n[0] == 0) {
            table = playout_table_empty();
        } else if (n[0] == 1) {
            playout_table_added added = playout_table_add(table, (uint16_t)n[1], (uint8_t)n[2]);
            table = added.table;
            print_made(added.number, &table);
        } else if (n[0] == 2) {
            opened = playout_channel_fresh(table, (uint32_t)n[1]);
            if (opened.number == PLAYOUT_ACCEPTED)
                at = opened.channel;
            print_made(opened.number, &table);
        } else {
            at = call(at, n);
        }
    }
    return 0;
}
