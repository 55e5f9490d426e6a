/*
 * Tables that no call made: each gets 2 and comes back as it was. It prints one line a table: what
 * is wrong with it, and the numbers of playout_table_add and playout_channel_fresh.
 */
#include "playout.h"

#include <inttypes.h>
#include <stdio.h>
#include <string.h>

static int failed;

static void try(const char *what, playout_table table)
{
    static const playout_channel zeros;
    playout_table_added added = playout_table_add(table, 9, 90);
    playout_channel_opened opened = playout_channel_fresh(table, 5);

    printf("%s\t%" PRIu32 "\t%" PRIu32 "\n", what, added.number, opened.number);
    if (added.number != 0 && memcmp(&added.table, &table, sizeof table) != 0) {
        fprintf(stderr, "tables: %s: the table that comes back is another.\n", what);
        failed = 1;
    }
    if (opened.number != 0 && memcmp(opened.channel.servers, zeros.servers, sizeof zeros.servers) != 0) {
        fprintf(stderr, "tables: %s: the channel that is refused has servers.\n", what);
        failed = 1;
    }
}

int main(void)
{
    playout_table made = playout_table_empty();
    playout_table table;

    made = playout_table_add(made, 1, 10).table;
    made = playout_table_add(made, 2, 20).table;
    try("made by adding", made);

    table = made;
    table.servers[1].role = PLAYOUT_ROLE_PRIMARY;
    try("a primary", table);
    table = made;
    table.servers[1].identity = 1;
    try("an identity twice", table);
    table = made;
    table.servers[0] = made.servers[1];
    table.servers[1] = made.servers[0];
    try("out of order", table);
    table = made;
    memset(&table.servers[0], 0, sizeof table.servers[0]);
    try("an empty place first", table);
    table = made;
    table.servers[0].silence = 4;
    try("a timer set", table);
    table = made;
    table.servers[0].beats = 1;
    try("a beat sent", table);
    table = made;
    table.servers[15].priority = 1;
    try("nobody with a priority", table);
    table = made;
    table.servers[15].role = PLAYOUT_ROLE_IDLE;
    try("nobody idle", table);
    return failed;
}
