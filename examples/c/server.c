/*
 * One playout server of a channel, as a loop over the library:
 *
 *     server IDENTITY PRIORITY PERIOD
 *
 * At its start it prints the number of the rules that it plays by, `rules TAB NUMBER`, and an empty
 * line. Then it reads lines from standard input:
 *
 *     rules TAB NUMBER  the number of another server. If it is this server's, the answer is an
 *                       empty line. If it is another, or no number, the two cannot play together,
 *                       and the program ends with status 1. A server that plays already, from its
 *                       first tick or entry on, tells it on standard error, answers with an empty
 *                       line and goes on: the one that joins must stay out
 *     a heartbeat       to be heard in the coming frame. Senders may come in any order; those of
 *                       one sender come in the order sent
 *     tick              the next frame: it begins, what came is heard, the timers run
 *     start, ready, unready, crash, restart
 *     pass TAB IDENTITY
 *                       an entry of the present frame for this server
 *
 * To tick and to each entry it answers with what happens, in its order: the lines of the sheet
 * about this server (three fields) and the heartbeats that it sends (four fields). Then comes an
 * empty line. An entry that no day may have (a pass to identity 0, or to itself) is told on
 * standard error, and its answer is the empty line alone. Any other line is told there too, changes
 * nothing and has no answer. So are heartbeats of this server itself, and those for a frame beyond
 * PLAYOUT_HEARD: told there, and left out.
 *
 * In a product the lines that come in are datagrams, the lines with four fields are sent to all
 * others, one datagram a frame, and tick is the clock of the frame.
 */
#include "playout.h"

#include <inttypes.h>
#include <stdio.h>
#include <stdlib.h>
#include <string.h>

/* A line has at most 64 bytes and its line feed. One byte more tells that it is too long. */
enum { LINE_ROOM = 66 };

/* A version is this many times the major, and the minor. */
enum { MAJOR = 1000 };

/* What is to be heard in the coming frame, from the highest sender to the lowest. */
typedef struct {
    size_t count;
    playout_heartbeat heartbeats[PLAYOUT_HEARD];
} inbox;

/* All that is kept between frames. */
typedef struct {
    playout_front front;
    inbox in;
    /* 1 if the first tick or entry has come, else 0 */
    int plays;
} server;

/* Ends the program where the library refuses what this program never gets wrong. */
static void must(uint32_t number, const char *call)
{
    if (number != PLAYOUT_ACCEPTED) {
        fprintf(stderr, "server: %s was refused with %" PRIu32 "\n", call, number);
        exit(1);
    }
}

/* ---- what it says */

static void print_bytes(const uint8_t *bytes, size_t count)
{
    fwrite(bytes, 1, count, stdout);
}

/* An event: its lines of the sheet, and the heartbeat that it sends, if it sends one. */
static void tell(const playout_front *front, uint32_t event, uint16_t to)
{
    uint8_t line[PLAYOUT_LINE_BYTES];

    playout_written lines = playout_front_lines(*front, event, line, sizeof line);
    must(lines.number, "playout_front_lines");
    print_bytes(line, lines.written);

    playout_sending sending = playout_front_sends(*front, event, to);
    must(sending.number, "playout_front_sends");
    if (sending.count == 1) {
        playout_written sent = playout_heartbeat_write(sending.heartbeat, line, sizeof line);
        must(sent.number, "playout_heartbeat_write");
        print_bytes(line, sent.written);
    }
}

/* The sheet's line of a refusal. */
static void tell_refusal(const playout_front *front, uint32_t number)
{
    uint8_t line[PLAYOUT_LINE_BYTES];

    playout_written lines = playout_front_refused(*front, number, line, sizeof line);
    must(lines.number, "playout_front_refused");
    print_bytes(line, lines.written);
}

/* The answer is whole. */
static void end_answer(void)
{
    putchar('\n');
    if (fflush(stdout) != 0 || ferror(stdout)) {
        fprintf(stderr, "server: the answer could not be written\n");
        exit(1);
    }
}

/* ---- what it does */

/* Puts a heartbeat behind all that are not lower: so one sender's stay in the order sent. */
static void keep(inbox *in, playout_heartbeat heartbeat)
{
    size_t at = in->count;

    while (at > 0 && playout_higher(heartbeat, in->heartbeats[at - 1]) == 1) {
        in->heartbeats[at] = in->heartbeats[at - 1];
        at--;
    }
    in->heartbeats[at] = heartbeat;
    in->count++;
}

/* The next frame: it begins, all is heard, then the timers. */
static void tick(playout_front *front, inbox *in)
{
    uint32_t number = playout_front_begin(front);
    if (number != PLAYOUT_ACCEPTED) {
        /* 16, the day is over: no frame comes in which anything could be heard */
        tell_refusal(front, number);
        in->count = 0;
        return;
    }
    for (size_t i = 0; i < in->count; i++) {
        playout_heard heard = playout_front_hear(front, in->heartbeats[i]);
        must(heard.number, "playout_front_hear");
        tell(front, heard.event, 0);
    }
    in->count = 0;

    playout_timed timed = playout_front_tick(front);
    must(timed.number, "playout_front_tick");
    tell(front, timed.silent, 0);
    tell(front, timed.beating, 0);
    tell(front, timed.rising, 0);
}

/* An entry of the present frame; `to` is who is passed to. */
static void act(playout_front *front, uint32_t verb, uint16_t to)
{
    playout_acted acted = playout_front_act(front, verb, to);
    if (acted.number == PLAYOUT_ACCEPTED)
        tell(front, acted.event, to);
    else if (acted.number >= PLAYOUT_TIME_PAST)
        tell_refusal(front, acted.number);
    else
        fprintf(stderr, "server: the entry is refused with %" PRIu32 ", which ends a day\n",
            acted.number);
}

/* ---- what it reads */

/* The next line, with its line feed, and its length; 0 at the end. Of a line that is too long, the
   first bytes. */
static size_t read_line(uint8_t *line)
{
    size_t length = 0;
    int byte;

    while ((byte = getchar()) != EOF) {
        if (length < LINE_ROOM)
            line[length++] = (uint8_t)byte;
        if (byte == '\n')
            break;
    }
    return length;
}

static int is(const uint8_t *line, size_t length, const char *word)
{
    return length == strlen(word) && memcmp(line, word, length) == 0;
}

/* A number of at most `most`, with no leading zero; -1 for anything else. */
static long read_number(const uint8_t *digits, size_t count, long most)
{
    long number = 0;

    if (count == 0 || count > 5 || (count > 1 && digits[0] == '0'))
        return -1;
    for (size_t i = 0; i < count; i++) {
        if (digits[i] < '0' || digits[i] > '9')
            return -1;
        number = 10 * number + (digits[i] - '0');
    }
    return number <= most ? number : -1;
}

/* The identity in the line of a pass; -1 if the line is none. */
static long passed_to(const uint8_t *line, size_t length)
{
    if (length < 6 || memcmp(line, "pass\t", 5) != 0 || line[length - 1] != '\n')
        return -1;
    return read_number(line + 5, length - 6, 65535);
}

static int is_rules(const uint8_t *line, size_t length)
{
    return length > 6 && memcmp(line, "rules\t", 6) == 0 && line[length - 1] == '\n';
}

/* The rules of another server. Two servers whose numbers differ must not play together: this one
   ends, unless it plays already. */
static void take_rules(int plays, const uint8_t *line, size_t length)
{
    char own[LINE_ROOM];

    snprintf(own, sizeof own, "rules\t%" PRIu32 "\n", playout_rules());
    if (is(line, length, own))
        return;
    fprintf(stderr,
        "server: another server plays by rules %.*s, this one by rules %" PRIu32
        ": build both with libraries of one number\n",
        (int)(length - 7), (const char *)line + 6, playout_rules());
    if (!plays)
        exit(1);
}

/* A heartbeat for the coming frame. A bad one is left out, and so is one that comes back to its
   sender, as it does where all listen to one address. */
static void take_heartbeat(const playout_front *front, inbox *in, const uint8_t *line,
    size_t length, unsigned long at)
{
    playout_heartbeat_answer read = playout_heartbeat_read(line, length);

    if (read.number != PLAYOUT_ACCEPTED)
        fprintf(stderr, "server: line %lu is no heartbeat, tick or verb: refused-%" PRIu32 "\n",
            at, read.number);
    else if (read.heartbeat.tiebreaker == front->server.identity)
        fprintf(stderr, "server: line %lu is a heartbeat of this server itself\n", at);
    else if (in->count == PLAYOUT_HEARD)
        fprintf(stderr, "server: line %lu is one heartbeat too many for a frame\n", at);
    else
        keep(in, read.heartbeat);
}

/* The verbs of a line with one field. */
static const struct {
    const char *line;
    uint32_t verb;
} verbs[] = {
    {"start\n", PLAYOUT_VERB_START},     {"ready\n", PLAYOUT_VERB_READY},
    {"unready\n", PLAYOUT_VERB_UNREADY}, {"crash\n", PLAYOUT_VERB_CRASH},
    {"restart\n", PLAYOUT_VERB_RESTART},
};

static void take_line(server *own, const uint8_t *line, size_t length, unsigned long at)
{
    long to = passed_to(line, length);

    if (is_rules(line, length)) {
        take_rules(own->plays, line, length);
        end_answer();
        return;
    }
    if (is(line, length, "tick\n")) {
        own->plays = 1;
        tick(&own->front, &own->in);
        end_answer();
        return;
    }
    if (to >= 0) {
        own->plays = 1;
        act(&own->front, PLAYOUT_VERB_PASS, (uint16_t)to);
        end_answer();
        return;
    }
    for (size_t i = 0; i < sizeof verbs / sizeof verbs[0]; i++) {
        if (is(line, length, verbs[i].line)) {
            own->plays = 1;
            act(&own->front, verbs[i].verb, 0);
            end_answer();
            return;
        }
    }
    take_heartbeat(&own->front, &own->in, line, length, at);
}

/* ---- the loop */

/* Whether the library that is linked is one that this program was compiled for: the same rules and
   the same major version, and no lower minor. */
static int is_linked_well(void)
{
    uint32_t version = playout_version();

    return playout_rules() == PLAYOUT_RULES && version / MAJOR == PLAYOUT_VERSION / MAJOR &&
        version >= PLAYOUT_VERSION;
}

static long read_argument(const char *word, long most)
{
    return read_number((const uint8_t *)word, strlen(word), most);
}

int main(int argc, char **argv)
{
    long identity = argc == 4 ? read_argument(argv[1], 65535) : -1;
    long priority = argc == 4 ? read_argument(argv[2], 255) : -1;
    long period = argc == 4 ? read_argument(argv[3], 65535) : -1;

    if (identity < 0 || priority < 0 || period < 0) {
        fprintf(stderr, "usage: server IDENTITY PRIORITY PERIOD\n");
        return 2;
    }
    if (!is_linked_well()) {
        fprintf(stderr,
            "server: compiled for rules %d, version %d, linked with rules %" PRIu32
            ", version %" PRIu32 ": compile it again\n",
            PLAYOUT_RULES, PLAYOUT_VERSION, playout_rules(), playout_version());
        return 1;
    }
    playout_front_made made =
        playout_front_new((uint16_t)identity, (uint8_t)priority, (uint32_t)period);
    if (made.number != PLAYOUT_ACCEPTED) {
        fprintf(stderr, "server: these numbers are refused with %" PRIu32 "\n", made.number);
        return 2;
    }

    static server own;
    own.front = made.front;
    uint8_t line[LINE_ROOM];
    size_t length;
    unsigned long at = 0;

    printf("rules\t%" PRIu32 "\n", playout_rules());
    end_answer();
    while ((length = read_line(line)) > 0)
        take_line(&own, line, length, ++at);
    return 0;
}
