/*
 * playout: which playout server of a TV channel is on air in each frame, for programs in C and C++.
 *
 * Made by crates/playout/header from crates/plain/src/lib.rt and crates/playout/src/lib.rt; change
 * those. How to link, and which call to make when: docs/MAKERS.md. For x86-64 Linux only.
 *
 * A call takes plain integers, structs of them, and slices: bytes lent to it, as a pointer and a
 * length. It gives a number, and with it what it worked out (but for playout_higher, which says yes
 * or no, playout_table_empty, playout_rules, playout_version, and playout_departure, which gives a
 * line's number). Number 0: accepted. Any other says why the call was refused, and then nothing was
 * done: a lent struct and a lent slice are as they were, a table or channel comes back as it was
 * handed in, and all else in the answer is 0, roles too. Where several numbers fit, 2 for a struct
 * or an argument that means nothing comes first; then the lowest, but for 9: it is given where the
 * call would otherwise be accepted.
 *
 * Nothing is kept between calls: no globals, no memory taken, no files, no locks. Calls on
 * different structs and bytes may run in several threads at once.
 *
 * What is not checked, and must be so:
 * - the pointer of a slice is not NULL, even where the length is 0, and that many bytes may be
 *   read, and written too where it is not const;
 * - a pointer to a struct is not NULL and points to a whole struct that may be read and written;
 * - what is lent to one call does not overlap;
 * - there is stack enough: 512 KiB for playout_sheet and playout_departure, 32 KiB for any other
 *   call.
 * Everything else is checked: no integer in a struct or an argument makes a call go wrong. But what
 * decodes is taken for what it says, also a front or channel that no call made.
 */
#ifndef PLAYOUT_H
#define PLAYOUT_H

#if !defined(__x86_64__) || !defined(__linux__)
#error "playout is for x86-64 Linux"
#endif

#include <stddef.h>
#include <stdint.h>

#ifdef __cplusplus
extern "C" {
#endif

/* What a program is compiled against; playout_rules and playout_version tell what it is linked
   with. */
enum {
    /* the number of the rules: servers of a group must have the same */
    PLAYOUT_RULES = 2,
    /* of the code: 1000 times the major, and the minor */
    PLAYOUT_VERSION = 2000
};

/* Why a call was refused. There is no 10. */
enum {
    PLAYOUT_ACCEPTED = 0,
    /* a line with an unknown word, too few or too many fields, over 64 bytes, or no line feed */
    PLAYOUT_BAD_LINE = 1,
    /* a number badly written or out of range; a struct or an argument that means nothing */
    PLAYOUT_BAD_NUMBER = 2,
    /* a timecode badly written, or a frame that the day does not have */
    PLAYOUT_BAD_TIMECODE = 3,
    /* a line of a day out of its place, missing, or beyond the last that a day may have; seen in
       sheets only, no call answers it */
    PLAYOUT_BAD_PLACE = 4,
    /* a server with this identity is in the table */
    PLAYOUT_IDENTITY_TAKEN = 5,
    /* the table is full, or has no server */
    PLAYOUT_SERVER_COUNT = 6,
    /* the period is below the number of servers */
    PLAYOUT_SHORT_PERIOD = 7,
    /* no server has this identity, or the two identities are the same */
    PLAYOUT_NO_IDENTITY = 8,
    /* fewer bytes are lent than the call has to write */
    PLAYOUT_SHORT_BYTES = 9,
    /* a time before the present frame */
    PLAYOUT_TIME_PAST = 11,
    /* the server is down, and the verb needs one that is up */
    PLAYOUT_SERVER_DOWN = 12,
    /* restart of a server that is up */
    PLAYOUT_SERVER_UP = 13,
    /* the server's role does not allow the verb */
    PLAYOUT_WRONG_ROLE = 14,
    /* cut of a link that is cut, or mend of one that is whole */
    PLAYOUT_LINK_SAME = 15,
    /* the day has no frame after this one */
    PLAYOUT_DAY_OVER = 16
};

/* What a server is to its group. The primary is on air. */
enum {
    PLAYOUT_ROLE_DOWN = 0,
    PLAYOUT_ROLE_IDLE = 1,
    PLAYOUT_ROLE_SYNC = 2,
    PLAYOUT_ROLE_BACKUP = 3,
    PLAYOUT_ROLE_PROSPECT = 4,
    PLAYOUT_ROLE_PRIMARY = 5
};

/* What happened to a server in a step. */
enum {
    PLAYOUT_EVENT_NOTHING = 0,
    PLAYOUT_EVENT_TO_BACKUP = 1,
    /* it was passed to: now prospect, and sends a plain beat */
    PLAYOUT_EVENT_TO_PROSPECT_BEAT = 2,
    /* silence, or the reveal of a lower server: now prospect, and sends a reveal */
    PLAYOUT_EVENT_TO_PROSPECT_REVEAL = 3,
    /* a primary that heard a lower server: look for a cut link */
    PLAYOUT_EVENT_LOWER = 4,
    /* sends a plain beat: its timer's, or a prospect's reply to the reveal of a lower server */
    PLAYOUT_EVENT_BEAT = 5,
    PLAYOUT_EVENT_TO_PRIMARY = 6,
    PLAYOUT_EVENT_TO_SYNC = 7,
    PLAYOUT_EVENT_TO_IDLE = 8,
    PLAYOUT_EVENT_TO_DOWN = 9,
    /* sends a heartbeat that names the next primary; now backup */
    PLAYOUT_EVENT_PASSED = 10,
    /* a primary that heard the reveal of a lower server: as 4, and sends a plain beat, its reply */
    PLAYOUT_EVENT_LOWER_BEAT = 11
};

/* What may be entered of a server; of two servers, where it is pass, cut or mend. */
enum {
    PLAYOUT_VERB_START = 0,
    PLAYOUT_VERB_READY = 1,
    PLAYOUT_VERB_UNREADY = 2,
    PLAYOUT_VERB_PASS = 3,
    PLAYOUT_VERB_CRASH = 4,
    PLAYOUT_VERB_RESTART = 5,
    PLAYOUT_VERB_CUT = 6,
    PLAYOUT_VERB_MEND = 7
};

/* Limits. */
enum {
    /* servers of a channel; places of a table */
    PLAYOUT_SERVERS = 16,
    PLAYOUT_MIN_PERIOD = 2,
    PLAYOUT_MAX_PERIOD = 250,
    /* frames are 0 to this one, 23:59:59:24 */
    PLAYOUT_LAST_FRAME = 2159999,
    /* as many bytes are enough for a heartbeat's line, for a timecode, for the lines of one event,
       and for the line of a refusal */
    PLAYOUT_LINE_BYTES = 64,
    /* heartbeats that one server sends in a frame, at most: plain beats, a reveal and a pass */
    PLAYOUT_SENT = 17,
    /* heartbeats that one server hears in a frame, at most: those of all others */
    PLAYOUT_HEARD = 255,
    /* as many bytes are enough for the lines of one frame of a whole channel that calls made */
    PLAYOUT_FRAME_BYTES = 237600
};

/*
 * One server. `role` is 0 down, 1 idle, 2 sync, 3 backup, 4 prospect, 5 primary. `silence`, `beat`
 * and `prospect` are the frames in which its timers were set. `pass`, `beats` and `reveal` are what
 * it sent in this frame: the identity passed to (0: none), how many plain beats, and a reveal (1)
 * or none (0). An empty place has identity 0.
 */
typedef struct playout_server {
    uint16_t identity;
    uint8_t priority;
    uint8_t role;
    uint32_t silence;
    uint32_t beat;
    uint32_t prospect;
    uint16_t pass;
    uint8_t beats;
    uint8_t reveal;
} playout_server; /* 20 bytes */

/*
 * What a playout server holds: its server, the present frame, and the period in frames, 2 to 250.
 */
typedef struct playout_front {
    playout_server server;
    uint32_t frame;
    uint32_t period;
} playout_front; /* 28 bytes */

/*
 * A heartbeat: who is to become primary (0: nobody), the sender's identity, 1 to 65,535, and
 * priority, and Reveal, which any number but 0 sets.
 */
typedef struct playout_heartbeat {
    uint16_t bs;
    uint16_t tiebreaker;
    uint8_t priority;
    uint8_t reveal;
} playout_heartbeat; /* 6 bytes */

/*
 * The servers of a channel, in rising identity; empty places, of identity 0, come last. Made by
 * `playout_table_empty` and `playout_table_add`.
 */
typedef struct playout_table {
    playout_server servers[16];
} playout_table; /* 320 bytes */

/*
 * A channel in a frame. `whole` has the link from place i to place j at 16 * i + j: 1 whole, 0 cut.
 */
typedef struct playout_channel {
    uint32_t frame;
    uint32_t period;
    playout_server servers[16];
    uint8_t whole[256];
} playout_channel; /* 584 bytes */

/* A front. `number` is 0 where it is accepted, else the refusal's, and the front is zeros. */
typedef struct playout_front_made {
    uint32_t number;
    playout_front front;
} playout_front_made; /* 32 bytes */

/*
 * What a heartbeat did. `number` is 0 where it is accepted, else the refusal's, and the rest is 0.
 * `event` is 0 nothing, 1 to backup, 2 to prospect with a beat, 3 to prospect with a reveal, 4
 * lower, 5 beat, 6 to primary, 7 to sync, 8 to idle, 9 to down, 10 passed, 11 lower with a beat.
 * `role` is the role afterwards.
 */
typedef struct playout_heard {
    uint32_t number;
    uint32_t event;
    uint32_t role;
} playout_heard; /* 12 bytes */

/*
 * What the timers did: the events of the silence timer, of the beat timer and of the prospect
 * timer, in this order, and the role afterwards. `number` is 0 where it is accepted, else the
 * refusal's, and the rest is 0.
 */
typedef struct playout_timed {
    uint32_t number;
    uint32_t silent;
    uint32_t beating;
    uint32_t rising;
    uint32_t role;
} playout_timed; /* 20 bytes */

/*
 * What a verb did: its event, and the role afterwards. `number` is 0 where it is accepted, else the
 * refusal's, and the rest is 0.
 */
typedef struct playout_acted {
    uint32_t number;
    uint32_t event;
    uint32_t role;
} playout_acted; /* 12 bytes */

/*
 * What an event sends: `count` is 1 where there is a heartbeat, else 0, and the heartbeat is zeros.
 * `number` is 0 where it is accepted, else the refusal's, and the rest is 0.
 */
typedef struct playout_sending {
    uint32_t number;
    uint32_t count;
    playout_heartbeat heartbeat;
} playout_sending; /* 16 bytes */

/*
 * What was written: so many bytes, from the slice's start. `number` is 0 where it is accepted, else
 * the refusal's, and then nothing is written.
 */
typedef struct playout_written {
    uint32_t number;
    size_t written;
} playout_written; /* 16 bytes */

/*
 * A heartbeat that was read. `number` is 0 where it is accepted, else the refusal's, and the
 * heartbeat is zeros.
 */
typedef struct playout_heartbeat_answer {
    uint32_t number;
    playout_heartbeat heartbeat;
} playout_heartbeat_answer; /* 12 bytes */

/*
 * A frame that was read. `number` is 0 where it is accepted, else the refusal's, and the frame is
 * 0.
 */
typedef struct playout_timecode_answer {
    uint32_t number;
    uint32_t frame;
} playout_timecode_answer; /* 8 bytes */

/*
 * A table after a server is added. `number` is 0 where it is accepted, else the refusal's, and the
 * table is the one handed in.
 */
typedef struct playout_table_added {
    uint32_t number;
    playout_table table;
} playout_table_added; /* 324 bytes */

/*
 * A fresh channel. `number` is 0 where it is accepted, else the refusal's, and the channel is
 * zeros.
 */
typedef struct playout_channel_opened {
    uint32_t number;
    playout_channel channel;
} playout_channel_opened; /* 588 bytes */

/*
 * A channel after a call, and how many bytes of lines it wrote. `number` is 0 where it is accepted,
 * else the refusal's; then nothing is written, and the channel is the one handed in.
 */
typedef struct playout_channel_answered {
    uint32_t number;
    size_t written;
    playout_channel channel;
} playout_channel_answered; /* 600 bytes */

/* The sizes above are those that the library has. */
#if defined(__cplusplus) && __cplusplus >= 201103L
#define PLAYOUT_SIZE(type, bytes) static_assert(sizeof(type) == (bytes), #type)
#elif defined(__STDC_VERSION__) && __STDC_VERSION__ >= 201112L
#define PLAYOUT_SIZE(type, bytes) _Static_assert(sizeof(type) == (bytes), #type)
#endif
#ifdef PLAYOUT_SIZE
PLAYOUT_SIZE(playout_server, 20);
PLAYOUT_SIZE(playout_front, 28);
PLAYOUT_SIZE(playout_heartbeat, 6);
PLAYOUT_SIZE(playout_table, 320);
PLAYOUT_SIZE(playout_channel, 584);
PLAYOUT_SIZE(playout_front_made, 32);
PLAYOUT_SIZE(playout_heard, 12);
PLAYOUT_SIZE(playout_timed, 20);
PLAYOUT_SIZE(playout_acted, 12);
PLAYOUT_SIZE(playout_sending, 16);
PLAYOUT_SIZE(playout_written, 16);
PLAYOUT_SIZE(playout_heartbeat_answer, 12);
PLAYOUT_SIZE(playout_timecode_answer, 8);
PLAYOUT_SIZE(playout_table_added, 324);
PLAYOUT_SIZE(playout_channel_opened, 588);
PLAYOUT_SIZE(playout_channel_answered, 600);
#undef PLAYOUT_SIZE
#endif

/*
 * The number of the rules that this library plays by: 1 for document 01, 2 since a reveal gets a
 * reply, one more with every change of the rules that a sheet can show. All servers of a group
 * compare theirs before they play; those whose numbers differ do not play together: half a group on
 * each side of a change of rules gives two sheets, and nobody notices. A program compares
 * `PLAYOUT_RULES`, what it was compiled against, with this, what it is linked with, at its start.
 */
uint32_t playout_rules(void);

/*
 * The version of the library's code: 1000 times the major, which rises where a program must be
 * changed or built again, so with every change of the rules too, and the minor, below 1000, which
 * rises where something is added. Servers of different versions play together where their rules
 * have one number. A program compares `PLAYOUT_VERSION`, what it was compiled against, with this,
 * what it is linked with, at its start: the same major, and no lower minor.
 */
uint32_t playout_version(void);

/*
 * The front of an idle server at frame 0, of this identity, priority and period in frames. A
 * process that comes up later in the day sets `front.frame` to the present frame, with a new front
 * only; in that frame it takes verbs only, and its first `playout_front_begin` is that of the next
 * frame. Refused with 2 (identity 0, or a period that is not 2 to 250).
 */
playout_front_made playout_front_new(uint16_t identity, uint8_t priority, uint32_t period);

/*
 * The next frame begins, with nothing sent yet. No frame is left out: a process that fell behind
 * makes up each one that it missed, with its hearing, `playout_front_tick` and its verbs, before it
 * goes on; one that cannot was down, and makes a new front. Gives 0, or the number that it is
 * refused with: 2 (the front does not decode), 16 (the front is at the day's last frame, or beyond
 * it).
 */
uint32_t playout_front_begin(playout_front *front);

/*
 * One heartbeat is heard in the present frame. Leave out those of servers that are not in the table
 * and those of the server itself: they are not refused, each sets a backup's silence timer as
 * another's would, and a backup that hears one in every frame never steps in. Gives the event and
 * the role afterwards. Refused with 2 (the front does not decode, or the heartbeat's tiebreaker is
 * 0).
 */
playout_heard playout_front_hear(playout_front *front, playout_heartbeat heartbeat);

/*
 * The timers of the present frame, after all hearing in it; in every frame. A timer goes off in the
 * one frame in which it is due, and not later: where this call is left out in that frame, a backup
 * never steps in, a primary sends no beat any more, a prospect never goes on air, until something
 * sets the timer again. Gives their events and the role afterwards. Refused with 2 (the front does
 * not decode).
 */
playout_timed playout_front_tick(playout_front *front);

/*
 * A verb in the present frame: 0 start, 1 ready, 2 unready, 3 pass, 4 crash, 5 restart, 6 cut, 7
 * mend. `to` is the second identity, for pass, cut and mend; a front has no links, so cut and mend
 * do nothing. Gives the event and the role afterwards. Refused with 2 (no such verb, an identity 0,
 * or the front does not decode), 8 (`to` is the front's own identity), 12 (the server is down), 13
 * (restart of a server that is up), 14 (the role does not allow the verb).
 */
playout_acted playout_front_act(playout_front *front, uint32_t verb, uint16_t to);

/*
 * The heartbeat that an event of this front sends, if any. `to` is the identity passed to, for
 * event 10. Refused with 2 (no such event, event 10 with `to` 0, or the front does not decode).
 */
playout_sending playout_front_sends(playout_front front, uint32_t event, uint16_t to);

/*
 * The sheet's lines of an event of this front, at its frame, into the slice. Gives how many bytes
 * were written. Refused with 2 (no such event, or the front does not decode), 9 (the slice is too
 * short).
 */
playout_written playout_front_lines(playout_front front, uint32_t event,
    uint8_t *out, size_t out_len);

/*
 * The sheet's line of a refused call of this front, at its frame, into the slice; `number` is the
 * refusal's. In a sheet only 11 to 16 have such a line. Gives how many bytes were written. Refused
 * with 2 (no such refusal, or the front does not decode), 9 (the slice is too short).
 */
playout_written playout_front_refused(playout_front front, uint32_t number,
    uint8_t *out, size_t out_len);

/* 1 where the sender of `a` is higher than that of `b`, else 0: by priority, then by identity. */
uint32_t playout_higher(playout_heartbeat a, playout_heartbeat b);

/*
 * The heartbeat of one line, its line feed included. Refused with 1 (the line's form, or bytes
 * after the line feed), 2 (a number badly written or out of range).
 */
playout_heartbeat_answer playout_heartbeat_read(const uint8_t *line, size_t line_len);

/*
 * The line of a heartbeat, its line feed included, into the slice. Gives how many bytes were
 * written. Refused with 2 (the tiebreaker is 0), 9 (the slice is too short).
 */
playout_written playout_heartbeat_write(playout_heartbeat heartbeat, uint8_t *out, size_t out_len);

/*
 * The frame that a label HH:MM:SS:FF names, 25 frames to a second. Refused with 3 (badly written,
 * or outside the day).
 */
playout_timecode_answer playout_timecode_read(const uint8_t *time, size_t time_len);

/*
 * The label of a frame, 11 bytes, into the slice. Gives how many bytes were written. Refused with 3
 * (outside the day), 9 (the slice is too short).
 */
playout_written playout_timecode_write(uint32_t frame, uint8_t *out, size_t out_len);

/* The table of no server: where every table begins. */
playout_table playout_table_empty(void);

/*
 * The table with a server more, of this identity and priority. Refused with 2 (identity 0, or no
 * table that `playout_table_empty` and this call made), 5 (the identity is in the table already), 6
 * (a seventeenth server).
 */
playout_table_added playout_table_add(playout_table table, uint16_t identity, uint8_t priority);

/*
 * A channel of the table's servers at frame 0, all idle, with a period in frames. Refused with 2 (a
 * period that is not 2 to 250, or no table that `playout_table_empty` and `playout_table_add`
 * made), 6 (no server), 7 (a period below the number of servers).
 */
playout_channel_opened playout_channel_fresh(playout_table table, uint32_t period);

/*
 * The channel one frame on, and the frame's lines into the slice. Gives the channel and how many
 * bytes were written. Refused with 2 (the channel does not decode), 16 (it is at the day's last
 * frame, or beyond it), 9 (the slice is too short).
 */
playout_channel_answered playout_channel_advance(playout_channel channel,
    uint8_t *out, size_t out_len);

/*
 * The channel at a time, given as a frame, and the lines of all frames on the way into the slice.
 * Gives the channel and how many bytes were written. Refused with 2 (the channel does not decode),
 * 3 (outside the day), 11 (before the present frame), 9 (the slice is too short).
 */
playout_channel_answered playout_channel_advance_to(playout_channel channel, uint32_t time,
    uint8_t *out, size_t out_len);

/*
 * The channel after a verb of the server with identity `a`, and the verb's lines into the slice.
 * Verbs: 0 start, 1 ready, 2 unready, 3 pass, 4 crash, 5 restart, 6 cut, 7 mend. `b` is the second
 * identity, for pass, cut and mend. Gives the channel and how many bytes were written. Refused with
 * 2 (no such verb, an identity 0, or the channel does not decode), 8 (an identity that is not in
 * the table, or twice the same), 12 (the server is down), 13 (restart of a server that is up), 14
 * (the role does not allow the verb), 15 (cut of a cut link, mend of a whole one), 9 (the slice is
 * too short).
 */
playout_channel_answered playout_channel_verb(playout_channel channel, uint32_t verb, uint16_t a,
    uint16_t b, uint8_t *out, size_t out_len);

/*
 * The sheet's line of a refused call on this channel, at its frame, into the slice: the call's
 * first identity (0 for an end) and the refusal's number. In a sheet only 11 to 16 have such a
 * line. Gives how many bytes were written. Refused with 2 (no such refusal, or the channel does not
 * decode), 9 (the slice is too short).
 */
playout_written playout_channel_refused(playout_channel channel, uint16_t identity,
    uint32_t number, uint8_t *out, size_t out_len);

/*
 * The sheet of a whole day, given as its lines, into the slice. Gives how many bytes were written;
 * a refused line of the day is told in the sheet. Refused with 9 (the slice is too short).
 */
playout_written playout_sheet(const uint8_t *day, size_t day_len, uint8_t *out, size_t out_len);

/*
 * Whether a sheet is that of a whole day, as `playout_sheet` writes it: 0 where it is, byte for
 * byte, else the number of the first line that departs. Lines are compared by their places, each
 * with its line feed, and the header is line 1: a line that is missing counts at its place, and so
 * does one too many. The call is never refused; the sheet of a day that is refused ends with that
 * refusal.
 */
uint64_t playout_departure(const uint8_t *day, size_t day_len,
    const uint8_t *sheet, size_t sheet_len);

#ifdef __cplusplus
}
#endif

#endif
