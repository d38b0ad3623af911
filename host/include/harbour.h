/* The wait room for hosts in C: a monitor with automatic signals, written as a step machine. One event in, one report out.
 *
 * What a room does is document 01, "Description of the wait room and its rules"; opening, event, job, measure, alternative, atom, tag, ticket and
 * call are its words. The code is written in Rattle. What is said below of answers, rooms and tallies is proved of it.
 *
 * Link with libharbour.a (for x86-64: tools/test-host leaves it in target/staticlib; `rt lib` in crates/harbour_c makes it). The library keeps nothing
 * between calls but what stands in the structs that it is lent, and writes nothing else. It calls memcpy and memset, and allocates nothing.
 *
 * Threads: calls on one room must not overlap, and nobody may read a room or a tally during a call that is lent it. Calls on different rooms with
 * different tallies may. Real threads, locks and sleeping belong to the host; host/examples/buffer shows one.
 */
#ifndef HARBOUR_H
#define HARBOUR_H

#include <stddef.h>
#include <stdint.h>

#ifdef __cplusplus
extern "C" {
#endif

/* ---- Numbers that bound a room. They are part of the struct's layout, and no host can change them. */

#define HARBOUR_JOBS 32           /* jobs 0 to 31 */
#define HARBOUR_NOBODY 32         /* where a job is named: none */
#define HARBOUR_VARIABLES 8       /* shared variables 0 to 7 */
#define HARBOUR_MEASURES_MOST 16  /* 1 to 16 measures, numbered from 0 */
#define HARBOUR_NODES 128         /* alternatives: alternative i of job j is node 4 * j + i */
#define HARBOUR_SLOTS 512         /* atoms: atom k of node n is in slot 4 * n + k */
#define HARBOUR_HOMES 34          /* of the index, 128 places each */
#define HARBOUR_TICKETS 1000000   /* tickets 0 to 999,999 */
#define HARBOUR_TALLY_MOST 1000000000

/* ---- Standings */

#define HARBOUR_OUTSIDE 0
#define HARBOUR_DOOR 1
#define HARBOUR_INSIDE 2 /* one job at most */
#define HARBOUR_WAITING 3
#define HARBOUR_CALLED 4

/* ---- Outcomes */

#define HARBOUR_DONE 0      /* an Arrive, a Set or a Leave was accepted */
#define HARBOUR_IN 1        /* an Admit: the job is inside */
#define HARBOUR_WAITS 2     /* a Wait whose condition is false: the job took a ticket and waits */
#define HARBOUR_ON 3        /* a Wait whose condition is true: the job stays inside */
#define HARBOUR_BACK 4      /* an Admit of a called job whose condition is false again: it waits once more, with its old ticket */
#define HARBOUR_REFUSED 5   /* nothing changed */
#define HARBOUR_NONE_LEFT 6 /* there were no bytes: no refusal, and nothing changed */

/* ---- Refusals. The reader stops at the first field that it cannot take, in field order, and judges its bytes (1, 2) before its range (3, 4). Then
 * come 5, 6 and 7. */

#define HARBOUR_BYTES_END 1      /* the bytes end inside the record; of an opening also: there are none */
#define HARBOUR_NUMBER_FORM 2    /* a number's fifth byte is 16 or more, or the last of several groups is 0 */
#define HARBOUR_UNKNOWN 3        /* the kind is not 1 to 5, or an operator not 1 to 6 */
#define HARBOUR_OUT_OF_RANGE 4   /* a number is outside its range, or names a measure that the room lacks */
#define HARBOUR_WRONG_STANDING 5 /* the job's standing is not the one that the event needs */
#define HARBOUR_ANOTHER_INSIDE 6 /* Admit of a job at the door or called while another is inside */
#define HARBOUR_NO_TICKET_LEFT 7 /* Wait with a false condition when all tickets are given */

/* A room. The host has the memory: 13,016 bytes, aligned to 8. It may read all of it between calls, and copy it: a copy of a room is a room. Only the
 * library may write it, and a room that anybody else wrote into must not be given to harbour_event again. */
struct harbour_room {
    int64_t coefficients[HARBOUR_MEASURES_MOST][HARBOUR_VARIABLES]; /* those of each measure; they stay as opened, and rows past `measures` are 0 */
    int64_t values[HARBOUR_VARIABLES];                              /* the shared values */
    uint8_t standing[HARBOUR_JOBS];                                 /* HARBOUR_OUTSIDE to HARBOUR_CALLED */

    /* Of jobs that are waiting or called, and of no others: ticket and closed condition. Slots past a count mean nothing. */
    uint32_t ticket[HARBOUR_JOBS];
    uint8_t alternatives[HARBOUR_JOBS]; /* how many, 1 to 4 */
    uint8_t atoms[HARBOUR_NODES];       /* how many each alternative has, 1 to 4 */
    uint8_t measure[HARBOUR_SLOTS];     /* of each atom its measure, */
    uint8_t operator_[HARBOUR_SLOTS];   /* its operator: 1 =, 2 not =, 3 <, 4 <=, 5 >, 6 >=, */
    int64_t key[HARBOUR_SLOTS];         /* and its key */

    /* The index over the waiting jobs. How it is arranged is the library's own business and may change. */
    uint8_t entry[HARBOUR_JOBS];
    uint64_t high[HARBOUR_NODES];
    uint64_t low[HARBOUR_NODES];
    uint8_t places[HARBOUR_HOMES * 128];
    uint8_t lengths[HARBOUR_HOMES];

    size_t measures;      /* the measure count, 1 to 16 */
    uint32_t next_ticket; /* what the next job to wait gets; HARBOUR_TICKETS once all are given */
};

/* Four counts that events add to. They are the host's: it may start them anywhere, share a tally between rooms, and write it between calls. An accepted
 * event raises a count to HARBOUR_TALLY_MOST at most; one that is above that already stays as it is. */
struct harbour_tally {
    uint64_t events;    /* accepted events */
    uint64_t calls;     /* jobs that a search moved from waiting to called */
    uint64_t evaluated; /* alternatives that searches evaluated */
    uint64_t sent_back; /* called jobs that were sent back to waiting */
};

/* The answer to an opening. */
struct harbour_opened {
    uint8_t refusal;   /* 0 for a room; else 1, 2 or 4 */
    uint64_t measures; /* the measure count; 0 if refused */
    uint64_t taken;    /* how many bytes the opening took; 0 if refused */
};

/* The answer to an event. */
struct harbour_report {
    uint8_t outcome; /* HARBOUR_DONE to HARBOUR_NONE_LEFT */
    uint8_t job;     /* the job that the event's search called, or HARBOUR_NOBODY */
    uint8_t refusal; /* 1 to 7 if the outcome is HARBOUR_REFUSED, else 0 */
    uint64_t count;  /* how many alternatives the event's search evaluated; 0 without a search */
    uint64_t taken;  /* how many bytes the record took; 0 for refusals 1 to 4 and for none left, the whole record for refusals 5 to 7 */
};

/* Opens a room from the bytes that an opening begins with; more may follow.
 *
 * Assumed: `room` may be written, `length` bytes may be read at `bytes`, and they do not overlap. Nothing is assumed of the bytes, nor of what stood in
 * the room before.
 *
 * Refusal 0: the room has the opening's measures and values, every job stands outside, and no ticket is given. Else there is no room: every number in
 * the struct is 0, and it must not be given to harbour_event. Answer and struct are determined by the bytes alone. */
struct harbour_opened harbour_open(struct harbour_room *room, const uint8_t *bytes, size_t length);

/* Gives a room the event that the bytes begin with; more may follow, and are for a next call: at bytes + taken.
 *
 * Assumed: `tally` and `room` may be written, `length` bytes may be read at `bytes`, and no two of the three overlap. The room came from an accepted
 * harbour_open and from calls of this function, and from nothing else. Nothing is assumed of the bytes or of the tally.
 *
 * Every string of bytes is answered. Answer, room and tally are afterwards what document 01's rules make of the room, the tally and the bytes:
 *
 * - An accepted event (outcomes 0 to 4) changes the room as its kind says and adds 1 to `events`, 1 to `calls` if a job was called, `count` to
 *   `evaluated`, and 1 to `sent_back` if the outcome is HARBOUR_BACK, each up to the ceiling.
 * - A refused event, and none left, change neither room nor tally, not in a single byte, and report no call and count 0.
 * - A search is made by a Leave, by a Wait that is false, and by an Admit that is sent back. It calls a job if any waiting job's condition is true, the
 *   one that document 01 ranks first, and nobody exactly if none is true.
 * - A job is called only if its condition was true at that moment. A called job goes inside only if its condition is true again when it is admitted. */
struct harbour_report harbour_event(struct harbour_tally *tally, struct harbour_room *room, const uint8_t *bytes, size_t length);

/* ---- What a host may look at between calls, each over the one field of its room that it needs. They change nothing, and nothing is assumed of the
 * numbers in the array. */

/* The standing of a job, given room->standing; HARBOUR_OUTSIDE for a number that names no job. */
uint8_t harbour_standing(const uint8_t standing[HARBOUR_JOBS], uint8_t job);

/* The job inside, given room->standing; HARBOUR_NOBODY if none is. */
uint8_t harbour_inside(const uint8_t standing[HARBOUR_JOBS]);

/* The value of a shared variable, given room->values; 0 for a number that names no variable. */
int64_t harbour_value(const int64_t values[HARBOUR_VARIABLES], uint8_t variable);

/* ---- A whole stream, an opening and its events, to the listing that the stream program writes for it. */

#define HARBOUR_STREAM_MOST 65536   /* a longer stream is listed as refused 8 */
#define HARBOUR_LISTING_MOST 655360 /* no listing is longer */

/* Writes the listing into `out` and answers how many bytes of it are filled. A listing longer than the buffer is cut at its end; the bytes of `out` after it
 * stay as they were. Every string of bytes has a listing.
 *
 * Assumed: `room` bytes may be written at `out`, `length` bytes may be read at `bytes`, and they do not overlap. */
size_t harbour_listing(uint8_t *out, size_t room, const uint8_t *bytes, size_t length);

#ifdef __cplusplus
}
#endif

#endif
