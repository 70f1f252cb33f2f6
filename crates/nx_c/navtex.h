/* The calls of the NAVTEX station and receiver for C, and for what calls C: libnx_c.a has them.
 *
 * Each works on bytes in memory alone: no file and no clock. The calls over whole files keep nothing
 * between two calls; a struct nx_receiver hears elements as they come. What each answers is proved, in
 * crates/nx_c/src; that this header says the same as the library is not: no compiler compares the two.
 *
 * What a caller owes, and nothing checks:
 *  - Behind each pointer to bytes as many lie as the length after it says, readable, and writable
 *    where the pointer is to no const; no pointer is NULL, also where the length is 0; a length is
 *    less than 2^63. What is written to may hold anything before the call.
 *  - What a call writes to (bytes, lengths, the place) overlaps nothing else that it is given, and
 *    no other thread touches it until the call returns. Calls at once in several threads are fine.
 *  - malloc, realloc and free are those of one allocator, and align a block as C says. No call from
 *    a signal handler, nor from the forked child of a process with threads.
 *
 * The library is linked with three functions that take memory from the C library, those of the
 * toolchain (c/liblibc_c.a beside its guides) or of examples/c/heap.c.
 *
 * Bytes that are written go to the caller's room, `capacity` bytes: as many as there is room for, and
 * what lies behind them stays. `written` is the length of all of them, those too for which there was
 * no room; so a call with a capacity of 0 measures. A call that returns NX_DONE had room for all.
 */
#ifndef NAVTEX_H
#define NAVTEX_H

#include <stddef.h>
#include <stdint.h>

#ifdef __cplusplus
extern "C" {
#endif

/* How a call ended. Behind each fault stands what nx_place has of it. */
enum nx_status {
    NX_DONE = 0,               /* all succeeded, and the room held all that was written */
    NX_NO_ROOM = 1,            /* all succeeded, but `written` is greater than the capacity */
    NX_READ = 2,               /* a read failed: bytes in memory never do, but no proof says so */
    NX_WRITE = 3,              /* no memory for what is written */
    NX_MEMORY = 4,             /* no memory for the run */
    NX_FILE_TOO_LONG = 5,      /* more than 1,048,576 bytes */
    NX_AIR_TOO_LONG = 6,       /* nx_listen, nx_resume: more than 268,435,456 bytes */
    NX_LINE_LONG = 7,          /* line: it has more than 514 bytes */
    NX_LINE_CUT = 8,           /* line: it has no end */
    NX_BAD_LINE = 9,           /* line: it is not understood */
    NX_NO_MOMENT = 10,         /* line: it has elements, and there was no moment yet */
    NX_MOMENT_RANGE = 11,      /* line; at: its moment, which is past the year 2999 */
    NX_MOMENT_BACK = 12,       /* line; at: its moment, which is before the last one */
    NX_VITAL = 13,             /* line; at: its subject, which can't be refused */
    NX_STATE_LINE = 14,        /* line of the state: it is not understood */
    NX_STATE_CUT = 15,         /* line of the state: it has no end */
    NX_STATE_NO_ROOM = 16,     /* nx_resume: all done, but for room for all of the new state */
    NX_RAGGED = 17,            /* at: how many elements there are, which are no whole words */
    NX_NO_SUCH_CHARACTER = 18, /* at: the place, from 0, of a character that has no signal */
    NX_LONG_LINE = 19,         /* line of #, text_line: it has more than 69 characters */
    NX_BAD_CHARACTER = 20,     /* line of #, text_line; at: its character that has no signal */
    NX_RESERVED = 21,          /* line of #, text_line: it has ZCZC or NNNN */
    NX_LONG_TEXT = 22,         /* line of #: its text has more than 4,096 characters */
    NX_OPEN = 23,              /* line of #: the file ends inside the message */
    NX_NO_MESSAGES = 24,       /* there is no message */
    NX_MIXED_STATIONS = 25,    /* never of the calls below, where all messages are of one station */
    NX_NO_SLOT = 26,           /* the station has no slot, or none any more */
    NX_SLOT_FULL = 27,         /* at: how many positions there are, more than a slot's 4,286 */
    NX_NO_STATION = 28,        /* the byte is no letter A to Z */
    NX_WRONG_WORD = 29,        /* at: the slot of a word of the wrong weight */
    NX_UNPAIRED = 30,          /* at: the position whose two words are no pair */
    NX_BAD_ENVELOPE = 31,      /* the words are no emission of this profile */
    NX_CLOSED = 32,            /* the receiver is closed, or its end has begun */
    NX_ALREADY_OPEN = 33,      /* the receiver is open already */
    NX_NO_CHANNEL = 34,        /* the number is not 0, 1 or 2 */
    NX_NO_ELEMENT = 35,        /* a byte is not 0 or 1 */
    NX_NO_SUBJECT = 36,        /* the byte is no letter A to Z */
    NX_NO_ENTRY = 37,          /* the bytes begin with no entry of a log */
    NX_TOO_MANY_FAMILIES = 38  /* a receiver can't hold so many */
};

/* Where a fault stands. What the fault doesn't have is 0. */
struct nx_place {
    uint64_t line;      /* the line of the file, from 1 */
    uint64_t text_line; /* the line of a message, from 1 behind the line of its # */
    uint64_t at;        /* what the fault counts or names beside them */
};

/* Listens to an air file from nothing, and writes its log, as `navtex listen` does. After a fault
 * the log of the whole lines before it is written, and `written` is its length. */
uint32_t nx_listen(const uint8_t *air, size_t length, uint8_t *log, size_t capacity,
                   size_t *written, struct nx_place *place);

/* Listens to an air file, going on from a state, and writes its log, as `navtex resume` does, and
 * the new state, as `navtex save` does. What lies behind the text in `state` isn't read: no air file
 * belongs there. The new state is written only where all succeeded and the room for the log held all
 * of it; else state_written is 0, and its room stays as it was. NX_STATE_NO_ROOM: state_written is
 * greater than its capacity, and the log stands. The state of a beginning is "STATE 1\nEND\n". */
uint32_t nx_resume(const uint8_t *state, size_t state_length, const uint8_t *air, size_t length,
                   uint8_t *log, size_t capacity, size_t *written,
                   uint8_t *new_state, size_t state_capacity, size_t *state_written,
                   struct nx_place *place);

/* Writes the air file by which a station, 'A' to 'X', sends the messages of a message file in its
 * next slot from a moment on, in seconds since 1970-01-01 00:00:00 UTC, as `navtex send` does. After
 * a fault but NX_WRITE nothing is written, by this call and each below. */
uint32_t nx_send(uint8_t station, uint64_t moment, const uint8_t *messages, size_t length,
                 uint8_t *air, size_t capacity, size_t *written, struct nx_place *place);

/* Reads an air file strictly, as an emission, and writes its messages, as `navtex check` does. */
uint32_t nx_check(const uint8_t *air, size_t length, uint8_t *text, size_t capacity,
                  size_t *written, struct nx_place *place);

/* Decodes the words of an air file, as `navtex decode` does. */
uint32_t nx_decode(const uint8_t *air, size_t length, uint8_t *text, size_t capacity,
                   size_t *written, struct nx_place *place);

/* Writes a text as an air file, as `navtex encode` does. */
uint32_t nx_encode(const uint8_t *text, size_t length, uint8_t *air, size_t capacity,
                   size_t *written, struct nx_place *place);

/* The signal of a word of seven elements, in which the element sent first has the least place and B
 * is 1: 1 to 32 the combinations, 33 alpha, 34 beta, 35 repetition; 0 where it stands for none. */
uint8_t nx_signal_of(uint8_t word);

/* The moment at which the next slot of a station begins, from a moment on; UINT64_MAX: none. */
uint64_t nx_slot(uint8_t station, uint64_t moment);

/* ---- a receiver that is kept between calls ----
 *
 * It hears elements as they come, of three channels at once: each is a frequency with a receiver of
 * its own. Where it is opened with no families, the log of a file through these calls is that of
 * nx_listen.
 *
 * A family is what the sendings of one message so far give, taken together position by position. A
 * receiver that is opened with so many families holds the last so many on each channel. Its log is
 * then that of `navtex listen --combine`, which holds 200. A message that has become better is
 * printed once more; nx_sendings says from how many sendings an entry is put together. Families are
 * no part of a state: behind nx_open_from they begin anew.
 *
 * It takes all of its memory when it is opened, and gives it back when it is closed; no call between
 * takes any. That is 22 kB without families; with them it is 20 kB for each channel, and 8.2 kB for
 * each family, so 5 MB for 200 families on each of the three channels.
 *
 * What a caller owes for it: it begins as {0}, and is never written or copied; each call on it has
 * ended before the next begins, on one thread. It is closed or abandoned before it is forgotten.
 */
struct nx_receiver {
    void *kept; /* NULL: it is closed */
};

/* Room for this many bytes holds each entry. */
#define NX_MAX_ENTRY 4163

/* The most families that a receiver holds on a channel. */
#define NX_MAX_FAMILIES 200

/* Opens a closed receiver at a moment, in seconds since 1970-01-01 00:00:00 UTC, with so many families
 * on each channel, at most NX_MAX_FAMILIES; 0: each sending is taken alone. NX_ALREADY_OPEN,
 * NX_TOO_MANY_FAMILIES, NX_MOMENT_RANGE or NX_MEMORY: it stays as it was. */
uint32_t nx_open(struct nx_receiver *receiver, uint64_t moment, size_t families);

/* Opens a closed receiver from the text of a state, as nx_save writes it, with so many families: it
 * remembers the state's entries, has its selection, and the greatest moment of an entry. What lies
 * behind the text isn't read. NX_ALREADY_OPEN, NX_TOO_MANY_FAMILIES, NX_STATE_LINE, NX_STATE_CUT or
 * NX_MEMORY: it stays as it was. */
uint32_t nx_open_from(struct nx_receiver *receiver, const uint8_t *state, size_t length, size_t families);

/* Hears elements of a channel, 0 to 2, each a byte, 1 for B and 0 for Y: up to and with the one that
 * ends the first message that is printed. `heard` is how many it heard, and `written` the length of
 * the entry; 0 where nothing is printed, and then it heard all. What is left is given to the next call.
 * Ask with NX_MAX_ENTRY of room: with less the answer is NX_NO_ROOM. After it, NX_CLOSED, NX_NO_CHANNEL
 * or NX_NO_ELEMENT nothing was heard, and heard and written are 0. */
uint32_t nx_hear(struct nx_receiver *receiver, uint8_t channel, const uint8_t *elements, size_t count,
                 size_t *heard, uint8_t *log, size_t capacity, size_t *written);

/* Writes from how many sendings the entry is put together that a channel printed last by nx_hear: more
 * than 1 only where it was taken together with its family. Before the first entry the number says
 * nothing. NX_CLOSED or NX_NO_CHANNEL: 0 is written. */
uint32_t nx_sendings(struct nx_receiver *receiver, uint8_t channel, uint64_t *sendings);

/* Sets the moment from here on, of all channels. NX_MOMENT_RANGE, NX_MOMENT_BACK or NX_CLOSED: it
 * stays as it was. */
uint32_t nx_set_moment(struct nx_receiver *receiver, uint64_t moment);

/* Refuse a station or a subject, 'A' to 'Z', on a channel from here on, and refuse it no longer. A, B,
 * D and L can't be refused (NX_VITAL). NX_NO_CHANNEL, NX_NO_STATION, NX_NO_SUBJECT or NX_CLOSED: it
 * stays as it was. */
uint32_t nx_refuse_station(struct nx_receiver *receiver, uint8_t channel, uint8_t station);
uint32_t nx_accept_station(struct nx_receiver *receiver, uint8_t channel, uint8_t station);
uint32_t nx_refuse_subject(struct nx_receiver *receiver, uint8_t channel, uint8_t subject);
uint32_t nx_accept_subject(struct nx_receiver *receiver, uint8_t channel, uint8_t subject);

/* Writes the text of a state, with which nx_open_from goes on after a power cut: of each channel the
 * last 200 entries, and what is selected. A message that stands open and families are no part of it. */
uint32_t nx_save(struct nx_receiver *receiver, uint8_t *state, size_t capacity, size_t *written);

/* Ends the elements of all channels, and hands out what their end prints, by channel: one entry a
 * call, with `written` its length; 0 where none is left, and then the receiver is closed. From the
 * first of these calls on it hears nothing more. Room as for nx_hear: NX_NO_ROOM or NX_CLOSED else. */
uint32_t nx_close(struct nx_receiver *receiver, uint8_t *log, size_t capacity, size_t *written);

/* Closes a receiver, and prints nothing. One that is closed stays so. */
void nx_abandon(struct nx_receiver *receiver);

/* What an entry of a log says. */
struct nx_entry {
    uint64_t moment;  /* of its header, in seconds since 1970-01-01 00:00:00 UTC */
    size_t length;    /* how many bytes it has */
    uint16_t errors;  /* the asterisks in its text */
    uint8_t channel;  /* 0 to 2 */
    uint8_t station;  /* 'A' to 'Z' */
    uint8_t subject;  /* 'A' to 'Z' */
    uint8_t number;   /* 0 to 99 */
    uint8_t how;      /* how it ended: 0 full, 1 cut, 2 long */
};

/* Reads the entry of a log with which the bytes begin, whatever lies behind it, and writes its text: at
 * most 4,100 bytes. NX_NO_ENTRY: they begin with none; the entry stays as it was, and no text is
 * written. */
uint32_t nx_log_entry(const uint8_t *bytes, size_t count, struct nx_entry *entry, uint8_t *text,
                      size_t capacity, size_t *written);

#ifdef __cplusplus
}
#endif

#endif
