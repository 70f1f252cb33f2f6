/* The calls of a NAVTEX receiver without a heap: `rt lib` in crates/nx_live makes libnx_live.a, which
 * has them. What is kept of a receiver lies in room that its caller lends; no call takes memory, reads a
 * clock or touches a file.
 *
 * What each call answers is proved, in crates/nx_handle and crates/nx_live; that this header says the
 * same as the library is not: no compiler compares the two.
 *
 * What a caller owes, and nothing checks:
 *  - Behind each pointer to bytes as many lie as the length after it says, readable, and writable
 *    where the pointer is to no const; no pointer is NULL, also where the length is 0; a length is
 *    less than 2^63. What is written to may hold anything before the call.
 *  - What a call writes to overlaps nothing else that it is given.
 *  - A receiver is made by nx_live_lend or nx_live_lend_combining, and is never written or copied. The
 *    room is the receiver's until nx_live_return. Each call on a receiver has ended before the next
 *    begins.
 *  - A receiver is closed or abandoned before its room is given back.
 */
#ifndef NAVTEX_LIVE_H
#define NAVTEX_LIVE_H

#include <stdbool.h>
#include <stddef.h>
#include <stdint.h>
#include <string.h>

#ifdef __cplusplus
extern "C" {
#endif

/* How a call ended. The numbers are those of navtex.h. */
enum nx_live_status {
    NX_LIVE_DONE = 0,
    NX_LIVE_NO_ROOM = 1,       /* nx_live_save, nx_live_log_entry: `written` is greater than the capacity;
                                * else less than NX_LIVE_MAX_ENTRY of room was given, and nothing was done */
    NX_LIVE_MOMENT_RANGE = 11, /* the moment is past the year 2999 */
    NX_LIVE_MOMENT_BACK = 12,  /* the moment is before the one in force */
    NX_LIVE_VITAL = 13,        /* the subject can't be refused */
    NX_LIVE_STATE_LINE = 14,   /* a line of the state is not understood */
    NX_LIVE_STATE_CUT = 15,    /* the state has no end */
    NX_LIVE_NO_STATION = 28,   /* the byte names no station */
    NX_LIVE_CLOSED = 32,       /* the receiver is closed, or its end has begun */
    NX_LIVE_ALREADY_OPEN = 33, /* the receiver is open */
    NX_LIVE_NO_CHANNEL = 34,   /* the receiver has no channel of this number */
    NX_LIVE_NO_ELEMENT = 35,   /* a byte is none of an element */
    NX_LIVE_NO_SUBJECT = 36,   /* the byte names no subject */
    NX_LIVE_NO_ENTRY = 37      /* the bytes begin with no entry of a log */
};

/* How many bytes of room a receiver needs of so many channels, one to three, and how they are aligned.
 * Over the C that wasm2c makes, the memory of the whole module lies in the room, its stack too; all is
 * then compiled with -DNX_LIVE_BY_WASM2C. What is kept has NX_LIVE_CHANNEL bytes of each channel, and
 * NX_LIVE_KEPT of three. */
#define NX_LIVE_CHANNEL 7464
#define NX_LIVE_KEPT 22392
#ifdef NX_LIVE_BY_WASM2C
#if NX_LIVE_FAMILIES > 0
#define NX_LIVE_MODULE 57304
#else
#define NX_LIVE_MODULE 48088
#endif
#define NX_LIVE_ROOM(channels) (NX_LIVE_MODULE + (channels) * NX_LIVE_CHANNEL)
#else
#define NX_LIVE_ROOM(channels) ((channels) * NX_LIVE_CHANNEL)
#endif
#define NX_LIVE_ROOM_ALIGNMENT 8

/* The same of a receiver that takes several sendings of a message together: for so many channels, and so
 * many messages of each channel at a time, its *families*, 0 to 200; with 0 it is NX_LIVE_ROOM. A channel
 * has NX_LIVE_COMBINING_CHANNEL bytes, and each of its families NX_LIVE_FAMILY. Over the C that wasm2c
 * makes all is then compiled with the greatest number of families, as -DNX_LIVE_FAMILIES=60. */
#define NX_LIVE_COMBINING_CHANNEL 19864
#define NX_LIVE_FAMILY 8240
#define NX_LIVE_MAX_FAMILIES 200
#define NX_LIVE_COMBINING_ROOM(channels, families) \
    (NX_LIVE_ROOM(channels) \
     + ((families) > 0 ? (channels) * (NX_LIVE_COMBINING_CHANNEL - NX_LIVE_CHANNEL + (families) * NX_LIVE_FAMILY) : 0))

/* Room for this many bytes holds each entry, and for this many each state. */
#define NX_LIVE_MAX_ENTRY 4163
#define NX_LIVE_MAX_STATE 11001

/* A receiver: where the room lies that was lent to it, for how many channels, and whether it takes
 * several sendings of a message together. */
struct nx_live {
    void *room;
    size_t channels;
    bool combines;
};

/* Make a closed receiver of one, two or three channels, of NX_LIVE_ROOM of so many bytes of room,
 * whatever lies there. It has channel 0, channels 0 and 1, or all three. */
void nx_live_lend_1(struct nx_live *receiver, void *room);
void nx_live_lend_2(struct nx_live *receiver, void *room);
void nx_live_lend_3(struct nx_live *receiver, void *room);

/* The same by a number of channels, 1 to 3. */
static inline void nx_live_lend(struct nx_live *receiver, void *room, int channels) {
    if (channels == 1)
        nx_live_lend_1(receiver, room);
    else if (channels == 2)
        nx_live_lend_2(receiver, room);
    else
        nx_live_lend_3(receiver, room);
}

/* The same of a receiver that takes several sendings of a message together, as `navtex listen --combine`
 * does: of NX_LIVE_COMBINING_CHANNEL bytes of room for each channel, whatever lies there, and of room for
 * so many families of each channel, 1 to 200, of NX_LIVE_FAMILY bytes each. In that room each byte is 0,
 * or it is as another receiver gave it back. Each channel's families lie behind those of the one before.
 * Over the C that wasm2c makes only nx_live_lend_combining calls these. */
void nx_live_lend_1_families(struct nx_live *receiver, void *room, void *families_room, size_t families);
void nx_live_lend_2_families(struct nx_live *receiver, void *room, void *families_room, size_t families);
void nx_live_lend_3_families(struct nx_live *receiver, void *room, void *families_room, size_t families);

/* The same by a number of channels, 1 to 3, and of families of each channel, 0 to 200, in one room of
 * NX_LIVE_COMBINING_ROOM bytes, whatever lies there. With 0 families it is nx_live_lend. */
static inline void nx_live_lend_combining(struct nx_live *receiver, void *room, int channels, size_t families) {
    unsigned char *families_room = (unsigned char *)room + (size_t)channels * NX_LIVE_COMBINING_CHANNEL;
    if (families == 0) {
        nx_live_lend(receiver, room, channels);
        return;
    }
    memset(families_room, 0, (size_t)channels * families * NX_LIVE_FAMILY);
    if (channels == 1)
        nx_live_lend_1_families(receiver, room, families_room, families);
    else if (channels == 2)
        nx_live_lend_2_families(receiver, room, families_room, families);
    else
        nx_live_lend_3_families(receiver, room, families_room, families);
}

/* Gives the room of a closed receiver back, and that of its families. No call may take the receiver any
 * more. */
void nx_live_return(struct nx_live *receiver);

/* Opens a closed receiver at a moment, in seconds since 1970-01-01 00:00:00 UTC.
 * NX_LIVE_ALREADY_OPEN or NX_LIVE_MOMENT_RANGE: it stays as it was. */
uint32_t nx_live_open(struct nx_live *receiver, uint64_t moment);

/* Opens a closed receiver from the text of a state, as nx_live_save writes it. NX_LIVE_ALREADY_OPEN,
 * NX_LIVE_STATE_LINE, NX_LIVE_STATE_CUT, or NX_LIVE_NO_CHANNEL, where the state has an entry or refuses
 * something of a channel that the receiver doesn't have: it stays as it was. */
uint32_t nx_live_open_from(struct nx_live *receiver, const uint8_t *state, size_t length);

/* Sets the moment from here on, of all channels. */
uint32_t nx_live_set_moment(struct nx_live *receiver, uint64_t moment);

/* Hears elements of a channel, by its number, each a byte, 1 for B and 0 for Y: up to and with the one that
 * ends the first message that is printed. `heard` is how many it heard, and `written` the length of
 * the entry; 0 where nothing is printed, and then it heard all. Ask with NX_LIVE_MAX_ENTRY of room. */
uint32_t nx_live_hear(struct nx_live *receiver, uint8_t channel, const uint8_t *elements, size_t count,
                      size_t *heard, uint8_t *log, size_t capacity, size_t *written);

/* Tells from how many sendings of its message the entry is put together that nx_live_hear handed out last
 * on a channel: 1 where each copy is judged alone. 0 where it isn't done: NX_LIVE_CLOSED,
 * NX_LIVE_NO_CHANNEL. */
uint32_t nx_live_sendings(struct nx_live *receiver, uint8_t channel, uint64_t *sendings);

/* Refuse a station or a subject, 'A' to 'Z', on a channel from here on, and refuse it no longer. */
uint32_t nx_live_refuse_station(struct nx_live *receiver, uint8_t channel, uint8_t station);
uint32_t nx_live_accept_station(struct nx_live *receiver, uint8_t channel, uint8_t station);
uint32_t nx_live_refuse_subject(struct nx_live *receiver, uint8_t channel, uint8_t subject);
uint32_t nx_live_accept_subject(struct nx_live *receiver, uint8_t channel, uint8_t subject);

/* Writes the text of a state, with which nx_live_open_from goes on: at most NX_LIVE_MAX_STATE bytes, and
 * nothing of a channel that the receiver doesn't have.
 * NX_LIVE_NO_ROOM: there is no room for all of it; NX_LIVE_CLOSED. */
uint32_t nx_live_save(struct nx_live *receiver, uint8_t *state, size_t capacity, size_t *written);

/* Hands out what the end prints, one entry a call; `written` is 0 where none is left, and then the
 * receiver is closed, and may be opened again. Room as for nx_live_hear. */
uint32_t nx_live_close(struct nx_live *receiver, uint8_t *log, size_t capacity, size_t *written);

/* Closes a receiver, and prints nothing. */
void nx_live_abandon(struct nx_live *receiver);

/* What an entry of a log says. */
struct nx_live_entry {
    uint64_t moment;  /* of its header, in seconds since 1970-01-01 00:00:00 UTC */
    size_t length;    /* how many bytes it has */
    uint16_t errors;  /* the asterisks in its text */
    uint8_t channel;  /* 0 to 2 */
    uint8_t station;  /* 'A' to 'Z' */
    uint8_t subject;  /* 'A' to 'Z' */
    uint8_t number;   /* 0 to 99 */
    uint8_t how;      /* how it ended: 0 full, 1 cut, 2 long */
};

/* Reads the entry of a log with which the bytes begin, as nx_live_hear and nx_live_close hand them out,
 * whatever lies behind it, and writes its text: at most 4,100 bytes. NX_LIVE_NO_ENTRY: they begin with
 * none; the entry stays as it was, and no text is written. The receiver, open or closed, stays as it
 * is; over the C that wasm2c makes, its room is where this works. */
uint32_t nx_live_log_entry(const struct nx_live *receiver, const uint8_t *bytes, size_t count,
                           struct nx_live_entry *entry, uint8_t *text, size_t capacity, size_t *written);

#ifdef NX_LIVE_BY_WASM2C
/* The caller's: called where the module can't go on, as with too small a stack. The receiver is lost
 * then, and this doesn't return. */
void nx_live_trapped(void);
#endif

#ifdef __cplusplus
}
#endif

#endif
