/* A receiver on a machine without an operating system: no malloc, no stdio, all memory static. The
 * demodulator's interrupt hands over each element, and the main loop hears what came. What is
 * printed goes out byte by byte. The machine has put_byte, now and wait of its own. */
#include "navtex-live.h"

/* The machine's: sends a byte out, by a serial line say; the seconds since 1970-01-01 00:00:00
 * UTC; waits for an interrupt, and says whether the machine goes on. */
void put_byte(uint8_t byte);
uint64_t now(void);
int wait(void);

/* Elements that came and were not heard yet: at 100 a second, those of five seconds. */
#define RING 512
static volatile uint8_t ring[RING];
static volatile unsigned came, taken;

/* So many channels are heard at once. This machine has one demodulator, of channel 0. */
#ifndef CHANNELS
#define CHANNELS 3
#endif

/* Of so many messages a channel, several sendings are taken together. */
#ifndef FAMILIES
#define FAMILIES 0
#endif

static _Alignas(NX_LIVE_ROOM_ALIGNMENT) unsigned char room[NX_LIVE_COMBINING_ROOM(CHANNELS, FAMILIES)];
static uint8_t entry[NX_LIVE_MAX_ENTRY];
static struct nx_live receiver;

/* The interrupt of the demodulator calls this with each element, 1 for B and 0 for Y. With no place
 * left the element is lost, as if it had not been received. */
void element_came(uint8_t element) {
    if (came - taken < RING) {
        ring[came % RING] = element & 1;
        came++;
    }
}

static void put_entry(size_t written) {
    for (size_t at = 0; at < written; at++)
        put_byte(entry[at]);
}

/* Hears one element; false where the receiver answers no more. */
static int hear(uint8_t element) {
    size_t heard, written;
    uint32_t status = nx_live_hear(&receiver, 0, &element, 1, &heard, entry, sizeof entry, &written);
    put_entry(written);
    return status == NX_LIVE_DONE;
}

/* The main loop: hears until the machine goes on no more, and then hands out what stands open. */
int bare(void) {
    size_t written;
    nx_live_lend_combining(&receiver, room, CHANNELS, FAMILIES);
    if (nx_live_open(&receiver, now()) != NX_LIVE_DONE)
        return 1;
    while (wait()) {
        nx_live_set_moment(&receiver, now()); /* a clock that went back changes nothing */
        for (; taken != came; taken++)
            if (!hear(ring[taken % RING]))
                return 1;
    }
    while (nx_live_close(&receiver, entry, sizeof entry, &written) == NX_LIVE_DONE && written > 0)
        put_entry(written);
    nx_live_return(&receiver);
    return 0;
}
