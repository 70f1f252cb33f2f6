/* The calls of navtex-live.h over the C that wasm2c makes of a receiver: any C compiler takes the
 * two. In the room of a receiver a whole instance lies, with the memory of its module: elements are
 * copied into it, and entries out of it. Compile this, navtex_live.c and all that calls them with
 * -DNX_LIVE_BY_WASM2C. */
#include "navtex-live.h"
#include "navtex_live.h"

#ifndef NX_LIVE_BY_WASM2C
#error "all is compiled with -DNX_LIVE_BY_WASM2C, since a receiver needs more room so"
#endif
#if defined __BYTE_ORDER__ && __BYTE_ORDER__ != __ORDER_LITTLE_ENDIAN__
#error "a processor with the greatest byte first was never tried"
#endif

/* So many channels a receiver has at most; its room follows. */
#ifndef NX_LIVE_CHANNELS
#define NX_LIVE_CHANNELS 3
#endif

/* And so many families each of these has at most; each receiver then has the room of so many. */
#ifndef NX_LIVE_FAMILIES
#define NX_LIVE_FAMILIES 0
#endif

#define ROOM NX_LIVE_COMBINING_ROOM(NX_LIVE_CHANNELS, NX_LIVE_FAMILIES)
#define PIECE 512u        /* so many elements go into the module at once */
#define MOST_STATE 11008u /* no text of a state is longer; a multiple of 8 */
#define MOST_TEXT 4100u   /* no text of an entry is longer */

/* What the calls of the module write to, behind its own memory. */
struct lent {
    uint64_t handle[3], number, written;
    uint8_t room[ROOM - NX_LIVE_ROOM(0)]; /* the places, and the families behind them */
    uint8_t elements[PIECE];
    uint8_t log[MOST_STATE];
};

/* What nx_live_log_entry tells, as the module has it: there a size has 64 bits. It stands in the
 * place of `log`, and behind it the text and the bytes that are read. */
struct seen {
    uint64_t moment, length;
    uint16_t errors;
    uint8_t channel, station, subject, number, how;
};
#define TEXT (AT(log) + sizeof(struct seen))
#define BYTES (TEXT + MOST_TEXT)

/* What lies in the room of a receiver. */
struct place {
    Z_navtex_live_instance_t module;
    uint8_t memory[ROOM - sizeof(Z_navtex_live_instance_t)];
};

/* Where the module's own memory ends, with its stack and its constants; and where a part of what is
 * lent stands, as the module counts. What has this address lies there in the room. */
#define OWN ((NX_LIVE_LOWEST + sizeof(((struct place *)0)->memory) - sizeof(struct lent)) / 8 * 8)
#define AT(part) (OWN + offsetof(struct lent, part))
#define HERE(place, address) ((place)->memory + NX_LIVE_LENT(address))

_Static_assert(sizeof(struct place) <= ROOM, "the room holds an instance");
_Static_assert(NX_LIVE_MAX_STATE <= MOST_STATE, "a state has place");
_Static_assert(NX_LIVE_MAX_ENTRY <= MOST_STATE, "an entry has place where a state has");
_Static_assert(sizeof(struct seen) + MOST_TEXT + NX_LIVE_MAX_ENTRY <= MOST_STATE, "and so has one that is read");

static size_t number_at(const struct place *place, size_t at) {
    uint64_t number;
    memcpy(&number, HERE(place, at), sizeof number);
    return (size_t)number;
}

static struct place *place_of(struct nx_live *receiver) { return receiver->room; }

static size_t least(size_t one, size_t other) { return one < other ? one : other; }

void wasm_rt_trap(wasm_rt_trap_t why) {
    (void)why;
    nx_live_trapped();
    for (;;)
        ;
}

void wasm_rt_allocate_memory(wasm_rt_memory_t *memory, uint32_t pages, uint32_t most) {
    struct place *place = (struct place *)((unsigned char *)memory - offsetof(struct place, module.w2c_memory));
    (void)pages, (void)most;
    memset(place->memory, 0, sizeof place->memory);
    *memory = (wasm_rt_memory_t){place->memory, 0, 0, sizeof place->memory};
}

uint32_t wasm_rt_grow_memory(wasm_rt_memory_t *memory, uint32_t pages) {
    (void)memory, (void)pages;
    return UINT32_MAX;
}

void wasm_rt_free_memory(wasm_rt_memory_t *memory) { (void)memory; }

/* Makes the instance in its room, for so many channels, with so many families of each: that of
 * fewer than NX_LIVE_CHANNELS and NX_LIVE_FAMILIES has the room of so many. */
static struct place *made(struct nx_live *receiver, void *room, size_t channels, size_t families) {
    if (channels > NX_LIVE_CHANNELS || families > NX_LIVE_FAMILIES)
        wasm_rt_trap(WASM_RT_TRAP_OOB); /* the room is that of fewer */
    receiver->room = room;
    receiver->channels = channels;
    receiver->combines = families > 0;
    Z_navtex_live_init_module();
    Z_navtex_live_instantiate(&place_of(receiver)->module);
    if (*Z_navtex_liveZ___heap_base(&place_of(receiver)->module) > OWN)
        wasm_rt_trap(WASM_RT_TRAP_OOB); /* NX_LIVE_ROOM is that of another module */
    return place_of(receiver);
}

void nx_live_lend_1(struct nx_live *receiver, void *room) {
    Z_navtex_liveZ_nx_live_lend_1(&made(receiver, room, 1, 0)->module, AT(handle), AT(room));
}

void nx_live_lend_2(struct nx_live *receiver, void *room) {
    Z_navtex_liveZ_nx_live_lend_2(&made(receiver, room, 2, 0)->module, AT(handle), AT(room));
}

void nx_live_lend_3(struct nx_live *receiver, void *room) {
    Z_navtex_liveZ_nx_live_lend_3(&made(receiver, room, 3, 0)->module, AT(handle), AT(room));
}

/* The families' room isn't asked: they lie behind the places in the module's memory, all zero. */
#define FAMILIES_AT(channels) (AT(room) + (channels) * NX_LIVE_COMBINING_CHANNEL)

void nx_live_lend_1_families(struct nx_live *receiver, void *room, void *families_room, size_t families) {
    (void)families_room;
    Z_navtex_liveZ_nx_live_lend_1_families(&made(receiver, room, 1, families)->module, AT(handle), AT(room),
                                           FAMILIES_AT(1), families);
}

void nx_live_lend_2_families(struct nx_live *receiver, void *room, void *families_room, size_t families) {
    (void)families_room;
    Z_navtex_liveZ_nx_live_lend_2_families(&made(receiver, room, 2, families)->module, AT(handle), AT(room),
                                           FAMILIES_AT(2), families);
}

void nx_live_lend_3_families(struct nx_live *receiver, void *room, void *families_room, size_t families) {
    (void)families_room;
    Z_navtex_liveZ_nx_live_lend_3_families(&made(receiver, room, 3, families)->module, AT(handle), AT(room),
                                           FAMILIES_AT(3), families);
}

void nx_live_return(struct nx_live *receiver) {
    Z_navtex_liveZ_nx_live_return(&place_of(receiver)->module, AT(handle));
    Z_navtex_live_free(&place_of(receiver)->module);
}

uint32_t nx_live_open(struct nx_live *receiver, uint64_t moment) {
    return Z_navtex_liveZ_nx_live_open(&place_of(receiver)->module, AT(handle), moment);
}

uint32_t nx_live_open_from(struct nx_live *receiver, const uint8_t *state, size_t length) {
    struct place *place = place_of(receiver);
    length = least(length, MOST_STATE); /* what stands behind a state isn't read */
    memcpy(HERE(place, AT(log)), state, length);
    return Z_navtex_liveZ_nx_live_open_from(&place->module, AT(handle), AT(log), length);
}

uint32_t nx_live_set_moment(struct nx_live *receiver, uint64_t moment) {
    return Z_navtex_liveZ_nx_live_set_moment(&place_of(receiver)->module, AT(handle), moment);
}

/* Hears a piece of elements, and adds how many were heard. */
static uint32_t hear_piece(struct place *place, uint8_t channel, const uint8_t *elements, size_t count,
                           size_t *heard, size_t capacity, size_t *written) {
    memcpy(HERE(place, AT(elements)), elements, count);
    uint32_t status = Z_navtex_liveZ_nx_live_hear(&place->module, AT(handle), channel, AT(elements), count, AT(number),
                                                  AT(log), least(capacity, NX_LIVE_MAX_ENTRY), AT(written));
    *heard += number_at(place, AT(number));
    *written = number_at(place, AT(written));
    return status;
}

uint32_t nx_live_hear(struct nx_live *receiver, uint8_t channel, const uint8_t *elements, size_t count,
                      size_t *heard, uint8_t *log, size_t capacity, size_t *written) {
    struct place *place = place_of(receiver);
    uint32_t status;
    *heard = 0;
    /* a byte that is no element: nothing is heard, and the answer is that to this byte alone */
    for (size_t at = 0; at < count; at++)
        if (elements[at] > 1)
            return hear_piece(place, channel, elements + at, 1, heard, capacity, written);
    do
        status = hear_piece(place, channel, elements + *heard, least(count - *heard, PIECE), heard, capacity, written);
    while (status == NX_LIVE_DONE && *written == 0 && *heard < count);
    memcpy(log, HERE(place, AT(log)), *written);
    return status;
}

uint32_t nx_live_sendings(struct nx_live *receiver, uint8_t channel, uint64_t *sendings) {
    struct place *place = place_of(receiver);
    uint32_t status = Z_navtex_liveZ_nx_live_sendings(&place->module, AT(handle), channel, AT(number));
    *sendings = number_at(place, AT(number));
    return status;
}

uint32_t nx_live_refuse_station(struct nx_live *receiver, uint8_t channel, uint8_t station) {
    return Z_navtex_liveZ_nx_live_refuse_station(&place_of(receiver)->module, AT(handle), channel, station);
}

uint32_t nx_live_accept_station(struct nx_live *receiver, uint8_t channel, uint8_t station) {
    return Z_navtex_liveZ_nx_live_accept_station(&place_of(receiver)->module, AT(handle), channel, station);
}

uint32_t nx_live_refuse_subject(struct nx_live *receiver, uint8_t channel, uint8_t subject) {
    return Z_navtex_liveZ_nx_live_refuse_subject(&place_of(receiver)->module, AT(handle), channel, subject);
}

uint32_t nx_live_accept_subject(struct nx_live *receiver, uint8_t channel, uint8_t subject) {
    return Z_navtex_liveZ_nx_live_accept_subject(&place_of(receiver)->module, AT(handle), channel, subject);
}

uint32_t nx_live_save(struct nx_live *receiver, uint8_t *state, size_t capacity, size_t *written) {
    struct place *place = place_of(receiver);
    uint32_t status = Z_navtex_liveZ_nx_live_save(&place->module, AT(handle), AT(log), least(capacity, MOST_STATE),
                                                  AT(written));
    *written = number_at(place, AT(written));
    memcpy(state, HERE(place, AT(log)), least(*written, capacity));
    return status;
}

uint32_t nx_live_close(struct nx_live *receiver, uint8_t *log, size_t capacity, size_t *written) {
    struct place *place = place_of(receiver);
    uint32_t status = Z_navtex_liveZ_nx_live_close(&place->module, AT(handle), AT(log),
                                                   least(capacity, NX_LIVE_MAX_ENTRY), AT(written));
    *written = number_at(place, AT(written));
    memcpy(log, HERE(place, AT(log)), *written);
    return status;
}

void nx_live_abandon(struct nx_live *receiver) {
    Z_navtex_liveZ_nx_live_abandon(&place_of(receiver)->module, AT(handle));
}

uint32_t nx_live_log_entry(const struct nx_live *receiver, const uint8_t *bytes, size_t count,
                           struct nx_live_entry *entry, uint8_t *text, size_t capacity, size_t *written) {
    struct place *place = receiver->room;
    struct seen seen;
    count = least(count, NX_LIVE_MAX_ENTRY); /* what stands behind an entry isn't read */
    memcpy(HERE(place, BYTES), bytes, count);
    uint32_t status = Z_navtex_liveZ_nx_live_log_entry(&place->module, AT(handle), BYTES, count, AT(log), TEXT,
                                                       least(capacity, MOST_TEXT), AT(written));
    *written = number_at(place, AT(written));
    memcpy(text, HERE(place, TEXT), least(*written, capacity));
    memcpy(&seen, HERE(place, AT(log)), sizeof seen);
    if (status != NX_LIVE_NO_ENTRY)
        *entry = (struct nx_live_entry){seen.moment,  (size_t)seen.length, seen.errors, seen.channel,
                                        seen.station, seen.subject,        seen.number, seen.how};
    return status;
}
