/* How much stack each call of a receiver takes, on a machine that bare.c runs on, in its place: a
 * line for each call with the most that was seen, of the processor's stack and of the module's. The
 * module's lies in the room, over the C that wasm2c makes alone. Before each call the stack below
 * the caller is painted, and what the call writes over is counted. */
#include "navtex-live.h"
#include <string.h>
#ifdef NX_LIVE_BY_WASM2C
#include "navtex_live.h"
#endif

/* The machine's, as in bare.c. */
void put_byte(uint8_t byte);
uint64_t now(void);
int wait(void);

/* So many bytes below the caller are painted, and a deeper call counts as one of so many. A machine
 * has more of stack. */
#ifndef PAINTED
#define PAINTED 65536
#endif
#define PAINT 0xa5
#define PAINT_OF_EIGHT 0xa5a5a5a5a5a5a5a5u
#define ENTRIES 200 /* of each channel in a full state */

/* How many channels the receiver has. */
#ifndef CHANNELS
#define CHANNELS 3
#endif

/* Of how many messages a channel it takes several sendings together. */
#ifndef FAMILIES
#define FAMILIES 0
#endif

static _Alignas(NX_LIVE_ROOM_ALIGNMENT) unsigned char room[NX_LIVE_COMBINING_ROOM(CHANNELS, FAMILIES)];
static uint8_t entry[NX_LIVE_MAX_ENTRY], state[NX_LIVE_MAX_STATE], element;
static struct nx_live receiver;

enum call {
    OPEN,
    OPEN_FROM,
    SET_MOMENT,
    REFUSE_STATION,
    HEAR,
    SENDINGS,
    SAVE,
    CLOSE,
    ABANDON,
    RETURN,
    LOG_ENTRY,
    CALLS
};
static const char *const names[CALLS] = {"open", "open_from", "set_moment", "refuse_station", "hear", "sendings",
                                         "save", "close",     "abandon",    "return",         "log_entry"};
static size_t deepest[CALLS], deepest_of_module[CALLS];

/* Whether `look` paints. No compiler knows, so both ways of `look` have one frame, in one place. */
static volatile int paints;

/* Paints what lies below, or counts what is painted over. */
__attribute__((noinline)) static size_t below(void) {
    volatile uint64_t stack[PAINTED / 8];
    /* its caller may stand deeper behind a call than before it, by what it gave to the call */
    size_t left = 16;
    if (paints)
        for (size_t at = 0; at < PAINTED / 8; at++)
            stack[at] = PAINT_OF_EIGHT;
    while (left < PAINTED / 8 && stack[left] == PAINT_OF_EIGHT)
        left++;
    return PAINTED - left * 8;
}

/* The same of the module's stack, the first part of its memory in the room. */
static size_t below_in_module(void) {
#ifdef NX_LIVE_BY_WASM2C
    uint8_t *stack = room + sizeof(Z_navtex_live_instance_t);
    size_t left = 0;
    if (paints)
        memset(stack, PAINT, NX_LIVE_STACK);
    while (left < NX_LIVE_STACK && stack[left] == PAINT)
        left++;
    return NX_LIVE_STACK - left;
#else
    return 0;
#endif
}

/* Before a call and behind it. */
__attribute__((noinline)) static void look(enum call call) {
    size_t deep = below(), deep_in_module = below_in_module();
    if (paints)
        return;
    if (deep > deepest[call])
        deepest[call] = deep;
    if (deep_in_module > deepest_of_module[call])
        deepest_of_module[call] = deep_in_module;
}

/* A call, with what it takes of both stacks. */
#define MEASURE(call, made) \
    do { paints = 1; look(call); made; paints = 0; look(call); } while (0)
/* One that has a status; a life goes on only where all was done. */
#define MEASURE_DONE(call, made) \
    do { uint32_t status; MEASURE(call, status = (made)); is_done &= status == NX_LIVE_DONE; } while (0)

static void put_text(const char *text) {
    while (*text != 0)
        put_byte((uint8_t)*text++);
}

static void put_number(size_t number) {
    if (number > 9)
        put_number(number / 10);
    put_byte((uint8_t)('0' + number % 10));
}

static uint8_t *spelled(uint8_t *to, const char *text) {
    memcpy(to, text, strlen(text));
    return to + strlen(text);
}

/* A full state: what can be refused is, and each channel remembers as much as it can. What the
 * receiver doesn't have is empty. */
static size_t full_state(void) {
    static const char *const heads[] = {"STATE 2\nC0\n", "C1\n", "C2\n"};
    uint8_t *to = state;
    for (int channel = 0; channel < 3; channel++) {
        to = spelled(to, heads[channel]);
        if (channel >= CHANNELS)
            continue;
        for (char letter = 'A'; letter <= 'Z'; letter++)
            to = spelled(to, (const char[]){'R', 'S', ' ', letter, '\n', 0});
        for (char letter = 'C'; letter <= 'Z'; letter++)
            if (letter != 'D' && letter != 'L')
                to = spelled(to, (const char[]){'R', 'J', ' ', letter, '\n', 0});
        for (int at = 0; at < ENTRIES; at++) {
            char number = (char)(at % 99 + 1);
            to = spelled(to, (const char[]){(char)('A' + at / 99), 'A', (char)('0' + number / 10),
                                            (char)('0' + number % 10), 0});
            to = spelled(to, " 1735689600\n");
        }
    }
    return (size_t)(spelled(to, "END\n") - state);
}

void element_came(uint8_t came) { element = came; }

/* Hears all elements that come, and looks at each entry again; whether all was done. */
static int hears(void) {
    static struct nx_live_entry said;
    static uint8_t text[NX_LIVE_MAX_ENTRY];
    size_t heard, written, length;
    uint64_t sendings;
    int is_done = 1, entries = 0;
    while (wait()) {
        MEASURE_DONE(HEAR, nx_live_hear(&receiver, 0, &element, 1, &heard, entry, sizeof entry, &written));
        if (written > 0) {
            entries++;
            MEASURE_DONE(SENDINGS, nx_live_sendings(&receiver, 0, &sendings));
            MEASURE_DONE(LOG_ENTRY, nx_live_log_entry(&receiver, entry, written, &said, text, sizeof text, &length));
        }
    }
    return is_done && entries > 0;
}

/* All calls, in an order that makes each do what it can; whether each was done. */
int bare(void) {
    size_t written, length = full_state();
    int is_done = 1;
    nx_live_lend_combining(&receiver, room, CHANNELS, FAMILIES); /* clears the module's stack */
    MEASURE_DONE(OPEN, nx_live_open(&receiver, now()));
    is_done &= hears();
    MEASURE_DONE(SET_MOMENT, nx_live_set_moment(&receiver, now() + 1));
    MEASURE_DONE(REFUSE_STATION, nx_live_refuse_station(&receiver, CHANNELS - 1, 'A'));
    MEASURE(ABANDON, nx_live_abandon(&receiver));
    MEASURE_DONE(OPEN_FROM, nx_live_open_from(&receiver, state, length));
    MEASURE_DONE(SAVE, nx_live_save(&receiver, state, sizeof state, &written));
    is_done &= written == length;
    do
        MEASURE_DONE(CLOSE, nx_live_close(&receiver, entry, sizeof entry, &written));
    while (is_done && written > 0);
    MEASURE(RETURN, nx_live_return(&receiver));
    for (int call = 0; call < CALLS; call++) {
        put_text(names[call]);
        put_byte(' ');
        put_number(deepest[call]);
        put_byte(' ');
        put_number(deepest_of_module[call]);
        put_byte('\n');
    }
    return !is_done;
}
