/* Refuses memory to each call of the library for C, one growth at a time: `ci/fail-alloc` builds it
 * over crates/nx_c/out/libnx_c.a and runs it as
 *
 *   refusals AIR MESSAGES      an air file of one emission, and a message file
 *
 * For each call it prints its growths and what came. The status is 0 where each refusal was
 * answered by NX_MEMORY or NX_WRITE, what was written then is the beginning of the right answer,
 * each block was given back, and the call without a refusal answers as at first. */
#include "navtex.h"
#include <inttypes.h>
#include <stdbool.h>
#include <stdio.h>
#include <stdlib.h>
#include <string.h>

/* what came of asking for a block, as examples/c/heap.c has it */
struct tried {
    bool ok;
    void *block;
};

struct tried rattle_alloc(size_t size, size_t align);
struct tried rattle_realloc(void *block, size_t kept, size_t size, size_t align);
void rattle_dealloc(void *block);

/* the growths so far, the one that is refused (0: none), and the blocks that were not given back */
static unsigned growths, refused;
static int blocks;

static bool is_refused(void) {
    growths++;
    return growths == refused;
}

/* what is answered of a block; where there is none, a pointer that isn't null */
static struct tried tried(void *block) {
    static char nothing;
    return (struct tried){block != NULL, block != NULL ? block : &nothing};
}

struct tried rattle_alloc(size_t size, size_t align) {
    void *block = is_refused() ? NULL : malloc(size > 0 ? size : align);
    blocks += block != NULL;
    return tried(block);
}

struct tried rattle_realloc(void *block, size_t kept, size_t size, size_t align) {
    (void)kept;
    void *grown = is_refused() ? NULL : realloc(block, size > 0 ? size : align);
    return tried(grown);
}

void rattle_dealloc(void *block) {
    blocks--;
    free(block);
}

enum { ROOM = 1 << 16 };

struct bytes {
    uint8_t at[ROOM];
    size_t length;
};

static struct bytes air, messages;
static const uint8_t nothing[] = "STATE 1\nEND\n";

static uint32_t listen(uint8_t *room, size_t *written, struct nx_place *place) {
    return nx_listen(air.at, air.length, room, ROOM, written, place);
}

static uint32_t resume(uint8_t *room, size_t *written, struct nx_place *place) {
    static uint8_t state[ROOM];
    size_t state_written;
    return nx_resume(nothing, sizeof nothing - 1, air.at, air.length, room, ROOM, written, state, ROOM,
                     &state_written, place);
}

static uint32_t send(uint8_t *room, size_t *written, struct nx_place *place) {
    return nx_send('E', 1735689600, messages.at, messages.length, room, ROOM, written, place);
}

static uint32_t check(uint8_t *room, size_t *written, struct nx_place *place) {
    return nx_check(air.at, air.length, room, ROOM, written, place);
}

static uint32_t decode(uint8_t *room, size_t *written, struct nx_place *place) {
    return nx_decode(air.at, air.length, room, ROOM, written, place);
}

static uint32_t encode(uint8_t *room, size_t *written, struct nx_place *place) {
    static const uint8_t text[] = "THE QUICK BROWN FOX 0123456789\n";
    return nx_encode(text, sizeof text - 1, room, ROOM, written, place);
}

static const struct {
    const char *name;
    uint32_t (*make)(uint8_t *, size_t *, struct nx_place *);
} calls[] = {
    {"nx_listen", listen}, {"nx_resume", resume}, {"nx_send", send},
    {"nx_check", check},   {"nx_decode", decode}, {"nx_encode", encode},
};

static void read_file(const char *name, struct bytes *into) {
    FILE *from = fopen(name, "rb");
    if (from == NULL || (into->length = fread(into->at, 1, ROOM, from)) == 0) {
        fprintf(stderr, "refusals: no %s\n", name);
        exit(64);
    }
    fclose(from);
}

int main(int count, char **words) {
    static uint8_t right[ROOM], room[ROOM];
    bool failed = false;
    if (count != 3)
        return 64;
    read_file(words[1], &air);
    read_file(words[2], &messages);
    for (size_t call = 0; call < sizeof calls / sizeof *calls; call++) {
        struct nx_place place;
        size_t length, written;
        growths = refused = 0;
        uint32_t status = calls[call].make(right, &length, &place);
        unsigned all = growths, wrong = status != NX_DONE || blocks != 0;
        for (refused = 1; refused <= all + 1; refused++) {
            growths = 0;
            status = calls[call].make(room, &written, &place);
            bool is_told = refused > all ? status == NX_DONE && written == length
                                         : status == NX_MEMORY || status == NX_WRITE;
            if (!is_told || written > length || memcmp(room, right, written) != 0 || blocks != 0) {
                printf("%s, growth %u: status %" PRIu32 ", %zu bytes, %d blocks kept\n", calls[call].name, refused, status, written, blocks);
                wrong++;
            }
        }
        printf("%-20s %7u  %s\n", calls[call].name, all, wrong ? "wrong" : "want of memory each time, then the right answer");
        failed |= wrong != 0;
    }
    return failed;
}
