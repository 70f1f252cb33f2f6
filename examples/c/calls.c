/* Each call of the library, over standard input:
 *
 *   calls listen|check|decode|encode   writes what the call writes
 *   calls send E MOMENT                the same, of a station from a moment on
 *   calls resume STATE NEW             listens from the state in the file STATE, writes the log,
 *                                      and the new state to the file NEW, where there is one
 *   calls slot E MOMENT                the moment of a station's next slot
 *   calls signals                      the signal of each word
 *   calls rooms                        what calls leave of a room that is too small, on the air
 *                                      file of the standard input
 *
 * The status is 0, or 2 with a line `status N line N text line N at N` on standard error. */
#include "navtex.h"
#include <inttypes.h>
#include <stdio.h>
#include <stdlib.h>
#include <string.h>

/* some bytes, with room for as many more as fit */
struct bytes {
    uint8_t *at;
    size_t length;
};

static void stop(const char *why) {
    fprintf(stderr, "calls: %s\n", why);
    exit(64);
}

static struct bytes room_for(size_t count) {
    /* no pointer is NULL, also for no bytes */
    struct bytes room = {malloc(count + 1), count};
    if (room.at == NULL)
        stop("out of memory");
    return room;
}

static struct bytes read_all(FILE *from) {
    struct bytes all = room_for(1 << 12);
    size_t count = 0, more;
    while ((more = fread(all.at + count, 1, all.length - count, from)) > 0) {
        count += more;
        if (count == all.length) {
            all.length *= 2;
            all.at = realloc(all.at, all.length + 1);
            if (all.at == NULL)
                stop("out of memory");
        }
    }
    all.length = count;
    return all;
}

static struct bytes read_file(const char *name) {
    FILE *from = fopen(name, "rb");
    if (from == NULL)
        stop("there is no such file");
    struct bytes all = read_all(from);
    fclose(from);
    return all;
}

static void write_file(const char *name, struct bytes text) {
    FILE *to = fopen(name, "wb");
    if (to == NULL || fwrite(text.at, 1, text.length, to) != text.length || fclose(to) != 0)
        stop("a file was not written");
}

static int end(uint32_t status, struct nx_place place) {
    if (status == NX_DONE)
        return 0;
    fprintf(stderr, "status %" PRIu32 " line %" PRIu64 " text line %" PRIu64 " at %" PRIu64 "\n", status,
            place.line, place.text_line, place.at);
    return 2;
}

/* Writes what is in the room, of a call that wrote so many bytes. */
static void write_out(struct bytes room, size_t written) {
    fwrite(room.at, 1, written < room.length ? written : room.length, stdout);
    free(room.at);
}

typedef uint32_t call(const uint8_t *, size_t, uint8_t *, size_t, size_t *, struct nx_place *);

/* What a call with one input and one output writes: it is measured first. */
static int run(call *one) {
    struct bytes in = read_all(stdin), room = room_for(0);
    size_t written, again;
    struct nx_place place;
    one(in.at, in.length, room.at, 0, &written, &place);
    free(room.at);
    room = room_for(written);
    uint32_t status = one(in.at, in.length, room.at, room.length, &again, &place);
    free(in.at);
    if (again != written)
        stop("a call that measures gave another length");
    write_out(room, written);
    return end(status, place);
}

static int send(uint8_t station, uint64_t moment) {
    struct bytes in = read_all(stdin), room = room_for(1 << 17);
    size_t written;
    struct nx_place place;
    uint32_t status = nx_send(station, moment, in.at, in.length, room.at, room.length, &written, &place);
    free(in.at);
    write_out(room, written);
    return end(status, place);
}

static int resume(const char *state_name, const char *new_name) {
    struct bytes state = read_file(state_name), air = read_all(stdin);
    struct bytes log = room_for(air.length), left = room_for(1 << 14);
    size_t written, state_written;
    struct nx_place place;
    uint32_t status = nx_resume(state.at, state.length, air.at, air.length, log.at, log.length, &written,
                                left.at, left.length, &state_written, &place);
    free(state.at);
    free(air.at);
    write_out(log, written);
    /* a run that ended early leaves no state: what was saved before stays */
    if (status == NX_DONE)
        write_file(new_name, (struct bytes){left.at, state_written});
    free(left.at);
    return end(status, place);
}

static int signals(void) {
    for (unsigned word = 0; word < 256; word++)
        printf("%02X %u\n", word, nx_signal_of((uint8_t)word));
    return 0;
}

/* A room of twelve places that hold a point each. */
static void clear(char room[13]) {
    memcpy(room, "............", 13);
}

/* Says how `encode` ends that is told of ten places, of a room with two more. */
static void encode_in_ten(const char *text) {
    char room[13];
    size_t written;
    struct nx_place place;
    clear(room);
    uint32_t status = nx_encode((const uint8_t *)text, strlen(text), (uint8_t *)room, 10, &written, &place);
    printf("encode %" PRIu32 " %zu %s\n", status, written, room);
}

static int rooms(void) {
    static const char state[] = "STATE 1\nEND\n";
    struct bytes air = read_all(stdin);
    char log[13], left[13];
    size_t written, state_written;
    struct nx_place place;
    encode_in_ten("A");
    encode_in_ten("Aa");
    clear(log);
    clear(left);
    uint32_t status = nx_resume((const uint8_t *)state, strlen(state), air.at, air.length, (uint8_t *)log, 9, &written,
                                (uint8_t *)left, 12, &state_written, &place);
    printf("resume %" PRIu32 " %zu %s %zu %s\n", status, written, log, state_written, left);
    free(air.at);
    return 0;
}

int main(int count, char **arguments) {
    static const struct {
        const char *name;
        call *one;
    } plain[] = {{"listen", nx_listen}, {"check", nx_check}, {"decode", nx_decode}, {"encode", nx_encode}};
    const char *name = count > 1 ? arguments[1] : "";
    for (size_t at = 0; count == 2 && at < sizeof plain / sizeof *plain; at++)
        if (strcmp(name, plain[at].name) == 0)
            return run(plain[at].one);
    if (count == 2 && strcmp(name, "signals") == 0)
        return signals();
    if (count == 2 && strcmp(name, "rooms") == 0)
        return rooms();
    if (count == 4 && strcmp(name, "resume") == 0)
        return resume(arguments[2], arguments[3]);
    if (count == 4 && strcmp(name, "send") == 0)
        return send((uint8_t)arguments[2][0], strtoull(arguments[3], NULL, 10));
    if (count == 4 && strcmp(name, "slot") == 0) {
        printf("%" PRIu64 "\n", nx_slot((uint8_t)arguments[2][0], strtoull(arguments[3], NULL, 10)));
        return 0;
    }
    stop("which call?");
}
