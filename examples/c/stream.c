/* The receiver that is kept between calls, on an air file on standard input, whose lines are given
 * to it one by one:
 *
 *   stream hear PIECE FAMILIES       writes the log; elements are given in pieces of so many, and
 *                                    so many families are held on each channel
 *   stream sendings FAMILIES         says of each entry that isn't printed by the end on which
 *                                    channel it was printed, and from how many sendings it is put
 *                                    together
 *   stream resume STATE NEW FAMILIES the log in pieces of 7, from the state in the file STATE; the
 *                                    new one goes to the file NEW
 *   stream entries                   reads a log on standard input entry by entry, and writes each
 *                                    again by what it says
 *   stream refusals FAMILIES         what calls answer that are refused
 *   stream rooms FAMILIES            opens from states of 0 to 600 entries, with 0 to 26 stations
 *                                    and all the subjects that can be refused, and saves each into
 *                                    rooms up to the one that it needs
 *   stream blocks FAMILIES           closes one receiver that heard, and abandons two; how many
 *                                    blocks of memory are left of each
 *   stream days N FAMILIES           hears three channels for so many days without a block of
 *                                    memory; how many entries
 *   stream fail FAMILIES             opens while each block of memory is refused in turn, hears
 *                                    and saves without any, and opens from the state while each is
 *                                    refused; how many blocks opening took, and how many bytes
 *   stream speed PIECE TIMES FAMILIES
 *                                    hears all elements so often, and says how many nanoseconds of
 *                                    the processor one took
 *
 * The status is 0, or 2 with the status of a call on standard error. */
#include "navtex.h"
#include <inttypes.h>
#include <stdio.h>
#include <stdlib.h>
#include <string.h>
#include <time.h>

static uint8_t room[NX_MAX_ENTRY];

static void stop(const char *what, uint32_t status) {
    fprintf(stderr, "stream: %s: status %" PRIu32 "\n", what, status);
    exit(2);
}

static void done(const char *what, uint32_t status) {
    if (status != NX_DONE)
        stop(what, status);
}

/* The channel of a line, from the byte behind its letters; moves it to what stands behind the
 * space. */
static uint8_t channel_of(const char **at) {
    uint8_t channel = **at == ' ' ? 0 : (uint8_t)(*(*at)++ - '0');
    ++*at;
    return channel;
}

/* What is written of what a receiver prints. */
enum written { ENTRIES, SENDINGS };
static enum written writes = ENTRIES;

/* Writes an entry of a channel that was printed, or from how many sendings it is. */
static void write_entry(struct nx_receiver *receiver, uint8_t channel, size_t written) {
    uint64_t sendings;
    if (writes == ENTRIES) {
        fwrite(room, 1, written, stdout);
    } else if (written > 0) {
        done("nx_sendings", nx_sendings(receiver, channel, &sendings));
        printf("%u %" PRIu64 "\n", channel, sendings);
    }
}

/* Hears the digits of a line in pieces. */
static void hear(struct nx_receiver *receiver, uint8_t channel, const char *digits, size_t count, size_t piece) {
    static uint8_t elements[1024];
    for (size_t at = 0; at < count; at++)
        elements[at] = (uint8_t)(digits[at] - '0');
    for (size_t at = 0, heard, written; at < count; at += heard) {
        size_t next = count - at < piece ? count - at : piece;
        done("nx_hear", nx_hear(receiver, channel, elements + at, next, &heard, room, sizeof room, &written));
        if (written == 0 && heard != next)
            stop("nx_hear heard not all", 0);
        write_entry(receiver, channel, written);
    }
}

/* A state that has no room changes nothing, and is measured. */
static void is_without_room(struct nx_receiver *receiver) {
    size_t written;
    uint32_t status = nx_save(receiver, room, 1, &written);
    if (status != NX_NO_ROOM || written < 2)
        stop("nx_save without room", status);
}

/* Gives a line to the receiver. */
static void give(struct nx_receiver *receiver, const char *line, size_t piece) {
    const char *at = line + 1;
    uint8_t channel;
    switch (line[0]) {
    case 'T':
        done("nx_set_moment", nx_set_moment(receiver, strtoull(line + 2, NULL, 10)));
        return;
    case 'B':
        channel = channel_of(&at);
        hear(receiver, channel, at, strcspn(at, "\n"), piece);
        return;
    default:
        at = line + 2;
        channel = channel_of(&at);
        uint8_t letter = (uint8_t)*at;
        done("a command", line[0] == 'R' ? line[1] == 'S' ? nx_refuse_station(receiver, channel, letter)
                                                         : nx_refuse_subject(receiver, channel, letter)
                          : line[1] == 'S' ? nx_accept_station(receiver, channel, letter)
                                           : nx_accept_subject(receiver, channel, letter));
    }
}

static void close_all(struct nx_receiver *receiver) {
    size_t written;
    do {
        done("nx_close", nx_close(receiver, room, sizeof room, &written));
        if (writes == ENTRIES)
            fwrite(room, 1, written, stdout);
    } while (written > 0);
    if (receiver->kept != NULL)
        stop("nx_close left a receiver", 0);
}

static void give_file(struct nx_receiver *receiver, size_t piece) {
    char line[1024];
    while (fgets(line, sizeof line, stdin) != NULL)
        give(receiver, line, piece);
}

static int hear_file(size_t piece, size_t families) {
    struct nx_receiver receiver = {0};
    done("nx_open", nx_open(&receiver, 0, families));
    give_file(&receiver, piece);
    close_all(&receiver);
    return 0;
}

static int resume(const char *state_name, const char *new_name, size_t piece, size_t families) {
    struct nx_receiver receiver = {0};
    static uint8_t state[1 << 14];
    size_t written;
    FILE *from = fopen(state_name, "rb"), *to;
    if (from == NULL)
        stop("there is no such file", 0);
    size_t length = fread(state, 1, sizeof state, from);
    fclose(from);
    done("nx_open_from", nx_open_from(&receiver, state, length, families));
    give_file(&receiver, piece);
    is_without_room(&receiver);
    done("nx_save", nx_save(&receiver, state, sizeof state, &written));
    to = fopen(new_name, "wb");
    if (to == NULL || fwrite(state, 1, written, to) != written || fclose(to) != 0)
        stop("a file was not written", 0);
    close_all(&receiver);
    return 0;
}

/* Reads a log entry by entry. */
static int entries(void) {
    static uint8_t log[1 << 20], text[4100];
    size_t length = fread(log, 1, sizeof log, stdin), written;
    for (size_t at = 0; at < length;) {
        struct nx_entry entry;
        done("nx_log_entry", nx_log_entry(log + at, length - at, &entry, text, sizeof text, &written));
        fwrite(log + at, 1, entry.length, stdout);
        fprintf(stderr, "%c%c%02u/%u %" PRIu64 " %u %u/%zu\n", entry.station, entry.subject, entry.number, entry.channel,
                entry.moment, entry.how, entry.errors, written);
        at += entry.length;
    }
    return 0;
}

static void is(const char *what, uint32_t status, uint32_t wanted) {
    if (status != wanted) {
        fprintf(stderr, "stream: %s: status %" PRIu32 ", not %" PRIu32 "\n", what, status, wanted);
        exit(2);
    }
}

/* No call on a closed receiver changes it; no call that is refused changes an open one. */
static int refusals(size_t families) {
    struct nx_receiver receiver = {0};
    uint8_t one[] = {1}, two[] = {2}, state[1 << 14];
    size_t heard = 9, written = 9;
    uint64_t sendings = 9;
    is("hear, closed", nx_hear(&receiver, 0, one, 1, &heard, room, sizeof room, &written), NX_CLOSED);
    if (heard != 0 || written != 0)
        stop("a closed receiver heard", 0);
    is("moment, closed", nx_set_moment(&receiver, 0), NX_CLOSED);
    is("station, closed", nx_refuse_station(&receiver, 0, 'E'), NX_CLOSED);
    is("station, closed", nx_accept_station(&receiver, 0, 'E'), NX_CLOSED);
    is("subject, closed", nx_refuse_subject(&receiver, 0, 'E'), NX_CLOSED);
    is("subject, closed", nx_accept_subject(&receiver, 0, 'E'), NX_CLOSED);
    is("close, closed", nx_close(&receiver, room, sizeof room, &written), NX_CLOSED);
    is("save, closed", nx_save(&receiver, state, sizeof state, &written), NX_CLOSED);
    is("sendings, closed", nx_sendings(&receiver, 0, &sendings), NX_CLOSED);
    if (sendings != 0)
        stop("a closed receiver told a number of sendings", 0);
    is("open from no state", nx_open_from(&receiver, (const uint8_t *)"X\n", 2, families), NX_STATE_LINE);
    is("open from a cut state", nx_open_from(&receiver, (const uint8_t *)"STATE 1\n", 8, families), NX_STATE_CUT);
    is("open from a state with 201 families", nx_open_from(&receiver, (const uint8_t *)"X\n", 2, 201),
       NX_TOO_MANY_FAMILIES);
    nx_abandon(&receiver);
    is("open past the year 2999", nx_open(&receiver, 32503680000, families), NX_MOMENT_RANGE);
    is("open with 201 families", nx_open(&receiver, 32503680000, 201), NX_TOO_MANY_FAMILIES);
    is("open with the most families that a size_t names", nx_open(&receiver, 100, SIZE_MAX), NX_TOO_MANY_FAMILIES);
    if (receiver.kept != NULL)
        stop("a receiver that wasn't opened is open", 0);
    done("open", nx_open(&receiver, 100, families));
    void *kept = receiver.kept;
    is("open, open", nx_open(&receiver, 100, 201), NX_ALREADY_OPEN);
    is("open from a state, open", nx_open_from(&receiver, (const uint8_t *)"X\n", 2, 201), NX_ALREADY_OPEN);
    if (receiver.kept != kept)
        stop("an open receiver was opened again", 0);
    is("moment back", nx_set_moment(&receiver, 99), NX_MOMENT_BACK);
    is("moment range", nx_set_moment(&receiver, 32503680000), NX_MOMENT_RANGE);
    is("channel", nx_hear(&receiver, 3, one, 1, &heard, room, sizeof room, &written), NX_NO_CHANNEL);
    is("element", nx_hear(&receiver, 0, two, 1, &heard, room, sizeof room, &written), NX_NO_ELEMENT);
    is("room", nx_hear(&receiver, 0, one, 1, &heard, room, sizeof room - 1, &written), NX_NO_ROOM);
    sendings = 9;
    is("sendings, channel", nx_sendings(&receiver, 3, &sendings), NX_NO_CHANNEL);
    if (sendings != 0)
        stop("a channel that isn't there told a number of sendings", 0);
    is("station", nx_refuse_station(&receiver, 0, 'e'), NX_NO_STATION);
    is("station", nx_refuse_station(&receiver, 3, 'E'), NX_NO_CHANNEL);
    is("subject", nx_refuse_subject(&receiver, 0, '0'), NX_NO_SUBJECT);
    is("vital", nx_refuse_subject(&receiver, 0, 'D'), NX_VITAL);
    is("room to close", nx_close(&receiver, room, sizeof room - 1, &written), NX_NO_ROOM);
    is("nothing to hear", nx_hear(&receiver, 0, one, 0, &heard, room, sizeof room, &written), NX_DONE);
    is("close", nx_close(&receiver, room, sizeof room, &written), NX_DONE);
    if (written != 0 || receiver.kept != NULL)
        stop("a receiver that heard nothing printed", 0);
    is("close again", nx_close(&receiver, room, sizeof room, &written), NX_CLOSED);
    return 0;
}

/* Writes the state of so many entries, at most 200 a channel, of identities and moments of their
 * own, with so many of the letters refused on each channel, as stations, and as subjects where they
 * can be; says how long it is. */
static size_t state_of(char *text, unsigned entries, unsigned letters) {
    unsigned at = 0;
    size_t length = (size_t)sprintf(text, "STATE 2\n");
    for (unsigned channel = 0; channel < 3; channel++) {
        length += (size_t)sprintf(text + length, "C%u\n", channel);
        for (unsigned letter = 0; letter < letters; letter++)
            length += (size_t)sprintf(text + length, "RS %c\n", 'A' + letter);
        for (unsigned letter = 0; letter < letters; letter++)
            if (strchr("ABDL", 'A' + (int)letter) == NULL)
                length += (size_t)sprintf(text + length, "RJ %c\n", 'A' + letter);
        for (; at < entries && at < 200 * (channel + 1); at++)
            length += (size_t)sprintf(text + length, "%cE%02u %" PRIu64 "\n", 'A' + at % 24, 1 + at / 24,
                                      UINT64_C(32500000000) + 60 * at);
    }
    return length + (size_t)sprintf(text + length, "END\n");
}

/* Opens from such a state, and saves it into rooms up to the one that it needs; says how long it
 * is. */
static size_t save_in_rooms(unsigned entries, unsigned letters, size_t step, size_t families) {
    static char state[1 << 15];
    static uint8_t saved[sizeof state];
    struct nx_receiver receiver = {0};
    size_t length = state_of(state, entries, letters), written;
    done("open from a state", nx_open_from(&receiver, (const uint8_t *)state, length, families));
    for (size_t size = 0; size < length; size += step) {
        is("save in a room that is too small", nx_save(&receiver, saved, size, &written), NX_NO_ROOM);
        if (written != length)
            stop("nx_save asks for another room", NX_NO_ROOM);
    }
    for (size_t size = length; size <= sizeof saved; size += sizeof saved - length) {
        done("save in a room that suffices", nx_save(&receiver, saved, size, &written));
        if (written != length || memcmp(saved, state, length) != 0)
            stop("another state is saved", NX_DONE);
    }
    nx_abandon(&receiver);
    if (receiver.kept != NULL)
        stop("a receiver that was abandoned is open", NX_DONE);
    return length;
}

/* States of 0 to 600 entries; of 600 with 0 to 26 letters refused, the last of which is the longest
 * that there is; and of that each room. */
static int rooms(size_t families) {
    for (unsigned entries = 0; entries <= 600; entries++)
        save_in_rooms(entries, 0, 997, families);
    for (unsigned letters = 0; letters <= 26; letters++)
        save_in_rooms(600, letters, 997, families);
    if (save_in_rooms(600, 26, 1, families) != 10941)
        stop("the longest state has another length", NX_DONE);
    return 0;
}

/* Puts the elements of the file on standard input into a room; says how many there are. */
static size_t elements_in(uint8_t *elements, size_t most) {
    char line[1024];
    size_t count = 0;
    while (fgets(line, sizeof line, stdin) != NULL)
        if (line[0] == 'B')
            for (char *at = strchr(line, ' ') + 1; *at != '\n' && count < most; at++)
                elements[count++] = (uint8_t)(*at - '0');
    return count;
}

/* Elements of a file on channel 0, over and over; how long one takes. */
static int speed(size_t piece, size_t times, size_t families) {
    static uint8_t elements[1 << 22];
    struct nx_receiver receiver = {0};
    size_t count = elements_in(elements, sizeof elements), heard, written;
    done("nx_open", nx_open(&receiver, 0, families));
    clock_t from = clock();
    for (size_t time = 0; time < times; time++)
        for (size_t at = 0; at < count; at += heard) {
            size_t next = count - at < piece ? count - at : piece;
            done("nx_hear", nx_hear(&receiver, 0, elements + at, next, &heard, room, sizeof room, &written));
        }
    double took = (double)(clock() - from) / CLOCKS_PER_SEC;
    printf("%.1f\n", took * 1e9 / (double)(count * times));
    nx_abandon(&receiver);
    return 0;
}

#ifdef FAIL
/* The blocks of memory that are asked for: the one with this number is refused. */
static long left = -1;
/* How many blocks are in use, and how many bytes were asked for. */
static long in_use = 0;
static size_t asked = 0;

struct tried {
    _Bool ok;
    void *block;
};

static _Bool is_refused(void) {
    return left >= 0 && left-- == 0;
}

/* What is answered of a block; where there is none, a pointer that isn't null. */
static struct tried tried(void *block) {
    static char nothing;
    return (struct tried){block != NULL, block != NULL ? block : &nothing};
}

struct tried rattle_alloc(size_t size, size_t align) {
    void *block = is_refused() ? NULL : malloc(size > 0 ? size : align);
    in_use += block != NULL;
    asked += size;
    return tried(block);
}

struct tried rattle_realloc(void *block, size_t kept, size_t size, size_t align) {
    asked += size - kept;
    return tried(is_refused() ? NULL : realloc(block, size > 0 ? size : align));
}

void rattle_dealloc(void *block) {
    in_use--;
    free(block);
}

/* So many days of three channels, of the elements of a file over and over; no block of memory is
 * given. */
static int days(size_t count, size_t families) {
    static uint8_t elements[1 << 22];
    struct nx_receiver receiver = {0};
    size_t length = elements_in(elements, sizeof elements), heard, written, entries = 0;
    done("nx_open", nx_open(&receiver, 0, families));
    left = 0;
    for (size_t day = 0; day < count; day++) {
        done("nx_set_moment", nx_set_moment(&receiver, day * 86400));
        for (uint8_t channel = 0; channel < 3; channel++)
            for (size_t second = 0; second < 86400; second += length / 100)
                for (size_t at = 0; at < length; at += heard) {
                    size_t next = length - at < 4096 ? length - at : 4096;
                    done("nx_hear", nx_hear(&receiver, channel, elements + at, next, &heard, room, sizeof room, &written));
                    entries += written > 0;
                }
    }
    printf("%zu\n", entries);
    nx_abandon(&receiver);
    return 0;
}

/* Hears the file, and closes the receiver; abandons one that was opened, and one from a state. */
static int blocks(size_t families) {
    struct nx_receiver receiver = {0};
    uint8_t state[64];
    size_t written;
    done("nx_open", nx_open(&receiver, 0, families));
    done("nx_save", nx_save(&receiver, state, sizeof state, &written));
    give_file(&receiver, 7);
    close_all(&receiver);
    fprintf(stderr, "%ld", in_use);
    done("nx_open", nx_open(&receiver, 0, families));
    nx_abandon(&receiver);
    fprintf(stderr, " %ld", in_use);
    done("nx_open_from", nx_open_from(&receiver, state, written, families));
    nx_abandon(&receiver);
    fprintf(stderr, " %ld\n", in_use);
    return 0;
}

/* A receiver that found no memory is closed, and no block is left of it. */
static void is_closed_whole(const struct nx_receiver *receiver, long before) {
    if (receiver->kept != NULL || in_use != before)
        stop("of a receiver without memory something is left", NX_MEMORY);
}

/* Where a moment or a state is refused, that is said, also without memory. */
static void fail_refused(size_t families) {
    struct nx_receiver receiver = {0};
    left = 0;
    is("moment range, without memory", nx_open(&receiver, 32503680000, families), NX_MOMENT_RANGE);
    left = 0;
    is("no state, without memory", nx_open_from(&receiver, (const uint8_t *)"X\n", 2, families), NX_STATE_LINE);
}

/* Saves without a block, and opens another receiver from that state with each block refused in
 * turn, until it is opened. */
static void fail_saving(struct nx_receiver *receiver, size_t families) {
    static uint8_t state[1 << 14];
    size_t written;
    uint32_t status;
    left = 0;
    done("save without memory", nx_save(receiver, state, sizeof state, &written));
    struct nx_receiver other = {0};
    long block = 0, before = in_use;
    do {
        left = block++;
        status = nx_open_from(&other, state, written, families);
        if (status != NX_DONE) {
            is("open from a state without memory", status, NX_MEMORY);
            is_closed_whole(&other, before);
        }
    } while (status != NX_DONE);
    nx_abandon(&other);
}

/* Opens with each block refused in turn, until it is opened; then no block is given, and all is
 * heard. */
static int fail(size_t families) {
    struct nx_receiver receiver = {0};
    uint32_t status;
    long block = 0;
    do {
        left = block++;
        asked = 0;
        status = nx_open(&receiver, 0, families);
        if (status != NX_DONE) {
            is("open without memory", status, NX_MEMORY);
            is_closed_whole(&receiver, 0);
            fail_refused(families);
        }
    } while (status != NX_DONE);
    fprintf(stderr, "%ld blocks of %zu bytes\n", block - 1, asked);
    left = 0;
    give_file(&receiver, 7);
    fail_saving(&receiver, families);
    left = 0;
    close_all(&receiver);
    is_closed_whole(&receiver, 0);
    return 0;
}
#endif

static size_t number(const char *text) {
    return strtoul(text, NULL, 10);
}

int main(int count, char **arguments) {
    const char *name = count > 1 ? arguments[1] : "";
    size_t families = count > 2 ? number(arguments[count - 1]) : 0;
    if (count == 4 && strcmp(name, "hear") == 0)
        return hear_file(number(arguments[2]), families);
    if (count == 3 && strcmp(name, "sendings") == 0) {
        writes = SENDINGS;
        return hear_file(7, families);
    }
    if (count == 5 && strcmp(name, "resume") == 0)
        return resume(arguments[2], arguments[3], 7, families);
    if (count == 2 && strcmp(name, "entries") == 0)
        return entries();
    if (count == 3 && strcmp(name, "refusals") == 0)
        return refusals(families);
    if (count == 3 && strcmp(name, "rooms") == 0)
        return rooms(families);
    if (count == 5 && strcmp(name, "speed") == 0)
        return speed(number(arguments[2]), number(arguments[3]), families);
#ifdef FAIL
    if (count == 3 && strcmp(name, "fail") == 0)
        return fail(families);
    if (count == 3 && strcmp(name, "blocks") == 0)
        return blocks(families);
    if (count == 4 && strcmp(name, "days") == 0)
        return days(number(arguments[2]), families);
#endif
    fprintf(stderr, "stream: which trial?\n");
    return 64;
}
