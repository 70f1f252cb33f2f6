/* The receiver of navtex-live.h, on an air file on standard input, whose lines are given to it one
 * by one:
 *
 *   live-air hear PIECE              writes the log; elements are given in pieces of so many
 *   live-air combine FAMILIES PIECE  the same, and several sendings of a message are taken
 *                                    together, with so many families of each channel
 *   live-air sendings FAMILIES       from how many sendings each entry of that log is put together
 *   live-air resume STATE NEW        the log in pieces of 7, from the state in the file STATE; the
 *                                    new one goes to the file NEW
 *   live-air entries                 reads a log entry by entry, and writes it again from what each
 *                                    is told to say
 *   live-air rooms                   tries receivers of one, two and three channels, with families
 *                                    and without, and what is answered of a channel that isn't
 *                                    there
 *   live-air speed PIECE TIMES       hears all elements so often, and says how many nanoseconds of
 *                                    the processor one took
 *
 * The status is 0, or 2 with the status of a call on standard error. */
#include "navtex-live.h"
#include <inttypes.h>
#include <stdio.h>
#include <stdlib.h>
#include <string.h>
#include <time.h>
#ifdef _WIN32
#include <fcntl.h>
#include <io.h>
#endif

/* Of each channel at most. Over the C that wasm2c makes, this is what live.c is compiled with. */
#ifndef NX_LIVE_FAMILIES
#define NX_LIVE_FAMILIES NX_LIVE_MAX_FAMILIES
#endif

static _Alignas(NX_LIVE_ROOM_ALIGNMENT) unsigned char room[NX_LIVE_COMBINING_ROOM(3, NX_LIVE_FAMILIES)];
static uint8_t entry[NX_LIVE_MAX_ENTRY];
static struct nx_live receiver;
static int says_sendings; /* in place of the log */

/* A call answered this status. */
static void answers(const char *what, uint32_t status, uint32_t wanted) {
    if (status != wanted) {
        fprintf(stderr, "live-air: %s: status %" PRIu32 "\n", what, status);
        exit(2);
    }
}

static void done(const char *what, uint32_t status) { answers(what, status, NX_LIVE_DONE); }

/* The channel of a line, from the byte behind its letters; moves it to what stands behind the
 * space. */
static uint8_t channel_of(const char **at) {
    uint8_t channel = **at == ' ' ? 0 : (uint8_t)(*(*at)++ - '0');
    ++*at;
    return channel;
}

/* An entry that a channel handed out. */
static void put(uint8_t channel, size_t written) {
    uint64_t sendings;
    if (!says_sendings) {
        fwrite(entry, 1, written, stdout);
    } else if (written > 0) {
        done("nx_live_sendings", nx_live_sendings(&receiver, channel, &sendings));
        printf("%" PRIu64 "\n", sendings);
    }
}

/* Hears the digits of a line in pieces. */
static void hear(uint8_t channel, const char *digits, size_t count, size_t piece) {
    uint8_t elements[1024];
    for (size_t at = 0; at < count; at++)
        elements[at] = (uint8_t)(digits[at] - '0');
    for (size_t at = 0, heard, written; at < count; at += heard) {
        size_t next = count - at < piece ? count - at : piece;
        done("nx_live_hear",
             nx_live_hear(&receiver, channel, elements + at, next, &heard, entry, sizeof entry, &written));
        put(channel, written);
    }
}

static void command(const char *line) {
    const char *at = line + 2;
    uint8_t channel = channel_of(&at), letter = (uint8_t)*at;
    int refuses = line[0] == 'R', is_station = line[1] == 'S';
    done("a command", refuses ? is_station ? nx_live_refuse_station(&receiver, channel, letter)
                                           : nx_live_refuse_subject(&receiver, channel, letter)
                      : is_station ? nx_live_accept_station(&receiver, channel, letter)
                                   : nx_live_accept_subject(&receiver, channel, letter));
}

static void give_file(size_t piece) {
    static char line[1024];
    while (fgets(line, sizeof line, stdin) != NULL) {
        const char *at = line + 1;
        if (line[0] == 'T') {
            done("nx_live_set_moment", nx_live_set_moment(&receiver, strtoull(line + 2, NULL, 10)));
        } else if (line[0] == 'B') {
            uint8_t channel = channel_of(&at);
            hear(channel, at, strcspn(at, "\n"), piece);
        } else {
            command(line);
        }
    }
}

static void close_all(void) {
    size_t written;
    do {
        done("nx_live_close", nx_live_close(&receiver, entry, sizeof entry, &written));
        if (!says_sendings)
            fwrite(entry, 1, written, stdout);
    } while (written > 0);
}

/* A receiver that was closed opens again in the same room. */
static int hear_file(size_t piece) {
    done("nx_live_open", nx_live_open(&receiver, 0));
    close_all();
    done("nx_live_open", nx_live_open(&receiver, 0));
    give_file(piece);
    close_all();
    return 0;
}

/* The same with so many families of each channel. */
static int combine(size_t families, size_t piece) {
    if (families > NX_LIVE_FAMILIES)
        done("too many families", 1);
    nx_live_return(&receiver);
    nx_live_lend_combining(&receiver, room, 3, families);
    return hear_file(piece);
}

static int resume(const char *state_name, const char *new_name) {
    static uint8_t state[1 << 14];
    size_t written;
    FILE *from = fopen(state_name, "rb");
    size_t length = from == NULL ? 0 : fread(state, 1, sizeof state, from);
    done("nx_live_open_from", nx_live_open_from(&receiver, state, length));
    give_file(7);
    done("nx_live_save", nx_live_save(&receiver, state, sizeof state, &written));
    FILE *to = fopen(new_name, "wb");
    if (to == NULL || fwrite(state, 1, written, to) != written || fclose(to) != 0)
        done("a file was not written", 1);
    close_all();
    return 0;
}

static int entries(void) {
    static uint8_t log[1 << 20], text[4100];
    static const char *const ends[] = {"full", "cut", "long"};
    size_t length = fread(log, 1, sizeof log, stdin), written;
    for (size_t at = 0; at < length;) {
        struct nx_live_entry entry;
        char mark[] = "/0", time[20];
        done("nx_live_log_entry",
             nx_live_log_entry(&receiver, log + at, length - at, &entry, text, sizeof text, &written));
        time_t moment = (time_t)entry.moment;
        strftime(time, sizeof time, "%Y-%m-%d %H:%M:%S", gmtime(&moment));
        mark[entry.channel > 0 ? 1 : 0] = (char)(entry.channel > 0 ? '0' + entry.channel : 0);
        size_t head = (size_t)printf("[%c%c%02u%s %s %s %u/%zu]\n", entry.station, entry.subject, entry.number, mark, time,
                                     ends[entry.how], entry.errors, written);
        fwrite(text, 1, written, stdout);
        fwrite(log + at + head + written, 1, entry.length - head - written, stdout);
        at += entry.length;
    }
    return 0;
}

/* A receiver of so many channels, with so many families of each: each channel that it has hears,
 * and each call on another one, or with a state of it, answers that there is none. */
static void try_room(int channels, size_t families) {
    static const char more[] = "STATE 2\nC0\nC1\nC2\nRS A\nEND\n";
    static uint8_t state[NX_LIVE_MAX_STATE];
    const uint8_t element = 1;
    size_t heard, written;
    uint64_t sendings = 1;
    nx_live_lend_combining(&receiver, room, channels, families);
    answers("nx_live_sendings", nx_live_sendings(&receiver, 0, &sendings), NX_LIVE_CLOSED);
    answers("what nx_live_sendings told", (uint32_t)sendings, 0);
    answers("nx_live_open_from", nx_live_open_from(&receiver, (const uint8_t *)more, sizeof more - 1),
            channels < 3 ? NX_LIVE_NO_CHANNEL : NX_LIVE_DONE);
    nx_live_abandon(&receiver);
    done("nx_live_open", nx_live_open(&receiver, 0));
    for (uint8_t channel = 0; channel < 4; channel++) {
        uint32_t wanted = channel < channels ? NX_LIVE_DONE : NX_LIVE_NO_CHANNEL;
        answers("nx_live_hear",
                nx_live_hear(&receiver, channel, &element, 1, &heard, entry, sizeof entry, &written), wanted);
        answers("nx_live_refuse_station", nx_live_refuse_station(&receiver, channel, 'A'), wanted);
        answers("nx_live_sendings", nx_live_sendings(&receiver, channel, &sendings), wanted);
    }
    done("nx_live_save", nx_live_save(&receiver, state, sizeof state, &written));
    nx_live_abandon(&receiver);
    done("nx_live_open_from", nx_live_open_from(&receiver, state, written));
    done("nx_live_close", nx_live_close(&receiver, entry, sizeof entry, &written));
    answers("nx_live_close", nx_live_close(&receiver, entry, sizeof entry, &written), NX_LIVE_CLOSED);
    nx_live_return(&receiver);
}

static int rooms(void) {
    nx_live_return(&receiver);
    for (int channels = 1; channels <= 3; channels++)
        for (size_t families = 0; families <= 2; families++)
            try_room(channels, families);
    return 0;
}

/* Hears the elements of all lines, of channel 0, so often. */
static int speed(size_t piece, int times) {
    static uint8_t elements[1 << 20];
    size_t count = 0, heard, written;
    for (int byte; (byte = getchar()) != EOF && count < sizeof elements;)
        if (byte == '0' || byte == '1')
            elements[count++] = (uint8_t)(byte - '0');
    done("nx_live_open", nx_live_open(&receiver, 0));
    clock_t began = clock();
    for (int time = 0; time < times; time++)
        for (size_t at = 0; at < count; at += heard) {
            size_t next = count - at < piece ? count - at : piece;
            done("nx_live_hear",
                 nx_live_hear(&receiver, 0, elements + at, next, &heard, entry, sizeof entry, &written));
        }
    double seconds = (double)(clock() - began) / CLOCKS_PER_SEC;
    printf("%.2f ns an element, %zu elements %d times\n", seconds * 1e9 / ((double)count * times), count, times);
    return 0;
}

/* Each byte as it is: Windows would write two bytes at the end of a line. */
static void take_bytes(void) {
#ifdef _WIN32
    _setmode(_fileno(stdin), _O_BINARY);
    _setmode(_fileno(stdout), _O_BINARY);
#endif
}

int main(int argument_count, char **arguments) {
    take_bytes();
    nx_live_lend(&receiver, room, 3);
    if (argument_count == 3 && strcmp(arguments[1], "hear") == 0)
        return hear_file(strtoul(arguments[2], NULL, 10));
    if (argument_count == 4 && strcmp(arguments[1], "combine") == 0)
        return combine(strtoul(arguments[2], NULL, 10), strtoul(arguments[3], NULL, 10));
    if (argument_count == 3 && strcmp(arguments[1], "sendings") == 0) {
        says_sendings = 1;
        return combine(strtoul(arguments[2], NULL, 10), 7);
    }
    if (argument_count == 4 && strcmp(arguments[1], "resume") == 0)
        return resume(arguments[2], arguments[3]);
    if (argument_count == 2 && strcmp(arguments[1], "entries") == 0)
        return entries();
    if (argument_count == 2 && strcmp(arguments[1], "rooms") == 0)
        return rooms();
    if (argument_count == 4 && strcmp(arguments[1], "speed") == 0)
        return speed(strtoul(arguments[2], NULL, 10), atoi(arguments[3]));
    fputs("usage: live-air hear PIECE | combine FAMILIES PIECE | sendings FAMILIES | resume STATE NEW | entries"
          " | rooms | speed PIECE TIMES\n", stderr);
    return 2;
}
