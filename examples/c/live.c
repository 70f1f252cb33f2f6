/* Hears elements as they come: each 0 or 1 of the standard input is one, of channel 0, and other
 * bytes are passed over. Writes each entry as soon as its message is over. The moment is the
 * clock's, or the first argument; the second one says how many families are held, none if left
 * out. */
#include "navtex.h"
#include <stdio.h>
#include <stdlib.h>
#include <time.h>
#include <unistd.h>

/* Puts the elements among some bytes in place of them; says how many there are. */
static size_t elements_of(uint8_t *bytes, size_t count) {
    size_t kept = 0;
    for (size_t at = 0; at < count; at++)
        if (bytes[at] == '0' || bytes[at] == '1')
            bytes[kept++] = bytes[at] - '0';
    return kept;
}

static void write_out(const uint8_t *log, size_t written) {
    fwrite(log, 1, written, stdout);
    fflush(stdout);
}

int main(int argument_count, char **arguments) {
    struct nx_receiver receiver = {0};
    uint8_t bytes[64], log[NX_MAX_ENTRY];
    size_t heard, written;
    uint64_t now = argument_count > 1 ? strtoull(arguments[1], NULL, 10) : (uint64_t)time(NULL);
    size_t families = argument_count > 2 ? strtoul(arguments[2], NULL, 10) : 0;
    uint32_t status = nx_open(&receiver, now, families);
    for (ssize_t count; status == NX_DONE && (count = read(0, bytes, sizeof bytes)) > 0;) {
        size_t length = elements_of(bytes, (size_t)count);
        if (argument_count == 1) /* a clock that went back changes nothing */
            nx_set_moment(&receiver, (uint64_t)time(NULL));
        for (size_t at = 0; status == NX_DONE && at < length; at += heard) {
            status = nx_hear(&receiver, 0, bytes + at, length - at, &heard, log, sizeof log, &written);
            write_out(log, written);
        }
    }
    while (status == NX_DONE && (status = nx_close(&receiver, log, sizeof log, &written)) == NX_DONE && written > 0)
        write_out(log, written);
    nx_abandon(&receiver);
    return status == NX_DONE ? 0 : 2;
}
