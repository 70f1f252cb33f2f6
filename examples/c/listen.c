/* Listens to an air file on standard input, and writes its log. */
#include "navtex.h"
#include <stdio.h>

int main(void) {
    static uint8_t air[1 << 20], log[1 << 16];
    size_t length = fread(air, 1, sizeof air, stdin), written;
    struct nx_place place;
    uint32_t status = nx_listen(air, length, log, sizeof log, &written, &place);
    fwrite(log, 1, written < sizeof log ? written : sizeof log, stdout);
    if (status != NX_DONE)
        fprintf(stderr, "status %u at line %llu\n", (unsigned)status, (unsigned long long)place.line);
    return status == NX_DONE ? 0 : 2;
}
