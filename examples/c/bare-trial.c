/* A machine for bare.c, to try it where there is a standard input: each 0 or 1 of it is an element
 * that an interrupt brings, and the clock stands at the first argument. */
#include <stdint.h>
#include <stdio.h>
#include <stdlib.h>

void element_came(uint8_t element);
int bare(void);

static uint64_t clock_stands;

void put_byte(uint8_t byte) { putchar(byte); }

uint64_t now(void) { return clock_stands; }

int wait(void) {
    int byte;
    while ((byte = getchar()) != EOF && byte != '0' && byte != '1')
        ;
    if (byte == EOF)
        return 0;
    element_came((uint8_t)(byte - '0'));
    return 1;
}

int main(int argument_count, char **arguments) {
    clock_stands = argument_count > 1 ? strtoull(arguments[1], NULL, 10) : 0;
    return bare();
}
