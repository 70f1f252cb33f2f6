/* A machine for ../bare.c: a Cortex-M4 or M7 that qemu plays (mps2-an386, mps2-an500), which reads
 * and writes by semihosting. Each 0 or 1 of the standard input is an element that an interrupt
 * brings, and the clock stands at MOMENT. What stands here of a real one is the start. */
#include <stdint.h>
#include <string.h>

#ifndef MOMENT
#define MOMENT 1735692000
#endif

void element_came(uint8_t element);
int bare(void);
void reset(void);
void nx_live_trapped(void);

/* from the linker's script */
extern uint8_t stack_top[], data_begin[], data_end[], data_load[], bss_begin[], bss_end[];

enum { OPEN = 1, WRITE = 5, READ = 6, END = 0x18 };
enum { TO_READ = 0, TO_WRITE = 4 };

/* A call of semihosting. */
static uintptr_t host(uintptr_t call, const void *given) {
    register uintptr_t answer __asm__("r0") = call;
    register const void *block __asm__("r1") = given;
    __asm__ volatile("bkpt 0xab" : "+r"(answer) : "r"(block) : "memory");
    return answer;
}

static void end(int is_good) {
    host(END, (const void *)(uintptr_t)(is_good ? 0x20026 : 0x20024));
    for (;;)
        ;
}

/* Where the calls of a receiver can't go on, and where the processor finds a fault. */
void nx_live_trapped(void) { end(0); }

/* The standard input or output, opened the first time. */
static uintptr_t stream(uintptr_t mode) {
    static uintptr_t streams[TO_WRITE + 1];
    if (streams[mode] == 0)
        streams[mode] = host(OPEN, (const uintptr_t[]){(uintptr_t)":tt", mode, 3});
    return streams[mode];
}

void put_byte(uint8_t byte) { host(WRITE, (const uintptr_t[]){stream(TO_WRITE), (uintptr_t)&byte, 1}); }

uint64_t now(void) { return MOMENT; }

int wait(void) {
    static uint8_t bytes[256];
    static uintptr_t at, count;
    for (;;) {
        if (at == count) {
            at = 0;
            count = sizeof bytes - host(READ, (const uintptr_t[]){stream(TO_READ), (uintptr_t)bytes, sizeof bytes});
            if (count == 0)
                return 0;
        }
        uint8_t byte = bytes[at++];
        if (byte == '0' || byte == '1') {
            element_came((uint8_t)(byte - '0'));
            return 1;
        }
    }
}

void reset(void) {
    memcpy(data_begin, data_load, (size_t)(data_end - data_begin));
    memset(bss_begin, 0, (size_t)(bss_end - bss_begin));
    end(bare() == 0);
}

__attribute__((section(".vectors"), used)) static const uintptr_t vectors[16] = {
    (uintptr_t)stack_top, (uintptr_t)reset,           (uintptr_t)nx_live_trapped, (uintptr_t)nx_live_trapped,
    (uintptr_t)nx_live_trapped, (uintptr_t)nx_live_trapped, (uintptr_t)nx_live_trapped,
};
