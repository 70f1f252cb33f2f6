/* The functions that the proved program calls and the C library hasn't. For x86-64 the toolchain
 * brings them compiled (c/libos_c.a, c/liblibc_c.a); for arm64 it brings none, so they stand here.
 * The proofs take what is said at each for granted: its contract, in the toolchain's sources
 * rattle/libc/src/heap.rt and rattle/os/src/c.rt. */
#include <errno.h>
#include <stdbool.h>
#include <stddef.h>
#include <stdint.h>
#include <stdlib.h>
#include <string.h>
#include <sys/types.h>

/* What came of asking for a block: whether there is one, and where. Where there is none, `block` is
 * no null pointer, and nobody owns what is there. */
struct tried {
    bool ok;
    void *block;
};

static struct tried tried(void *block) {
    static char nothing;
    return (struct tried){.ok = block != NULL, .block = block != NULL ? block : &nothing};
}

/* A new block of `size` bytes at a multiple of `align`, which divides 16; it may fail. Of no bytes
 * it is one of as many as its alignment, since malloc(0) may answer that there is none. */
struct tried rattle_alloc(size_t size, size_t align) {
    return tried(malloc(size > 0 ? size : align));
}

/* The block with `size` bytes in place of those that it had; the first `kept` of them stay. It may
 * move. Where it fails the block is as it was. */
struct tried rattle_realloc(void *block, size_t kept, size_t size, size_t align) {
    (void)kept;
    return tried(realloc(block, size > 0 ? size : align));
}

/* Gives back what either of them answered. */
void rattle_dealloc(void *block) {
    free(block);
}

/* The error of the last call that failed, and setting it. */
int32_t rattle_errno(void) {
    return errno;
}

void rattle_set_errno(int32_t error) {
    errno = error;
}

static int count;
static char **words;

/* glibc hands the arguments to what runs before main. */
__attribute__((constructor)) static void keep(int given, char **at) {
    count = given;
    words = at;
}

/* Puts argument `number` at the start of a buffer of `size` bytes and answers its length; -1 where
 * there is no such argument; -2 where it is longer than the buffer, which is full then. No byte
 * behind the buffer is written. */
ssize_t rattle_arg(size_t number, char *buffer, size_t size) {
    if (number >= (size_t)count || words[number] == NULL) {
        return -1;
    }
    size_t length = strlen(words[number]);
    memcpy(buffer, words[number], length < size ? length : size);
    return length <= size ? (ssize_t)length : -2;
}
