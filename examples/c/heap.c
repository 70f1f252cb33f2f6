/* The three functions by which the library takes memory from the C library and gives it back. The
 * toolchain's c/liblibc_c.a has them too; these are for whoever links without it. */
#include <stdbool.h>
#include <stddef.h>
#include <stdlib.h>

/* What came of asking for a block: where it is, or that there is none. `block` is no null pointer
 * then, and nobody owns what is there: that much the library's proofs take for granted. */
struct tried {
    bool ok;
    void *block;
};

struct tried rattle_alloc(size_t size, size_t align);
struct tried rattle_realloc(void *block, size_t kept, size_t size, size_t align);
void rattle_dealloc(void *block);

static struct tried tried(void *block) {
    static char nothing;
    return (struct tried){.ok = block != NULL, .block = block != NULL ? block : &nothing};
}

/* A block of no bytes is one of as many as its alignment. */
struct tried rattle_alloc(size_t size, size_t align) {
    return tried(malloc(size > 0 ? size : align));
}

struct tried rattle_realloc(void *block, size_t kept, size_t size, size_t align) {
    (void)kept;
    return tried(realloc(block, size > 0 ? size : align));
}

void rattle_dealloc(void *block) {
    free(block);
}
