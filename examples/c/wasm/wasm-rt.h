/* What the C that wasm2c makes of a receiver asks of its runtime, with no malloc, no stdio and no
 * signals. It stands in place of the file of this name that comes with wasm2c (1.0.32 of wabt), and
 * serves a module without tables of functions. */
#ifndef WASM_RT_H_
#define WASM_RT_H_

#include <stdbool.h>
#include <stddef.h>
#include <stdint.h>
#include <string.h>

#ifdef __cplusplus
extern "C" {
#endif

#ifdef __GNUC__
#define LIKELY(x) __builtin_expect(!!(x), 1)
#define UNLIKELY(x) __builtin_expect(!!(x), 0)
#define WASM_RT_NO_RETURN __attribute__((noreturn))
#else
#define LIKELY(x) (x)
#define UNLIKELY(x) (x)
#define WASM_RT_NO_RETURN
#endif
#define wasm_rt_memcpy memcpy

/* What wasm2c takes of GNU C, or of Microsoft's, for other compilers. A count of zeros isn't asked of 0. */
#if !defined __GNUC__ && !defined _MSC_VER
static inline int nx_ones(uint64_t bits) {
    int count = 0;
    for (; bits != 0; bits &= bits - 1)
        count++;
    return count;
}

static inline int nx_zeros_below(uint64_t bits) { return nx_ones((bits & (0 - bits)) - 1); }

static inline int nx_zeros_above(uint64_t bits) {
    int count = 63;
    while (bits >>= 1)
        count--;
    return count;
}

#define __builtin_popcount(bits) nx_ones(bits)
#define __builtin_popcountll(bits) nx_ones(bits)
#define __builtin_ctz(bits) nx_zeros_below(bits)
#define __builtin_ctzll(bits) nx_zeros_below(bits)
#define __builtin_clz(bits) (nx_zeros_above(bits) - 32)
#define __builtin_clzll(bits) nx_zeros_above(bits)
#endif

/* Each access to the module's memory is checked, unless NX_LIVE_UNCHECKED is defined. */
#ifdef NX_LIVE_UNCHECKED
#define WASM_RT_MEMCHECK_SIGNAL_HANDLER 1
#else
#define WASM_RT_MEMCHECK_SIGNAL_HANDLER 0
#endif
#define WASM_RT_USE_STACK_DEPTH_COUNT 0

typedef enum {
    WASM_RT_TRAP_OOB,
    WASM_RT_TRAP_INT_OVERFLOW,
    WASM_RT_TRAP_DIV_BY_ZERO,
    WASM_RT_TRAP_INVALID_CONVERSION,
    WASM_RT_TRAP_UNREACHABLE,
    WASM_RT_TRAP_CALL_INDIRECT,
    WASM_RT_TRAP_EXHAUSTION
} wasm_rt_trap_t;

static inline bool wasm_rt_is_initialized(void) { return true; }

/* Called where the module can't go on; it doesn't return. */
WASM_RT_NO_RETURN void wasm_rt_trap(wasm_rt_trap_t why);

/* Of the module's memory no byte is lent below this address. The stack of the module lies in its
 * first 131,072 bytes, and grows down; NX_LIVE_STACK of them are lent. An access below traps. */
#if NX_LIVE_FAMILIES > 0
#define NX_LIVE_STACK 42496u
#else
#define NX_LIVE_STACK 33280u
#endif
#define NX_LIVE_LOWEST (131072u - NX_LIVE_STACK)
#define NX_LIVE_LENT(address) ((uint64_t)(address) - NX_LIVE_LOWEST)
/* whether any of so many bytes from an address on isn't lent */
#define NX_LIVE_BEYOND(memory, address, count) \
    (NX_LIVE_LENT(address) > (memory)->size || (uint64_t)(count) > (memory)->size - NX_LIVE_LENT(address))

/* `size` bytes are lent, and the first has the lowest address. */
typedef struct {
    uint8_t *data;
    uint32_t pages, max_pages, size;
} wasm_rt_memory_t;

/* Gives a module its memory; live.c has it in the room of its receiver. */
void wasm_rt_allocate_memory(wasm_rt_memory_t *memory, uint32_t pages, uint32_t most);
uint32_t wasm_rt_grow_memory(wasm_rt_memory_t *memory, uint32_t pages);
void wasm_rt_free_memory(wasm_rt_memory_t *memory);

/* Tables of functions: the module has none, and these are only named by what wasm2c writes always. */
typedef enum {
    WASM_RT_I32,
    WASM_RT_I64,
    WASM_RT_F32,
    WASM_RT_F64
} wasm_rt_type_t;

typedef void (*wasm_rt_function_ptr_t)(void);
typedef void *wasm_rt_externref_t;

typedef struct {
    uint32_t func_type;
    wasm_rt_function_ptr_t func;
    void *module_instance;
} wasm_rt_funcref_t;

typedef struct {
    wasm_rt_funcref_t *data;
    uint32_t max_size, size;
} wasm_rt_funcref_table_t;

typedef struct {
    wasm_rt_externref_t *data;
    uint32_t max_size, size;
} wasm_rt_externref_table_t;

static const wasm_rt_funcref_t wasm_rt_funcref_null_value = {0, NULL, NULL};
static const wasm_rt_externref_t wasm_rt_externref_null_value = NULL;

static inline uint32_t wasm_rt_register_func_type(uint32_t parameters, uint32_t results, ...) {
    (void)parameters, (void)results;
    return 0;
}

#ifdef __cplusplus
}
#endif

#endif
