/* Stands before the calls of the C library by which a watch hears and keeps its log: `ci/power`
 * builds it as a shared object, and loads it before the program.
 *
 *   POWER_CALL     which call meets the fault, from 1: writes at a place, cuts and syncs are
 *                  counted together
 *   POWER_HOW      `fail`: it is answered by EIO; `before`, `half`, `after`: the process is killed
 *                  before it, behind the first half of what it writes, or behind it; `short`: it
 *                  writes the first half and answers so, which is no fault; `part`: so too, and
 *                  the write of the rest is answered by EIO, as any other call is at once
 *   POWER_MET      a file that is made where the fault is met
 *   POWER_READS    how many bytes each read at a place gives at most, which is no fault; `fail`:
 *                  each is answered by EIO
 *   POWER_RECORD   a file into which each call is written as it is answered, one on a line: its
 *                  name, and its numbers; a path and what was written in hexadecimal
 */
#define _GNU_SOURCE
#include <dlfcn.h>
#include <errno.h>
#include <fcntl.h>
#include <signal.h>
#include <stdarg.h>
#include <stdio.h>
#include <stdlib.h>
#include <string.h>
#include <sys/file.h>
#include <sys/syscall.h>
#include <sys/types.h>
#include <sys/uio.h>
#include <unistd.h>

/* The next function of that name, which this one stands before. */
#define NEXT(name)                                             \
    static __typeof__(name) *next;                             \
    if (next == NULL) *(void **)&next = dlsym(RTLD_NEXT, #name)

/* The record. It is written by the kernel's own calls, so that it doesn't note itself; its
 * descriptor is so high that it changes no other one. */

enum { HIGH = 800 };

static int record = -1;

__attribute__((constructor)) static void open_record(void) {
    const char *path = getenv("POWER_RECORD");
    if (path == NULL) return;
    long low = syscall(SYS_openat, AT_FDCWD, path, O_WRONLY | O_CREAT | O_APPEND, 0666);
    record = (int)syscall(SYS_fcntl, low, F_DUPFD_CLOEXEC, HIGH);
    syscall(SYS_close, low);
}

static void put_text(const char *text, size_t count) {
    while (count > 0) {
        long written = syscall(SYS_write, record, text, count);
        if (written <= 0) _exit(99);
        text += written;
        count -= (size_t)written;
    }
}

static void note(const char *form, ...) {
    char line[200];
    va_list values;
    if (record < 0) return;
    va_start(values, form);
    int count = vsnprintf(line, sizeof line, form, values);
    va_end(values);
    put_text(line, (size_t)count);
}

/* Notes bytes, and ends the line. */
static void note_bytes(const void *bytes, ssize_t count) {
    char digits[1024];
    const unsigned char *from = bytes;
    if (record < 0) return;
    for (ssize_t done = 0; done < count;) {
        size_t length = 0;
        for (; done < count && length < sizeof digits; done++) {
            digits[length++] = "0123456789abcdef"[from[done] >> 4];
            digits[length++] = "0123456789abcdef"[from[done] & 15];
        }
        put_text(digits, length);
    }
    put_text("\n", 1);
}

/* The fault that one call meets. */

static unsigned long calls;

static const char *fault_now(void) {
    const char *call = getenv("POWER_CALL"), *how = getenv("POWER_HOW"), *met = getenv("POWER_MET");
    if (call == NULL || how == NULL || ++calls != strtoul(call, NULL, 10)) return "";
    if (met != NULL) close(open(met, O_WRONLY | O_CREAT | O_CLOEXEC, 0666));
    if (strcmp(how, "before") == 0) kill(getpid(), SIGKILL);
    return how;
}

static int is(const char *how, const char *name) { return strcmp(how, name) == 0; }

/* Whether the next write is of the rest of one that was made in part. */
static int rest_fails;

/* Whether a call that changes no bytes, or is whole or not at all, is answered by EIO. */
static int fails(const char *how) { return is(how, "fail") || is(how, "part"); }

/* The calls that change a file. */

ssize_t pwrite64(int file, const void *bytes, size_t count, off64_t at) {
    NEXT(pwrite64);
    const char *how = fault_now();
    if (rest_fails || is(how, "fail") || (is(how, "part") && count < 2)) {
        rest_fails = 0;
        errno = EIO;
        return -1;
    }
    rest_fails = is(how, "part");
    if ((is(how, "half") || is(how, "short") || rest_fails) && count > 1) count /= 2;
    ssize_t answer = next(file, bytes, count, at);
    if (is(how, "half") || is(how, "after")) kill(getpid(), SIGKILL);
    note("pwrite %d %lld ", file, (long long)at);
    note_bytes(bytes, answer);
    return answer;
}

ssize_t pwrite(int file, const void *bytes, size_t count, off_t at) {
    return pwrite64(file, bytes, count, at);
}

ssize_t write(int file, const void *bytes, size_t count) {
    NEXT(write);
    ssize_t answer = next(file, bytes, count);
    note("write %d ", file);
    note_bytes(bytes, answer);
    return answer;
}

ssize_t writev(int file, const struct iovec *pieces, int count) {
    NEXT(writev);
    ssize_t answer = next(file, pieces, count);
    ssize_t left = answer;
    for (int at = 0; at < count && left > 0; at++) {
        ssize_t length = left < (ssize_t)pieces[at].iov_len ? left : (ssize_t)pieces[at].iov_len;
        note("write %d ", file);
        note_bytes(pieces[at].iov_base, length);
        left -= length;
    }
    return answer;
}

int ftruncate64(int file, off64_t size) {
    NEXT(ftruncate64);
    const char *how = fault_now();
    if (fails(how)) {
        errno = EIO;
        return -1;
    }
    int answer = next(file, size);
    if (is(how, "half") || is(how, "after")) kill(getpid(), SIGKILL);
    if (answer == 0) note("cut %d %lld\n", file, (long long)size);
    return answer;
}

int ftruncate(int file, off_t size) { return ftruncate64(file, size); }

static int sync_by(int (*next)(int), int file) {
    const char *how = fault_now();
    if (fails(how)) {
        errno = EIO;
        return -1;
    }
    int answer = next(file);
    if (is(how, "half") || is(how, "after")) kill(getpid(), SIGKILL);
    if (answer == 0) note("sync %d\n", file);
    return answer;
}

int fsync(int file) {
    NEXT(fsync);
    return sync_by(next, file);
}

int fdatasync(int file) {
    NEXT(fdatasync);
    return sync_by(next, file);
}

/* The calls that are only noted. */

ssize_t read(int file, void *room, size_t count) {
    NEXT(read);
    ssize_t answer = next(file, room, count);
    note("read %d %zd\n", file, answer);
    return answer;
}

ssize_t pread64(int file, void *room, size_t count, off64_t at) {
    NEXT(pread64);
    const char *reads = getenv("POWER_READS");
    if (reads != NULL && is(reads, "fail")) {
        errno = EIO;
        return -1;
    }
    if (reads != NULL && count > strtoul(reads, NULL, 10)) count = strtoul(reads, NULL, 10);
    ssize_t answer = next(file, room, count, at);
    note("pread %d %lld %zd\n", file, (long long)at, answer);
    return answer;
}

ssize_t pread(int file, void *room, size_t count, off_t at) {
    return pread64(file, room, count, at);
}

int openat(int folder, const char *path, int flags, ...) {
    NEXT(openat);
    va_list values;
    va_start(values, flags);
    mode_t mode = flags & (O_CREAT | O_TMPFILE) ? va_arg(values, mode_t) : 0;
    va_end(values);
    int answer = next(folder, path, flags, mode);
    note("open %d %d ", answer, (flags & O_CREAT) != 0);
    note_bytes(path, (ssize_t)strlen(path));
    return answer;
}

int openat64(int folder, const char *path, int flags, ...) {
    va_list values;
    va_start(values, flags);
    mode_t mode = flags & (O_CREAT | O_TMPFILE) ? va_arg(values, mode_t) : 0;
    va_end(values);
    return openat(folder, path, flags, mode);
}

int open(const char *path, int flags, ...) {
    va_list values;
    va_start(values, flags);
    mode_t mode = flags & (O_CREAT | O_TMPFILE) ? va_arg(values, mode_t) : 0;
    va_end(values);
    return openat(AT_FDCWD, path, flags, mode);
}

int open64(const char *path, int flags, ...) {
    va_list values;
    va_start(values, flags);
    mode_t mode = flags & (O_CREAT | O_TMPFILE) ? va_arg(values, mode_t) : 0;
    va_end(values);
    return openat(AT_FDCWD, path, flags, mode);
}

int close(int file) {
    NEXT(close);
    int answer = next(file);
    note("close %d\n", file);
    return answer;
}

int flock(int file, int how) {
    NEXT(flock);
    int answer = next(file, how);
    if (answer == 0) note("lock %d %d\n", file, (how & LOCK_EX) != 0);
    return answer;
}

int fcntl(int file, int command, ...) {
    NEXT(fcntl);
    va_list values;
    va_start(values, command);
    void *value = va_arg(values, void *);
    va_end(values);
    int answer = next(file, command, value);
    if (command == F_DUPFD || command == F_DUPFD_CLOEXEC) note("dup %d %d\n", file, answer);
    return answer;
}

int fcntl64(int file, int command, ...) {
    va_list values;
    va_start(values, command);
    void *value = va_arg(values, void *);
    va_end(values);
    return fcntl(file, command, value);
}

int dup(int file) {
    NEXT(dup);
    int answer = next(file);
    note("dup %d %d\n", file, answer);
    return answer;
}

/* The calls that take memory. The C library's own names for them need no search. */

void *__libc_malloc(size_t size);
void *__libc_calloc(size_t count, size_t size);
void *__libc_realloc(void *block, size_t size);
void *__libc_memalign(size_t multiple, size_t size);

void *malloc(size_t size) {
    note("memory %zu\n", size);
    return __libc_malloc(size);
}

void *calloc(size_t count, size_t size) {
    note("memory %zu\n", count * size);
    return __libc_calloc(count, size);
}

void *realloc(void *block, size_t size) {
    note("memory %zu\n", size);
    return __libc_realloc(block, size);
}

void *aligned_alloc(size_t multiple, size_t size) {
    note("memory %zu\n", size);
    return __libc_memalign(multiple, size);
}

int posix_memalign(void **block, size_t multiple, size_t size) {
    note("memory %zu\n", size);
    *block = __libc_memalign(multiple, size);
    return *block == NULL ? ENOMEM : 0;
}
