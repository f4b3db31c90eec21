/* A machine that fails where it is told to. Built as a shared library and loaded before the C library (LD_PRELOAD), it
 * counts a program's requests for memory and its calls on files, and lets one of them fail.
 *
 *   gcc -shared -fPIC -O2 -o shim.so shim.c
 *
 * HOSTILE_LOG    a file of LOG_BYTES bytes, into which the counts go: how many requests for memory, how many calls, and a
 *                letter for each call, in order
 * HOSTILE        WHAT NUMBER: from this request or call on, counted from 1
 *   memory N       request N for memory is refused
 *   starve N       request N for memory is refused, and each one after it
 *   ERRNO N        call N fails with this error (EIO, ENOSPC, EINTR, ..)
 *   short N        call N, if it reads or writes, moves half of its bytes, and at least one
 *   crash N        the program ends at call N, with status 99, before anything is done
 *   torn N         the program ends at call N, with status 99; if it writes, half of its bytes are written
 */
#define _GNU_SOURCE
#include <errno.h>
#include <fcntl.h>
#include <stdarg.h>
#include <stdint.h>
#include <stdlib.h>
#include <string.h>
#include <sys/mman.h>
#include <sys/syscall.h>
#include <sys/types.h>
#include <sys/uio.h>
#include <unistd.h>

enum { LOG_BYTES = 1 << 20, CRASHED = 99 };

struct log {
    uint64_t requests;
    uint64_t calls;
    char letters[LOG_BYTES - 16];
};

extern void *__libc_malloc(size_t);
extern void *__libc_calloc(size_t, size_t);
extern void *__libc_realloc(void *, size_t);
extern void *__libc_memalign(size_t, size_t);

static struct log *counts;
static uint64_t number;
static int error;
static enum { NOTHING, MEMORY, STARVE, ERROR, SHORT, CRASH, TORN } what;

static const struct { const char *word; int error; } errors[] = {
    {"EIO", EIO}, {"ENOSPC", ENOSPC}, {"EINTR", EINTR}, {"EAGAIN", EAGAIN}, {"EACCES", EACCES},
    {"EMFILE", EMFILE}, {"EDQUOT", EDQUOT}, {"EFBIG", EFBIG},
};

static void read_order(const char *order) {
    static const char *const words[] = {"", "memory ", "starve ", "", "short ", "crash ", "torn "};
    for (int i = MEMORY; i <= TORN; i++)
        if (*words[i] && !strncmp(order, words[i], strlen(words[i])))
            what = i;
    for (size_t i = 0; i < sizeof errors / sizeof *errors; i++)
        if (!strncmp(order, errors[i].word, strlen(errors[i].word))) {
            what = ERROR;
            error = errors[i].error;
        }
    number = strtoull(strchr(order, ' '), 0, 10);
}

__attribute__((constructor)) static void begin(void) {
    const char *file = getenv("HOSTILE_LOG"), *order = getenv("HOSTILE");
    if (!file)
        return;
    int fd = syscall(SYS_openat, AT_FDCWD, file, O_RDWR, 0);
    void *at = mmap(0, LOG_BYTES, PROT_READ | PROT_WRITE, MAP_SHARED, fd, 0);
    syscall(SYS_close, fd);
    if (at == MAP_FAILED)
        _exit(98);
    if (order)
        read_order(order);
    counts = at;
}

/* Whether a request for memory is refused. */
static int refused(void) {
    if (!counts)
        return 0;
    uint64_t n = __atomic_add_fetch(&counts->requests, 1, __ATOMIC_SEQ_CST);
    return (what == MEMORY && n == number) || (what == STARVE && n >= number);
}

static void *no_memory(void) {
    errno = ENOMEM;
    return 0;
}

void *malloc(size_t size) { return refused() ? no_memory() : __libc_malloc(size); }
void *calloc(size_t n, size_t size) { return refused() ? no_memory() : __libc_calloc(n, size); }
void *realloc(void *p, size_t size) { return refused() ? no_memory() : __libc_realloc(p, size); }
void *memalign(size_t a, size_t size) { return refused() ? no_memory() : __libc_memalign(a, size); }
void *aligned_alloc(size_t a, size_t size) { return memalign(a, size); }

int posix_memalign(void **p, size_t a, size_t size) {
    void *at = refused() ? 0 : __libc_memalign(a, size);
    if (!at)
        return ENOMEM;
    *p = at;
    return 0;
}

/* Notes a call by its letter. Answers what is to happen in it. */
static int noted(char letter) {
    if (!counts)
        return NOTHING;
    uint64_t n = __atomic_add_fetch(&counts->calls, 1, __ATOMIC_SEQ_CST);
    if (n <= sizeof counts->letters)
        counts->letters[n - 1] = letter;
    if (n != number || what < ERROR)
        return NOTHING;
    if (what == CRASH || (what == TORN && letter != 'w'))
        syscall(SYS_exit_group, CRASHED);
    return what;
}

static long failed(void) {
    errno = error;
    return -1;
}

/* How many of this many bytes a short call moves. */
static size_t half(size_t count) { return count > 1 ? count / 2 : count; }

#define CALL(letter, ...) (noted(letter) == ERROR ? failed() : syscall(__VA_ARGS__))

ssize_t read(int fd, void *to, size_t count) {
    int now = noted('r');
    return now == ERROR ? failed() : syscall(SYS_read, fd, to, now == SHORT ? half(count) : count);
}

ssize_t pread64(int fd, void *to, size_t count, off64_t at) {
    int now = noted('r');
    return now == ERROR ? failed() : syscall(SYS_pread64, fd, to, now == SHORT ? half(count) : count, at);
}

ssize_t write(int fd, const void *from, size_t count) {
    int now = noted('w');
    if (now == ERROR)
        return failed();
    long done = syscall(SYS_write, fd, from, now >= SHORT ? half(count) : count);
    if (now == TORN)
        syscall(SYS_exit_group, CRASHED);
    return done;
}

ssize_t pwrite64(int fd, const void *from, size_t count, off64_t at) {
    int now = noted('w');
    if (now == ERROR)
        return failed();
    long done = syscall(SYS_pwrite64, fd, from, now >= SHORT ? half(count) : count, at);
    if (now == TORN)
        syscall(SYS_exit_group, CRASHED);
    return done;
}

ssize_t writev(int fd, const struct iovec *parts, int n) { return CALL('w', SYS_writev, fd, parts, n); }
ssize_t readv(int fd, const struct iovec *parts, int n) { return CALL('r', SYS_readv, fd, parts, n); }

static int opened(int folder, const char *name, int flags, mode_t mode) {
    return CALL('o', SYS_openat, folder, name, flags, mode);
}

#define MODE(flags, mode) \
    if (flags & (O_CREAT | O_TMPFILE)) { va_list l; va_start(l, flags); mode = va_arg(l, mode_t); va_end(l); }

int open(const char *name, int flags, ...) {
    mode_t mode = 0;
    MODE(flags, mode)
    return opened(AT_FDCWD, name, flags, mode);
}

int open64(const char *name, int flags, ...) {
    mode_t mode = 0;
    MODE(flags, mode)
    return opened(AT_FDCWD, name, flags, mode);
}

int openat(int folder, const char *name, int flags, ...) {
    mode_t mode = 0;
    MODE(flags, mode)
    return opened(folder, name, flags, mode);
}

int openat64(int folder, const char *name, int flags, ...) {
    mode_t mode = 0;
    MODE(flags, mode)
    return opened(folder, name, flags, mode);
}

off64_t lseek64(int fd, off64_t at, int from) { return CALL('l', SYS_lseek, fd, at, from); }
off_t lseek(int fd, off_t at, int from) { return CALL('l', SYS_lseek, fd, at, from); }
int fsync(int fd) { return CALL('s', SYS_fsync, fd); }
int fdatasync(int fd) { return CALL('s', SYS_fdatasync, fd); }
int ftruncate64(int fd, off64_t length) { return CALL('t', SYS_ftruncate, fd, length); }
int ftruncate(int fd, off_t length) { return CALL('t', SYS_ftruncate, fd, length); }
int rename(const char *from, const char *to) { return CALL('n', SYS_rename, from, to); }
int unlink(const char *name) { return CALL('u', SYS_unlink, name); }
int close(int fd) { return CALL('c', SYS_close, fd); }
