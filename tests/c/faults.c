/* Counts the allocations, reads, writes and openings of a program, and lets one of them fail. Loaded by LD_PRELOAD.
   FAULT_CALL is one letter: a, an allocation; o, an opening; r or w, a read or a write that fails; s or t, a read or a
   write of one byte; n, a renaming; u, a removal; y, a sync to the disk; m, a change of the mode. FAULT_NTH counts from 1.
   FAULT_LOG names a file that gets the letters a, o, r, w, n, u, y, m of all calls in order. */
#define _GNU_SOURCE
#include <dlfcn.h>
#include <errno.h>
#include <fcntl.h>
#include <stdarg.h>
#include <stdlib.h>
#include <string.h>
#include <sys/stat.h>
#include <sys/syscall.h>
#include <unistd.h>

static char trace[1 << 20];
static unsigned long length, count;
static int started;

static void *(*next_malloc)(size_t), *(*next_realloc)(void *, size_t);

__attribute__((constructor)) static void start(void) {
    next_malloc = dlsym(RTLD_NEXT, "malloc");
    next_realloc = dlsym(RTLD_NEXT, "realloc");
    started = 1;
}

__attribute__((destructor)) static void stop(void) {
    const char *name = getenv("FAULT_LOG");
    if (!name) return;
    int fd = syscall(SYS_open, name, O_WRONLY | O_CREAT | O_TRUNC, 0644);
    if (fd >= 0) syscall(SYS_write, fd, trace, length);
}

/* Whether this call is the one. */
static int fails(char letter, char kind) {
    const char *call = getenv("FAULT_CALL"), *nth = getenv("FAULT_NTH");
    if (!started) return 0;
    if (letter && length < sizeof trace) trace[length++] = letter;
    if (!call || !nth || *call != kind) return 0;
    return ++count == strtoul(nth, 0, 10);
}

void *malloc(size_t size) {
    if (!next_malloc) next_malloc = dlsym(RTLD_NEXT, "malloc");
    if (fails('a', 'a')) { errno = ENOMEM; return 0; }
    return next_malloc(size);
}

void *realloc(void *old, size_t size) {
    if (!next_realloc) next_realloc = dlsym(RTLD_NEXT, "realloc");
    if (fails('a', 'a')) { errno = ENOMEM; return 0; }
    return next_realloc(old, size);
}

int open(const char *name, int flags, ...) {
    va_list more;
    va_start(more, flags);
    int mode = va_arg(more, int);
    va_end(more);
    if (fails('o', 'o')) { errno = EIO; return -1; }
    return syscall(SYS_open, name, flags, mode);
}

ssize_t read(int fd, void *buf, size_t size) {
    if (fails('r', 'r')) { errno = EIO; return -1; }
    if (fails(0, 's') && size > 1) size = 1;
    return syscall(SYS_read, fd, buf, size);
}

static ssize_t write_out(int fd, const void *buf, size_t size) {
    /* The message on standard error is the program's last word and stays. */
    if (fd != 2) {
        if (fails('w', 'w')) { errno = EIO; return -1; }
        if (fails(0, 't') && size > 1) size = 1;
    }
    return syscall(SYS_write, fd, buf, size);
}

ssize_t write(int fd, const void *buf, size_t size) { return write_out(fd, buf, size); }
ssize_t __write(int fd, const void *buf, size_t size) { return write_out(fd, buf, size); }

#define FAILING(name, letter, given, ...) int name given { \
    if (fails(letter, letter)) { errno = EIO; return -1; } \
    return syscall(SYS_##name, __VA_ARGS__); \
}

FAILING(rename, 'n', (const char *from, const char *to), from, to)
FAILING(unlink, 'u', (const char *name), name)
FAILING(fsync, 'y', (int fd), fd)
FAILING(fchmod, 'm', (int fd, mode_t mode), fd, mode)
