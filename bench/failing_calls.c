/* Lets one call of the C library fail, for bench/failures.py, which loads this before the C library.

   FAIL_KIND names a kind of calls and FAIL_AT the one that fails, counted over the process from 1; FAIL_ERRNO is what errno is then. A call of the kind
   short_read or short_write doesn't fail, but reads or writes one byte. A call of the kind thread starts no thread. FAIL_COUNTS names a file that gets a line `KIND COUNT` for each kind at the end. */
#define _GNU_SOURCE
#include <dlfcn.h>
#include <errno.h>
#include <fcntl.h>
#include <pthread.h>
#include <stdarg.h>
#include <stdio.h>
#include <stdlib.h>
#include <string.h>
#include <sys/file.h>
#include <sys/stat.h>
#include <unistd.h>

enum kind { ALLOC, OPEN, READ, WRITE, SYNC, SIZE, STAT, LOCK, THREAD, SHORT_READ, SHORT_WRITE, KINDS };
static const char *const names[KINDS] = {"alloc", "open", "read", "write", "sync", "size", "stat", "lock", "thread", "short_read", "short_write"};
static long counts[KINDS], at;
static int failing = -1, with;
/* No call is counted before the program's main begins. */
static int ready;

extern void *__libc_malloc(size_t);
extern void *__libc_realloc(void *, size_t);

static void begin(void) __attribute__((constructor));
static void begin(void) {
    const char *kind = getenv("FAIL_KIND"), *place = getenv("FAIL_AT"), *number = getenv("FAIL_ERRNO");
    for (int it = 0; kind && it < KINDS; it++)
        if (strcmp(kind, names[it]) == 0) failing = it;
    at = place ? atol(place) : 0;
    with = number ? atoi(number) : EIO;
    ready = 1;
}

static void end(void) __attribute__((destructor));
static void end(void) {
    const char *file = getenv("FAIL_COUNTS");
    ready = 0;
    int out = file ? open(file, O_WRONLY | O_CREAT | O_TRUNC, 0600) : -1;
    for (int it = 0; out >= 0 && it < KINDS; it++) dprintf(out, "%s %ld\n", names[it], counts[it]);
}

/* Whether this call, the next one of its kind by whatever thread, is the one. */
static int is_it(enum kind kind) { return ready && __atomic_add_fetch(&counts[kind], 1, __ATOMIC_SEQ_CST) == at && failing == (int)kind; }

static int fails(enum kind kind) {
    if (!is_it(kind)) return 0;
    errno = with;
    return 1;
}

#define REAL(name) ((__typeof__(&name))dlsym(RTLD_NEXT, #name))

void *malloc(size_t size) { return fails(ALLOC) ? NULL : __libc_malloc(size); }

void *realloc(void *held, size_t size) { return fails(ALLOC) ? NULL : __libc_realloc(held, size); }

int open(const char *path, int flags, ...) {
    va_list rest;
    va_start(rest, flags);
    mode_t mode = flags & (O_CREAT | O_TMPFILE) ? va_arg(rest, mode_t) : 0;
    va_end(rest);
    return fails(OPEN) ? -1 : REAL(open)(path, flags, mode);
}

ssize_t read(int file, void *room, size_t size) {
    if (fails(READ)) return -1;
    return REAL(read)(file, room, is_it(SHORT_READ) && size ? 1 : size);
}

ssize_t pread(int file, void *room, size_t size, off_t place) {
    if (fails(READ)) return -1;
    return REAL(pread)(file, room, is_it(SHORT_READ) && size ? 1 : size, place);
}

ssize_t write(int file, const void *bytes, size_t size) {
    if (fails(WRITE)) return -1;
    return REAL(write)(file, bytes, is_it(SHORT_WRITE) && size ? 1 : size);
}

ssize_t pwrite(int file, const void *bytes, size_t size, off_t place) {
    if (fails(WRITE)) return -1;
    return REAL(pwrite)(file, bytes, is_it(SHORT_WRITE) && size ? 1 : size, place);
}

int fsync(int file) { return fails(SYNC) ? -1 : REAL(fsync)(file); }

int fdatasync(int file) { return fails(SYNC) ? -1 : REAL(fdatasync)(file); }

int ftruncate(int file, off_t size) { return fails(SIZE) ? -1 : REAL(ftruncate)(file, size); }

int statx(int folder, const char *path, int flags, unsigned mask, struct statx *told) {
    return fails(STAT) ? -1 : REAL(statx)(folder, path, flags, mask, told);
}

int flock(int file, int how) { return fails(LOCK) ? -1 : REAL(flock)(file, how); }

int fcntl(int file, int command, ...) {
    va_list rest;
    va_start(rest, command);
    void *given = va_arg(rest, void *);
    va_end(rest);
    return fails(LOCK) ? -1 : REAL(fcntl)(file, command, given);
}

int pthread_create(pthread_t *thread, const pthread_attr_t *how, void *(*begin)(void *), void *with_it) {
    return is_it(THREAD) ? EAGAIN : REAL(pthread_create)(thread, how, begin, with_it);
}

/* A program with threads ends without its destructors. */
void _exit(int status) {
    end();
    REAL(_exit)(status);
    __builtin_unreachable();
}
