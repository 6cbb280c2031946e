/* A preload that notes each `pwrite`, `fdatasync`, `posix_fadvise` and `sched_yield`, and can make calls fail.
 *
 * For each it adds a line to the file CALLS_LOG: 'pwrite OFFSET COUNT', 'fdatasync', 'posix_fadvise OFFSET COUNT' or 'sched_yield'. If
 * FAIL_CALL is 'pwrite N' or 'fdatasync N', the N-th such call, counted from 1, does nothing and fails with EIO; its line ends in ' failed'. If it is
 * 'posix_fadvise', all of these fail. If it is 'flock N' or 'ftruncate N', that call fails with ENOLCK or EFBIG, as on a file system without
 * locks, or for a length that is too large; these calls aren't noted. If BAD_BYTE is a number, each `pread` that touches the byte at this
 * offset fails with EIO, like a sector that can't be read; these aren't noted either. */
#define _GNU_SOURCE
#include <dlfcn.h>
#include <errno.h>
#include <fcntl.h>
#include <stdio.h>
#include <stdlib.h>
#include <string.h>
#include <sys/file.h>
#include <unistd.h>

static ssize_t (*next_pread)(int, void *, size_t, off_t);
static ssize_t (*next_pwrite)(int, const void *, size_t, off_t);
static int (*next_fdatasync)(int);
static int (*next_flock)(int, int);
static int (*next_ftruncate)(int, off_t);
static int (*next_advise)(int, off_t, off_t, int);
static int (*next_yield)(void);

static int notes = -1;
static unsigned long fail_write;
static unsigned long fail_sync;
static unsigned long fail_lock;
static unsigned long fail_length;
static int fail_advice;
static long long bad_byte = -1;
static unsigned long writes;
static unsigned long syncs;
static unsigned long locks;
static unsigned long lengths;

__attribute__((constructor)) static void start(void) {
    next_pread = (ssize_t(*)(int, void *, size_t, off_t))dlsym(RTLD_NEXT, "pread");
    next_pwrite = (ssize_t(*)(int, const void *, size_t, off_t))dlsym(RTLD_NEXT, "pwrite");
    next_fdatasync = (int (*)(int))dlsym(RTLD_NEXT, "fdatasync");
    next_flock = (int (*)(int, int))dlsym(RTLD_NEXT, "flock");
    next_ftruncate = (int (*)(int, off_t))dlsym(RTLD_NEXT, "ftruncate");
    next_advise = (int (*)(int, off_t, off_t, int))dlsym(RTLD_NEXT, "posix_fadvise");
    next_yield = (int (*)(void))dlsym(RTLD_NEXT, "sched_yield");
    const char *path = getenv("CALLS_LOG");
    if (path) {
        notes = open(path, O_WRONLY | O_CREAT | O_APPEND, 0600);
    }
    const char *bad = getenv("BAD_BYTE");
    if (bad) {
        bad_byte = strtoll(bad, NULL, 10);
    }
    const char *fail = getenv("FAIL_CALL");
    if (fail && strncmp(fail, "pwrite ", 7) == 0) {
        fail_write = strtoul(fail + 7, NULL, 10);
    } else if (fail && strncmp(fail, "fdatasync ", 10) == 0) {
        fail_sync = strtoul(fail + 10, NULL, 10);
    } else if (fail && strncmp(fail, "flock ", 6) == 0) {
        fail_lock = strtoul(fail + 6, NULL, 10);
    } else if (fail && strncmp(fail, "ftruncate ", 10) == 0) {
        fail_length = strtoul(fail + 10, NULL, 10);
    } else if (fail && strcmp(fail, "posix_fadvise") == 0) {
        fail_advice = 1;
    }
}

/* Adds a line, which is short enough to be written whole. A note that can't be written would hide a call, so it ends the program. */
static void note(const char *line, int fails) {
    char text[96];
    int length = snprintf(text, sizeof text, "%s%s\n", line, fails ? " failed" : "");
    if (notes >= 0 && write(notes, text, (size_t)length) != length) {
        abort();
    }
}

ssize_t pread(int file, void *into, size_t count, off_t offset) {
    if (offset <= bad_byte && bad_byte < offset + (long long)count) {
        errno = EIO;
        return -1;
    }
    return next_pread(file, into, count, offset);
}

ssize_t pread64(int file, void *into, size_t count, off_t offset) {
    return pread(file, into, count, offset);
}

ssize_t pwrite(int file, const void *from, size_t count, off_t offset) {
    char line[64];
    int fails = ++writes == fail_write;
    snprintf(line, sizeof line, "pwrite %lld %zu", (long long)offset, count);
    note(line, fails);
    if (fails) {
        errno = EIO;
        return -1;
    }
    return next_pwrite(file, from, count, offset);
}

ssize_t pwrite64(int file, const void *from, size_t count, off_t offset) {
    return pwrite(file, from, count, offset);
}

int fdatasync(int file) {
    int fails = ++syncs == fail_sync;
    note("fdatasync", fails);
    if (fails) {
        errno = EIO;
        return -1;
    }
    return next_fdatasync(file);
}

int posix_fadvise(int file, off_t offset, off_t count, int advice) {
    char line[64];
    snprintf(line, sizeof line, "posix_fadvise %lld %lld", (long long)offset, (long long)count);
    note(line, fail_advice);
    return fail_advice ? EIO : next_advise(file, offset, count, advice);
}

int posix_fadvise64(int file, off_t offset, off_t count, int advice) {
    return posix_fadvise(file, offset, count, advice);
}

int sched_yield(void) {
    note("sched_yield", 0);
    return next_yield();
}

int flock(int file, int how) {
    if (++locks == fail_lock) {
        errno = ENOLCK;
        return -1;
    }
    return next_flock(file, how);
}

int ftruncate(int file, off_t length) {
    if (++lengths == fail_length) {
        errno = EFBIG;
        return -1;
    }
    return next_ftruncate(file, length);
}
