/* A preload that makes device calls hang, and locks be lost. While the file STUCK exists, `pwrite`, `pread`, `fdatasync` and `fsync` don't begin;
 * while the file LOST exists, `flock` fails with EBADFD, as if a file server had shut this client out.
 *
 * cc -shared -fPIC -O2 -o stuck_calls.so stuck_calls.c -ldl
 * STUCK=$PWD/stuck LD_PRELOAD=$PWD/stuck_calls.so nbdj serve ...
 */
#define _GNU_SOURCE
#include "before_calls.h"
#include <errno.h>
#include <stdlib.h>
#include <sys/file.h>
#include <time.h>

static int is_there(const char *variable)
{
    const char *path = getenv(variable);
    return path && access(path, F_OK) == 0;
}

static void wait_while_stuck(void)
{
    struct timespec turn = {.tv_sec = 0, .tv_nsec = 1000000};
    while (is_there("STUCK"))
        nanosleep(&turn, NULL);
}

static void before_read(void)
{
    wait_while_stuck();
}

static void before_write(void)
{
    wait_while_stuck();
}

static void before_sync(void)
{
    wait_while_stuck();
}

typedef int lock_call(int, int);

int flock(int file, int how)
{
    static lock_call *next;
    if (!next)
        next = (lock_call *)dlsym(RTLD_NEXT, "flock");
    if (is_there("LOST")) {
        errno = EBADFD;
        return -1;
    }
    return next(file, how);
}
