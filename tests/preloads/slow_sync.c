/* A preload that makes syncs as slow as those of a disk: `fdatasync` and `fsync` sleep for SLOW_SYNC_US microseconds (by default 0) before they
 * do their work, `pwrite` for SLOW_WRITE_US and `pread` for SLOW_READ_US. Calls of several threads sleep at the same time.
 *
 * cc -shared -fPIC -O2 -o slow_sync.so slow_sync.c
 * SLOW_SYNC_US=5000 LD_PRELOAD=$PWD/slow_sync.so nbdj serve ...
 */
#define _GNU_SOURCE
#include "before_calls.h"
#include <stdlib.h>
#include <time.h>

static void wait_for_the_drive(const char *variable)
{
    const char *text = getenv(variable);
    long micros = text ? atol(text) : 0;
    struct timespec time = {.tv_sec = micros / 1000000, .tv_nsec = micros % 1000000 * 1000};
    if (micros > 0)
        while (nanosleep(&time, &time) != 0)
            ;
}

static void before_read(void)
{
    wait_for_the_drive("SLOW_READ_US");
}

static void before_write(void)
{
    wait_for_the_drive("SLOW_WRITE_US");
}

static void before_sync(void)
{
    wait_for_the_drive("SLOW_SYNC_US");
}
