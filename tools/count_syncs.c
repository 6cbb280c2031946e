/* A preload for tools/bench-in-turn: counts a program's calls of fdatasync. The file COUNTED_SYNCS then holds three numbers of 64 bits: the calls, the
 * nanoseconds that they took, and the nanoseconds of processor time in them, of all threads together. */
#define _GNU_SOURCE
#include <fcntl.h>
#include <stdint.h>
#include <stdlib.h>
#include <sys/mman.h>
#include <sys/syscall.h>
#include <time.h>
#include <unistd.h>

static uint64_t own[3], *counts = own;

__attribute__((constructor)) static void begin(void) {
    const char *path = getenv("COUNTED_SYNCS");
    int file = path ? open(path, O_RDWR | O_CREAT | O_CLOEXEC, 0600) : -1;
    if (file < 0 || ftruncate(file, sizeof own) != 0) return;
    void *shared = mmap(NULL, sizeof own, PROT_READ | PROT_WRITE, MAP_SHARED, file, 0);
    if (shared != MAP_FAILED) counts = shared;
    close(file);
}

static uint64_t at(clockid_t clock) {
    struct timespec it;
    clock_gettime(clock, &it);
    return (uint64_t)it.tv_sec * 1000000000u + (uint64_t)it.tv_nsec;
}

int fdatasync(int file) {
    uint64_t begun = at(CLOCK_MONOTONIC), busy = at(CLOCK_THREAD_CPUTIME_ID);
    int result = (int)syscall(SYS_fdatasync, file);
    __atomic_fetch_add(&counts[0], 1, __ATOMIC_RELAXED);
    __atomic_fetch_add(&counts[1], at(CLOCK_MONOTONIC) - begun, __ATOMIC_RELAXED);
    __atomic_fetch_add(&counts[2], at(CLOCK_THREAD_CPUTIME_ID) - busy, __ATOMIC_RELAXED);
    return result;
}
