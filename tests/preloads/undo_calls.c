/* A preload that lets a test turn a kill into a power cut: it keeps what each write to an image has replaced, and which writes a sync has confirmed.
 *
 * Before each `pwrite` to the file UNDO_IMAGE it adds a record to the file UNDO_LOG: 'W', three more bytes, the count of bytes (4 bytes), the offset
 * (8) and the number of the write (8), and the old bytes, or zeroes past the end of the file; numbers are in the machine's order. After each
 * `fdatasync` or `fsync` that succeeded it adds 'S', with 0 bytes and the number of the last write that had ended when the sync began. A kill may
 * cut off the last record; then its write didn't begin. A power cut may keep any part of a write that no sync has confirmed.
 *
 * cc -shared -fPIC -O2 -pthread -o undo_calls.so undo_calls.c -ldl
 * UNDO_IMAGE=$PWD/disk.img UNDO_LOG=$PWD/log LD_PRELOAD=$PWD/undo_calls.so nbdj serve disk.img ...
 */
#define _GNU_SOURCE
#include <dlfcn.h>
#include <fcntl.h>
#include <pthread.h>
#include <stdint.h>
#include <stdlib.h>
#include <string.h>
#include <sys/stat.h>
#include <sys/uio.h>
#include <unistd.h>

typedef ssize_t write_call(int, const void *, size_t, off_t);
typedef int sync_call(int);

struct record {
    char kind;
    char unused[3];
    uint32_t count;
    uint64_t offset;
    uint64_t number;
};

static pthread_mutex_t calls = PTHREAD_MUTEX_INITIALIZER;
static int notes = -1;
static uint64_t writes;

__attribute__((constructor)) static void start(void)
{
    const char *path = getenv("UNDO_LOG");
    if (path)
        notes = open(path, O_WRONLY | O_CREAT | O_APPEND | O_CLOEXEC, 0600);
}

static int is_image(int file)
{
    struct stat one, other;
    const char *path = getenv("UNDO_IMAGE");
    return notes >= 0 && path && stat(path, &one) == 0 && fstat(file, &other) == 0 && one.st_dev == other.st_dev && one.st_ino == other.st_ino;
}

/* A record that can't be written would hide a write, so it ends the program. */
static void note(char kind, uint64_t number, off_t offset, void *bytes, size_t count)
{
    struct record head = {.kind = kind, .count = (uint32_t)count, .offset = (uint64_t)offset, .number = number};
    struct iovec parts[2] = {{&head, sizeof head}, {bytes, count}};
    if (writev(notes, parts, 2) != (ssize_t)(sizeof head + count))
        abort();
}

static void note_old_bytes(int file, size_t count, off_t offset)
{
    static char *old;
    static size_t room;
    size_t found = 0;
    if (count > room) {
        old = realloc(old, count);
        room = count;
        if (!old)
            abort();
    }
    while (found < count) {
        ssize_t piece = pread(file, old + found, count - found, offset + (off_t)found);
        if (piece <= 0)
            break;
        found += (size_t)piece;
    }
    memset(old + found, 0, count - found);
    note('W', writes + 1, offset, old, count);
}

ssize_t pwrite(int file, const void *from, size_t count, off_t offset)
{
    static write_call *next;
    ssize_t done;
    if (!next)
        next = (write_call *)dlsym(RTLD_NEXT, "pwrite");
    if (!is_image(file))
        return next(file, from, count, offset);
    pthread_mutex_lock(&calls);
    note_old_bytes(file, count, offset);
    done = next(file, from, count, offset);
    writes++;
    pthread_mutex_unlock(&calls);
    return done;
}

ssize_t pwrite64(int file, const void *from, size_t count, off_t offset)
{
    return pwrite(file, from, count, offset);
}

static int synced(int file, sync_call *next)
{
    uint64_t over;
    int failed;
    if (!is_image(file))
        return next(file);
    pthread_mutex_lock(&calls);
    over = writes;
    pthread_mutex_unlock(&calls);
    failed = next(file);
    if (!failed) {
        pthread_mutex_lock(&calls);
        note('S', over, 0, NULL, 0);
        pthread_mutex_unlock(&calls);
    }
    return failed;
}

int fdatasync(int file)
{
    static sync_call *next;
    if (!next)
        next = (sync_call *)dlsym(RTLD_NEXT, "fdatasync");
    return synced(file, next);
}

int fsync(int file)
{
    static sync_call *next;
    if (!next)
        next = (sync_call *)dlsym(RTLD_NEXT, "fsync");
    return synced(file, next);
}
