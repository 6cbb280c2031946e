/* For a preload that does something before each read, write and sync of a file at an offset. It defines what: */
#include <dlfcn.h>
#include <unistd.h>

static void before_read(void);
static void before_write(void);
static void before_sync(void);

typedef ssize_t read_call(int, void *, size_t, off_t);
typedef ssize_t write_call(int, const void *, size_t, off_t);
typedef int sync_call(int);

ssize_t pread(int file, void *into, size_t count, off_t offset)
{
    static read_call *next;
    if (!next)
        next = (read_call *)dlsym(RTLD_NEXT, "pread");
    before_read();
    return next(file, into, count, offset);
}

ssize_t pread64(int file, void *into, size_t count, off_t offset)
{
    return pread(file, into, count, offset);
}

ssize_t pwrite(int file, const void *from, size_t count, off_t offset)
{
    static write_call *next;
    if (!next)
        next = (write_call *)dlsym(RTLD_NEXT, "pwrite");
    before_write();
    return next(file, from, count, offset);
}

ssize_t pwrite64(int file, const void *from, size_t count, off_t offset)
{
    return pwrite(file, from, count, offset);
}

int fdatasync(int file)
{
    static sync_call *next;
    if (!next)
        next = (sync_call *)dlsym(RTLD_NEXT, "fdatasync");
    before_sync();
    return next(file);
}

int fsync(int file)
{
    static sync_call *next;
    if (!next)
        next = (sync_call *)dlsym(RTLD_NEXT, "fsync");
    before_sync();
    return next(file);
}
