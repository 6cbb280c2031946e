/* A client over libnbd that measures a server; tools/bench.sh runs it. Times are in microseconds, rates in answers a second, and blocks have
 * 4,096 bytes; requests go to the first BLOCKS blocks.
 *
 * bench_client run URI KIND CONNECTIONS SECONDS BLOCKS
 *     Sends requests over CONNECTIONS connections, each with a thread, for SECONDS seconds, and prints their rate; requests of 1 MiB are counted in
 *     MiB. Kinds:
 *         write      4 KiB at random places, 16 in flight on each connection
 *         flushed    4 KiB at random places, each followed by a FLUSH, one after another
 *         fua        4 KiB at random places with FUA, one after another
 *         fua-16     the same, 16 in flight
 *         sequential all blocks once in order, 1 MiB at a time, 4 in flight, and a FLUSH at the end, which counts: however long it takes
 *         read       4 KiB at random places, 16 in flight
 *         read-long  1 MiB at a time in order, 4 in flight
 *         read-64k   64 KiB at a time in order, 4 in flight
 *         any-64k    64 KiB at random places, 16 in flight
 *         mixed      4 KiB at random places, 7 of 10 read and the others written, 16 in flight
 *         write-512  512 bytes at random places, 16 in flight
 *         read-512   the same, read
 * bench_client times URI KIND CONNECTIONS SECONDS BLOCKS
 *     The same, of a kind whose requests have 4 KiB. It prints the rate, and then the median, the 99th percentile, the 999th of a thousand and the
 *     longest of the times of a request, or of a write with its FLUSH.
 * bench_client fill URI BLOCKS [PIECE]
 *     Writes these blocks, PIECE at a time (256 unless given), and flushes.
 * bench_client beside URI LENGTH FLUSHERS SECONDS BLOCKS
 *     Sends READs of LENGTH bytes at random places, one after another, while FLUSHERS connections write and flush as `flushed` does. Prints the rate
 *     of READs, the median, 99th percentile and longest of their times, and the rate of FLUSHes.
 * bench_client one URI READERS WRITERS SECONDS BLOCKS
 *     Over ONE connection, as a guest has it: READERS READs of 4 KiB at random places in flight, each followed by another, and WRITERS times a WRITE
 *     of 4 KiB and then a FLUSH. Prints the rate of READs, the median, 99th percentile and longest of their times, the rate of WRITEs with their
 *     FLUSH, and the median of their times.
 * bench_client stall URI SECONDS BLOCKS
 *     4 connections write as `write` does, one writes and flushes as `flushed` does, and one reads 4 KiB, one after another. Prints the rate of
 *     WRITEs, the longest time of one, and the 99th percentiles of a write with FLUSH and of a READ.
 * bench_client waits URI SECONDS BLOCKS
 *     4 connections write as `write` does, and one writes and flushes as `flushed` does. Prints the rate of WRITEs, and then of WRITEs and of writes
 *     with FLUSH the median, the 99th percentile, the 999th of a thousand and the longest.
 * bench_client start SOCKET COMMAND...
 *     Runs the server of a Unix socket, prints after how many milliseconds it greeted a client and how many bytes were resident then, and kills it.
 */
#include <errno.h>
#include <libnbd.h>
#include <pthread.h>
#include <signal.h>
#include <stdint.h>
#include <stdio.h>
#include <stdlib.h>
#include <string.h>
#include <sys/socket.h>
#include <sys/un.h>
#include <sys/wait.h>
#include <time.h>
#include <unistd.h>

#define BLOCK 4096u
#define SECTOR 512u
#define SECTORS (BLOCK / SECTOR)
#define LONG_BLOCKS 256u
#define MOST_DEPTH 16
#define MOST_CONNECTIONS 64
#define MOST_TIMES 4000000

struct kind {
    const char *name;
    unsigned sectors, depth;
    int is_read, is_random, flushes, has_fua, is_one_pass, is_mixed;
};

static const struct kind kinds[] = {
    {"write", SECTORS, 16, 0, 1, 0, 0, 0, 0},
    {"flushed", SECTORS, 1, 0, 1, 1, 0, 0, 0},
    {"fua", SECTORS, 1, 0, 1, 0, 1, 0, 0},
    {"fua-16", SECTORS, 16, 0, 1, 0, 1, 0, 0},
    {"sequential", LONG_BLOCKS * SECTORS, 4, 0, 0, 0, 0, 1, 0},
    {"read", SECTORS, 16, 1, 1, 0, 0, 0, 0},
    {"read-long", LONG_BLOCKS * SECTORS, 4, 1, 0, 0, 0, 0, 0},
    {"read-64k", 16 * SECTORS, 4, 1, 0, 0, 0, 0, 0},
    {"any-64k", 16 * SECTORS, 16, 1, 1, 0, 0, 0, 0},
    {"mixed", SECTORS, 16, 0, 1, 0, 0, 0, 1},
    {"write-512", 1, 16, 0, 1, 0, 0, 0, 0},
    {"read-512", 1, 16, 1, 1, 0, 0, 0, 0},
};

/* The kind of this name, or NULL. */
static const struct kind *kind_of(const char *name) {
    for (size_t k = 0; k < sizeof kinds / sizeof kinds[0]; k++) {
        if (strcmp(kinds[k].name, name) == 0) return &kinds[k];
    }
    return NULL;
}

static size_t length_of(const struct kind *kind) { return (size_t)kind->sectors * SECTOR; }

struct connection;

struct slot {
    struct connection *connection;
    int is_busy;
    double begun;
    char *data;
};

struct connection {
    struct nbd_handle *nbd;
    const struct kind *kind;
    pthread_t thread;
    uint64_t random, next, blocks, answered, number;
    double end, longest;
    double *times; /* of each write and FLUSH, or none are kept */
    double *taken; /* of each request that was in flight with others, or none are kept */
    struct slot slots[MOST_DEPTH];
};

static double now(void) {
    struct timespec it;
    clock_gettime(CLOCK_MONOTONIC, &it);
    return it.tv_sec + it.tv_nsec / 1e9;
}

static void fail(const char *what) {
    const char *text = nbd_get_error();
    fprintf(stderr, "bench_client: %s: %s\n", what, text ? text : strerror(errno));
    exit(1);
}

static uint64_t any(struct connection *it) {
    it->random ^= it->random << 13;
    it->random ^= it->random >> 7;
    it->random ^= it->random << 17;
    return it->random;
}

/* Data that differ from those of every other write: each block has its number. */
static void mark(struct connection *it, char *data) {
    it->number++;
    for (size_t at = 0; at < length_of(it->kind); at += BLOCK) memcpy(data + at, &it->number, sizeof it->number);
}

/* How many requests fit into the blocks one after another. */
static uint64_t places(struct connection *it) { return it->blocks * SECTORS / it->kind->sectors; }

static uint64_t place(struct connection *it) {
    uint64_t index = it->kind->is_random ? any(it) % places(it) : it->next++ % places(it);
    return index * length_of(it->kind);
}

static int completed(void *data, int *error) {
    struct slot *slot = data;
    if (*error) {
        errno = *error;
        fail("an answer");
    }
    double took = now() - slot->begun;
    if (took > slot->connection->longest) slot->connection->longest = took;
    if (slot->connection->taken && slot->connection->answered < MOST_TIMES) slot->connection->taken[slot->connection->answered] = took;
    slot->is_busy = 0;
    slot->connection->answered++;
    return 1;
}

static void ask(struct connection *it, struct slot *slot) {
    nbd_completion_callback done = {.callback = completed, .user_data = slot};
    size_t length = length_of(it->kind);
    int64_t cookie;
    slot->is_busy = 1;
    slot->begun = now();
    if (it->kind->is_read || (it->kind->is_mixed && any(it) % 10 < 7)) {
        cookie = nbd_aio_pread(it->nbd, slot->data, length, place(it), done, 0);
    } else {
        mark(it, slot->data);
        cookie = nbd_aio_pwrite(it->nbd, slot->data, length, place(it), done, it->kind->has_fua ? LIBNBD_CMD_FLAG_FUA : 0);
    }
    if (cookie == -1) fail("a request");
}

static int goes_on(struct connection *it) {
    return it->kind->is_one_pass ? it->next < places(it) : now() < it->end;
}

/* Keeps as many requests in flight as the kind says, and waits for the last ones. */
static void ask_many(struct connection *it) {
    for (;;) {
        unsigned busy = 0;
        for (unsigned k = 0; k < it->kind->depth; k++) {
            if (goes_on(it) && !it->slots[k].is_busy) ask(it, &it->slots[k]);
            busy += it->slots[k].is_busy;
        }
        if (busy == 0) return;
        if (nbd_poll(it->nbd, -1) == -1) fail("poll");
    }
}


static void ask_in_turn(struct connection *it) {
    char *data = it->slots[0].data;
    for (double from = now(); from < it->end;) {
        mark(it, data);
        if (nbd_pwrite(it->nbd, data, BLOCK, place(it), it->kind->has_fua ? LIBNBD_CMD_FLAG_FUA : 0) == -1) fail("a write");
        if (it->kind->flushes && nbd_flush(it->nbd, 0) == -1) fail("a flush");
        double to = now();
        if (it->times && it->answered < MOST_TIMES) it->times[it->answered] = to - from;
        it->answered++;
        from = to;
    }
}

static int is_in_turn(const struct kind *kind) { return kind->flushes || (kind->has_fua && kind->depth == 1); }

static void *serve_thread(void *data) {
    struct connection *it = data;
    if (is_in_turn(it->kind)) {
        ask_in_turn(it);
    } else {
        ask_many(it);
    }
    if (it->kind->is_one_pass && nbd_flush(it->nbd, 0) == -1) fail("the flush at the end");
    return NULL;
}

static void prepare(struct connection *it, const char *uri, const struct kind *kind, unsigned index, uint64_t blocks) {
    memset(it, 0, sizeof *it);
    it->kind = kind;
    it->random = 0x9e3779b97f4a7c15u * (index + 1);
    it->blocks = blocks;
    it->number = (uint64_t)index << 48;
    it->nbd = nbd_create();
    if (!it->nbd || nbd_connect_uri(it->nbd, uri) == -1) fail("connect");
    for (unsigned k = 0; k < kind->depth; k++) {
        it->slots[k].connection = it;
        it->slots[k].data = malloc(length_of(kind));
        if (!it->slots[k].data) fail("memory");
        for (size_t at = 0; at < length_of(kind); at++) it->slots[k].data[at] = (char)(at * 31 + at / 251 + 1);
    }
}

/* Sends requests in a thread of its own until the end. */
static void begin(struct connection *it, double end) {
    it->end = end;
    if (pthread_create(&it->thread, NULL, serve_thread, it)) fail("a thread");
}

static void finish(struct connection *it) {
    if (nbd_shutdown(it->nbd, 0) == -1) fail("shutdown");
    nbd_close(it->nbd);
    for (unsigned k = 0; k < it->kind->depth; k++) free(it->slots[k].data);
}

static int longer(const void *one, const void *other) {
    double left = *(const double *)one, right = *(const double *)other;
    return (left > right) - (left < right);
}

static void print_waits(double *times, size_t count) {
    qsort(times, count, sizeof *times, longer);
    if (count == 0) fail("no answer");
    printf(" %.0f %.0f %.0f %.0f", times[count / 2] * 1e6, times[count * 99 / 100] * 1e6, times[count * 999 / 1000] * 1e6, times[count - 1] * 1e6);
}

/* Keeps the times of a connection's requests, or prints those that each has kept. */
static void keep_times(struct connection *it) {
    double *kept = malloc(MOST_TIMES * sizeof *kept);
    if (!kept) fail("memory");
    if (is_in_turn(it->kind)) {
        it->times = kept;
    } else {
        it->taken = kept;
    }
}

static void print_times(struct connection *connections, unsigned count) {
    double *times = malloc(count * MOST_TIMES * sizeof *times);
    size_t all = 0;
    if (!times) fail("memory");
    for (unsigned k = 0; k < count; k++) {
        double *kept = connections[k].times ? connections[k].times : connections[k].taken;
        size_t many = connections[k].answered < MOST_TIMES ? connections[k].answered : MOST_TIMES;
        memcpy(times + all, kept, many * sizeof *times);
        all += many;
        free(kept);
    }
    print_waits(times, all);
    free(times);
}

static void run(const char *uri, const char *name, unsigned count, double seconds, uint64_t blocks, int is_timed) {
    static struct connection connections[MOST_CONNECTIONS];
    const struct kind *kind = kind_of(name);
    if (!kind || count == 0 || count > MOST_CONNECTIONS || blocks < LONG_BLOCKS) {
        fprintf(stderr, "bench_client: no such run\n");
        exit(2);
    }
    for (unsigned k = 0; k < count; k++) {
        prepare(&connections[k], uri, kind, k, blocks);
        if (is_timed) keep_times(&connections[k]);
    }
    double begun = now();
    for (unsigned k = 0; k < count; k++) begin(&connections[k], begun + seconds);
    uint64_t answered = 0;
    for (unsigned k = 0; k < count; k++) {
        pthread_join(connections[k].thread, NULL);
        answered += connections[k].answered;
    }
    double took = now() - begun;
    for (unsigned k = 0; k < count; k++) finish(&connections[k]);
    printf("%.0f", answered / took);
    if (is_timed) print_times(connections, count);
    printf("\n");
}

static void fill(const char *uri, uint64_t blocks, uint64_t piece) {
    struct connection it;
    if (piece == 0 || piece > LONG_BLOCKS) fail("a piece");
    prepare(&it, uri, kind_of("sequential"), 0, blocks);
    for (uint64_t at = 0; at + piece <= blocks; at += piece) {
        mark(&it, it.slots[0].data);
        if (nbd_pwrite(it.nbd, it.slots[0].data, (size_t)piece * BLOCK, at * BLOCK, 0) == -1) fail("a write");
    }
    if (nbd_flush(it.nbd, 0) == -1) fail("a flush");
    finish(&it);
}

static void beside(const char *uri, unsigned length, unsigned flushers, double seconds, uint64_t blocks) {
    static struct connection connections[MOST_CONNECTIONS], reader;
    double *times = malloc(MOST_TIMES * sizeof *times);
    char *data = malloc(length);
    size_t answered = 0;
    uint64_t flushed = 0;
    if (!times || !data || flushers > MOST_CONNECTIONS || length == 0 || length % BLOCK || length / BLOCK > blocks) {
        fprintf(stderr, "bench_client: no such run\n");
        exit(2);
    }
    for (unsigned k = 0; k < flushers; k++) prepare(&connections[k], uri, kind_of("flushed"), k, blocks);
    prepare(&reader, uri, kind_of("read"), MOST_CONNECTIONS, blocks);
    double begun = now();
    for (unsigned k = 0; k < flushers; k++) begin(&connections[k], begun + seconds);
    for (double from = now(); from < begun + seconds && answered < MOST_TIMES; answered++) {
        uint64_t offset = any(&reader) % (blocks - length / BLOCK + 1) * BLOCK;
        if (nbd_pread(reader.nbd, data, length, offset, 0) == -1) fail("a read");
        double to = now();
        times[answered] = to - from;
        from = to;
    }
    double took = now() - begun;
    for (unsigned k = 0; k < flushers; k++) {
        pthread_join(connections[k].thread, NULL);
        flushed += connections[k].answered;
        finish(&connections[k]);
    }
    finish(&reader);
    qsort(times, answered, sizeof *times, longer);
    printf("%.0f %.0f %.0f %.0f %.0f\n", answered / took, times[answered / 2] * 1e6, times[answered * 99 / 100] * 1e6,
           times[answered - 1] * 1e6, flushed / took);
    free(times);
    free(data);
}

enum step { READS, WRITES, FLUSHES };

/* One of several loops over one connection. */
struct loop {
    enum step step;
    double begun, *times;
    size_t count;
    char data[BLOCK];
    int is_busy;
};

static int ended(void *data, int *error) {
    struct loop *loop = data;
    if (*error) {
        errno = *error;
        fail("an answer");
    }
    loop->is_busy = 0;
    if (loop->step == WRITES) {
        loop->step = FLUSHES;
        return 1;
    }
    if (loop->count < MOST_TIMES) loop->times[loop->count++] = now() - loop->begun;
    if (loop->step == FLUSHES) loop->step = WRITES;
    return 1;
}

static void go_on(struct connection *it, struct loop *loop) {
    nbd_completion_callback done = {.callback = ended, .user_data = loop};
    int64_t cookie;
    loop->is_busy = 1;
    if (loop->step != FLUSHES) loop->begun = now();
    if (loop->step == READS) {
        cookie = nbd_aio_pread(it->nbd, loop->data, BLOCK, place(it), done, 0);
    } else if (loop->step == WRITES) {
        mark(it, loop->data);
        cookie = nbd_aio_pwrite(it->nbd, loop->data, BLOCK, place(it), done, 0);
    } else {
        cookie = nbd_aio_flush(it->nbd, done, 0);
    }
    if (cookie == -1) fail("a request");
}

static void one(const char *uri, unsigned readers, unsigned writers, double seconds, uint64_t blocks) {
    static struct loop loops[MOST_CONNECTIONS];
    static struct connection it;
    double *reads = malloc(MOST_TIMES * sizeof *reads), *writes = malloc(MOST_TIMES * sizeof *writes);
    size_t read = 0, written = 0;
    unsigned busy = 1;
    if (readers + writers == 0 || readers + writers > MOST_CONNECTIONS || !reads || !writes) fail("loops");
    prepare(&it, uri, kind_of("write"), 0, blocks);
    for (unsigned k = 0; k < readers + writers; k++) {
        loops[k].step = k < readers ? READS : WRITES;
        loops[k].times = malloc(MOST_TIMES * sizeof *reads);
        if (!loops[k].times) fail("memory");
    }
    double begun = now();
    while (busy) {
        busy = 0;
        for (unsigned k = 0; k < readers + writers; k++) {
            if (!loops[k].is_busy && now() < begun + seconds) go_on(&it, &loops[k]);
            busy += loops[k].is_busy;
        }
        if (busy && nbd_poll(it.nbd, -1) == -1) fail("poll");
    }
    double took = now() - begun;
    for (unsigned k = 0; k < readers + writers; k++) {
        double *into = k < readers ? reads : writes;
        size_t *count = k < readers ? &read : &written;
        for (size_t n = 0; n < loops[k].count && *count < MOST_TIMES; n++) into[(*count)++] = loops[k].times[n];
        free(loops[k].times);
    }
    finish(&it);
    qsort(reads, read, sizeof *reads, longer);
    qsort(writes, written, sizeof *writes, longer);
    printf("%.0f %.0f %.0f %.0f %.0f %.0f\n", read / took, read ? reads[read / 2] * 1e6 : 0, read ? reads[read * 99 / 100] * 1e6 : 0,
           read ? reads[read - 1] * 1e6 : 0, written / took, written ? writes[written / 2] * 1e6 : 0);
    free(reads);
    free(writes);
}

#define WRITERS 4

static void stall(const char *uri, double seconds, uint64_t blocks) {
    static struct connection connections[WRITERS], flusher, reader;
    static char data[BLOCK];
    double *times = malloc(MOST_TIMES * sizeof *times);
    size_t read = 0;
    uint64_t written = 0;
    double longest = 0;
    for (unsigned k = 0; k < WRITERS; k++) prepare(&connections[k], uri, kind_of("write"), k, blocks);
    prepare(&flusher, uri, kind_of("flushed"), WRITERS, blocks);
    prepare(&reader, uri, kind_of("read"), WRITERS + 1, blocks);
    flusher.times = malloc(MOST_TIMES * sizeof *times);
    if (!times || !flusher.times) fail("memory");
    double begun = now();
    begin(&flusher, begun + seconds);
    for (unsigned k = 0; k < WRITERS; k++) begin(&connections[k], begun + seconds);
    for (double from = now(); from < begun + seconds && read < MOST_TIMES; read++) {
        if (nbd_pread(reader.nbd, data, BLOCK, any(&reader) % blocks * BLOCK, 0) == -1) fail("a read");
        double to = now();
        times[read] = to - from;
        from = to;
    }
    for (unsigned k = 0; k < WRITERS; k++) {
        pthread_join(connections[k].thread, NULL);
        written += connections[k].answered;
        if (connections[k].longest > longest) longest = connections[k].longest;
        finish(&connections[k]);
    }
    pthread_join(flusher.thread, NULL);
    double took = now() - begun;
    qsort(times, read, sizeof *times, longer);
    qsort(flusher.times, flusher.answered, sizeof *times, longer);
    printf("%.0f %.0f %.0f %.0f\n", written / took, longest * 1e6, flusher.times[flusher.answered * 99 / 100] * 1e6, times[read * 99 / 100] * 1e6);
    finish(&flusher);
    finish(&reader);
    free(flusher.times);
    free(times);
}

static void waits(const char *uri, double seconds, uint64_t blocks) {
    static struct connection connections[WRITERS], flusher;
    double *times = malloc(WRITERS * MOST_TIMES * sizeof *times);
    size_t written = 0;
    if (!times) fail("memory");
    for (unsigned k = 0; k < WRITERS; k++) {
        prepare(&connections[k], uri, kind_of("write"), k, blocks);
        connections[k].taken = malloc(MOST_TIMES * sizeof *times);
        if (!connections[k].taken) fail("memory");
    }
    prepare(&flusher, uri, kind_of("flushed"), WRITERS, blocks);
    flusher.times = malloc(MOST_TIMES * sizeof *times);
    if (!flusher.times) fail("memory");
    double begun = now();
    begin(&flusher, begun + seconds);
    for (unsigned k = 0; k < WRITERS; k++) begin(&connections[k], begun + seconds);
    for (unsigned k = 0; k < WRITERS; k++) {
        pthread_join(connections[k].thread, NULL);
        size_t kept = connections[k].answered < MOST_TIMES ? connections[k].answered : MOST_TIMES;
        memcpy(times + written, connections[k].taken, kept * sizeof *times);
        written += kept;
        finish(&connections[k]);
        free(connections[k].taken);
    }
    pthread_join(flusher.thread, NULL);
    printf("%.0f", written / (now() - begun));
    print_waits(times, written);
    print_waits(flusher.times, flusher.answered < MOST_TIMES ? flusher.answered : MOST_TIMES);
    printf("\n");
    finish(&flusher);
    free(flusher.times);
    free(times);
}

static long resident(pid_t pid) {
    char path[64], line[256];
    long found = 0;
    snprintf(path, sizeof path, "/proc/%d/status", (int)pid);
    FILE *file = fopen(path, "r");
    while (file && fgets(line, sizeof line, file)) sscanf(line, "VmRSS: %ld", &found);
    if (file) fclose(file);
    return found * 1024;
}

/* Whether the server has sent the 18 bytes of its greeting. */
static int is_greeted(const char *path) {
    struct sockaddr_un address = {.sun_family = AF_UNIX};
    char greeting[18];
    snprintf(address.sun_path, sizeof address.sun_path, "%s", path);
    int fd = socket(AF_UNIX, SOCK_STREAM, 0);
    int greeted = fd >= 0 && connect(fd, (struct sockaddr *)&address, sizeof address) == 0 &&
                  recv(fd, greeting, sizeof greeting, MSG_WAITALL) == (ssize_t)sizeof greeting;
    if (fd >= 0) close(fd);
    return greeted;
}

static void start(const char *path, char **command) {
    double begun = now();
    pid_t pid = fork();
    if (pid == -1) fail("fork");
    if (pid == 0) {
        if (!freopen("/dev/null", "w", stdout) || !freopen("/dev/null", "w", stderr)) _exit(127);
        execvp(command[0], command);
        _exit(127);
    }
    while (!is_greeted(path)) {
        if (now() - begun > 20 || waitpid(pid, NULL, WNOHANG) == pid) {
            fprintf(stderr, "bench_client: the server doesn't start\n");
            kill(pid, SIGKILL);
            exit(1);
        }
        struct timespec moment = {0, 100000};
        nanosleep(&moment, NULL);
    }
    double took = now() - begun;
    long bytes = resident(pid);
    kill(pid, SIGKILL);
    waitpid(pid, NULL, 0);
    printf("%.1f %ld\n", took * 1000, bytes);
}

int main(int argc, char **argv) {
    if (argc == 7 && strcmp(argv[1], "run") == 0) {
        run(argv[2], argv[3], (unsigned)atoi(argv[4]), atof(argv[5]), strtoull(argv[6], NULL, 10), 0);
    } else if (argc == 7 && strcmp(argv[1], "times") == 0) {
        run(argv[2], argv[3], (unsigned)atoi(argv[4]), atof(argv[5]), strtoull(argv[6], NULL, 10), 1);
    } else if ((argc == 4 || argc == 5) && strcmp(argv[1], "fill") == 0) {
        fill(argv[2], strtoull(argv[3], NULL, 10), argc == 5 ? strtoull(argv[4], NULL, 10) : LONG_BLOCKS);
    } else if (argc == 7 && strcmp(argv[1], "beside") == 0) {
        beside(argv[2], (unsigned)atoi(argv[3]), (unsigned)atoi(argv[4]), atof(argv[5]), strtoull(argv[6], NULL, 10));
    } else if (argc == 7 && strcmp(argv[1], "one") == 0) {
        one(argv[2], (unsigned)atoi(argv[3]), (unsigned)atoi(argv[4]), atof(argv[5]), strtoull(argv[6], NULL, 10));
    } else if (argc == 5 && strcmp(argv[1], "stall") == 0) {
        stall(argv[2], atof(argv[3]), strtoull(argv[4], NULL, 10));
    } else if (argc == 5 && strcmp(argv[1], "waits") == 0) {
        waits(argv[2], atof(argv[3]), strtoull(argv[4], NULL, 10));
    } else if (argc > 3 && strcmp(argv[1], "start") == 0) {
        start(argv[2], argv + 3);
    } else {
        fprintf(stderr, "bench_client: how it is run stands at the top of its source\n");
        return 2;
    }
    return 0;
}
