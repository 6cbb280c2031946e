/* A preload that refuses calls for memory: the one with the number REFUSE_AT, counted from 1, and with REFUSE_ON all later ones too. If there
 * was such a call, it makes the file REFUSE_MET. */
#define _GNU_SOURCE
#include <dlfcn.h>
#include <errno.h>
#include <fcntl.h>
#include <stdlib.h>
#include <string.h>
#include <unistd.h>

static void *(*next_malloc)(size_t);
static void *(*next_calloc)(size_t, size_t);
static void *(*next_realloc)(void *, size_t);
static void *(*next_aligned_alloc)(size_t, size_t);
static int (*next_posix_memalign)(void **, size_t, size_t);
static void (*next_free)(void *);

static unsigned long refuse_at;
static unsigned long calls;
static int refuse_on;
static int ready;

/* What dlsym itself asks for before the real functions are known. */
static char early[4096];
static size_t early_used;

static int is_early(const void *place) {
    return (const char *)place >= early && (const char *)place < early + sizeof early;
}

static void *early_alloc(size_t size) {
    size_t rounded = (size + 15) & ~(size_t)15;
    if (rounded > sizeof early - early_used) {
        return NULL;
    }
    void *place = early + early_used;
    early_used += rounded;
    return place;
}

__attribute__((constructor)) static void start(void) {
    if (ready) {
        return;
    }
    next_malloc = (void *(*)(size_t))dlsym(RTLD_NEXT, "malloc");
    next_calloc = (void *(*)(size_t, size_t))dlsym(RTLD_NEXT, "calloc");
    next_realloc = (void *(*)(void *, size_t))dlsym(RTLD_NEXT, "realloc");
    next_aligned_alloc = (void *(*)(size_t, size_t))dlsym(RTLD_NEXT, "aligned_alloc");
    next_posix_memalign = (int (*)(void **, size_t, size_t))dlsym(RTLD_NEXT, "posix_memalign");
    next_free = (void (*)(void *))dlsym(RTLD_NEXT, "free");
    const char *at = getenv("REFUSE_AT");
    refuse_at = at ? strtoul(at, NULL, 10) : 0;
    refuse_on = getenv("REFUSE_ON") != NULL;
    ready = 1;
}

static int is_refused(void) {
    if (!ready) {
        return 0;
    }
    unsigned long call = __atomic_add_fetch(&calls, 1, __ATOMIC_SEQ_CST);
    if (refuse_on && refuse_at != 0 && call > refuse_at) {
        errno = ENOMEM;
        return 1;
    }
    if (call != refuse_at) {
        return 0;
    }
    const char *met = getenv("REFUSE_MET");
    if (met) {
        int file = open(met, O_WRONLY | O_CREAT, 0600);
        if (file >= 0) {
            close(file);
        }
    }
    errno = ENOMEM;
    return 1;
}

void *malloc(size_t size) {
    if (!ready) {
        return early_alloc(size);
    }
    return is_refused() ? NULL : next_malloc(size);
}

void *calloc(size_t count, size_t size) {
    if (!ready) {
        return early_alloc(count * size);
    }
    return is_refused() ? NULL : next_calloc(count, size);
}

void *realloc(void *place, size_t size) {
    if (!ready || is_early(place)) {
        void *moved = malloc(size);
        if (moved && place) {
            size_t left = (size_t)(early + sizeof early - (char *)place);
            memcpy(moved, place, size < left ? size : left);
        }
        return moved;
    }
    return is_refused() ? NULL : next_realloc(place, size);
}

void *aligned_alloc(size_t alignment, size_t size) {
    if (!ready) {
        return NULL;
    }
    return is_refused() ? NULL : next_aligned_alloc(alignment, size);
}

int posix_memalign(void **place, size_t alignment, size_t size) {
    if (!ready || is_refused()) {
        return ENOMEM;
    }
    return next_posix_memalign(place, alignment, size);
}

void free(void *place) {
    if (ready && !is_early(place)) {
        next_free(place);
    }
}
