/* Refuses requests for memory of the program into which it is loaded, for tools/refused-memory: the one with the number
   REFUSED_REQUEST, counted from 1, and where REFUSED_FROM is set each one behind it too. Without a number it refuses none.
   The number of requests stands in the first eight bytes of the file REFUSED_COUNT, however the program ends. */
#define _GNU_SOURCE
#include <dlfcn.h>
#include <errno.h>
#include <fcntl.h>
#include <stdlib.h>
#include <sys/mman.h>
#include <unistd.h>

static void *(*plain_malloc)(size_t);
static void *(*plain_calloc)(size_t, size_t);
static void *(*plain_realloc)(void *, size_t);
static int (*plain_posix_memalign)(void **, size_t, size_t);
static void *(*plain_aligned_alloc)(size_t, size_t);
static long uncounted, refused_request;
static long *requests = &uncounted;
static int refuses_from;

/* Lets the count stand in this file from now on. */
static void count_in(const char *name) {
    int file = open(name, O_RDWR | O_CREAT | O_TRUNC, 0600);
    if (file >= 0 && ftruncate(file, sizeof(long)) == 0) {
        void *place = mmap(0, sizeof(long), PROT_READ | PROT_WRITE, MAP_SHARED, file, 0);
        if (place != MAP_FAILED)
            requests = place;
    }
    close(file);
}

__attribute__((constructor)) static void begin(void) {
    const char *number = getenv("REFUSED_REQUEST");
    const char *count = getenv("REFUSED_COUNT");
    plain_malloc = dlsym(RTLD_NEXT, "malloc");
    plain_calloc = dlsym(RTLD_NEXT, "calloc");
    plain_realloc = dlsym(RTLD_NEXT, "realloc");
    plain_posix_memalign = dlsym(RTLD_NEXT, "posix_memalign");
    refused_request = number ? atol(number) : 0;
    refuses_from = getenv("REFUSED_FROM") != 0;
    if (count)
        count_in(count);
    plain_aligned_alloc = dlsym(RTLD_NEXT, "aligned_alloc");
}

/* Whether this request is refused. Before the beginning none is, and none is counted. */
static int is_refused(void) {
    if (!plain_aligned_alloc)
        return 0;
    long number = __atomic_add_fetch(requests, 1, __ATOMIC_RELAXED);
    if (!refused_request || (refuses_from ? number < refused_request : number != refused_request))
        return 0;
    errno = ENOMEM;
    return 1;
}

void *malloc(size_t size) {
    if (!plain_malloc)
        plain_malloc = dlsym(RTLD_NEXT, "malloc");
    return is_refused() ? 0 : plain_malloc(size);
}

/* What finds the plain calloc may ask for memory itself, and does without where it gets none. */
void *calloc(size_t count, size_t size) {
    return !plain_calloc || is_refused() ? 0 : plain_calloc(count, size);
}

void *realloc(void *old, size_t size) {
    if (!plain_realloc)
        plain_realloc = dlsym(RTLD_NEXT, "realloc");
    return is_refused() ? 0 : plain_realloc(old, size);
}

int posix_memalign(void **place, size_t alignment, size_t size) {
    return is_refused() ? ENOMEM : plain_posix_memalign(place, alignment, size);
}

void *aligned_alloc(size_t alignment, size_t size) {
    return is_refused() ? 0 : plain_aligned_alloc(alignment, size);
}
