/* Refuses growths of memory. refused_memory.py loads it before the C library: of the calls of
   malloc and realloc after the process has begun, the one with the number REFUSED fails, or each
   from the number REFUSED_FROM on. If MARK is set, only those count that come after a call for
   MARK bytes and before the next such call. The file COUNTED has their number in eight bytes; it is
   mapped while the process runs, since a program may end without running exit handlers. */
#define _GNU_SOURCE
#include <dlfcn.h>
#include <fcntl.h>
#include <stdatomic.h>
#include <stdlib.h>
#include <sys/mman.h>
#include <unistd.h>

static atomic_long own_calls;
static atomic_long *calls = &own_calls;
static long refused = -1;
static long refused_from = -1;
static size_t mark;
static atomic_int counts;
static void *(*own_malloc)(size_t);
static void *(*own_realloc)(void *, size_t);

__attribute__((constructor)) static void begin(void) {
    own_malloc = dlsym(RTLD_NEXT, "malloc");
    own_realloc = dlsym(RTLD_NEXT, "realloc");
    const char *number = getenv("REFUSED");
    const char *from = getenv("REFUSED_FROM");
    const char *bytes = getenv("MARK");
    const char *name = getenv("COUNTED");
    refused = number ? atol(number) : -1;
    refused_from = from ? atol(from) : -1;
    if (name) {
        int file = open(name, O_RDWR | O_CREAT, 0600);
        if (file >= 0 && ftruncate(file, sizeof(long)) == 0) {
            void *shared = mmap(NULL, sizeof(long), PROT_READ | PROT_WRITE, MAP_SHARED, file, 0);
            if (shared != MAP_FAILED) calls = shared;
        }
    }
    mark = bytes ? atol(bytes) : 0;
    counts = !mark;
}

static int is_refused(size_t size) {
    if (mark && size == mark) {
        counts = !counts;
        return 0;
    }
    if (!counts) return 0;
    long number = atomic_fetch_add(calls, 1) + 1;
    return number == refused || (refused_from > 0 && number >= refused_from);
}

void *malloc(size_t size) {
    if (!own_malloc) own_malloc = dlsym(RTLD_NEXT, "malloc");
    return is_refused(size) ? NULL : own_malloc(size);
}

void *realloc(void *old, size_t size) {
    if (!own_realloc) own_realloc = dlsym(RTLD_NEXT, "realloc");
    return is_refused(size) ? NULL : own_realloc(old, size);
}
