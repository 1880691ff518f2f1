/* Refuses allocations of a program, into which it is loaded by LD_PRELOAD. REFUSE says which: `5` only the fifth, `5..`
 * the fifth and each after it. If one is refused, the file REFUSED is made. */
#define _GNU_SOURCE
#include <dlfcn.h>
#include <fcntl.h>
#include <stdatomic.h>
#include <stdlib.h>
#include <string.h>
#include <unistd.h>

static atomic_long asked;

static void *(*real_malloc)(size_t);
static void *(*real_realloc)(void *, size_t);

static int refused(void) {
    const char *which = getenv("REFUSE");
    if (!which) {
        return 0;
    }
    long first = atol(which), now = atomic_fetch_add(&asked, 1) + 1;
    if (now != first && (now < first || !strstr(which, ".."))) {
        return 0;
    }
    const char *path = getenv("REFUSED");
    int file = path ? open(path, O_WRONLY | O_CREAT, 0600) : -1;
    if (file >= 0) {
        close(file);
    }
    return 1;
}

void *malloc(size_t size) {
    if (!real_malloc) {
        real_malloc = (void *(*)(size_t))dlsym(RTLD_NEXT, "malloc");
    }
    return refused() ? NULL : real_malloc(size);
}

void *realloc(void *block, size_t size) {
    if (!real_realloc) {
        real_realloc = (void *(*)(void *, size_t))dlsym(RTLD_NEXT, "realloc");
    }
    return refused() ? NULL : real_realloc(block, size);
}
