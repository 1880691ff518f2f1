/* Refuses threads of a program, into which it is loaded by LD_PRELOAD. REFUSE says which: `2` the second that the
 * program
 * starts and each after it. If one is refused, the file REFUSED is made. */
#define _GNU_SOURCE
#include <dlfcn.h>
#include <errno.h>
#include <fcntl.h>
#include <pthread.h>
#include <stdatomic.h>
#include <stdlib.h>
#include <unistd.h>

static atomic_long asked;

typedef int create(pthread_t *, const pthread_attr_t *, void *(*)(void *), void *);

int pthread_create(pthread_t *thread, const pthread_attr_t *attributes, void *(*start)(void *), void *argument) {
    const char *first = getenv("REFUSE");
    if (first && atomic_fetch_add(&asked, 1) + 1 >= atol(first)) {
        const char *path = getenv("REFUSED");
        int file = path ? open(path, O_WRONLY | O_CREAT, 0600) : -1;
        if (file >= 0) {
            close(file);
        }
        return EAGAIN;
    }
    create *real = (create *)dlsym(RTLD_NEXT, "pthread_create");
    return real(thread, attributes, start, argument);
}
