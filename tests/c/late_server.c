/* Holds the server of a play for a moment, while its clients fill the queue. It is loaded into a program by LD_PRELOAD.
 *
 * LATE says how many threads a play has: the last one that it starts is its server, which begins late. Meanwhile this counts the
 * threads that wait for the same thing: threads that found the queue full wait for room, and each other thread waits for an
 * answer of its own. Once the number stays at WANTED for a tenth of a second, or at the latest after half a minute, the server
 * begins. The file WAITING gets a line with this number for each play. */
#define _GNU_SOURCE
#include <dlfcn.h>
#include <linux/futex.h>
#include <pthread.h>
#include <stdarg.h>
#include <stdatomic.h>
#include <stdint.h>
#include <stdio.h>
#include <stdlib.h>
#include <sys/syscall.h>
#include <unistd.h>

enum { WORDS = 4096 };

/* The words on which threads sleep, and how many do on each. */
static struct {
    _Atomic uintptr_t word;
    atomic_long sleepers;
} words[WORDS];

/* NULL if the table is full: then threads that sleep on this word aren't counted. */
static atomic_long *sleepers_of(uintptr_t word) {
    for (uintptr_t step = 0; step < WORDS; step++) {
        const uintptr_t k = ((word >> 2) + step) % WORDS;
        uintptr_t found = 0;
        if (atomic_compare_exchange_strong(&words[k].word, &found, word) || found == word) return &words[k].sleepers;
    }
    return NULL;
}

/* How many threads sleep on the word on which most do. */
static long most_sleepers(void) {
    long most = 0;
    for (int k = 0; k < WORDS; k++) {
        const long sleepers = atomic_load(&words[k].sleepers);
        if (sleepers > most) most = sleepers;
    }
    return most;
}

long syscall(long number, ...) {
    static long (*real)(long, ...);
    if (!real) real = (long (*)(long, ...))dlsym(RTLD_NEXT, "syscall");
    va_list list;
    va_start(list, number);
    long given[6];
    for (int k = 0; k < 6; k++) given[k] = va_arg(list, long);
    va_end(list);
    const int command = (int)given[1] & FUTEX_CMD_MASK;
    atomic_long *sleepers = NULL;
    if (number == SYS_futex && (command == FUTEX_WAIT || command == FUTEX_WAIT_BITSET)) {
        sleepers = sleepers_of((uintptr_t)given[0]);
        if (sleepers) atomic_fetch_add(sleepers, 1);
    }
    long answer = real(number, given[0], given[1], given[2], given[3], given[4], given[5]);
    if (sleepers) atomic_fetch_sub(sleepers, 1);
    return answer;
}

/* A thread that begins late. */
struct late {
    void *(*start)(void *);
    void *argument;
};

static void *begin_late(void *given) {
    struct late late = *(struct late *)given;
    free(given);
    const char *text = getenv("WANTED");
    const long wanted = text ? atol(text) : 0;
    long most = -1;
    for (int same = 0, looks = 0; same < 10 && looks < 3000; looks++) {
        usleep(10 * 1000);
        most = most_sleepers();
        same = most == wanted ? same + 1 : 0;
    }
    const char *path = getenv("WAITING");
    FILE *file = path ? fopen(path, "a") : NULL;
    if (file) {
        fprintf(file, "%ld\n", most);
        fclose(file);
    }
    return late.start(late.argument);
}

static atomic_long started;

int pthread_create(pthread_t *thread, const pthread_attr_t *attributes, void *(*start)(void *), void *argument) {
    int (*real)(pthread_t *, const pthread_attr_t *, void *(*)(void *), void *) =
        (int (*)(pthread_t *, const pthread_attr_t *, void *(*)(void *), void *))dlsym(RTLD_NEXT, "pthread_create");
    const char *text = getenv("LATE");
    const long threads = text ? atol(text) : 0;
    if (threads > 0 && (atomic_fetch_add(&started, 1) + 1) % threads == 0) {
        struct late *late = malloc(sizeof *late);
        if (!late) return 11;
        *late = (struct late){start, argument};
        return real(thread, attributes, begin_late, late);
    }
    return real(thread, attributes, start, argument);
}
