/* What the tests of the house share. */
#ifndef CHECK_H
#define CHECK_H
#ifndef _GNU_SOURCE
#define _GNU_SOURCE
#endif
#include <voldazpe_house.h>

#include <errno.h>
#include <pthread.h>
#include <sched.h>
#include <stdio.h>
#include <stdlib.h>
#include <string.h>
#include <time.h>
#include <unistd.h>

#define CHECK(holds)                                                        \
    do {                                                                    \
        if (!(holds)) {                                                     \
            fprintf(stderr, "%s:%d: %s\n", __FILE__, __LINE__, #holds);     \
            fflush(stderr);                                                 \
            _exit(1);                                                       \
        }                                                                   \
    } while (0)

/* a call that answers VOLDAZPE_OK */
#define OK(call)                                                                                                  \
    do {                                                                                                          \
        voldazpe_house_code_t code_of_call = (call);                                                              \
        if (code_of_call != VOLDAZPE_OK) {                                                                        \
            fprintf(stderr, "%s:%d: %s: %s\n", __FILE__, __LINE__, #call, voldazpe_house_code_text(code_of_call)); \
            fflush(stderr);                                                                                       \
            _exit(1);                                                                                             \
        }                                                                                                         \
    } while (0)

static inline int64_t nanoseconds_now(void) {
    struct timespec moment;
    clock_gettime(CLOCK_MONOTONIC, &moment);
    return (int64_t)moment.tv_sec * 1000000000 + moment.tv_nsec;
}

static inline void pause_for(int64_t nanoseconds) {
    const struct timespec pause = {nanoseconds / 1000000000, nanoseconds % 1000000000};
    nanosleep(&pause, NULL);
}

/* Waits until something holds, for half a minute at most. */
#define UNTIL(holds)                                                   \
    do {                                                               \
        int64_t since_of_until = nanoseconds_now();                    \
        while (!(holds)) {                                             \
            CHECK("in time: " #holds &&                                \
                  nanoseconds_now() - since_of_until < 30000000000);   \
            pause_for(50000);                                          \
        }                                                              \
    } while (0)

static inline pthread_t start_thread(void *(*function)(void *), void *argument) {
    pthread_t thread;
    CHECK(pthread_create(&thread, NULL, function, argument) == 0);
    return thread;
}

static inline void *join_thread(pthread_t thread) {
    void *result;
    CHECK(pthread_join(thread, &result) == 0);
    return result;
}

/* long enough that no thread is moved, however late it comes */
enum { NEVER = 1000000000 };

/* a house of a text; unless the options say otherwise, it pins and moves no thread */
static inline voldazpe_house_t *open_text(const char *text, const voldazpe_house_options_t *options) {
    voldazpe_house_options_t unpinned = VOLDAZPE_INIT;
    voldazpe_house_t *house;
    unpinned.unpinned = true;
    unpinned.grace = NEVER;
    OK(voldazpe_house_open(text, text ? strlen(text) : 0, options ? options : &unpinned, &house));
    return house;
}

static inline voldazpe_house_counts_t counts_of(voldazpe_house_t *house, voldazpe_house_application_t application) {
    voldazpe_house_counts_t counts;
    OK(voldazpe_house_counts(house, application, &counts));
    return counts;
}

static inline voldazpe_house_state_t state_of(voldazpe_house_t *house) {
    voldazpe_house_state_t state;
    OK(voldazpe_house_state(house, &state));
    return state;
}

/* Removes a journal from the working folder, if there is one. */
static inline void remove_journal(void) {
    bool there = true;
    (void)unlink("machine.toml");
    for (uint32_t piece = 0; there; piece++) {
        char script[32], replies[32];
        (void)snprintf(script, sizeof script, "%08u.script", piece);
        (void)snprintf(replies, sizeof replies, "%08u.replies", piece);
        there = unlink(script) == 0;
        there = unlink(replies) == 0 || there;
    }
}

/* a small generator of numbers, for each thread its own */
static inline uint32_t next_random(uint64_t *state) {
    *state = *state * 6364136223846793005u + 1442695040888963407u;
    return (uint32_t)(*state >> 33);
}

/* The threads that believe that they are on each core: there must never be two at a time. */
static VOLDAZPE_ATOMIC(uintptr_t) believed[1024];
static VOLDAZPE_ATOMIC(uint32_t) believers, most_believers;

static inline void believe(int core, const void *who) {
    uintptr_t nobody = 0;
    CHECK(core >= 0);
    CHECK(atomic_compare_exchange_strong(&believed[core], &nobody, (uintptr_t)who));
    uint32_t now = atomic_fetch_add(&believers, 1) + 1;
    if (now > VOLDAZPE_LOAD(&most_believers)) VOLDAZPE_STORE(&most_believers, now);
}

static inline void believe_no_more(int core, const void *who) {
    CHECK(core >= 0);
    atomic_fetch_sub(&believers, 1);
    CHECK(atomic_exchange(&believed[core], 0) == (uintptr_t)who);
}

#endif
