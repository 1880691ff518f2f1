/* Threads that sleep on their own word are woken by posts, by a leave, by clearing the page, and by the close that
 * clears it; a limit ends a wait. Ticks whose moment is read under the lock are never refused. Compiled as C and as
 * C++. */
#ifndef _POSIX_C_SOURCE
#define _POSIX_C_SOURCE 200809L
#endif
#include "voldazpe.h"

#include <errno.h>
#include <pthread.h>
#include <stdio.h>
#include <stdlib.h>
#include <string.h>
#include <time.h>

#define CHECK(holds)                                                        \
    do {                                                                    \
        if (!(holds)) {                                                     \
            fprintf(stderr, "%s:%d: %s\n", __FILE__, __LINE__, #holds);     \
            exit(1);                                                        \
        }                                                                   \
    } while (0)

enum { THREADS = 4, ROUNDS = 2000 };

static voldazpe_arbiter_t arbiter;
static voldazpe_page_t page;
static pthread_mutex_t lock = PTHREAD_MUTEX_INITIALIZER;
static VOLDAZPE_ATOMIC(uint32_t) on_core; /* the thread that has the one core, plus one */

static voldazpe_reply_t give(uint32_t client, voldazpe_order_t order) {
    voldazpe_reply_t reply;
    CHECK(pthread_mutex_lock(&lock) == 0);
    CHECK(voldazpe_give(&arbiter, &page, client, order, &reply) == VOLDAZPE_OK);
    CHECK(pthread_mutex_unlock(&lock) == 0);
    return reply;
}

/* hands the one core round and round: a lost wake-up would leave all of them asleep */
static void *passes_it_on(void *argument) {
    uint32_t me = (uint32_t)(uintptr_t)argument;
    for (int round = 0; round < ROUNDS; round++) {
        uint32_t nobody = 0;
        give(me, voldazpe_block());
        CHECK(voldazpe_wait(&page, me, -1) == VOLDAZPE_OK);
        CHECK(voldazpe_position(&page, me) == 0);
        CHECK(atomic_compare_exchange_strong(&on_core, &nobody, me + 1));
        CHECK(atomic_exchange(&on_core, 0u) == me + 1);
        give(me, voldazpe_retire());
    }
    return NULL;
}

/* waits, and tells the place word that it woke up with */
static void *waits(void *argument) {
    uint32_t me = (uint32_t)(uintptr_t)argument;
    CHECK(voldazpe_wait(&page, me, -1) == VOLDAZPE_OK);
    return (void *)(uintptr_t)voldazpe_place_word(&page, me);
}

/* a thread that sleeps until `wake` was called */
static uint64_t woken_by(uint32_t client, void (*wake)(void)) {
    pthread_t thread;
    void *word;
    CHECK(pthread_create(&thread, NULL, waits, (void *)(uintptr_t)client) == 0);
    while (VOLDAZPE_LOAD(&page.sleepers[client]) == 0) {}
    wake();
    CHECK(pthread_join(thread, &word) == 0);
    return (uint64_t)(uintptr_t)word;
}

static VOLDAZPE_ATOMIC(bool) over; /* whether that thread has waited */

/* waits for 300 ms */
static void *waits_shortly(void *argument) {
    voldazpe_code_t code = voldazpe_wait(&page, (uint32_t)(uintptr_t)argument, 300000000);
    VOLDAZPE_STORE(&over, true);
    return (void *)(uintptr_t)code;
}

/* what a wait answers whose word changes while it sleeps, where nothing wakes it */
static voldazpe_code_t unwoken(uint32_t client) {
    const struct timespec pause = {0, 20000000};
    pthread_t thread;
    void *code;
    VOLDAZPE_STORE(&page.words[VOLDAZPE_FIRST_PLACE + client], (uint64_t)VOLDAZPE_WAITING);
    VOLDAZPE_STORE(&over, false);
    CHECK(pthread_create(&thread, NULL, waits_shortly, (void *)(uintptr_t)client) == 0);
    while (VOLDAZPE_LOAD(&page.sleepers[client]) == 0 && !VOLDAZPE_LOAD(&over)) {}
    nanosleep(&pause, NULL);
    VOLDAZPE_STORE(&page.words[VOLDAZPE_FIRST_PLACE + client], (uint64_t)VOLDAZPE_MOVED_AWAY);
    CHECK(pthread_join(thread, &code) == 0);
    return (voldazpe_code_t)(uintptr_t)code;
}

static void leave(void) { give(0, voldazpe_leave()); }

static void clear(void) { voldazpe_page_clear(&page); }

static void closes(void) {
    CHECK(pthread_mutex_lock(&lock) == 0);
    CHECK(voldazpe_close_and_clear(&arbiter, &page) == VOLDAZPE_OK);
    CHECK(pthread_mutex_unlock(&lock) == 0);
}

static uint64_t microseconds(void) {
    struct timespec moment;
    CHECK(clock_gettime(CLOCK_MONOTONIC, &moment) == 0);
    return (uint64_t)moment.tv_sec * 1000000 + (uint64_t)moment.tv_nsec / 1000;
}

/* ticks beside another thread's, each with a moment that is read in the hold of the lock */
static void *ticks(void *unused) {
    voldazpe_reply_t reply;
    for (int round = 0; round < ROUNDS; round++) {
        CHECK(pthread_mutex_lock(&lock) == 0);
        CHECK(voldazpe_give(&arbiter, &page, VOLDAZPE_CLOCK, voldazpe_tick(microseconds()), &reply) == VOLDAZPE_OK);
        CHECK(reply.kind == VOLDAZPE_MOVED);
        CHECK(pthread_mutex_unlock(&lock) == 0);
    }
    return unused;
}

/* one that read its moment before, and then waited for the lock while another thread ticked */
static void ticks_late(void) {
    const struct timespec pause = {0, 2000};
    uint64_t before = microseconds();
    nanosleep(&pause, NULL);
    CHECK(give(VOLDAZPE_CLOCK, voldazpe_tick(microseconds())).kind == VOLDAZPE_MOVED);
    CHECK(give(VOLDAZPE_CLOCK, voldazpe_tick(before)).refusal == VOLDAZPE_CLOCK_BACK);
}

int main(void) {
    static const char text[] = "[[socket]]\nmanaged = [1]\nunmanaged = [0]\n";
    pthread_t threads[THREADS];
    CHECK(voldazpe_open(&arbiter, text, strlen(text), NULL) == VOLDAZPE_OK);
    give(0, voldazpe_join());
    give(0, voldazpe_ask(0, 1));
    for (uintptr_t i = 0; i < THREADS; i++) CHECK(pthread_create(&threads[i], NULL, passes_it_on, (void *)i) == 0);
    for (int i = 0; i < THREADS; i++) CHECK(pthread_join(threads[i], NULL) == 0);

    CHECK(give(0, voldazpe_block()).place.kind == VOLDAZPE_ON);
    CHECK(voldazpe_wait(&page, 0, -1) == VOLDAZPE_OK);  /* on a core already */
    CHECK(voldazpe_wait(&page, 30, -1) == VOLDAZPE_OK); /* unmanaged: nothing to wait for */
    CHECK(give(1, voldazpe_block()).place.kind == VOLDAZPE_WAITING);
    errno = 99;
    CHECK(voldazpe_wait(&page, 1, 0) == VOLDAZPE_TIMED_OUT);
    CHECK(voldazpe_wait(&page, 1, 3000000) == VOLDAZPE_TIMED_OUT);
    CHECK(errno == 99 && VOLDAZPE_LOAD(&page.sleepers[1]) == 0);
    CHECK(voldazpe_wait(&page, VOLDAZPE_CLOCK, 0) == VOLDAZPE_NO_CLIENT && voldazpe_wait(NULL, 0, 0) == VOLDAZPE_NULL);

    CHECK(woken_by(1, leave) == VOLDAZPE_UNMANAGED);
    give(0, voldazpe_join());
    CHECK(give(1, voldazpe_block()).place.kind == VOLDAZPE_WAITING);
    CHECK(woken_by(1, clear) == 0);
    CHECK(voldazpe_close(&arbiter) == VOLDAZPE_OK);

    CHECK(voldazpe_open(&arbiter, text, strlen(text), NULL) == VOLDAZPE_OK);
    for (uintptr_t i = 0; i < THREADS; i++) CHECK(pthread_create(&threads[i], NULL, ticks, NULL) == 0);
    for (int i = 0; i < THREADS; i++) CHECK(pthread_join(threads[i], NULL) == 0);
    ticks_late();
    give(0, voldazpe_join());
    CHECK(give(0, voldazpe_block()).place.kind == VOLDAZPE_WAITING);
    CHECK(woken_by(0, closes) == VOLDAZPE_UNMANAGED && voldazpe_entered(&page) == 0);

    /* at its limit it looks once more; tried again where this thread came too late itself */
    voldazpe_code_t code = VOLDAZPE_TIMED_OUT;
    for (int tries = 0; tries < 20 && code == VOLDAZPE_TIMED_OUT; tries++) code = unwoken(7);
    CHECK(code == VOLDAZPE_OK);
    printf("%d orders\n", 2 * THREADS * ROUNDS);
    return 0;
}
