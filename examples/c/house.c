/* Two applications share this machine's cores in a house: a service, which gets its bursts of work first, and a
 * batch job, which takes what is left. Each has two threads. What they do with a core is counting here.
 *
 *     cc -std=c11 -O2 house.c $(pkg-config --cflags --libs voldazpe-house) -o house && ./house */
#include <voldazpe_house.h>

#include <pthread.h>
#include <stdio.h>
#include <stdlib.h>
#include <threads.h>
#include <time.h>

enum { SERVICE, BATCH, APPLICATIONS, THREADS = 2, BURSTS = 20 };

static voldazpe_house_t *house;
static voldazpe_house_application_t applications[APPLICATIONS];
static _Atomic(unsigned long) tasks[APPLICATIONS], turns[APPLICATIONS];

static void check(voldazpe_house_code_t code, const char *what) {
    if (code == VOLDAZPE_OK) return;
    fprintf(stderr, "house: %s: %s\n", what, voldazpe_house_code_text(code));
    exit(1);
}

static void run_a_task(int which) {
    for (volatile int i = 0; i < 2000; i++) {}
    tasks[which]++;
}

/* A thread of an application: waits for a core, works there while it may, and gives it back by waiting for another. */
static void *works(void *number) {
    int which = (int)(intptr_t)number;
    voldazpe_house_thread_t *me;
    check(voldazpe_house_register(house, applications[which], &me), "register");
    while (voldazpe_house_wait(me, -1) == VOLDAZPE_OK) {
        turns[which]++;
        while (voldazpe_house_keep(me)) run_a_task(which);
    }
    check(voldazpe_house_leave(me), "leave"); /* the house is closed */
    return NULL;
}

static void pause_for(long milliseconds) {
    thrd_sleep(&(struct timespec){milliseconds / 1000, milliseconds % 1000 * 1000000}, NULL);
}

int main(void) {
    static const char *const names[] = {"service", "batch"};
    pthread_t threads[APPLICATIONS * THREADS];
    check(voldazpe_house_open(NULL, 0, NULL, &house), "open");
    for (int i = 0; i < APPLICATIONS; i++) check(voldazpe_house_join(house, names[i], &applications[i]), "join");
    for (int i = 0; i < APPLICATIONS * THREADS; i++) {
        if (pthread_create(&threads[i], NULL, works, (void *)(intptr_t)(i / THREADS)) != 0) return 1;
    }
    check(voldazpe_house_want(house, applications[BATCH], 1, THREADS), "want"); /* level 1: what level 0 leaves */
    for (int burst = 0; burst < BURSTS; burst++) {
        check(voldazpe_house_want(house, applications[SERVICE], 0, THREADS), "want"); /* some work has come */
        pause_for(10);
        check(voldazpe_house_want(house, applications[SERVICE], 0, 0), "want"); /* it is done */
        pause_for(10);
    }
    check(voldazpe_house_close(house), "close");
    for (int i = 0; i < APPLICATIONS * THREADS; i++) pthread_join(threads[i], NULL);
    for (int i = 0; i < APPLICATIONS; i++) {
        printf("%s: %lu tasks, a core %lu times\n", names[i], (unsigned long)tasks[i], (unsigned long)turns[i]);
    }
    return tasks[SERVICE] == 0 || tasks[BATCH] == 0;
}
