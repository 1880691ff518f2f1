/* Times the house and, for comparison, what it is built on:
 *   - a reading of `keep`, and a bare load;
 *   - an order through the house, and the same order by voldazpe_give;
 *   - orders of sixteen threads at once, and the same under a lock around voldazpe_give: once wants, once waits and
 *     cores given back;
 *   - a thread that wakes with a core, counted from the order that gives the core, and a thread that a bare futex
 *     wakes;
 *   - a core that goes from one thread to another.
 * Each is a line `name value unit`: the least and the median of nine runs, or percentiles of single times. speed
 * [TIMES]: how many single times */
#include "check.h"

#include <limits.h>
#include <linux/futex.h>
#include <sys/syscall.h>

enum { RUNS = 9, ORDERS = 200000, LOADS = 20000000, CONTENDERS = 16, MOST_TIMES = 100000 };

static int compare(const void *left, const void *right) {
    double a = *(const double *)left, b = *(const double *)right;
    return (a > b) - (a < b);
}

static void print_runs(const char *name, double *runs, const char *unit) {
    qsort(runs, RUNS, sizeof *runs, compare);
    printf("%s.least %.2f %s\n%s.median %.2f %s\n", name, runs[0], unit, name, runs[RUNS / 2], unit);
}

static void print_times(const char *name, double *times, uint32_t count) {
    qsort(times, count, sizeof *times, compare);
    printf("%s.median %.1f us\n%s.p90 %.1f us\n%s.p99 %.1f us\n", name, times[count / 2] / 1000, name,
           times[count * 9 / 10] / 1000, name, times[(size_t)count * 99 / 100] / 1000);
}

static const char four[] = "[[socket]]\nmanaged = [1, 2, 3, 4]\nunmanaged = [0]\n";

/* ---- readings ---- */

static void readings(void) {
    double keeps[RUNS], loads[RUNS];
    voldazpe_house_t *house = open_text(four, NULL);
    voldazpe_house_application_t application;
    voldazpe_house_thread_t *me;
    VOLDAZPE_ATOMIC(int32_t) bare = 1;
    uint32_t kept = 0;
    OK(voldazpe_house_join(house, "reads", &application));
    OK(voldazpe_house_want(house, application, 0, 1));
    OK(voldazpe_house_register(house, application, &me));
    OK(voldazpe_house_wait(me, -1));
    for (int run = 0; run < RUNS; run++) {
        int64_t began = nanoseconds_now();
        for (int i = 0; i < LOADS; i++) kept += voldazpe_house_keep(me);
        keeps[run] = (double)(nanoseconds_now() - began) / LOADS;
        began = nanoseconds_now();
        for (int i = 0; i < LOADS; i++) kept += VOLDAZPE_LOAD(&bare) >= 0;
        loads[run] = (double)(nanoseconds_now() - began) / LOADS;
    }
    CHECK(kept == 2u * RUNS * LOADS);
    OK(voldazpe_house_leave(me));
    OK(voldazpe_house_close(house));
    print_runs("keep", keeps, "ns");
    print_runs("bare_load", loads, "ns");
}

/* ---- orders, one after another ---- */

static voldazpe_arbiter_t arbiter;
static voldazpe_page_t page;

static void give(uint32_t client, voldazpe_order_t order) {
    voldazpe_reply_t reply;
    CHECK(voldazpe_give(&arbiter, &page, client, order, &reply) == VOLDAZPE_OK);
}

static void orders(void) {
    double wants[RUNS], bare_wants[RUNS], turns[RUNS], bare_turns[RUNS];
    voldazpe_house_t *house = open_text(four, NULL);
    voldazpe_house_application_t application, other;
    voldazpe_house_thread_t *me;
    OK(voldazpe_house_join(house, "asks", &application));
    OK(voldazpe_house_join(house, "works", &other));
    OK(voldazpe_house_register(house, other, &me));
    OK(voldazpe_house_want(house, other, 0, 1));
    for (int run = 0; run < RUNS; run++) {
        CHECK(voldazpe_open(&arbiter, four, strlen(four), NULL) == VOLDAZPE_OK);
        give(0, voldazpe_join());
        give(32, voldazpe_join());
        give(32, voldazpe_ask(0, 1));
        int64_t began = nanoseconds_now();
        for (uint32_t i = 0; i < ORDERS; i++) OK(voldazpe_house_want(house, application, 0, i % 2));
        wants[run] = (double)(nanoseconds_now() - began) / ORDERS;
        began = nanoseconds_now();
        for (uint32_t i = 0; i < ORDERS; i++) give(0, voldazpe_ask(0, i % 2));
        bare_wants[run] = (double)(nanoseconds_now() - began) / ORDERS;
        began = nanoseconds_now();
        for (uint32_t i = 0; i < ORDERS / 2; i++) {
            OK(voldazpe_house_wait(me, -1));
            OK(voldazpe_house_give_back(me));
        }
        turns[run] = (double)(nanoseconds_now() - began) / ORDERS;
        began = nanoseconds_now();
        for (uint32_t i = 0; i < ORDERS / 2; i++) {
            give(32, voldazpe_block());
            give(32, voldazpe_retire());
        }
        bare_turns[run] = (double)(nanoseconds_now() - began) / ORDERS;
        CHECK(voldazpe_close(&arbiter) == VOLDAZPE_OK);
        voldazpe_page_clear(&page);
    }
    OK(voldazpe_house_leave(me));
    OK(voldazpe_house_close(house));
    print_runs("order.want", wants, "ns");
    print_runs("order.want_by_give", bare_wants, "ns");
    print_runs("order.wait_or_give_back", turns, "ns");
    print_runs("order.block_or_retire_by_give", bare_turns, "ns");
}

/* ---- orders of sixteen threads ---- */

static const char many[] = "[[socket]]\nmanaged = [1, 2, 3, 4, 5, 6, 7, 8, 9, 10, 11, 12, 13, 14, 15, 16]\n"
                           "unmanaged = [0]\n";

static voldazpe_house_t *contended;
static voldazpe_house_application_t applications[CONTENDERS];
static pthread_barrier_t start_line;
static pthread_mutex_t lock = PTHREAD_MUTEX_INITIALIZER;

static void *contends(void *number) {
    voldazpe_house_application_t mine = applications[(uintptr_t)number];
    pthread_barrier_wait(&start_line);
    for (uint32_t i = 0; i < ORDERS / 2; i++) OK(voldazpe_house_want(contended, mine, 0, i % 2));
    return NULL;
}

/* each has a core of its own, which is free */
static void *takes_turns(void *number) {
    voldazpe_house_thread_t *me;
    OK(voldazpe_house_register(contended, applications[(uintptr_t)number], &me));
    pthread_barrier_wait(&start_line);
    for (uint32_t i = 0; i < ORDERS / 16; i++) {
        OK(voldazpe_house_wait(me, -1));
        OK(voldazpe_house_give_back(me));
    }
    OK(voldazpe_house_leave(me));
    return NULL;
}

static void give_under_lock(uint32_t client, voldazpe_order_t order) {
    CHECK(pthread_mutex_lock(&lock) == 0);
    give(client, order);
    CHECK(pthread_mutex_unlock(&lock) == 0);
}

static void *contends_bare(void *number) {
    uint32_t client = voldazpe_client((uint32_t)(uintptr_t)number, 0);
    pthread_barrier_wait(&start_line);
    for (uint32_t i = 0; i < ORDERS / 8; i++) give_under_lock(client, voldazpe_ask(0, i % 2));
    return NULL;
}

static void *takes_turns_bare(void *number) {
    uint32_t client = voldazpe_client((uint32_t)(uintptr_t)number, 0);
    pthread_barrier_wait(&start_line);
    for (uint32_t i = 0; i < ORDERS / 8; i++) give_under_lock(client, i % 2 ? voldazpe_retire() : voldazpe_block());
    return NULL;
}

static double all_at_once(void *(*function)(void *), uint32_t each) {
    pthread_t threads[CONTENDERS];
    CHECK(pthread_barrier_init(&start_line, NULL, CONTENDERS + 1) == 0);
    for (uintptr_t i = 0; i < CONTENDERS; i++) threads[i] = start_thread(function, (void *)i);
    pthread_barrier_wait(&start_line);
    int64_t began = nanoseconds_now();
    for (int i = 0; i < CONTENDERS; i++) join_thread(threads[i]);
    return (double)CONTENDERS * each * 1000 / (double)(nanoseconds_now() - began);
}

/* So many orders of each thread through the house, and ORDERS / 8 by voldazpe_give. */
static void contention(const char *name, const char *text, void *(*function)(void *), uint32_t each,
                       void *(*function_bare)(void *)) {
    double runs[RUNS], bare[RUNS];
    char by_give[64];
    contended = open_text(text, NULL);
    for (int i = 0; i < CONTENDERS; i++) OK(voldazpe_house_join(contended, "contends", &applications[i]));
    for (int run = 0; run < RUNS; run++) {
        for (int i = 0; i < CONTENDERS; i++) OK(voldazpe_house_want(contended, applications[i], 0, 1));
        runs[run] = all_at_once(function, each);
        CHECK(voldazpe_open(&arbiter, text, strlen(text), NULL) == VOLDAZPE_OK);
        for (uint32_t i = 0; i < CONTENDERS; i++) {
            give(voldazpe_client(i, 0), voldazpe_join());
            give(voldazpe_client(i, 0), voldazpe_ask(0, 1));
        }
        bare[run] = all_at_once(function_bare, ORDERS / 8);
        CHECK(voldazpe_close(&arbiter) == VOLDAZPE_OK);
        voldazpe_page_clear(&page);
    }
    OK(voldazpe_house_close(contended));
    print_runs(name, runs, "million/s");
    (void)snprintf(by_give, sizeof by_give, "%s_by_give", name);
    print_runs(by_give, bare, "million/s");
}

/* ---- waking ---- */

static double times[MOST_TIMES];
static VOLDAZPE_ATOMIC(int64_t) began, woke;
static VOLDAZPE_ATOMIC(uint32_t) word;
static voldazpe_house_t *house;
static voldazpe_house_application_t service, batch;
static uint32_t rounds;
static int woken_on;

/* the house: wakes with a core, until it is asked back */
static void *wakes(void *unused) {
    voldazpe_house_thread_t *me;
    OK(voldazpe_house_register(house, service, &me));
    for (uint32_t i = 0; i < rounds; i++) {
        OK(voldazpe_house_wait(me, -1));
        VOLDAZPE_STORE(&woke, nanoseconds_now());
        woken_on = voldazpe_house_core(me);
        while (voldazpe_house_keep(me)) {}
    }
    return unused;
}

/* a bare futex: sleeps until its word is another, on the same core */
static void *wakes_bare(void *unused) {
    cpu_set_t core;
    CPU_ZERO(&core);
    CPU_SET((size_t)woken_on, &core);
    (void)sched_setaffinity(0, sizeof core, &core);
    for (uint32_t i = 0; i < rounds; i++) {
        while (VOLDAZPE_LOAD(&word) == 2 * i) syscall(SYS_futex, &word, FUTEX_WAIT_PRIVATE, 2 * i, NULL, NULL, 0);
        VOLDAZPE_STORE(&woke, nanoseconds_now());
        while (VOLDAZPE_LOAD(&word) == 2 * i + 1) {}
    }
    return unused;
}

static void await_wake(uint32_t i) {
    while (VOLDAZPE_LOAD(&woke) == 0) {}
    times[i] = (double)(VOLDAZPE_LOAD(&woke) - VOLDAZPE_LOAD(&began));
    VOLDAZPE_STORE(&woke, 0);
}

static void waking(void) {
    OK(voldazpe_house_open(NULL, 0, NULL, &house));
    OK(voldazpe_house_join(house, "wakes", &service));
    pthread_t thread = start_thread(wakes, NULL);
    for (uint32_t i = 0; i < rounds; i++) {
        UNTIL(counts_of(house, service).waiting == 1);
        pause_for(100000); /* it sleeps */
        VOLDAZPE_STORE(&began, nanoseconds_now());
        OK(voldazpe_house_want(house, service, 0, 1));
        await_wake(i);
        OK(voldazpe_house_want(house, service, 0, 0));
    }
    join_thread(thread);
    OK(voldazpe_house_close(house));
    print_times("wake.house", times, rounds);
    thread = start_thread(wakes_bare, NULL);
    for (uint32_t i = 0; i < rounds; i++) {
        pause_for(150000);
        VOLDAZPE_STORE(&began, nanoseconds_now());
        VOLDAZPE_STORE(&word, 2 * i + 1);
        syscall(SYS_futex, &word, FUTEX_WAKE_PRIVATE, INT_MAX, NULL, NULL, 0);
        await_wake(i);
        VOLDAZPE_STORE(&word, 2 * i + 2);
    }
    join_thread(thread);
    print_times("wake.bare_futex", times, rounds);
}

/* ---- a core goes from one thread to another ---- */


static void *works_on(void *unused) {
    voldazpe_house_thread_t *me;
    OK(voldazpe_house_register(house, batch, &me));
    while (voldazpe_house_wait(me, -1) == VOLDAZPE_OK) {
        while (voldazpe_house_keep(me)) {}
    }
    return unused;
}

static void handing_over(void) {
    voldazpe_house_state_t state;
    OK(voldazpe_house_open(NULL, 0, NULL, &house));
    state = state_of(house);
    OK(voldazpe_house_join(house, "wakes", &service));
    OK(voldazpe_house_join(house, "works on", &batch));
    OK(voldazpe_house_want(house, batch, 1, state.managed));
    pthread_t workers[VOLDAZPE_THREADS], thread = start_thread(wakes, NULL);
    uint32_t count = state.managed < VOLDAZPE_THREADS ? state.managed : VOLDAZPE_THREADS;
    for (uint32_t i = 0; i < count; i++) workers[i] = start_thread(works_on, NULL);
    for (uint32_t i = 0; i < rounds; i++) {
        UNTIL(counts_of(house, service).waiting == 1 && counts_of(house, batch).owned == count);
        pause_for(100000);
        VOLDAZPE_STORE(&began, nanoseconds_now());
        OK(voldazpe_house_want(house, service, 0, 1));
        await_wake(i);
        OK(voldazpe_house_want(house, service, 0, 0));
    }
    join_thread(thread);
    OK(voldazpe_house_close(house));
    for (uint32_t i = 0; i < count; i++) join_thread(workers[i]);
    print_times("hand_over.house", times, rounds);
}

int main(int count, char **words) {
    cpu_set_t all;
    rounds = count > 1 ? (uint32_t)atoi(words[1]) : 2000;
    CHECK(rounds > 0 && rounds <= MOST_TIMES && sched_getaffinity(0, sizeof all, &all) == 0);
    readings();
    orders();
    contention("sixteen.orders", four, contends, ORDERS / 2, contends_bare);
    contention("sixteen.waits", many, takes_turns, ORDERS / 8, takes_turns_bare);
    if (CPU_COUNT(&all) < 2) {
        printf("speed: skipped: waking, which wants two processors\n");
        return 0;
    }
    waking();
    handing_over();
    return 0;
}
