/* The threads of programs like beside.c: those of services, whose tasks come at planned moments, and those of a batch
 * job, which always has tasks. What they do with a house is in `serves` and `goes_on`. `ask_for_more` and
 * `ask_for_less` say what a service wants. The rest is a service's queue, and how its threads sleep without a house.
 * For one C file that defines _GNU_SOURCE. */
#ifndef BESIDE_THREADS_H
#define BESIDE_THREADS_H

#include "beside_measure.h"
#include "beside_processors.h"

#include <linux/futex.h>
#include <limits.h>
#include <pthread.h>
#include <stdatomic.h>

enum {
    PIECES = 10,     /* of a task, in all ways; with a house the batch job's threads look between two of them */
    TASKS = 1 << 20, /* the most tasks of a run */
    WORKERS = 8 * VOLDAZPE_THREADS,
    DRAIN = 20       /* seconds that the last tasks may take, or the run fails */
};

/* A service: its queue, from which tasks are taken in order, and what it wants from a house. */
typedef struct service {
    _Alignas(64) _Atomic(uint32_t) brought;  /* how many have come */
    _Alignas(64) _Atomic(uint32_t) taken;
    _Alignas(64) _Atomic(uint32_t) ended;
    _Alignas(64) _Atomic(uint32_t) forked;   /* user threads that tasks have begun and no thread has taken, if any */
    _Atomic(int32_t) more;                   /* how many more threads may work than there are tasks */
    _Alignas(64) _Atomic(uint32_t) bell;     /* grows when tasks came, and at the end */
    _Alignas(64) _Atomic(uint32_t) sleepers; /* threads that sleep on it, without a house */
    _Alignas(64) voldazpe_house_application_t application;
    pthread_mutex_t want_lock;
    _Atomic(uint32_t) wanted;                /* cores; written under the lock */
    uint32_t count;                          /* tasks that are to come */
    uint64_t planned[TASKS];                 /* when each of them is to come */
    uint64_t took[TASKS];                    /* how long it took from that moment to its end */
} service_t;

typedef struct worker {
    _Alignas(64) _Atomic(uint64_t) done;      /* tasks that this thread ended */
    _Atomic(uint64_t) moved;                  /* pieces that it began where another application's ran last */
    uint32_t application;                     /* its number */
    service_t *service;                       /* the service whose thread it is; null: it is the batch job's */
    bool (*serve)(struct worker *);           /* takes some work of the service and does it; false if there is none */
    void (*rest)(struct worker *);            /* what it does before it sleeps without a house's wait, if anything */
    voldazpe_house_application_t in_house;
    int policy, nice;
    pthread_t id;
} worker_t;

static worker_t workers[WORKERS];
static uint32_t worker_count;
static uint64_t steps;                        /* of a task */
static uint64_t linger = 10000;               /* nanoseconds that a service's threads look for work */
static uint64_t began_at;                     /* the moment from which the planned ones count */
static _Atomic(bool) ending;
static voldazpe_house_t *house;
static uint32_t cores;                        /* of the house */
/* the application whose piece a processor began last, plus 1 */
static struct { _Alignas(64) _Atomic(int) last; } ran[CPU_SETSIZE];

/* ---- tasks */

/* Adds one to a number that only one thread writes. */
static inline void add_one(_Atomic(uint64_t) *number) {
    atomic_store_explicit(number, atomic_load_explicit(number, memory_order_relaxed) + 1, memory_order_relaxed);
}

/* Runs some steps of a task. Before that, notes the processor on which they begin. */
static inline void run_steps(worker_t *me, uint64_t count) {
    int processor = sched_getcpu(), mine = (int)me->application + 1;
    if (processor >= 0 && processor < CPU_SETSIZE && ran[processor].last != mine &&
        atomic_exchange(&ran[processor].last, mine) != 0) add_one(&me->moved);
    work(count);
}

static inline void run_a_piece(worker_t *me) { run_steps(me, steps / PIECES); }

static inline void run_a_task(worker_t *me) {
    for (int piece = 0; piece < PIECES; piece++) run_a_piece(me);
    add_one(&me->done);
}

/* Takes a service's task. False if there is none. */
static inline bool take(service_t *service, uint32_t *task) {
    *task = service->taken;
    do {
        if (*task >= service->brought) return false;
    } while (!atomic_compare_exchange_weak(&service->taken, task, *task + 1));
    return true;
}

/* Notes how long a finished task took. */
static inline void end_task(service_t *service, uint32_t task) {
    service->took[task] = now() - began_at - service->planned[task];
    service->ended++;
}

/* Takes a task of the service, runs it and notes its time. False if there is none. */
static inline bool serve(worker_t *me) {
    uint32_t task;
    if (!take(me->service, &task)) return false;
    run_a_task(me);
    end_task(me->service, task);
    return true;
}

static inline void pause_briefly(void) {
#if defined(__x86_64__)
    __builtin_ia32_pause();
#endif
}

/* ---- with a house */

/* As many cores as there are tasks, but no more than there are cores. */
static inline uint32_t useful(service_t *service) {
    uint32_t through = service->ended; /* read first, so that no more tasks have ended than were brought */
    int64_t tasks = (int64_t)service->brought - through + service->more;
    return tasks < 0 ? 0 : tasks < cores ? (uint32_t)tasks : cores;
}

/* Sets how many cores the service wants at level 0. The batch job, at level 1, has what is left. */
static inline void want(service_t *service, uint32_t count) {
    service->wanted = count;
    voldazpe_house_code_t code = voldazpe_house_want(house, service->application, 0, count);
    CHECK(code == VOLDAZPE_OK || code == VOLDAZPE_HOUSE_CLOSED); /* closed: the run is over */
}

/* Called after tasks came. Mostly there are cores enough already, and three loads say so. */
static inline void ask_for_more(service_t *service) {
    if (useful(service) <= service->wanted) return;
    pthread_mutex_lock(&service->want_lock);
    if (useful(service) > service->wanted) want(service, useful(service));
    pthread_mutex_unlock(&service->want_lock);
}

/* Called when a thread of the service has found no work for a while. Wants one core less, unless tasks have come. The
 * thread that brings a task counts it before it looks at `wanted`; here `wanted` falls before the tasks are counted. So
 * one of the two sees what the other did. */
static inline void ask_for_less(service_t *service) {
    pthread_mutex_lock(&service->want_lock);
    uint32_t before = service->wanted;
    if (before > 0) {
        service->wanted = before - 1;
        if (useful(service) >= before) service->wanted = before;
        else want(service, before - 1);
    }
    pthread_mutex_unlock(&service->want_lock);
}

/* A thread of a service. If it asks for less, the core that is asked back may be another thread's. */
static inline void *serves(void *argument) {
    worker_t *me = argument;
    voldazpe_house_thread_t *thread;
    CHECK(voldazpe_house_register(house, me->in_house, &thread) == VOLDAZPE_OK);
    while (voldazpe_house_wait(thread, -1) == VOLDAZPE_OK) {
        uint64_t since = now();
        while (voldazpe_house_keep(thread)) {
            if (me->serve(me)) {
                since = now();
            } else if (now() - since > linger) {
                ask_for_less(me->service);
                since = now();
            } else {
                pause_briefly();
            }
        }
    }
    voldazpe_house_leave(thread);
    return NULL;
}

/* A thread of the batch job. It checks ten times in a task whether it may keep its core. If it may not, it goes on with
 * that task later. */
static inline void *goes_on(void *argument) {
    worker_t *me = argument;
    voldazpe_house_thread_t *thread;
    CHECK(voldazpe_house_register(house, me->in_house, &thread) == VOLDAZPE_OK);
    for (uint32_t piece = 0; voldazpe_house_wait(thread, -1) == VOLDAZPE_OK;) {
        for (; voldazpe_house_keep(thread); piece = (piece + 1) % PIECES) {
            run_a_piece(me);
            if (piece == PIECES - 1) add_one(&me->done);
        }
    }
    voldazpe_house_leave(thread);
    return NULL;
}

/* ---- without a house */

/* Sleeps until tasks come. It reads the bell's number before it looks for tasks. */
static inline void sleep_for_work(service_t *service) {
    uint32_t seen = service->bell;
    service->sleepers++;
    if (service->taken >= service->brought && service->forked == 0 && !ending) {
        (void)syscall(SYS_futex, &service->bell, FUTEX_WAIT_PRIVATE, seen, NULL, NULL, 0);
    }
    service->sleepers--;
}

static inline void ring(service_t *service, uint32_t count) {
    service->bell++;
    if (service->sleepers > 0) (void)syscall(SYS_futex, &service->bell, FUTEX_WAKE_PRIVATE, count, NULL, NULL, 0);
}

static inline void *serves_anywhere(void *argument) {
    worker_t *me = argument;
    uint64_t since = now();
    CHECK(be_at(me->policy, me->nice));
    while (!ending) {
        if (me->serve(me)) {
            since = now();
        } else if (now() - since > linger) {
            if (me->rest) me->rest(me);
            sleep_for_work(me->service);
            since = now();
        } else {
            pause_briefly();
        }
    }
    return NULL;
}

static inline void *goes_on_anywhere(void *argument) {
    worker_t *me = argument;
    CHECK(be_at(me->policy, me->nice));
    while (!ending) run_a_task(me);
    return NULL;
}

/* ---- a run */

/* Starts a thread that may run on some processors. */
static inline void start_one(void *(*life)(void *), const worker_t *it, const cpu_set_t *where) {
    pthread_attr_t attributes;
    CHECK(worker_count < WORKERS);
    workers[worker_count] = *it;
    CHECK(pthread_attr_init(&attributes) == 0);
    CHECK(pthread_attr_setaffinity_np(&attributes, sizeof *where, where) == 0);
    CHECK(pthread_create(&workers[worker_count].id, &attributes, life, &workers[worker_count]) == 0);
    CHECK(pthread_attr_destroy(&attributes) == 0);
    worker_count++;
}

/* Brings the tasks of some services at their moments, and sleeps between them. */
static inline void bring(service_t *services, uint32_t count) {
    for (uint64_t next = 0; next != UINT64_MAX;) {
        uint64_t moment = now() - began_at;
        next = UINT64_MAX;
        for (service_t *it = services; it < services + count; it++) {
            uint32_t before = it->brought, upto = before;
            while (upto < it->count && it->planned[upto] <= moment) upto++;
            if (upto > before) {
                it->brought = upto;
                if (house) ask_for_more(it);
                else ring(it, upto - before);
            }
            if (upto < it->count && it->planned[upto] < next) next = it->planned[upto];
        }
        if (next != UINT64_MAX) sleep_until(began_at + next);
    }
}

/* Waits until all tasks of some services are done, and ends all threads. */
static inline void end_all(service_t *services, uint32_t count) {
    uint64_t limit = now() + DRAIN * UINT64_C(1000000000);
    for (uint32_t i = 0; i < count; i++) {
        while (services[i].ended < services[i].count) {
            CHECK(now() < limit); /* a task was lost */
            sleep_until(now() + 1000000);
        }
    }
    ending = true;
    for (uint32_t i = 0; i < count; i++) ring(&services[i], INT_MAX);
    if (house) CHECK(voldazpe_house_close(house) == VOLDAZPE_OK);
    for (uint32_t i = 0; i < worker_count; i++) CHECK(pthread_join(workers[i].id, NULL) == 0);
    house = NULL;
}

#endif
