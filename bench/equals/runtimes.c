/* Two runtimes of user threads. Their kernel threads look for work before they sleep.
 *
 *     runtimes -w WAY -l MICROSECONDS [-s SECONDS] [-n STEPS] [-c CAPACITY] [-r SEED]
 *
 * Each runtime has one kernel thread per processor and one queue of user threads. Requests come at random moments and use 35
 * percent of all processors for each runtime. A request is a user thread of some 25 us that starts four more of the same length.
 * It ends with the last of them. A kernel thread that finds no user thread keeps looking for MICROSECONDS. Then it sleeps, or in
 * a house lowers what its runtime wants by one core.
 *
 * In a house each runtime wants one core per user thread that is ready or running. Both are at one level. */
#define _GNU_SOURCE
#include "beside_threads.h"
#include "equals.h"

enum { EQUALS = 2, FORKS = 4, ROOM = 1 << 15, WARM = 100000000 };

/* A queue of user threads for many producers and consumers. A slot's `turn` says which of them may use it next. One that is
 * preempted within its slot holds up those behind it, at SCHED_RR for a tenth of a second or more: there is room for that. */
typedef struct run_queue {
    _Alignas(64) _Atomic(uint64_t) put;
    _Alignas(64) _Atomic(uint64_t) got;
    struct { _Atomic(uint64_t) turn; uint32_t request; } slots[ROOM];
} run_queue_t;

static service_t runtimes[EQUALS];
static run_queue_t queues[EQUALS];
static _Atomic(uint32_t) unfinished[EQUALS][TASKS]; /* user threads of a request */

static void begin(run_queue_t *queue) {
    for (uint64_t i = 0; i < ROOM; i++) queue->slots[i].turn = i;
}

static void put(run_queue_t *queue, uint32_t request) {
    uint64_t place = atomic_fetch_add(&queue->put, 1);
    CHECK(queue->slots[place % ROOM].turn == place); /* the queue is full */
    queue->slots[place % ROOM].request = request;
    queue->slots[place % ROOM].turn = place + 1;
}

static bool get(run_queue_t *queue, uint32_t *request) {
    uint64_t place = queue->got;
    do {
        if (queue->slots[place % ROOM].turn != place + 1) return false;
    } while (!atomic_compare_exchange_weak(&queue->got, &place, place + 1));
    *request = queue->slots[place % ROOM].request;
    queue->slots[place % ROOM].turn = place + ROOM;
    return true;
}

/* Runs a request's first user thread, which starts the others. */
static void fork_others(worker_t *me, uint32_t request) {
    service_t *runtime = me->service;
    run_steps(me, steps / 2);
    unfinished[me->application][request] = FORKS;
    runtime->more += FORKS - 1;
    runtime->forked += FORKS;
    for (int i = 0; i < FORKS; i++) put(&queues[me->application], request);
    if (house) ask_for_more(runtime);
    else ring(runtime, FORKS - 1);
}

/* Runs a user thread, if there is one. */
static bool serve_user_thread(worker_t *me) {
    service_t *runtime = me->service;
    uint32_t request;
    if (get(&queues[me->application], &request)) {
        runtime->forked--;
        run_steps(me, steps / 2);
        if (--unfinished[me->application][request] > 0) runtime->more--;
        else end_task(runtime, request);
        return true;
    }
    if (!take(runtime, &request)) return false;
    fork_others(me, request);
    return true;
}

static void start(const way_t *way, uint32_t number) {
    worker_t it = {.application = number, .service = &runtimes[number], .serve = serve_user_thread, .policy = way->policy};
    cpu_set_t where = way->house ? processors : part_of(way, number, EQUALS);
    uint32_t threads = way->house ? cores : (uint32_t)CPU_COUNT(&where);
    if (way->house) {
        CHECK(voldazpe_house_join(house, "runtime", &it.in_house) == VOLDAZPE_OK);
        runtimes[number].application = it.in_house;
    }
    for (uint32_t i = 0; i < threads && i < VOLDAZPE_THREADS; i++) start_one(way->house ? serves : serves_anywhere, &it, &where);
}

int main(int count, char **words) {
    options_t options = options_of(count, words, " house house-all none parts fifo rr alone ", " 10 100 1000 ");
    const way_t *way = options.way;
    const uint32_t equals = way->who == FIRST ? 1 : EQUALS;
    const uint64_t length = (uint64_t)(options.seconds * 1e9);
    const double rate = 0.35 * options.capacity / ((1 + FORKS) / 2.0); /* requests a second */
    equal_t told[EQUALS];
    outcome_t outcome = {.urgent = false};
    uint32_t all = 0, left = 0;
    steps = options.steps;
    linger = strtoull(options.load, NULL, 10) * 1000;
    if (way->house) house = house_of(way->all);
    cores = (uint32_t)CPU_COUNT(way->house && !way->all ? &managed : &processors);
    for (uint32_t i = 0; i < equals; i++) {
        begin(&queues[i]);
        runtimes[i].count = plan_poisson(runtimes[i].planned, TASKS, length, 1e9 / rate, options.seed * EQUALS + i);
        start(way, i);
    }
    if (way->house && !way->all) CHECK(sched_setaffinity(0, sizeof unmanaged, &unmanaged) == 0);
    outcome.urgent = be_urgent();
    began_at = now() + WARM;
    sleep_until(began_at);
    outcome.from = use_now(&processors);
    bring(runtimes, equals);
    sleep_until(began_at + length);
    outcome.to = use_now(&processors);
    for (uint32_t i = 0; i < equals; i++) {
        told[i] = (equal_t){runtimes[i].took, runtimes[i].count, runtimes[i].ended / options.seconds};
        all += runtimes[i].count;
        left += runtimes[i].count - runtimes[i].ended;
    }
    end_all(runtimes, equals);
    outcome.through = (double)(now() - began_at) / 1e9;
    outcome.left = all ? 100.0 * left / all : 0;
    tell(&options, told, equals, &outcome);
    return 0;
}
