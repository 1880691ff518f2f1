/* Two or three services of equal priority, and a batch job below them. Priorities can tell the batch job from the services, but
 * not one service from another.
 *
 *     services -w WAY -l SERVICES [-s SECONDS] [-n STEPS] [-c CAPACITY] [-r SEED]
 *
 * Each service has bursts at random moments: both bursts and pauses last 10 ms on average. During a burst its tasks come at
 * random moments and use half of all processors. So two services use 50 percent on average and three use 75, at times more than
 * 100. A task is STEPS steps, some 50 us.
 *
 * In a house the services are at level 0 and the batch job at level 1. Without one, the batch job runs at nice 19 (`nice`) or at
 * SCHED_IDLE (`idle`, `parts`), or all services run at SCHED_FIFO or SCHED_RR (`fifo`, `rr`). `alone` is one service and nothing
 * else, `job` the batch job. */
#define _GNU_SOURCE
#include "beside_threads.h"
#include "equals.h"

enum { MOST = 3, BURST = 10000000 /* nanoseconds of a burst in the mean */, WARM = 100000000 };

static service_t services[MOST];

/* A random time, with a mean of so many nanoseconds. */
static double random_time(unsigned short state[3], double mean) { return -mean * log(1 - erand48(state)); }

/* Plans a service's tasks: `rate` a second during bursts. Returns how many there are. */
static uint32_t plan_random_bursts(uint64_t *planned, double length, double rate, uint32_t seed) {
    /* in the order of srand48: with the seed in the low bits the first burst of all seeds would begin together */
    unsigned short state[3] = {0x330e, (unsigned short)seed, (unsigned short)(seed >> 16)};
    uint32_t count = 0;
    for (double begin = random_time(state, BURST); begin < length;) {
        double end = begin + random_time(state, BURST), moment = begin;
        while ((moment += random_time(state, 1e9 / rate)) < end && moment < length) {
            CHECK(count < TASKS);
            planned[count++] = (uint64_t)moment;
        }
        begin = end + random_time(state, BURST);
    }
    return count;
}

/* Starts an application's threads, one per processor that it has: a service's, or those of the batch job, the last number. */
static void start(const way_t *way, uint32_t number, uint32_t equals) {
    bool batch = number == equals;
    worker_t it = {.application = number, .policy = batch ? way->below : way->policy, .nice = batch ? way->nice : 0};
    cpu_set_t where = way->house || batch ? processors : part_of(way, number, equals);
    uint32_t threads = way->house ? cores : (uint32_t)CPU_COUNT(&where);
    if (!batch) {
        it.service = &services[number];
        it.serve = serve;
    }
    if (way->house) {
        CHECK(voldazpe_house_join(house, batch ? "batch job" : "service", &it.in_house) == VOLDAZPE_OK);
        if (batch) CHECK(voldazpe_house_want(house, it.in_house, 1, cores) == VOLDAZPE_OK);
        else services[number].application = it.in_house;
    }
    for (uint32_t thread = 0; thread < threads && thread < VOLDAZPE_THREADS; thread++) {
        start_one(batch ? (way->house ? goes_on : goes_on_anywhere) : (way->house ? serves : serves_anywhere), &it, &where);
    }
}

static uint64_t tasks_of_batch(void) {
    uint64_t sum = 0;
    for (uint32_t i = 0; i < worker_count; i++) sum += workers[i].service ? 0 : workers[i].done;
    return sum;
}

int main(int count, char **words) {
    options_t options = options_of(count, words, " house house-all none parts nice idle fifo rr alone job ", " 2 3 ");
    const way_t *way = options.way;
    uint32_t equals = (uint32_t)atoi(options.load), all = 0, left = 0;
    equal_t told[MOST];
    outcome_t outcome = {.urgent = false};
    const double length = options.seconds * 1e9;
    steps = options.steps - options.steps % PIECES;
    if (way->house) house = house_of(way->all);
    cores = (uint32_t)CPU_COUNT(way->house && !way->all ? &managed : &processors);
    for (uint32_t i = 0; i < equals; i++) {
        if (way->who == JOB || (way->who == FIRST && i > 0)) continue;
        services[i].count = plan_random_bursts(services[i].planned, length, options.capacity / 2, options.seed * MOST + i);
        start(way, i, equals);
    }
    if (way->who != FIRST) start(way, equals, equals);
    if (way->house && !way->all) CHECK(sched_setaffinity(0, sizeof unmanaged, &unmanaged) == 0);
    outcome.urgent = be_urgent();
    began_at = now() + WARM;
    sleep_until(began_at);
    outcome.from = use_now(&processors);
    uint64_t batch = tasks_of_batch();
    bring(services, equals);
    sleep_until(began_at + (uint64_t)length);
    outcome.to = use_now(&processors);
    outcome.batch = (double)(tasks_of_batch() - batch) / options.seconds;
    for (uint32_t i = 0; i < equals; i++) {
        told[i] = (equal_t){services[i].took, services[i].count, services[i].ended / options.seconds};
        all += services[i].count;
        left += services[i].count - services[i].ended;
    }
    end_all(services, equals);
    outcome.through = (double)(now() - began_at) / 1e9;
    outcome.left = all ? 100.0 * left / all : 0;
    tell(&options, told, way->who == FIRST ? 1 : equals, &outcome);
    return 0;
}
