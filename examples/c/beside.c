/* A service beside a batch job, in one process: how long the service's tasks take, and what the batch job gets done.
 *
 *     cc -std=c11 -O2 beside.c $(pkg-config --cflags --libs voldazpe-house) -lm -o beside
 *     ./beside [-s SECONDS] [-l LOAD].. [-w WAY].. [-n STEPS] [-c CAPACITY] [-i LINGER] [-r SEED]
 *
 * The service gets tasks in bursts of 200 (`-l burst`), or at random moments (`-l 30`, 60 or 90: percent of what the
 * managed cores can take). The batch job always has tasks. Each application has as many threads as there are cores. A
 * task is a fixed number of steps, some 50 us of them, so that a thread that is preempted takes longer. The
 * applications share the processors in several ways (`-w`, all if none is named): without an arbiter, in fixed parts,
 * by the operating system's priorities, and by a house. beside_ways.h has the table of the ways, and beside_threads.h
 * has what the threads do.
 *
 * Each way and load has a line. First it has how long tasks took, in microseconds: the median, the 99th and the 99.9th
 * percentile, and the longest. A task's time counts from its planned moment to its end, so a task that the generator
 * brings late waits too. Then come these, of the time in which tasks come:
 *   - the batch job's tasks a second;
 *   - how often a second a processor changed from one application to the other (back and forth are two);
 *   - how many percent of the service's tasks were not yet done at the end of that time;
 *   - what other programs, and the host of a virtual machine, took of the processors' time, in percent.
 *
 * CAPACITY is how many tasks a second the managed cores can take; by default each core takes one in 50 us. LINGER is
 * for how many microseconds the service's threads look for work before they stop, 10 by default. SEED chooses the
 * random moments.
 *
 * The first processor is unmanaged in all ways: tasks are brought from there. In ways whose names end with -all, the
 * operating system places all threads on all processors, that one included. */
#define _GNU_SOURCE
#include <voldazpe_house.h>

#include "beside_measure.h"
#include "beside_threads.h"
#include "beside_ways.h"

#include <inttypes.h>
#include <string.h>
#include <sys/prctl.h>

enum {
    TASK = 50000,           /* nanoseconds that a task takes if nothing disturbs it */
    BURST = 200,            /* tasks of a burst */
    BURST_EACH = 50000000,  /* nanoseconds from one burst to the next */
    WARM = 100000000        /* nanoseconds before the first task may come */
};

static service_t service;
static double capacity;     /* tasks a second that the managed cores can take */

/* ---- a run */

/* Plans when the service's tasks come. Returns how many come. */
static uint32_t plan(const way_t *way, const char *load, uint64_t length, uint32_t seed) {
    uint32_t count;
    if (way->without[SERVICE]) return 0;
    if (strcmp(load, "burst") == 0) count = plan_bursts(service.planned, TASKS, length, BURST, BURST_EACH);
    else count = plan_poisson(service.planned, TASKS, length, 1e9 / (atof(load) / 100 * capacity), seed);
    CHECK(count < TASKS); /* otherwise the last ones are missing: run fewer seconds, or on fewer processors */
    return count;
}

/* Opens the house, and says for how many cores the batch job's threads have work. The service has no work yet. */
static void open_house(const way_t *way, voldazpe_house_application_t *joined) {
    house = house_of(way->all);
    cores = (uint32_t)CPU_COUNT(way->all ? &processors : &managed);
    CHECK(voldazpe_house_join(house, "service", &joined[SERVICE]) == VOLDAZPE_OK);
    CHECK(voldazpe_house_join(house, "batch job", &joined[BATCH]) == VOLDAZPE_OK);
    CHECK(voldazpe_house_want(house, joined[BATCH], 1, cores) == VOLDAZPE_OK);
    service.application = joined[SERVICE];
    service.wanted = 0;
}

/* Starts an application's threads. */
static void start(const way_t *way, uint32_t application, voldazpe_house_application_t in_house) {
    cpu_set_t where = part_of(way, application);
    uint32_t count = (uint32_t)CPU_COUNT(&where);
    worker_t it = {.application = application, .in_house = in_house};
    void *(*life)(void *) = application == SERVICE ? (way->house ? serves : serves_anywhere)
                                                   : (way->house ? goes_on : goes_on_anywhere);
    if (way->without[application]) return;
    if (application == SERVICE) {
        it.service = &service;
        it.serve = serve;
    }
    it.policy = application == SERVICE ? way->first : way->policy;
    it.nice = application == SERVICE ? 0 : way->nice;
    for (uint32_t number = 0; number < count && number < VOLDAZPE_THREADS; number++) {
        cpu_set_t one = where;
        if (way->places == OWN && application == SERVICE) {
            CPU_ZERO(&one);
            CPU_SET((size_t)nth(&where, number), &one);
        }
        start_one(life, &it, &one);
    }
}

/* What has been done up to a moment. */
typedef struct standing {
    use_t use;
    uint64_t batch, moved; /* tasks of the batch job; how often a processor changed to another application */
    uint32_t ended;        /* tasks of the service */
} standing_t;

static standing_t look(void) {
    standing_t standing = {use_now(&processors), 0, 0, service.ended};
    for (uint32_t i = 0; i < worker_count; i++) {
        standing.batch += workers[i].application == BATCH ? workers[i].done : 0;
        standing.moved += workers[i].moved;
    }
    return standing;
}

static void tell(const way_t *way, const char *load, uint32_t count, standing_t from, standing_t to) {
    double seconds = (double)(to.use.moment - from.use.moment) / 1e9, others, stolen;
    use_between(from.use, to.use, CPU_COUNT(&processors), &others, &stolen);
    qsort(service.took, count, sizeof *service.took, by_size);
    printf("%-11s %5s %7" PRIu32, way->name, load, count);
    for (int i = 0; i < 4; i++) {
        printf(" %9.1f", (double)percentile(service.took, count, (const uint32_t[]){500, 990, 999, 1000}[i]) / 1000);
    }
    printf(" %8.0f %8.0f %6.2f %6.1f %6.1f\n", (double)(to.batch - from.batch) / seconds,
           (double)(to.moved - from.moved) / seconds, count ? 100.0 * (count - to.ended) / count : 0, 100 * others,
           100 * stolen);
    fflush(stdout);
}

/* Runs both applications in one way for some seconds, and prints a line. */
static void measure(const way_t *way, const char *load, double seconds, uint32_t seed) {
    const uint64_t length = (uint64_t)(seconds * 1e9);
    voldazpe_house_application_t joined[2] = {0, 0};
    service.brought = service.taken = service.ended = worker_count = 0;
    service.count = plan(way, load, length, seed);
    ending = false;
    memset(ran, 0, sizeof ran);
    CHECK(sched_setaffinity(0, sizeof processors, &processors) == 0);
    if (way->house) open_house(way, joined);
    CHECK(sched_setaffinity(0, sizeof processors, way->all ? &processors : &unmanaged) == 0);
    start(way, SERVICE, joined[SERVICE]);
    start(way, BATCH, joined[BATCH]);
    began_at = now() + WARM;
    sleep_until(began_at);
    standing_t from = look();
    bring(&service, 1); /* threads without a core run on the same processor */
    sleep_until(began_at + length);
    standing_t to = look();
    end_all(&service, 1);
    tell(way, load, service.count, from, to);
}

/* ---- the command's arguments */

static int usage(void) {
    fprintf(stderr, "usage: beside [-s SECONDS] [-l burst|PERCENT].. [-w WAY].. [-n STEPS] [-c CAPACITY] [-i LINGER]\n"
                    "              [-r SEED]\nways:");
    for (int i = 0; i < WAYS; i++) fprintf(stderr, " %s", ways[i].name);
    fprintf(stderr, "\n");
    return 2;
}

static bool is_load(const char *word) {
    char *end;
    double percent = strtod(word, &end);
    return strcmp(word, "burst") == 0 || (*end == 0 && percent >= 1 && percent <= 1000);
}

/* Chooses the way with a name. False if there is none. */
static bool choose(bool *chosen, const char *name) {
    int way = 0;
    while (way < WAYS && strcmp(ways[way].name, name) != 0) way++;
    if (way < WAYS) chosen[way] = true;
    return way < WAYS;
}

enum { LOADS = 16 };

/* Measures each way that was chosen and is possible here, at each load. */
static void measure_all(const char *const *loads, const bool *chosen, double seconds, uint32_t seed) {
    printf("steps %" PRIu64 " managed %d processors %d\n", steps, CPU_COUNT(&managed), CPU_COUNT(&processors));
    printf("way          load   tasks    median      99th    99.9th   longest    batch    moved   left"
           " others stolen\n");
    for (int load = 0; load < LOADS && loads[load]; load++) {
        for (int way = 0; way < WAYS; way++) {
            if (chosen[way] && can_go(&ways[way])) measure(&ways[way], loads[load], seconds, seed);
        }
    }
}

int main(int count, char **words) {
    const char *loads[LOADS] = {"burst", "30", "60", "90"};
    bool chosen[WAYS] = {false}, some = false;
    uint32_t load_count = 0, seed = 1;
    double seconds = 2;
    for (int option; (option = getopt(count, words, "s:l:w:n:c:i:r:")) != -1;) {
        if (option == 's') seconds = atof(optarg);
        else if (option == 'l' && load_count < LOADS && is_load(optarg)) loads[load_count++] = optarg;
        else if (option == 'w' && choose(chosen, optarg)) some = true;
        else if (option == 'n') steps = strtoull(optarg, NULL, 10);
        else if (option == 'i') linger = strtoull(optarg, NULL, 10) * 1000;
        else if (option == 'c') capacity = atof(optarg);
        else if (option == 'r') seed = (uint32_t)strtoul(optarg, NULL, 10);
        else return usage();
    }
    if (optind != count || !(seconds > 0 && seconds <= 60)) return usage();
    if (load_count > 0 && load_count < LOADS) loads[load_count] = NULL;
    for (int way = 0; !some && way < WAYS; way++) chosen[way] = true;
    find_processors();
    CHECK(prctl(PR_SET_TIMERSLACK, 1UL, 0UL, 0UL, 0UL) == 0); /* sleeps end on time */
    if (steps == 0) steps = steps_for(TASK);
    steps -= steps % PIECES;
    CHECK(steps > 0);
    if (!(capacity > 0)) capacity = 1e9 / TASK * CPU_COUNT(&managed);
    measure_all(loads, chosen, seconds, seed);
    return 0;
}
