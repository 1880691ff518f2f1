/* Common parts of this folder's programs: the ways to share processors, the command line, and the row that reports a run. For
 * one C11 or C++20 file that defines _GNU_SOURCE. */
#ifndef EQUALS_H
#define EQUALS_H

#include "beside_processors.h"

#include <inttypes.h>
#include <pthread.h>
#include <sys/prctl.h>

static const int TASK = 50000; /* nanoseconds that the steps of -n take, undisturbed */

enum parts { TOGETHER, PARTS, DIVIDED, TURNS };
enum who { EVERYONE, FIRST, JOB };

typedef struct way {
    const char *name;
    bool house, all;  /* with a house; it manages all processors, or all but the first. Other ways use all */
    enum parts parts; /* what the applications have: all processors, parts of them, threads divided among them, or turns */
    int policy;       /* of the applications' threads */
    int below, nice;  /* policy and nice value of the batch job's threads */
    enum who who;     /* everyone, the first application alone, or the batch job alone */
} way_t;

static const way_t ways[] = {
    {.name = "house", .house = true},
    {.name = "house-all", .house = true, .all = true},
    {.name = "none"},
    {.name = "parts", .parts = PARTS, .below = SCHED_IDLE},
    {.name = "divided", .parts = DIVIDED},
    {.name = "turns", .parts = TURNS},
    {.name = "nice", .nice = 19},
    {.name = "idle", .below = SCHED_IDLE},
    {.name = "fifo", .policy = SCHED_FIFO},
    {.name = "rr", .policy = SCHED_RR},
    {.name = "alone", .who = FIRST},
    {.name = "job", .who = JOB},
};
enum { WAYS = sizeof ways / sizeof *ways };

/* Where an application's threads may run without a house: on all processors, or on every n-th of n applications. */
static inline cpu_set_t part_of(const way_t *way, uint32_t index, uint32_t equals) {
    uint32_t count = (uint32_t)CPU_COUNT(&processors), parts = equals < count ? equals : count;
    cpu_set_t part = processors;
    for (uint32_t i = 0; way->parts == PARTS && i < count; i++) {
        if (i % parts != index % parts) CPU_CLR((size_t)nth(&processors, i), &part);
    }
    return part;
}

/* Makes the calling thread preempt all others, as an interrupt would: it brings tasks, or watches the clock. Call it after other
 * threads are started, since they would inherit this. False if the system refuses. */
static inline bool be_urgent(void) {
    struct sched_param of;
    of.sched_priority = 50;
    return sched_setscheduler(0, SCHED_FIFO, &of) == 0;
}

/* ---- the command line */

typedef struct options {
    const way_t *way;
    const char *load;
    uint64_t steps;           /* of some 50 us */
    double seconds, capacity; /* of a run; how many times a second all processors can do these steps */
    uint32_t seed;
} options_t;

/* Reads the command line. `named` lists the program's ways and `loads` its loads, with a space before and after each. */
static inline options_t options_of(int count, char **words, const char *named, const char *loads) {
    options_t options;
    char name[64];
    memset(&options, 0, sizeof options);
    options.seconds = 1;
    options.seed = 1;
    for (int option; (option = getopt(count, words, "w:l:s:n:c:r:")) != -1;) {
        snprintf(name, sizeof name, " %s ", optarg ? optarg : "");
        if (option == 'w' && strstr(named, name)) {
            for (int i = 0; i < WAYS; i++) options.way = strcmp(ways[i].name, optarg) == 0 ? &ways[i] : options.way;
        } else if (option == 'l' && strstr(loads, name)) options.load = optarg;
        else if (option == 's') options.seconds = atof(optarg);
        else if (option == 'n') options.steps = strtoull(optarg, NULL, 10);
        else if (option == 'c') options.capacity = atof(optarg);
        else if (option == 'r') options.seed = (uint32_t)strtoul(optarg, NULL, 10);
        else count = -1;
    }
    if (optind != count || !options.way || !options.load || !(options.seconds > 0 && options.seconds <= 60)) {
        fprintf(stderr, "usage: %s -w WAY -l LOAD [-s SECONDS] [-n STEPS] [-c CAPACITY] [-r SEED]\nloads:%s\nways: %s\n",
                program_invocation_short_name, loads, named);
        exit(2);
    }
    find_processors();
    CHECK(prctl(PR_SET_TIMERSLACK, 1UL, 0UL, 0UL, 0UL) == 0); /* sleeps end when they say */
    if (options.steps == 0) options.steps = steps_for(TASK);
    if (!(options.capacity > 0)) options.capacity = 1e9 / TASK * CPU_COUNT(&processors);
    printf("steps %" PRIu64 " managed %d processors %d\n", options.steps, CPU_COUNT(&managed), CPU_COUNT(&processors));
    fflush(stdout);
    if (!may_be_at(options.way->policy)) exit(0); /* no row: the system refuses this policy */
    return options;
}

/* ---- the report */

/* What one application did. */
typedef struct equal {
    uint64_t *took; /* nanoseconds from a task's arrival to its end */
    uint32_t count; /* of tasks */
    double done;    /* tasks a second */
} equal_t;

typedef struct outcome {
    double batch;   /* the batch job's tasks a second */
    double through; /* seconds until all tasks had ended, or the run was given up */
    double left;    /* percent of tasks that were unfinished when tasks stopped coming, or when the run was given up */
    bool urgent;    /* what be_urgent answered */
    use_t from, to;
} outcome_t;

/* Prints a row. Percentiles are in microseconds, over the tasks of all applications; `worst` is the largest 99th percentile of one
 * application. `least` and `most` are the tasks a second of the applications that did least and most. `used`, `others` and
 * `stolen` are percent of all processors' time: this process's, other programs' and that of a virtual machine's host. */
static inline void tell(const options_t *options, const equal_t *equals, uint32_t count, const outcome_t *outcome) {
    static const uint32_t ranks[] = {500, 990, 999};
    double worst = 0, least = equals[0].done, most = 0, others, stolen;
    uint32_t tasks = 0, next = 0;
    for (uint32_t i = 0; i < count; i++) tasks += equals[i].count;
    uint64_t *all = (uint64_t *)malloc((tasks + 1) * sizeof *all);
    CHECK(all);
    for (const equal_t *it = equals; it < equals + count; next += it++->count) {
        uint64_t *its = all + next; /* a copy: threads of a run that was given up still write to the other */
        if (it->count > 0) memcpy(its, it->took, it->count * sizeof *its);
        qsort(its, it->count, sizeof *its, by_size);
        double high = (double)percentile(its, it->count, 990) / 1000;
        worst = high > worst ? high : worst;
        least = it->done < least ? it->done : least;
        most = it->done > most ? it->done : most;
    }
    qsort(all, tasks, sizeof *all, by_size);
    use_between(outcome->from, outcome->to, CPU_COUNT(&processors), &others, &stolen);
    double used = (double)(outcome->to.own - outcome->from.own) / (double)(outcome->to.moment - outcome->from.moment);
    printf("way load tasks median 99th 99.9th worst least most batch through used left urgent others stolen\n");
    printf("%s %s %" PRIu32, options->way->name, options->load, tasks);
    for (int i = 0; i < 3; i++) printf(" %.1f", (double)percentile(all, tasks, ranks[i]) / 1000);
    printf(" %.1f %.1f %.1f %.1f %.4f %.1f %.2f %d %.1f %.1f\n", worst, least, most, outcome->batch, outcome->through,
           100 * used / CPU_COUNT(&processors), outcome->left, outcome->urgent, 100 * others, 100 * stolen);
    fflush(stdout);
    free(all);
}

#endif
