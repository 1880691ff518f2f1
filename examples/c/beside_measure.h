/* What beside.c measures with: a clock, a task of a fixed number of instructions, moments at which tasks come,
 * percentiles, and what other programs took of the machine meanwhile. For one C file that defines _GNU_SOURCE. */
#ifndef BESIDE_MEASURE_H
#define BESIDE_MEASURE_H

#include <math.h>
#include <sched.h>
#include <stdbool.h>
#include <stdint.h>
#include <stdio.h>
#include <stdlib.h>
#include <time.h>
#include <unistd.h>

#define CHECK(holds)                                                        \
    do {                                                                    \
        if (!(holds)) {                                                     \
            fprintf(stderr, "%s:%d: %s\n", __FILE__, __LINE__, #holds);     \
            exit(1);                                                        \
        }                                                                   \
    } while (0)

/* ---- time, in nanoseconds */

static inline uint64_t clock_of(clockid_t which) {
    struct timespec moment;
    CHECK(clock_gettime(which, &moment) == 0);
    return (uint64_t)moment.tv_sec * 1000000000 + (uint64_t)moment.tv_nsec;
}

static inline uint64_t now(void) { return clock_of(CLOCK_MONOTONIC); }

static inline void sleep_until(uint64_t moment) {
    const struct timespec until = {(time_t)(moment / 1000000000), (long)(moment % 1000000000)};
    while (clock_nanosleep(CLOCK_MONOTONIC, TIMER_ABSTIME, &until, NULL) != 0) {}
}

/* ---- a task: always the same instructions, so that one that is preempted takes longer */

static inline void work(uint64_t steps) {
    uint64_t value = steps;
    for (uint64_t step = 0; step < steps; step++) {
        value = value * 6364136223846793005u + 1442695040888963407u;
        __asm__ volatile("" : "+r"(value)); /* each step needs the one before, and the compiler can't leave it out */
    }
}

/* How many steps take `nanoseconds` if nothing disturbs them, by the fastest of many tries. */
static inline uint64_t steps_for(uint64_t nanoseconds) {
    enum { TRIES = 2000, PROBE = 20000 };
    uint64_t least = UINT64_MAX;
    for (int turn = 0; turn < TRIES; turn++) {
        uint64_t began = now(), took;
        work(PROBE);
        took = now() - began;
        if (took < least) least = took;
    }
    return PROBE * nanoseconds / (least ? least : 1);
}

/* ---- when tasks come: nanoseconds from the beginning of a run. Both functions return how many, at most `most`. */

static inline uint32_t plan_bursts(uint64_t *planned, uint32_t most, uint64_t length, uint32_t burst, uint64_t each) {
    uint32_t count = 0;
    for (uint64_t moment = 0; moment < length; moment += each) {
        for (uint32_t i = 0; i < burst && count < most; i++) planned[count++] = moment;
    }
    return count;
}

/* Times between two tasks are random and independent, with the given mean in nanoseconds. The same seed gives the same
 * plan. */
static inline uint32_t plan_poisson(uint64_t *planned, uint32_t most, uint64_t length, double mean, uint32_t seed) {
    unsigned short state[3] = {(unsigned short)seed, (unsigned short)(seed >> 16), 0x330e};
    uint32_t count = 0;
    double moment = 0;
    while (count < most && (moment -= mean * log(1 - erand48(state))) < (double)length) {
        planned[count++] = (uint64_t)moment;
    }
    return count;
}

/* ---- percentiles */

static inline int by_size(const void *left, const void *right) {
    uint64_t a = *(const uint64_t *)left, b = *(const uint64_t *)right;
    return (a > b) - (a < b);
}

/* The least of some sorted times that at least `of_1000` of 1000 times don't exceed. */
static inline uint64_t percentile(const uint64_t *sorted, uint32_t count, uint32_t of_1000) {
    uint64_t rank = ((uint64_t)count * of_1000 + 999) / 1000;
    return count ? sorted[rank ? rank - 1 : 0] : 0;
}

/* ---- the machine: what the operating system counts by its ticks, of the processors that this process may use */

typedef struct use {
    uint64_t moment, own;  /* nanoseconds; `own` is what this process's threads ran */
    uint64_t busy, stolen; /* ticks; `stolen` are those that the host of a virtual machine gave to others */
} use_t;

static inline use_t use_now(const cpu_set_t *processors) {
    use_t use = {now(), clock_of(CLOCK_PROCESS_CPUTIME_ID), 0, 0};
    char line[512];
    FILE *file = fopen("/proc/stat", "r");
    while (file && fgets(line, sizeof line, file)) {
        unsigned long long processor, ticks[8]; /* user, nice, kernel, idle, waits, interrupts, soft ones, stolen */
        if (line[3] == ' ') continue; /* the sum of all */
        if (sscanf(line, "cpu%llu %llu %llu %llu %llu %llu %llu %llu %llu", &processor, &ticks[0], &ticks[1], &ticks[2],
                   &ticks[3], &ticks[4], &ticks[5], &ticks[6], &ticks[7]) != 9) continue;
        if (processor >= CPU_SETSIZE || !CPU_ISSET((size_t)processor, processors)) continue;
        use.busy += ticks[0] + ticks[1] + ticks[2] + ticks[5] + ticks[6];
        use.stolen += ticks[7];
    }
    if (file) fclose(file); /* without it nothing is known of other programs */
    return use;
}

/* What others took between two moments, and what was stolen, each as a part, 0 to 1, of the processors' time. */
static inline void use_between(use_t from, use_t to, int processors, double *others, double *stolen) {
    double tick = 1e9 / (double)sysconf(_SC_CLK_TCK), all = (double)(to.moment - from.moment) * processors;
    double beside = (double)(to.busy - from.busy) * tick - (double)(to.own - from.own);
    *others = beside > 0 ? beside / all : 0;
    *stolen = (double)(to.stolen - from.stolen) * tick / all;
}

#endif
