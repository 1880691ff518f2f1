/* Tests what examples/c/beside.c measures with: percentiles follow their definition, bursts and random moments come as
 * planned, and a task's time grows with its steps. */
#ifndef _GNU_SOURCE
#define _GNU_SOURCE
#endif
#include "beside_measure.h"

enum { MOST = 1 << 20 };

static uint64_t times[MOST];

static void percentiles(void) {
    for (uint32_t i = 0; i < 1000; i++) times[i] = i + 1;
    CHECK(percentile(times, 1000, 500) == 500 && percentile(times, 1000, 990) == 990);
    CHECK(percentile(times, 1000, 999) == 999 && percentile(times, 1000, 1000) == 1000);
    CHECK(percentile(times, 10, 990) == 10 && percentile(times, 10, 500) == 5 && percentile(times, 10, 501) == 6);
    CHECK(percentile(times, 1, 500) == 1 && percentile(times, 0, 500) == 0);
    uint64_t some[] = {30, 10, 20};
    qsort(some, 3, sizeof *some, by_size);
    CHECK(some[0] == 10 && some[1] == 20 && some[2] == 30);
}

static void bursts(void) {
    CHECK(plan_bursts(times, MOST, 101, 3, 50) == 9); /* at 0, 50 and 100 */
    for (uint32_t i = 0; i < 9; i++) CHECK(times[i] == i / 3 * 50);
    CHECK(plan_bursts(times, MOST, 100, 3, 50) == 6 && plan_bursts(times, 4, 100, 3, 50) == 4);
}

/* A Poisson process: as many tasks as the mean says, and 1 / e of the gaps are longer than the mean. */
static void random_moments(void) {
    uint32_t count = plan_poisson(times, MOST, 1000000000, 10000, 7), longer = 0;
    CHECK(count > 98500 && count < 101500); /* 100,000, and almost five standard deviations */
    for (uint32_t i = 1; i < count; i++) {
        CHECK(times[i] >= times[i - 1] && times[i] < 1000000000);
        longer += times[i] - times[i - 1] > 10000;
    }
    double part = (double)longer / count;
    CHECK(part > 0.360 && part < 0.376); /* 0.3679 */
    uint64_t first = times[0], last = times[count - 1];
    CHECK(plan_poisson(times, MOST, 1000000000, 10000, 7) == count && times[0] == first && times[count - 1] == last);
    (void)plan_poisson(times, MOST, 1000000000, 10000, 8);
    CHECK(times[0] != first);
    CHECK(plan_poisson(times, 50, 1000000000, 10000, 7) == 50);
}

static uint64_t fastest(uint64_t steps) {
    uint64_t least = UINT64_MAX;
    for (int i = 0; i < 500; i++) {
        uint64_t began = now();
        work(steps);
        uint64_t took = now() - began;
        if (took < least) least = took;
    }
    return least;
}

/* The fastest of many tries, which other programs disturb least. */
static void tasks(void) {
    bool grows = false, fits = false; /* once at least: a processor may change its speed in between */
    for (int i = 0; i < 20 && !(grows && fits); i++) {
        uint64_t short_one = fastest(10000), long_one = fastest(40000), took = fastest(steps_for(50000));
        grows = grows || (long_one > 2 * short_one && long_one < 8 * short_one);
        fits = fits || (took > 25000 && took < 100000);
    }
    CHECK(grows && fits);
}

static void others(void) {
    cpu_set_t processors;
    double others, stolen;
    CHECK(sched_getaffinity(0, sizeof processors, &processors) == 0);
    use_t from = {1000000000, 0, 100, 10}, to = {2000000000, 500000000, 100, 10};
    uint64_t tick = (uint64_t)sysconf(_SC_CLK_TCK);
    to.busy += tick;      /* a second of one processor, of which half is this process's */
    to.stolen += tick / 4;
    use_between(from, to, 2, &others, &stolen);
    CHECK(others > 0.249 && others < 0.251 && stolen > 0.124 && stolen < 0.126);
    use_t here = use_now(&processors);
    work(200000000);
    use_t then = use_now(&processors);
    CHECK(then.own - here.own > 50000000 && then.moment > here.moment);
    for (int i = 0; i < 20 && then.busy == here.busy; i++) { /* whose ticks may be counted late */
        work(200000000);
        then = use_now(&processors);
    }
    CHECK(then.busy > here.busy); /* of the processors that this ran on */
}

int main(void) {
    percentiles();
    bursts();
    random_moments();
    tasks();
    others();
    return 0;
}
