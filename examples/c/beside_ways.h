/* The ways in which beside.c lets a service and a batch job share processors. For one C file with _GNU_SOURCE. */
#ifndef BESIDE_WAYS_H
#define BESIDE_WAYS_H

#include "beside_processors.h"

enum { SERVICE = 0, BATCH = 1 };

typedef struct way {
    const char *name;
    bool all;         /* on all processors; otherwise on the managed ones */
    enum { TOGETHER, HALVES, FEWER } parts; /* the service has all processors, or half of them, rounded up or down */
    enum { FREE, OWN } places; /* OWN: each thread of the service is pinned to a processor of its own */
    int policy, nice; /* of the batch job's threads */
    int first;        /* the policy of the service's threads */
    bool house;
    bool without[2];  /* there is no service, or no batch job */
} way_t;

static const way_t ways[] = {
    {.name = "house", .house = true},
    {.name = "none"},
    {.name = "halves", .parts = HALVES},
    {.name = "fewer", .parts = FEWER},
    {.name = "nice", .nice = 19},
    {.name = "batch", .policy = SCHED_BATCH},
    {.name = "idle", .policy = SCHED_IDLE},
    {.name = "own", .policy = SCHED_IDLE, .places = OWN},
    {.name = "fifo", .first = SCHED_FIFO},
    {.name = "service", .without = {false, true}},
    {.name = "job", .without = {true, false}},
    {.name = "house-all", .all = true, .house = true},
    {.name = "none-all", .all = true},
    {.name = "halves-all", .all = true, .parts = HALVES},
    {.name = "nice-all", .all = true, .nice = 19},
    {.name = "batch-all", .all = true, .policy = SCHED_BATCH},
    {.name = "idle-all", .all = true, .policy = SCHED_IDLE},
    {.name = "own-all", .all = true, .policy = SCHED_IDLE, .places = OWN},
    {.name = "fifo-all", .all = true, .first = SCHED_FIFO},
    {.name = "service-all", .all = true, .without = {false, true}},
    {.name = "job-all", .all = true, .without = {true, false}},
};
enum { WAYS = sizeof ways / sizeof *ways };

/* Where the threads of an application may run. */
static inline cpu_set_t part_of(const way_t *way, uint32_t application) {
    const cpu_set_t *whole = way->all ? &processors : &managed;
    uint32_t count = (uint32_t)CPU_COUNT(whole), first = way->parts == FEWER ? count / 2 : (count + 1) / 2;
    cpu_set_t part;
    if (way->parts == TOGETHER) return *whole;
    CPU_ZERO(&part);
    for (uint32_t i = 0; i < count; i++) {
        if ((i < first) == (application == SERVICE)) CPU_SET((size_t)nth(whole, i), &part);
    }
    return part;
}

/* Whether the operating system lets this process run in a way, and each application has a processor then. */
static inline bool can_go(const way_t *way) {
    cpu_set_t service = part_of(way, SERVICE), batch = part_of(way, BATCH);
    if (CPU_COUNT(&service) == 0 || CPU_COUNT(&batch) == 0) return false;
    if (way->parts == FEWER && CPU_COUNT(&service) == CPU_COUNT(&batch)) return false; /* the same as halves */
    return may_be_at(way->first);
}

#endif
