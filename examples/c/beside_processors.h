/* The processors that programs like beside.c share, houses of these processors, and how a thread runs on them. For one
 * C or C++ file that defines _GNU_SOURCE. */
#ifndef BESIDE_PROCESSORS_H
#define BESIDE_PROCESSORS_H

#include "beside_measure.h"

#include <voldazpe_house.h>

#include <errno.h>
#include <sched.h>
#include <stdbool.h>
#include <stdint.h>
#include <string.h>
#include <sys/resource.h>
#include <sys/syscall.h>

static cpu_set_t processors, managed, unmanaged; /* all that this process may use; those of the house; the rest */

/* Which processors a house of this process's own manages. */
static inline void find_processors(void) {
    voldazpe_house_t *house;
    voldazpe_house_owner_t owners[VOLDAZPE_CORES];
    size_t count = 0;
    CHECK(sched_getaffinity(0, sizeof processors, &processors) == 0);
    voldazpe_house_code_t code = voldazpe_house_open(NULL, 0, NULL, &house);
    if (code != VOLDAZPE_OK) {
        fprintf(stderr, "%s: %s\n", program_invocation_short_name, voldazpe_house_code_text(code));
        exit(1);
    }
    CHECK(voldazpe_house_owners(house, owners, VOLDAZPE_CORES, &count) == VOLDAZPE_OK);
    CHECK(voldazpe_house_close(house) == VOLDAZPE_OK);
    unmanaged = processors;
    for (size_t i = 0; i < count; i++) {
        CPU_SET(owners[i].core, &managed);
        CPU_CLR(owners[i].core, &unmanaged);
    }
    if (CPU_COUNT(&unmanaged) == 0) unmanaged = processors; /* there is only one processor */
}

/* The text of a machine whose processors are all managed. It must name an unmanaged one: one that doesn't exist. */
static inline size_t text_of_all(char *text, size_t size) {
    size_t length = (size_t)snprintf(text, size, "[[socket]]\nunmanaged = [%d]\nmanaged = [", CPU_SETSIZE - 1);
    int count = CPU_COUNT(&processors);
    for (int i = 0; i < CPU_SETSIZE - 1; i++) {
        if (!CPU_ISSET((size_t)i, &processors)) continue;
        length += (size_t)snprintf(text + length, size - length, "%d%s", i, --count > 0 ? ", " : "]\n");
    }
    return length;
}

/* A house that manages all processors, or all but the first. It is opened by a thread that may use all of them. */
static inline voldazpe_house_t *house_of(bool all) {
    char text[16 * CPU_SETSIZE];
    size_t length = all ? text_of_all(text, sizeof text) : 0;
    voldazpe_house_t *house;
    voldazpe_house_state_t state;
    CHECK(voldazpe_house_open(all ? text : NULL, length, NULL, &house) == VOLDAZPE_OK);
    CHECK(voldazpe_house_state(house, &state) == VOLDAZPE_OK);
    CHECK(state.managed == CPU_COUNT(all ? &processors : &managed));
    return house;
}

/* The processor with an index in a set. */
static inline int nth(const cpu_set_t *set, uint32_t index) {
    int processor = 0;
    while (!CPU_ISSET((size_t)processor, set) || index-- > 0) processor++;
    return processor;
}

/* Gives the calling thread a policy, and a nice value if that is the usual policy. False if the system refuses that. */
static inline bool be_at(int policy, int nice) {
    struct sched_param of;
    of.sched_priority = policy == SCHED_FIFO || policy == SCHED_RR ? 1 : 0;
    return sched_setscheduler(0, policy, &of) == 0 &&
           (nice == 0 || setpriority(PRIO_PROCESS, (id_t)syscall(SYS_gettid), nice) == 0);
}

/* Whether the system lets a thread of this process have a policy. Afterwards the calling thread has the usual one. */
static inline bool may_be_at(int policy) {
    bool allowed = be_at(policy, 0);
    CHECK(be_at(SCHED_OTHER, 0));
    return allowed;
}

#endif
