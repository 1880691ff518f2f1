/* What the tests of the ways into a house share: a machine of a few of this machine's processors, cores that are held,
 * and pieces of work that report which others run on their core. C11 or C++17. */
#ifndef FEW_CORES_H
#define FEW_CORES_H

#include <pthread.h>
#include <sched.h>
#include <stdio.h>
#include <stdlib.h>
#include <time.h>
#include <voldazpe_house.h>

#define CHECK(holds)                                                    \
    do {                                                                \
        if (!(holds)) {                                                 \
            fprintf(stderr, "%s:%d: %s\n", __FILE__, __LINE__, #holds); \
            exit(1);                                                    \
        }                                                               \
    } while (0)

enum { FEW = 3 }; /* managed cores at most */

static voldazpe_house_t *the_house;
static int managed;
static VOLDAZPE_ATOMIC(uint32_t) moved;               /* threads that stayed longer than the grace */
static VOLDAZPE_ATOMIC(int) taken[CPU_SETSIZE];       /* by core: threads in a piece there */
static VOLDAZPE_ATOMIC(uint32_t) overlaps, misplaced; /* pieces that met another on their core; that ran on another core */
static VOLDAZPE_ATOMIC(uint32_t) pieces, without;     /* all pieces; those of a thread that had no core */

static inline void pause_for(long nanoseconds) {
    const struct timespec pause = {0, nanoseconds};
    (void)nanosleep(&pause, NULL);
}

static inline void count_moved(void *context, const voldazpe_house_event_t *event) {
    (void)context;
    if (event->kind == VOLDAZPE_HOUSE_LOST && event->moved) moved++;
}

/* Opens a house of the first processors that this process may use: one unmanaged, the next few managed. One alone is
 * managed. `grace` is in microseconds. */
static inline void open_house(uint64_t grace) {
    voldazpe_house_options_t options = VOLDAZPE_INIT;
    cpu_set_t allowed;
    char text[200];
    int first = -1, length = snprintf(text, sizeof text, "[[socket]]\nmanaged = [");
    options.grace = grace;
    options.hook = count_moved;
    managed = 0;
    CHECK(sched_getaffinity(0, sizeof allowed, &allowed) == 0);
    for (int processor = 0; processor < CPU_SETSIZE && managed < FEW; processor++) {
        if (!CPU_ISSET(VOLDAZPE_CAST(size_t, processor), &allowed)) continue;
        if (first < 0) first = processor;
        else length += snprintf(text + length, 10, "%s%d", managed++ ? ", " : "", processor);
    }
    if (managed == 0) {
        managed = 1;
        length += snprintf(text + length, 10, "%d", first);
        first = first ? 0 : 1;
    }
    length += snprintf(text + length, 40, "]\nunmanaged = [%d]\n", first);
    CHECK(voldazpe_house_open(text, VOLDAZPE_CAST(size_t, length), &options, &the_house) == VOLDAZPE_OK);
}

static inline voldazpe_house_application_t join(const char *name) {
    voldazpe_house_application_t application;
    CHECK(voldazpe_house_join(the_house, name, &application) == VOLDAZPE_OK);
    return application;
}

static inline voldazpe_house_counts_t counts(voldazpe_house_application_t application) {
    voldazpe_house_counts_t has;
    CHECK(voldazpe_house_counts(the_house, application, &has) == VOLDAZPE_OK);
    return has;
}

/* ---- another application, some of whose threads hold a core each */

typedef struct holders {
    voldazpe_house_application_t application;
    int count;
    pthread_t threads[FEW];
    VOLDAZPE_ATOMIC(bool) let_go;
} holders_t;

static inline void *holds_a_core(void *argument) {
    holders_t *holders = VOLDAZPE_CAST(holders_t *, argument);
    voldazpe_house_thread_t *me;
    CHECK(voldazpe_house_register(the_house, holders->application, &me) == VOLDAZPE_OK);
    CHECK(voldazpe_house_wait(me, -1) == VOLDAZPE_OK);
    while (!holders->let_go) pause_for(200000); /* it never looks whether its core is asked back */
    CHECK(voldazpe_house_leave(me) == VOLDAZPE_OK);
    return NULL;
}

/* Asks for cores; awaits that they are all there; both. */
static inline void ask(holders_t *holders, uint32_t level, int count) {
    holders->let_go = false;
    holders->count = count;
    holders->application = join("holds");
    CHECK(voldazpe_house_want(the_house, holders->application, level, VOLDAZPE_CAST(uint32_t, count)) == VOLDAZPE_OK);
    for (int i = 0; i < count; i++) CHECK(pthread_create(&holders->threads[i], NULL, holds_a_core, holders) == 0);
}

static inline void await(holders_t *holders) {
    while (counts(holders->application).owned < holders->count) pause_for(100000);
}

static inline void hold(holders_t *holders, uint32_t level, int count) {
    ask(holders, level, count);
    await(holders);
}

static inline void let_go(holders_t *holders) {
    holders->let_go = true;
    for (int i = 0; i < holders->count; i++) CHECK(pthread_join(holders->threads[i], NULL) == 0);
    CHECK(voldazpe_house_withdraw(the_house, holders->application) == VOLDAZPE_OK);
}

/* ---- work */

/* Some microseconds, and a result that depends on the piece. */
static inline uint64_t work(uint64_t piece) {
    volatile uint64_t value = piece;
    for (int i = 0; i < 2000; i++) value = value * 6364136223846793005u + 1442695040888963407u;
    return value;
}

static inline uint64_t sum_of(uint64_t first, uint64_t count) {
    uint64_t sum = 0;
    for (uint64_t piece = first; piece < first + count; piece++) sum += work(piece);
    return sum;
}

/* A piece on the core that the thread has, if it has one. */
static inline uint64_t run_a_piece(const voldazpe_house_thread_t *me, uint64_t piece) {
    int core = me ? voldazpe_house_core(me) : -1;
    pieces++;
    if (core < 0) {
        without++;
        return work(piece);
    }
    if (taken[core]++ > 0) overlaps++;
    if (sched_getcpu() != core && voldazpe_house_core(me) == core) misplaced++;
    uint64_t value = work(piece);
    taken[core]--;
    return value;
}

/* The core that the thread has is the application's. */
static inline void check_owner(const voldazpe_house_thread_t *me, voldazpe_house_application_t application) {
    voldazpe_house_owner_t owners[FEW];
    size_t count = 0;
    int core = me ? voldazpe_house_core(me) : -1;
    if (voldazpe_house_owners(the_house, owners, FEW, &count) != VOLDAZPE_OK) return;
    for (size_t i = 0; i < count && core >= 0; i++) {
        if (owners[i].core != core || voldazpe_house_core(me) != core) continue; /* it has gone meanwhile */
        CHECK(owners[i].application == application && owners[i].thread == me->number);
    }
}

/* Never more threads work on cores than there are cores, each alone on its own. Most pieces had one: `all`, all had. */
static inline void check_pieces(bool all) {
    CHECK(overlaps == 0 || moved > 0); /* one that was moved met others until its piece ended */
    CHECK(misplaced == 0 || voldazpe_house_affinity(the_house) != VOLDAZPE_OK);
    CHECK(all ? without == 0 : without * 2 <= pieces);
    printf("%d managed cores: %u pieces, %u without a core, %u threads moved\n", managed, VOLDAZPE_LOAD(&pieces),
           VOLDAZPE_LOAD(&without), VOLDAZPE_LOAD(&moved));
    overlaps = moved = pieces = without = 0;
}

#endif
