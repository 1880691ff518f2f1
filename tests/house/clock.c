/* The clock: a thread that stays longer than the grace is moved on time, and no longer has a core. While no core is
 * asked back, the house's own thread sleeps. A clock that jumps does no harm. Linked with --wrap=clock_gettime. */
#include "check.h"

#include <ctype.h>
#include <dirent.h>

static const char one_core[] = "[[socket]]\nmanaged = [1]\nunmanaged = [0]\n";

/* ---- a clock that jumps: only for what the house reads ---- */

#define START INT64_C(1000000000000000) /* so that it never goes below 0 */

static VOLDAZPE_ATOMIC(int64_t) jumped = START; /* nanoseconds */
int __real_clock_gettime(clockid_t clock, struct timespec *moment);
int __wrap_clock_gettime(clockid_t clock, struct timespec *moment);

int __wrap_clock_gettime(clockid_t clock, struct timespec *moment) {
    int result = __real_clock_gettime(clock, moment);
    int64_t now = (int64_t)moment->tv_sec * 1000000000 + moment->tv_nsec + VOLDAZPE_LOAD(&jumped);
    *moment = (struct timespec){now / 1000000000, now % 1000000000};
    return result;
}

static int64_t true_now(void) {
    struct timespec moment;
    __real_clock_gettime(CLOCK_MONOTONIC, &moment);
    return (int64_t)moment.tv_sec * 1000000000 + moment.tv_nsec;
}

/* ---- a thread that stays ---- */

static voldazpe_house_t *house;
static voldazpe_house_application_t stays, other;
static VOLDAZPE_ATOMIC(int64_t) lost_at;
static VOLDAZPE_ATOMIC(bool) has_core;

/* keeps its core until it has lost it, whether or not it is asked back */
static void *stays_on(void *unused) {
    voldazpe_house_thread_t *me;
    OK(voldazpe_house_register(house, stays, &me));
    OK(voldazpe_house_wait(me, -1));
    VOLDAZPE_STORE(&has_core, true);
    while (voldazpe_house_core(me) >= 0) {}
    VOLDAZPE_STORE(&lost_at, true_now());
    CHECK(!voldazpe_house_keep(me));
    OK(voldazpe_house_give_back(me)); /* it has nothing */
    OK(voldazpe_house_wait(me, -1));  /* and may have another core */
    return unused;
}

static void *waits(void *unused) {
    voldazpe_house_thread_t *me;
    OK(voldazpe_house_register(house, other, &me));
    OK(voldazpe_house_wait(me, -1));
    OK(voldazpe_house_leave(me));
    return unused;
}

/* After how many nanoseconds the thread is moved that stays, from the ask. */
static int64_t moved_after(uint64_t grace, int64_t jump) {
    const voldazpe_house_options_t options = {.unpinned = true, .grace = grace};
    VOLDAZPE_STORE(&jumped, START);
    house = open_text(one_core, &options);
    OK(voldazpe_house_join(house, "stays", &stays));
    OK(voldazpe_house_join(house, "other", &other));
    OK(voldazpe_house_want(house, stays, 1, 1));
    VOLDAZPE_STORE(&has_core, false);
    VOLDAZPE_STORE(&lost_at, 0);
    pthread_t one = start_thread(stays_on, NULL);
    UNTIL(VOLDAZPE_LOAD(&has_core));
    pthread_t two = start_thread(waits, NULL);
    UNTIL(counts_of(house, other).waiting == 1);
    CHECK(state_of(house).moved == 0);
    int64_t asked = true_now();
    OK(voldazpe_house_want(house, other, 0, 1));
    atomic_fetch_add(&jumped, jump);
    join_thread(two); /* which gets the core, and gives it back */
    OK(voldazpe_house_want(house, other, 0, 0));
    join_thread(one); /* which gets it again */
    CHECK(state_of(house).moved == 1);
    OK(voldazpe_house_close(house));
    return VOLDAZPE_LOAD(&lost_at) - asked;
}

/* Whether that is never before `least`, and once before `most`: a busy machine is late, but not each time. */
static bool moves_between(int64_t least, int64_t most, uint64_t grace, int64_t jump) {
    for (int tries = 0; tries < 20; tries++) {
        int64_t after = moved_after(grace, jump);
        CHECK(after >= least);
        if (after < most) return true;
    }
    return false;
}

static void moves(void) {
    for (int i = 0; i < 5; i++) { /* the last tick may be a part of the grace older than the ask */
        CHECK(moves_between(40000000 - 40000000 / 16, 100000000, 40000, 0));
    }
    CHECK(moves_between(0, 1000000000, 1, 0));
    for (int i = 0; i < 3; i++) {
        CHECK(moves_between(30000000, 2000000000, 40000, -3600000000000)); /* it goes on from the latest moment */
        CHECK(moves_between(0, 1000000000, 40000, 3600000000000)); /* it may come early, and does no harm */
    }
}

/* ---- jumps at any time ---- */

static VOLDAZPE_ATOMIC(bool) go_on;

static void *jumps(void *unused) {
    uint64_t state = 3;
    while (VOLDAZPE_LOAD(&go_on)) {
        atomic_fetch_add(&jumped, (int64_t)next_random(&state) - 1000000000);
        pause_for(50000);
    }
    return unused;
}

static void *works(void *application) {
    voldazpe_house_thread_t *me;
    OK(voldazpe_house_register(house, *(voldazpe_house_application_t *)application, &me));
    while (voldazpe_house_wait(me, 1000000) != VOLDAZPE_HOUSE_CLOSED) {
        while (voldazpe_house_keep(me)) {}
    }
    return NULL;
}

static void jumps_about(void) {
    const voldazpe_house_options_t options = {.unpinned = true, .grace = 500};
    uint64_t state = 5;
    house = open_text(one_core, &options);
    OK(voldazpe_house_join(house, "stays", &stays));
    OK(voldazpe_house_join(house, "other", &other));
    VOLDAZPE_STORE(&go_on, true);
    pthread_t threads[] = {start_thread(works, &stays), start_thread(works, &other), start_thread(jumps, NULL)};
    for (int64_t end = true_now() + 500000000; true_now() < end;) {
        OK(voldazpe_house_want(house, stays, next_random(&state) % 8, next_random(&state) % 2));
        OK(voldazpe_house_want(house, other, next_random(&state) % 8, next_random(&state) % 2));
    }
    VOLDAZPE_STORE(&go_on, false);
    OK(voldazpe_house_close(house));
    for (int i = 0; i < 3; i++) join_thread(threads[i]);
}

/* ---- which thread is idle ---- */

/* How often a thread of this process with a name has been switched to or from, 0 where there is none; and whether it
 * sleeps. */
static uint64_t switches_of(const char *name, bool *sleeps) {
    DIR *tasks = opendir("/proc/self/task");
    uint64_t sum = 0;
    CHECK(tasks);
    *sleeps = false;
    for (struct dirent *task; (task = readdir(tasks));) {
        char path[300], line[256];
        bool named = false;
        if (!isdigit((unsigned char)task->d_name[0])) continue;
        snprintf(path, sizeof path, "/proc/self/task/%s/status", task->d_name);
        FILE *file = fopen(path, "r");
        while (file && fgets(line, sizeof line, file)) {
            char *value = strchr(line, '\t');
            if (!value) continue;
            if (strncmp(line, "Name:", 5) == 0) named = strncmp(value + 1, name, strlen(name)) == 0;
            if (named && strncmp(line, "State:", 6) == 0) *sleeps = value[1] == 'S';
            if (named && strstr(line, "voluntary_ctxt_switches:")) sum += strtoull(value, NULL, 10);
        }
        if (file) fclose(file);
    }
    closedir(tasks);
    return sum;
}

/* Whether the house's own thread sleeps, and wasn't switched to for a while. */
static bool rests(uint64_t *switches) {
    bool sleeps, still;
    *switches = switches_of("voldazpe-house", &sleeps);
    pause_for(20000000);
    return switches_of("voldazpe-house", &still) == *switches && sleeps && still;
}

static void idles(void) {
    bool sleeps;
    const voldazpe_house_options_t options = {.unpinned = true};
    house = open_text(one_core, &options);
    OK(voldazpe_house_join(house, "stays", &stays));
    OK(voldazpe_house_join(house, "other", &other));
    OK(voldazpe_house_want(house, stays, 0, 1));
    pthread_t thread = start_thread(stays_on, NULL); /* has the core */
    UNTIL(VOLDAZPE_LOAD(&has_core));
    pthread_t waiting = start_thread(waits, NULL); /* waits, and no core is asked back */
    UNTIL(counts_of(house, other).waiting == 1);
    uint64_t before = 0, orders = state_of(house).orders;
    UNTIL(rests(&before));
    CHECK(before > 0);
    pause_for(1000000000);
    uint64_t after = switches_of("voldazpe-house", &sleeps);
    printf("switches of the house's own thread in an idle second: %lu\n", (unsigned long)(after - before));
    CHECK(after == before && state_of(house).orders == orders);
    OK(voldazpe_house_want(house, stays, 0, 0)); /* one is asked: it is moved by one tick, and then all is quiet */
    UNTIL(state_of(house).moved == 1);
    pause_for(20000000);
    CHECK(state_of(house).orders <= orders + 5); /* a tick, the ask, a tick that moves, two of the moved thread */
    UNTIL(rests(&before));
    pause_for(200000000);
    CHECK(switches_of("voldazpe-house", &sleeps) == before);
    OK(voldazpe_house_want(house, stays, 0, 1));
    join_thread(thread);
    OK(voldazpe_house_want(house, stays, 0, 0)); /* what is due to it and not taken would stay free */
    OK(voldazpe_house_want(house, other, 0, 1));
    join_thread(waiting);
    OK(voldazpe_house_close(house));
}

int main(void) {
    idles();
    moves();
    jumps_about();
    return 0;
}
