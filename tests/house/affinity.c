/* Where threads run: only on their core while they have it, on unmanaged cores without one, and where they might before
 * once they have left. No thread that gives a core back to go on without one is still pinned to it. A refused pinning
 * is told. Linked with --wrap=sched_setaffinity and --wrap=voldazpe_lib_member_step. With one processor there is
 * nothing to test. */
#include "check.h"

#include <dirent.h>
#include <signal.h>

static voldazpe_house_t *house;
static voldazpe_house_application_t application, other;
static cpu_set_t all, unmanaged;

/* ---- what the house calls ---- */

static VOLDAZPE_ATOMIC(int) refuses; /* an errno, or 0 */
static VOLDAZPE_ATOMIC(uint32_t) pinnings;
static VOLDAZPE_ATOMIC(pid_t) giver; /* the thread that gives its core back and goes on */
static VOLDAZPE_ATOMIC(int) given;
static VOLDAZPE_ATOMIC(uint32_t) retired;

int __real_sched_setaffinity(pid_t id, size_t size, const cpu_set_t *mask);
int __wrap_sched_setaffinity(pid_t id, size_t size, const cpu_set_t *mask);
uint32_t __real_voldazpe_lib_member_step(voldazpe_member_handle_t *handle, uint32_t client,
                                         const voldazpe_order_t *order, voldazpe_reply_t *reply);
uint32_t __wrap_voldazpe_lib_member_step(voldazpe_member_handle_t *handle, uint32_t client,
                                         const voldazpe_order_t *order, voldazpe_reply_t *reply);

/* Whoever looks whether the lock is free while the thread `mover` leaves its processor */
static VOLDAZPE_ATOMIC(pid_t) mover;
static VOLDAZPE_ATOMIC(uint32_t) migrations, looked;

static void *looks_in(void *unused) {
    voldazpe_house_state_t state;
    uint32_t seen = 0;
    while (VOLDAZPE_LOAD(&mover)) {
        uint32_t now = VOLDAZPE_LOAD(&migrations);
        if (now != seen) OK(voldazpe_house_state(house, &state)); /* which takes the lock */
        VOLDAZPE_STORE(&looked, seen = now);
    }
    return unused;
}

/* What comes as this thread leaves its core for a tick, and as it goes back there */
static _Thread_local void (*as_it_leaves)(void), (*as_it_returns)(void);

static void meanwhile(const cpu_set_t *mask) {
    void (**what)(void) = CPU_COUNT(mask) == 1 && !CPU_EQUAL(mask, &unmanaged) ? &as_it_returns : &as_it_leaves;
    void (*does)(void) = *what;
    *what = NULL;
    if (does) does();
}

int __wrap_sched_setaffinity(pid_t id, size_t size, const cpu_set_t *mask) {
    atomic_fetch_add(&pinnings, 1);
    if (id == 0) meanwhile(mask);
    if (VOLDAZPE_LOAD(&mover) == gettid() && (id == 0 || id == gettid()) && !CPU_ISSET((size_t)sched_getcpu(), mask)) {
        uint32_t now = atomic_fetch_add(&migrations, 1) + 1;
        UNTIL(VOLDAZPE_LOAD(&looked) == now); /* the lock is free */
    }
    if (VOLDAZPE_LOAD(&refuses)) {
        errno = VOLDAZPE_LOAD(&refuses);
        return -1;
    }
    return __real_sched_setaffinity(id, size, mask);
}

static bool may_run_on(pid_t id, int core) {
    cpu_set_t mask;
    CHECK(sched_getaffinity(id, sizeof mask, &mask) == 0);
    return CPU_ISSET((size_t)core, &mask);
}

uint32_t __wrap_voldazpe_lib_member_step(voldazpe_member_handle_t *handle, uint32_t client,
                                         const voldazpe_order_t *order, voldazpe_reply_t *reply) {
    if (order->kind == VOLDAZPE_RETIRE && VOLDAZPE_LOAD(&giver)) {
        CHECK(!may_run_on(VOLDAZPE_LOAD(&giver), VOLDAZPE_LOAD(&given)));
        atomic_fetch_add(&retired, 1);
    }
    return __real_voldazpe_lib_member_step(handle, client, order, reply);
}

static cpu_set_t mask_of(pid_t id) {
    cpu_set_t mask;
    CHECK(sched_getaffinity(id, sizeof mask, &mask) == 0);
    return mask;
}

static bool is_on(const voldazpe_house_thread_t *me) {
    cpu_set_t mask = mask_of(0);
    int core = voldazpe_house_core(me);
    return CPU_COUNT(&mask) == 1 && CPU_ISSET((size_t)core, &mask) && sched_getcpu() == core;
}

static bool runs_on(pid_t id, const cpu_set_t *processors) {
    cpu_set_t mask = mask_of(id);
    return CPU_EQUAL(&mask, processors);
}

/* ---- one thread ---- */

/* Clears the hardware threads beside one, which are left out. */
static void clear_beside(size_t processor, cpu_set_t *set) {
    char path[100], text[200] = "";
    CHECK(snprintf(path, sizeof path, "/sys/devices/system/cpu/cpu%zu/topology/thread_siblings_list", processor) > 0);
    FILE *file = fopen(path, "r");
    if (!file) return;
    if (fgets(text, sizeof text, file)) {
        for (char *at = text; *at >= '0' && *at <= '9'; at += *at == ',') { /* as in 2-3,6 */
            unsigned long first = strtoul(at, &at, 10), last = first;
            if (*at == '-') last = strtoul(at + 1, &at, 10);
            for (; first <= last; first++) {
                if (first != processor) CPU_CLR(first, set);
            }
        }
    }
    fclose(file);
}

static void open_own(const voldazpe_house_options_t *options) {
    voldazpe_house_owner_t owners[VOLDAZPE_CORES];
    size_t count;
    const voldazpe_house_options_t patient = {.grace = NEVER};
    OK(voldazpe_house_open(NULL, 0, options ? options : &patient, &house));
    OK(voldazpe_house_join(house, "one", &application));
    OK(voldazpe_house_join(house, "other", &other));
    OK(voldazpe_house_owners(house, owners, VOLDAZPE_CORES, &count));
    unmanaged = all;
    for (size_t i = 0; i < CPU_SETSIZE; i++) {
        if (CPU_ISSET(i, &unmanaged)) clear_beside(i, &unmanaged);
    }
    for (size_t i = 0; i < count; i++) CPU_CLR(owners[i].core, &unmanaged);
}

static void one_thread(void) {
    voldazpe_house_thread_t *me;
    open_own(NULL);
    OK(voldazpe_house_register(house, application, &me));
    CHECK(runs_on(0, &unmanaged));
    OK(voldazpe_house_want(house, application, 0, 1));
    OK(voldazpe_house_wait(me, -1));
    CHECK(is_on(me));
    VOLDAZPE_STORE(&given, voldazpe_house_core(me));
    VOLDAZPE_STORE(&giver, gettid());
    OK(voldazpe_house_give_back(me));
    VOLDAZPE_STORE(&giver, 0);
    CHECK(VOLDAZPE_LOAD(&retired) == 1 && runs_on(0, &unmanaged));
    OK(voldazpe_house_wait(me, -1));
    CHECK(is_on(me));
    OK(voldazpe_house_want(house, application, 0, 0)); /* asked back: it waits, and wakes without */
    CHECK(voldazpe_house_wait(me, 5000000) == VOLDAZPE_TIMED_OUT);
    CHECK(runs_on(0, &unmanaged) && CPU_ISSET((size_t)sched_getcpu(), &unmanaged));
    OK(voldazpe_house_want(house, application, 0, 1));
    OK(voldazpe_house_wait(me, -1));
    uint32_t before = VOLDAZPE_LOAD(&pinnings);
    OK(voldazpe_house_want(house, application, 0, 0));
    OK(voldazpe_house_want(house, application, 0, 1)); /* asked back, and no longer */
    OK(voldazpe_house_wait(me, -1));
    CHECK(is_on(me) && VOLDAZPE_LOAD(&pinnings) == before); /* it is pinned already */
    OK(voldazpe_house_leave(me));
    CHECK(runs_on(0, &all));

    OK(voldazpe_house_register(house, application, &me));
    OK(voldazpe_house_wait(me, -1));
    OK(voldazpe_house_withdraw(house, application));
    CHECK(runs_on(0, &all));
    OK(voldazpe_house_leave(me));
    OK(voldazpe_house_register(house, other, &me));
    OK(voldazpe_house_want(house, other, 0, 1));
    OK(voldazpe_house_wait(me, -1));
    CHECK(is_on(me));
    OK(voldazpe_house_close(house));
    CHECK(runs_on(0, &all));
    OK(voldazpe_house_leave(me));
    CHECK(runs_on(0, &all));
}

/* ---- several ---- */

static VOLDAZPE_ATOMIC(pid_t) id;
static VOLDAZPE_ATOMIC(int) core;
static VOLDAZPE_ATOMIC(bool) go_on;

static void *stays_on(void *unused) {
    voldazpe_house_thread_t *me;
    OK(voldazpe_house_register(house, application, &me));
    OK(voldazpe_house_wait(me, -1));
    CHECK(is_on(me));
    VOLDAZPE_STORE(&core, voldazpe_house_core(me));
    VOLDAZPE_STORE(&id, gettid());
    while (!VOLDAZPE_LOAD(&go_on)) {}
    CHECK(voldazpe_house_core(me) == -1 && runs_on(0, &unmanaged));
    return unused;
}

/* a thread that stays is unpinned as it runs */
static void moves(void) {
    const voldazpe_house_options_t options = {.grace = 2000};
    open_own(&options);
    OK(voldazpe_house_want(house, application, 0, 1));
    VOLDAZPE_STORE(&id, 0);
    VOLDAZPE_STORE(&go_on, false);
    pthread_t thread = start_thread(stays_on, NULL);
    UNTIL(VOLDAZPE_LOAD(&id) != 0);
    CHECK(may_run_on(VOLDAZPE_LOAD(&id), VOLDAZPE_LOAD(&core)));
    OK(voldazpe_house_want(house, application, 0, 0));
    UNTIL(state_of(house).moved == 1);
    UNTIL(runs_on(VOLDAZPE_LOAD(&id), &unmanaged));
    VOLDAZPE_STORE(&go_on, true);
    join_thread(thread);
    OK(voldazpe_house_close(house));
}

/* ---- the house's own thread */

/* the number of the thread of a name, or 0 */
static pid_t thread_named(const char *name) {
    char path[64], comm[32];
    pid_t found = 0;
    DIR *tasks = opendir("/proc/self/task");
    CHECK(tasks);
    for (struct dirent *task; (task = readdir(tasks));) {
        long number = strtol(task->d_name, NULL, 10);
        if (number == 0 || snprintf(path, sizeof path, "/proc/self/task/%ld/comm", number) < 0) continue;
        FILE *file = fopen(path, "r");
        if (!file) continue;
        if (fgets(comm, sizeof comm, file) && strncmp(comm, name, strlen(name)) == 0) found = (pid_t)number;
        fclose(file);
    }
    closedir(tasks);
    return found;
}

/* It takes no policy of an idle opener. */
static void is_not_idle(void) {
    const struct sched_param none = {0};
    CHECK(sched_setscheduler(0, SCHED_IDLE, &none) == 0);
    bool may = sched_setscheduler(0, SCHED_OTHER, &none) == 0 && sched_setscheduler(0, SCHED_IDLE, &none) == 0;
    OK(voldazpe_house_open(NULL, 0, NULL, &house));
    if (may) CHECK(sched_setscheduler(0, SCHED_OTHER, &none) == 0);
    pid_t own = thread_named("voldazpe-house");
    CHECK(own && sched_getscheduler(own) == (may ? SCHED_OTHER : SCHED_IDLE));
    OK(voldazpe_house_close(house));
}

/* ---- a thread that its own call moves, since it stayed for the grace */

static VOLDAZPE_ATOMIC(bool) held;

/* keeps the house's own thread from its ticks */
static void holds(void *unused, voldazpe_house_text_t text, const char *bytes, size_t length) {
    (void)unused, (void)text, (void)bytes, (void)length;
    while (VOLDAZPE_LOAD(&held)) pause_for(100000);
}

static void moves_itself(void) {
    const voldazpe_house_options_t options = {.grace = 5000, .journal = holds};
    voldazpe_house_thread_t *me;
    VOLDAZPE_STORE(&held, false);
    open_own(&options);
    OK(voldazpe_house_register(house, application, &me));
    OK(voldazpe_house_want(house, application, 1, 1));
    OK(voldazpe_house_wait(me, -1));
    int mine = voldazpe_house_core(me);
    VOLDAZPE_STORE(&held, true);
    for (uint32_t i = 0; i < 5000; i++) OK(voldazpe_house_want(house, other, 7, i % 2)); /* the journal is half full */
    pause_for(5000000);
    OK(voldazpe_house_want(house, application, 1, 0)); /* asked back */
    CHECK(!voldazpe_house_keep(me));
    pause_for(20000000);
    CHECK(voldazpe_house_core(me) == mine && state_of(house).moved == 0);
    VOLDAZPE_STORE(&mover, gettid());
    pthread_t thread = start_thread(looks_in, NULL);
    OK(voldazpe_house_want(house, other, 7, 2)); /* a tick comes before it */
    CHECK(voldazpe_house_core(me) == -1 && runs_on(0, &unmanaged) && state_of(house).moved == 1);
    CHECK(VOLDAZPE_LOAD(&migrations) == 1);
    VOLDAZPE_STORE(&mover, 0);
    join_thread(thread);
    VOLDAZPE_STORE(&held, false);
    OK(voldazpe_house_leave(me));
    OK(voldazpe_house_close(house));
}

/* ---- a thread that left its core for a tick, and isn't moved, goes back there, unless it was ended meanwhile */

static void withdraw_other(void) { OK(voldazpe_house_withdraw(house, other)); }
static void withdraw_its(void) { OK(voldazpe_house_withdraw(house, application)); }

static void steps_back(bool is_ended) {
    const voldazpe_house_options_t options = {.grace = 5000, .journal = holds};
    voldazpe_house_thread_t *me;
    VOLDAZPE_STORE(&held, false);
    open_own(&options);
    OK(voldazpe_house_register(house, application, &me));
    OK(voldazpe_house_want(house, application, 1, 1));
    OK(voldazpe_house_wait(me, -1));
    VOLDAZPE_STORE(&held, true); /* keeps the house's own thread from its ticks */
    for (uint32_t i = 0; i < 5000; i++) OK(voldazpe_house_want(house, other, 7, i % 2));
    pause_for(5000000);
    OK(voldazpe_house_want(house, other, 0, VOLDAZPE_CORES)); /* this thread's core too is asked back */
    CHECK(!voldazpe_house_keep(me));
    pause_for(20000000);
    as_it_leaves = withdraw_other; /* its core is wanted back no longer */
    as_it_returns = is_ended ? withdraw_its : NULL;
    OK(voldazpe_house_want(house, application, 1, 2));
    CHECK(!as_it_leaves && !as_it_returns);
    if (is_ended) CHECK(voldazpe_house_core(me) == -1 && runs_on(0, &all));
    else CHECK(voldazpe_house_keep(me) && is_on(me));
    VOLDAZPE_STORE(&held, false);
    OK(voldazpe_house_leave(me));
    OK(voldazpe_house_close(house));
}

/* ---- a wait without sleep: the thread leaves its core before it may give it back, and goes back if it keeps it */

static VOLDAZPE_ATOMIC(uint32_t) got, lost;

static void counts(void *unused, const voldazpe_house_event_t *event) {
    (void)unused;
    atomic_fetch_add(&got, event->kind == VOLDAZPE_HOUSE_GOT);
    atomic_fetch_add(&lost, event->kind == VOLDAZPE_HOUSE_LOST);
}

static bool has_told(uint32_t gots, uint32_t losses) {
    return VOLDAZPE_LOAD(&got) == gots && VOLDAZPE_LOAD(&lost) == losses;
}

static void wants_again(void) { OK(voldazpe_house_want(house, application, 0, 1)); }

static void polls(bool hooked) {
    const voldazpe_house_options_t options = {.grace = NEVER, .hook = hooked ? counts : NULL};
    voldazpe_house_thread_t *me;
    VOLDAZPE_STORE(&got, 0);
    VOLDAZPE_STORE(&lost, 0);
    open_own(&options);
    OK(voldazpe_house_register(house, application, &me));
    OK(voldazpe_house_want(house, application, 0, 1));
    OK(voldazpe_house_wait(me, 0));
    CHECK(is_on(me) && (!hooked || has_told(1, 0)));
    VOLDAZPE_STORE(&given, voldazpe_house_core(me));
    OK(voldazpe_house_want(house, application, 0, 0));
    VOLDAZPE_STORE(&retired, 0);
    VOLDAZPE_STORE(&giver, gettid()); /* it must no longer be pinned there when the order is given */
    CHECK(voldazpe_house_wait(me, 0) == VOLDAZPE_TIMED_OUT);
    VOLDAZPE_STORE(&giver, 0);
    CHECK(VOLDAZPE_LOAD(&retired) == 1 && runs_on(0, &unmanaged) && CPU_ISSET((size_t)sched_getcpu(), &unmanaged));
    OK(voldazpe_house_want(house, application, 0, 1));
    OK(voldazpe_house_wait(me, 0));
    CHECK(is_on(me) && (!hooked || has_told(2, 1)));
    uint64_t before = state_of(house).orders;
    for (int times = 1; times <= 3; times++) { /* its core is wanted back no longer once it has left it: it was never lost */
        OK(voldazpe_house_want(house, application, 0, 0));
        as_it_leaves = wants_again;
        OK(voldazpe_house_wait(me, 0));
        CHECK(!as_it_leaves && is_on(me) && voldazpe_house_keep(me));
        CHECK((!hooked || has_told(2, 1)) && state_of(house).orders == before + 2 * (uint32_t)times);
    }
    OK(voldazpe_house_leave(me));
    CHECK(runs_on(0, &all) && (!hooked || has_told(2, 2)));
    OK(voldazpe_house_close(house));
}

/* a thread that pins itself, and whose application is withdrawn as it gives its core back, has its own mask again */
static void is_ended_as_it_gives_back(void) {
    voldazpe_house_thread_t *me;
    cpu_set_t own = unmanaged;
    open_own(NULL);
    OK(voldazpe_house_want(house, application, 0, 1));
    for (size_t i = 0; i < CPU_SETSIZE && CPU_COUNT(&own) == CPU_COUNT(&unmanaged); i++) {
        if (CPU_ISSET(i, &all)) CPU_SET(i, &own); /* one more, which is managed */
    }
    CHECK(__real_sched_setaffinity(0, sizeof own, &own) == 0);
    OK(voldazpe_house_register(house, application, &me));
    OK(voldazpe_house_wait(me, -1));
    as_it_leaves = withdraw_its;
    CHECK(voldazpe_house_give_back(me) == VOLDAZPE_HOUSE_WITHDRAWN && !as_it_leaves && runs_on(0, &own));
    OK(voldazpe_house_leave(me));
    CHECK(runs_on(0, &own));
    OK(voldazpe_house_close(house));
    CHECK(__real_sched_setaffinity(0, sizeof all, &all) == 0);
}

static VOLDAZPE_ATOMIC(uint32_t) cleaned;

static void clean(void *thread) {
    (void)thread;
    CHECK(!may_run_on(0, VOLDAZPE_LOAD(&core)));
    atomic_fetch_add(&cleaned, 1);
}

static void *is_cancelled(void *unused) {
    voldazpe_house_thread_t *me;
    OK(voldazpe_house_register(house, application, &me));
    OK(voldazpe_house_wait(me, -1));
    VOLDAZPE_STORE(&core, voldazpe_house_core(me));
    while (voldazpe_house_keep(me)) {}
    VOLDAZPE_STORE(&id, gettid());
    pthread_cleanup_push(clean, me);
    OK(voldazpe_house_wait(me, -1)); /* it gives its core back, and sleeps there */
    pthread_cleanup_pop(0);
    return unused;
}

/* a cancelled thread's handlers don't run on the core that it gave back */
static void cancels(void) {
    for (int round = 0; round < 20; round++) {
        open_own(NULL);
        OK(voldazpe_house_want(house, application, 0, 1));
        VOLDAZPE_STORE(&id, 0);
        pthread_t thread = start_thread(is_cancelled, NULL);
        UNTIL(counts_of(house, application).owned == 1);
        OK(voldazpe_house_want(house, application, 0, 0));
        UNTIL(VOLDAZPE_LOAD(&id) != 0);
        UNTIL(counts_of(house, application).waiting == 1);
        pause_for(1000000);
        CHECK(pthread_cancel(thread) == 0);
        CHECK(join_thread(thread) == PTHREAD_CANCELED);
        OK(voldazpe_house_close(house));
    }
    CHECK(VOLDAZPE_LOAD(&cleaned) == 20);
}

/* ---- a thread that sleeps where its core was, and whose wait ends without one ---- */

typedef enum { LIMIT, CLOSE, WITHDRAW, SIGNAL_AND_LIMIT, SIGNAL_AND_CLOSE, ENDS } end_t;

static VOLDAZPE_ATOMIC(uint32_t) handled;
static VOLDAZPE_ATOMIC(int64_t) began; /* when the thread went to wait */
static VOLDAZPE_ATOMIC(bool) woke;
static int64_t limit;                  /* of its wait, or below 0 */

static void handle(int signal) {
    (void)signal;
    atomic_fetch_add(&handled, 1);
}

static void *wakes_without(void *argument) {
    end_t end = *(end_t *)argument;
    bool at_limit = end == LIMIT || end == SIGNAL_AND_LIMIT;
    voldazpe_house_thread_t *me;
    OK(voldazpe_house_register(house, application, &me));
    OK(voldazpe_house_wait(me, -1));
    VOLDAZPE_STORE(&core, voldazpe_house_core(me));
    while (voldazpe_house_keep(me)) {}
    VOLDAZPE_STORE(&began, nanoseconds_now());
    VOLDAZPE_STORE(&id, gettid());
    voldazpe_house_code_t code = voldazpe_house_wait(me, limit);
    VOLDAZPE_STORE(&woke, true);
    int runs = sched_getcpu();
    CHECK(runs_on(0, at_limit ? &unmanaged : &all) && CPU_ISSET((size_t)runs, at_limit ? &unmanaged : &all));
    CHECK(code == (at_limit ? VOLDAZPE_TIMED_OUT
                   : end == WITHDRAW ? VOLDAZPE_HOUSE_WITHDRAWN : (uint32_t)VOLDAZPE_HOUSE_CLOSED));
    while (!VOLDAZPE_LOAD(&go_on)) pause_for(50000);
    return NULL;
}

/* False where the limit was over before all was looked at, as on a busy machine. */
static bool wakes(end_t end) {
    open_own(NULL);
    OK(voldazpe_house_want(house, application, 0, 1));
    VOLDAZPE_STORE(&id, 0);
    VOLDAZPE_STORE(&handled, 0);
    VOLDAZPE_STORE(&woke, false);
    VOLDAZPE_STORE(&go_on, false);
    pthread_t thread = start_thread(wakes_without, &end);
    UNTIL(counts_of(house, application).owned == 1);
    OK(voldazpe_house_want(house, application, 0, 0));
    UNTIL(VOLDAZPE_LOAD(&woke) || (VOLDAZPE_LOAD(&id) != 0 && counts_of(house, application).waiting == 1));
    pause_for(5000000);
    bool stays = may_run_on(VOLDAZPE_LOAD(&id), VOLDAZPE_LOAD(&core));
    for (int i = 0; i < 5 && end >= SIGNAL_AND_LIMIT; i++) {
        CHECK(pthread_kill(thread, SIGUSR1) == 0);
        pause_for(1000000);
    }
    bool in_time = limit < 0 || nanoseconds_now() < VOLDAZPE_LOAD(&began) + limit;
    CHECK(stays || !in_time); /* it sleeps, and hasn't been moved about before */
    if (end == WITHDRAW) OK(voldazpe_house_withdraw(house, application));
    if (end == CLOSE || end == SIGNAL_AND_CLOSE) OK(voldazpe_house_close(house));
    VOLDAZPE_STORE(&go_on, true);
    join_thread(thread);
    CHECK((VOLDAZPE_LOAD(&handled) > 0) == (end >= SIGNAL_AND_LIMIT));
    if (end != CLOSE && end != SIGNAL_AND_CLOSE) OK(voldazpe_house_close(house));
    return in_time;
}

static void wakes_in_each_way(void) {
    struct sigaction action = {.sa_handler = handle};
    CHECK(sigaction(SIGUSR1, &action, NULL) == 0);
    for (int round = 0; round < 3; round++) {
        for (int end = LIMIT; end < ENDS; end++) {
            limit = end == LIMIT || end == SIGNAL_AND_LIMIT ? 100000000 : -1;
            for (; !wakes((end_t)end); limit *= 3) CHECK(limit < 10000000000); /* once more, with more time */
        }
    }
}

static void *is_started_pinned(void *unused) {
    voldazpe_house_thread_t *me;
    OK(voldazpe_house_register(house, other, &me));
    CHECK(runs_on(0, &unmanaged));
    OK(voldazpe_house_leave(me));
    CHECK(runs_on(0, &all));
    return unused;
}

/* a thread that is started by a registered one, with a core or without, is unpinned where it registers, and may run anywhere
 * once it has left */
static void inherits(void) {
    voldazpe_house_thread_t *me;
    open_own(NULL);
    OK(voldazpe_house_want(house, application, 0, 1));
    OK(voldazpe_house_register(house, application, &me));
    join_thread(start_thread(is_started_pinned, NULL));
    OK(voldazpe_house_wait(me, -1));
    join_thread(start_thread(is_started_pinned, NULL));
    OK(voldazpe_house_close(house));
    OK(voldazpe_house_leave(me));
}

/* ---- what is refused ---- */

static VOLDAZPE_ATOMIC(uint32_t) told;

static void hook(void *unused, const voldazpe_house_event_t *event) {
    (void)unused;
    if (event->kind == VOLDAZPE_HOUSE_REFUSED) atomic_fetch_add(&told, 1);
}

static void works_once(voldazpe_house_t *in) {
    voldazpe_house_thread_t *me;
    OK(voldazpe_house_want(in, application, 0, 1));
    OK(voldazpe_house_register(in, application, &me));
    for (int i = 0; i < 3; i++) {
        OK(voldazpe_house_wait(me, -1));
        CHECK(voldazpe_house_keep(me));
        OK(voldazpe_house_give_back(me));
    }
    OK(voldazpe_house_leave(me));
}

static void is_refused(void) {
    const voldazpe_house_options_t options = {.hook = hook, .grace = NEVER};
    open_own(&options);
    CHECK(voldazpe_house_affinity(house) == VOLDAZPE_OK && state_of(house).refused == 0);
    VOLDAZPE_STORE(&refuses, EPERM);
    works_once(house);
    CHECK(voldazpe_house_affinity(house) == VOLDAZPE_HOUSE_UNPINNED && state_of(house).refused == EPERM);
    CHECK(VOLDAZPE_LOAD(&told) == 1); /* once */
    VOLDAZPE_STORE(&refuses, 0);
    works_once(house);
    CHECK(VOLDAZPE_LOAD(&told) == 1 && voldazpe_house_affinity(house) == VOLDAZPE_HOUSE_UNPINNED);
    OK(voldazpe_house_close(house));
    CHECK(runs_on(0, &all));
}

/* a core that isn't there: its thread may run anywhere, and the house goes on */
static void is_missing(void) {
    static const char missing[] = "[[socket]]\nmanaged = [1023]\nunmanaged = [0]\n";
    voldazpe_house_thread_t *me;
    OK(voldazpe_house_open(missing, strlen(missing), NULL, &house));
    OK(voldazpe_house_join(house, "missing", &application));
    OK(voldazpe_house_want(house, application, 0, 1));
    OK(voldazpe_house_register(house, application, &me));
    CHECK(voldazpe_house_affinity(house) == VOLDAZPE_OK);
    OK(voldazpe_house_wait(me, -1));
    CHECK(voldazpe_house_affinity(house) == VOLDAZPE_HOUSE_UNPINNED && state_of(house).refused == EINVAL);
    CHECK(voldazpe_house_core(me) == 1023 && runs_on(0, &all));
    OK(voldazpe_house_close(house));
    OK(voldazpe_house_leave(me));
}

/* a house that never pins */
static void never_pins(void) {
    const voldazpe_house_options_t options = {.unpinned = true, .grace = NEVER};
    open_own(&options);
    uint32_t before = VOLDAZPE_LOAD(&pinnings);
    works_once(house);
    OK(voldazpe_house_close(house));
    CHECK(VOLDAZPE_LOAD(&pinnings) == before && runs_on(0, &all));
}

int main(void) {
    CHECK(sched_getaffinity(0, sizeof all, &all) == 0);
    if (CPU_COUNT(&all) < 2) {
        printf("affinity: skipped: this process may use one processor alone\n");
        return 0;
    }
    one_thread();
    moves();
    moves_itself();
    steps_back(false);
    steps_back(true);
    polls(true);
    polls(false);
    is_ended_as_it_gives_back();
    cancels();
    wakes_in_each_way();
    inherits();
    is_refused();
    is_missing();
    never_pins();
    is_not_idle(); /* last, since this thread may be unable to change back */
    return 0;
}
