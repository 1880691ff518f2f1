/* A hook that takes its time slows only its own thread. A hook that is told of a core that its thread gave back doesn't
 * run on that core. */
#include "check.h"

/* nanoseconds; far from each other, since other work may go on beside */
#define SLOW INT64_C(3000000000)
#define SOON INT64_C(2000000000)

static voldazpe_house_t *house;
static voldazpe_house_application_t slow, other;

/* ---- a hook that sleeps where its thread says so */

static _Thread_local uint32_t sleeps_at; /* a kind of event, or 0 */
static VOLDAZPE_ATOMIC(uint32_t) slept;

static void sleeps(void *unused, const voldazpe_house_event_t *event) {
    (void)unused;
    if (event->kind != sleeps_at) return;
    pause_for(SLOW);
    atomic_fetch_add(&slept, 1);
}

static VOLDAZPE_ATOMIC(uint32_t) has_core, may_go;
static VOLDAZPE_ATOMIC(int64_t) came;

/* A thread that waits for a core, and says when it came. */
static void *waits(void *unused) {
    voldazpe_house_thread_t *me;
    OK(voldazpe_house_register(house, other, &me));
    OK(voldazpe_house_wait(me, -1));
    VOLDAZPE_STORE(&came, nanoseconds_now());
    OK(voldazpe_house_leave(me));
    return unused;
}

/* A thread that keeps its core for too long. */
static void *stays(void *unused) {
    voldazpe_house_thread_t *me;
    OK(voldazpe_house_register(house, other, &me));
    OK(voldazpe_house_wait(me, -1));
    VOLDAZPE_STORE(&has_core, 1);
    UNTIL(voldazpe_house_core(me) < 0);
    VOLDAZPE_STORE(&came, nanoseconds_now());
    UNTIL(VOLDAZPE_LOAD(&may_go));
    OK(voldazpe_house_leave(me));
    return unused;
}

/* Sleepers are woken before the hook is told, here that this thread loses a core by the call. */
static void sleepers_are_woken_first(void) {
    const voldazpe_house_options_t options = {.unpinned = true, .grace = NEVER, .hook = sleeps};
    voldazpe_house_thread_t *me;
    house = open_text("[[socket]]\nmanaged = [1]\nunmanaged = [0]\n", &options);
    OK(voldazpe_house_join(house, "slow", &slow));
    OK(voldazpe_house_join(house, "other", &other));
    OK(voldazpe_house_want(house, slow, 1, 1));
    OK(voldazpe_house_register(house, slow, &me));
    OK(voldazpe_house_wait(me, -1));
    OK(voldazpe_house_want(house, other, 0, 1));
    pthread_t thread = start_thread(waits, NULL);
    UNTIL(counts_of(house, other).waiting == 1);
    pause_for(20000000); /* it sleeps */
    sleeps_at = VOLDAZPE_HOUSE_LOST;
    int64_t began = nanoseconds_now();
    OK(voldazpe_house_give_back(me));
    CHECK(nanoseconds_now() - began >= SLOW && VOLDAZPE_LOAD(&slept) == 1);
    join_thread(thread);
    CHECK(VOLDAZPE_LOAD(&came) - began < SOON);
    sleeps_at = 0;
    OK(voldazpe_house_leave(me));
    OK(voldazpe_house_close(house));
}

/* So is the house's own thread, which ends a grace: the hook is told that the call asks the core back. */
static void a_grace_ends_meanwhile(void) {
    const voldazpe_house_options_t options = {.unpinned = true, .grace = 10000, .hook = sleeps};
    house = open_text("[[socket]]\nmanaged = [1]\nunmanaged = [0]\n", &options);
    OK(voldazpe_house_join(house, "slow", &slow));
    OK(voldazpe_house_join(house, "other", &other));
    OK(voldazpe_house_want(house, other, 1, 1));
    pthread_t thread = start_thread(stays, NULL);
    UNTIL(VOLDAZPE_LOAD(&has_core));
    sleeps_at = VOLDAZPE_HOUSE_ASKED;
    int64_t began = nanoseconds_now();
    OK(voldazpe_house_want(house, other, 1, 0));
    CHECK(nanoseconds_now() - began >= SLOW && VOLDAZPE_LOAD(&slept) == 2);
    UNTIL(VOLDAZPE_LOAD(&came) > began);
    CHECK(VOLDAZPE_LOAD(&came) - began < SOON);
    sleeps_at = 0;
    VOLDAZPE_STORE(&may_go, 1);
    join_thread(thread);
    OK(voldazpe_house_close(house));
}

/* ---- a hook that looks where it runs */

static VOLDAZPE_ATOMIC(uint32_t) told_lost;

static void looks(void *unused, const voldazpe_house_event_t *event) {
    cpu_set_t here;
    (void)unused;
    if (event->kind != VOLDAZPE_HOUSE_LOST) return;
    CHECK(sched_getaffinity(0, sizeof here, &here) == 0);
    CHECK(!CPU_ISSET(event->core, &here));
    atomic_fetch_add(&told_lost, 1);
}

static void *takes(void *unused) {
    voldazpe_house_thread_t *me;
    OK(voldazpe_house_register(house, other, &me));
    OK(voldazpe_house_wait(me, -1));
    UNTIL(VOLDAZPE_LOAD(&may_go));
    OK(voldazpe_house_give_back(me));
    OK(voldazpe_house_leave(me));
    return unused;
}

/* The core that a waiting thread gave back is another's by the time that the hook is told. */
static void told_elsewhere(void) {
    const voldazpe_house_options_t options = {.grace = NEVER, .hook = looks};
    voldazpe_house_owner_t owner;
    voldazpe_house_thread_t *me;
    size_t count;
    if (voldazpe_house_open(NULL, 0, &options, &house) != VOLDAZPE_OK || state_of(house).managed < 1 ||
        sysconf(_SC_NPROCESSORS_ONLN) < 2) {
        printf("hooks: skipped: where a hook runs, on fewer than two processors\n");
        return;
    }
    uint32_t cores = state_of(house).managed;
    OK(voldazpe_house_join(house, "gives", &slow));
    OK(voldazpe_house_join(house, "takes", &other));
    OK(voldazpe_house_want(house, slow, 1, cores));
    OK(voldazpe_house_register(house, slow, &me));
    OK(voldazpe_house_wait(me, -1));
    int core = voldazpe_house_core(me);
    VOLDAZPE_STORE(&may_go, 0);
    pthread_t thread = start_thread(takes, NULL);
    OK(voldazpe_house_want(house, other, 0, cores)); /* all of them: this thread's is asked back */
    UNTIL(!voldazpe_house_keep(me));
    CHECK(voldazpe_house_wait(me, 20000000) == VOLDAZPE_TIMED_OUT && VOLDAZPE_LOAD(&told_lost) == 1);
    OK(voldazpe_house_owners(house, &owner, 1, &count));
    CHECK(count == cores && (cores > 1 || (owner.core == core && owner.application == other)));
    VOLDAZPE_STORE(&may_go, 1);
    join_thread(thread);
    CHECK(VOLDAZPE_LOAD(&told_lost) == 2);
    OK(voldazpe_house_leave(me));
    OK(voldazpe_house_close(house));
}

int main(void) {
    sleepers_are_woken_first();
    a_grace_ends_meanwhile();
    told_elsewhere();
    return 0;
}
