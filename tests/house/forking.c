/* A fork: each call tells the child so. The child isn't pinned, and may open a house of its own. The parent goes on. */
#include "check.h"

#include <sys/wait.h>

static const char two[] = "[[socket]]\nmanaged = [1, 2]\nunmanaged = [0]\n";

static voldazpe_house_t *house;
static voldazpe_house_application_t application;
static VOLDAZPE_ATOMIC(bool) go_on;
static cpu_set_t all;

/* what the child of a registered thread meets */
static void in_the_child(voldazpe_house_thread_t *me, bool had_core) {
    voldazpe_house_application_t another;
    voldazpe_house_thread_t *again;
    voldazpe_house_counts_t counts;
    voldazpe_house_state_t state;
    voldazpe_house_t *own;
    cpu_set_t mask;
    size_t count;
    char name[8];
    CHECK(!voldazpe_house_keep(me) && voldazpe_house_core(me) == -1);
    CHECK(voldazpe_house_wait(me, -1) == VOLDAZPE_HOUSE_FORKED);
    CHECK(voldazpe_house_give_back(me) == VOLDAZPE_HOUSE_FORKED && voldazpe_house_leave(me) == VOLDAZPE_HOUSE_FORKED);
    CHECK(voldazpe_house_join(house, "x", &another) == VOLDAZPE_HOUSE_FORKED);
    CHECK(voldazpe_house_register(house, application, &again) == VOLDAZPE_HOUSE_FORKED);
    CHECK(voldazpe_house_want(house, application, 0, 1) == VOLDAZPE_HOUSE_FORKED);
    CHECK(voldazpe_house_cap(house, application, 1) == VOLDAZPE_HOUSE_FORKED);
    CHECK(voldazpe_house_withdraw(house, application) == VOLDAZPE_HOUSE_FORKED);
    CHECK(voldazpe_house_counts(house, application, &counts) == VOLDAZPE_HOUSE_FORKED);
    CHECK(voldazpe_house_name(house, application, name, sizeof name) == VOLDAZPE_HOUSE_FORKED);
    CHECK(voldazpe_house_owners(house, NULL, 0, &count) == VOLDAZPE_HOUSE_FORKED);
    CHECK(voldazpe_house_state(house, &state) == VOLDAZPE_HOUSE_FORKED);
    CHECK(voldazpe_house_affinity(house) == VOLDAZPE_HOUSE_FORKED);
    CHECK(voldazpe_house_close(house) == VOLDAZPE_HOUSE_FORKED);
    CHECK(sched_getaffinity(0, sizeof mask, &mask) == 0);
    CHECK(CPU_EQUAL(&mask, &all) || !had_core);
    if (VOLDAZPE_THREAD_SANITIZER) return; /* it doesn't know threads that a forked child starts */
    OK(voldazpe_house_open(two, strlen(two), &(voldazpe_house_options_t){.unpinned = true}, &own));
    OK(voldazpe_house_join(own, "child", &another));
    OK(voldazpe_house_want(own, another, 0, 1));
    OK(voldazpe_house_register(own, another, &again));
    OK(voldazpe_house_wait(again, -1));
    CHECK(voldazpe_house_keep(again));
    if (had_core) OK(voldazpe_house_leave(again)); /* otherwise it leaves when it ends */
    OK(voldazpe_house_close(own));
}

static void *child_ends(void *me) {
    pid_t child = fork();
    CHECK(child >= 0);
    if (child == 0) {
        in_the_child(me, false);
        pthread_exit(NULL); /* the only thread of the child: it ends by its handlers, and with it the process */
    }
    int status;
    CHECK(waitpid(child, &status, 0) == child);
    CHECK(WIFEXITED(status) && WEXITSTATUS(status) == 0);
    return NULL;
}

static void *hammers(void *unused) {
    voldazpe_house_thread_t *me;
    uint64_t state = (uint64_t)(uintptr_t)&me;
    OK(voldazpe_house_register(house, application, &me));
    while (VOLDAZPE_LOAD(&go_on)) {
        if (voldazpe_house_wait(me, 100000) == VOLDAZPE_OK) OK(voldazpe_house_give_back(me));
        OK(voldazpe_house_want(house, application, 0, next_random(&state) % 3));
    }
    return unused;
}

static void *forks_registered(void *unused) {
    voldazpe_house_thread_t *me;
    OK(voldazpe_house_register(house, application, &me));
    child_ends(me);
    return unused;
}

/* A child that is forked off in a hook is in none: it closes a house of its own, and registers there. */
static VOLDAZPE_ATOMIC(uint32_t) children;

static void forks(void *unused, const voldazpe_house_event_t *event) {
    (void)unused;
    if (event->kind != VOLDAZPE_HOUSE_DUE) return;
    pid_t child = fork();
    CHECK(child >= 0);
    if (child == 0) {
        voldazpe_house_t *own;
        voldazpe_house_application_t another;
        voldazpe_house_thread_t *me;
        CHECK(voldazpe_house_close(house) == VOLDAZPE_HOUSE_FORKED);
        if (VOLDAZPE_THREAD_SANITIZER) _exit(0);
        OK(voldazpe_house_open(two, strlen(two), &(voldazpe_house_options_t){.unpinned = true}, &own));
        OK(voldazpe_house_join(own, "child", &another));
        OK(voldazpe_house_register(own, another, &me));
        CHECK(voldazpe_house_wait(me, 0) == VOLDAZPE_TIMED_OUT);
        OK(voldazpe_house_leave(me));
        OK(voldazpe_house_close(own));
        _exit(0);
    }
    int status;
    CHECK(waitpid(child, &status, 0) == child && WIFEXITED(status) && WEXITSTATUS(status) == 0);
    CHECK(voldazpe_house_close(house) == VOLDAZPE_HOUSE_IN_HOOK); /* the parent is */
    atomic_fetch_add(&children, 1);
}

static void forks_in_a_hook(void) {
    const voldazpe_house_options_t options = {.unpinned = true, .hook = forks};
    house = open_text(two, &options);
    OK(voldazpe_house_join(house, "parent", &application));
    OK(voldazpe_house_want(house, application, 0, 1));
    CHECK(VOLDAZPE_LOAD(&children) == 1);
    OK(voldazpe_house_close(house));
}

int main(void) {
    voldazpe_house_thread_t *me;
    CHECK(sched_getaffinity(0, sizeof all, &all) == 0);
    if (VOLDAZPE_THREAD_SANITIZER) fprintf(stderr, "forking: skipped: a house of the child under ThreadSanitizer\n");
    OK(voldazpe_house_open(NULL, 0, NULL, &house)); /* pinned, with a core: the child isn't */
    OK(voldazpe_house_join(house, "parent", &application));
    OK(voldazpe_house_want(house, application, 0, 1));
    OK(voldazpe_house_register(house, application, &me));
    OK(voldazpe_house_wait(me, -1));
    int core = voldazpe_house_core(me);
    pid_t child = fork();
    CHECK(child >= 0);
    if (child == 0) {
        in_the_child(me, true);
        exit(0);
    }
    int status;
    CHECK(waitpid(child, &status, 0) == child && WIFEXITED(status) && WEXITSTATUS(status) == 0);
    CHECK(voldazpe_house_keep(me) && voldazpe_house_core(me) == core); /* the parent noticed nothing */
    OK(voldazpe_house_leave(me));
    OK(voldazpe_house_close(house));

    house = open_text(two, NULL); /* beside threads that are anywhere in the house */
    OK(voldazpe_house_join(house, "parent", &application));
    VOLDAZPE_STORE(&go_on, true);
    pthread_t threads[4];
    for (int i = 0; i < 4; i++) threads[i] = start_thread(hammers, NULL);
    UNTIL(counts_of(house, application).threads == 4); /* none of them allocates while another forks */
    for (int round = 0; round < 20; round++) join_thread(start_thread(forks_registered, NULL));
    VOLDAZPE_STORE(&go_on, false);
    for (int i = 0; i < 4; i++) join_thread(threads[i]);
    CHECK(state_of(house).threads == 0);
    OK(voldazpe_house_close(house));
    forks_in_a_hook();
    return 0;
}
