/* Functions that are each told of one application's events, besides the hook of the options: which events, how often,
 * and when `done` says that a function isn't called any more. */
#include "check.h"

static const char machine[] = "[[socket]]\nmanaged = [3, 5]\nunmanaged = [0]\n";

static voldazpe_house_t *house;
static voldazpe_house_application_t first, second;

/* what a function was told */
typedef struct told {
    VOLDAZPE_ATOMIC(uint32_t) of[6];                 /* how often, of each kind */
    VOLDAZPE_ATOMIC(voldazpe_house_application_t) whose; /* of the last one */
    VOLDAZPE_ATOMIC(uint32_t) due;                   /* of the last DUE */
    VOLDAZPE_ATOMIC(uint32_t) done;                  /* how often */
    VOLDAZPE_ATOMIC(bool) inside;                    /* whether a call goes on */
    VOLDAZPE_ATOMIC(bool) waits, may_go;             /* a call that takes its time */
} told_t;

static void note(void *context, const voldazpe_house_event_t *event) {
    told_t *told = context;
    CHECK(VOLDAZPE_LOAD(&told->done) == 0);
    VOLDAZPE_STORE(&told->inside, true);
    VOLDAZPE_STORE(&told->whose, event->application);
    if (event->kind == VOLDAZPE_HOUSE_DUE) VOLDAZPE_STORE(&told->due, event->due);
    atomic_fetch_add(&told->of[event->kind], 1);
    if (VOLDAZPE_LOAD(&told->waits)) UNTIL(VOLDAZPE_LOAD(&told->may_go));
    VOLDAZPE_STORE(&told->inside, false);
}

static void done(void *context) {
    told_t *told = context;
    CHECK(!VOLDAZPE_LOAD(&told->inside));
    atomic_fetch_add(&told->done, 1);
}

static uint32_t of(told_t *told, voldazpe_house_event_kind_t kind) { return VOLDAZPE_LOAD(&told->of[kind]); }
static uint32_t events(told_t *told) {
    uint32_t sum = 0;
    for (int kind = 0; kind < 6; kind++) sum += VOLDAZPE_LOAD(&told->of[kind]);
    return sum;
}

static void open_house(voldazpe_house_hook_t hook, void *context) {
    voldazpe_house_options_t options = VOLDAZPE_INIT;
    options.unpinned = true;
    options.grace = NEVER;
    options.hook = hook;
    options.hook_context = context;
    options.done = hook ? done : NULL;
    house = open_text(machine, &options);
    OK(voldazpe_house_join(house, "first", &first));
    OK(voldazpe_house_join(house, "second", &second));
}

/* ---- each is told of its own application */

static void each_its_own(bool with_hook) {
    told_t one = VOLDAZPE_INIT, two = VOLDAZPE_INIT, all = VOLDAZPE_INIT;
    voldazpe_house_thread_t *me;
    open_house(with_hook ? note : NULL, &all);
    OK(voldazpe_house_watch(house, first, note, &one, done));
    OK(voldazpe_house_watch(house, second, note, &two, NULL));
    OK(voldazpe_house_register(house, first, &me));
    OK(voldazpe_house_want(house, first, 1, 2));
    CHECK(of(&one, VOLDAZPE_HOUSE_DUE) == 1 && VOLDAZPE_LOAD(&one.due) == 2 && events(&one) == 1);
    OK(voldazpe_house_wait(me, -1));
    CHECK(of(&one, VOLDAZPE_HOUSE_GOT) == 1 && VOLDAZPE_LOAD(&one.whose) == first && events(&two) == 0);
    OK(voldazpe_house_want(house, second, 0, 2)); /* all cores are due to the second */
    CHECK(of(&one, VOLDAZPE_HOUSE_DUE) == 2 && VOLDAZPE_LOAD(&one.due) == 0);
    CHECK(of(&one, VOLDAZPE_HOUSE_ASKED) == 1);
    CHECK(events(&two) == 1 && VOLDAZPE_LOAD(&two.due) == 2 && VOLDAZPE_LOAD(&two.whose) == second);
    CHECK(voldazpe_house_wait(me, 1000000) == VOLDAZPE_TIMED_OUT); /* it gives its core back first */
    CHECK(of(&one, VOLDAZPE_HOUSE_LOST) == 1 && events(&one) == 5 && events(&two) == 1);
    OK(voldazpe_house_leave(me));
    OK(voldazpe_house_register(house, second, &me));
    OK(voldazpe_house_wait(me, -1));
    OK(voldazpe_house_give_back(me));
    CHECK(of(&two, VOLDAZPE_HOUSE_GOT) == 1 && of(&two, VOLDAZPE_HOUSE_LOST) == 1 && VOLDAZPE_LOAD(&two.whose) == second);
    CHECK(events(&one) == 5 && events(&two) == 3);
    if (with_hook) CHECK(events(&all) == 8);
    /* another in its place, and none */
    told_t other = VOLDAZPE_INIT;
    OK(voldazpe_house_watch(house, first, note, &other, done));
    CHECK(VOLDAZPE_LOAD(&one.done) == 1 && events(&other) == 0);
    OK(voldazpe_house_want(house, second, 0, 1));
    CHECK(of(&other, VOLDAZPE_HOUSE_DUE) == 1 && VOLDAZPE_LOAD(&other.due) == 1 && events(&one) == 5);
    OK(voldazpe_house_watch(house, first, NULL, NULL, NULL));
    CHECK(VOLDAZPE_LOAD(&other.done) == 1);
    OK(voldazpe_house_want(house, second, 0, 0));
    CHECK(events(&other) == 1 && events(&two) == 5);
    OK(voldazpe_house_leave(me));
    CHECK(VOLDAZPE_LOAD(&all.done) == 0);
    OK(voldazpe_house_close(house));
    CHECK(VOLDAZPE_LOAD(&one.done) == 1 && VOLDAZPE_LOAD(&other.done) == 1 && VOLDAZPE_LOAD(&all.done) == with_hook);
}

/* ---- what is due already isn't told, but each change of it */

static void begun_late(void) {
    told_t one = VOLDAZPE_INIT;
    open_house(NULL, NULL);
    OK(voldazpe_house_want(house, first, 0, 2));
    OK(voldazpe_house_watch(house, first, note, &one, done));
    OK(voldazpe_house_want(house, second, 7, 1));
    CHECK(events(&one) == 0);
    OK(voldazpe_house_want(house, first, 0, 1));
    CHECK(events(&one) == 1 && VOLDAZPE_LOAD(&one.due) == 1);
    OK(voldazpe_house_close(house));
    CHECK(VOLDAZPE_LOAD(&one.done) == 1);
}

/* ---- the ends */

static void *wants(void *cores) {
    OK(voldazpe_house_want(house, first, 0, (uint32_t)(uintptr_t)cores));
    return NULL;
}

/* a withdrawal, or another function, in the middle of a call: done comes once that has returned, in its thread */
static void ends_meanwhile(bool withdrawn) {
    told_t slow = VOLDAZPE_INIT;
    open_house(NULL, NULL);
    OK(voldazpe_house_watch(house, first, note, &slow, done));
    VOLDAZPE_STORE(&slow.waits, true);
    pthread_t thread = start_thread(wants, (void *)1);
    UNTIL(VOLDAZPE_LOAD(&slow.inside));
    if (withdrawn) OK(voldazpe_house_withdraw(house, first));
    else OK(voldazpe_house_watch(house, first, NULL, NULL, NULL));
    CHECK(VOLDAZPE_LOAD(&slow.done) == 0 && VOLDAZPE_LOAD(&slow.inside));
    VOLDAZPE_STORE(&slow.may_go, true);
    join_thread(thread);
    CHECK(VOLDAZPE_LOAD(&slow.done) == 1);
    OK(voldazpe_house_close(house));
    CHECK(VOLDAZPE_LOAD(&slow.done) == 1);
}

static void *works(void *unused) {
    voldazpe_house_thread_t *me;
    OK(voldazpe_house_register(house, first, &me));
    while (voldazpe_house_wait(me, -1) == VOLDAZPE_OK) {
        while (voldazpe_house_keep(me)) pause_for(50000);
    }
    OK(voldazpe_house_leave(me));
    return unused;
}

/* a close, and a withdrawal, tell that the threads lost their cores, and end with done */
static void told_at_the_end(bool withdrawn) {
    told_t one = VOLDAZPE_INIT;
    open_house(NULL, NULL);
    OK(voldazpe_house_watch(house, first, note, &one, done));
    OK(voldazpe_house_want(house, first, 0, 1));
    pthread_t thread = start_thread(works, NULL);
    UNTIL(of(&one, VOLDAZPE_HOUSE_GOT) == 1);
    if (withdrawn) OK(voldazpe_house_withdraw(house, first));
    else OK(voldazpe_house_close(house));
    CHECK(of(&one, VOLDAZPE_HOUSE_LOST) == 1 && VOLDAZPE_LOAD(&one.done) == 1);
    join_thread(thread);
    if (withdrawn) OK(voldazpe_house_close(house));
    CHECK(VOLDAZPE_LOAD(&one.done) == 1);
}

/* ---- what it answers: nothing is called then */

static void codes(void) {
    told_t one = VOLDAZPE_INIT;
    CHECK(voldazpe_house_watch(NULL, 1, note, &one, done) == VOLDAZPE_NULL);
    open_house(NULL, NULL);
    CHECK(voldazpe_house_watch(house, second + 1000, note, &one, done) == VOLDAZPE_HOUSE_WITHDRAWN);
    OK(voldazpe_house_withdraw(house, first));
    CHECK(voldazpe_house_watch(house, first, note, &one, done) == VOLDAZPE_HOUSE_WITHDRAWN);
    voldazpe_house_hold(house);
    OK(voldazpe_house_close(house));
    CHECK(voldazpe_house_watch(house, second, note, &one, done) == VOLDAZPE_HOUSE_CLOSED);
    voldazpe_house_let_go(house);
    CHECK(VOLDAZPE_LOAD(&one.done) == 0 && events(&one) == 0);
}

/* ---- many threads get and lose cores while functions come and go: each is done once, and not called afterwards */

enum { CHANGES = 2000 };
static told_t changing[CHANGES];

static void many_changes(void) {
    open_house(NULL, NULL);
    OK(voldazpe_house_want(house, first, 0, 1));
    pthread_t threads[3];
    for (int i = 0; i < 3; i++) threads[i] = start_thread(works, NULL);
    UNTIL(counts_of(house, first).threads == 3);
    for (uint32_t change = 0; change < CHANGES; change++) {
        OK(voldazpe_house_watch(house, first, note, &changing[change], done));
        OK(voldazpe_house_want(house, first, 0, 1 + change % 2));
        OK(voldazpe_house_want(house, second, 0, change % 3));
    }
    OK(voldazpe_house_close(house));
    for (int i = 0; i < 3; i++) join_thread(threads[i]);
    for (uint32_t change = 0; change < CHANGES; change++) CHECK(VOLDAZPE_LOAD(&changing[change].done) == 1);
}

int main(void) {
    each_its_own(false);
    each_its_own(true);
    begun_late();
    ends_meanwhile(true);
    ends_meanwhile(false);
    told_at_the_end(true);
    told_at_the_end(false);
    codes();
    many_changes();
    return 0;
}
