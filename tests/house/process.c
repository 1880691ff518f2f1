/* The houses of one process: which openers share one, until when its hook is called, which cores are refused, and in which houses
 * a thread may be registered. */
#include "check.h"

#include <sys/wait.h>

static const voldazpe_house_options_t unpinned = {.unpinned = true};

/* opens a house of this process's processors */
static voldazpe_house_code_t opens(const voldazpe_house_options_t *options, voldazpe_house_t **house) {
    *house = NULL;
    voldazpe_house_code_t code = voldazpe_house_open(NULL, 0, options, house);
    CHECK((code == VOLDAZPE_OK) == (*house != NULL));
    return code;
}

/* a house whose one managed core is this one */
static voldazpe_house_code_t opens_core(uint16_t core, const voldazpe_house_options_t *options, voldazpe_house_t **house) {
    char text[80];
    (void)snprintf(text, sizeof text, "[[socket]]\nmanaged = [%u]\nunmanaged = [%u]\n", core, core == 0);
    *house = NULL;
    voldazpe_house_code_t code = voldazpe_house_open(text, strlen(text), options, house);
    CHECK((code == VOLDAZPE_OK) == (*house != NULL));
    return code;
}

static uint16_t last_core_of(voldazpe_house_t *house) {
    voldazpe_house_owner_t owners[VOLDAZPE_CORES];
    size_t count;
    OK(voldazpe_house_owners(house, owners, VOLDAZPE_CORES, &count));
    return owners[count - 1].core;
}

/* ---- one house ---- */

static void each_close_is_counted(void) {
    voldazpe_house_t *one, *other;
    voldazpe_house_application_t application;
    OK(opens(NULL, &one));
    voldazpe_house_hold(one);
    CHECK(state_of(one).opens == 1);
    OK(opens(NULL, &other));
    CHECK(other == one && state_of(one).opens == 2);
    OK(voldazpe_house_join(one, "first", &application));
    OK(voldazpe_house_close(other));
    CHECK(state_of(one).opens == 1);
    OK(voldazpe_house_want(one, application, 0, 1));
    OK(voldazpe_house_close(one));
    CHECK(voldazpe_house_want(one, application, 0, 1) == VOLDAZPE_HOUSE_CLOSED);
    CHECK(voldazpe_house_close(one) == VOLDAZPE_HOUSE_CLOSED);
    OK(opens(NULL, &other));
    CHECK(other != one && state_of(other).applications == 0);
    OK(voldazpe_house_close(other));
    voldazpe_house_let_go(one);
}

static void hook(void *context, const voldazpe_house_event_t *event) { (void)context, (void)event; }
static void journal(void *context, voldazpe_house_text_t text, const char *bytes, size_t length) {
    (void)context, (void)text, (void)bytes, (void)length;
}
static void done(void *context) { (void)context; }

typedef struct row {
    voldazpe_house_options_t options;
    voldazpe_house_code_t code;
} row_t;

/* what other openers are answered, beside one with these options */
static void agree(const voldazpe_house_options_t *first, const row_t *rows, size_t count) {
    voldazpe_house_t *one, *other;
    OK(opens(first, &one));
    for (size_t i = 0; i < count; i++) {
        CHECK(opens(&rows[i].options, &other) == rows[i].code);
        CHECK(state_of(one).opens == (other ? 2 : 1));
        if (other) CHECK(other == one);
        if (other) OK(voldazpe_house_close(other));
    }
    OK(voldazpe_house_close(one));
}

/* options that differ from the house's own */
static void options_agree(void) {
    voldazpe_house_t *one, *other;
    int context = 0, another = 0;
    const voldazpe_house_options_t first = {.grace = 20000, .unmanaged = 1, .hook = hook, .hook_context = &context, .done = done};
    const row_t rows[] = {
        {{.grace = 20000}, VOLDAZPE_OK},
        {{.grace = 10000}, VOLDAZPE_HOUSE_OTHER_OPTIONS},
        {{.unmanaged = 1}, VOLDAZPE_OK},
        {{.unmanaged = 2}, VOLDAZPE_HOUSE_OTHER_OPTIONS},
        {{.hook = hook, .hook_context = &context}, VOLDAZPE_OK},
        {{.hook = hook}, VOLDAZPE_HOUSE_OTHER_OPTIONS},
        {{.hook_context = &context}, VOLDAZPE_OK},
        {{.done = done}, VOLDAZPE_OK},
        {{.done = free}, VOLDAZPE_HOUSE_OTHER_OPTIONS},
        {{.journal = journal}, VOLDAZPE_HOUSE_OTHER_OPTIONS},
        {{.journal_folder = "."}, VOLDAZPE_HOUSE_OTHER_OPTIONS},
    };
    const voldazpe_house_options_t journaled = {.journal = journal, .journal_context = &context};
    const row_t journals[] = {
        {{.journal = journal, .journal_context = &context}, VOLDAZPE_OK},
        {{.journal = journal, .journal_context = &another}, VOLDAZPE_HOUSE_OTHER_OPTIONS},
        {{.journal = journal}, VOLDAZPE_HOUSE_OTHER_OPTIONS},
        {{.hook = hook}, VOLDAZPE_HOUSE_OTHER_OPTIONS},
        {{.done = done}, VOLDAZPE_HOUSE_OTHER_OPTIONS},
        {{.journal = NULL}, VOLDAZPE_OK},
    };
    agree(&first, rows, sizeof rows / sizeof *rows);
    agree(&journaled, journals, sizeof journals / sizeof *journals);
    OK(opens(NULL, &one)); /* the usual values agree with none */
    const voldazpe_house_options_t usual = {.grace = 10000, .unmanaged = 1};
    OK(opens(&usual, &other));
    CHECK(other == one);
    OK(voldazpe_house_close(one));
    OK(voldazpe_house_close(one));
}

static VOLDAZPE_ATOMIC(uint32_t) ready;
enum { OPENERS = 8, TIMES = 40 };

/* opens, uses and closes the house, beside others that do so */
static void *opens_often(void *unused) {
    (void)unused;
    for (uint32_t time = 0; time < TIMES; time++) {
        voldazpe_house_t *house;
        voldazpe_house_application_t mine;
        voldazpe_house_thread_t *me;
        OK(opens(NULL, &house));
        OK(voldazpe_house_join(house, NULL, &mine));
        OK(voldazpe_house_register(house, mine, &me));
        OK(voldazpe_house_want(house, mine, 0, 1));
        voldazpe_house_code_t code = voldazpe_house_wait(me, 1000000);
        CHECK(code == VOLDAZPE_OK || code == VOLDAZPE_TIMED_OUT);
        OK(voldazpe_house_leave(me));
        OK(voldazpe_house_withdraw(house, mine));
        OK(voldazpe_house_close(house));
    }
    return NULL;
}

static void *opens_with_others(void *unused) {
    (void)unused;
    voldazpe_house_t *house;
    atomic_fetch_add(&ready, 1);
    UNTIL(VOLDAZPE_LOAD(&ready) == OPENERS);
    OK(opens(NULL, &house));
    return house;
}

static void many_open(void) {
    pthread_t threads[OPENERS];
    for (int i = 0; i < OPENERS; i++) threads[i] = start_thread(opens_with_others, NULL);
    voldazpe_house_t *house = join_thread(threads[0]);
    for (int i = 1; i < OPENERS; i++) CHECK(join_thread(threads[i]) == house);
    CHECK(state_of(house).opens == OPENERS);
    for (int i = 0; i < OPENERS; i++) OK(voldazpe_house_close(house));
    for (int i = 0; i < OPENERS; i++) threads[i] = start_thread(opens_often, NULL);
    for (int i = 0; i < OPENERS; i++) join_thread(threads[i]);
}

/* The state tells how many openers there are, also beside one that comes and goes. ThreadSanitizer sees where the count is read
 * without its lock. */
static VOLDAZPE_ATOMIC(uint32_t) stops;

static void *comes_and_goes(void *house) {
    voldazpe_house_t *other;
    while (!VOLDAZPE_LOAD(&stops)) {
        OK(opens(&unpinned, &other));
        CHECK(other == house);
        OK(voldazpe_house_close(other));
    }
    return NULL;
}

static void openers_are_counted(void) {
    enum { LOOKS = 20000 };
    voldazpe_house_t *house;
    uint32_t seen = 0;
    OK(opens(&unpinned, &house));
    VOLDAZPE_STORE(&stops, 0);
    pthread_t thread = start_thread(comes_and_goes, house);
    for (int i = 0; i < LOOKS; i++) {
        uint32_t count = state_of(house).opens;
        CHECK(count == 1 || count == 2);
        seen |= count;
    }
    VOLDAZPE_STORE(&stops, 1);
    join_thread(thread);
    CHECK((seen & 1) && state_of(house).opens == 1);
    OK(voldazpe_house_close(house));
}

/* ---- the hook of a house that others share ---- */

typedef struct context {
    uint32_t got, lost, done;
    voldazpe_house_t *house; /* if not null, its hook opens the process's house at LOST */
    VOLDAZPE_ATOMIC(uint32_t) opened;
} context_t;

static void counts(void *context, const voldazpe_house_event_t *event) {
    context_t *its = context;
    voldazpe_house_t *other;
    voldazpe_house_application_t application;
    CHECK(its->done == 0);
    its->got += event->kind == VOLDAZPE_HOUSE_GOT;
    its->lost += event->kind == VOLDAZPE_HOUSE_LOST;
    if (event->kind != VOLDAZPE_HOUSE_LOST || !its->house) return;
    OK(opens(&unpinned, &other)); /* of one that is closed by now this is another one */
    CHECK(other != its->house);
    OK(voldazpe_house_join(other, NULL, &application));
    its->house = other;
    VOLDAZPE_STORE(&its->opened, 1);
}

static void is_done(void *context) {
    context_t *its = context;
    CHECK(its->done == 0 && its->got == its->lost);
    its->done++;
}

/* gets a core in a house, which its close takes */
static voldazpe_house_thread_t *get_core(voldazpe_house_t *house) {
    voldazpe_house_application_t application;
    voldazpe_house_thread_t *me;
    OK(voldazpe_house_join(house, NULL, &application));
    OK(voldazpe_house_register(house, application, &me));
    OK(voldazpe_house_want(house, application, 0, 1));
    OK(voldazpe_house_wait(me, -1));
    return me;
}

/* The opener that has the hook closes first. Its context is called on, and `done` comes with the other opener's close. */
static void the_last_close_is_done(void) {
    context_t context = {.got = 0};
    const voldazpe_house_options_t hooked = {.unpinned = true, .hook = counts, .hook_context = &context, .done = is_done};
    voldazpe_house_t *one, *other;
    OK(opens(&hooked, &one));
    OK(opens(&unpinned, &other));
    OK(voldazpe_house_close(one));
    CHECK(context.done == 0 && context.got == 0);
    voldazpe_house_thread_t *me = get_core(other);
    CHECK(context.got == 1 && context.lost == 0);
    OK(voldazpe_house_close(other));
    CHECK(context.lost == 1 && context.done == 1);
    OK(voldazpe_house_leave(me));

    context.done = 0; /* of openers with the same hook, the last one */
    OK(opens(&hooked, &one));
    OK(opens(&hooked, &other));
    OK(voldazpe_house_close(other));
    CHECK(context.done == 0);
    voldazpe_house_hold(one);
    OK(voldazpe_house_close(one));
    CHECK(context.done == 1 && voldazpe_house_close(one) == VOLDAZPE_HOUSE_CLOSED && context.done == 1);
    voldazpe_house_let_go(one);
    CHECK(context.done == 1);
}

/* also of a house that isn't shared, and without a hook; but not of an opening that failed */
static void each_close_is_done(void) {
    context_t context = {.got = 0};
    voldazpe_house_options_t hooked = {.unpinned = true, .hook = counts, .hook_context = &context, .done = is_done};
    voldazpe_house_t *one;
    OK(opens_core(1, &hooked, &one));
    voldazpe_house_thread_t *me = get_core(one);
    OK(voldazpe_house_close(one));
    CHECK(context.got == 1 && context.lost == 1 && context.done == 1);
    OK(voldazpe_house_leave(me));
    context.done = 0;
    hooked.own = true;
    OK(opens(&hooked, &one));
    OK(voldazpe_house_close(one));
    CHECK(context.done == 1);
    context.done = 0;
    hooked.hook = NULL;
    OK(opens_core(1, &hooked, &one));
    CHECK(context.done == 0);
    OK(voldazpe_house_close(one));
    CHECK(context.done == 1);
    context.done = 0;
    CHECK(voldazpe_house_open("managed", 7, &hooked, &one) == VOLDAZPE_NOT_TOML && context.done == 0);
    hooked.journal_folder = "/nowhere/at/all";
    CHECK(opens_core(1, &hooked, &one) == VOLDAZPE_HOUSE_JOURNAL && context.done == 0);
}

/* A hook that is told by a close may open the process's house anew: no lock is held, and the old one is shared no more. */
static void *closes(void *house) {
    OK(voldazpe_house_close(house));
    return NULL;
}

static void a_closes_hook_opens(void) {
    context_t context = {.got = 0};
    const voldazpe_house_options_t hooked = {.unpinned = true, .hook = counts, .hook_context = &context, .done = is_done};
    voldazpe_house_t *house;
    OK(opens(&hooked, &house));
    voldazpe_house_thread_t *me = get_core(house);
    context.house = house;
    pthread_t thread = start_thread(closes, house);
    UNTIL(VOLDAZPE_LOAD(&context.opened));
    join_thread(thread);
    CHECK(context.done == 1 && state_of(context.house).opens == 1 && state_of(context.house).applications == 1);
    OK(voldazpe_house_leave(me));
    OK(voldazpe_house_close(context.house));
}

/* ---- a house that is being opened ---- */

static VOLDAZPE_ATOMIC(uint32_t) opening, may_open, closed;

/* keeps an opening from its end */
static void holds(void *unused, voldazpe_house_text_t text, const char *bytes, size_t length) {
    (void)unused, (void)bytes, (void)length;
    if (text != VOLDAZPE_HOUSE_MACHINE) return;
    VOLDAZPE_STORE(&opening, 1);
    UNTIL(VOLDAZPE_LOAD(&may_open));
}

static void *opens_held(void *unused) {
    const voldazpe_house_options_t held = {.unpinned = true, .journal = holds};
    voldazpe_house_t *house;
    OK(opens_core(1022, &held, &house));
    OK(voldazpe_house_close(house));
    return unused;
}

static pthread_t start_opening(void) {
    VOLDAZPE_STORE(&opening, 0);
    VOLDAZPE_STORE(&may_open, 0);
    pthread_t thread = start_thread(opens_held, NULL);
    UNTIL(VOLDAZPE_LOAD(&opening));
    return thread;
}

static void *closes_and_says_so(void *house) {
    OK(voldazpe_house_close(house));
    VOLDAZPE_STORE(&closed, 1);
    return NULL;
}

/* no other house is closed meanwhile */
static void a_close_waits_for_openings(void) {
    voldazpe_house_t *house;
    OK(opens(&unpinned, &house));
    voldazpe_house_hold(house);
    pthread_t thread = start_opening();
    VOLDAZPE_STORE(&closed, 0);
    pthread_t closer = start_thread(closes_and_says_so, house);
    pause_for(100000000);
    CHECK(!VOLDAZPE_LOAD(&closed) && state_of(house).opens == 1);
    VOLDAZPE_STORE(&may_open, 1);
    join_thread(thread);
    join_thread(closer);
    CHECK(VOLDAZPE_LOAD(&closed) && voldazpe_house_close(house) == VOLDAZPE_HOUSE_CLOSED);
    voldazpe_house_let_go(house);
}

/* ---- cores ---- */

static void cores_are_taken(void) {
    voldazpe_house_t *one, *other;
    uint16_t named = 9999;
    const voldazpe_house_options_t own = {.own = true, .named = &named}, naming = {.named = &named};
    const voldazpe_house_options_t own_unpinned = {.own = true, .unpinned = true};
    OK(opens(NULL, &one));
    uint16_t core = last_core_of(one);
    CHECK(opens(&own, &other) == VOLDAZPE_HOUSE_CORE_TAKEN && named != 9999);
    named = 9999;
    CHECK(opens_core(core, &naming, &other) == VOLDAZPE_HOUSE_CORE_TAKEN && named == core);
    OK(opens_core(1023, NULL, &other)); /* another core */
    CHECK(other != one);
    OK(voldazpe_house_close(other));
    OK(opens_core(core, &unpinned, &other)); /* a house that pins no thread takes no core, */
    OK(voldazpe_house_close(other));
    OK(opens(&unpinned, &other)); /* and is another house, which is shared too */
    CHECK(other != one);
    voldazpe_house_t *third, *fourth;
    OK(opens(&unpinned, &third));
    CHECK(third == other);
    OK(opens(&own_unpinned, &fourth));
    CHECK(fourth != other && state_of(fourth).opens == 1);
    OK(voldazpe_house_close(fourth));
    OK(voldazpe_house_close(third));
    OK(voldazpe_house_close(other));
    OK(voldazpe_house_close(one));
    OK(opens_core(core, &naming, &other)); /* it is free again */
    CHECK(opens(NULL, &one) == VOLDAZPE_HOUSE_CORE_TAKEN);
    OK(voldazpe_house_close(other));
    OK(opens_core(core, &unpinned, &other));
    OK(opens(NULL, &one)); /* a house that pins no thread doesn't hinder this one */
    OK(voldazpe_house_close(one));
    OK(voldazpe_house_close(other));
    OK(opens(&own, &one)); /* a house apart */
    CHECK(opens(NULL, &other) == VOLDAZPE_HOUSE_CORE_TAKEN);
    OK(voldazpe_house_close(one));
}

/* of each house that is open, not of the first or the last one alone; and of none that is closed */
static void cores_of_each_are_taken(void) {
    voldazpe_house_t *houses[3], *other;
    for (uint16_t i = 0; i < 3; i++) OK(opens_core((uint16_t)(1020 + i), NULL, &houses[i]));
    for (int closes = 2; closes >= 0; closes--) { /* in each round another one is closed, and opened again */
        for (uint16_t i = 0; i < 3; i++) CHECK(opens_core((uint16_t)(1020 + i), NULL, &other) == VOLDAZPE_HOUSE_CORE_TAKEN);
        OK(voldazpe_house_close(houses[closes]));
        for (uint16_t i = 0; i < 3; i++) {
            if (i == closes) continue;
            CHECK(opens_core((uint16_t)(1020 + i), NULL, &other) == VOLDAZPE_HOUSE_CORE_TAKEN);
        }
        OK(opens_core((uint16_t)(1020 + closes), NULL, &houses[closes]));
    }
    for (int i = 0; i < 3; i++) OK(voldazpe_house_close(houses[i]));
}

/* ---- threads ---- */

/* A thread that a registered one starts is pinned as that. Where it registers in another house and leaves, it may run anywhere. */
static voldazpe_house_application_t in_other;

static void *registers_elsewhere(void *other) {
    voldazpe_house_thread_t *me;
    cpu_set_t mask;
    OK(voldazpe_house_register(other, in_other, &me));
    OK(voldazpe_house_leave(me));
    CHECK(sched_getaffinity(0, sizeof mask, &mask) == 0);
    return (void *)(uintptr_t)CPU_COUNT(&mask);
}

static void a_started_thread_is_unpinned(void) {
    voldazpe_house_t *one, *other;
    voldazpe_house_application_t application;
    voldazpe_house_thread_t *me;
    cpu_set_t all;
    CHECK(sched_getaffinity(0, sizeof all, &all) == 0);
    if (CPU_COUNT(&all) < 2) {
        printf("process: skipped: a thread that a pinned one starts, on one processor\n");
        return;
    }
    void *many = (void *)(uintptr_t)CPU_COUNT(&all);
    OK(opens(NULL, &one));
    OK(opens_core(1023, NULL, &other));
    OK(voldazpe_house_join(one, NULL, &application));
    OK(voldazpe_house_join(other, NULL, &in_other));
    OK(voldazpe_house_register(one, application, &me));
    CHECK(join_thread(start_thread(registers_elsewhere, other)) == many); /* on the unmanaged ones */
    OK(voldazpe_house_want(one, application, 0, 1));
    OK(voldazpe_house_wait(me, -1));
    CHECK(join_thread(start_thread(registers_elsewhere, other)) == many); /* on a core */
    OK(voldazpe_house_leave(me));
    CHECK(join_thread(start_thread(registers_elsewhere, other)) == many);
    OK(voldazpe_house_close(one));
    OK(voldazpe_house_close(other));
}

/* A thread's mask is never read while another house has it pinned: two houses that pin don't have it at a time. */
static void one_house_pins(void) {
    voldazpe_house_t *one, *other, *third;
    voldazpe_house_application_t first, second, last;
    voldazpe_house_thread_t *me, *there, *again;
    cpu_set_t before, after;
    CHECK(sched_getaffinity(0, sizeof before, &before) == 0);
    OK(opens(NULL, &one));
    OK(opens_core(1023, NULL, &other));
    OK(opens(&unpinned, &third));
    OK(voldazpe_house_join(one, NULL, &first));
    OK(voldazpe_house_join(other, NULL, &second));
    OK(voldazpe_house_join(third, NULL, &last));
    OK(voldazpe_house_register(one, first, &me));
    OK(voldazpe_house_want(one, first, 0, 1));
    OK(voldazpe_house_wait(me, -1));
    CHECK(voldazpe_house_register(other, second, &there) == VOLDAZPE_HOUSE_REGISTERED);
    CHECK(voldazpe_house_mine(other) == NULL && voldazpe_house_keep(me));
    OK(voldazpe_house_register(third, last, &again));
    CHECK(voldazpe_house_register(other, second, &there) == VOLDAZPE_HOUSE_REGISTERED);
    OK(voldazpe_house_close(one));
    CHECK(voldazpe_house_register(other, second, &there) == VOLDAZPE_HOUSE_REGISTERED); /* it hasn't left yet */
    OK(voldazpe_house_leave(me));
    OK(voldazpe_house_register(other, second, &there));
    OK(voldazpe_house_leave(there));
    OK(voldazpe_house_leave(again));
    CHECK(sched_getaffinity(0, sizeof after, &after) == 0 && CPU_EQUAL(&before, &after));
    OK(voldazpe_house_close(third));
    OK(voldazpe_house_close(other));
}

/* ---- the version, and forks ---- */

static void versions(void) {
    voldazpe_house_t *house = NULL;
    CHECK(voldazpe_house_open_version(VOLDAZPE_HOUSE_VERSION - 1, NULL, 0, NULL, &house) == VOLDAZPE_HOUSE_OTHER_VERSION);
    CHECK(voldazpe_house_open_version(VOLDAZPE_HOUSE_VERSION + 1, NULL, 0, NULL, &house) == VOLDAZPE_HOUSE_OTHER_VERSION);
    CHECK(!house);
    OK(voldazpe_house_open_version(VOLDAZPE_HOUSE_VERSION, NULL, 0, &unpinned, &house));
    OK(voldazpe_house_close(house));
}

/* A child by fork has no house of its parent's, and opens one over the same cores, in which the thread that forked may register. */
static void a_child_has_its_own(void) {
    voldazpe_house_t *house, *childs;
    voldazpe_house_application_t application;
    voldazpe_house_thread_t *me, *childs_me;
    OK(opens(NULL, &house));
    OK(voldazpe_house_join(house, NULL, &application));
    OK(voldazpe_house_register(house, application, &me));
    pid_t child = fork();
    CHECK(child >= 0);
    if (child == 0) {
        OK(opens(NULL, &childs));
        CHECK(childs != house && state_of(childs).opens == 1);
        OK(voldazpe_house_join(childs, NULL, &application));
        OK(voldazpe_house_register(childs, application, &childs_me));
        CHECK(voldazpe_house_register(childs, application, &childs_me) == VOLDAZPE_HOUSE_REGISTERED);
        OK(voldazpe_house_leave(childs_me));
        OK(voldazpe_house_close(childs));
        _exit(0);
    }
    int status;
    CHECK(waitpid(child, &status, 0) == child && WIFEXITED(status) && WEXITSTATUS(status) == 0);
    CHECK(state_of(house).opens == 1 && voldazpe_house_mine(house) == me);
    OK(voldazpe_house_leave(me));
    OK(voldazpe_house_close(house));
}

/* A child opens and closes a house, also where a thread of the parent, which it doesn't have, was opening one. */
static void a_child_opens_at_once(void) {
    pthread_t thread = start_opening();
    pid_t child = fork();
    CHECK(child >= 0);
    if (child == 0) {
        voldazpe_house_t *house;
        (void)alarm(10); /* rather than for ever */
        OK(opens(&unpinned, &house));
        OK(voldazpe_house_close(house));
        _exit(0);
    }
    int status;
    CHECK(waitpid(child, &status, 0) == child);
    CHECK(WIFEXITED(status) && WEXITSTATUS(status) == 0);
    VOLDAZPE_STORE(&may_open, 1);
    join_thread(thread);
}

int main(int count, char **words) {
    (void)words;
    each_close_is_counted();
    options_agree();
    many_open();
    openers_are_counted();
    the_last_close_is_done();
    each_close_is_done();
    a_closes_hook_opens();
    a_close_waits_for_openings();
    cores_are_taken();
    cores_of_each_are_taken();
    a_started_thread_is_unpinned();
    one_house_pins();
    versions();
    if (count == 1) { /* a word: not where a sanitizer has threads of its own */
        a_child_has_its_own();
        a_child_opens_at_once();
    }
    return 0;
}
