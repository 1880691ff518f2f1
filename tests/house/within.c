/* Calls within hooks: which of them are refused, even if hooks nest, and what each event names. A thread that is cancelled in a
 * hook; a close that waits for hooks; the most events that one call can bring; a hook that gives more orders than the journal has
 * room for. Applications, threads and cores aren't the first ones, and cores have large numbers. */
#include "check.h"

static const char machine[] = "[[socket]]\nmanaged = [257, 1]\nunmanaged = [0]\n"
                              "[[socket]]\nmanaged = [513, 1023]\nunmanaged = [2]\n";

static voldazpe_house_t *house;
static voldazpe_house_application_t first, second, application;

/* a house in which three applications have joined, and a thread of the last one that only sits there has number 0 */
static VOLDAZPE_ATOMIC(bool) may_stand_up;

static void *sits(void *unused) {
    voldazpe_house_thread_t *me;
    OK(voldazpe_house_register(house, application, &me));
    CHECK(me->number == 0);
    UNTIL(VOLDAZPE_LOAD(&may_stand_up));
    CHECK(!voldazpe_house_keep(me) && voldazpe_house_core(me) == -1);
    OK(voldazpe_house_leave(me));
    return unused;
}

static pthread_t open_with(const voldazpe_house_options_t *options) {
    house = open_text(machine, options);
    OK(voldazpe_house_join(house, "first", &first));
    OK(voldazpe_house_join(house, "second", &second));
    OK(voldazpe_house_join(house, "third", &application));
    VOLDAZPE_STORE(&may_stand_up, false);
    pthread_t thread = start_thread(sits, NULL);
    UNTIL(counts_of(house, application).threads == 1);
    return thread;
}

static void close_with(pthread_t thread) {
    VOLDAZPE_STORE(&may_stand_up, true);
    OK(voldazpe_house_close(house));
    join_thread(thread);
}

/* ---- calls that are refused, in hooks of a thread's own calls and of others */

static voldazpe_house_thread_t *seat; /* of the main thread, which is `mine` */
static pthread_t mine;
static VOLDAZPE_ATOMIC(uint32_t) looked, looked_elsewhere;
static uint32_t depth;

static void each_is_refused(void) {
    voldazpe_house_thread_t *again = NULL;
    CHECK(voldazpe_house_close(house) == VOLDAZPE_HOUSE_IN_HOOK);
    CHECK(voldazpe_house_register(house, second, &again) == VOLDAZPE_HOUSE_IN_HOOK && !again);
    if (!pthread_equal(mine, pthread_self())) {
        atomic_fetch_add(&looked_elsewhere, 1);
        return;
    }
    int32_t word = VOLDAZPE_LOAD(&seat->word);
    bool keeps = voldazpe_house_keep(seat), has_core = voldazpe_house_core(seat) >= 0;
    CHECK(voldazpe_house_leave(seat) == VOLDAZPE_HOUSE_IN_HOOK);
    CHECK(voldazpe_house_wait(seat, 0) == (keeps ? VOLDAZPE_OK : (uint32_t)VOLDAZPE_HOUSE_IN_HOOK));
    CHECK(voldazpe_house_give_back(seat) == (has_core ? VOLDAZPE_HOUSE_IN_HOOK : (uint32_t)VOLDAZPE_OK));
    CHECK(VOLDAZPE_LOAD(&seat->word) == word);
    atomic_fetch_add(&looked, 1);
}

/* looks, gives orders of which hooks are told in turn, and looks again */
static void looks(void *unused, const voldazpe_house_event_t *event) {
    (void)unused;
    each_is_refused();
    if (depth == 3 || event->kind == VOLDAZPE_HOUSE_ASKED || !pthread_equal(mine, pthread_self())) return;
    uint32_t before = VOLDAZPE_LOAD(&looked);
    depth++;
    OK(voldazpe_house_want(house, first, 0, 1 + depth % 2));
    OK(voldazpe_house_want(house, first, 0, 0));
    depth--;
    CHECK(VOLDAZPE_LOAD(&looked) >= before + 2);
    each_is_refused();
}

static void refusals(void) {
    const voldazpe_house_options_t options = {.unpinned = true, .grace = 20000, .hook = looks};
    mine = pthread_self();
    pthread_t thread = open_with(&options);
    OK(voldazpe_house_register(house, application, &seat));
    OK(voldazpe_house_want(house, application, 5, 1)); /* due */
    OK(voldazpe_house_wait(seat, -1));                 /* got */
    CHECK(VOLDAZPE_LOAD(&looked) > 10 && voldazpe_house_keep(seat));
    OK(voldazpe_house_want(house, application, 5, 0)); /* asked, and due */
    CHECK(voldazpe_house_wait(seat, 0) == VOLDAZPE_TIMED_OUT); /* lost */
    OK(voldazpe_house_want(house, application, 5, 1));
    OK(voldazpe_house_wait(seat, -1));
    OK(voldazpe_house_give_back(seat)); /* lost */
    OK(voldazpe_house_wait(seat, -1));
    OK(voldazpe_house_want(house, application, 5, 0));
    UNTIL(VOLDAZPE_LOAD(&looked_elsewhere) > 0); /* moved: lost, in the house's own thread */
    CHECK(state_of(house).moved >= 1 && depth == 0);
    /* outside of hooks nothing is refused */
    voldazpe_house_application_t other;
    OK(voldazpe_house_leave(seat));
    OK(voldazpe_house_register(house, second, &seat));
    OK(voldazpe_house_join(house, "fourth", &other));
    OK(voldazpe_house_leave(seat));
    OK(voldazpe_house_register(house, other, &seat));
    close_with(thread);
    OK(voldazpe_house_leave(seat));
}

/* ---- what each event names */

static voldazpe_house_event_t events[32];
static VOLDAZPE_ATOMIC(uint32_t) event_count;

static void notes(void *unused, const voldazpe_house_event_t *event) {
    static pthread_mutex_t lock = PTHREAD_MUTEX_INITIALIZER;
    (void)unused;
    if (event->kind == VOLDAZPE_HOUSE_DUE) return; /* waits.c looks at these */
    CHECK(pthread_mutex_lock(&lock) == 0);
    uint32_t index = VOLDAZPE_LOAD(&event_count);
    CHECK(index < 32);
    events[index] = *event;
    VOLDAZPE_STORE(&event_count, index + 1);
    CHECK(pthread_mutex_unlock(&lock) == 0);
}

/* Whether one event came since the last look: of thread 1 of the application, and its core. */
static bool named(uint32_t kind, int core, bool moved) {
    CHECK(VOLDAZPE_LOAD(&event_count) == 1);
    VOLDAZPE_STORE(&event_count, 0);
    return events[0].application == application && events[0].kind == kind && events[0].thread == 1 &&
           events[0].core == core && events[0].moved == moved && events[0].due == 0;
}

/* gets a core, which is to be this one */
static void get(int core) {
    OK(voldazpe_house_want(house, application, 2, 1));
    OK(voldazpe_house_wait(seat, -1));
    CHECK(seat->number == 1 && voldazpe_house_core(seat) == core && named(VOLDAZPE_HOUSE_GOT, core, false));
}

static void names(void) {
    const voldazpe_house_options_t options = {.unpinned = true, .grace = 30000, .hook = notes};
    pthread_t thread = open_with(&options);
    OK(voldazpe_house_register(house, application, &seat));
    get(257);
    OK(voldazpe_house_give_back(seat));
    CHECK(named(VOLDAZPE_HOUSE_LOST, 257, false));
    get(257);
    OK(voldazpe_house_want(house, application, 2, 0));
    UNTIL(VOLDAZPE_LOAD(&event_count) == 2); /* by two threads, in either order */
    VOLDAZPE_STORE(&event_count, 1);
    if (events[0].kind == VOLDAZPE_HOUSE_LOST) events[0] = events[1];
    CHECK(named(VOLDAZPE_HOUSE_ASKED, 257, false));
    OK(voldazpe_house_want(house, first, 0, 1));
    OK(voldazpe_house_leave(seat)); /* without a core: no event */
    OK(voldazpe_house_register(house, application, &seat));
    get(257);
    OK(voldazpe_house_leave(seat));
    CHECK(named(VOLDAZPE_HOUSE_LOST, 257, false));
    OK(voldazpe_house_register(house, application, &seat));
    get(257);
    OK(voldazpe_house_withdraw(house, application));
    CHECK(named(VOLDAZPE_HOUSE_LOST, 257, false));
    OK(voldazpe_house_leave(seat));
    VOLDAZPE_STORE(&may_stand_up, true);
    CHECK(join_thread(thread) == NULL);
    OK(voldazpe_house_join(house, "again", &application));
    VOLDAZPE_STORE(&may_stand_up, false);
    thread = start_thread(sits, NULL);
    UNTIL(counts_of(house, application).threads == 1);
    OK(voldazpe_house_register(house, application, &seat));
    get(257);
    close_with(thread);
    CHECK(named(VOLDAZPE_HOUSE_LOST, 257, false));
    OK(voldazpe_house_leave(seat));
    CHECK(VOLDAZPE_LOAD(&event_count) == 0);
}

/* A thread that is moved is named, and its core, by the house's own thread. */
static void names_who_is_moved(void) {
    const voldazpe_house_options_t options = {.unpinned = true, .grace = 5000, .hook = notes};
    pthread_t thread = open_with(&options);
    OK(voldazpe_house_register(house, application, &seat));
    get(257);
    OK(voldazpe_house_want(house, application, 2, 0));
    UNTIL(VOLDAZPE_LOAD(&event_count) == 2);
    VOLDAZPE_STORE(&event_count, 1);
    if (events[0].kind == VOLDAZPE_HOUSE_ASKED) events[0] = events[1];
    CHECK(named(VOLDAZPE_HOUSE_LOST, 257, true));
    OK(voldazpe_house_leave(seat));
    close_with(thread);
}

/* ---- a hook that is still running while something else happens */

static uint32_t stops_at; /* a kind of event, of which a hook goes on until it is let go, or for so long */
static int64_t stops_for;
static VOLDAZPE_ATOMIC(uint32_t) stopped, lets_go, finished;

static void stops(void *unused, const voldazpe_house_event_t *event) {
    (void)unused;
    if (event->kind != stops_at || event->thread != 1 || VOLDAZPE_LOAD(&stopped)) return;
    VOLDAZPE_STORE(&stopped, 1);
    for (int64_t end = nanoseconds_now() + stops_for; nanoseconds_now() < end && !VOLDAZPE_LOAD(&lets_go);) {
        pthread_testcancel();
        pause_for(200000); /* a cancellation point too */
    }
    VOLDAZPE_STORE(&finished, VOLDAZPE_LOAD(&lets_go) ? 2 : 1);
}

static void stop_at(uint32_t kind, int64_t nanoseconds) {
    stops_at = kind;
    stops_for = nanoseconds;
    VOLDAZPE_STORE(&stopped, 0);
    VOLDAZPE_STORE(&lets_go, 0);
    VOLDAZPE_STORE(&finished, 0);
}

static const voldazpe_house_options_t stopping = {.unpinned = true, .grace = NEVER, .hook = stops};

/* AddressSanitizer's, if it is there: tells it that a cancelled thread leaves its frames without their ends. */
extern void __asan_handle_no_return(void) __attribute__((weak));

static void leaves_its_frames(void *unused) {
    (void)unused;
    if (__asan_handle_no_return) __asan_handle_no_return();
}

static void *gets_and_gives_back(void *unused) {
    voldazpe_house_thread_t *me;
    OK(voldazpe_house_register(house, application, &me));
    pthread_cleanup_push(leaves_its_frames, NULL);
    if (voldazpe_house_wait(me, -1) == VOLDAZPE_OK) {
        pthread_testcancel();
        (void)voldazpe_house_give_back(me);
        pthread_testcancel();
    }
    pthread_cleanup_pop(0);
    OK(voldazpe_house_leave(me));
    return unused;
}

/* A thread that is cancelled in a hook goes on until the hook has returned, and ends then. */
static void cancelled_in_a_hook(uint32_t kind) {
    pthread_t thread = open_with(&stopping);
    stop_at(kind, 5000000000);
    OK(voldazpe_house_want(house, application, 0, 1));
    pthread_t cancelled = start_thread(gets_and_gives_back, NULL);
    UNTIL(VOLDAZPE_LOAD(&stopped));
    CHECK(pthread_cancel(cancelled) == 0);
    pause_for(20000000);
    VOLDAZPE_STORE(&lets_go, 1);
    CHECK(join_thread(cancelled) == PTHREAD_CANCELED && VOLDAZPE_LOAD(&finished) == 2);
    CHECK(counts_of(house, application).threads == 1 && counts_of(house, application).owned == 0);
    close_with(thread); /* which waits for no hook that has ended */
}

/* A close returns once no hook goes on: the hook is never let go by the close's return. */
static void close_waits_for(uint32_t kind) {
    pthread_t thread = open_with(&stopping);
    stop_at(kind, 700000000);
    OK(voldazpe_house_want(house, application, 0, 1));
    pthread_t told = start_thread(gets_and_gives_back, NULL);
    UNTIL(VOLDAZPE_LOAD(&stopped));
    VOLDAZPE_STORE(&may_stand_up, true);
    OK(voldazpe_house_close(house));
    VOLDAZPE_STORE(&lets_go, 1);
    CHECK(VOLDAZPE_LOAD(&finished) == 1);
    join_thread(told);
    join_thread(thread);
}

/* ---- all events of a call */

enum { SEATS = 128, WORKERS = 15 }; /* threads, and the applications that they are in */

static voldazpe_house_application_t workers[WORKERS];
static VOLDAZPE_ATOMIC(uint32_t) got, asked[WORKERS], lost[WORKERS], due, working;

static void counts_all(void *unused, const voldazpe_house_event_t *event) {
    uint32_t which = (uint32_t)(event->application % VOLDAZPE_APPLICATIONS);
    (void)unused;
    atomic_fetch_add(&got, event->kind == VOLDAZPE_HOUSE_GOT);
    atomic_fetch_add(&due, event->kind == VOLDAZPE_HOUSE_DUE);
    if (which == WORKERS) return;
    if (event->kind == VOLDAZPE_HOUSE_ASKED) CHECK(!(atomic_fetch_or(&asked[which], 1u << event->thread) >> event->thread & 1));
    if (event->kind == VOLDAZPE_HOUSE_LOST) CHECK(!(atomic_fetch_or(&lost[which], 1u << event->thread) >> event->thread & 1));
}

static void *works(void *its) {
    voldazpe_house_thread_t *me;
    OK(voldazpe_house_register(house, *(voldazpe_house_application_t *)its, &me));
    OK(voldazpe_house_wait(me, -1));
    atomic_fetch_add(&working, 1);
    while (voldazpe_house_core(me) >= 0) pause_for(1000000);
    return NULL;
}

static uint32_t bits_of(VOLDAZPE_ATOMIC(uint32_t) *sets) {
    uint32_t count = 0;
    for (int i = 0; i < WORKERS; i++) count += (uint32_t)__builtin_popcount(VOLDAZPE_LOAD(&sets[i]));
    return count;
}

/* One call asks 128 cores of fifteen applications back, and sixteen are due others; another takes all of them. */
static void all_are_told(void) {
    const voldazpe_house_options_t options = {.unpinned = true, .grace = NEVER, .hook = counts_all};
    voldazpe_house_application_t last;
    char text[1024];
    pthread_t threads[SEATS];
    int length = snprintf(text, sizeof text, "[[socket]]\nunmanaged = [0]\nmanaged = [1");
    for (int core = 2; core <= SEATS; core++) length += snprintf(text + length, 8, ", %d", core);
    (void)snprintf(text + length, 8, "]\n");
    house = open_text(text, &options);
    for (int i = 0; i < WORKERS; i++) {
        OK(voldazpe_house_join(house, "works", &workers[i]));
        OK(voldazpe_house_want(house, workers[i], 1, (uint32_t)(SEATS / WORKERS + (i < SEATS % WORKERS))));
    }
    OK(voldazpe_house_join(house, "last", &last));
    for (int i = 0; i < SEATS; i++) threads[i] = start_thread(works, &workers[i % WORKERS]);
    UNTIL(VOLDAZPE_LOAD(&working) == SEATS);
    CHECK(VOLDAZPE_LOAD(&got) == SEATS && VOLDAZPE_LOAD(&due) == WORKERS && bits_of(asked) == 0);
    OK(voldazpe_house_want(house, last, 0, SEATS));
    CHECK(bits_of(asked) == SEATS && VOLDAZPE_LOAD(&due) == 2 * WORKERS + 1 && bits_of(lost) == 0);
    OK(voldazpe_house_close(house));
    CHECK(bits_of(lost) == SEATS && VOLDAZPE_LOAD(&got) == SEATS);
    for (int i = 0; i < SEATS; i++) join_thread(threads[i]);
}

/* ---- the most events of a call: its tick moves threads that stayed, and its order asks back what others got by that */

enum { HALF = 4, EACH = SEATS / HALF }; /* applications, and threads of each */

static VOLDAZPE_ATOMIC(uint32_t) begun, moved_count, asked_count, due_count, ending;
static VOLDAZPE_ATOMIC(bool) held;
static _Thread_local bool calls;

static void counts_its_own(void *unused, const voldazpe_house_event_t *event) {
    (void)unused;
    if (!calls) return; /* the call that is looked at */
    atomic_fetch_add(&moved_count, event->kind == VOLDAZPE_HOUSE_LOST && event->moved);
    atomic_fetch_add(&asked_count, event->kind == VOLDAZPE_HOUSE_ASKED);
    atomic_fetch_add(&due_count, event->kind == VOLDAZPE_HOUSE_DUE);
}

/* keeps the house's own thread from its ticks */
static void holds(void *unused, voldazpe_house_text_t text, const char *bytes, size_t length) {
    (void)unused, (void)text, (void)bytes, (void)length;
    while (VOLDAZPE_LOAD(&held)) pause_for(100000);
}

/* gets a core, and keeps it to the end */
static void *stays(void *its) {
    voldazpe_house_thread_t *me;
    OK(voldazpe_house_register(house, *(voldazpe_house_application_t *)its, &me));
    if (voldazpe_house_wait(me, -1) == VOLDAZPE_OK) atomic_fetch_add(&begun, 1);
    while (!VOLDAZPE_LOAD(&ending)) pause_for(1000000);
    return NULL;
}

static void start_all(voldazpe_house_application_t *applications, pthread_t *threads) {
    for (int i = 0; i < SEATS; i++) threads[i] = start_thread(stays, &applications[i % HALF]);
}

static void the_most_are_told(void) {
    const voldazpe_house_options_t options = {.unpinned = true, .grace = 500000, .hook = counts_its_own, .journal = holds};
    voldazpe_house_application_t stay[HALF], follow[HALF], last;
    pthread_t threads[2 * SEATS];
    char text[1024];
    int length = snprintf(text, sizeof text, "[[socket]]\nunmanaged = [0]\nmanaged = [1");
    for (int core = 2; core <= SEATS; core++) length += snprintf(text + length, 8, ", %d", core);
    (void)snprintf(text + length, 8, "]\n");
    VOLDAZPE_STORE(&held, false);
    house = open_text(text, &options);
    OK(voldazpe_house_join(house, "last", &last));
    for (int i = 0; i < HALF; i++) {
        OK(voldazpe_house_join(house, "stays", &stay[i]));
        OK(voldazpe_house_join(house, "follows", &follow[i]));
        OK(voldazpe_house_want(house, stay[i], 2, EACH));
    }
    start_all(stay, threads);
    UNTIL(VOLDAZPE_LOAD(&begun) == SEATS);
    start_all(follow, threads + SEATS); /* they wait, and want none yet */
    for (int i = 0; i < HALF; i++) UNTIL(counts_of(house, follow[i]).waiting == EACH);
    VOLDAZPE_STORE(&held, true);
    for (uint32_t i = 0; i < 5000; i++) OK(voldazpe_house_want(house, last, 7, i % 2)); /* the journal is half full */
    pause_for(5000000);
    for (int i = 0; i < HALF; i++) OK(voldazpe_house_want(house, follow[i], 1, EACH)); /* all cores are asked back */
    pause_for(600000000);
    CHECK(state_of(house).moved == 0 && counts_of(house, stay[0]).asked == EACH);
    calls = true;
    OK(voldazpe_house_want(house, last, 0, SEATS));
    calls = false;
    CHECK(state_of(house).moved == SEATS && counts_of(house, follow[HALF - 1]).asked == EACH);
    CHECK(VOLDAZPE_LOAD(&moved_count) == SEATS && VOLDAZPE_LOAD(&asked_count) == SEATS);
    CHECK(VOLDAZPE_LOAD(&due_count) == HALF + 1);
    VOLDAZPE_STORE(&held, false);
    VOLDAZPE_STORE(&ending, 1);
    OK(voldazpe_house_close(house));
    for (int i = 0; i < 2 * SEATS; i++) join_thread(threads[i]);
}

/* ---- a hook that gives many orders, in the house's own thread, which writes the journal */

enum { MANY = 20000 }; /* more than are noted before they are written */

static VOLDAZPE_ATOMIC(uint32_t) given;

static void gives_orders(void *unused, const voldazpe_house_event_t *event) {
    (void)unused;
    if (event->kind != VOLDAZPE_HOUSE_LOST || !event->moved) return;
    for (uint32_t i = 1; i <= MANY; i++) OK(voldazpe_house_want(house, second, 3, i % 2));
    voldazpe_house_thread_t *me = NULL; /* this is a hook still, behind the journal's function */
    CHECK(voldazpe_house_register(house, second, &me) == VOLDAZPE_HOUSE_IN_HOOK && !me);
    CHECK(voldazpe_house_close(house) == VOLDAZPE_HOUSE_IN_HOOK);
    VOLDAZPE_STORE(&given, MANY);
}

static void hands_out(void *bytes, voldazpe_house_text_t text, const char *start, size_t length) {
    (void)start;
    if (text == VOLDAZPE_HOUSE_SCRIPT) *(size_t *)bytes += length;
}

static void journal_without_room(void) {
    size_t bytes = 0;
    const voldazpe_house_options_t options = {.unpinned = true, .grace = 1000, .hook = gives_orders, .journal = hands_out,
                                              .journal_context = &bytes};
    pthread_t thread = open_with(&options);
    OK(voldazpe_house_register(house, application, &seat));
    OK(voldazpe_house_want(house, application, 0, 1));
    OK(voldazpe_house_wait(seat, -1));
    OK(voldazpe_house_want(house, application, 0, 0)); /* and it stays */
    UNTIL(VOLDAZPE_LOAD(&given) == MANY);
    CHECK(state_of(house).orders > MANY);
    OK(voldazpe_house_leave(seat));
    close_with(thread);
    CHECK(bytes > MANY * sizeof "1.0 ask 0");
}

int main(void) {
    refusals();
    names();
    names_who_is_moved();
    cancelled_in_a_hook(VOLDAZPE_HOUSE_GOT);
    cancelled_in_a_hook(VOLDAZPE_HOUSE_LOST);
    close_waits_for(VOLDAZPE_HOUSE_GOT);
    close_waits_for(VOLDAZPE_HOUSE_LOST);
    all_are_told();
    the_most_are_told();
    journal_without_room();
    return 0;
}
