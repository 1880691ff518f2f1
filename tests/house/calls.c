/* What each call answers: right uses, wrong ones, readings, hooks. No thread is pinned. */
#include "check.h"

static const char three[] = "[[socket]]\nmanaged = [1, 2]\nunmanaged = [0]\n"
                            "[[socket]]\nmanaged = [5]\nunmanaged = []\n";

static const voldazpe_house_options_t unpinned = {.unpinned = true};

/* ---- opening ---- */

static voldazpe_house_code_t opening(const char *text, const voldazpe_house_options_t *options) {
    voldazpe_house_t *house = NULL;
    voldazpe_house_code_t code = voldazpe_house_open(text, strlen(text), options, &house);
    CHECK((code == VOLDAZPE_OK) == (house != NULL));
    if (house) OK(voldazpe_house_close(house));
    return code;
}

static void openings(void) {
    static char long_text[VOLDAZPE_TEXT + 2];
    voldazpe_house_t *house = NULL;
    memset(long_text, ' ', sizeof long_text - 1);
    CHECK(voldazpe_house_open(three, 1, &unpinned, NULL) == VOLDAZPE_NULL);
    CHECK(voldazpe_house_open(NULL, 1, &unpinned, &house) == VOLDAZPE_NULL);
    CHECK(opening(long_text, &unpinned) == VOLDAZPE_TOO_LONG);
    CHECK(opening("managed", &unpinned) == VOLDAZPE_NOT_TOML);
    CHECK(opening("\xff", &unpinned) == VOLDAZPE_NOT_UTF8);
    CHECK(opening("x = 1\n", &unpinned) == VOLDAZPE_UNKNOWN_KEY);
    CHECK(opening("grace = 1\n", &unpinned) == VOLDAZPE_BAD_KEY);
    CHECK(opening("[[socket]]\nmanaged = [1, 1]\nunmanaged = [0]\n", &unpinned) == VOLDAZPE_CORE_TWICE);
    CHECK(opening("[[socket]]\nmanaged = []\nunmanaged = [0]\n", &unpinned) == VOLDAZPE_MANAGED_COUNT);
    CHECK(opening("[[socket]]\nmanaged = [1]\nunmanaged = []\n", &unpinned) == VOLDAZPE_NO_UNMANAGED);
    CHECK(opening("orders = 1\n[[socket]]\nmanaged = [1]\nunmanaged = [0]\n", &unpinned) == VOLDAZPE_HOUSE_LIMITED);
    CHECK(opening("orders = 1000000\n[[socket]]\nmanaged = [1]\nunmanaged = [0]\n", &unpinned) ==
          VOLDAZPE_HOUSE_LIMITED);
    CHECK(opening("orders = 1000001\n[[socket]]\nmanaged = [1]\nunmanaged = [0]\n", &unpinned) ==
          VOLDAZPE_OUT_OF_RANGE);
    const voldazpe_house_options_t slow = {.unpinned = true, .grace = 1000000001};
    CHECK(opening(three, &slow) == VOLDAZPE_OUT_OF_RANGE);
    const voldazpe_house_options_t twice = {.unpinned = true, .grace = 5};
    CHECK(opening("grace = 7\n[[socket]]\nmanaged = [1]\nunmanaged = [0]\n", &twice) == VOLDAZPE_NOT_TOML);
    const voldazpe_house_options_t nowhere = {.unpinned = true, .journal_folder = "/nonexistent/folder"};
    CHECK(opening(three, &nowhere) == VOLDAZPE_HOUSE_JOURNAL);
    uint16_t named = 0;
    const voldazpe_house_options_t naming = {.unpinned = true, .named = &named};
    CHECK(opening("[[socket]]\nmanaged = [1, 7]\nunmanaged = [0, 7]\n", &naming) == VOLDAZPE_CORE_TWICE && named == 7);
    CHECK(voldazpe_house_close(NULL) == VOLDAZPE_NULL);
    house = open_text(three, &unpinned);
    voldazpe_house_state_t state = state_of(house);
    CHECK(state.managed == 3 && state.sockets == 2 && state.grace == 10000);
    CHECK(state.orders == 0 && state.applications == 0 && state.threads == 0);
    CHECK(state.refused == 0 && !state.journal_failed && voldazpe_house_affinity(house) == VOLDAZPE_OK);
    OK(voldazpe_house_close(house));
}

static void texts(void) {
    for (voldazpe_house_code_t code = VOLDAZPE_HOUSE_CLOSED; code <= VOLDAZPE_HOUSE_OTHER_VERSION; code++) {
        const char *text = voldazpe_house_code_text(code);
        CHECK(strcmp(text, "no code") != 0 && strlen(text) > 5);
        for (voldazpe_house_code_t other = VOLDAZPE_HOUSE_CLOSED; other < code; other++) {
            CHECK(strcmp(text, voldazpe_house_code_text(other)) != 0);
        }
    }
    CHECK(strcmp(voldazpe_house_code_text(VOLDAZPE_NOT_TOML), voldazpe_code_text(VOLDAZPE_NOT_TOML)) == 0);
    CHECK(strcmp(voldazpe_house_code_text(99), "no code") == 0);
}

/* ---- applications ---- */

static void applications(void) {
    voldazpe_house_t *house = open_text(three, NULL);
    voldazpe_house_application_t all[VOLDAZPE_APPLICATIONS], one = 0;
    voldazpe_house_counts_t counts;
    const uint8_t levels[VOLDAZPE_LEVELS] = {1, 0, 0, 0, 0, 0, 0, 1}, too_many[VOLDAZPE_LEVELS] = {0, 129};
    char name[8] = "kept";
    for (uint32_t i = 0; i < VOLDAZPE_APPLICATIONS; i++) {
        OK(voldazpe_house_join(house, i == 3 ? NULL : "service", &all[i]));
        CHECK(all[i] != 0 && all[i] % VOLDAZPE_APPLICATIONS == i);
    }
    CHECK(voldazpe_house_join(house, "x", &one) == VOLDAZPE_HOUSE_ALL_TAKEN && one == 0);
    CHECK(voldazpe_house_join(house, "x", NULL) == VOLDAZPE_NULL);
    CHECK(voldazpe_house_join(NULL, "x", &one) == VOLDAZPE_NULL);
    CHECK(state_of(house).applications == 16 && state_of(house).orders == 16);

    OK(voldazpe_house_name(house, all[2], name, sizeof name));
    CHECK(strcmp(name, "service") == 0);
    OK(voldazpe_house_name(house, all[2], name, 4));
    CHECK(strcmp(name, "ser") == 0);
    OK(voldazpe_house_name(house, all[3], name, sizeof name));
    CHECK(strcmp(name, "") == 0);
    CHECK(voldazpe_house_name(house, all[2], NULL, 4) == VOLDAZPE_NULL);
    CHECK(voldazpe_house_name(house, all[2], name, 0) == VOLDAZPE_NULL);
    CHECK(voldazpe_house_name(house, 7, name, sizeof name) == VOLDAZPE_HOUSE_WITHDRAWN);

    CHECK(voldazpe_house_want(house, all[2], 8, 1) == VOLDAZPE_HOUSE_NO_LEVEL);
    CHECK(voldazpe_house_want(house, all[2], 0, 129) == VOLDAZPE_ENTRY_TOO_LARGE);
    CHECK(voldazpe_house_want(house, all[2], 0, UINT32_MAX) == VOLDAZPE_ENTRY_TOO_LARGE);
    CHECK(voldazpe_house_want_at_levels(house, all[2], too_many) == VOLDAZPE_ENTRY_TOO_LARGE);
    CHECK(voldazpe_house_want_at_levels(house, all[2], NULL) == VOLDAZPE_NULL);
    CHECK(voldazpe_house_want(NULL, all[2], 0, 1) == VOLDAZPE_NULL);
    CHECK(voldazpe_house_want(NULL, all[2], 9, 1) == VOLDAZPE_NULL);
    CHECK(voldazpe_house_want(house, 0, 0, 1) == VOLDAZPE_HOUSE_WITHDRAWN);
    CHECK(state_of(house).orders == 16);
    OK(voldazpe_house_want(house, all[2], 7, 2)); /* a tick, then the ask */
    uint64_t orders = state_of(house).orders;
    CHECK(orders == 18);
    OK(voldazpe_house_want(house, all[2], 7, 2)); /* wanted already */
    CHECK(state_of(house).orders == orders);
    OK(voldazpe_house_want_at_levels(house, all[2], levels));
    counts = counts_of(house, all[2]);
    CHECK(counts.due == 2 && counts.owned == 0 && counts.asked == 0 && counts.waiting == 0 && counts.threads == 0);
    CHECK(counts.cap == 128 && memcmp(counts.request, levels, sizeof levels) == 0);
    OK(voldazpe_house_cap(house, all[2], 1));
    CHECK(counts_of(house, all[2]).due == 1 && counts_of(house, all[2]).cap == 1);
    CHECK(memcmp(counts_of(house, all[2]).request, levels, sizeof levels) == 0);
    CHECK(voldazpe_house_cap(house, all[2], 129) == VOLDAZPE_ENTRY_TOO_LARGE && counts_of(house, all[2]).cap == 1);
    CHECK(voldazpe_house_cap(house, all[2], 1000000) == VOLDAZPE_ENTRY_TOO_LARGE);
    OK(voldazpe_house_cap(house, all[2], 128));
    CHECK(counts_of(house, all[2]).due == 2);
    CHECK(voldazpe_house_counts(house, all[2], NULL) == VOLDAZPE_NULL);

    OK(voldazpe_house_withdraw(house, all[2]));
    CHECK(voldazpe_house_withdraw(house, all[2]) == VOLDAZPE_HOUSE_WITHDRAWN);
    CHECK(voldazpe_house_cap(house, all[2], 1) == VOLDAZPE_HOUSE_WITHDRAWN);
    CHECK(voldazpe_house_counts(house, all[2], &counts) == VOLDAZPE_HOUSE_WITHDRAWN);
    OK(voldazpe_house_join(house, "later", &one)); /* its number, but another application */
    CHECK(one != all[2] && one % VOLDAZPE_APPLICATIONS == 2);
    CHECK(voldazpe_house_want(house, all[2], 0, 1) == VOLDAZPE_HOUSE_WITHDRAWN);
    counts = counts_of(house, one);
    CHECK(counts.due == 0 && counts.cap == 128 && counts.request[0] == 0 && counts.request[7] == 0);
    OK(voldazpe_house_close(house));
}

/* ---- threads ---- */

enum { MOST_THREADS = VOLDAZPE_THREADS + 1 };
static voldazpe_house_t *shared;
static voldazpe_house_application_t application;
static pthread_barrier_t all_are_there;
static VOLDAZPE_ATOMIC(uint32_t) seats, refused;

static void *registers(void *unused) {
    voldazpe_house_thread_t *me;
    voldazpe_house_code_t code = voldazpe_house_register(shared, application, &me);
    if (code == VOLDAZPE_OK) atomic_fetch_or(&seats, 1u << me->number);
    else CHECK(code == VOLDAZPE_HOUSE_ALL_TAKEN && atomic_fetch_add(&refused, 1) == 0);
    pthread_barrier_wait(&all_are_there);
    return unused;
}

static void *uses_anothers(void *handle) {
    voldazpe_house_thread_t *thread = handle;
    CHECK(voldazpe_house_wait(thread, 0) == VOLDAZPE_HOUSE_NOT_YOURS);
    CHECK(voldazpe_house_give_back(thread) == VOLDAZPE_HOUSE_NOT_YOURS);
    CHECK(voldazpe_house_leave(thread) == VOLDAZPE_HOUSE_NOT_YOURS);
    return NULL;
}

static void threads(void) {
    voldazpe_house_thread_t *me, *again = NULL;
    voldazpe_house_application_t other;
    shared = open_text(three, NULL);
    OK(voldazpe_house_join(shared, "threads", &application));
    OK(voldazpe_house_join(shared, "other", &other));
    pthread_t all[MOST_THREADS];
    CHECK(pthread_barrier_init(&all_are_there, NULL, MOST_THREADS) == 0);
    for (int i = 0; i < MOST_THREADS; i++) all[i] = start_thread(registers, NULL);
    for (int i = 0; i < MOST_THREADS; i++) join_thread(all[i]);
    CHECK(VOLDAZPE_LOAD(&seats) == UINT32_MAX && VOLDAZPE_LOAD(&refused) == 1);
    CHECK(counts_of(shared, application).threads == 0); /* they left by their ends */

    CHECK(voldazpe_house_register(shared, application, NULL) == VOLDAZPE_NULL);
    CHECK(voldazpe_house_register(NULL, application, &again) == VOLDAZPE_NULL);
    CHECK(voldazpe_house_mine(shared) == NULL);
    CHECK(voldazpe_house_register(shared, 5, &again) == VOLDAZPE_HOUSE_WITHDRAWN);
    OK(voldazpe_house_register(shared, application, &me));
    CHECK(voldazpe_house_register(shared, other, &again) == VOLDAZPE_HOUSE_REGISTERED && !again);
    CHECK(!voldazpe_house_keep(me) && voldazpe_house_core(me) == -1);
    CHECK(state_of(shared).threads == 1 && counts_of(shared, application).threads == 1);
    join_thread(start_thread(uses_anothers, me));
    CHECK(voldazpe_house_wait(NULL, 0) == VOLDAZPE_NULL && voldazpe_house_give_back(NULL) == VOLDAZPE_NULL);
    CHECK(voldazpe_house_leave(NULL) == VOLDAZPE_NULL);
    OK(voldazpe_house_leave(me));
    OK(voldazpe_house_register(shared, other, &me)); /* in another application now */
    OK(voldazpe_house_withdraw(shared, other));
    CHECK(voldazpe_house_wait(me, -1) == VOLDAZPE_HOUSE_WITHDRAWN);
    CHECK(voldazpe_house_give_back(me) == VOLDAZPE_HOUSE_WITHDRAWN);
    CHECK(voldazpe_house_register(shared, application, &again) == VOLDAZPE_HOUSE_REGISTERED); /* it leaves first */
    OK(voldazpe_house_leave(me));
    OK(voldazpe_house_register(shared, application, &me));
    OK(voldazpe_house_close(shared)); /* by a thread that is registered, which may go on to use the pointer */
    CHECK(voldazpe_house_wait(me, -1) == VOLDAZPE_HOUSE_CLOSED);
    CHECK(voldazpe_house_give_back(me) == VOLDAZPE_HOUSE_CLOSED);
    CHECK(!voldazpe_house_keep(me) && voldazpe_house_core(me) == -1);
    CHECK(voldazpe_house_close(shared) == VOLDAZPE_HOUSE_CLOSED);
    CHECK(voldazpe_house_want(shared, application, 0, 1) == VOLDAZPE_HOUSE_CLOSED);
    CHECK(voldazpe_house_join(shared, "late", &other) == VOLDAZPE_HOUSE_CLOSED);
    CHECK(voldazpe_house_affinity(shared) == VOLDAZPE_HOUSE_CLOSED);
    OK(voldazpe_house_leave(me));

    shared = open_text(three, NULL); /* held, and used after its close by a thread that isn't registered */
    voldazpe_house_hold(shared);
    voldazpe_house_hold(NULL);
    voldazpe_house_let_go(NULL);
    OK(voldazpe_house_close(shared));
    CHECK(voldazpe_house_join(shared, "late", &other) == VOLDAZPE_HOUSE_CLOSED && voldazpe_house_mine(shared) == NULL);
    CHECK(voldazpe_house_close(shared) == VOLDAZPE_HOUSE_CLOSED);
    voldazpe_house_let_go(shared);
}

/* ---- waiting, giving back, readings ---- */

static VOLDAZPE_ATOMIC(int) other_core;
static VOLDAZPE_ATOMIC(bool) other_goes_on;

static void *other_works(void *unused) {
    voldazpe_house_thread_t *me;
    OK(voldazpe_house_register(shared, application, &me));
    OK(voldazpe_house_wait(me, -1));
    VOLDAZPE_STORE(&other_core, voldazpe_house_core(me));
    while (!VOLDAZPE_LOAD(&other_goes_on)) pause_for(100000);
    OK(voldazpe_house_wait(me, -1)); /* which gives the first one back, if it was asked for */
    VOLDAZPE_STORE(&other_core, voldazpe_house_core(me));
    return unused;
}

static voldazpe_house_owner_t owner_at(uint32_t position) {
    voldazpe_house_owner_t owners[3];
    size_t count;
    OK(voldazpe_house_owners(shared, owners, 3, &count));
    CHECK(count == 3);
    return owners[position];
}

static void waits(void) {
    voldazpe_house_thread_t *me;
    voldazpe_house_application_t mine;
    size_t count = 0;
    shared = open_text(three, NULL);
    OK(voldazpe_house_join(shared, "mine", &mine));
    OK(voldazpe_house_join(shared, "others", &application));
    OK(voldazpe_house_register(shared, mine, &me));
    OK(voldazpe_house_give_back(me)); /* it has nothing */
    uint64_t before = state_of(shared).orders;
    CHECK(voldazpe_house_wait(me, 0) == VOLDAZPE_TIMED_OUT); /* nothing is wanted: it gives no order */
    CHECK(state_of(shared).orders == before && counts_of(shared, mine).waiting == 0);
    int64_t began = nanoseconds_now();
    CHECK(voldazpe_house_wait(me, 20000000) == VOLDAZPE_TIMED_OUT); /* it blocks, and retires */
    CHECK(state_of(shared).orders == before + 2 && counts_of(shared, mine).waiting == 0);
    CHECK(nanoseconds_now() - began >= 20000000 && nanoseconds_now() - began < 20000000000);

    OK(voldazpe_house_want(shared, mine, 0, 1));
    errno = 77;
    OK(voldazpe_house_wait(me, -1));
    CHECK(errno == 77 && voldazpe_house_keep(me) && voldazpe_house_core(me) == 1);
    before = state_of(shared).orders;
    OK(voldazpe_house_wait(me, -1)); /* it has one that it may keep */
    CHECK(state_of(shared).orders == before);
    voldazpe_house_owner_t owner = owner_at(0);
    CHECK(owner.application == mine && owner.thread == me->number && !owner.asked);
    CHECK(owner.core == 1 && owner.socket == 0);
    owner = owner_at(2);
    CHECK(owner.application == 0 && owner.core == 5 && owner.socket == 1);
    CHECK(voldazpe_house_owners(shared, NULL, 0, &count) == VOLDAZPE_OK && count == 3);
    CHECK(voldazpe_house_owners(shared, NULL, 1, &count) == VOLDAZPE_NULL);

    pthread_t other = start_thread(other_works, NULL);
    UNTIL(counts_of(shared, application).waiting == 1);
    CHECK(counts_of(shared, application).owned == 0); /* it wants none yet */
    OK(voldazpe_house_want(shared, application, 1, 3));
    UNTIL(VOLDAZPE_LOAD(&other_core) == 2);
    OK(voldazpe_house_want(shared, application, 0, 3)); /* due 2 now beside mine, at the same level */
    CHECK(counts_of(shared, application).due == 2 && voldazpe_house_keep(me));
    OK(voldazpe_house_want(shared, mine, 0, 0));
    CHECK(!voldazpe_house_keep(me) && voldazpe_house_core(me) == 1 && owner_at(0).asked);
    CHECK(counts_of(shared, mine).asked == 1 && counts_of(shared, mine).due == 0);
    OK(voldazpe_house_want(shared, mine, 0, 1));
    CHECK(voldazpe_house_keep(me)); /* wanted back no longer */
    OK(voldazpe_house_want(shared, mine, 0, 0));
    before = state_of(shared).orders;
    OK(voldazpe_house_give_back(me));
    CHECK(state_of(shared).orders == before + 1);
    CHECK(!voldazpe_house_keep(me) && voldazpe_house_core(me) == -1 && owner_at(0).application == 0);
    OK(voldazpe_house_want(shared, application, 0, 0)); /* the other's is asked back: it waits again, and sleeps */
    VOLDAZPE_STORE(&other_goes_on, true);
    UNTIL(counts_of(shared, application).waiting == 1);
    OK(voldazpe_house_want(shared, application, 0, 1));
    UNTIL(VOLDAZPE_LOAD(&other_core) == 1);
    join_thread(other);
    CHECK(owner_at(0).application == 0 && owner_at(1).application == 0); /* it left by its end */
    OK(voldazpe_house_leave(me));
    OK(voldazpe_house_close(shared));
}

/* ---- hooks ---- */

typedef struct told {
    pthread_mutex_t lock; /* the house's own thread may tell at the same time */
    voldazpe_house_event_t events[16];
    VOLDAZPE_ATOMIC(uint32_t) count;
    pthread_t threads[16];
    voldazpe_house_code_t close, read;
    voldazpe_house_thread_t *me;
} told_t;

static void hook(void *context, const voldazpe_house_event_t *event) {
    told_t *told = context;
    if (event->kind == VOLDAZPE_HOUSE_DUE) return; /* waits.c looks at these */
    CHECK(pthread_mutex_lock(&told->lock) == 0);
    uint32_t index = VOLDAZPE_LOAD(&told->count);
    CHECK(index < 16);
    told->threads[index] = pthread_self();
    told->events[index] = *event;
    told->close = voldazpe_house_close(shared); /* which would wait for itself */
    if (told->me) {                             /* nor may the thread leave within its own wait */
        voldazpe_house_code_t left = voldazpe_house_leave(told->me);
        CHECK(left == VOLDAZPE_HOUSE_IN_HOOK || left == VOLDAZPE_HOUSE_NOT_YOURS);
    }
    voldazpe_house_state_t state;               /* the lock is free; the last event comes within the close */
    told->read = voldazpe_house_state(shared, &state);
    CHECK(told->read == VOLDAZPE_OK || told->read == VOLDAZPE_HOUSE_CLOSED);
    VOLDAZPE_STORE(&told->count, index + 1);
    CHECK(pthread_mutex_unlock(&told->lock) == 0);
}

static uint32_t events_of(told_t *told) { return VOLDAZPE_LOAD(&told->count); }

static bool was(told_t *told, uint32_t index, uint32_t kind, uint16_t core, bool moved) {
    const voldazpe_house_event_t *event = &told->events[index];
    return events_of(told) > index && event->kind == kind && event->core == core && event->moved == moved &&
           event->thread == 0 && event->application != 0;
}

static void hooks(void) {
    static told_t told = {.lock = PTHREAD_MUTEX_INITIALIZER};
    const voldazpe_house_options_t options = {.unpinned = true, .hook = hook, .hook_context = &told, .grace = 300000};
    voldazpe_house_thread_t *me;
    shared = open_text(three, &options);
    OK(voldazpe_house_join(shared, "hooked", &application));
    OK(voldazpe_house_register(shared, application, &me));
    CHECK(voldazpe_house_mine(shared) == me);
    told.me = me;
    OK(voldazpe_house_want(shared, application, 0, 1));
    OK(voldazpe_house_wait(me, -1));
    CHECK(events_of(&told) == 1 && was(&told, 0, VOLDAZPE_HOUSE_GOT, 1, false) && told.close == VOLDAZPE_HOUSE_IN_HOOK);
    CHECK(told.read == VOLDAZPE_OK);
    OK(voldazpe_house_want(shared, application, 0, 0));
    CHECK(events_of(&told) >= 2);
    UNTIL(state_of(shared).moved == 1); /* it stays longer than the grace */
    UNTIL(VOLDAZPE_LOAD(&me->word) == -1);
    OK(voldazpe_house_want(shared, application, 0, 1));
    UNTIL(events_of(&told) == 3);
    uint32_t asked = told.events[1].kind == VOLDAZPE_HOUSE_ASKED ? 1 : 2, lost = 3 - asked; /* told by two threads */
    CHECK(was(&told, asked, VOLDAZPE_HOUSE_ASKED, 1, false) && pthread_equal(told.threads[asked], pthread_self()));
    CHECK(was(&told, lost, VOLDAZPE_HOUSE_LOST, 1, true) && !pthread_equal(told.threads[lost], pthread_self()));
    OK(voldazpe_house_wait(me, -1));
    OK(voldazpe_house_give_back(me));
    CHECK(events_of(&told) == 5 && was(&told, 3, VOLDAZPE_HOUSE_GOT, 1, false));
    CHECK(was(&told, 4, VOLDAZPE_HOUSE_LOST, 1, false));
    OK(voldazpe_house_wait(me, -1));
    OK(voldazpe_house_close(shared));
    CHECK(events_of(&told) == 7 && was(&told, 6, VOLDAZPE_HOUSE_LOST, 1, false));
    OK(voldazpe_house_leave(me));
    CHECK(events_of(&told) == 7);
}

/* ---- little stack: each call on 16 KB, beside what the system's threads want at least */

static void count_events(void *count, const voldazpe_house_event_t *event) {
    (void)event;
    ++*(uint32_t *)count;
}

static void *calls_all(void *unused) {
    static uint32_t events;
    const voldazpe_house_options_t options = {.unpinned = true, .hook = count_events, .hook_context = &events,
                                              .journal_folder = ".", .grace = NEVER};
    voldazpe_house_thread_t *me;
    voldazpe_house_t *house, *own;
    voldazpe_house_owner_t owner;
    size_t count;
    OK(voldazpe_house_open(NULL, 0, &unpinned, &own));
    OK(voldazpe_house_close(own));
    remove_journal();
    OK(voldazpe_house_open(three, strlen(three), &options, &house));
    OK(voldazpe_house_join(house, "small", &application));
    OK(voldazpe_house_register(house, application, &me));
    OK(voldazpe_house_want(house, application, 0, 1));
    OK(voldazpe_house_wait(me, -1));
    OK(voldazpe_house_want(house, application, 0, 0));
    CHECK(voldazpe_house_wait(me, 1000) == VOLDAZPE_TIMED_OUT);
    OK(voldazpe_house_cap(house, application, 1));
    OK(voldazpe_house_owners(house, &owner, 1, &count));
    CHECK(counts_of(house, application).threads == 1 && state_of(house).threads == 1);
    OK(voldazpe_house_give_back(me));
    OK(voldazpe_house_leave(me));
    OK(voldazpe_house_withdraw(house, application));
    OK(voldazpe_house_close(house));
    CHECK(events == 5); /* it got a core, which was asked back, and lost it; it was due one, and none */
    return unused;
}

#if defined(__SANITIZE_ADDRESS__)
#define SANITIZED 1
#elif defined(__has_feature)
#if __has_feature(address_sanitizer)
#define SANITIZED 1
#endif
#endif
#ifndef SANITIZED
#define SANITIZED VOLDAZPE_THREAD_SANITIZER /* whose frames are larger */
#endif

static void little_stack(void) {
    pthread_attr_t attributes;
    pthread_t thread;
    CHECK(pthread_attr_init(&attributes) == 0);
    CHECK(pthread_attr_setstacksize(&attributes, (size_t)sysconf(_SC_THREAD_STACK_MIN) + 16384) == 0);
    CHECK(pthread_create(&thread, &attributes, calls_all, NULL) == 0);
    join_thread(thread);
    CHECK(pthread_attr_destroy(&attributes) == 0);
}

int main(void) {
    openings();
    texts();
    applications();
    threads();
    waits();
    hooks();
    if (!SANITIZED) little_stack();
    return 0;
}
