/* All at once: threads that come and go, applications that join and leave, wants that change each millisecond, eight threads that
 * want something else as fast as they can, cancellations, ends without leaving, and limits on waits. At the end the house is
 * closed with threads inside. No two threads ever believe that they are on the same core. Each want is entered once, before it is
 * answered. Before each order the house's table of owners agrees with the arbiter.
 *
 * With a folder the house keeps its journal there. The journal has each order, even a refused one: linked with
 * --wrap=voldazpe_lib_member_step, which counts them.
 *
 * stress SECONDS SEED AHEAD PINNED [FOLDER]: runs for at least SECONDS, and up to a minute more until all this has come, and a
 * million orders if AHEAD isn't 0. AHEAD orders come before all threads. PINNED is 0 or 1 */
#include "../../house/house.h"
#include "check.h"

enum { THREADS = 64, SLOTS = 6, HASTY = 8, BURST = 50, RENEWED = 1000000 };

static const char wide[] = "[[socket]]\nmanaged = [1, 2, 3, 4]\nunmanaged = [0]\n"
                           "[[socket]]\nmanaged = [9, 8, 7, 6]\nunmanaged = [5]\n"
                           "[[socket]]\nmanaged = [10, 11, 12, 13]\nunmanaged = []\n";

static voldazpe_house_t *house;
static VOLDAZPE_ATOMIC(uint64_t) applications[SLOTS]; /* 0: none now */
static VOLDAZPE_ATOMIC(bool) go_on = true;
static VOLDAZPE_ATOMIC(uint64_t) waits, timed_out, given_back, cancelled, withdrawn;
static bool pinned;

/* ---- orders that were given, and those of the journal */

static VOLDAZPE_ATOMIC(uint64_t) steps, refusals, lines;

uint32_t __real_voldazpe_lib_member_step(voldazpe_member_handle_t *handle, uint32_t client,
                                         const voldazpe_order_t *order, voldazpe_reply_t *reply);
uint32_t __wrap_voldazpe_lib_member_step(voldazpe_member_handle_t *handle, uint32_t client,
                                         const voldazpe_order_t *order, voldazpe_reply_t *reply);

/* The wants of a hasty thread are numbered, at all levels but the first: application by application. */
static VOLDAZPE_ATOMIC(uint64_t) entered[HASTY]; /* the number of the last one */

static void write_number(uint8_t *request, uint64_t number) {
    for (int level = 1; level < VOLDAZPE_LEVELS; level++) request[level] = (uint8_t)(number >> 7 * (level - 1) & 127);
}

static uint64_t number_of(const uint8_t *request) {
    uint64_t number = 0;
    for (int level = VOLDAZPE_LEVELS - 1; level > 0; level--) number = number << 7 | request[level];
    return number;
}

static void note_ask(uint32_t application, const uint8_t *request) {
    if (application >= HASTY) return;
    uint64_t number = number_of(request);
    CHECK(number == VOLDAZPE_LOAD(&entered[application]) + 1);
    VOLDAZPE_STORE(&entered[application], number);
}

/* One core by turns. The lock is taken, the member is in a turn, and all posts of earlier orders are made. */
static void compare_owner(voldazpe_member_handle_t *handle) {
    uint32_t position = (uint32_t)(VOLDAZPE_LOAD(&steps) % house->machine.managed), owner = UINT32_MAX;
    uint32_t code = voldazpe_lib_member_owner(handle, house->cores[position].number, &owner);
    CHECK(code == VOLDAZPE_OK || code == VOLDAZPE_NO_OWNER);
    CHECK(house->owner[position] == (int16_t)owner);
}

uint32_t __wrap_voldazpe_lib_member_step(voldazpe_member_handle_t *handle, uint32_t client,
                                         const voldazpe_order_t *order, voldazpe_reply_t *reply) {
    compare_owner(handle);
    uint32_t code = __real_voldazpe_lib_member_step(handle, client, order, reply);
    CHECK(code == VOLDAZPE_OK);
    atomic_fetch_add(&steps, 1);
    atomic_fetch_add(&refusals, reply->kind == VOLDAZPE_REFUSED);
    CHECK(reply->kind != VOLDAZPE_REFUSED || order->kind == VOLDAZPE_CAP);
    if (order->kind == VOLDAZPE_ASK) note_ask(client / VOLDAZPE_THREADS, order->request);
    return code;
}

static void count_lines(void *unused, voldazpe_house_text_t text, const char *bytes, size_t length) {
    (void)unused;
    for (size_t i = 0; i < length && text == VOLDAZPE_HOUSE_SCRIPT; i++) atomic_fetch_add(&lines, bytes[i] == '\n');
}

static void spin(uint32_t turns) {
    for (VOLDAZPE_ATOMIC(uint32_t) i = 0; VOLDAZPE_LOAD(&i) < turns; VOLDAZPE_ADD(&i, 1)) {}
}

/* ---- a thread: registers, waits and works some times, and ends in one way or another ---- */

typedef struct worker {
    pthread_t thread;
    uint64_t state;
    bool runs;
    VOLDAZPE_ATOMIC(bool) done;
    VOLDAZPE_ATOMIC(uint64_t) application;
    voldazpe_house_thread_t *me;
} worker_t;

/* Whether a thread's belief has ended without its doing: its application was withdrawn, and its core may be
 * another's. */
static bool was_ended(worker_t *worker) {
    voldazpe_house_counts_t counts;
    return voldazpe_house_counts(house, VOLDAZPE_LOAD(&worker->application), &counts) != VOLDAZPE_OK;
}

/* False where the worker itself was ended before it could say so. */
static bool believe_with_others(int core, worker_t *worker) {
    for (uintptr_t other = 0; !atomic_compare_exchange_strong(&believed[core], &other, (uintptr_t)worker);) {
        CHECK(other != (uintptr_t)worker);
        if (other == 0) continue; /* it has stopped meanwhile */
        if (was_ended(worker)) return false;
        if (was_ended((worker_t *)other)) continue; /* its belief counts no longer */
        if (VOLDAZPE_LOAD(&believed[core]) == other) { /* only after this worker was ended */
            CHECK(was_ended(worker));
            return false;
        }
        other = 0; /* it has stopped meanwhile, and is somewhere else */
    }
    uint32_t now = atomic_fetch_add(&believers, 1) + 1;
    if (now > VOLDAZPE_LOAD(&most_believers)) VOLDAZPE_STORE(&most_believers, now);
    return true;
}

static void stop_believing(int core, worker_t *worker) {
    uintptr_t mine = (uintptr_t)worker;
    atomic_fetch_sub(&believers, 1);
    CHECK(atomic_compare_exchange_strong(&believed[core], &mine, 0) || was_ended(worker));
}

static void work(worker_t *worker, int core) {
    cpu_set_t mask;
    if (!believe_with_others(core, worker)) return;
    if (pinned && next_random(&worker->state) % 16 == 0) {
        CHECK(sched_getaffinity(0, sizeof mask, &mask) == 0);
        /* it may have been ended meanwhile */
        CHECK((CPU_COUNT(&mask) == 1 && CPU_ISSET((size_t)core, &mask)) || voldazpe_house_core(worker->me) != core);
    }
    uint32_t tasks = next_random(&worker->state) % 200;
    for (; tasks > 0 && voldazpe_house_keep(worker->me); tasks--) spin(20);
    stop_believing(core, worker);
}

/* One wait and what follows; false where the thread is to end. */
static bool turn(worker_t *worker) {
    static const int64_t limits[] = {-1, 0, 20000, 1000000};
    int64_t limit = limits[next_random(&worker->state) % 4];
    voldazpe_house_code_t code = voldazpe_house_wait(worker->me, limit);
    atomic_fetch_add(&waits, 1);
    if (code == VOLDAZPE_TIMED_OUT) {
        CHECK(limit >= 0);
        atomic_fetch_add(&timed_out, 1);
        return true;
    }
    if (code != VOLDAZPE_OK) {
        CHECK(code == VOLDAZPE_HOUSE_WITHDRAWN || code == VOLDAZPE_HOUSE_CLOSED);
        CHECK(!voldazpe_house_keep(worker->me) && voldazpe_house_core(worker->me) == -1);
        if (code == VOLDAZPE_HOUSE_WITHDRAWN) atomic_fetch_add(&withdrawn, 1);
        return false;
    }
    int core = voldazpe_house_core(worker->me);
    if (core < 0) return true; /* it was ended at once */
    work(worker, core);
    if (next_random(&worker->state) % 3 != 0) return true; /* if it has to, the next wait gives the core back */
    code = voldazpe_house_give_back(worker->me);
    CHECK(code == VOLDAZPE_OK || code == VOLDAZPE_HOUSE_WITHDRAWN || code == VOLDAZPE_HOUSE_CLOSED);
    CHECK(voldazpe_house_core(worker->me) == -1);
    atomic_fetch_add(&given_back, 1);
    return true;
}

static void note_done(void *worker) { VOLDAZPE_STORE(&((worker_t *)worker)->done, true); }

static void *works(void *argument) {
    worker_t *worker = argument;
    pthread_cleanup_push(note_done, worker);
    for (uint32_t lives = next_random(&worker->state) % 3 + 1; lives > 0; lives--) {
        uint64_t id = VOLDAZPE_LOAD(&applications[next_random(&worker->state) % SLOTS]);
        if (!VOLDAZPE_LOAD(&go_on)) break;
        VOLDAZPE_STORE(&worker->application, id);
        voldazpe_house_code_t code = id ? voldazpe_house_register(house, id, &worker->me) : VOLDAZPE_HOUSE_WITHDRAWN;
        if (code == VOLDAZPE_HOUSE_CLOSED) break;
        if (code != VOLDAZPE_OK) {
            CHECK(code == VOLDAZPE_HOUSE_WITHDRAWN || code == VOLDAZPE_HOUSE_ALL_TAKEN);
            pause_for(100000);
            continue;
        }
        for (uint32_t turns = next_random(&worker->state) % 60; turns > 0 && turn(worker); turns--) {}
        if (next_random(&worker->state) % 8 == 0) pthread_exit(NULL); /* without a word */
        if (next_random(&worker->state) % 8 == 0) break;
        OK(voldazpe_house_leave(worker->me));
    }
    pthread_cleanup_pop(1);
    return NULL;
}

/* ---- threads that want, join and withdraw ---- */

/* Each is registered, or joined before the closing returns: the house's pointer is valid as long as they use it. */
static void *wants(void *unused) {
    uint64_t state = 11;
    while (VOLDAZPE_LOAD(&go_on)) {
        for (int slot = 0; slot < SLOTS; slot++) {
            uint64_t id = VOLDAZPE_LOAD(&applications[slot]);
            uint8_t cores[VOLDAZPE_LEVELS] = {0};
            for (int i = 0; i < 2; i++) {
                cores[next_random(&state) % VOLDAZPE_LEVELS] = (uint8_t)(next_random(&state) % 5);
            }
            voldazpe_house_code_t code = voldazpe_house_want_at_levels(house, id, cores);
            CHECK(code == VOLDAZPE_OK || code == VOLDAZPE_HOUSE_WITHDRAWN);
            if (next_random(&state) % 8 == 0) code = voldazpe_house_cap(house, id, next_random(&state) % 3 ? 128 : 200);
            CHECK(code == VOLDAZPE_OK || code == VOLDAZPE_HOUSE_WITHDRAWN || code == VOLDAZPE_ENTRY_TOO_LARGE);
        }
        pause_for(1000000);
    }
    return unused;
}

/* Its application has a cap of 0, so that it takes no core from others. */
static void *hurries(void *application) {
    uint8_t request[VOLDAZPE_LEVELS] = {0};
    uint64_t id = *(const uint64_t *)application;
    uint32_t own = (uint32_t)(id % VOLDAZPE_APPLICATIONS);
    for (uint64_t number = 1;; number++) {
        write_number(request, number);
        voldazpe_house_code_t code = voldazpe_house_want_at_levels(house, id, request);
        if (code == VOLDAZPE_HOUSE_CLOSED) return NULL;
        CHECK(code == VOLDAZPE_OK && VOLDAZPE_LOAD(&entered[own]) == number);
        if (number % BURST == 0) pause_for(4000000 - nanoseconds_now() % 4000000); /* they go on at once */
    }
}

static void *joins(void *unused) {
    uint64_t state = 13;
    while (VOLDAZPE_LOAD(&go_on)) {
        VOLDAZPE_ATOMIC(uint64_t) *slot = &applications[next_random(&state) % SLOTS];
        uint64_t id = VOLDAZPE_LOAD(slot);
        if (id && next_random(&state) % 4 == 0) {
            OK(voldazpe_house_withdraw(house, id));
            VOLDAZPE_STORE(slot, 0);
        } else if (!id) {
            OK(voldazpe_house_join(house, "an application", &id));
            VOLDAZPE_STORE(slot, id);
        }
        pause_for(3000000);
    }
    return unused;
}

/* what can be read at one moment holds together */
static void *reads(void *unused) {
    voldazpe_house_owner_t owners[VOLDAZPE_CORES];
    voldazpe_house_counts_t counts;
    size_t count;
    while (VOLDAZPE_LOAD(&go_on)) {
        OK(voldazpe_house_owners(house, owners, VOLDAZPE_CORES, &count));
        for (size_t i = 0; i < count; i++) {
            CHECK((owners[i].application != 0) || (!owners[i].asked && owners[i].thread == 0));
            for (size_t j = 0; owners[i].application && j < i; j++) { /* no thread has two cores */
                CHECK(owners[i].application != owners[j].application || owners[i].thread != owners[j].thread);
            }
        }
        for (int slot = 0; slot < SLOTS; slot++) {
            if (voldazpe_house_counts(house, VOLDAZPE_LOAD(&applications[slot]), &counts) != VOLDAZPE_OK) continue;
            CHECK(counts.owned + counts.waiting <= counts.threads);
            CHECK(counts.asked == (counts.owned > counts.due ? counts.owned - counts.due : 0));
        }
        pause_for(200000);
    }
    return unused;
}

/* ---- coming and going ---- */

static void start(worker_t *worker, uint64_t seed) {
    worker->state = seed;
    worker->runs = true;
    VOLDAZPE_STORE(&worker->done, false);
    worker->thread = start_thread(works, worker);
}

static pthread_t hasty[HASTY];

static void start_hasty(void) {
    static uint64_t theirs[HASTY];
    for (int i = 0; i < HASTY; i++) { /* the first to join has the lowest number */
        OK(voldazpe_house_join(house, "hurries", &theirs[i]));
        OK(voldazpe_house_cap(house, theirs[i], 0));
        hasty[i] = start_thread(hurries, &theirs[i]);
    }
}

static uint64_t hasty_wants(void) {
    uint64_t sum = 0;
    for (int i = 0; i < HASTY; i++) sum += VOLDAZPE_LOAD(&entered[i]);
    return sum;
}

/* Whether all that this test is to try has come, and enough orders. */
static bool has_come(uint64_t orders) {
    return hasty_wants() >= HASTY * BURST && state_of(house).orders > orders && VOLDAZPE_LOAD(&refusals) > 0 &&
           VOLDAZPE_LOAD(&waits) > 100 && VOLDAZPE_LOAD(&timed_out) > 0 && VOLDAZPE_LOAD(&given_back) > 0 &&
           VOLDAZPE_LOAD(&cancelled) > 0 && VOLDAZPE_LOAD(&withdrawn) > 0;
}

static void come_and_go(double seconds, uint64_t seed, uint64_t orders) {
    static worker_t workers[THREADS];
    int64_t end = nanoseconds_now() + (int64_t)(seconds * 1e9), latest = end + 60000000000;
    uint64_t state = seed;
    pthread_t others[] = {start_thread(wants, NULL), start_thread(joins, NULL), start_thread(reads, NULL)};
    while (nanoseconds_now() < end || (!has_come(orders) && nanoseconds_now() < latest)) {
        for (int i = 0; i < THREADS; i++) {
            if (!workers[i].runs) start(&workers[i], seed++);
            if (next_random(&state) % 128 == 0) {
                CHECK(pthread_cancel(workers[i].thread) == 0);
                atomic_fetch_add(&cancelled, 1);
            }
            if (!VOLDAZPE_LOAD(&workers[i].done)) continue;
            join_thread(workers[i].thread);
            workers[i].runs = false;
        }
        pause_for(500000);
    }
    VOLDAZPE_STORE(&go_on, false);
    for (int i = 0; i < 3; i++) join_thread(others[i]);
    voldazpe_house_state_t last = state_of(house);
    printf("%lu orders\n", (unsigned long)last.orders);
    CHECK(!last.journal_failed && last.moved == 0);
    CHECK(has_come(orders));
    for (int i = 0; i < THREADS; i += 2) { /* half of them end before, the others with the house */
        if (workers[i].runs) CHECK(pthread_cancel(workers[i].thread) == 0);
    }
    voldazpe_house_hold(house); /* threads that are just about to register use its pointer */
    OK(voldazpe_house_close(house));
    for (int i = 0; i < THREADS; i++) {
        if (workers[i].runs) join_thread(workers[i].thread);
    }
    for (int i = 0; i < HASTY; i++) join_thread(hasty[i]);
    CHECK(voldazpe_house_affinity(house) == VOLDAZPE_HOUSE_CLOSED);
    voldazpe_house_let_go(house);
}

/* so many orders, of applications that aren't there any more afterwards */
static void go_ahead(uint64_t orders) {
    voldazpe_house_application_t application;
    while (state_of(house).orders < orders) {
        OK(voldazpe_house_join(house, "goes ahead", &application));
        for (uint32_t i = 1; i <= 1000; i++) OK(voldazpe_house_cap(house, application, i % 2));
        OK(voldazpe_house_withdraw(house, application));
    }
}

int main(int count, char **words) {
    CHECK(count == 5 || count == 6);
    uint64_t ahead = strtoull(words[3], NULL, 10);
    pinned = atoi(words[4]) == 1;
    voldazpe_house_options_t options = {.grace = NEVER, .unpinned = !pinned};
    if (count == 6) options.journal_folder = words[5];
    options.journal = count_lines;
    OK(voldazpe_house_open(pinned ? NULL : wide, pinned ? 0 : strlen(wide), &options, &house));
    go_ahead(ahead);
    start_hasty();
    come_and_go(atof(words[1]), strtoull(words[2], NULL, 10), ahead > 0 ? RENEWED : 0);
    printf("%lu waits, %lu timed out, %lu given back, %lu cancelled, %lu withdrawn, %u at most on cores\n",
           (unsigned long)VOLDAZPE_LOAD(&waits), (unsigned long)VOLDAZPE_LOAD(&timed_out),
           (unsigned long)VOLDAZPE_LOAD(&given_back), (unsigned long)VOLDAZPE_LOAD(&cancelled),
           (unsigned long)VOLDAZPE_LOAD(&withdrawn), VOLDAZPE_LOAD(&most_believers));
    printf("%lu hasty wants\n", (unsigned long)hasty_wants());
    /* the last line asks for the owners */
    CHECK(VOLDAZPE_LOAD(&steps) + 1 == VOLDAZPE_LOAD(&lines) && VOLDAZPE_LOAD(&believers) == 0);
    return 0;
}
