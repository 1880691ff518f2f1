/* Values that a test with the first application, thread and core doesn't meet: numbers larger than a byte, levels in their order,
 * core numbers that differ only in their high byte, less room than there are owners, null in place of each handle, the first
 * error of pinning, how many cores stay unmanaged, and errno. Linked with --wrap=sched_setaffinity --wrap=open. */
#include "../../house/house.h"
#include "check.h"

static voldazpe_house_t *house;
static voldazpe_house_application_t first, application;

static void open_machine(const char *text, const voldazpe_house_options_t *options) {
    house = open_text(text, options);
    OK(voldazpe_house_join(house, "first", &first));
    OK(voldazpe_house_join(house, "second", &application));
}

/* ---- pinnings that are refused, each for another reason */

static VOLDAZPE_ATOMIC(bool) refuses;
static VOLDAZPE_ATOMIC(uint32_t) refused;

int __real_sched_setaffinity(pid_t thread, size_t size, const cpu_set_t *mask);
int __wrap_sched_setaffinity(pid_t thread, size_t size, const cpu_set_t *mask);

int __wrap_sched_setaffinity(pid_t thread, size_t size, const cpu_set_t *mask) {
    static const int reasons[] = {EPERM, EINVAL, EACCES, ENOMEM};
    if (!VOLDAZPE_LOAD(&refuses)) return __real_sched_setaffinity(thread, size, mask);
    errno = reasons[atomic_fetch_add(&refused, 1) % 4];
    return -1;
}

static VOLDAZPE_ATOMIC(uint32_t) told;

static void counts_refusals(void *unused, const voldazpe_house_event_t *event) {
    (void)unused;
    atomic_fetch_add(&told, event->kind == VOLDAZPE_HOUSE_REFUSED);
}

/* The first reason stands, the hook is told once, and no call changes errno. */
static void refusals(void) {
    const voldazpe_house_options_t options = {.grace = NEVER, .hook = counts_refusals};
    voldazpe_house_thread_t *me;
    open_machine("[[socket]]\nmanaged = [900]\nunmanaged = [901]\n", &options);
    CHECK(state_of(house).refused == 0 && voldazpe_house_affinity(house) == VOLDAZPE_OK && VOLDAZPE_LOAD(&told) == 0);
    VOLDAZPE_STORE(&refuses, true);
    errno = 71;
    OK(voldazpe_house_register(house, application, &me));
    CHECK(errno == 71 && VOLDAZPE_LOAD(&refused) == 2); /* and once more, to run anywhere */
    CHECK(state_of(house).refused == EPERM && voldazpe_house_affinity(house) == VOLDAZPE_HOUSE_UNPINNED);
    OK(voldazpe_house_want(house, application, 0, 1));
    errno = 72;
    OK(voldazpe_house_wait(me, -1));
    CHECK(errno == 72 && VOLDAZPE_LOAD(&refused) == 4 && voldazpe_house_core(me) == 900);
    CHECK(state_of(house).refused == EPERM && VOLDAZPE_LOAD(&told) == 1);
    errno = 73;
    OK(voldazpe_house_give_back(me));
    CHECK(errno == 73 && VOLDAZPE_LOAD(&refused) == 6);
    errno = 74;
    OK(voldazpe_house_leave(me));
    CHECK(errno == 74 && VOLDAZPE_LOAD(&refused) > 6);
    CHECK(state_of(house).refused == EPERM && VOLDAZPE_LOAD(&told) == 1);
    VOLDAZPE_STORE(&refuses, false);
    OK(voldazpe_house_close(house));
}

/* ---- numbers past a byte */

static void large_numbers(void) {
    static const uint32_t too_many[] = {129, 255, 256, 257, 383, 384, 512, 65536, 65537, UINT32_MAX};
    voldazpe_house_counts_t before, after;
    open_machine("[[socket]]\nmanaged = [1, 2, 3]\nunmanaged = [0]\n", NULL);
    OK(voldazpe_house_want(house, application, 6, 128));
    OK(voldazpe_house_cap(house, application, 127));
    before = counts_of(house, application);
    CHECK(before.request[6] == 128 && before.cap == 127 && before.due == 3);
    for (size_t i = 0; i < sizeof too_many / sizeof *too_many; i++) {
        CHECK(voldazpe_house_want(house, application, 6, too_many[i]) == VOLDAZPE_ENTRY_TOO_LARGE);
        CHECK(voldazpe_house_cap(house, application, too_many[i]) == VOLDAZPE_ENTRY_TOO_LARGE);
        CHECK(voldazpe_house_want(house, application, too_many[i], 1) == VOLDAZPE_HOUSE_NO_LEVEL);
        after = counts_of(house, application);
        CHECK(memcmp(&before, &after, sizeof before) == 0);
    }
    for (uint32_t level = 0; level < VOLDAZPE_LEVELS; level++) {
        uint8_t levels[VOLDAZPE_LEVELS] = {0};
        levels[level] = 129;
        CHECK(voldazpe_house_want_at_levels(house, application, levels) == VOLDAZPE_ENTRY_TOO_LARGE);
    }
    after = counts_of(house, application);
    CHECK(memcmp(&before, &after, sizeof before) == 0);
    OK(voldazpe_house_close(house));
}

/* ---- level 0 is served first */

static void levels_in_order(void) {
    const uint8_t rises[VOLDAZPE_LEVELS] = {0, 1, 2, 0, 0, 0, 0, 5}, falls[VOLDAZPE_LEVELS] = {1, 0, 0, 0, 0, 0, 1, 0};
    open_machine("[[socket]]\nmanaged = [1, 2, 3, 4]\nunmanaged = [0]\n", NULL);
    OK(voldazpe_house_want_at_levels(house, first, rises));
    CHECK(memcmp(counts_of(house, first).request, rises, sizeof rises) == 0 && counts_of(house, first).due == 4);
    OK(voldazpe_house_want_at_levels(house, application, falls)); /* its one at level 0 counts, the one at level 6 doesn't */
    CHECK(memcmp(counts_of(house, application).request, falls, sizeof falls) == 0);
    CHECK(counts_of(house, first).due == 3 && counts_of(house, application).due == 1);
    for (uint32_t level = 0; level + 1 < VOLDAZPE_LEVELS; level++) {
        OK(voldazpe_house_want(house, first, level + 1, 4));
        OK(voldazpe_house_want(house, application, level, 3));
        CHECK(counts_of(house, application).request[level] == 3 && counts_of(house, first).request[level + 1] == 4);
        CHECK(counts_of(house, first).due == 1 && counts_of(house, application).due == 3);
    }
    OK(voldazpe_house_close(house));
}

/* ---- owners */

enum { CORES = 6, ROOM = CORES + 2 };

static const uint16_t numbers[CORES] = {257, 1, 513, 2, 1023, 255}; /* alike except for the high byte */

static VOLDAZPE_ATOMIC(bool) may_go;
static VOLDAZPE_ATOMIC(uint32_t) there, came;
static struct seat {
    voldazpe_house_application_t application;
    uint32_t number;
    int core;
} seats[CORES];

/* A thread of an application, which has a core until it may go. */
static void *has_a_core(void *its) {
    struct seat *seat = its;
    voldazpe_house_thread_t *me;
    OK(voldazpe_house_register(house, seat->application, &me));
    seat->number = me->number;
    atomic_fetch_add(&there, 1);
    OK(voldazpe_house_wait(me, -1));
    seat->core = voldazpe_house_core(me);
    atomic_fetch_add(&came, 1);
    UNTIL(VOLDAZPE_LOAD(&may_go));
    OK(voldazpe_house_leave(me));
    return NULL;
}

static const struct seat *on_core(uint16_t core) {
    for (int i = 0; i < CORES; i++) {
        if (seats[i].core == core) return &seats[i];
    }
    return NULL;
}

static void owners(void) {
    voldazpe_house_owner_t all[ROOM], untouched;
    pthread_t threads[CORES];
    size_t count;
    open_machine("[[socket]]\nmanaged = [257, 1, 513]\nunmanaged = [0]\n"
                 "[[socket]]\nmanaged = [2]\nunmanaged = []\n[[socket]]\nmanaged = [1023, 255]\nunmanaged = [3]\n", NULL);
    for (int i = 0; i < CORES; i++) {
        seats[i].application = i % 2 ? first : application;
        threads[i] = start_thread(has_a_core, &seats[i]);
        UNTIL(VOLDAZPE_LOAD(&there) == (uint32_t)i + 1);
        CHECK(seats[i].number == (uint32_t)i / 2);
    }
    OK(voldazpe_house_want(house, application, 3, 3));
    OK(voldazpe_house_want(house, first, 3, 3));
    UNTIL(VOLDAZPE_LOAD(&came) == CORES);
    OK(voldazpe_house_want(house, first, 3, 2)); /* one of its cores is asked back, if somebody wants it */
    OK(voldazpe_house_want(house, application, 3, 4));
    memset(&untouched, 0x5a, sizeof untouched);
    for (size_t room = 0; room <= ROOM; room++) {
        uint32_t asked = 0;
        memset(all, 0x5a, sizeof all);
        count = 99;
        OK(voldazpe_house_owners(house, all, room, &count));
        CHECK(count == CORES);
        for (size_t i = 0; i < ROOM; i++) {
            if (i >= room || i >= CORES) {
                CHECK(memcmp(&all[i], &untouched, sizeof untouched) == 0);
                continue;
            }
            const struct seat *seat = on_core(numbers[i]);
            CHECK(seat && all[i].core == numbers[i] && all[i].socket == (i < 3 ? 0 : i < 4 ? 1 : 2));
            CHECK(all[i].application == seat->application && all[i].thread == seat->number);
            CHECK(!all[i].asked || seat->application == first);
            asked += all[i].asked;
        }
        CHECK(asked == counts_of(house, first).asked || room < CORES);
    }
    CHECK(counts_of(house, first).asked == 1 && counts_of(house, application).asked == 0);
    VOLDAZPE_STORE(&may_go, true);
    for (int i = 0; i < CORES; i++) join_thread(threads[i]);
    OK(voldazpe_house_owners(house, all, ROOM, &count));
    for (size_t i = 0; i < CORES; i++) CHECK(all[i].application == 0 && all[i].thread == 0 && !all[i].asked);
    OK(voldazpe_house_close(house));
}

/* ---- nulls: each call that is handed a pointer */

static void nulls(void) {
    const uint8_t levels[VOLDAZPE_LEVELS] = {1};
    voldazpe_house_application_t id = 0;
    voldazpe_house_thread_t *me = NULL;
    voldazpe_house_counts_t counts;
    voldazpe_house_owner_t owner;
    voldazpe_house_state_t state;
    char name[4];
    size_t count = 0;
    open_machine("[[socket]]\nmanaged = [1]\nunmanaged = [0]\n", NULL);
    CHECK(voldazpe_house_open(NULL, 0, NULL, NULL) == VOLDAZPE_NULL);
    CHECK(voldazpe_house_open_version(VOLDAZPE_HOUSE_VERSION, NULL, 1, NULL, &house) == VOLDAZPE_NULL);
    CHECK(voldazpe_house_close(NULL) == VOLDAZPE_NULL);
    voldazpe_house_hold(NULL);
    voldazpe_house_let_go(NULL);
    CHECK(voldazpe_house_join(NULL, "x", &id) == VOLDAZPE_NULL && voldazpe_house_join(house, "x", NULL) == VOLDAZPE_NULL);
    CHECK(voldazpe_house_withdraw(NULL, application) == VOLDAZPE_NULL);
    CHECK(voldazpe_house_want(NULL, application, 0, 1) == VOLDAZPE_NULL);
    CHECK(voldazpe_house_want_at_levels(NULL, application, levels) == VOLDAZPE_NULL);
    CHECK(voldazpe_house_want_at_levels(house, application, NULL) == VOLDAZPE_NULL);
    CHECK(voldazpe_house_cap(NULL, application, 1) == VOLDAZPE_NULL);
    CHECK(voldazpe_house_register(NULL, application, &me) == VOLDAZPE_NULL);
    CHECK(voldazpe_house_register(house, application, NULL) == VOLDAZPE_NULL && voldazpe_house_mine(NULL) == NULL);
    CHECK(voldazpe_house_leave(NULL) == VOLDAZPE_NULL && voldazpe_house_wait(NULL, 0) == VOLDAZPE_NULL);
    CHECK(voldazpe_house_end_wait(NULL, application, 0) == VOLDAZPE_NULL);
    CHECK(voldazpe_house_give_back(NULL) == VOLDAZPE_NULL);
    CHECK(voldazpe_house_counts(NULL, application, &counts) == VOLDAZPE_NULL);
    CHECK(voldazpe_house_counts(house, application, NULL) == VOLDAZPE_NULL);
    CHECK(voldazpe_house_name(NULL, application, name, sizeof name) == VOLDAZPE_NULL);
    CHECK(voldazpe_house_name(house, application, NULL, 1) == VOLDAZPE_NULL);
    CHECK(voldazpe_house_name(house, application, name, 0) == VOLDAZPE_NULL);
    CHECK(voldazpe_house_owners(NULL, &owner, 1, &count) == VOLDAZPE_NULL);
    CHECK(voldazpe_house_owners(house, &owner, 1, NULL) == VOLDAZPE_NULL);
    CHECK(voldazpe_house_owners(house, NULL, 1, &count) == VOLDAZPE_NULL && count == 0);
    CHECK(voldazpe_house_state(NULL, &state) == VOLDAZPE_NULL && voldazpe_house_state(house, NULL) == VOLDAZPE_NULL);
    CHECK(voldazpe_house_affinity(NULL) == VOLDAZPE_NULL);
    CHECK(id == 0 && !me && state_of(house).orders == 2 && state_of(house).applications == 2); /* the two that joined */
    OK(voldazpe_house_close(house));
}

/* ---- errno, which an opening and a wait keep */

static VOLDAZPE_ATOMIC(bool) hides; /* whether no file is there */

int __real_open(const char *path, int flags, mode_t mode);
int __wrap_open(const char *path, int flags, mode_t mode);

int __wrap_open(const char *path, int flags, mode_t mode) {
    if (!VOLDAZPE_LOAD(&hides)) return __real_open(path, flags, mode);
    errno = ENOENT;
    return -1;
}

static void keeps_errno(const char *text, const voldazpe_house_options_t *options, voldazpe_house_code_t expected) {
    voldazpe_house_t *opened = NULL;
    errno = 75;
    voldazpe_house_code_t code = voldazpe_house_open(text, text ? strlen(text) : 0, options, &opened);
    CHECK(errno == 75 && code == expected);
    if (opened) OK(voldazpe_house_close(opened));
}

static void errors(void) {
    static const char one[] = "[[socket]]\nmanaged = [1]\nunmanaged = [0]\n";
    const voldazpe_house_options_t unpinned = {.unpinned = true}, nowhere = {.unpinned = true, .journal_folder = "/no/such"};
    voldazpe_house_thread_t *me;
    keeps_errno(one, &unpinned, VOLDAZPE_OK);
    keeps_errno(NULL, &unpinned, VOLDAZPE_OK);
    keeps_errno("x", &unpinned, VOLDAZPE_NOT_TOML);
    VOLDAZPE_STORE(&hides, true);
    keeps_errno(NULL, &unpinned, VOLDAZPE_OK); /* of processors of which nothing is told */
    VOLDAZPE_STORE(&hides, false);
    keeps_errno(one, &nowhere, VOLDAZPE_HOUSE_JOURNAL);
    open_machine(one, NULL);
    OK(voldazpe_house_register(house, application, &me));
    errno = 76;
    CHECK(voldazpe_house_wait(me, 0) == VOLDAZPE_TIMED_OUT && errno == 76);
    CHECK(voldazpe_house_wait(me, 1000000) == VOLDAZPE_TIMED_OUT && errno == 76); /* it sleeps */
    OK(voldazpe_house_want(house, application, 0, 1));
    OK(voldazpe_house_wait(me, -1));
    CHECK(errno == 76);
    OK(voldazpe_house_close(house));
    errno = 77;
    CHECK(voldazpe_house_wait(me, -1) == VOLDAZPE_HOUSE_CLOSED && errno == 77);
    OK(voldazpe_house_leave(me));
}

/* ---- how many cores stay unmanaged */

/* A house of this process's processors manages the cores that the text of so many unmanaged ones does. */
static void unmanaged_cores(uint32_t unmanaged) {
    static char text[32768];
    const voldazpe_house_options_t options = {.unpinned = true, .own = true, .unmanaged = unmanaged};
    unsigned char processors[1024 / 8] = {0};
    voldazpe_house_owner_t all[VOLDAZPE_CORES], expected[VOLDAZPE_CORES];
    voldazpe_house_t *own, *described;
    size_t count, expected_count;
    CHECK(voldazpe_house_processors(processors, sizeof processors));
    CHECK(voldazpe_house_describe("/sys/devices/system/cpu", processors, sizeof processors, unmanaged, text, sizeof text) > 0);
    OK(voldazpe_house_open(NULL, 0, &options, &own));
    described = open_text(text, NULL);
    OK(voldazpe_house_owners(own, all, VOLDAZPE_CORES, &count));
    OK(voldazpe_house_owners(described, expected, VOLDAZPE_CORES, &expected_count));
    CHECK(count == expected_count);
    for (size_t i = 0; i < count; i++) CHECK(all[i].core == expected[i].core && all[i].socket == expected[i].socket);
    OK(voldazpe_house_close(own));
    OK(voldazpe_house_close(described));
}

int main(void) {
    refusals();
    large_numbers();
    levels_in_order();
    owners();
    nulls();
    errors();
    for (uint32_t unmanaged = 1; unmanaged <= 3; unmanaged++) unmanaged_cores(unmanaged);
    return 0;
}
