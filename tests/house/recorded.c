/* The journal is what it should be, to the byte. A course of calls tells its orders beforehand: those of each call, and the ticks
 * that come before it or that move a thread. A second arbiter, of the plain library, answers them. The clock is the test's own.
 * At the end there are enough orders for several pieces of the script. Linked with --wrap=clock_gettime.
 * recorded PIECE FOLDER: bytes of a piece, and an empty folder */
#include "check.h"

#include <dirent.h>
#include <stdarg.h>

static const char machine[] = "[[socket]]\nmanaged = [300, 7]\nunmanaged = [0]\n[[socket]]\nmanaged = [5]\nunmanaged = [2]\n";

enum { GRACE = 16000, APPLICATIONS = 3, WORKERS = 6, STEPS = 6000 }; /* microseconds; workers: two for each application */

static voldazpe_house_t *house;
static VOLDAZPE_ATOMIC(uintptr_t) open_house; /* as the journal's function sees it */

/* ---- the clock, which goes on where the test says so */

static VOLDAZPE_ATOMIC(uint64_t) moment = 5000000; /* microseconds */

int __wrap_clock_gettime(clockid_t clock, struct timespec *time);

int __wrap_clock_gettime(clockid_t clock, struct timespec *time) {
    uint64_t now = VOLDAZPE_LOAD(&moment);
    (void)clock;
    *time = (struct timespec){(time_t)(now / 1000000), (long)(now % 1000000 * 1000)};
    return 0;
}

/* waits until something holds, without the clock; `alarm` ends what never comes */
#define AWAIT(holds)                         \
    do {                                     \
        while (!(holds)) pause_for(20000);   \
    } while (0)

/* ---- what is due: the orders, and a second arbiter's replies */

typedef struct text {
    char *bytes;
    size_t length, room;
} text_t;

static text_t script, replies;
static text_t handed[3]; /* what the journal's function is handed */
static voldazpe_arbiter_t second;
static voldazpe_page_t page;
static uint64_t orders, ticked; /* how many orders; the moment of the last tick */

static void append(text_t *text, const char *bytes, size_t length) {
    if (text->length + length > text->room) {
        text->room = 2 * (text->length + length);
        text->bytes = realloc(text->bytes, text->room);
        CHECK(text->bytes);
    }
    memcpy(text->bytes + text->length, bytes, length);
    text->length += length;
}

__attribute__((format(printf, 2, 3))) static void add(text_t *text, const char *format, ...) {
    char line[200];
    va_list words;
    va_start(words, format);
    int length = vsnprintf(line, sizeof line, format, words);
    va_end(words);
    CHECK(length >= 0 && length < (int)sizeof line);
    append(text, line, (size_t)length);
}

/* an order with the first `entries` entries of its request */
static void add_order(text_t *text, uint32_t client, const voldazpe_order_t *order, uint32_t entries) {
    if (client == VOLDAZPE_CLOCK) add(text, "clock ");
    else add(text, "%u.%u ", client / VOLDAZPE_THREADS, client % VOLDAZPE_THREADS);
    add(text, "%s", voldazpe_order_name(order->kind));
    switch ((voldazpe_order_kind_t)order->kind) {
    case VOLDAZPE_ASK:
        for (uint32_t level = 0; level < entries; level++) add(text, " %u", order->request[level]);
        break;
    case VOLDAZPE_CAP: add(text, " %u", order->cap); break;
    case VOLDAZPE_TICK: add(text, " %llu", (unsigned long long)order->moment); break;
    case VOLDAZPE_JOIN:
    case VOLDAZPE_BLOCK:
    case VOLDAZPE_RETIRE:
    case VOLDAZPE_LEAVE:
    case VOLDAZPE_STATUS: break;
    }
}

/* a reply of those that a house gets */
static void add_reply(text_t *text, const voldazpe_reply_t *reply) {
    add(text, "%s", voldazpe_reply_name(reply->kind));
    switch ((voldazpe_reply_kind_t)reply->kind) {
    case VOLDAZPE_JOINED:
    case VOLDAZPE_DONE: break;
    case VOLDAZPE_DUE: add(text, " %u", reply->due); break;
    case VOLDAZPE_MOVED: add(text, " %u", reply->moved); break;
    case VOLDAZPE_NOW:
        CHECK(reply->place.kind == VOLDAZPE_ON || reply->place.kind == VOLDAZPE_WAITING);
        add(text, " %s", voldazpe_place_name(reply->place.kind));
        if (reply->place.kind == VOLDAZPE_ON) add(text, " %u", reply->place.core);
        break;
    case VOLDAZPE_REFUSED:
        CHECK(reply->refusal == VOLDAZPE_CAP_TOO_LARGE);
        add(text, " 7 cap-too-large");
        break;
    case VOLDAZPE_COUNTS: CHECK("no order to status" && false);
    }
    add(text, "\n");
}

/* The next order that the house is to give. */
static voldazpe_reply_t expect(uint32_t client, voldazpe_order_t order) {
    voldazpe_reply_t reply;
    uint32_t entries = VOLDAZPE_LEVELS;
    CHECK(voldazpe_give(&second, &page, client, order, &reply) == VOLDAZPE_OK);
    while (entries > 1 && order.request[entries - 1] == 0) entries--;
    add_order(&script, client, &order, entries);
    add(&script, "\n");
    add_order(&replies, client, &order, VOLDAZPE_LEVELS);
    add(&replies, " -> ");
    add_reply(&replies, &reply);
    orders++;
    return reply;
}

static voldazpe_reply_t expect_tick(void) {
    ticked = VOLDAZPE_LOAD(&moment);
    return expect(VOLDAZPE_CLOCK, voldazpe_tick(ticked));
}

/* before an ask or a cap, where the last tick is older than a sixteenth of the grace */
static void expect_fresh(void) {
    if (VOLDAZPE_LOAD(&moment) - ticked >= GRACE / 16) (void)expect_tick();
}

static void expect_owners(void) {
    voldazpe_core_t core;
    uint32_t owner;
    add(&script, "cores\n");
    for (uint32_t position = 0; voldazpe_core_at(&second, position, &core) == VOLDAZPE_OK; position++) {
        add(&replies, "core %u socket %u ", core.number, core.socket);
        if (voldazpe_owner(&second, core.number, &owner) != VOLDAZPE_OK) {
            add(&replies, "free\n");
            continue;
        }
        add(&replies, "owner %u.%u%s\n", owner / VOLDAZPE_THREADS, owner % VOLDAZPE_THREADS,
            voldazpe_must_release(&page, owner) == 1 ? " asked" : "");
    }
    add(&replies, "end\n");
}

/* ---- workers, each of which makes one call at a time, as it is told */

typedef enum call { NONE, REGISTER, WAIT, WAIT_NOT, GIVE_BACK, LEAVE, END } call_t;

typedef struct worker {
    VOLDAZPE_ATOMIC(uint32_t) call; /* a call_t; NONE once it has returned */
    voldazpe_house_application_t application;
    voldazpe_house_thread_t *me;    /* or null */
    voldazpe_house_code_t code;
    uint32_t client;                /* in the arbiter */
    bool sleeps;                    /* in a wait */
    bool asked;                     /* whether its core is asked back */
    uint64_t since;                 /* since which tick */
    pthread_t thread;
} worker_t;

static worker_t workers[WORKERS];
static voldazpe_house_application_t applications[APPLICATIONS];
static uint32_t levels[APPLICATIONS], wanted[APPLICATIONS], caps[APPLICATIONS];

static void *works(void *argument) {
    worker_t *worker = argument;
    for (;;) {
        AWAIT(VOLDAZPE_LOAD(&worker->call) != NONE);
        switch ((call_t)VOLDAZPE_LOAD(&worker->call)) {
        case REGISTER: worker->code = voldazpe_house_register(house, worker->application, &worker->me); break;
        case WAIT: worker->code = voldazpe_house_wait(worker->me, -1); break;
        case WAIT_NOT: worker->code = voldazpe_house_wait(worker->me, 0); break;
        case GIVE_BACK: worker->code = voldazpe_house_give_back(worker->me); break;
        case LEAVE: worker->code = voldazpe_house_leave(worker->me); break;
        case NONE: case END: return NULL;
        }
        VOLDAZPE_STORE(&worker->call, NONE);
    }
}

static voldazpe_house_code_t returns(worker_t *worker) {
    AWAIT(VOLDAZPE_LOAD(&worker->call) == NONE);
    worker->sleeps = false;
    return worker->code;
}

static voldazpe_house_code_t calls(worker_t *worker, call_t call) {
    VOLDAZPE_STORE(&worker->call, call);
    return returns(worker);
}

static bool has_core(const worker_t *worker) { return voldazpe_must_release(&page, worker->client) >= 0; }
static bool may_keep(const worker_t *worker) { return voldazpe_must_release(&page, worker->client) == 0; }

/* threads that have got a core by now return from their waits; a core that is asked back now counts so from the last tick */
static void settle(void) {
    for (worker_t *worker = workers; worker < workers + WORKERS; worker++) {
        if (worker->sleeps && has_core(worker)) CHECK(returns(worker) == VOLDAZPE_OK);
        bool asked = worker->me && voldazpe_must_release(&page, worker->client) == 1;
        if (asked && !worker->asked) worker->since = ticked;
        worker->asked = asked;
    }
}

/* ---- steps */

/* A thread gives back what is asked back, and waits for a core, for which it sleeps. */
static void wait_for_a_core(worker_t *worker) {
    if (!may_keep(worker)) worker->sleeps = expect(worker->client, voldazpe_block()).place.kind == VOLDAZPE_WAITING;
    if (!worker->sleeps) {
        CHECK(calls(worker, WAIT) == VOLDAZPE_OK);
        return;
    }
    VOLDAZPE_STORE(&worker->call, WAIT);
    AWAIT(state_of(house).orders == orders);
}

/* A wait without sleep: if no core can come, the thread gives its own back, or gives no order. */
static void poll_for_a_core(worker_t *worker) {
    voldazpe_counts_t has;
    uint32_t owner;
    voldazpe_core_t core;
    bool is_free = false, mine = has_core(worker), keeps = may_keep(worker);
    CHECK(voldazpe_counts(&second, worker->client / VOLDAZPE_THREADS, &has) == VOLDAZPE_OK);
    for (uint32_t position = 0; voldazpe_core_at(&second, position, &core) == VOLDAZPE_OK; position++) {
        is_free = is_free || voldazpe_owner(&second, core.number, &owner) != VOLDAZPE_OK;
    }
    bool comes = keeps || (has.owned - mine < has.due && is_free);
    if (comes && !keeps) CHECK(expect(worker->client, voldazpe_block()).place.kind == VOLDAZPE_ON);
    if (!comes && mine) (void)expect(worker->client, voldazpe_retire());
    CHECK(calls(worker, WAIT_NOT) == (comes ? VOLDAZPE_OK : (uint32_t)VOLDAZPE_TIMED_OUT));
}

static void give_back(worker_t *worker) {
    if (has_core(worker)) (void)expect(worker->client, voldazpe_retire());
    CHECK(calls(worker, GIVE_BACK) == VOLDAZPE_OK);
}

static void end_a_wait(worker_t *worker) {
    (void)expect(worker->client, voldazpe_retire());
    OK(voldazpe_house_end_wait(house, worker->application, worker->me->number));
    CHECK(returns(worker) == VOLDAZPE_HOUSE_WAIT_ENDED);
}

static void come_or_leave(worker_t *worker) {
    if (!worker->me) {
        OK(calls(worker, REGISTER));
        worker->client = voldazpe_client((uint32_t)(worker->application % VOLDAZPE_APPLICATIONS), worker->me->number);
        return;
    }
    if (has_core(worker)) (void)expect(worker->client, voldazpe_retire());
    OK(calls(worker, LEAVE));
    worker->me = NULL;
}

static void want(uint32_t which, uint32_t level, uint32_t cores) {
    uint32_t client = voldazpe_client((uint32_t)(applications[which] % VOLDAZPE_APPLICATIONS), 0);
    if (cores != wanted[which] || (cores > 0 && level != levels[which])) {
        expect_fresh();
        (void)expect(client, voldazpe_ask(level, cores));
    }
    OK(voldazpe_house_want(house, applications[which], level, cores));
    levels[which] = level;
    wanted[which] = cores;
}

static void cap(uint32_t which, uint32_t cores) {
    uint32_t client = voldazpe_client((uint32_t)(applications[which] % VOLDAZPE_APPLICATIONS), 0);
    if (cores != caps[which]) {
        expect_fresh();
        (void)expect(client, voldazpe_cap(cores));
    }
    CHECK(voldazpe_house_cap(house, applications[which], cores) ==
          (cores > VOLDAZPE_CORES ? VOLDAZPE_ENTRY_TOO_LARGE : (uint32_t)VOLDAZPE_OK));
    if (cores <= VOLDAZPE_CORES) caps[which] = cores;
}

/* An application's number is the least that is free. */
static void join(uint32_t which, uint32_t number) {
    (void)expect(voldazpe_client(number, 0), voldazpe_join());
    OK(voldazpe_house_join(house, "joins", &applications[which]));
    CHECK(applications[which] % VOLDAZPE_APPLICATIONS == number);
    wanted[which] = 0;
    caps[which] = VOLDAZPE_CORES;
    workers[2 * which].application = workers[2 * which + 1].application = applications[which];
}

/* An application ends with its threads, and joins again: with its number, or with that of one that has ended too. */
static void withdraw(uint32_t which) {
    uint32_t number = (uint32_t)(applications[which] % VOLDAZPE_APPLICATIONS);
    (void)expect(voldazpe_client(number, 0), voldazpe_leave());
    OK(voldazpe_house_withdraw(house, applications[which]));
    for (uint32_t i = 2 * which; i < 2 * which + 2; i++) {
        if (workers[i].sleeps) CHECK(returns(&workers[i]) == VOLDAZPE_HOUSE_WITHDRAWN);
        if (workers[i].me) OK(calls(&workers[i], LEAVE));
        workers[i].me = NULL;
    }
    settle();
    join(which, number);
}

/* The clock goes on. After the grace the house's own thread moves threads that stayed, by a tick. */
static void pass_time(uint32_t microseconds) {
    uint64_t before = state_of(house).moved, now = VOLDAZPE_LOAD(&moment) + microseconds;
    bool ends = false;
    for (int i = 0; i < WORKERS; i++) ends = ends || (workers[i].asked && workers[i].since + GRACE <= now);
    VOLDAZPE_STORE(&moment, now);
    if (!ends) return;
    uint32_t moved = expect_tick().moved;
    CHECK(moved > 0);
    AWAIT(state_of(house).moved == before + moved);
}

static void step(uint64_t *random) {
    worker_t *worker = &workers[next_random(random) % WORKERS];
    uint32_t which = next_random(random) % APPLICATIONS, kind = next_random(random) % 64;
    if (kind < 20) want(which, next_random(random) % 8, next_random(random) % 4);
    else if (kind < 24) cap(which, next_random(random) % 8 == 0 ? 129 + next_random(random) % 127 : next_random(random) % 5);
    else if (kind < 32) pass_time(next_random(random) % 8 == 0 ? GRACE + 1 : next_random(random) % (GRACE / 20));
    else if (kind == 32) withdraw(which);
    else if (worker->sleeps) { if (kind < 36) end_a_wait(worker); }
    else if (!worker->me || kind < 36) come_or_leave(worker);
    else if (kind < 50) wait_for_a_core(worker);
    else if (kind < 57) poll_for_a_core(worker);
    else give_back(worker);
    settle();
    CHECK(state_of(house).orders == orders);
}

/* Each core has an owner, and one is asked back. */
static void cores_at_the_close(void) {
    for (uint32_t which = 0; which < APPLICATIONS; which++) cap(which, VOLDAZPE_CORES);
    want(0, 1, 2);
    want(1, 2, 0);
    want(2, 1, 1);
    settle();
    for (worker_t *worker = workers; worker < workers + WORKERS; worker++) {
        if (!worker->me) come_or_leave(worker);
        if (!worker->sleeps) wait_for_a_core(worker);
        settle();
    }
    want(1, 0, 1);
    settle();
}

/* ---- what was written */

/* The journal's function may make no call except for a text: these calls are refused. */
static void hands_out(void *unused, voldazpe_house_text_t text, const char *bytes, size_t length) {
    voldazpe_house_t *its = (voldazpe_house_t *)VOLDAZPE_LOAD(&open_house);
    voldazpe_house_thread_t *me = NULL;
    (void)unused;
    CHECK(length > 0 && (text == VOLDAZPE_HOUSE_MACHINE) == !its);
    if (its) {
        CHECK(voldazpe_house_close(its) == VOLDAZPE_HOUSE_IN_HOOK);
        CHECK(voldazpe_house_register(its, applications[0], &me) == VOLDAZPE_HOUSE_IN_HOOK);
    }
    append(&handed[text], bytes, length);
}

static bool same(const text_t *text, const text_t *expected, const char *name) {
    size_t at = 0, length = text->length < expected->length ? text->length : expected->length;
    while (at < length && text->bytes[at] == expected->bytes[at]) at++;
    if (at == text->length && at == expected->length) return true;
    size_t from = at < 60 ? 0 : at - 60;
    fprintf(stderr, "%s: %zu bytes in place of %zu, the same to %zu\n", name, text->length, expected->length, at);
    fprintf(stderr, "%.*s\nin place of\n%.*s\n", (int)(text->length - from < 120 ? text->length - from : 120),
            text->bytes + from, (int)(expected->length - from < 120 ? expected->length - from : 120), expected->bytes + from);
    return false;
}

static bool read_file(const char *folder, const char *name, text_t *text) {
    char path[600], bytes[65536];
    (void)snprintf(path, sizeof path, "%s/%s", folder, name);
    FILE *file = fopen(path, "r");
    if (!file) return false;
    for (size_t count; (count = fread(bytes, 1, sizeof bytes, file)) > 0;) append(text, bytes, count);
    CHECK(fclose(file) == 0);
    return true;
}

static uint32_t lines_of(const text_t *text) {
    uint32_t count = 0;
    for (size_t i = 0; i < text->length; i++) count += text->bytes[i] == '\n';
    CHECK(text->length > 0 && text->bytes[text->length - 1] == '\n');
    return count;
}

/* The pieces one after another; each but the last is full, none is too long, and a pair has as many orders as replies. */
static uint32_t read_pieces(const char *folder, size_t most, text_t *all_script, text_t *all_replies) {
    for (uint32_t piece = 0;; piece++) {
        char name[32], other[32], later[32];
        text_t one = {0}, its = {0}, next = {0};
        (void)snprintf(name, sizeof name, "%08u.script", piece);
        (void)snprintf(other, sizeof other, "%08u.replies", piece);
        (void)snprintf(later, sizeof later, "%08u.script", piece + 1);
        CHECK(read_file(folder, name, &one) && read_file(folder, other, &its));
        bool last = !read_file(folder, later, &next);
        CHECK(one.length <= most && its.length <= most && (last || its.length + 200 >= most));
        CHECK(last || lines_of(&one) == lines_of(&its));
        append(all_script, one.bytes, one.length);
        append(all_replies, its.bytes, its.length);
        free(one.bytes);
        free(its.bytes);
        free(next.bytes);
        if (last) return piece + 1;
    }
}

static uint32_t files_in(const char *folder) {
    uint32_t count = 0;
    DIR *files = opendir(folder);
    CHECK(files);
    for (const struct dirent *file; (file = readdir(files));) count += file->d_name[0] != '.';
    CHECK(closedir(files) == 0);
    return count;
}

static void compare(const char *folder, size_t most) {
    char grace[40];
    text_t read_machine = {0}, read_script = {0}, read_replies = {0}, text = {0};
    (void)snprintf(grace, sizeof grace, "grace = %d\n", GRACE);
    append(&text, grace, strlen(grace));
    append(&text, machine, strlen(machine));
    CHECK(read_file(folder, "machine.toml", &read_machine) && same(&read_machine, &text, "machine"));
    CHECK(same(&handed[VOLDAZPE_HOUSE_MACHINE], &text, "machine, handed out"));
    uint32_t pieces = read_pieces(folder, most, &read_script, &read_replies);
    CHECK(pieces >= 2 && files_in(folder) == 2 * pieces + 1);
    CHECK(same(&read_script, &script, "script") && same(&read_replies, &replies, "replies"));
    CHECK(same(&handed[VOLDAZPE_HOUSE_SCRIPT], &script, "script, handed out"));
    CHECK(same(&handed[VOLDAZPE_HOUSE_REPLIES], &replies, "replies, handed out"));
    printf("%lu orders, %u pieces\n", (unsigned long)orders, pieces);
    text_t *const all[] = {&read_machine, &read_script, &read_replies, &text, &script, &replies, &handed[0], &handed[1], &handed[2]};
    for (size_t i = 0; i < sizeof all / sizeof *all; i++) free(all[i]->bytes);
}

int main(int count, char **words) {
    CHECK(count == 3);
    (void)alarm(250);
    uint64_t random = 11;
    size_t piece = strtoull(words[1], NULL, 10);
    const voldazpe_house_options_t options = {.unpinned = true, .grace = GRACE, .journal_folder = words[2], .journal = hands_out};
    char text[sizeof machine + 40];
    (void)snprintf(text, sizeof text, "grace = %d\n%s", GRACE, machine);
    CHECK(voldazpe_open(&second, text, strlen(text), NULL) == VOLDAZPE_OK);
    OK(voldazpe_house_open(machine, strlen(machine), &options, &house));
    VOLDAZPE_STORE(&open_house, (uintptr_t)house);
    for (uint32_t which = 0; which < APPLICATIONS; which++) join(which, which);
    for (int i = 0; i < WORKERS; i++) workers[i].thread = start_thread(works, &workers[i]);
    for (int i = 0; i < STEPS; i++) step(&random);
    for (uint32_t i = 0; script.length <= piece + piece / 16; i++) want(2, 5 + i % 3, 1 + i % 2);
    cores_at_the_close();
    expect_owners();
    OK(voldazpe_house_close(house));
    for (int i = 0; i < WORKERS; i++) {
        if (workers[i].sleeps) CHECK(returns(&workers[i]) == VOLDAZPE_HOUSE_CLOSED);
        OK(calls(&workers[i], LEAVE));
        VOLDAZPE_STORE(&workers[i].call, END);
        join_thread(workers[i].thread);
    }
    compare(words[2], piece);
    CHECK(voldazpe_close(&second) == VOLDAZPE_OK);
    return 0;
}
