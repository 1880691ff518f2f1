/* Tests members of an arbiter, together with an arbiter without members that gets the same orders. It tests each code
 * of each call in each state, with nothing written if it isn't VOLDAZPE_OK; replies, posts and all words; renewals;
 * waiting for a turn to end; turns that guard data; sleeping and waking; closing in any order; two arbiters at once. As
 * C and as C++.
 * members [ORDERS]: how many orders are compared past renewals, 2,000,100 by default. */
#ifndef _GNU_SOURCE
#define _GNU_SOURCE
#endif
#include "voldazpe.h"

#include <errno.h>
#include <pthread.h>
#include <sched.h>
#include <stdio.h>
#include <stdlib.h>
#include <string.h>
#include <time.h>

#define CHECK(holds)                                                        \
    do {                                                                    \
        if (!(holds)) {                                                     \
            fprintf(stderr, "%s:%d: %s\n", __FILE__, __LINE__, #holds);     \
            exit(1);                                                        \
        }                                                                   \
    } while (0)
#define OK(call) CHECK((call) == VOLDAZPE_OK)

/* two managed cores, 1 and 2 */
#define TWO_CORES "[[socket]]\nmanaged = [1, 2]\nunmanaged = [0]\n"
#define TWO_SOCKETS                                                                \
    "grace = 50\n[[socket]]\nmanaged = [1, 2, 3]\nunmanaged = [0]\n"              \
    "[[socket]]\nmanaged = [5, 6, 7]\nunmanaged = [4]\n"

enum { MANY = 4 };

static voldazpe_page_t page, other_page;
static voldazpe_member_t first, second, third, closed;

static void opens(voldazpe_member_t *member, voldazpe_page_t *on, const char *text) {
    OK(voldazpe_member_open(member, on, text, strlen(text), NULL));
}

/* Three members of one arbiter. */
static void open_three(const char *text) {
    opens(&first, &page, text);
    OK(voldazpe_member_another(&first, &second));
    OK(voldazpe_member_another(&second, &third));
}

static bool is_zero(const void *start, size_t size) {
    const unsigned char *bytes = (const unsigned char *)start;
    for (size_t i = 0; i < size; i++) {
        if (bytes[i]) return false;
    }
    return true;
}

static bool is_clear(voldazpe_page_t *its) {
    for (uint32_t word = 0; word < VOLDAZPE_WORDS; word++) {
        if (VOLDAZPE_LOAD(&its->words[word]) != 0) return false;
    }
    return VOLDAZPE_LOAD(&its->members) == 0 && VOLDAZPE_LOAD(&its->waiting) == 0;
}

static void close_three(void) {
    OK(voldazpe_member_close(&first));
    OK(voldazpe_member_close(&third));
    CHECK(VOLDAZPE_LOAD(&page.members) == 1);
    OK(voldazpe_member_close(&second));
    CHECK(is_clear(&page) && is_zero(&first, sizeof first) && is_zero(&second, sizeof second));
}

static void done(voldazpe_member_t *member, uint32_t client, voldazpe_order_t order, uint32_t kind) {
    voldazpe_reply_t reply;
    OK(voldazpe_member_give(member, client, order, &reply));
    CHECK(reply.kind == kind);
}

static void sleep_for(long milliseconds) {
    const struct timespec pause = {milliseconds / 1000, milliseconds % 1000 * 1000000};
    nanosleep(&pause, NULL);
}

static pthread_t start(void *(*run)(void *), void *argument) {
    pthread_t thread;
    CHECK(pthread_create(&thread, NULL, run, argument) == 0);
    return thread;
}

static void join(pthread_t thread) { CHECK(pthread_join(thread, NULL) == 0); }

#define UNTIL(holds)                                                         \
    do {                                                                     \
        while (!(holds)) sleep_for(1);                                       \
    } while (0)

/* ---- codes ---- */

/* All words, in the library and in the page. */
typedef struct words {
    uint64_t library[VOLDAZPE_WORDS], page[VOLDAZPE_WORDS];
} words_t;

static words_t words_of(voldazpe_member_t *member) {
    words_t words;
    for (uint32_t word = 0; word < VOLDAZPE_WORDS; word++) {
        OK(voldazpe_member_read(member, word, &words.library[word]));
        words.page[word] = VOLDAZPE_LOAD(&page.words[word]);
    }
    return words;
}

static bool same_words(const words_t *a, const words_t *b) { return memcmp(a, b, sizeof *a) == 0; }

#define NOT_CALLED VOLDAZPE_OK /* since the call would wait, or be done */

/* Gives an order in three ways: each is answered by a code, and writes nothing. `watcher` is an open member or null. */
static void answers(voldazpe_member_t *member, voldazpe_member_t *watcher, uint32_t client, voldazpe_order_t order,
                    voldazpe_code_t give, voldazpe_code_t try_give, voldazpe_code_t step) {
    voldazpe_reply_t reply, kept;
    words_t before, after;
    memset(&reply, 0x5a, sizeof reply);
    memcpy(&kept, &reply, sizeof reply);
    if (watcher) before = words_of(watcher);
    if (give != NOT_CALLED) CHECK(voldazpe_member_give(member, client, order, &reply) == give);
    if (try_give != NOT_CALLED) CHECK(voldazpe_member_try_give(member, client, order, &reply) == try_give);
    if (step != NOT_CALLED) CHECK(voldazpe_member_step(member, client, order, &reply) == step);
    CHECK(memcmp(&kept, &reply, sizeof reply) == 0);
    if (!watcher) return;
    after = words_of(watcher);
    CHECK(same_words(&before, &after));
}

/* Orders that are wrong in themselves: whatever the member's state, this comes first, without waiting. */
static void wrong_orders(voldazpe_member_t *member, voldazpe_member_t *watcher) {
    static const voldazpe_code_t codes[] = {VOLDAZPE_NO_CLIENT, VOLDAZPE_NO_ORDER, VOLDAZPE_ENTRY_TOO_LARGE};
    const voldazpe_order_t none = voldazpe_order_of(8), large = voldazpe_ask(7, 129);
    answers(member, watcher, 513, none, codes[0], codes[0], codes[0]);
    answers(member, watcher, UINT32_MAX, voldazpe_join(), codes[0], codes[0], codes[0]);
    answers(member, watcher, VOLDAZPE_CLOCK, none, codes[1], codes[1], codes[1]);
    answers(member, watcher, 0, large, codes[2], codes[2], codes[2]);
}

/* The five readers that are for a turn answer one code, the three of the machine another; none writes. */
static void readers(voldazpe_member_t *member, voldazpe_code_t of_turn, voldazpe_code_t of_machine) {
    uint64_t wide = 77;
    uint32_t number = 77;
    voldazpe_place_t place = {77, 77, 77};
    voldazpe_machine_t machine = {77, 77, 77, 77};
    voldazpe_core_t core = {77, 77};
    voldazpe_counts_t counts = {77, 77, 77, 77};
    voldazpe_request_t request = {{77, 77, 77, 77, 77, 77, 77, 77}};
    CHECK(voldazpe_member_place(member, 0, &place) == of_turn && place.kind == 77 && place.core == 77);
    CHECK(voldazpe_member_owner(member, 1, &number) == of_turn && voldazpe_member_owner(member, 9, &number) == of_turn);
    CHECK(voldazpe_member_counts(member, 0, &counts) == of_turn && counts.due == 77 && counts.waiting == 77);
    CHECK(voldazpe_member_requested(member, 0, &request) == of_turn && request.cores[0] == 77);
    CHECK(voldazpe_member_clock(member, &wide) == of_turn && wide == 77 && number == 77);
    if (of_machine == NOT_CALLED) return;
    CHECK(voldazpe_member_machine(member, &machine) == of_machine && machine.grace == 77 && machine.sockets == 77);
    CHECK(voldazpe_member_core_at(member, 0, &core) == of_machine);
    CHECK(voldazpe_member_unmanaged_at(member, 0, &core) == of_machine && core.number == 77 && core.socket == 77);
}

/* Readers with numbers that nothing has: in each state of an open member this comes first. */
static void wrong_numbers(voldazpe_member_t *member) {
    uint64_t wide = 77;
    voldazpe_place_t place = {77, 77, 77};
    voldazpe_core_t core = {77, 77};
    voldazpe_counts_t counts = {77, 77, 77, 77};
    voldazpe_request_t request = {{77, 77, 77, 77, 77, 77, 77, 77}};
    CHECK(voldazpe_member_read(member, VOLDAZPE_WORDS, &wide) == VOLDAZPE_NO_WORD);
    CHECK(voldazpe_member_read(member, UINT32_MAX, &wide) == VOLDAZPE_NO_WORD && wide == 77);
    CHECK(voldazpe_member_place(member, VOLDAZPE_CLOCK, &place) == VOLDAZPE_NO_CLIENT && place.kind == 77);
    CHECK(voldazpe_member_counts(member, 16, &counts) == VOLDAZPE_NO_APPLICATION && counts.due == 77);
    CHECK(voldazpe_member_requested(member, 16, &request) == VOLDAZPE_NO_APPLICATION && request.cores[0] == 77);
    CHECK(voldazpe_member_core_at(member, 2, &core) == VOLDAZPE_NO_POSITION);
    CHECK(voldazpe_member_unmanaged_at(member, 1, &core) == VOLDAZPE_NO_POSITION && core.number == 77);
    CHECK(voldazpe_member_core_at(member, UINT32_MAX, &core) == VOLDAZPE_NO_POSITION && core.socket == 77);
}

/* What every call but the opening answers of a member that is closed, or busy: one code. */
static void all_answer(voldazpe_member_t *member, voldazpe_code_t code) {
    uint64_t wide = 77;
    voldazpe_post_t post = {77, 77};
    answers(member, NULL, 0, voldazpe_join(), code, code, code);
    answers(member, NULL, 513, voldazpe_order_of(8), code, code, code);
    readers(member, code, code);
    CHECK(voldazpe_member_read(member, 0, &wide) == code && voldazpe_member_read(member, 600, &wide) == code);
    CHECK(voldazpe_member_next_post(member, &post) == code && wide == 77 && post.value == 77 && post.word == 77);
    CHECK(voldazpe_member_begin(member) == code && voldazpe_member_try_begin(member) == code);
    CHECK(voldazpe_member_end(member) == code && voldazpe_member_close(member) == code);
    CHECK(voldazpe_member_another(member, &closed) == code && is_zero(&closed, sizeof closed.handle));
}

/* An opening that is refused, on `other_page`, leaves that page free. */
static void refuses(voldazpe_member_t *member, voldazpe_code_t code, const char *text) {
    uint16_t named = 7;
    CHECK(voldazpe_member_open(member, &other_page, text, strlen(text), &named) == code);
    CHECK(named == (code == VOLDAZPE_CORE_TWICE ? 3 : 7) && VOLDAZPE_LOAD(&other_page.members) == 0);
    CHECK(voldazpe_member_open(member, &other_page, text, strlen(text), NULL) == code);
}

static void openings(void) {
    static char long_text[VOLDAZPE_TEXT + 1];
    memset(long_text, '#', sizeof long_text);
    refuses(&closed, VOLDAZPE_NOT_TOML, "managed = [");
    refuses(&closed, VOLDAZPE_NOT_UTF8, "\xff");
    refuses(&closed, VOLDAZPE_UNKNOWN_KEY, TWO_CORES "speed = 1\n");
    refuses(&closed, VOLDAZPE_BAD_KEY, "");
    refuses(&closed, VOLDAZPE_OUT_OF_RANGE, "grace = 0\n" TWO_CORES);
    refuses(&closed, VOLDAZPE_SOCKET_COUNT, "socket = []\n");
    refuses(&closed, VOLDAZPE_CORE_TWICE, "[[socket]]\nmanaged = [3, 3]\nunmanaged = [0]\n");
    refuses(&closed, VOLDAZPE_MANAGED_COUNT, "[[socket]]\nmanaged = []\nunmanaged = [0]\n");
    refuses(&closed, VOLDAZPE_NO_UNMANAGED, "[[socket]]\nmanaged = [1]\nunmanaged = []\n");
    CHECK(voldazpe_member_open(&closed, &other_page, long_text, sizeof long_text, NULL) == VOLDAZPE_TOO_LONG);
    CHECK(voldazpe_member_open(&closed, &other_page, long_text, VOLDAZPE_TEXT, NULL) == VOLDAZPE_BAD_KEY);
    CHECK(voldazpe_member_open(&closed, &other_page, NULL, 0, NULL) == VOLDAZPE_BAD_KEY);
    CHECK(voldazpe_member_close(&closed) == VOLDAZPE_CLOSED);
}

static void nulls(voldazpe_member_t *member) {
    const voldazpe_order_t order = voldazpe_join();
    voldazpe_reply_t reply;
    CHECK(voldazpe_member_open(NULL, &other_page, TWO_CORES, 1, NULL) == VOLDAZPE_NULL);
    CHECK(voldazpe_member_open(&closed, NULL, TWO_CORES, 1, NULL) == VOLDAZPE_NULL);
    CHECK(voldazpe_member_open(&closed, &other_page, NULL, 1, NULL) == VOLDAZPE_NULL);
    CHECK(voldazpe_member_another(NULL, &closed) == VOLDAZPE_NULL);
    CHECK(voldazpe_member_another(member, NULL) == VOLDAZPE_NULL && voldazpe_member_close(NULL) == VOLDAZPE_NULL);
    CHECK(voldazpe_member_give(NULL, 0, order, &reply) == VOLDAZPE_NULL);
    CHECK(voldazpe_member_give(member, 0, order, NULL) == VOLDAZPE_NULL);
    CHECK(voldazpe_member_try_give(NULL, 0, order, &reply) == VOLDAZPE_NULL);
    CHECK(voldazpe_member_try_give(member, 0, order, NULL) == VOLDAZPE_NULL);
    CHECK(voldazpe_member_step(NULL, 0, order, &reply) == VOLDAZPE_NULL);
    CHECK(voldazpe_member_step(member, 0, order, NULL) == VOLDAZPE_NULL);
    CHECK(voldazpe_member_begin(NULL) == VOLDAZPE_NULL && voldazpe_member_try_begin(NULL) == VOLDAZPE_NULL);
    CHECK(voldazpe_member_end(NULL) == VOLDAZPE_NULL && voldazpe_member_next_post(NULL, NULL) == VOLDAZPE_NULL);
    CHECK(voldazpe_member_next_post(member, NULL) == VOLDAZPE_NULL);
    CHECK(voldazpe_member_read(NULL, 0, NULL) == VOLDAZPE_NULL);
    CHECK(voldazpe_member_read(member, 0, NULL) == VOLDAZPE_NULL);
    CHECK(voldazpe_member_place(NULL, 0, NULL) == VOLDAZPE_NULL);
    CHECK(voldazpe_member_place(member, 0, NULL) == VOLDAZPE_NULL);
    CHECK(voldazpe_member_owner(NULL, 0, NULL) == VOLDAZPE_NULL);
    CHECK(voldazpe_member_owner(member, 0, NULL) == VOLDAZPE_NULL);
    CHECK(voldazpe_member_counts(NULL, 0, NULL) == VOLDAZPE_NULL);
    CHECK(voldazpe_member_counts(member, 0, NULL) == VOLDAZPE_NULL);
    CHECK(voldazpe_member_requested(NULL, 0, NULL) == VOLDAZPE_NULL);
    CHECK(voldazpe_member_requested(member, 0, NULL) == VOLDAZPE_NULL);
    CHECK(voldazpe_member_clock(NULL, NULL) == VOLDAZPE_NULL && voldazpe_member_clock(member, NULL) == VOLDAZPE_NULL);
    CHECK(voldazpe_member_machine(NULL, NULL) == VOLDAZPE_NULL);
    CHECK(voldazpe_member_machine(member, NULL) == VOLDAZPE_NULL);
    CHECK(voldazpe_member_core_at(NULL, 0, NULL) == VOLDAZPE_NULL);
    CHECK(voldazpe_member_core_at(member, 0, NULL) == VOLDAZPE_NULL);
    CHECK(voldazpe_member_unmanaged_at(NULL, 0, NULL) == VOLDAZPE_NULL);
    CHECK(voldazpe_member_unmanaged_at(member, 0, NULL) == VOLDAZPE_NULL);
}

/* A closed member, a busy one, and one whose VOLDAZPE_INIT was forgotten. */
static void closed_and_busy(void) {
    static voldazpe_member_t garbage;
    unsigned char *bytes = (unsigned char *)(void *)&garbage;
    all_answer(&third, VOLDAZPE_CLOSED); /* before it ever opened */
    open_three(TWO_CORES);
    CHECK(voldazpe_member_enters(&second));
    all_answer(&second, VOLDAZPE_BUSY);
    CHECK(voldazpe_member_another(&first, &second) == VOLDAZPE_BUSY);
    CHECK(voldazpe_member_open(&second, &other_page, TWO_CORES, 1, NULL) == VOLDAZPE_BUSY);
    CHECK(voldazpe_member_leaves(&second, 0) == VOLDAZPE_OK);
    CHECK(voldazpe_member_another(&second, &second) == VOLDAZPE_BUSY);
    done(&second, 0, voldazpe_join(), VOLDAZPE_JOINED);
    memset(bytes, 0xa5, sizeof garbage);
    all_answer(&garbage, VOLDAZPE_BUSY);
    CHECK(voldazpe_member_open(&garbage, &other_page, TWO_CORES, 1, NULL) == VOLDAZPE_BUSY);
    close_three();
    all_answer(&first, VOLDAZPE_CLOSED);
    CHECK(is_zero(&other_page, sizeof other_page));
}

static void open_and_free(void) {
    voldazpe_post_t post = {77, 77};
    open_three(TWO_CORES);
    nulls(&first);
    refuses(&first, VOLDAZPE_ALREADY_OPEN, TWO_CORES);
    CHECK(voldazpe_member_open(&first, &page, TWO_CORES, 1, NULL) == VOLDAZPE_ALREADY_OPEN);
    CHECK(voldazpe_member_open(&closed, &page, TWO_CORES, sizeof TWO_CORES - 1, NULL) == VOLDAZPE_ALREADY_OPEN);
    CHECK(voldazpe_member_another(&first, &second) == VOLDAZPE_ALREADY_OPEN);
    CHECK(voldazpe_member_another(&closed, &second) == VOLDAZPE_ALREADY_OPEN); /* comes before CLOSED */
    CHECK(VOLDAZPE_LOAD(&page.members) == 3);
    wrong_orders(&first, &second);
    wrong_numbers(&first);
    answers(&first, &second, 0, voldazpe_join(), NOT_CALLED, NOT_CALLED, VOLDAZPE_NO_TURN);
    readers(&first, VOLDAZPE_NO_TURN, NOT_CALLED);
    CHECK(voldazpe_member_next_post(&first, &post) == VOLDAZPE_NO_TURN && post.value == 77 && post.word == 77);
    CHECK(voldazpe_member_end(&first) == VOLDAZPE_NO_TURN);
    close_three();
}

/* A member in a turn, with and without a stale word, and what another one is answered meanwhile. */
static void in_a_turn(void) {
    voldazpe_post_t post = {77, 77};
    voldazpe_reply_t reply;
    voldazpe_request_t request = {{77, 0, 0, 0, 0, 0, 0, 0}};
    uint32_t number = 77;
    open_three(TWO_CORES);
    done(&third, 0, voldazpe_join(), VOLDAZPE_JOINED);
    done(&third, 0, voldazpe_ask(0, 2), VOLDAZPE_DUE);
    OK(voldazpe_member_begin(&first));
    for (int stale = 0; stale < 2; stale++) {
        refuses(&first, VOLDAZPE_ALREADY_OPEN, TWO_CORES);
        CHECK(voldazpe_member_another(&first, &second) == VOLDAZPE_ALREADY_OPEN); /* comes before IN_TURN */
        CHECK(voldazpe_member_another(&first, &closed) == VOLDAZPE_IN_TURN);
        CHECK(voldazpe_member_close(&first) == VOLDAZPE_IN_TURN && is_zero(&closed, sizeof closed.handle));
        CHECK(voldazpe_member_begin(&first) == VOLDAZPE_IN_TURN);
        CHECK(voldazpe_member_try_begin(&first) == VOLDAZPE_IN_TURN);
        wrong_orders(&first, &second);
        wrong_numbers(&first);
        answers(&first, &second, 0, voldazpe_block(), VOLDAZPE_IN_TURN, VOLDAZPE_IN_TURN,
                stale ? VOLDAZPE_STALE : NOT_CALLED);
        CHECK(voldazpe_member_requested(&first, 1, &request) == VOLDAZPE_NO_REQUEST && request.cores[0] == 77);
        CHECK(voldazpe_member_owner(&first, 0, &number) == VOLDAZPE_NO_OWNER);
        CHECK(voldazpe_member_owner(&first, 65535, &number) == VOLDAZPE_NO_OWNER && number == 77);
        /* of another member, for which the arbiter is taken */
        wrong_orders(&second, &third);
        wrong_numbers(&second);
        answers(&second, &third, 0, voldazpe_block(), NOT_CALLED, VOLDAZPE_TAKEN, VOLDAZPE_NO_TURN);
        readers(&second, VOLDAZPE_NO_TURN, NOT_CALLED);
        CHECK(voldazpe_member_try_begin(&second) == VOLDAZPE_TAKEN);
        CHECK(voldazpe_member_end(&second) == VOLDAZPE_NO_TURN);
        CHECK(voldazpe_member_next_post(&second, &post) == VOLDAZPE_NO_TURN && post.word == 77);
        OK(voldazpe_member_another(&second, &closed)); /* and a member comes and goes */
        answers(&closed, &third, 0, voldazpe_block(), NOT_CALLED, VOLDAZPE_TAKEN, VOLDAZPE_NO_TURN);
        OK(voldazpe_member_close(&closed));
        if (stale) break;
        CHECK(voldazpe_member_next_post(&first, &post) == VOLDAZPE_SETTLED && post.word == 77);
        OK(voldazpe_member_step(&first, 1, voldazpe_block(), &reply));
        CHECK(reply.kind == VOLDAZPE_NOW && voldazpe_reply_core(reply) == 1);
    }
    CHECK(voldazpe_member_end(&first) == VOLDAZPE_STALE);
    CHECK(voldazpe_position(&page, 1) == -1);
    OK(voldazpe_member_next_post(&first, &post));
    CHECK(post.word == VOLDAZPE_FIRST_PLACE + 1 && post.value == 4 && voldazpe_position(&page, 1) == 0);
    CHECK(voldazpe_member_next_post(&first, &post) == VOLDAZPE_SETTLED && post.value == 4);
    OK(voldazpe_member_step(&first, 2, voldazpe_block(), &reply)); /* a turn has many orders */
    CHECK(voldazpe_reply_core(reply) == 2);
    OK(voldazpe_member_next_post(&first, &post));
    OK(voldazpe_member_end(&first));
    CHECK(voldazpe_member_end(&first) == VOLDAZPE_NO_TURN);
    OK(voldazpe_member_try_begin(&second));
    OK(voldazpe_member_owner(&second, 2, &number));
    CHECK(number == 2);
    OK(voldazpe_member_end(&second));
    OK(voldazpe_member_try_give(&third, 3, voldazpe_block(), &reply));
    CHECK(reply.place.kind == VOLDAZPE_WAITING && voldazpe_place_word(&page, 3) == VOLDAZPE_WAITING);
    close_three();
}

/* A text with a limit on orders. */
static void full(void) {
    voldazpe_machine_t machine;
    voldazpe_reply_t reply;
    open_three("grace = 50\norders = 2\n" TWO_CORES);
    OK(voldazpe_member_machine(&second, &machine));
    CHECK(machine.grace == 50 && machine.orders == 2 && machine.managed == 2 && machine.sockets == 1);
    done(&first, 0, voldazpe_join(), VOLDAZPE_JOINED);
    OK(voldazpe_member_begin(&first));
    OK(voldazpe_member_step(&first, 0, voldazpe_join(), &reply)); /* counts towards the limit */
    CHECK(reply.refusal == VOLDAZPE_ALREADY_JOINED);
    answers(&first, &second, 0, voldazpe_status(), VOLDAZPE_IN_TURN, VOLDAZPE_IN_TURN, VOLDAZPE_FULL);
    answers(&second, &third, 0, voldazpe_status(), NOT_CALLED, VOLDAZPE_TAKEN, VOLDAZPE_NO_TURN);
    OK(voldazpe_member_end(&first));
    for (int times = 0; times < 2; times++) {
        answers(&first, &second, 0, voldazpe_leave(), VOLDAZPE_FULL, VOLDAZPE_FULL, VOLDAZPE_NO_TURN);
        answers(&third, &second, VOLDAZPE_CLOCK, voldazpe_tick(1), VOLDAZPE_FULL, VOLDAZPE_FULL, VOLDAZPE_NO_TURN);
    }
    wrong_orders(&first, &second);
    CHECK(voldazpe_entered(&page) == 2);
#if VOLDAZPE_SLEEPS
    VOLDAZPE_STORE(&page.waiting, 1); /* as by one that found the arbiter taken while the order was tried */
    answers(&first, &second, 0, voldazpe_status(), VOLDAZPE_FULL, NOT_CALLED, NOT_CALLED);
    CHECK(VOLDAZPE_LOAD(&page.waiting) == 0); /* and so woken */
#endif
    OK(voldazpe_member_try_begin(&second)); /* the arbiter was given back */
    OK(voldazpe_member_end(&second));
    close_three();
}

static void *gives_late(void *argument) {
    voldazpe_reply_t reply;
    memset(&reply, 0, sizeof reply);
    CHECK(voldazpe_member_give(&second, 0, voldazpe_status(), &reply) == VOLDAZPE_FULL && is_zero(&reply, sizeof reply));
    return argument;
}

/* An order that waited for the arbiter finds the limit reached, and gives the arbiter back. */
static void full_after_a_wait(void) {
    voldazpe_reply_t reply;
    open_three("orders = 1\n" TWO_CORES);
    OK(voldazpe_member_begin(&first));
    OK(voldazpe_member_step(&first, 0, voldazpe_join(), &reply));
    pthread_t thread = start(gives_late, NULL);
#if VOLDAZPE_SLEEPS
    UNTIL(VOLDAZPE_LOAD(&page.waiting) != 0);
#else
    sleep_for(20);
#endif
    OK(voldazpe_member_end(&first));
    join(thread);
    OK(voldazpe_member_try_begin(&third));
    OK(voldazpe_member_end(&third));
    close_three();
}

/* ---- beside an arbiter without members ---- */

static uint64_t state = 88172645463325252;

/* a number below `bound`, by xorshift */
static uint32_t below(uint32_t bound) {
    state ^= state << 13;
    state ^= state >> 7;
    state ^= state << 17;
    return (uint32_t)((state >> 32) % bound);
}

static voldazpe_order_t random_order(uint64_t *moment) {
    VOLDAZPE_ASSERT(VOLDAZPE_ORDER_KINDS == 8, "each kind of order comes");
    uint32_t kind = below(1000);
    if (kind < 20) return voldazpe_join();
    if (kind < 200) {
        uint8_t cores[VOLDAZPE_LEVELS] = {0, 0, 0, 0, 0, 0, 0, 0};
        for (uint32_t level = 0, levels = below(3); level <= levels; level++) {
            cores[below(8)] = (uint8_t)(below(10) ? below(5) : below(129));
        }
        return voldazpe_ask_at_levels(cores);
    }
    if (kind < 230) return voldazpe_cap(below(130));
    if (kind < 700) return voldazpe_block();
    if (kind < 850) return voldazpe_retire();
    if (kind < 855) return voldazpe_leave();
    if (kind < 900) return voldazpe_status();
    *moment += below(40);
    return voldazpe_tick(below(20) ? *moment : *moment / 2);
}

static bool same_reply(const voldazpe_reply_t *a, const voldazpe_reply_t *b) {
    return a->clock == b->clock && a->kind == b->kind && a->refusal == b->refusal && a->place.kind == b->place.kind &&
           a->place.core == b->place.core && a->place.asked == b->place.asked && a->due == b->due &&
           a->owned == b->owned && a->asked == b->asked && a->waiting == b->waiting && a->moved == b->moved;
}

/* An arbiter with three members, and one without that is given the same orders. */
typedef struct pair {
    voldazpe_member_t members[3];
    voldazpe_page_t page, plain_page;
    voldazpe_arbiter_t plain;
    uint64_t moment;
} pair_t;

static pair_t pairs[2];

static void open_pair(pair_t *pair, const char *text) {
    opens(&pair->members[0], &pair->page, text);
    OK(voldazpe_member_another(&pair->members[0], &pair->members[1]));
    OK(voldazpe_member_another(&pair->members[1], &pair->members[2]));
    OK(voldazpe_open(&pair->plain, text, strlen(text), NULL));
    pair->moment = 0;
}

static void close_pair(pair_t *pair) {
    for (int i = 0; i < 3; i++) {
        CHECK(!is_clear(&pair->page));
        OK(voldazpe_member_close(&pair->members[i]));
    }
    CHECK(is_clear(&pair->page));
    OK(voldazpe_close_and_clear(&pair->plain, &pair->plain_page));
}

/* each word is the same in both libraries and in the page, whichever member reads it */
static void compare_words(pair_t *pair, voldazpe_member_t *member) {
    uint64_t value, its;
    for (uint32_t word = 0; word < VOLDAZPE_WORDS; word++) {
        OK(voldazpe_posted(&pair->plain, word, &value));
        OK(voldazpe_member_read(member, word, &its));
        CHECK(its == value && VOLDAZPE_LOAD(&pair->page.words[word]) == value);
    }
}

/* what readers tell, in a turn and out of it */
static void compare_readers(pair_t *pair, voldazpe_member_t *member) {
    voldazpe_place_t place, its_place;
    voldazpe_counts_t counts, its_counts;
    voldazpe_request_t request = {{0}}, its_request = {{0}};
    voldazpe_machine_t machine, its_machine;
    voldazpe_core_t core = {0, 0}, its_core = {0, 0};
    voldazpe_code_t code;
    uint64_t moment, its_moment;
    uint32_t owner = 0, its_owner = 0;
    OK(voldazpe_member_begin(member));
    for (uint32_t thread = 0; thread < VOLDAZPE_ALL_THREADS; thread++) {
        OK(voldazpe_place(&pair->plain, thread, &place));
        OK(voldazpe_member_place(member, thread, &its_place));
        CHECK(place.kind == its_place.kind && place.core == its_place.core && place.asked == its_place.asked);
    }
    for (uint16_t number = 0; number < 9; number++) {
        code = voldazpe_owner(&pair->plain, number, &owner);
        CHECK(voldazpe_member_owner(member, number, &its_owner) == code && owner == its_owner);
    }
    for (uint32_t application = 0; application < VOLDAZPE_APPLICATIONS; application++) {
        OK(voldazpe_counts(&pair->plain, application, &counts));
        OK(voldazpe_member_counts(member, application, &its_counts));
        CHECK(memcmp(&counts, &its_counts, sizeof counts) == 0);
        code = voldazpe_requested(&pair->plain, application, &request);
        CHECK(voldazpe_member_requested(member, application, &its_request) == code);
        CHECK(code != VOLDAZPE_OK || memcmp(&request, &its_request, sizeof request) == 0);
    }
    OK(voldazpe_clock(&pair->plain, &moment));
    OK(voldazpe_member_clock(member, &its_moment));
    CHECK(moment == its_moment);
    if (below(2)) OK(voldazpe_member_end(member)); /* the machine is told in a turn and out of it */
    OK(voldazpe_machine(&pair->plain, &machine));
    OK(voldazpe_member_machine(member, &its_machine));
    CHECK(machine.grace == its_machine.grace && machine.orders == its_machine.orders);
    CHECK(machine.managed == its_machine.managed && machine.sockets == its_machine.sockets);
    for (uint32_t i = 0; i < 9; i++) {
        code = voldazpe_core_at(&pair->plain, i, &core);
        CHECK(voldazpe_member_core_at(member, i, &its_core) == code);
        CHECK(code != VOLDAZPE_OK || (core.number == its_core.number && core.socket == its_core.socket));
        code = voldazpe_unmanaged_at(&pair->plain, i, &core);
        CHECK(voldazpe_member_unmanaged_at(member, i, &its_core) == code);
        CHECK(code != VOLDAZPE_OK || (core.number == its_core.number && core.socket == its_core.socket));
    }
    code = voldazpe_member_end(member);
    CHECK(code == VOLDAZPE_OK || code == VOLDAZPE_NO_TURN);
}

/* An order, with its posts, and after each of them the word in the library and in the page; one or two in a turn. */
static void in_parts(pair_t *pair, voldazpe_member_t *member, uint32_t client, voldazpe_order_t order) {
    voldazpe_reply_t reply, its;
    voldazpe_post_t post, its_post;
    uint64_t value;
    OK(below(2) ? voldazpe_member_begin(member) : voldazpe_member_try_begin(member));
    for (uint32_t orders = 1 + below(2); orders > 0; orders--) {
        OK(voldazpe_step(&pair->plain, client, order, &reply));
        OK(voldazpe_member_step(member, client, order, &its));
        CHECK(same_reply(&reply, &its));
        OK(voldazpe_posted(&pair->plain, 0, &value));
        CHECK(voldazpe_entered(&pair->page) == value);
        while (voldazpe_next_post(&pair->plain, &post) == VOLDAZPE_OK) {
            OK(voldazpe_member_next_post(member, &its_post));
            CHECK(post.word == its_post.word && post.value == its_post.value);
            OK(voldazpe_member_read(&pair->members[below(3)], post.word, &value));
            CHECK(value == post.value && VOLDAZPE_LOAD(&pair->page.words[post.word]) == value);
        }
        CHECK(voldazpe_member_next_post(member, &its_post) == VOLDAZPE_SETTLED);
        client = below(513);
        order = random_order(&pair->moment);
    }
    OK(voldazpe_member_end(member));
}

static void one_order(pair_t *pair, voldazpe_member_t *member, uint32_t client, voldazpe_order_t order) {
    voldazpe_reply_t reply, its;
    uint32_t way = below(4);
    if (way == 0) {
        in_parts(pair, member, client, order);
        return;
    }
    OK(voldazpe_give(&pair->plain, &pair->plain_page, client, order, &reply));
    OK(way == 1 ? voldazpe_member_try_give(member, client, order, &its) :
                  voldazpe_member_give(member, client, order, &its));
    CHECK(same_reply(&reply, &its));
}

/* random orders, given by three members by turns, on two arbiters that are used side by side */
static void compares(void) {
    enum { ORDERS = 6000 };
    open_pair(&pairs[0], TWO_SOCKETS);
    open_pair(&pairs[1], "grace = 7\n" TWO_CORES);
    for (uint32_t i = 0; i < ORDERS; i++) {
        pair_t *pair = &pairs[below(2)];
        voldazpe_member_t *member = &pair->members[below(3)];
        uint32_t client = i < 64 ? 32 * (i % 16) : below(513);
        voldazpe_order_t order = i < 64 ? voldazpe_join() : random_order(&pair->moment);
        one_order(pair, member, client, order);
        compare_words(pair, &pair->members[below(3)]);
        if (i % 16 == 0) compare_readers(pair, member);
    }
    /* a turn on one arbiter takes nothing on the other */
    OK(voldazpe_member_begin(&pairs[0].members[0]));
    one_order(&pairs[1], &pairs[1].members[0], 0, voldazpe_status());
    compare_words(&pairs[1], &pairs[1].members[1]);
    OK(voldazpe_member_end(&pairs[0].members[0]));
    close_pair(&pairs[0]);
    one_order(&pairs[1], &pairs[1].members[2], 0, voldazpe_status()); /* which goes on, where the other is closed */
    compare_words(&pairs[1], &pairs[1].members[0]);
    close_pair(&pairs[1]);
}

/* more orders than a renewal is away, of all kinds; all words are compared around each renewal */
static void renews(uint64_t orders) {
    uint64_t value;
    open_pair(&pairs[0], TWO_SOCKETS);
    for (uint64_t i = 0; i < orders; i++) {
        voldazpe_member_t *member = &pairs[0].members[i % 3];
        voldazpe_reply_t reply, its;
        uint32_t client = i < 16 ? (uint32_t)(32 * i) : below(513);
        voldazpe_order_t order = i < 16 ? voldazpe_join() : random_order(&pairs[0].moment);
        OK(voldazpe_give(&pairs[0].plain, &pairs[0].plain_page, client, order, &reply));
        OK(voldazpe_member_give(member, client, order, &its));
        CHECK(same_reply(&reply, &its) && voldazpe_entered(&pairs[0].page) == i + 1);
        OK(voldazpe_member_read(member, 0, &value));
        CHECK(value == i + 1);
        if (i % 1000000 < 3 || i % 1000000 > 999996 || i % 50000 == 0) {
            compare_words(&pairs[0], member);
            compare_readers(&pairs[0], member);
        }
    }
    close_pair(&pairs[0]);
}

/* ---- waiting for another one's turn ---- */

static VOLDAZPE_ATOMIC(uint32_t) served, time_taken; /* threads; milliseconds of the processor's time */

static uint64_t own_time(void) {
    struct timespec moment;
    CHECK(clock_gettime(CLOCK_THREAD_CPUTIME_ID, &moment) == 0);
    return (uint64_t)moment.tv_sec * 1000 + (uint64_t)moment.tv_nsec / 1000000;
}

/* gives one order, or begins and ends a turn */
static void *waits_its_turn(void *argument) {
    voldazpe_member_t *member = (voldazpe_member_t *)argument;
    voldazpe_reply_t reply;
    uint64_t began = own_time();
    errno = 99;
    if (member == &third) {
        OK(voldazpe_member_begin(member));
        OK(voldazpe_member_end(member));
    } else {
        OK(voldazpe_member_give(member, 0, voldazpe_status(), &reply));
    }
    CHECK(errno == 99);
    VOLDAZPE_ADD(&time_taken, (uint32_t)(own_time() - began));
    VOLDAZPE_ADD(&served, 1);
    return NULL;
}

/* Others sleep while a turn goes on, and each is served after it: one wakes the next. */
static void turns_that_are_waited_for(void) {
    static voldazpe_member_t fourth;
    voldazpe_member_t *waiting[3] = {&second, &third, &fourth};
    pthread_t threads[3];
    open_three(TWO_CORES);
    OK(voldazpe_member_another(&first, &fourth));
    VOLDAZPE_STORE(&time_taken, 0);
    for (int round = 0; round < 30; round++) {
        VOLDAZPE_STORE(&served, 0);
        OK(voldazpe_member_begin(&first));
        for (int i = 0; i < 3; i++) threads[i] = start(waits_its_turn, waiting[i]);
        UNTIL(VOLDAZPE_LOAD(&page.waiting) == 1);
        sleep_for(round == 0 ? 300 : round % 4); /* if this is short, perhaps before each of them sleeps */
        CHECK(VOLDAZPE_LOAD(&served) == 0 && voldazpe_entered(&page) == 2 * (uint64_t)round);
        OK(voldazpe_member_end(&first));
        for (int i = 0; i < 3; i++) join(threads[i]);
        CHECK(VOLDAZPE_LOAD(&served) == 3 && VOLDAZPE_LOAD(&page.waiting) == 0);
        if (round == 0) CHECK(VOLDAZPE_LOAD(&time_taken) < 150); /* of 900 that these waited */
    }
    OK(voldazpe_member_close(&fourth));
    close_three();
}

static uint64_t guarded; /* plain data, of which only turns take care */
static bool inside;

static void *counts_in_turns(void *argument) {
    voldazpe_member_t *member = (voldazpe_member_t *)argument;
    for (int i = 0; i < 20000; i++) {
        voldazpe_reply_t reply;
        OK(voldazpe_member_begin(member));
        CHECK(!inside);
        inside = true;
        guarded++;
        inside = false;
        OK(voldazpe_member_end(member));
        if (i % 8 == 0) OK(voldazpe_member_give(member, 0, voldazpe_status(), &reply));
    }
    return NULL;
}

static void turns_guard_data(void) {
    voldazpe_member_t *members[3] = {&first, &second, &third};
    pthread_t threads[3];
    open_three(TWO_CORES);
    for (int i = 0; i < 3; i++) threads[i] = start(counts_in_turns, members[i]);
    for (int i = 0; i < 3; i++) join(threads[i]);
    CHECK(guarded == 60000 && voldazpe_entered(&page) == 7500);
    close_three();
}

/* ---- sleeping on a thread's word ---- */

enum { ROUNDS = 1000 };

static voldazpe_member_t each[MANY];
static VOLDAZPE_ATOMIC(uint32_t) on_core; /* the thread that has the one core, plus one */

/* hands the one core round and round: a lost wake would leave all of them asleep */
static void *passes_it_on(void *argument) {
    voldazpe_member_t *member = (voldazpe_member_t *)argument;
    uint32_t me = (uint32_t)(member - each);
    for (int round = 0; round < ROUNDS; round++) {
        uint32_t nobody = 0;
        voldazpe_reply_t reply;
        voldazpe_post_t post;
        done(member, me, voldazpe_block(), VOLDAZPE_NOW);
        OK(voldazpe_wait(&page, me, -1));
        CHECK(voldazpe_position(&page, me) == 0);
        CHECK(atomic_compare_exchange_strong(&on_core, &nobody, me + 1));
        CHECK(atomic_exchange(&on_core, 0u) == me + 1);
        if (round % 2) {
            done(member, me, voldazpe_retire(), VOLDAZPE_DONE);
            continue;
        }
        OK(voldazpe_member_begin(member));
        OK(voldazpe_member_step(member, me, voldazpe_retire(), &reply));
        while (voldazpe_member_next_post(member, &post) == VOLDAZPE_OK) {}
        OK(voldazpe_member_end(member));
    }
    return NULL;
}

static void one_core_for_many(void) {
    pthread_t threads[MANY];
    opens(&first, &page, "[[socket]]\nmanaged = [1]\nunmanaged = [0]\n");
    for (int i = 0; i < MANY; i++) OK(voldazpe_member_another(&first, &each[i]));
    done(&first, 0, voldazpe_join(), VOLDAZPE_JOINED);
    done(&first, 0, voldazpe_ask(0, 1), VOLDAZPE_DUE);
    for (int i = 0; i < MANY; i++) threads[i] = start(passes_it_on, &each[i]);
    for (int i = 0; i < MANY; i++) join(threads[i]);
    CHECK(voldazpe_entered(&page) == 2 + 2 * MANY * ROUNDS);
    for (int i = 0; i < MANY; i++) OK(voldazpe_member_close(&each[i]));
    OK(voldazpe_member_close(&first));
    CHECK(is_clear(&page));
}

static VOLDAZPE_ATOMIC(uint32_t) woken;

static void *sleeps(void *argument) {
    uint32_t me = (uint32_t)((uintptr_t)argument - 1);
    OK(voldazpe_wait(&page, me, -1));
    CHECK(voldazpe_place_word(&page, me) == VOLDAZPE_UNMANAGED);
    VOLDAZPE_ADD(&woken, 1);
    return NULL;
}

/* how many sleep on the words of threads 0 to 63 */
static uint32_t asleep(void) {
    uint32_t count = 0;
    for (uint32_t thread = 0; thread < 64; thread++) count += VOLDAZPE_LOAD(&page.sleepers[thread]);
    return count;
}

static void posts_all(voldazpe_member_t *member) {
    voldazpe_post_t post;
    voldazpe_code_t code;
    while ((code = voldazpe_member_next_post(member, &post)) == VOLDAZPE_OK) {}
    CHECK(code == VOLDAZPE_SETTLED);
}

static pthread_t sleepers[40];

/* threads of two applications sleep until they have a core, which they never will */
static void put_to_sleep(uint32_t count) {
    VOLDAZPE_STORE(&woken, 0);
    for (uint32_t application = 0; application < 2; application++) {
        done(&first, 32 * application, voldazpe_join(), VOLDAZPE_JOINED);
    }
    for (uint32_t i = 0; i < count; i++) {
        uint32_t client = voldazpe_client(i % 2, i / 2);
        done(&first, client, voldazpe_block(), VOLDAZPE_NOW);
        sleepers[i] = start(sleeps, (void *)((uintptr_t)client + 1));
    }
    UNTIL(asleep() == count);
    sleep_for(30);
}

/* Both applications leave in one turn, which wakes 40 threads: more than a member keeps to be woken at its end. */
static void turns_that_wake(void) {
    voldazpe_reply_t reply;
    open_three(TWO_CORES);
    put_to_sleep(40);
    OK(voldazpe_member_begin(&second));
    OK(voldazpe_member_step(&second, 0, voldazpe_leave(), &reply));
    posts_all(&second);
    OK(voldazpe_member_step(&second, 32, voldazpe_leave(), &reply));
    posts_all(&second);
    OK(voldazpe_member_end(&second));
    for (uint32_t i = 0; i < 40; i++) join(sleepers[i]);
    CHECK(asleep() == 0);
    put_to_sleep(12); /* by single orders */
    done(&third, 0, voldazpe_leave(), VOLDAZPE_DONE);
    done(&third, 32, voldazpe_leave(), VOLDAZPE_DONE);
    for (uint32_t i = 0; i < 12; i++) join(sleepers[i]);
    put_to_sleep(3); /* by the last member that closes, and by no other */
    OK(voldazpe_member_close(&first));
    OK(voldazpe_member_close(&third));
    sleep_for(30);
    CHECK(VOLDAZPE_LOAD(&woken) == 0 && voldazpe_place_word(&page, 0) == VOLDAZPE_WAITING);
    OK(voldazpe_member_close(&second));
    for (uint32_t i = 0; i < 3; i++) join(sleepers[i]);
    CHECK(is_clear(&page));
}

/* ---- closing ---- */

static VOLDAZPE_ATOMIC(uint32_t) ready; /* to close */

static void *closes(void *argument) {
    voldazpe_member_t *member = (voldazpe_member_t *)argument;
    voldazpe_reply_t reply;
    OK(voldazpe_member_give(member, 0, voldazpe_status(), &reply));
    VOLDAZPE_ADD(&ready, 1);
    for (uint32_t tries = 1; VOLDAZPE_LOAD(&ready) < MANY; tries++) {
        if (tries % 1000 == 0) sched_yield(); /* all at once, where there are as many processors */
    }
    OK(voldazpe_member_close(member));
    return NULL;
}

/* Each order of closing, and all at once from threads; the page can be used again right after. */
static void closing(void) {
    static const int orders[6][3] = {{0, 1, 2}, {0, 2, 1}, {1, 0, 2}, {1, 2, 0}, {2, 0, 1}, {2, 1, 0}};
    voldazpe_member_t *members[3] = {&first, &second, &third};
    pthread_t threads[MANY];
    for (int way = 0; way < 6; way++) {
        open_three(TWO_CORES);
        done(&first, 0, voldazpe_join(), VOLDAZPE_JOINED);
        for (int i = 0; i < 3; i++) {
            voldazpe_member_t *member = members[orders[way][i]];
            done(member, 0, voldazpe_status(), VOLDAZPE_COUNTS);
            CHECK(voldazpe_entered(&page) == 2 + (uint64_t)i);
            OK(voldazpe_member_close(member));
            CHECK(is_zero(member, sizeof *member) && voldazpe_member_close(member) == VOLDAZPE_CLOSED);
            CHECK(VOLDAZPE_LOAD(&page.members) == 2 - (uint32_t)i);
        }
        CHECK(is_clear(&page));
    }
    for (int round = 0; round < 500; round++) {
        VOLDAZPE_STORE(&ready, 0);
        opens(&each[0], &page, TWO_CORES);
        for (int i = 1; i < MANY; i++) OK(voldazpe_member_another(&each[0], &each[i]));
        for (int i = 0; i < MANY; i++) threads[i] = start(closes, &each[i]);
        for (int i = 0; i < MANY; i++) join(threads[i]);
        CHECK(is_clear(&page));
    }
}

int main(int count, char **words) {
    uint64_t orders = count == 2 ? strtoull(words[1], NULL, 10) : 2000100;
    openings();
    nulls(&closed);
    closed_and_busy();
    open_and_free();
    in_a_turn();
    full();
    full_after_a_wait();
    compares();
    renews(orders);
    turns_that_are_waited_for();
    turns_guard_data();
    one_core_for_many();
    turns_that_wake();
    closing();
    printf("%llu orders beside one without members\n", (unsigned long long)orders);
    return 0;
}
