/* Each misuse is answered by its code, and changes nothing. Compiled as C and as C++. Ends with 0 if all is as it
 * should be. */
#include "voldazpe.h"

#include <stdio.h>
#include <stdlib.h>
#include <string.h>

#define CHECK(holds)                                                        \
    do {                                                                    \
        if (!(holds)) {                                                     \
            fprintf(stderr, "%s:%d: %s\n", __FILE__, __LINE__, #holds);     \
            exit(1);                                                        \
        }                                                                   \
    } while (0)

#define ONE_CORE "[[socket]]\nmanaged = [1]\nunmanaged = [0]\n"
/* sockets that list unmanaged cores before the managed ones, none, and out of order */
#define THREE_SOCKETS                                                                                       \
    "[[socket]]\nunmanaged = [7, 0]\nmanaged = [1]\n[[socket]]\nmanaged = [2, 3]\nunmanaged = []\n"         \
    "[[socket]]\nmanaged = []\nunmanaged = [1023, 4, 5]\n"

static voldazpe_arbiter_t arbiter;
static voldazpe_page_t page;
static voldazpe_reply_t reply, kept;
static char long_text[VOLDAZPE_TEXT + 1];

/* opens a text that is refused */
static void refuses(voldazpe_code_t code, const char *text) {
    uint16_t named = 7;
    CHECK(voldazpe_open(&arbiter, text, strlen(text), &named) == code);
    CHECK(named == (code == VOLDAZPE_CORE_TWICE ? 3 : 7));
    CHECK(voldazpe_open(&arbiter, text, strlen(text), NULL) == code);
    CHECK(voldazpe_close(&arbiter) == VOLDAZPE_CLOSED);
}

static void opens(const char *text) { CHECK(voldazpe_open(&arbiter, text, strlen(text), NULL) == VOLDAZPE_OK); }

/* gives an order that is answered by a code and changes neither the reply nor the posted words */
static void answers(voldazpe_code_t code, uint32_t client, voldazpe_order_t order) {
    uint64_t before[VOLDAZPE_WORDS], after;
    bool open = voldazpe_posted(&arbiter, 0, &before[0]) == VOLDAZPE_OK;
    for (uint32_t word = 0; open && word < VOLDAZPE_WORDS; word++) {
        CHECK(voldazpe_posted(&arbiter, word, &before[word]) == VOLDAZPE_OK);
    }
    memset(&reply, 0x5a, sizeof reply);
    memcpy(&kept, &reply, sizeof reply);
    CHECK(voldazpe_give(&arbiter, &page, client, order, &reply) == code);
    CHECK(memcmp(&kept, &reply, sizeof reply) == 0);
    CHECK(voldazpe_step(&arbiter, client, order, &reply) == code);
    CHECK(memcmp(&kept, &reply, sizeof reply) == 0);
    for (uint32_t word = 0; open && word < VOLDAZPE_WORDS; word++) {
        CHECK(voldazpe_posted(&arbiter, word, &after) == VOLDAZPE_OK && after == before[word]);
    }
}

static void is_done(uint32_t client, voldazpe_order_t order, uint32_t kind) {
    CHECK(voldazpe_give(&arbiter, &page, client, order, &reply) == VOLDAZPE_OK && reply.kind == kind);
}

static void is_refused(uint32_t client, voldazpe_order_t order, uint32_t refusal) {
    is_done(client, order, VOLDAZPE_REFUSED);
    CHECK(reply.refusal == refusal);
}

/* each reader of the arbiter answers this code, and leaves its output as it is */
static void readers(voldazpe_code_t code) {
    uint64_t wide = 77;
    uint32_t number = 77;
    voldazpe_post_t post = {77, 77};
    voldazpe_place_t place = {77, 77, 77};
    voldazpe_machine_t machine = {77, 77, 77, 77};
    voldazpe_core_t core = {77, 77};
    voldazpe_counts_t counts = {77, 77, 77, 77};
    voldazpe_request_t request = {{77, 77, 77, 77, 77, 77, 77, 77}};
    CHECK(voldazpe_posted(&arbiter, 0, &wide) == code && wide == 77);
    CHECK(voldazpe_orders(&arbiter, &wide) == code && wide == 77);
    CHECK(voldazpe_clock(&arbiter, &wide) == code && wide == 77);
    CHECK(voldazpe_owner(&arbiter, 1, &number) == code && number == 77);
    CHECK(voldazpe_count(&arbiter, 0, &wide) == code && wide == 77);
    CHECK(voldazpe_next_post(&arbiter, &post) == code && post.value == 77 && post.word == 77);
    CHECK(voldazpe_place(&arbiter, 0, &place) == code && place.kind == 77 && place.core == 77 && place.asked == 77);
    CHECK(voldazpe_machine(&arbiter, &machine) == code && machine.grace == 77 && machine.managed == 77);
    CHECK(voldazpe_core_at(&arbiter, 0, &core) == code && core.number == 77 && core.socket == 77);
    CHECK(voldazpe_unmanaged_at(&arbiter, 0, &core) == code && core.number == 77 && core.socket == 77);
    CHECK(voldazpe_counts(&arbiter, 0, &counts) == code && counts.due == 77 && counts.waiting == 77);
    CHECK(voldazpe_requested(&arbiter, 0, &request) == code && request.cores[0] == 77 && request.cores[7] == 77);
    CHECK(voldazpe_post_all(&arbiter, &page) == code);
}

static void texts(void) {
    memset(long_text, '#', sizeof long_text);
    refuses(VOLDAZPE_NOT_TOML, "managed = [");
    refuses(VOLDAZPE_NOT_UTF8, "\xff");
    refuses(VOLDAZPE_UNKNOWN_KEY, ONE_CORE "speed = 1\n");
    refuses(VOLDAZPE_BAD_KEY, "");
    refuses(VOLDAZPE_OUT_OF_RANGE, "grace = 0\n" ONE_CORE);
    refuses(VOLDAZPE_SOCKET_COUNT, "socket = []\n");
    refuses(VOLDAZPE_CORE_TWICE, "[[socket]]\nmanaged = [3, 3]\nunmanaged = [0]\n");
    refuses(VOLDAZPE_MANAGED_COUNT, "[[socket]]\nmanaged = []\nunmanaged = [0]\n");
    refuses(VOLDAZPE_NO_UNMANAGED, "[[socket]]\nmanaged = [1]\nunmanaged = []\n");
    CHECK(voldazpe_open(&arbiter, long_text, sizeof long_text, NULL) == VOLDAZPE_TOO_LONG);
    CHECK(voldazpe_open(&arbiter, long_text, VOLDAZPE_TEXT, NULL) == VOLDAZPE_BAD_KEY); /* one comment, no socket */
    CHECK(voldazpe_open(&arbiter, NULL, 0, NULL) == VOLDAZPE_BAD_KEY);                  /* an empty text */
    memcpy(long_text, ONE_CORE "#", sizeof ONE_CORE);
    CHECK(voldazpe_open(&arbiter, long_text, VOLDAZPE_TEXT, NULL) == VOLDAZPE_OK);
    CHECK(voldazpe_close(&arbiter) == VOLDAZPE_OK);
}

static void nulls(void) {
    CHECK(voldazpe_open(NULL, ONE_CORE, sizeof ONE_CORE - 1, NULL) == VOLDAZPE_NULL);
    CHECK(voldazpe_open(&arbiter, NULL, 1, NULL) == VOLDAZPE_NULL);
    CHECK(voldazpe_close(NULL) == VOLDAZPE_NULL);
    CHECK(voldazpe_close_and_clear(NULL, &page) == VOLDAZPE_NULL);
    CHECK(voldazpe_close_and_clear(&arbiter, NULL) == VOLDAZPE_NULL);
    CHECK(voldazpe_give(NULL, &page, 0, voldazpe_join(), &reply) == VOLDAZPE_NULL);
    CHECK(voldazpe_give(&arbiter, NULL, 0, voldazpe_join(), &reply) == VOLDAZPE_NULL);
    CHECK(voldazpe_give(&arbiter, &page, 0, voldazpe_join(), NULL) == VOLDAZPE_NULL);
    CHECK(voldazpe_step(NULL, 0, voldazpe_join(), &reply) == VOLDAZPE_NULL);
    CHECK(voldazpe_step(&arbiter, 0, voldazpe_join(), NULL) == VOLDAZPE_NULL);
    CHECK(voldazpe_post_all(NULL, &page) == VOLDAZPE_NULL && voldazpe_post_all(&arbiter, NULL) == VOLDAZPE_NULL);
    CHECK(voldazpe_next_post(NULL, NULL) == VOLDAZPE_NULL && voldazpe_next_post(&arbiter, NULL) == VOLDAZPE_NULL);
    CHECK(voldazpe_posted(NULL, 0, NULL) == VOLDAZPE_NULL && voldazpe_posted(&arbiter, 0, NULL) == VOLDAZPE_NULL);
    CHECK(voldazpe_place(NULL, 0, NULL) == VOLDAZPE_NULL && voldazpe_place(&arbiter, 0, NULL) == VOLDAZPE_NULL);
    CHECK(voldazpe_owner(NULL, 0, NULL) == VOLDAZPE_NULL && voldazpe_owner(&arbiter, 0, NULL) == VOLDAZPE_NULL);
    CHECK(voldazpe_count(NULL, 0, NULL) == VOLDAZPE_NULL && voldazpe_count(&arbiter, 0, NULL) == VOLDAZPE_NULL);
    CHECK(voldazpe_orders(NULL, NULL) == VOLDAZPE_NULL && voldazpe_orders(&arbiter, NULL) == VOLDAZPE_NULL);
    CHECK(voldazpe_clock(NULL, NULL) == VOLDAZPE_NULL && voldazpe_clock(&arbiter, NULL) == VOLDAZPE_NULL);
    CHECK(voldazpe_machine(NULL, NULL) == VOLDAZPE_NULL && voldazpe_machine(&arbiter, NULL) == VOLDAZPE_NULL);
    CHECK(voldazpe_core_at(NULL, 0, NULL) == VOLDAZPE_NULL && voldazpe_core_at(&arbiter, 0, NULL) == VOLDAZPE_NULL);
    CHECK(voldazpe_unmanaged_at(NULL, 0, NULL) == VOLDAZPE_NULL);
    CHECK(voldazpe_unmanaged_at(&arbiter, 0, NULL) == VOLDAZPE_NULL);
    CHECK(voldazpe_counts(NULL, 0, NULL) == VOLDAZPE_NULL && voldazpe_counts(&arbiter, 0, NULL) == VOLDAZPE_NULL);
    CHECK(voldazpe_requested(NULL, 0, NULL) == VOLDAZPE_NULL && voldazpe_requested(&arbiter, 0, NULL) == VOLDAZPE_NULL);
    voldazpe_page_clear(NULL);
}

static void numbers(void) {
    uint64_t value = 77;
    uint32_t number = 77;
    voldazpe_place_t place = {77, 77, 77};
    voldazpe_core_t core = {77, 77};
    voldazpe_order_t order = voldazpe_ask(7, 129);
    uint8_t levels[VOLDAZPE_LEVELS] = {128, 128, 128, 128, 128, 128, 128, 128};
    voldazpe_counts_t counts = {77, 77, 77, 77};
    voldazpe_request_t request = {{77, 77, 77, 77, 77, 77, 77, 77}};
    answers(VOLDAZPE_NO_CLIENT, 513, voldazpe_join());
    answers(VOLDAZPE_NO_CLIENT, UINT32_MAX, voldazpe_join());
    answers(VOLDAZPE_NO_CLIENT, voldazpe_client(16, 0), voldazpe_join());
    answers(VOLDAZPE_NO_CLIENT, voldazpe_client(0, 32), voldazpe_join());
    answers(VOLDAZPE_NO_CLIENT, 513, voldazpe_order_of(VOLDAZPE_ORDER_KINDS)); /* the client comes first */
    answers(VOLDAZPE_NO_ORDER, 0, voldazpe_order_of(VOLDAZPE_ORDER_KINDS));
    answers(VOLDAZPE_NO_ORDER, 0, voldazpe_order_of(UINT32_MAX));
    answers(VOLDAZPE_NO_ORDER, 0, voldazpe_ask(8, 1));
    answers(VOLDAZPE_ENTRY_TOO_LARGE, 0, order);
    answers(VOLDAZPE_ENTRY_TOO_LARGE, 0, voldazpe_ask(0, 256)); /* no number wraps */
    answers(VOLDAZPE_ENTRY_TOO_LARGE, 0, voldazpe_ask(7, UINT32_MAX));
    CHECK(voldazpe_posted(&arbiter, VOLDAZPE_WORDS, &value) == VOLDAZPE_NO_WORD && value == 77);
    CHECK(voldazpe_place(&arbiter, VOLDAZPE_CLOCK, &place) == VOLDAZPE_NO_CLIENT && place.kind == 77);
    CHECK(voldazpe_count(&arbiter, 513, &value) == VOLDAZPE_NO_CLIENT && value == 77);
    CHECK(voldazpe_count(&arbiter, VOLDAZPE_CLOCK, &value) == VOLDAZPE_OK && value == 0);
    CHECK(voldazpe_owner(&arbiter, 1, &number) == VOLDAZPE_NO_OWNER && number == 77);
    CHECK(voldazpe_owner(&arbiter, 65535, &number) == VOLDAZPE_NO_OWNER && number == 77);
    CHECK(voldazpe_core_at(&arbiter, 1, &core) == VOLDAZPE_NO_POSITION && core.number == 77);
    CHECK(voldazpe_core_at(&arbiter, UINT32_MAX, &core) == VOLDAZPE_NO_POSITION && core.number == 77);
    CHECK(voldazpe_unmanaged_at(&arbiter, 1, &core) == VOLDAZPE_NO_POSITION && core.number == 77);
    CHECK(voldazpe_unmanaged_at(&arbiter, UINT32_MAX, &core) == VOLDAZPE_NO_POSITION && core.number == 77);
    CHECK(voldazpe_core_at(&arbiter, 0, &core) == VOLDAZPE_OK && core.number == 1 && core.socket == 0);
    CHECK(voldazpe_counts(&arbiter, 16, &counts) == VOLDAZPE_NO_APPLICATION && counts.due == 77);
    CHECK(voldazpe_counts(&arbiter, UINT32_MAX, &counts) == VOLDAZPE_NO_APPLICATION && counts.due == 77);
    CHECK(voldazpe_requested(&arbiter, 16, &request) == VOLDAZPE_NO_APPLICATION && request.cores[0] == 77);
    CHECK(voldazpe_requested(&arbiter, 256, &request) == VOLDAZPE_NO_APPLICATION && request.cores[0] == 77);
    CHECK(voldazpe_requested(&arbiter, 15, &request) == VOLDAZPE_NO_REQUEST && request.cores[0] == 77);
    is_refused(VOLDAZPE_CLOCK, voldazpe_join(), VOLDAZPE_NOT_A_THREAD);
    is_refused(0, voldazpe_ask_at_levels(levels), VOLDAZPE_NOT_JOINED);
    is_done(0, voldazpe_join(), VOLDAZPE_JOINED);
    is_refused(1, voldazpe_join(), VOLDAZPE_ALREADY_JOINED);
    is_refused(0, voldazpe_cap(129), VOLDAZPE_CAP_TOO_LARGE);
    is_refused(0, voldazpe_cap(256), VOLDAZPE_CAP_TOO_LARGE);
    is_done(0, voldazpe_ask_at_levels(levels), VOLDAZPE_DUE);
    CHECK(reply.due == 1);
    is_done(VOLDAZPE_CLOCK, voldazpe_tick(5), VOLDAZPE_MOVED);
    is_refused(3, voldazpe_tick(4), VOLDAZPE_CLOCK_BACK);
    CHECK(reply.clock == 5);
}

/* what one application has and asks for, and that reading it is no order */
static void has(uint32_t application, uint8_t due, uint8_t owned, uint8_t asked, uint8_t waiting) {
    voldazpe_counts_t counts;
    uint64_t before, after;
    CHECK(voldazpe_orders(&arbiter, &before) == VOLDAZPE_OK);
    CHECK(voldazpe_counts(&arbiter, application, &counts) == VOLDAZPE_OK);
    CHECK(counts.due == due && counts.owned == owned && counts.asked == asked && counts.waiting == waiting);
    CHECK(voldazpe_orders(&arbiter, &after) == VOLDAZPE_OK && after == before);
}

static void asks_for(uint32_t application, const uint8_t *cores) {
    voldazpe_request_t request;
    CHECK(voldazpe_requested(&arbiter, application, &request) == (cores ? VOLDAZPE_OK : VOLDAZPE_NO_REQUEST));
    CHECK(!cores || memcmp(request.cores, cores, sizeof request.cores) == 0);
}

/* the machine's unmanaged cores, and what applications have, read without an order */
static void reading(void) {
    static const voldazpe_core_t listed[] = {{7, 0}, {0, 0}, {1023, 2}, {4, 2}, {5, 2}};
    static const uint8_t nothing[VOLDAZPE_LEVELS] = {0}, some[VOLDAZPE_LEVELS] = {1, 0, 2, 0, 0, 0, 0, 9};
    static const uint8_t cut[VOLDAZPE_LEVELS] = {1, 0, 1}, one[VOLDAZPE_LEVELS] = {0, 3};
    const uint32_t first = voldazpe_client(0, 31), other = voldazpe_client(15, 0);
    voldazpe_core_t core;
    uint32_t index = 0;
    opens(THREE_SOCKETS);
    for (; voldazpe_unmanaged_at(&arbiter, index, &core) == VOLDAZPE_OK; index++) {
        CHECK(index < 5 && core.number == listed[index].number && core.socket == listed[index].socket);
    }
    CHECK(index == 5 && voldazpe_unmanaged_at(&arbiter, 5, &core) == VOLDAZPE_NO_POSITION);
    has(0, 0, 0, 0, 0); /* it hasn't joined */
    asks_for(0, NULL);
    is_done(first, voldazpe_join(), VOLDAZPE_JOINED);
    has(0, 0, 0, 0, 0);
    asks_for(0, nothing);
    is_done(first, voldazpe_ask_at_levels(some), VOLDAZPE_DUE);
    asks_for(0, some);
    is_done(first, voldazpe_block(), VOLDAZPE_NOW);
    is_done(voldazpe_client(0, 0), voldazpe_block(), VOLDAZPE_NOW);
    has(0, 3, 2, 0, 0);
    is_done(other, voldazpe_join(), VOLDAZPE_JOINED);
    is_done(other, voldazpe_ask(1, 3), VOLDAZPE_DUE); /* level 0 leaves two cores for level 1 */
    is_done(other, voldazpe_block(), VOLDAZPE_NOW);
    is_done(voldazpe_client(15, 1), voldazpe_block(), VOLDAZPE_NOW);
    has(0, 1, 2, 1, 0);
    has(15, 2, 1, 0, 1);
    asks_for(15, one);
    asks_for(0, some);
    is_done(first, voldazpe_cap(2), VOLDAZPE_DUE);
    asks_for(0, cut);
    is_done(first, voldazpe_leave(), VOLDAZPE_DONE);
    asks_for(0, NULL);
    has(0, 0, 0, 0, 0);
    has(15, 3, 2, 0, 0);
    asks_for(7, NULL);
    CHECK(voldazpe_close_and_clear(&arbiter, &page) == VOLDAZPE_OK);
}

/* 0 is the number of a core, and what a reply without one carries: -1 tells them apart */
static void cores_of_replies(void) {
    voldazpe_place_t place;
    opens("[[socket]]\nmanaged = [0, 1023]\nunmanaged = [1]\n");
    is_refused(0, voldazpe_block(), VOLDAZPE_NOT_JOINED);
    CHECK(reply.place.core == 0 && voldazpe_reply_core(reply) == -1);
    is_done(0, voldazpe_join(), VOLDAZPE_JOINED);
    CHECK(voldazpe_reply_core(reply) == -1);
    is_done(0, voldazpe_ask(0, 2), VOLDAZPE_DUE);
    CHECK(voldazpe_reply_core(reply) == -1);
    is_done(0, voldazpe_block(), VOLDAZPE_NOW);
    CHECK(reply.place.core == 0 && voldazpe_reply_core(reply) == 0);
    is_done(1, voldazpe_block(), VOLDAZPE_NOW);
    CHECK(voldazpe_reply_core(reply) == 1023);
    is_done(2, voldazpe_block(), VOLDAZPE_NOW);
    CHECK(reply.place.kind == VOLDAZPE_WAITING && voldazpe_reply_core(reply) == -1);
    CHECK(voldazpe_place(&arbiter, 0, &place) == VOLDAZPE_OK && voldazpe_place_core(place) == 0);
    CHECK(voldazpe_place(&arbiter, 2, &place) == VOLDAZPE_OK && voldazpe_place_core(place) == -1);
    CHECK(voldazpe_close_and_clear(&arbiter, &page) == VOLDAZPE_OK);
}

/* a close clears the page, if it closes */
static void closing(void) {
    opens(ONE_CORE);
    is_done(0, voldazpe_join(), VOLDAZPE_JOINED);
    is_done(0, voldazpe_ask(0, 1), VOLDAZPE_DUE);
    is_done(0, voldazpe_block(), VOLDAZPE_NOW);
    CHECK(voldazpe_begins(&arbiter));
    CHECK(voldazpe_close_and_clear(&arbiter, &page) == VOLDAZPE_BUSY);
    CHECK(voldazpe_ends(&arbiter, 0) == VOLDAZPE_OK);
    CHECK(voldazpe_must_release(&page, 0) == 0 && voldazpe_entered(&page) == 3);
    CHECK(voldazpe_close_and_clear(&arbiter, &page) == VOLDAZPE_OK);
    for (uint32_t word = 0; word < VOLDAZPE_WORDS; word++) CHECK(VOLDAZPE_LOAD(&page.words[word]) == 0);
    VOLDAZPE_STORE(&page.words[0], (uint64_t)5);
    CHECK(voldazpe_close_and_clear(&arbiter, &page) == VOLDAZPE_CLOSED && voldazpe_entered(&page) == 5);
    voldazpe_page_clear(&page);
}

/* an arbiter whose VOLDAZPE_INIT was forgotten stays busy, and the text of that code names this cause too */
static void uninitialised(void) {
    static voldazpe_arbiter_t garbage;
    unsigned char *bytes = VOLDAZPE_CAST(unsigned char *, VOLDAZPE_CAST(void *, &garbage));
    for (size_t i = 0; i < sizeof garbage; i++) bytes[i] = 0xa5;
    for (int tries = 0; tries < 3; tries++) {
        CHECK(voldazpe_open(&garbage, ONE_CORE, sizeof ONE_CORE - 1, NULL) == VOLDAZPE_BUSY);
        CHECK(voldazpe_give(&garbage, &page, 0, voldazpe_join(), &reply) == VOLDAZPE_BUSY);
        CHECK(voldazpe_close(&garbage) == VOLDAZPE_BUSY);
    }
    CHECK(strstr(voldazpe_code_text(VOLDAZPE_BUSY), "VOLDAZPE_INIT"));
}

static void version(void) {
    char text[32];
    snprintf(text, sizeof text, "%d.%d.%d", VOLDAZPE_VERSION / 1000000, VOLDAZPE_VERSION / 1000 % 1000,
             VOLDAZPE_VERSION % 1000);
    CHECK(strcmp(text, VOLDAZPE_VERSION_TEXT) == 0);
}

static void out_of_turn(void) {
    voldazpe_post_t post;
    CHECK(voldazpe_open(&arbiter, ONE_CORE, sizeof ONE_CORE - 1, NULL) == VOLDAZPE_ALREADY_OPEN);
    CHECK(voldazpe_step(&arbiter, 0, voldazpe_block(), &reply) == VOLDAZPE_OK);
    CHECK(reply.kind == VOLDAZPE_NOW && reply.place.kind == VOLDAZPE_ON && reply.place.core == 1);
    answers(VOLDAZPE_STALE, 1, voldazpe_block());
    CHECK(voldazpe_next_post(&arbiter, &post) == VOLDAZPE_OK && post.word == VOLDAZPE_FIRST_PLACE && post.value == 4);
    CHECK(voldazpe_next_post(&arbiter, &post) == VOLDAZPE_SETTLED && post.word == VOLDAZPE_FIRST_PLACE);
    CHECK(voldazpe_step(&arbiter, 1, voldazpe_block(), &reply) == VOLDAZPE_OK && reply.place.kind == VOLDAZPE_WAITING);
    CHECK(voldazpe_post_all(&arbiter, &page) == VOLDAZPE_OK && voldazpe_post_all(&arbiter, &page) == VOLDAZPE_OK);
    is_refused(1, voldazpe_block(), VOLDAZPE_ALREADY_WAITING);
}

/* where a call is going on, another does nothing */
static void overlapping(void) {
    CHECK(voldazpe_begins(&arbiter));
    readers(VOLDAZPE_BUSY);
    memset(&reply, 0x5a, sizeof reply);
    memcpy(&kept, &reply, sizeof reply);
    CHECK(voldazpe_give(&arbiter, &page, 0, voldazpe_status(), &reply) == VOLDAZPE_BUSY);
    CHECK(voldazpe_step(&arbiter, 0, voldazpe_status(), &reply) == VOLDAZPE_BUSY);
    CHECK(memcmp(&kept, &reply, sizeof reply) == 0);
    CHECK(voldazpe_open(&arbiter, ONE_CORE, sizeof ONE_CORE - 1, NULL) == VOLDAZPE_BUSY);
    CHECK(voldazpe_close(&arbiter) == VOLDAZPE_BUSY);
    CHECK(voldazpe_ends(&arbiter, 0) == VOLDAZPE_OK);
    is_done(0, voldazpe_status(), VOLDAZPE_COUNTS);
}

/* readers of the page know clients that aren't there */
static void pages(void) {
    CHECK(voldazpe_must_release(&page, VOLDAZPE_CLOCK) == -1 && voldazpe_must_release(&page, UINT32_MAX) == -1);
    CHECK(voldazpe_position(&page, VOLDAZPE_CLOCK) == -1);
    CHECK(voldazpe_place_word(&page, UINT32_MAX) == VOLDAZPE_UNMANAGED);
    CHECK(voldazpe_asked_cores(&page, 16, 0) == 0 && voldazpe_asked_cores(&page, 0, 2) == 0);
    CHECK(voldazpe_place_word(&page, 1) == VOLDAZPE_WAITING && voldazpe_must_release(&page, 1) == -1);
    voldazpe_page_clear(&page);
    for (uint32_t word = 0; word < VOLDAZPE_WORDS; word++) CHECK(VOLDAZPE_LOAD(&page.words[word]) == 0);
}

static void limit(void) {
    voldazpe_machine_t machine;
    uint64_t orders;
    opens(ONE_CORE);
    CHECK(voldazpe_machine(&arbiter, &machine) == VOLDAZPE_OK && machine.orders == 0); /* none is stated */
    CHECK(voldazpe_close(&arbiter) == VOLDAZPE_OK);
    opens("orders = 1000\n" ONE_CORE);
    CHECK(voldazpe_machine(&arbiter, &machine) == VOLDAZPE_OK && machine.orders == 1000);
    for (uint32_t i = 0; i < 1000; i++) is_refused(i % 513, voldazpe_leave(), i % 513 == 512 ? 6 : 2);
    answers(VOLDAZPE_FULL, 7, voldazpe_join());
    CHECK(voldazpe_orders(&arbiter, &orders) == VOLDAZPE_OK && orders == 1000);
    CHECK(voldazpe_close(&arbiter) == VOLDAZPE_OK);
    opens("grace = 50\norders = 2\n" ONE_CORE);
    CHECK(voldazpe_machine(&arbiter, &machine) == VOLDAZPE_OK && machine.grace == 50 && machine.orders == 2);
    CHECK(machine.managed == 1 && machine.sockets == 1);
    is_done(0, voldazpe_join(), VOLDAZPE_JOINED);
    is_refused(0, voldazpe_join(), VOLDAZPE_ALREADY_JOINED); /* counts towards the limit */
    answers(VOLDAZPE_FULL, 0, voldazpe_status());
    answers(VOLDAZPE_NO_ORDER, 0, voldazpe_order_of(VOLDAZPE_ORDER_KINDS)); /* comes before the limit */
    CHECK(voldazpe_close(&arbiter) == VOLDAZPE_OK);
}

/* the words of all numbers, and of the next one */
static void names(void) {
    static const char *const orders[] = {"join", "ask", "cap", "block", "retire", "leave", "status", "tick", "no order"};
    static const char *const places[] = {"unmanaged", "waiting", "moved", "core", "no place"};
    static const char *const replies[] = {"joined", "due", "now", "done", "counts", "moved", "refused", "no reply"};
    static const char *const refusals[] = {"no refusal", "already-joined", "not-joined", "no refusal", "already-waiting",
                                           "clock-back", "not-a-thread", "cap-too-large", "no refusal"};
    VOLDAZPE_ASSERT(sizeof orders / sizeof *orders == VOLDAZPE_ORDER_KINDS + 1, "orders");
    VOLDAZPE_ASSERT(sizeof places / sizeof *places == VOLDAZPE_PLACE_KINDS + 1, "places");
    VOLDAZPE_ASSERT(sizeof replies / sizeof *replies == VOLDAZPE_REPLY_KINDS + 1, "replies");
    VOLDAZPE_ASSERT(sizeof refusals / sizeof *refusals == VOLDAZPE_LAST_REFUSAL + 2, "refusals");
    for (uint32_t i = 0; i <= VOLDAZPE_ORDER_KINDS; i++) CHECK(strcmp(voldazpe_order_name(i), orders[i]) == 0);
    for (uint32_t i = 0; i <= VOLDAZPE_PLACE_KINDS; i++) CHECK(strcmp(voldazpe_place_name(i), places[i]) == 0);
    for (uint32_t i = 0; i <= VOLDAZPE_REPLY_KINDS; i++) CHECK(strcmp(voldazpe_reply_name(i), replies[i]) == 0);
    for (uint32_t i = 0; i <= VOLDAZPE_LAST_REFUSAL + 1; i++) {
        CHECK(strcmp(voldazpe_refusal_name(i), refusals[i]) == 0 && strlen(voldazpe_refusal_text(i)) > 0);
        CHECK((strcmp(voldazpe_refusal_text(i), "no refusal") == 0) == (strcmp(refusals[i], "no refusal") == 0));
    }
    CHECK(strcmp(voldazpe_order_name(UINT32_MAX), "no order") == 0);
}

int main(void) {
    voldazpe_arbiter_t local = VOLDAZPE_INIT;
    CHECK(voldazpe_close(&local) == VOLDAZPE_CLOSED);
    texts();
    nulls();
    readers(VOLDAZPE_CLOSED);
    answers(VOLDAZPE_CLOSED, 513, voldazpe_order_of(VOLDAZPE_ORDER_KINDS));
    opens(ONE_CORE);
    nulls();
    numbers();
    out_of_turn();
    overlapping();
    pages();
    CHECK(voldazpe_close(&arbiter) == VOLDAZPE_OK);
    CHECK(voldazpe_close(&arbiter) == VOLDAZPE_CLOSED);
    readers(VOLDAZPE_CLOSED);
    limit();
    reading();
    cores_of_replies();
    closing();
    uninitialised();
    version();
    for (int code = 0; code < 40; code++) CHECK(strlen(voldazpe_code_text((voldazpe_code_t)code)) > 0);
    names();
    return 0;
}
