/* Tests the library's own functions, with codes, kinds and values as they are in memory: without the wrappers, and
 * without names for numbers. Ends with 0 if all is as it should be. */
#include "voldazpe.h"

#include <stdio.h>
#include <stdlib.h>
#include <string.h>

#define CHECK(holds)                                                        \
    do {                                                                    \
        if (!(holds)) {                                                     \
            fprintf(stderr, "%s:%d: %s\n", __FILE__, __LINE__, #holds);     \
            exit(1);                                                        \
        }                                                                   \
    } while (0)

/* two managed cores, 1 and 2, on one socket */
#define MACHINE "grace = 50\norders = 9\n[[socket]]\nmanaged = [1, 2]\nunmanaged = [0]\n"
/* sockets that list unmanaged cores before the managed ones, none, and out of order */
#define LISTS                                                                                               \
    "[[socket]]\nunmanaged = [7, 0]\nmanaged = [1]\n[[socket]]\nmanaged = [2]\nunmanaged = []\n"            \
    "[[socket]]\nmanaged = []\nunmanaged = [1023, 4]\n"

static voldazpe_handle_t handle;
static voldazpe_reply_t reply;

static uint32_t opens(const char *text) {
    uint16_t named = 7;
    return voldazpe_lib_open(&handle, (const uint8_t *)text, strlen(text), &named);
}

/* an order of a kind, with a cap of two, and a request of one core at the first level and two at the third */
static voldazpe_order_t order_of(uint32_t kind) {
    voldazpe_order_t order = {0, kind, 2, {1, 0, 2, 0, 0, 0, 0, 0}};
    return order;
}

static uint32_t steps(uint32_t client, voldazpe_order_t order) {
    return voldazpe_lib_step(&handle, client, &order, &reply);
}

static void opens_steps_posts_and_closes(void) {
    voldazpe_post_t post = {9, 9};
    voldazpe_order_t ask = {0, 1, 0, {1, 0, 0, 0, 0, 0, 0, 0}};
    CHECK(opens(MACHINE) == 0);
    CHECK(opens(MACHINE) == 2);
    CHECK(steps(32, order_of(0)) == 0 && reply.kind == 0);
    CHECK(steps(513, order_of(0)) == 3);
    CHECK(steps(32, ask) == 0 && reply.kind == 1 && reply.due == 1);
    CHECK(steps(33, order_of(3)) == 0);
    CHECK(reply.kind == 2 && reply.place.kind == 3 && reply.place.core == 1);
    /* not before the words are posted that became stale */
    CHECK(steps(33, order_of(3)) == 6);
    CHECK(voldazpe_lib_post(&handle, &post) == 0 && post.word == 66 && post.value == 4);
    CHECK(voldazpe_lib_post(&handle, &post) == 8);
    CHECK(voldazpe_lib_close(&handle) == 0);
    CHECK(voldazpe_lib_close(&handle) == 1);
}

static void reads_what_the_arbiter_has(void) {
    voldazpe_order_t tick = {30, 7, 0, {0, 0, 0, 0, 0, 0, 0, 0}};
    uint64_t value = 9;
    uint32_t number = 9;
    voldazpe_place_t place = {9, 9, 9};
    voldazpe_machine_t machine = {0, 0, 0, 0};
    voldazpe_core_t core = {9, 9};
    CHECK(opens(MACHINE) == 0);
    CHECK(steps(512, tick) == 0);
    CHECK(voldazpe_lib_clock(&handle, &value) == 0 && value == 30);
    CHECK(voldazpe_lib_orders(&handle, &value) == 0 && value == 1);
    CHECK(voldazpe_lib_count(&handle, 512, &value) == 0 && value == 1);
    CHECK(voldazpe_lib_posted(&handle, 0, &value) == 0 && value == 1);
    CHECK(voldazpe_lib_posted(&handle, 545, &value) == 9);
    CHECK(voldazpe_lib_owner(&handle, 1, &number) == 11);
    CHECK(voldazpe_lib_place(&handle, 0, &place) == 0 && place.kind == 0 && place.core == 0 && place.asked == 0);
    CHECK(voldazpe_lib_place(&handle, 512, &place) == 3);
    CHECK(voldazpe_lib_machine(&handle, &machine) == 0);
    CHECK(machine.grace == 50 && machine.orders == 9 && machine.managed == 2 && machine.sockets == 1);
    CHECK(voldazpe_lib_core_at(&handle, 1, &core) == 0 && core.number == 2 && core.socket == 0);
    CHECK(voldazpe_lib_core_at(&handle, 2, &core) == 10);
    CHECK(voldazpe_lib_close(&handle) == 0);
}

static bool has(voldazpe_counts_t counts, int due, int owned, int asked, int waiting) {
    return counts.due == due && counts.owned == owned && counts.asked == asked && counts.waiting == waiting;
}

/* whether the last application asks for one core at the first level, and for `third` at the third */
static bool asks(uint8_t third) {
    voldazpe_request_t request = {{9, 9, 9, 9, 9, 9, 9, 9}}, wanted = {{1, 0, third, 0, 0, 0, 0, 0}};
    return voldazpe_lib_requested(&handle, 15, &request) == 0 && memcmp(&request, &wanted, sizeof request) == 0;
}

static void reads_what_applications_have(void) {
    static const uint32_t orders[][2] = {{480, 0}, {480, 1}, {480, 3}, {481, 3}, {482, 3}};
    voldazpe_counts_t counts = {9, 9, 9, 9};
    voldazpe_request_t request = {{9, 9, 9, 9, 9, 9, 9, 9}};
    voldazpe_post_t post;
    CHECK(opens(MACHINE) == 0);
    CHECK(voldazpe_lib_requested(&handle, 15, &request) == 16);
    CHECK(voldazpe_lib_requested(&handle, 16, &request) == 15);
    CHECK(voldazpe_lib_counts(&handle, 16, &counts) == 15);
    CHECK(counts.due == 9 && request.cores[7] == 9);
    CHECK(voldazpe_lib_counts(&handle, 15, &counts) == 0 && has(counts, 0, 0, 0, 0));
    for (size_t number = 0; number < sizeof orders / sizeof *orders; number++) {
        CHECK(steps(orders[number][0], order_of(orders[number][1])) == 0);
        while (voldazpe_lib_post(&handle, &post) == 0) {
        }
    }
    CHECK(voldazpe_lib_counts(&handle, 15, &counts) == 0 && has(counts, 2, 2, 0, 1));
    CHECK(asks(2));
    /* the cap cuts the request */
    CHECK(steps(480, order_of(2)) == 0 && asks(1));
    CHECK(voldazpe_lib_close(&handle) == 0);
    CHECK(voldazpe_lib_counts(&handle, 15, &counts) == 1);
    CHECK(voldazpe_lib_requested(&handle, 15, &request) == 1);
}

static void lists_the_unmanaged_cores(void) {
    static const voldazpe_core_t listed[] = {{7, 0}, {0, 0}, {1023, 2}, {4, 2}};
    voldazpe_core_t core = {9, 9};
    CHECK(voldazpe_lib_unmanaged_at(&handle, 0, &core) == 1);
    CHECK(opens(LISTS) == 0);
    for (uint32_t index = 0; index < 4; index++) {
        CHECK(voldazpe_lib_unmanaged_at(&handle, index, &core) == 0);
        CHECK(core.number == listed[index].number && core.socket == listed[index].socket);
    }
    CHECK(voldazpe_lib_unmanaged_at(&handle, 4, &core) == 10);
    CHECK(core.number == 4 && core.socket == 2);
    CHECK(voldazpe_lib_close(&handle) == 0);
}

/* Two handles of one arbiter, of which one is in a turn for a while. The header enters orders in turns alone, so that a
 * give outside of one is tried here. Its own orders begin a turn and end it with the calls that do two things in one. */
static void gives_by_members(void) {
    static voldazpe_member_handle_t one, other;
    const voldazpe_order_t join = order_of(0), ask = order_of(1), block = order_of(3);
    const voldazpe_order_t retire = order_of(4), status = order_of(6), none = order_of(8);
    voldazpe_post_t post = {9, 9};
    uint64_t value = 9;
    uint16_t named = 7;
    CHECK(voldazpe_lib_member_give(&one, 32, &join, &reply) == 1);
    CHECK(voldazpe_lib_member_begin_with(&one, 513, &join, &reply) == 1);
    CHECK(voldazpe_lib_member_post_or_end(&one, &post) == 1 && post.word == 9);
    CHECK(voldazpe_lib_member_open(&one, (const uint8_t *)MACHINE, strlen(MACHINE), &named) == 0);
    CHECK(voldazpe_lib_member_open(&one, (const uint8_t *)MACHINE, strlen(MACHINE), &named) == 2 && named == 7);
    CHECK(voldazpe_lib_member_another(&one, &other) == 0);
    CHECK(voldazpe_lib_member_give(&one, 513, &join, &reply) == 3);
    CHECK(voldazpe_lib_member_give(&one, 32, &join, &reply) == 0 && reply.kind == 0);
    CHECK(voldazpe_lib_member_give(&other, 32, &ask, &reply) == 0 && reply.kind == 1 && reply.due == 2);
    CHECK(voldazpe_lib_member_give(&one, 33, &block, &reply) == 0);
    CHECK(reply.kind == 2 && reply.place.kind == 3 && reply.place.core == 1);
    CHECK(voldazpe_lib_member_read(&other, 66, &value) == 0 && value == 4); /* a give posts */
    CHECK(voldazpe_lib_member_read(&other, 0, &value) == 0 && value == 3);
    CHECK(voldazpe_lib_member_read(&other, 545, &value) == 9);
    CHECK(voldazpe_lib_member_step(&one, 34, &block, &reply) == 19);
    CHECK(voldazpe_lib_member_begin(&one) == 0);
    CHECK(voldazpe_lib_member_begin(&one) == 18 && voldazpe_lib_member_give(&one, 34, &block, &reply) == 18);
    CHECK(voldazpe_lib_member_begin(&other) == 17 && voldazpe_lib_member_give(&other, 34, &block, &reply) == 17);
    CHECK(voldazpe_lib_member_step(&one, 34, &block, &reply) == 0 && reply.place.core == 2);
    CHECK(voldazpe_lib_member_step(&one, 34, &block, &reply) == 6 && voldazpe_lib_member_end(&one) == 6);
    CHECK(voldazpe_lib_member_post(&one, &post) == 0 && post.word == 67 && post.value == 6);
    CHECK(voldazpe_lib_member_post(&one, &post) == 8 && voldazpe_lib_member_end(&one) == 0);
    CHECK(voldazpe_lib_member_give(&other, 32, &status, &reply) == 0 && reply.kind == 4 && reply.owned == 2);
    CHECK(voldazpe_lib_member_post_or_end(&one, &post) == 19 && post.word == 67);
    CHECK(voldazpe_lib_member_begin_with(&one, 513, &retire, &reply) == 3);
    CHECK(voldazpe_lib_member_begin_with(&one, 32, &none, &reply) == 4 && reply.kind == 4);
    CHECK(voldazpe_lib_member_begin_with(&one, 34, &retire, &reply) == 0 && reply.kind == 3);
    CHECK(voldazpe_lib_member_begin_with(&one, 34, &block, &reply) == 18 && voldazpe_lib_member_end(&one) == 6);
    CHECK(voldazpe_lib_member_begin_with(&other, 34, &block, &reply) == 17 && reply.kind == 3);
    CHECK(voldazpe_lib_member_post_or_end(&one, &post) == 0 && post.word == 67 && post.value == 0);
    CHECK(voldazpe_lib_member_begin(&other) == 17); /* the turn goes on while words may be stale */
    CHECK(voldazpe_lib_member_post_or_end(&one, &post) == 8 && voldazpe_lib_member_end(&one) == 19);
    CHECK(voldazpe_lib_member_begin_with(&other, 34, &block, &reply) == 0 && reply.place.core == 2);
    CHECK(voldazpe_lib_member_post_or_end(&other, &post) == 0 && voldazpe_lib_member_post_or_end(&other, &post) == 8);
    while (value < 9) { /* up to the limit of the text */
        CHECK(voldazpe_lib_member_give(&other, 32, &status, &reply) == 0);
        CHECK(voldazpe_lib_member_read(&one, 0, &value) == 0);
    }
    CHECK(voldazpe_lib_member_give(&one, 32, &status, &reply) == 7);
    CHECK(voldazpe_lib_member_begin_with(&one, 32, &status, &reply) == 7 && voldazpe_lib_member_end(&one) == 19);
    CHECK(voldazpe_lib_member_begin(&other) == 0 && voldazpe_lib_member_end(&other) == 0); /* it was given back */
    CHECK(voldazpe_lib_member_close(&one) == 0 && voldazpe_lib_member_close(&one) == 1);
    CHECK(voldazpe_lib_member_read(&other, 67, &value) == 0 && value == 6);
    CHECK(voldazpe_lib_member_close(&other) == 0);
}

int main(void) {
    opens_steps_posts_and_closes();
    reads_what_the_arbiter_has();
    reads_what_applications_have();
    lists_the_unmanaged_cores();
    gives_by_members();
    return 0;
}
