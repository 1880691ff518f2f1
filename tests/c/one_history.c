/* Eight threads, members of one arbiter, give random orders and read words, all at once and without a lock. Each writes
 * down what it got. Now and then a thread goes on by another handle. Then, on one thread, this test finds the one history
 * that all of them saw, or fails:
 *   - The history has each order once, and the orders of a thread in that thread's order.
 *   - An arbiter without members replays it, with the same replies and posts.
 *   - Each reading is the word's value at a point of the history: not before what its thread had seen by then, and not
 *     after what it saw next. A reading in a turn, and one of each post of a turn, is at exactly its point.
 *
 * The index of an order in the history is read in the library, in word 0, right after its step, while its member has
 * the arbiter. It is only a claim: if it is wrong, some of the above doesn't hold. Before and after each step, post and
 * end of a turn a thread may linger, so that others come in between. For both, this is linked with --wrap for
 * voldazpe_lib_member_begin_with, .._step, .._post, .._post_or_end and .._end.
 *
 * one_history [ORDERS [SEED]]: about ORDERS orders, 200,000 by default. */
#define _GNU_SOURCE
#include "voldazpe.h"

#include <inttypes.h>
#include <pthread.h>
#include <sched.h>
#include <stdio.h>
#include <stdlib.h>
#include <string.h>

#define CHECK(holds)                                                        \
    do {                                                                    \
        if (!(holds)) {                                                     \
            fprintf(stderr, "%s:%d: %s\n", __FILE__, __LINE__, #holds);     \
            exit(1);                                                        \
        }                                                                   \
    } while (0)
#define OK(call) CHECK((call) == VOLDAZPE_OK)

enum { THREADS = 8, TICKS = 0 /* the thread that gives the ticks */, MOST_OF_A_TURN = 3 };

static const char machine[] = "grace = 50\n[[socket]]\nmanaged = [1, 2, 3]\nunmanaged = [0]\n"
                              "[[socket]]\nmanaged = [5, 6, 7]\nunmanaged = [4]\n";

/* ---- what threads do and write down ---- */

typedef enum what {
    GAVE,           /* an order, by one call: value is its number in the thread's list of orders */
    READ,           /* a word, in the library */
    LOADED,         /* a word, in the page */
    BEGAN,          /* a turn: value is how many orders there were */
    STEPPED,        /* an order in a turn */
    POSTED,         /* a post in a turn */
    READ_IN_TURN,
    LOADED_IN_TURN,
    ENDED           /* the turn */
} what_t;

typedef struct note {
    uint64_t value;
    uint16_t what, word;
} note_t;

typedef struct given {
    uint64_t place; /* the first order of all is at 1 */
    voldazpe_order_t order;
    voldazpe_reply_t reply;
    uint32_t client, thread;
} given_t;

typedef struct list {
    uint32_t number;
    voldazpe_member_t members[2], *member; /* one is open, the other serves to go on by another handle */
    uint64_t random, moment, orders, most_orders, notes, most_notes;
    given_t *given;
    note_t *note;
} list_t;

static voldazpe_page_t page;
static list_t lists[THREADS];
static pthread_barrier_t all_begin;

static _Thread_local list_t *mine;   /* of this thread */
static _Thread_local uint64_t place; /* of the order that was entered last */

/* a number below `bound`, by xorshift */
static uint32_t below(list_t *list, uint32_t bound) {
    list->random ^= list->random << 13;
    list->random ^= list->random >> 7;
    list->random ^= list->random << 17;
    return (uint32_t)((list->random >> 32) % bound);
}

static void linger(void) {
    uint32_t kind = mine ? below(mine, 64) : 0;
    if (kind == 1) sched_yield();
    for (uint32_t i = 0; kind > 1 && kind < 8 && i < 16 * kind; i++) voldazpe_pause();
}

uint32_t __real_voldazpe_lib_member_step(voldazpe_member_handle_t *handle, uint32_t client,
                                         const voldazpe_order_t *order, voldazpe_reply_t *reply);
uint32_t __wrap_voldazpe_lib_member_step(voldazpe_member_handle_t *handle, uint32_t client,
                                         const voldazpe_order_t *order, voldazpe_reply_t *reply);
uint32_t __wrap_voldazpe_lib_member_step(voldazpe_member_handle_t *handle, uint32_t client,
                                         const voldazpe_order_t *order, voldazpe_reply_t *reply) {
    linger();
    uint32_t code = __real_voldazpe_lib_member_step(handle, client, order, reply);
    if (code == VOLDAZPE_OK) OK(voldazpe_lib_member_read(handle, 0, &place));
    linger();
    return code;
}

uint32_t __real_voldazpe_lib_member_begin_with(voldazpe_member_handle_t *handle, uint32_t client,
                                               const voldazpe_order_t *order, voldazpe_reply_t *reply);
uint32_t __wrap_voldazpe_lib_member_begin_with(voldazpe_member_handle_t *handle, uint32_t client,
                                               const voldazpe_order_t *order, voldazpe_reply_t *reply);
uint32_t __wrap_voldazpe_lib_member_begin_with(voldazpe_member_handle_t *handle, uint32_t client,
                                               const voldazpe_order_t *order, voldazpe_reply_t *reply) {
    linger();
    uint32_t code = __real_voldazpe_lib_member_begin_with(handle, client, order, reply);
    if (code == VOLDAZPE_OK) OK(voldazpe_lib_member_read(handle, 0, &place));
    linger();
    return code;
}

uint32_t __real_voldazpe_lib_member_post(voldazpe_member_handle_t *handle, voldazpe_post_t *post);
uint32_t __wrap_voldazpe_lib_member_post(voldazpe_member_handle_t *handle, voldazpe_post_t *post);
uint32_t __wrap_voldazpe_lib_member_post(voldazpe_member_handle_t *handle, voldazpe_post_t *post) {
    linger();
    uint32_t code = __real_voldazpe_lib_member_post(handle, post);
    linger();
    return code;
}

uint32_t __real_voldazpe_lib_member_post_or_end(voldazpe_member_handle_t *handle, voldazpe_post_t *post);
uint32_t __wrap_voldazpe_lib_member_post_or_end(voldazpe_member_handle_t *handle, voldazpe_post_t *post);
uint32_t __wrap_voldazpe_lib_member_post_or_end(voldazpe_member_handle_t *handle, voldazpe_post_t *post) {
    linger();
    uint32_t code = __real_voldazpe_lib_member_post_or_end(handle, post);
    linger();
    return code;
}

uint32_t __real_voldazpe_lib_member_end(voldazpe_member_handle_t *handle);
uint32_t __wrap_voldazpe_lib_member_end(voldazpe_member_handle_t *handle);
uint32_t __wrap_voldazpe_lib_member_end(voldazpe_member_handle_t *handle) {
    linger();
    uint32_t code = __real_voldazpe_lib_member_end(handle);
    linger();
    return code;
}

static void write_down(list_t *list, what_t what, uint32_t word, uint64_t value) {
    if (list->notes == list->most_notes) {
        list->most_notes = 2 * list->most_notes + 1024;
        list->note = realloc(list->note, list->most_notes * sizeof *list->note);
        CHECK(list->note);
    }
    list->note[list->notes++] = (note_t){value, (uint16_t)what, (uint16_t)word};
}

static void write_order(list_t *list, what_t what, uint32_t client, voldazpe_order_t order, voldazpe_reply_t reply) {
    write_down(list, what, 0, list->orders);
    list->given[list->orders++] = (given_t){place, order, reply, client, list->number};
}

static voldazpe_order_t random_order(list_t *list, uint32_t *client) {
    VOLDAZPE_ASSERT(VOLDAZPE_ORDER_KINDS == 8, "each kind of order comes");
    uint32_t kind = below(list, 1000);
    *client = 32 * below(list, 16) + below(list, 2);
    if (list->number == TICKS && below(list, 4) == 0) {
        list->moment += below(list, 40);
        *client = VOLDAZPE_CLOCK;
        return voldazpe_tick(below(list, 20) ? list->moment : list->moment / 2);
    }
    if (kind < 50) return voldazpe_join();
    if (kind < 200) {
        uint8_t cores[VOLDAZPE_LEVELS] = {0};
        for (uint32_t level = 0; level < 2; level++) cores[below(list, 8)] = (uint8_t)below(list, 4);
        return voldazpe_ask_at_levels(cores);
    }
    if (kind < 230) return voldazpe_cap(below(list, 130));
    if (kind < 750) return voldazpe_block();
    if (kind < 900) return voldazpe_retire();
    if (kind < 910) return voldazpe_leave();
    return voldazpe_status();
}

/* a word that is looked at: the count of orders, cores that are asked back, or where a thread is that gives orders */
static uint32_t random_word(list_t *list) {
    uint32_t kind = below(list, 8);
    if (kind == 0) return 0;
    if (kind == 1) return VOLDAZPE_FIRST_RELEASE + 2 * below(list, 16);
    return VOLDAZPE_FIRST_PLACE + 32 * below(list, 16) + below(list, 2);
}

static void read_word(list_t *list, what_t what, uint32_t word) {
    uint64_t value;
    OK(voldazpe_member_read(list->member, word, &value));
    write_down(list, what, word, value);
}

static void load_word(list_t *list, what_t what, uint32_t word) {
    write_down(list, what, word, VOLDAZPE_LOAD(&page.words[word]));
}

/* loads a word of the page again and again, and writes down each change */
static void poll_word(list_t *list, what_t loads, uint32_t word) {
    uint64_t value = VOLDAZPE_LOAD(&page.words[word]), next;
    write_down(list, loads, word, value);
    for (int times = 0; times < 500; times++) {
        next = VOLDAZPE_LOAD(&page.words[word]);
        if (next != value) write_down(list, loads, word, next);
        value = next;
    }
}

static void read_some(list_t *list, what_t reads, what_t loads) {
    for (uint32_t count = below(list, 4); count > 0; count--) {
        uint32_t word = random_word(list), way = below(list, 20);
        if (way == 0) poll_word(list, loads, word);
        else if (way < 13) load_word(list, loads, word);
        if (way > 6) read_word(list, reads, word); /* after the page's, which must not be newer */
    }
}

static void take_a_turn(list_t *list) {
    voldazpe_reply_t reply;
    voldazpe_post_t post;
    uint64_t entered;
    uint32_t client;
    if (below(list, 4) || voldazpe_member_try_begin(list->member) != VOLDAZPE_OK) {
        OK(voldazpe_member_begin(list->member));
    }
    OK(voldazpe_member_read(list->member, 0, &entered));
    write_down(list, BEGAN, 0, entered);
    read_some(list, READ_IN_TURN, LOADED_IN_TURN);
    for (uint32_t count = below(list, MOST_OF_A_TURN); count > 0 && list->orders < list->most_orders; count--) {
        voldazpe_order_t order = random_order(list, &client);
        OK(voldazpe_member_step(list->member, client, order, &reply));
        write_order(list, STEPPED, client, order, reply);
        read_some(list, READ_IN_TURN, LOADED_IN_TURN);
        while (voldazpe_member_next_post(list->member, &post) == VOLDAZPE_OK) {
            write_down(list, POSTED, post.word, post.value);
            read_word(list, READ_IN_TURN, post.word);
            load_word(list, LOADED_IN_TURN, post.word);
            if (below(list, 4) == 0) read_some(list, READ_IN_TURN, LOADED_IN_TURN);
        }
    }
    OK(voldazpe_member_end(list->member));
    write_down(list, ENDED, 0, 0);
}

static void give_one(list_t *list) {
    voldazpe_reply_t reply;
    uint32_t client;
    voldazpe_order_t order = random_order(list, &client);
    voldazpe_code_t code = VOLDAZPE_TAKEN;
    if (below(list, 4) == 0) code = voldazpe_member_try_give(list->member, client, order, &reply);
    if (code == VOLDAZPE_TAKEN) code = voldazpe_member_give(list->member, client, order, &reply);
    OK(code);
    write_order(list, GAVE, client, order, reply);
}

/* Goes on by another handle, which has seen what the first one had. */
static void change_handles(list_t *list) {
    voldazpe_member_t *other = &list->members[list->member == list->members];
    OK(voldazpe_member_another(list->member, other));
    OK(voldazpe_member_close(list->member));
    list->member = other;
}

static void *gives_and_reads(void *argument) {
    list_t *list = argument;
    mine = list;
    (void)pthread_barrier_wait(&all_begin);
    while (list->orders < list->most_orders) {
        if (below(list, 3) == 0) take_a_turn(list);
        else give_one(list);
        read_some(list, READ, LOADED);
        if (below(list, 50) == 0) change_handles(list);
    }
    return NULL;
}

/* ---- the history ---- */

/* Points are counted from 0, where no order is entered. Each order and each post is one more. */
static uint64_t orders, points;
static given_t **at;               /* the order at each place, from 1 on */
static uint64_t *entered, *settled; /* of the order at each place: the point of its entry, and that of its last post */
static voldazpe_post_t *events;    /* what each point stored: word 0 where an order was entered */
static struct changes {            /* of each word */
    uint64_t count, *points, *values;
} changes[VOLDAZPE_WORDS];

/* All orders are there, each once. */
static void collect(void) {
    for (uint32_t i = 0; i < THREADS; i++) orders += lists[i].orders;
    at = calloc(orders + 1, sizeof *at);
    entered = calloc(orders + 1, sizeof *entered);
    settled = calloc(orders + 1, sizeof *settled);
    CHECK(at && entered && settled);
    for (uint32_t i = 0; i < THREADS; i++) {
        for (uint64_t k = 0; k < lists[i].orders; k++) {
            given_t *given = &lists[i].given[k];
            CHECK(given->place >= 1 && given->place <= orders && !at[given->place]);
            at[given->place] = given;
        }
    }
}

static void add_event(uint32_t word, uint64_t value) {
    static uint64_t most;
    if (++points >= most) {
        most = 2 * points + 1024;
        events = realloc(events, most * sizeof *events);
        CHECK(events);
    }
    events[points] = (voldazpe_post_t){value, word};
    changes[word].count++;
}

static bool same_reply(const voldazpe_reply_t *a, const voldazpe_reply_t *b) {
    return a->clock == b->clock && a->kind == b->kind && a->refusal == b->refusal && a->place.kind == b->place.kind &&
           a->place.core == b->place.core && a->place.asked == b->place.asked && a->due == b->due &&
           a->owned == b->owned && a->asked == b->asked && a->waiting == b->waiting && a->moved == b->moved;
}

/* Gives all orders to an arbiter without members: each reply is as it was. */
static void replay(void) {
    static voldazpe_arbiter_t arbiter;
    voldazpe_reply_t reply;
    voldazpe_post_t post;
    OK(voldazpe_open(&arbiter, machine, strlen(machine), NULL));
    for (uint64_t i = 1; i <= orders; i++) {
        OK(voldazpe_step(&arbiter, at[i]->client, at[i]->order, &reply));
        CHECK(same_reply(&reply, &at[i]->reply));
        add_event(0, i);
        entered[i] = points;
        while (voldazpe_next_post(&arbiter, &post) == VOLDAZPE_OK) add_event(post.word, post.value);
        settled[i] = points;
    }
    OK(voldazpe_close(&arbiter));
}

static void list_changes(void) {
    for (uint32_t word = 0; word < VOLDAZPE_WORDS; word++) {
        struct changes *its = &changes[word];
        its->points = calloc(its->count + 1, sizeof *its->points); /* the first is the 0 at point 0 */
        its->values = calloc(its->count + 1, sizeof *its->values);
        CHECK(its->points && its->values);
        its->count = 1;
    }
    for (uint64_t point = 1; point <= points; point++) {
        struct changes *its = &changes[events[point].word];
        its->points[its->count] = point;
        its->values[its->count++] = events[point].value;
    }
}

/* the last change of a word that isn't after a point */
static uint64_t change_at(uint32_t word, uint64_t point) {
    uint64_t low = 0, high = changes[word].count;
    while (high - low > 1) {
        uint64_t middle = (low + high) / 2;
        if (changes[word].points[middle] <= point) low = middle;
        else high = middle;
    }
    return low;
}

static uint64_t value_at(uint32_t word, uint64_t point) { return changes[word].values[change_at(word, point)]; }

/* The first point, not before `from`, at which a word has a value: there is one. */
static uint64_t first_with(uint32_t word, uint64_t value, uint64_t from) {
    uint64_t change = change_at(word, from);
    while (change < changes[word].count && changes[word].values[change] != value) change++;
    CHECK(change < changes[word].count);
    return changes[word].points[change] > from ? changes[word].points[change] : from;
}

/* Goes through what a thread wrote down. `library` is the least point up to which it has seen the library's words, and
 * `page_point` that of the page, which comes after. If all of it fits some points, it fits the least ones. */
static void follow(const list_t *list) {
    uint64_t library = 0, page_point = 0;
    for (uint64_t i = 0; i < list->notes; i++) {
        const note_t *note = &list->note[i];
        uint64_t its = note->what == GAVE || note->what == STEPPED ? list->given[note->value].place : note->value;
        switch (note->what) {
        case GAVE:
            CHECK(library < entered[its]);
            library = page_point = settled[its];
            break;
        case READ: library = first_with(note->word, note->value, library); break;
        case LOADED:
            page_point = first_with(note->word, note->value, page_point);
            if (library < page_point) library = page_point;
            break;
        case BEGAN:
            CHECK(its <= orders && library <= settled[its]);
            library = page_point = settled[its];
            break;
        case STEPPED:
            CHECK(entered[its] == library + 1);
            library = page_point = library + 1;
            break;
        case POSTED:
            library = page_point = library + 1;
            CHECK(library <= points && events[library].word == note->word && events[library].value == note->value);
            break;
        case ENDED: CHECK(library == points || events[library + 1].word == 0); break; /* all posts were made */
        default: CHECK(value_at(note->word, library) == note->value);
        }
    }
}

static void start_threads(uint64_t most, uint64_t seed) {
    pthread_t threads[THREADS];
    CHECK(pthread_barrier_init(&all_begin, NULL, THREADS) == 0);
    for (uint32_t i = 0; i < THREADS; i++) {
        list_t *list = &lists[i];
        list->number = i;
        list->random = (seed * THREADS + i) * 2654435761 + 88172645463325252;
        list->most_orders = most / THREADS + 1;
        list->given = calloc(list->most_orders, sizeof *list->given);
        CHECK(list->given);
        list->member = list->members;
        if (i == 0) OK(voldazpe_member_open(list->member, &page, machine, strlen(machine), NULL));
        else OK(voldazpe_member_another(lists[i - 1].member, list->member));
    }
    for (uint32_t i = 0; i < THREADS; i++) CHECK(pthread_create(&threads[i], NULL, gives_and_reads, &lists[i]) == 0);
    for (uint32_t i = 0; i < THREADS; i++) CHECK(pthread_join(threads[i], NULL) == 0);
    CHECK(pthread_barrier_destroy(&all_begin) == 0);
}

int main(int count, char **words) {
    uint64_t most = count > 1 ? strtoull(words[1], NULL, 10) : 200000, readings = 0, mixed = 0, value;
    start_threads(most, count > 2 ? strtoull(words[2], NULL, 10) : 1);
    collect();
    replay();
    list_changes();
    for (uint32_t i = 0; i < THREADS; i++) follow(&lists[i]);
    for (uint32_t word = 0; word < VOLDAZPE_WORDS; word++) { /* as all of it ended */
        OK(voldazpe_member_read(lists[word % THREADS].member, word, &value));
        CHECK(value == value_at(word, points) && VOLDAZPE_LOAD(&page.words[word]) == value);
    }
    for (uint32_t i = 0; i < THREADS; i++) {
        OK(voldazpe_member_close(lists[i].member));
        for (uint64_t k = 0; k < lists[i].notes; k++) {
            uint16_t what = lists[i].note[k].what;
            readings += what == READ || what == LOADED || what == READ_IN_TURN || what == LOADED_IN_TURN;
        }
    }
    for (uint64_t i = 2; i <= orders; i++) mixed += at[i]->thread != at[i - 1]->thread;
    CHECK(voldazpe_entered(&page) == 0);
    printf("%" PRIu64 " orders, %" PRIu64 " posts and %" PRIu64 " readings in one history; %" PRIu64
           " orders came after one of another thread\n", orders, points - orders, readings, mixed);
    return 0;
}
