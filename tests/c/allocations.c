/* Refuses each allocation of an opening in turn: each opening answers VOLDAZPE_OUT_OF_MEMORY and keeps nothing. No
 * other call allocates memory, and closing frees all that opening took. An opening keeps, and takes at most, what the
 * header says. All this is tested for members too, which are opened in two ways. Linked with --wrap for malloc, realloc
 * and free. */
#include "voldazpe.h"

#include <stdio.h>
#include <stdlib.h>
#include <string.h>

static long left = -1;   /* allocations until one is refused, or below 0: none is */
static bool none;        /* whether each allocation is refused */
static long asked_for;   /* allocations while each is refused */
static long live;        /* blocks that are in use */
static size_t kept;      /* bytes in them */
static size_t most;      /* the most that these were */

void *__real_malloc(size_t size);
void *__real_realloc(void *block, size_t size);
void __real_free(void *block);
void *__wrap_malloc(size_t size);
void *__wrap_realloc(void *block, size_t size);
void __wrap_free(void *block);

static bool refused(void) {
    if (none) asked_for++;
    return none || (left >= 0 && left-- == 0);
}

enum {
    BEFORE = 16,         /* a block has its size before it, in as many bytes as keep it aligned */
    KEPT = 41296,        /* bytes of an open arbiter, as the header says */
    FIRST_KEEPS = 41664, /* of one with a member, as the header says */
    OTHER_KEEPS = 24     /* of each further member, as the header says */
};

static size_t size_of(void *block) { return block ? *(size_t *)((char *)block - BEFORE) : 0; }

/* the block that was made or grown, or null */
static void *counted(void *start, size_t former, size_t size) {
    if (!start) return NULL;
    *(size_t *)start = size;
    kept += size - former;
    if (kept > most) most = kept;
    return (char *)start + BEFORE;
}

void *__wrap_malloc(size_t size) {
    void *start = refused() ? NULL : __real_malloc(size + BEFORE);
    live += start != NULL;
    return counted(start, 0, size);
}

void *__wrap_realloc(void *block, size_t size) {
    size_t former = size_of(block);
    void *start = refused() ? NULL : __real_realloc(block ? (char *)block - BEFORE : NULL, size + BEFORE);
    live += !block && start;
    return counted(start, former, size);
}

void __wrap_free(void *block) {
    live -= block != NULL;
    kept -= size_of(block);
    __real_free(block ? (char *)block - BEFORE : NULL);
}

/* gives each kind of order, and calls each reader */
static bool all_calls(voldazpe_arbiter_t *arbiter) {
    VOLDAZPE_ASSERT(VOLDAZPE_ORDER_KINDS == 8, "each kind is given, also by the next function");
    static voldazpe_page_t page;
    voldazpe_reply_t reply;
    voldazpe_post_t post;
    voldazpe_place_t place;
    voldazpe_machine_t machine;
    voldazpe_core_t core;
    voldazpe_counts_t counts;
    voldazpe_request_t request;
    uint64_t wide;
    uint32_t number;
    const uint32_t first = voldazpe_client(0, 0), second = voldazpe_client(0, 1), other = voldazpe_client(1, 0);
    const struct { uint32_t client, kind; voldazpe_order_t order; } given[] = {
        {VOLDAZPE_CLOCK, VOLDAZPE_MOVED, voldazpe_tick(1)},   {first, VOLDAZPE_JOINED, voldazpe_join()},
        {first, VOLDAZPE_DUE, voldazpe_ask(0, 4)},            {first, VOLDAZPE_NOW, voldazpe_block()},
        {second, VOLDAZPE_NOW, voldazpe_block()},             {first, VOLDAZPE_DUE, voldazpe_cap(1)},
        {other, VOLDAZPE_JOINED, voldazpe_join()},            {other, VOLDAZPE_DUE, voldazpe_ask(7, 128)},
        {other, VOLDAZPE_NOW, voldazpe_block()},              {other, VOLDAZPE_REFUSED, voldazpe_join()},
        {first, VOLDAZPE_COUNTS, voldazpe_status()},          {VOLDAZPE_CLOCK, VOLDAZPE_MOVED, voldazpe_tick(100)},
        {first, VOLDAZPE_DONE, voldazpe_retire()},            {first, VOLDAZPE_DONE, voldazpe_leave()},
    };
    for (size_t i = 0; i < sizeof given / sizeof *given; i++) {
        voldazpe_code_t code = voldazpe_give(arbiter, &page, given[i].client, given[i].order, &reply);
        if (code != VOLDAZPE_OK || reply.kind != given[i].kind) return false;
    }
    return voldazpe_step(arbiter, other, voldazpe_retire(), &reply) == VOLDAZPE_OK &&
           voldazpe_next_post(arbiter, &post) == VOLDAZPE_OK && voldazpe_post_all(arbiter, &page) == VOLDAZPE_OK &&
           voldazpe_posted(arbiter, 0, &wide) == VOLDAZPE_OK && voldazpe_orders(arbiter, &wide) == VOLDAZPE_OK &&
           voldazpe_clock(arbiter, &wide) == VOLDAZPE_OK && voldazpe_place(arbiter, 0, &place) == VOLDAZPE_OK &&
           voldazpe_owner(arbiter, 1, &number) == VOLDAZPE_NO_OWNER &&
           voldazpe_count(arbiter, 0, &wide) == VOLDAZPE_OK && voldazpe_machine(arbiter, &machine) == VOLDAZPE_OK &&
           voldazpe_core_at(arbiter, 0, &core) == VOLDAZPE_OK &&
           voldazpe_unmanaged_at(arbiter, 1, &core) == VOLDAZPE_OK && core.number == 4 &&
           voldazpe_counts(arbiter, 1, &counts) == VOLDAZPE_OK &&
           voldazpe_requested(arbiter, 1, &request) == VOLDAZPE_OK;
}

/* gives each kind of order, and calls each reader, by a member */
static bool all_calls_of(voldazpe_member_t *member, voldazpe_member_t *other) {
    voldazpe_reply_t reply;
    voldazpe_post_t post;
    voldazpe_place_t place;
    voldazpe_machine_t machine;
    voldazpe_core_t core;
    voldazpe_counts_t counts;
    voldazpe_request_t request;
    uint64_t wide;
    uint32_t number;
    const uint32_t first = voldazpe_client(0, 0), second = voldazpe_client(0, 1);
    const struct { uint32_t client, kind; voldazpe_order_t order; } given[] = {
        {VOLDAZPE_CLOCK, VOLDAZPE_MOVED, voldazpe_tick(1)}, {first, VOLDAZPE_JOINED, voldazpe_join()},
        {first, VOLDAZPE_DUE, voldazpe_ask(0, 4)},          {first, VOLDAZPE_NOW, voldazpe_block()},
        {second, VOLDAZPE_NOW, voldazpe_block()},           {first, VOLDAZPE_DUE, voldazpe_cap(1)},
        {first, VOLDAZPE_COUNTS, voldazpe_status()},        {first, VOLDAZPE_REFUSED, voldazpe_join()},
        {VOLDAZPE_CLOCK, VOLDAZPE_MOVED, voldazpe_tick(9)}, {second, VOLDAZPE_DONE, voldazpe_retire()},
    };
    for (size_t i = 0; i < sizeof given / sizeof *given; i++) {
        voldazpe_code_t code = voldazpe_member_give(i % 2 ? other : member, given[i].client, given[i].order, &reply);
        if (code != VOLDAZPE_OK || reply.kind != given[i].kind) return false;
    }
    return voldazpe_member_begin(member) == VOLDAZPE_OK && voldazpe_member_try_begin(other) == VOLDAZPE_TAKEN &&
           voldazpe_member_try_give(other, first, voldazpe_leave(), &reply) == VOLDAZPE_TAKEN &&
           voldazpe_member_step(member, first, voldazpe_leave(), &reply) == VOLDAZPE_OK &&
           voldazpe_member_end(member) == VOLDAZPE_STALE && voldazpe_member_next_post(member, &post) == VOLDAZPE_OK &&
           voldazpe_member_next_post(member, &post) == VOLDAZPE_SETTLED &&
           voldazpe_member_read(other, 0, &wide) == VOLDAZPE_OK && wide == 11 &&
           voldazpe_member_clock(member, &wide) == VOLDAZPE_OK && wide == 9 &&
           voldazpe_member_place(member, 0, &place) == VOLDAZPE_OK &&
           voldazpe_member_owner(member, 1, &number) == VOLDAZPE_NO_OWNER &&
           voldazpe_member_counts(member, 1, &counts) == VOLDAZPE_OK &&
           voldazpe_member_requested(member, 1, &request) == VOLDAZPE_NO_REQUEST &&
           voldazpe_member_end(member) == VOLDAZPE_OK && voldazpe_member_machine(other, &machine) == VOLDAZPE_OK &&
           voldazpe_member_core_at(other, 0, &core) == VOLDAZPE_OK &&
           voldazpe_member_unmanaged_at(other, 1, &core) == VOLDAZPE_OK && core.number == 4;
}

static voldazpe_arbiter_t measured;
static char text_of[VOLDAZPE_TEXT + 1];
static size_t length;

static void add(const char *part) {
    if (length + strlen(part) > VOLDAZPE_TEXT) return;
    strcpy(text_of + length, part);
    length += strlen(part);
}

/* eight sockets with 16 managed cores and 111 unmanaged ones each */
static void many_cores(void) {
    char number[8];
    length = 0;
    for (int core = 0; core < 8 * 127; core++) {
        if (core % 127 == 0) add(core ? "]\n[[socket]]\nmanaged = [" : "[[socket]]\nmanaged = [");
        if (core % 127 == 16) add("]\nunmanaged = [");
        snprintf(number, sizeof number, "%d,", core);
        add(number);
    }
    add("]\n");
}

/* as many tables in tables as a text may have: each of its keys is one, in two bytes */
static void dotted_keys(void) {
    char key[16];
    length = 0;
    for (int line = 0; length + 140 < VOLDAZPE_TEXT; line++) {
        snprintf(key, sizeof key, "%x.", (unsigned)line);
        add(key);
        for (int level = 0; level < 60; level++) add("a.");
        add("a=1\n");
    }
}

static voldazpe_member_t measured_member;
static voldazpe_page_t its_page;

/* whether an opening takes at most `at_most` bytes for a while, and keeps what the header says if it opens */
static bool takes(bool of_member, voldazpe_code_t code, size_t at_most) {
    voldazpe_code_t opened, closed;
    bool fits;
    most = kept;
    opened = of_member ? voldazpe_member_open(&measured_member, &its_page, text_of, length, NULL)
                       : voldazpe_open(&measured, text_of, length, NULL);
    fits = code != VOLDAZPE_OK ? live == 0 && kept == 0 : of_member ? kept == FIRST_KEEPS : live == 1 && kept == KEPT;
    printf("%s: kept %zu in %ld blocks, took %zu\n", voldazpe_code_text(opened), kept, live, most);
    closed = of_member ? voldazpe_member_close(&measured_member) : voldazpe_close(&measured);
    return opened == code && closed == (code == VOLDAZPE_OK ? VOLDAZPE_OK : VOLDAZPE_CLOSED) && fits &&
           most <= at_most && most > at_most / 2;
}

static bool memory_is_as_said(bool of_member) {
    length = 0;
    add("[[socket]]\nmanaged = [1]\nunmanaged = [0]\n");
    if (!takes(of_member, VOLDAZPE_OK, of_member ? 60 * 1000 : 45 * 1000)) return false;
    many_cores();
    if (!takes(of_member, VOLDAZPE_OK, of_member ? 120 * 1000 : 105 * 1000)) return false;
    dotted_keys();
    return takes(of_member, VOLDAZPE_UNKNOWN_KEY, 40 * 1000 * 1000);
}

static const char text[] = "grace = 50\n[[socket]]\nmanaged = [1, 2, 3]\nunmanaged = [0]\n"
                           "[[socket]]\nmanaged = [5]\nunmanaged = [4]\n";
static voldazpe_page_t page;
static voldazpe_member_t first_member, other_member;

static voldazpe_code_t open_first(void) {
    return voldazpe_member_open(&first_member, &page, text, strlen(text), NULL);
}

static voldazpe_code_t open_another(void) { return voldazpe_member_another(&first_member, &other_member); }

/* Opens a member with each allocation refused in turn. Returns how many there are, or -1 if anything else came of it */
static long refused_in_turn(voldazpe_code_t (*opens)(void), voldazpe_member_t *member) {
    const long blocks = live;
    for (long number = 0;; number++) {
        left = number;
        voldazpe_code_t code = opens();
        bool met = left < 0;
        left = -1;
        if (!met) return code == VOLDAZPE_OK ? number : -1;
        if (code != VOLDAZPE_OUT_OF_MEMORY || live != blocks) return -1;
        if (voldazpe_member_close(member) != VOLDAZPE_CLOSED) return -1;
        if (VOLDAZPE_LOAD(&page.members) != (member == &other_member)) return -1;
    }
}

/* Two members: they are opened, all is called, past a renewal too, and they are closed. */
static bool members_are_as_said(void) {
    long of_first = refused_in_turn(open_first, &first_member);
    const size_t keeps = kept;
    long of_other = refused_in_turn(open_another, &other_member);
    bool done = of_first > 10 && of_other > 0;
    printf("members: %ld and %ld allocations refused in turn, %zu and %zu bytes\n", of_first, of_other, keeps,
           kept - keeps);
    if (keeps != FIRST_KEEPS || kept - keeps != OTHER_KEEPS) return false;
    none = true;
    asked_for = 0;
    done = done && all_calls_of(&first_member, &other_member);
    for (uint32_t i = 0; done && i <= 1000000; i++) {
        voldazpe_reply_t reply;
        done = voldazpe_member_give(&other_member, VOLDAZPE_CLOCK, voldazpe_status(), &reply) == VOLDAZPE_OK;
    }
    done = done && voldazpe_member_close(&first_member) == VOLDAZPE_OK && live > 0;
    done = done && voldazpe_member_close(&other_member) == VOLDAZPE_OK;
    none = false;
    return done && asked_for == 0 && live == 0 && kept == 0;
}

int main(void) {
    static voldazpe_arbiter_t arbiter;
    long count = 0;
    for (;; count++) {
        left = count;
        voldazpe_code_t code = voldazpe_open(&arbiter, text, strlen(text), NULL);
        bool met = left < 0;
        left = -1;
        if (!met) {
            if (code != VOLDAZPE_OK) return 1;
            break;
        }
        if (code != VOLDAZPE_OUT_OF_MEMORY || live != 0 || voldazpe_close(&arbiter) != VOLDAZPE_CLOSED) {
            fprintf(stderr, "allocation %ld refused: %s, %ld blocks kept\n", count, voldazpe_code_text(code), live);
            return 1;
        }
    }
    if (count < 10 || live == 0) return 1;
    none = true;
    bool done = all_calls(&arbiter);
    for (uint32_t i = 0; done && i <= 1000000; i++) { /* past a renewal */
        voldazpe_reply_t reply;
        done = voldazpe_step(&arbiter, VOLDAZPE_CLOCK, voldazpe_status(), &reply) == VOLDAZPE_OK;
    }
    voldazpe_code_t closed = voldazpe_close(&arbiter);
    none = false;
    if (!done || closed != VOLDAZPE_OK || asked_for != 0 || live != 0) {
        fprintf(stderr, "%s, %s, %ld allocations, %ld blocks kept\n", done ? "done" : "a call answered something else",
                voldazpe_code_text(closed), asked_for, live);
        return 1;
    }
    printf("%ld allocations refused in turn\n", count);
    return !memory_is_as_said(false) || !memory_is_as_said(true) || !members_are_as_said();
}
