/* Prints how much of a thread's stack each call takes, on an arbiter and by a member, as lines `name bytes`. Openings
 * are tried with a small text, the widest machine, and tables nested as deep as a text may have them. Ends with 0 if
 * each call answers as it should, within what the header says. */
#define _GNU_SOURCE
#include "voldazpe.h"

#include <pthread.h>
#include <stdio.h>
#include <stdlib.h>
#include <string.h>

#define CHECK(holds)                                                        \
    do {                                                                    \
        if (!(holds)) {                                                     \
            fprintf(stderr, "%s:%d: %s\n", __FILE__, __LINE__, #holds);     \
            exit(1);                                                        \
        }                                                                   \
    } while (0)

enum { SIZE = 4 << 20, OF_OPEN = 160 * 1024, OF_OTHERS = 2048, DEEPEST = 80 };

static unsigned char *stack;
static voldazpe_arbiter_t arbiter;
static voldazpe_page_t page;
static voldazpe_member_t member, other;
static bool by_member; /* whether the calls are those of a member */
static voldazpe_order_t order;
static voldazpe_reply_t reply;
static voldazpe_place_t place;
static voldazpe_code_t code; /* what the last call answered */
static char text[VOLDAZPE_TEXT + 1];
static size_t length;

static void *nothing(void *unused) { return unused; }

static void *opens(void *unused) {
    if (by_member) code = voldazpe_member_open(&member, &page, text, length, NULL);
    else code = voldazpe_open(&arbiter, text, length, NULL);
    return unused;
}

static void *gives(void *unused) {
    if (by_member) code = voldazpe_member_give(&member, 0, order, &reply);
    else code = voldazpe_give(&arbiter, &page, 0, order, &reply);
    return unused;
}

static void *reads(void *unused) {
    if (by_member) {
        voldazpe_post_t post;
        code = voldazpe_member_another(&member, &other);
        if (code == VOLDAZPE_OK) code = voldazpe_member_begin(&other);
        if (code == VOLDAZPE_OK) code = voldazpe_member_step(&other, 0, voldazpe_join(), &reply);
        while (code == VOLDAZPE_OK && voldazpe_member_next_post(&other, &post) == VOLDAZPE_OK) {}
        if (code == VOLDAZPE_OK) code = voldazpe_member_place(&other, 0, &place);
        if (code == VOLDAZPE_OK) code = voldazpe_member_end(&other);
        if (code == VOLDAZPE_OK) code = voldazpe_member_close(&other);
    } else code = voldazpe_place(&arbiter, 0, &place);
    return unused;
}

static void *closes(void *unused) {
    code = by_member ? voldazpe_member_close(&member) : voldazpe_close(&arbiter);
    return unused;
}

static long used_by(void *(*call)(void *)) {
    pthread_attr_t attributes;
    pthread_t thread;
    long untouched = 0;
    memset(stack, 0xa5, SIZE);
    CHECK(pthread_attr_init(&attributes) == 0 && pthread_attr_setstack(&attributes, stack, SIZE) == 0);
    CHECK(pthread_create(&thread, &attributes, call, NULL) == 0 && pthread_join(thread, NULL) == 0);
    while (untouched < SIZE && stack[untouched] == 0xa5) untouched++;
    return SIZE - untouched;
}

static void add(const char *part) {
    CHECK(length + strlen(part) < sizeof text);
    strcpy(text + length, part);
    length += strlen(part);
}

static void one_core(void) {
    length = 0;
    add("[[socket]]\nmanaged = [1]\nunmanaged = [0]\n");
}

/* 8 sockets with 16 managed cores each, and comments up to the longest text */
static void widest(void) {
    char number[16];
    length = 0;
    for (int socket = 0; socket < 8; socket++) {
        add("[[socket]]\nmanaged = [");
        for (int core = 0; core < 16; core++) {
            snprintf(number, sizeof number, "%d, ", 100 * socket + core);
            add(number);
        }
        snprintf(number, sizeof number, "%d", 100 * socket + 50);
        add("]\nunmanaged = [");
        add(number);
        add("]\n");
    }
    memset(text + length, '#', VOLDAZPE_TEXT - length);
    length = VOLDAZPE_TEXT;
}

/* a key with tables in tables */
static void nested(int depth) {
    one_core();
    add("deep = ");
    for (int level = 0; level < depth; level++) add("{a=");
    add("1");
    for (int level = 0; level < depth; level++) add("}");
    add("\n");
}

static void opening(voldazpe_code_t wanted, const char *name, long thread) {
    long used = used_by(opens) - thread;
    printf("%sopen %s %ld\n", by_member ? "member " : "", name, used);
    CHECK(code == wanted && used <= OF_OPEN);
}

static void closing(const char *name, long thread) {
    long used = used_by(closes) - thread;
    printf("%sclose %s %ld\n", by_member ? "member " : "", name, used);
    CHECK(code == VOLDAZPE_OK && used <= OF_OTHERS);
}

static void measure(long thread) {
    long most = 0, reading;
    one_core();
    opening(VOLDAZPE_OK, "one_core", thread);
    closing("one_core", thread);
    nested(DEEPEST);
    opening(VOLDAZPE_UNKNOWN_KEY, "nested", thread);
    nested(DEEPEST + 1);
    opening(VOLDAZPE_NOT_TOML, "too_deep", thread);
    widest();
    opening(VOLDAZPE_OK, "widest", thread);
    static const uint32_t kinds[] = {VOLDAZPE_TICK,  VOLDAZPE_JOIN,   VOLDAZPE_ASK,    VOLDAZPE_CAP,
                                     VOLDAZPE_BLOCK, VOLDAZPE_STATUS, VOLDAZPE_RETIRE, VOLDAZPE_LEAVE};
    VOLDAZPE_ASSERT(sizeof kinds / sizeof *kinds == VOLDAZPE_ORDER_KINDS, "each kind of order is measured");
    for (uint32_t kind = 0; kind < VOLDAZPE_ORDER_KINDS; kind++) {
        order = voldazpe_order_of(kinds[kind]);
        order.cap = 3;
        order.request[0] = 2;
        long used = used_by(gives) - thread;
        CHECK(code == VOLDAZPE_OK && reply.kind != VOLDAZPE_REFUSED);
        if (used > most) most = used;
    }
    reading = used_by(reads) - thread;
    CHECK(code == VOLDAZPE_OK);
    printf("%sgive %ld\n%splace %ld\n", by_member ? "member " : "", most, by_member ? "member " : "", reading);
    CHECK(most <= OF_OTHERS && reading <= OF_OTHERS);
    closing("widest", thread);
}

int main(void) {
    long thread;
    stack = aligned_alloc(4096, SIZE);
    CHECK(stack);
    thread = used_by(nothing);
    measure(thread);
    voldazpe_page_clear(&page);
    by_member = true;
    measure(thread);
    return 0;
}
