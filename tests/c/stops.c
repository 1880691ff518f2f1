/* One thread stops before each step that others could see, and the others go on there. If members sleep until another
 * gives the arbiter back, no wake is lost: each sleeper must still be served, and one that isn't hangs. If two members
 * close, the last one clears the page, and only then can the page be opened again. This also tests when a turn wakes
 * threads. Linked with --wrap for voldazpe_lib_member_begin, .._end, .._post_or_end and syscall. */
#ifndef _POSIX_C_SOURCE
#define _POSIX_C_SOURCE 200809L
#endif
#include <stdatomic.h>
#include <stdbool.h>
#include <stdint.h>

/* ---- the header's loads and stores are done by these, which know where a thread stops */

static const volatile void *watched[3]; /* what members share in the page, beside its words */

static void event(void);

static void touches(const volatile void *at) {
    for (int i = 0; i < 3; i++) {
        if (at == watched[i]) event();
    }
}

static uint32_t load_32(const _Atomic(uint32_t) *at) {
    touches(at);
    return atomic_load_explicit(at, memory_order_seq_cst);
}
static uint64_t load_64(const _Atomic(uint64_t) *at) { return atomic_load_explicit(at, memory_order_seq_cst); }
static unsigned char load_8(const _Atomic(unsigned char) *at) { return atomic_load_explicit(at, memory_order_seq_cst); }

static void store_32(_Atomic(uint32_t) *at, uint32_t value) {
    touches(at);
    atomic_store_explicit(at, value, memory_order_seq_cst);
}
static void store_64(_Atomic(uint64_t) *at, uint64_t value) { atomic_store_explicit(at, value, memory_order_seq_cst); }
static void store_8(_Atomic(unsigned char) *at, unsigned char value) {
    atomic_store_explicit(at, value, memory_order_seq_cst);
}

static uint32_t add_32(_Atomic(uint32_t) *at, uint32_t value) {
    touches(at);
    return atomic_fetch_add_explicit(at, value, memory_order_seq_cst);
}

static bool exchange_32(_Atomic(uint32_t) *at, uint32_t *expected, uint32_t value) {
    touches(at);
    return atomic_compare_exchange_strong(at, expected, value);
}

#undef atomic_load_explicit
#undef atomic_store_explicit
#undef atomic_fetch_add_explicit
#undef atomic_compare_exchange_strong
#define atomic_load_explicit(at, order)                                                                          \
    _Generic((at), _Atomic(uint32_t) *: load_32, const _Atomic(uint32_t) *: load_32,                             \
             _Atomic(uint64_t) *: load_64, const _Atomic(uint64_t) *: load_64, _Atomic(unsigned char) *: load_8)(at)
#define atomic_store_explicit(at, value, order)                                                                  \
    _Generic((at), _Atomic(uint32_t) *: store_32, _Atomic(uint64_t) *: store_64,                                 \
             _Atomic(unsigned char) *: store_8)((at), (value))
#define atomic_fetch_add_explicit(at, value, order) add_32((at), (value))
#define atomic_compare_exchange_strong(at, expected, value) exchange_32((at), (expected), (value))

#include "voldazpe.h"

#include <errno.h>
#include <pthread.h>
#include <semaphore.h>
#include <stdarg.h>
#include <stdio.h>
#include <stdlib.h>
#include <string.h>
#include <time.h>

#define CHECK(holds)                                                        \
    do {                                                                    \
        if (!(holds)) {                                                     \
            fprintf(stderr, "%s:%d: %s\n", __FILE__, __LINE__, #holds);     \
            exit(1);                                                        \
        }                                                                   \
    } while (0)
#define OK(call) CHECK((call) == VOLDAZPE_OK)

/* ---- stops ---- */

typedef struct side {
    voldazpe_member_t member;
    pthread_t thread;
    sem_t stopped, goes_on;
    uint32_t stop, second_stop; /* before which events it stops, from 1 on; 0: it doesn't */
} side_t;

static voldazpe_page_t page;
static side_t owner, sleeper, other_sleeper;
static voldazpe_member_t third;
static _Thread_local side_t *me;
static _Thread_local uint32_t events; /* of this thread, in this round */
static _Thread_local uint32_t wakes;  /* that this thread did */

static void event(void) {
    if (!me || (++events != me->stop && events != me->second_stop)) return;
    CHECK(sem_post(&me->stopped) == 0);
    while (sem_wait(&me->goes_on) != 0) {}
}

uint32_t __real_voldazpe_lib_member_begin(voldazpe_member_handle_t *handle);
uint32_t __wrap_voldazpe_lib_member_begin(voldazpe_member_handle_t *handle);
uint32_t __wrap_voldazpe_lib_member_begin(voldazpe_member_handle_t *handle) {
    event();
    return __real_voldazpe_lib_member_begin(handle);
}

uint32_t __real_voldazpe_lib_member_end(voldazpe_member_handle_t *handle);
uint32_t __wrap_voldazpe_lib_member_end(voldazpe_member_handle_t *handle);
uint32_t __wrap_voldazpe_lib_member_end(voldazpe_member_handle_t *handle) {
    event();
    return __real_voldazpe_lib_member_end(handle);
}

uint32_t __real_voldazpe_lib_member_post_or_end(voldazpe_member_handle_t *handle, voldazpe_post_t *post);
uint32_t __wrap_voldazpe_lib_member_post_or_end(voldazpe_member_handle_t *handle, voldazpe_post_t *post);
uint32_t __wrap_voldazpe_lib_member_post_or_end(voldazpe_member_handle_t *handle, voldazpe_post_t *post) {
    event();
    return __real_voldazpe_lib_member_post_or_end(handle, post);
}

long __real_syscall(long number, ...);
long __wrap_syscall(long number, ...);
long __wrap_syscall(long number, ...) {
    va_list words;
    long word[6];
    va_start(words, number);
    for (int i = 0; i < 6; i++) word[i] = va_arg(words, long);
    va_end(words);
    if (number == SYS_futex) event();
    if (number == SYS_futex && (int)word[1] == FUTEX_WAKE_PRIVATE) wakes++;
    return __real_syscall(number, word[0], word[1], word[2], word[3], word[4], word[5]);
}

/* ---- the two sides ---- */

static bool as_an_order; /* whether members give the arbiter back as an order does, and not as the end of a turn */

static void gives_back(voldazpe_member_t *member) {
    if (as_an_order) CHECK(voldazpe_member_posts_or_gives_back(member) == VOLDAZPE_SETTLED);
    else OK((voldazpe_code_t)voldazpe_member_gives_back(member));
}

static void *sleeps(void *argument) {
    me = argument;
    events = 0;
    errno = 99;
    OK((voldazpe_code_t)voldazpe_member_sleeps(&me->member));
    CHECK(errno == 99); /* also where the kernel saw that the word had changed */
    gives_back(&me->member);
    return NULL;
}

/* has the arbiter from before it starts */
static void *ends(void *argument) {
    me = argument;
    events = 0;
    errno = 99;
    gives_back(&me->member);
    CHECK(errno == 99);
    return NULL;
}

static void start(side_t *side, void *(*run)(void *), uint32_t stop) {
    side->stop = stop;
    CHECK(pthread_create(&side->thread, NULL, run, side) == 0);
}

static void await_stop(side_t *side) {
    while (sem_wait(&side->stopped) != 0) {}
}

static void go_on(side_t *side) { CHECK(sem_post(&side->goes_on) == 0); }

static void join(side_t *side) { CHECK(pthread_join(side->thread, NULL) == 0); }

/* until a sleeper, if it comes to sleep, sleeps */
static void settle(void) {
    const struct timespec pause = {0, 10000000};
    nanosleep(&pause, NULL);
}

static void gives(voldazpe_member_t *member) {
    voldazpe_reply_t reply;
    OK(voldazpe_member_give(member, 0, voldazpe_status(), &reply));
}

/* What a third member does while one side is stopped and the other one has gone on. */
typedef enum third_does { NOTHING, GIVES, TAKES, WAYS } third_does_t;

/* The sleeper stops before its event of this number: it looks, marks, tries, sleeps. */
static void sleeper_stops(uint32_t number, third_does_t does) {
    OK((voldazpe_code_t)voldazpe_member_takes(&owner.member, true));
    start(&sleeper, sleeps, number);
    await_stop(&sleeper);
    gives_back(&owner.member);
    if (does == GIVES) gives(&third);
    if (does == TAKES) OK(voldazpe_member_begin(&third));
    go_on(&sleeper);
    if (does == TAKES) {
        settle();
        OK(voldazpe_member_end(&third));
    }
    join(&sleeper);
}

/* The owner stops before its event of this number: it ends, looks for a mark, and then erases it, changes the word, and
 * wakes. One sleeper sleeps already, if `early`. If `late`, another one comes while the owner is stopped. It stops
 * itself before its event of the number `late_stop`, if that isn't 0, until the owner has gone on. */
static void owner_stops(uint32_t number, bool early, bool late, uint32_t late_stop, third_does_t does) {
    OK((voldazpe_code_t)voldazpe_member_takes(&owner.member, true));
    if (early) {
        start(&sleeper, sleeps, 0);
        while (VOLDAZPE_LOAD(&page.waiting) == 0) settle();
        settle();
    }
    start(&owner, ends, number);
    await_stop(&owner);
    if (does == GIVES) gives(&third);
    if (does == TAKES) OK(voldazpe_member_begin(&third));
    if (late) start(&other_sleeper, sleeps, late_stop);
    if (late && late_stop) await_stop(&other_sleeper);
    else if (late) settle();
    go_on(&owner);
    join(&owner);
    if (late_stop) go_on(&other_sleeper);
    if (does == TAKES) {
        settle();
        OK(voldazpe_member_end(&third));
    }
    if (early) join(&sleeper);
    if (late) join(&other_sleeper);
}

/* The sleeper stops before it sleeps. The owner ends, sees the mark, and stops before its event of this number. A third
 * member takes the arbiter. The sleeper goes on: where it finds the word changed, it stops a second time, at its
 * `second_stop`; otherwise it sleeps. The owner goes on, then the sleeper, then the third member ends. */
static void both_stop(uint32_t number, uint32_t second_stop) {
    OK((voldazpe_code_t)voldazpe_member_takes(&owner.member, true));
    sleeper.second_stop = second_stop;
    start(&sleeper, sleeps, 4);
    await_stop(&sleeper);
    start(&owner, ends, number);
    await_stop(&owner);
    OK(voldazpe_member_begin(&third));
    go_on(&sleeper);
    settle();
    go_on(&owner);
    join(&owner);
    go_on(&sleeper); /* where it didn't stop, this is there for when it does */
    settle();
    OK(voldazpe_member_end(&third));
    join(&sleeper);
    sleeper.second_stop = 0;
    while (sem_trywait(&sleeper.stopped) == 0) {}
    while (sem_trywait(&sleeper.goes_on) == 0) {}
}

/* ---- wakes of a turn */

/* Two applications leave, of which 40 threads wait, and count as asleep. Each order wakes its 20 at its end. In a turn
 * of both orders a member keeps 32 to be woken at its end, and wakes the others at once. */
static void turn_wakes(void) {
    voldazpe_reply_t reply;
    voldazpe_post_t post;
    for (uint32_t turn = 0; turn < 2; turn++) {
        for (uint32_t thread = 0; thread < 40; thread++) {
            uint32_t client = voldazpe_client(thread % 2, thread / 2);
            if (thread < 2) OK(voldazpe_member_give(&third, client, voldazpe_join(), &reply));
            OK(voldazpe_member_give(&third, client, voldazpe_block(), &reply));
            CHECK(reply.place.kind == VOLDAZPE_WAITING);
            VOLDAZPE_STORE(&page.sleepers[client], 1);
        }
        wakes = 0;
        if (turn) OK(voldazpe_member_begin(&third));
        for (uint32_t application = 0; application < 2; application++) {
            if (turn) {
                OK(voldazpe_member_step(&third, voldazpe_client(application, 0), voldazpe_leave(), &reply));
                while (voldazpe_member_next_post(&third, &post) == VOLDAZPE_OK) {}
                CHECK(wakes == (application ? 8 : 0));
            } else {
                OK(voldazpe_member_give(&third, voldazpe_client(application, 0), voldazpe_leave(), &reply));
                CHECK(wakes == 20 * (application + 1));
            }
        }
        if (turn) OK(voldazpe_member_end(&third));
        CHECK(wakes == 40);
        for (uint32_t thread = 0; thread < 64; thread++) VOLDAZPE_STORE(&page.sleepers[thread], 0);
        gives(&third); /* this wakes no one */
        CHECK(wakes == 40);
    }
}

/* ---- closing */

static const char text[] = "[[socket]]\nmanaged = [1]\nunmanaged = [0]\n";

static voldazpe_code_t opens(voldazpe_member_t *member) {
    return voldazpe_member_open(member, &page, text, strlen(text), NULL);
}

static void *closes(void *argument) {
    me = argument;
    events = 0;
    OK(voldazpe_member_close(&me->member));
    return NULL;
}

/* A member that closes stops before it looks at the count of members, or changes it, and the only other one closes. Or
 * it is the last one, and stops before the page is free. */
static void closer_stops(uint32_t number) {
    OK(opens(&owner.member));
    OK(voldazpe_member_another(&owner.member, &third));
    gives(&third);
    if (number == 3) OK(voldazpe_member_close(&third));
    start(&owner, closes, number);
    await_stop(&owner);
    if (number < 3) {
        CHECK(voldazpe_entered(&page) == 1 && opens(&sleeper.member) == VOLDAZPE_ALREADY_OPEN);
        OK(voldazpe_member_close(&third));
    }
    CHECK(opens(&sleeper.member) == VOLDAZPE_ALREADY_OPEN);
    go_on(&owner);
    join(&owner);
    CHECK(VOLDAZPE_LOAD(&page.members) == 0 && voldazpe_entered(&page) == 0);
}

static void prepare(side_t *side) {
    CHECK(sem_init(&side->stopped, 0, 0) == 0 && sem_init(&side->goes_on, 0, 0) == 0);
    if (side != &owner) OK(voldazpe_member_another(&owner.member, &side->member));
}

/* All stops of one sleeper, of the owner, and of both: how many there were. */
static uint32_t all_stops(void) {
    uint32_t rounds = 0;
    for (uint32_t number = 1; number <= 4; number++) {
        for (int does = 0; does < WAYS; does++, rounds++) sleeper_stops(number, (third_does_t)does);
    }
    for (uint32_t number = 1; number <= 5; number++) {
        for (int way = 0; way < 4 * WAYS; way++) {
            bool early = way & 1, late = way & 2;
            third_does_t does = (third_does_t)(way / 4);
            if (number > 2 && !early) continue; /* there is no mark, and so no further event */
            if (number == 1 && does != NOTHING) continue; /* the owner has the arbiter */
            owner_stops(number, early, late, 0, does);
            rounds++;
        }
        for (uint32_t late_stop = 1; number > 1 && late_stop <= 4; late_stop++, rounds += 2) {
            owner_stops(number, true, true, late_stop, TAKES);
            both_stop(number, 4 + late_stop);
        }
    }
    return rounds;
}

int main(void) {
    uint32_t rounds = 0;
    OK(opens(&owner.member));
    OK(voldazpe_member_another(&owner.member, &third));
    prepare(&owner);
    prepare(&sleeper);
    prepare(&other_sleeper);
    watched[0] = &page.waiting;
    watched[1] = &page.given;
    watched[2] = &page.members;
    for (int way = 0; way < 2; way++) {
        as_an_order = way != 0;
        rounds += all_stops();
    }
    CHECK(VOLDAZPE_LOAD(&page.waiting) == 0);
    turn_wakes();
    OK(voldazpe_member_close(&owner.member));
    OK(voldazpe_member_close(&sleeper.member));
    OK(voldazpe_member_close(&other_sleeper.member));
    OK(voldazpe_member_close(&third));
    for (uint32_t number = 1; number <= 3; number++, rounds++) closer_stops(number);
    printf("%u ways to stop\n", rounds);
    return 0;
}
