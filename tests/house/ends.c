/* Ends: a house that is closed with threads in any state, an application that is withdrawn, and threads that end
 * without leaving: by return, pthread_exit, cancellation. Other threads get their cores and their numbers. Signals that
 * interrupt end nothing, and a cancelled thread ends only in a wait. */
#include "check.h"

#include <signal.h>

static const char two[] = "[[socket]]\nmanaged = [1, 2]\nunmanaged = [0]\n";

static voldazpe_house_t *house;
static voldazpe_house_application_t application;
static VOLDAZPE_ATOMIC(bool) go_on;
static VOLDAZPE_ATOMIC(uint32_t) ready;

/* ---- threads that end ---- */

typedef enum { RETURNS, EXITS, IS_CANCELLED, IS_CANCELLED_WITH_A_CORE, WAYS } way_t;

static VOLDAZPE_ATOMIC(uint32_t) cleaned;

static void clean(void *unused) {
    (void)unused;
    atomic_fetch_add(&cleaned, 1);
}

static void *ends(void *way) {
    voldazpe_house_thread_t *me;
    OK(voldazpe_house_register(house, application, &me));
    pthread_cleanup_push(clean, NULL);
    if ((way_t)(uintptr_t)way == IS_CANCELLED) {
        atomic_fetch_add(&ready, 1);
        OK(voldazpe_house_wait(me, -1));
        CHECK("it is cancelled before" == NULL);
    }
    OK(voldazpe_house_wait(me, -1));
    atomic_fetch_add(&ready, 1);
    if ((way_t)(uintptr_t)way == EXITS) pthread_exit(NULL);
    while ((way_t)(uintptr_t)way == IS_CANCELLED_WITH_A_CORE) OK(voldazpe_house_wait(me, -1));
    pthread_cleanup_pop(1);
    return NULL;
}

static void threads_end(void) {
    for (int round = 0; round < 200; round++) {
        way_t way = (way_t)(round % WAYS);
        house = open_text(two, NULL);
        OK(voldazpe_house_join(house, "ends", &application));
        if (way != IS_CANCELLED) OK(voldazpe_house_want(house, application, 0, 2));
        VOLDAZPE_STORE(&ready, 0);
        VOLDAZPE_STORE(&cleaned, 0);
        pthread_t first = start_thread(ends, (void *)(uintptr_t)way);
        pthread_t second = start_thread(ends, (void *)(uintptr_t)way);
        if (way >= IS_CANCELLED) {
            UNTIL(VOLDAZPE_LOAD(&ready) == 2);
            if (round % 3 == 0 && way == IS_CANCELLED) UNTIL(counts_of(house, application).waiting == 2);
            CHECK(pthread_cancel(first) == 0 && pthread_cancel(second) == 0);
        }
        CHECK(join_thread(first) == (way >= IS_CANCELLED ? PTHREAD_CANCELED : NULL));
        CHECK(join_thread(second) == (way >= IS_CANCELLED ? PTHREAD_CANCELED : NULL));
        voldazpe_house_counts_t counts = counts_of(house, application);
        CHECK(VOLDAZPE_LOAD(&cleaned) == 2);
        CHECK(counts.threads == 0 && counts.owned == 0 && counts.waiting == 0);
        voldazpe_house_thread_t *me;
        OK(voldazpe_house_want(house, application, 0, 2));
        OK(voldazpe_house_register(house, application, &me));
        CHECK(me->number == 0); /* which is free again */
        OK(voldazpe_house_wait(me, 5000000000));
        CHECK(voldazpe_house_core(me) == 1);
        OK(voldazpe_house_close(house));
        OK(voldazpe_house_leave(me));
    }
}

/* ---- closing and withdrawing, with threads in any state ---- */

typedef struct worker {
    voldazpe_house_code_t first, again, given_back;
    bool kept;
} worker_t;

static void *works(void *argument) {
    worker_t *worker = argument;
    voldazpe_house_thread_t *me;
    OK(voldazpe_house_register(house, application, &me));
    atomic_fetch_add(&ready, 1);
    while ((worker->first = voldazpe_house_wait(me, -1)) == VOLDAZPE_OK) {
        while (voldazpe_house_keep(me)) {}
        if (VOLDAZPE_LOAD(&go_on)) continue;
    }
    worker->kept = voldazpe_house_keep(me) || voldazpe_house_core(me) != -1;
    worker->again = voldazpe_house_wait(me, -1);
    worker->given_back = voldazpe_house_give_back(me);
    OK(voldazpe_house_leave(me));
    return NULL;
}

static void *wants(void *unused) {
    uint64_t state = 7;
    voldazpe_house_code_t code = VOLDAZPE_OK;
    voldazpe_house_thread_t *me; /* registered, so that it may use the pointer after the close */
    OK(voldazpe_house_register(house, application, &me));
    atomic_fetch_add(&ready, 1);
    while (code == VOLDAZPE_OK) {
        uint32_t level = next_random(&state) % 8;
        code = voldazpe_house_want(house, application, level, next_random(&state) % 4);
    }
    CHECK(code == VOLDAZPE_HOUSE_CLOSED || code == VOLDAZPE_HOUSE_WITHDRAWN);
    OK(voldazpe_house_leave(me));
    return unused;
}

static void one_end(int round, bool closes) {
    enum { WORKERS = 5 };
    worker_t workers[WORKERS];
    pthread_t threads[WORKERS + 1];
    voldazpe_house_code_t end = closes ? VOLDAZPE_HOUSE_CLOSED : VOLDAZPE_HOUSE_WITHDRAWN;
    house = open_text(two, NULL);
    OK(voldazpe_house_join(house, "works", &application));
    OK(voldazpe_house_want(house, application, 0, (uint32_t)round % 3));
    VOLDAZPE_STORE(&ready, 0);
    VOLDAZPE_STORE(&go_on, true);
    for (int i = 0; i < WORKERS; i++) threads[i] = start_thread(works, &workers[i]);
    threads[WORKERS] = start_thread(wants, NULL);
    UNTIL(VOLDAZPE_LOAD(&ready) == WORKERS + 1);
    pause_for(round % 7 * 20000);
    OK(closes ? voldazpe_house_close(house) : voldazpe_house_withdraw(house, application));
    for (int i = 0; i <= WORKERS; i++) join_thread(threads[i]);
    for (int i = 0; i < WORKERS; i++) {
        CHECK(workers[i].first == end && workers[i].again == end && workers[i].given_back == end && !workers[i].kept);
    }
    if (!closes) OK(voldazpe_house_close(house));
}

/* ---- a thread that never comes back from its work doesn't keep anybody ---- */

static voldazpe_house_code_t late_wait, late_want;

static void *works_on_and_on(void *unused) {
    voldazpe_house_thread_t *me;
    OK(voldazpe_house_register(house, application, &me));
    OK(voldazpe_house_wait(me, -1));
    VOLDAZPE_STORE(&ready, 1);
    while (!VOLDAZPE_LOAD(&go_on)) pause_for(1000000);
    CHECK(!voldazpe_house_keep(me));
    late_want = voldazpe_house_want(house, application, 0, 1);
    late_wait = voldazpe_house_wait(me, -1);
    return unused;
}

static void closes_beside_work(void) {
    house = open_text(two, NULL);
    OK(voldazpe_house_join(house, "on and on", &application));
    OK(voldazpe_house_want(house, application, 0, 1));
    VOLDAZPE_STORE(&ready, 0);
    VOLDAZPE_STORE(&go_on, false);
    pthread_t thread = start_thread(works_on_and_on, NULL);
    UNTIL(VOLDAZPE_LOAD(&ready) == 1);
    int64_t began = nanoseconds_now();
    OK(voldazpe_house_close(house));
    CHECK(nanoseconds_now() - began < 20000000000);
    VOLDAZPE_STORE(&go_on, true);
    join_thread(thread);
    CHECK(late_want == VOLDAZPE_HOUSE_CLOSED && late_wait == VOLDAZPE_HOUSE_CLOSED);
}

/* ---- closings at once: one of them is the first ---- */

static void *closes(void *code) {
    voldazpe_house_thread_t *me;
    OK(voldazpe_house_register(house, application, &me));
    atomic_fetch_add(&ready, 1);
    while (!VOLDAZPE_LOAD(&go_on)) {}
    *(voldazpe_house_code_t *)code = voldazpe_house_close(house);
    return NULL;
}

static void closes_at_once(void) {
    for (int round = 0; round < 50; round++) {
        voldazpe_house_code_t codes[3];
        pthread_t threads[3];
        int first = 0;
        house = open_text(two, NULL);
        OK(voldazpe_house_join(house, "closes", &application));
        VOLDAZPE_STORE(&ready, 0);
        VOLDAZPE_STORE(&go_on, false);
        for (int i = 0; i < 3; i++) threads[i] = start_thread(closes, &codes[i]);
        UNTIL(VOLDAZPE_LOAD(&ready) == 3);
        VOLDAZPE_STORE(&go_on, true);
        for (int i = 0; i < 3; i++) join_thread(threads[i]);
        for (int i = 0; i < 3; i++) first += codes[i] == VOLDAZPE_OK;
        CHECK(first == 1);
        for (int i = 0; i < 3; i++) CHECK(codes[i] == VOLDAZPE_OK || codes[i] == VOLDAZPE_HOUSE_CLOSED);
    }
}

/* ---- destructors of the program's, which leave themselves ---- */

static pthread_key_t earlier, later; /* than the house's own key */
static VOLDAZPE_ATOMIC(uint32_t) left;

static void leaves(void *me) {
    OK(voldazpe_house_leave(me));
    atomic_fetch_add(&left, 1);
}

static void *ends_with_a_key(void *key) {
    voldazpe_house_thread_t *me;
    OK(voldazpe_house_register(house, application, &me));
    CHECK(pthread_setspecific(*(pthread_key_t *)key, me) == 0);
    return NULL;
}

static void destructors_leave(void) {
    house = open_text(two, NULL);
    OK(voldazpe_house_join(house, "destructors", &application));
    join_thread(start_thread(ends_with_a_key, &earlier));
    join_thread(start_thread(ends_with_a_key, &later));
    CHECK(VOLDAZPE_LOAD(&left) == 2 && counts_of(house, application).threads == 0);
    OK(voldazpe_house_close(house));
}

/* ---- a thread that was cancelled opens, calls and closes all the same: its wait alone is a cancellation point ---- */

static VOLDAZPE_ATOMIC(uint32_t) went_on;

static void pauses(void *unused, const voldazpe_house_event_t *event) {
    (void)unused, (void)event;
    pause_for(1000); /* a cancellation point */
    atomic_fetch_add(&went_on, 1);
}

__attribute__((noinline)) static void opens_and_closes(void) {
    const voldazpe_house_options_t options = {.unpinned = true, .own = true, .hook = pauses};
    voldazpe_house_application_t mine;
    voldazpe_house_t *own;
    OK(voldazpe_house_open(NULL, 0, &options, &own));
    atomic_fetch_add(&went_on, 1);
    OK(voldazpe_house_join(own, "cancelled", &mine));
    OK(voldazpe_house_want(own, mine, 0, 1)); /* the hook is told what is due */
    OK(voldazpe_house_close(own));
    atomic_fetch_add(&went_on, 1);
}

static void *was_cancelled(void *unused) {
    CHECK(pthread_cancel(pthread_self()) == 0);
    opens_and_closes();
    pthread_testcancel(); /* in a frame of which a sanitizer keeps nothing */
    return unused;
}

static void cancelled_calls(void) {
    CHECK(join_thread(start_thread(was_cancelled, NULL)) == PTHREAD_CANCELED);
    CHECK(VOLDAZPE_LOAD(&went_on) == 3);
}

/* ---- more sleepers than the house keeps to wake at a time ---- */

enum { SLEEPERS = 90, SLEEPERS_EACH = 30 };
static voldazpe_house_application_t sleepers[SLEEPERS / SLEEPERS_EACH];
static VOLDAZPE_ATOMIC(uint32_t) woken;

static void *sleeps(void *mine) {
    voldazpe_house_thread_t *me;
    OK(voldazpe_house_register(house, *(voldazpe_house_application_t *)mine, &me));
    CHECK(voldazpe_house_wait(me, -1) == VOLDAZPE_HOUSE_CLOSED);
    atomic_fetch_add(&woken, 1);
    return NULL;
}

static void many_sleepers(void) {
    pthread_t threads[SLEEPERS];
    house = open_text(two, NULL);
    for (int i = 0; i < SLEEPERS / SLEEPERS_EACH; i++) OK(voldazpe_house_join(house, "sleeps", &sleepers[i]));
    for (int i = 0; i < SLEEPERS; i++) threads[i] = start_thread(sleeps, &sleepers[i / SLEEPERS_EACH]);
    for (int i = 0; i < SLEEPERS / SLEEPERS_EACH; i++) UNTIL(counts_of(house, sleepers[i]).waiting == SLEEPERS_EACH);
    pause_for(50000000); /* they sleep */
    OK(voldazpe_house_close(house));
    UNTIL(VOLDAZPE_LOAD(&woken) == SLEEPERS);
    for (int i = 0; i < SLEEPERS; i++) join_thread(threads[i]);
}

/* ---- signals ---- */

static VOLDAZPE_ATOMIC(uint32_t) handled;
static VOLDAZPE_ATOMIC(uintptr_t) waiter;

static void handle(int signal) {
    (void)signal;
    voldazpe_house_thread_t *me = (voldazpe_house_thread_t *)VOLDAZPE_LOAD(&waiter);
    if (!voldazpe_house_keep(me)) atomic_fetch_add(&handled, 1);
}

static void *is_interrupted(void *unused) {
    voldazpe_house_thread_t *me;
    OK(voldazpe_house_register(house, application, &me));
    VOLDAZPE_STORE(&waiter, (uintptr_t)me);
    VOLDAZPE_STORE(&ready, 1);
    int64_t began = nanoseconds_now();
    CHECK(voldazpe_house_wait(me, 60000000) == VOLDAZPE_TIMED_OUT); /* the limit goes on too */
    CHECK(nanoseconds_now() - began >= 60000000 && nanoseconds_now() - began < 20000000000);
    VOLDAZPE_STORE(&ready, 2);
    OK(voldazpe_house_wait(me, -1));
    CHECK(voldazpe_house_core(me) == 1);
    return unused;
}

static void signals(void) {
    struct sigaction action = {.sa_handler = handle}; /* without SA_RESTART */
    CHECK(sigaction(SIGUSR1, &action, NULL) == 0);
    house = open_text(two, NULL);
    OK(voldazpe_house_join(house, "interrupted", &application));
    VOLDAZPE_STORE(&ready, 0);
    pthread_t thread = start_thread(is_interrupted, NULL);
    UNTIL(VOLDAZPE_LOAD(&ready) == 1);
    for (int sent = 1; sent <= 200 || (VOLDAZPE_LOAD(&handled) <= 50 && sent < 100000); sent++) {
        CHECK(pthread_kill(thread, SIGUSR1) == 0); /* on a busy machine many may come as one */
        pause_for(200000);
        if (sent == 100) UNTIL(VOLDAZPE_LOAD(&ready) == 2);
    }
    CHECK(VOLDAZPE_LOAD(&handled) > 50);
    UNTIL(counts_of(house, application).waiting == 1);
    OK(voldazpe_house_want(house, application, 0, 1));
    join_thread(thread);
    OK(voldazpe_house_close(house));
}

int main(void) {
    CHECK(pthread_key_create(&earlier, leaves) == 0);
    threads_end();
    CHECK(pthread_key_create(&later, leaves) == 0);
    destructors_leave();
    for (int round = 0; round < 100; round++) {
        one_end(round, true);
        one_end(round, false);
    }
    closes_beside_work();
    closes_at_once();
    cancelled_calls();
    many_sleepers();
    signals();
    return 0;
}
