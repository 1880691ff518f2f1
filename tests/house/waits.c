/* Waits that another thread ends, waits without sleep, and which hooks are told how many cores are due. */
#include "check.h"

static const char two[] = "[[socket]]\nmanaged = [1, 2]\nunmanaged = [0]\n";

static voldazpe_house_t *house;
static voldazpe_house_application_t one, other;

static void open_two(const voldazpe_house_options_t *options) {
    house = open_text(two, options);
    OK(voldazpe_house_join(house, "one", &one));
    OK(voldazpe_house_join(house, "other", &other));
}

/* ---- waits that are ended ---- */

static VOLDAZPE_ATOMIC(uint32_t) ended, numbers;

/* waits once in an application, and leaves */
static void *waits(void *its) {
    voldazpe_house_thread_t *me;
    OK(voldazpe_house_register(house, *(voldazpe_house_application_t *)its, &me));
    errno = 77;
    voldazpe_house_code_t code = voldazpe_house_wait(me, -1);
    CHECK(errno == 77 && voldazpe_house_core(me) == -1);
    int type; /* it may be cancelled at any instruction as it sleeps, and not afterwards */
    CHECK(pthread_setcanceltype(PTHREAD_CANCEL_DEFERRED, &type) == 0 && type == PTHREAD_CANCEL_DEFERRED);
    if (code == VOLDAZPE_HOUSE_WAIT_ENDED) {
        atomic_fetch_or(&numbers, 1u << me->number);
        atomic_fetch_add(&ended, 1);
    }
    OK(voldazpe_house_leave(me));
    return (void *)(uintptr_t)code;
}

static void sleepers(void) {
    enum { MANY = 3 };
    pthread_t threads[MANY];
    open_two(NULL);
    for (int i = 0; i < MANY; i++) threads[i] = start_thread(waits, &one);
    UNTIL(counts_of(house, one).waiting == MANY);
    OK(voldazpe_house_end_wait(house, one, 1)); /* a single one */
    UNTIL(VOLDAZPE_LOAD(&ended) == 1);
    UNTIL(counts_of(house, one).threads == MANY - 1);
    CHECK(VOLDAZPE_LOAD(&numbers) == 2 && counts_of(house, one).waiting == MANY - 1);
    OK(voldazpe_house_end_wait(house, one, 1)); /* no thread has this number now */
    OK(voldazpe_house_end_wait(house, one, VOLDAZPE_THREADS));
    OK(voldazpe_house_end_wait(house, other, VOLDAZPE_HOUSE_ALL));
    CHECK(counts_of(house, one).waiting == MANY - 1);
    OK(voldazpe_house_end_wait(house, one, VOLDAZPE_HOUSE_ALL));
    for (int i = 0; i < MANY; i++) CHECK(join_thread(threads[i]) == (void *)(uintptr_t)VOLDAZPE_HOUSE_WAIT_ENDED);
    CHECK(VOLDAZPE_LOAD(&numbers) == 7 && counts_of(house, one).waiting == 0);
    OK(voldazpe_house_withdraw(house, one));
    CHECK(voldazpe_house_end_wait(house, one, 0) == VOLDAZPE_HOUSE_WITHDRAWN);
    CHECK(voldazpe_house_end_wait(NULL, one, 0) == VOLDAZPE_NULL);
    voldazpe_house_hold(house);
    OK(voldazpe_house_close(house));
    CHECK(voldazpe_house_end_wait(house, other, 0) == VOLDAZPE_HOUSE_CLOSED);
    voldazpe_house_let_go(house);
}

/* Those of one application alone are ended, whichever that is. */
static void of_an_application(void) {
    enum { MANY = 2 };
    pthread_t threads[MANY], others[MANY];
    open_two(NULL);
    for (int i = 0; i < MANY; i++) {
        threads[i] = start_thread(waits, &one);
        UNTIL(counts_of(house, one).waiting == i + 1);
        others[i] = start_thread(waits, &other);
        UNTIL(counts_of(house, other).waiting == i + 1);
    }
    VOLDAZPE_STORE(&ended, 0);
    OK(voldazpe_house_end_wait(house, other, 1));
    UNTIL(VOLDAZPE_LOAD(&ended) == 1);
    pause_for(20000000); /* of others no wait comes to its end */
    CHECK(VOLDAZPE_LOAD(&ended) == 1 && counts_of(house, one).waiting == MANY);
    UNTIL(counts_of(house, other).threads == 1);
    OK(voldazpe_house_end_wait(house, other, VOLDAZPE_HOUSE_ALL));
    for (int i = 0; i < MANY; i++) CHECK(join_thread(others[i]) == (void *)(uintptr_t)VOLDAZPE_HOUSE_WAIT_ENDED);
    pause_for(20000000);
    CHECK(VOLDAZPE_LOAD(&ended) == MANY && counts_of(house, one).waiting == MANY);
    OK(voldazpe_house_end_wait(house, one, VOLDAZPE_HOUSE_ALL));
    for (int i = 0; i < MANY; i++) CHECK(join_thread(threads[i]) == (void *)(uintptr_t)VOLDAZPE_HOUSE_WAIT_ENDED);
    OK(voldazpe_house_close(house));
}

/* of a thread that doesn't sleep it is the next wait that would sleep, and that one alone */
static void next_waits(void) {
    voldazpe_house_thread_t *me;
    open_two(NULL);
    OK(voldazpe_house_register(house, one, &me));
    OK(voldazpe_house_end_wait(house, one, me->number));
    CHECK(voldazpe_house_wait(me, -1) == VOLDAZPE_HOUSE_WAIT_ENDED);
    CHECK(voldazpe_house_wait(me, 1000000) == VOLDAZPE_TIMED_OUT);
    OK(voldazpe_house_want(house, one, 0, 1));
    OK(voldazpe_house_end_wait(house, one, me->number));
    OK(voldazpe_house_wait(me, -1)); /* a core is free: it doesn't sleep */
    OK(voldazpe_house_wait(me, -1));
    OK(voldazpe_house_want(house, one, 0, 0)); /* its core is asked back */
    CHECK(!voldazpe_house_keep(me) && voldazpe_house_core(me) >= 0);
    CHECK(voldazpe_house_wait(me, -1) == VOLDAZPE_HOUSE_WAIT_ENDED);
    CHECK(voldazpe_house_core(me) == -1 && counts_of(house, one).owned == 0 && counts_of(house, one).waiting == 0);
    OK(voldazpe_house_want(house, one, 0, 1));
    OK(voldazpe_house_wait(me, -1));
    OK(voldazpe_house_close(house));
    OK(voldazpe_house_leave(me));
}

/* ends waits of a thread that waits again and again, at all moments: none is lost */
static void *waits_often(void *times) {
    voldazpe_house_thread_t *me;
    OK(voldazpe_house_register(house, one, &me));
    for (uintptr_t i = 0; i < (uintptr_t)times; i++) {
        CHECK(voldazpe_house_wait(me, -1) == VOLDAZPE_HOUSE_WAIT_ENDED);
        atomic_fetch_add(&ended, 1);
    }
    OK(voldazpe_house_leave(me));
    return NULL;
}

static void at_all_moments(void) {
    enum { TIMES = 3000 };
    uint64_t random = 7;
    open_two(NULL);
    VOLDAZPE_STORE(&ended, 0);
    pthread_t thread = start_thread(waits_often, (void *)(uintptr_t)TIMES);
    UNTIL(counts_of(house, one).threads == 1);
    for (uint32_t i = 1; i <= TIMES; i++) {
        OK(voldazpe_house_end_wait(house, one, 0));
        int64_t since = nanoseconds_now();
        while (VOLDAZPE_LOAD(&ended) < i) {
            CHECK(nanoseconds_now() - since < 30000000000);
            sched_yield();
        }
        for (uint32_t pauses = next_random(&random) % 512; pauses > 0; pauses--) (void)VOLDAZPE_LOAD(&ended);
    }
    join_thread(thread);
    OK(voldazpe_house_close(house));
}

/* ---- waits without sleep ---- */

static uint64_t orders(void) { return state_of(house).orders; }

static void polls(void) {
    voldazpe_house_thread_t *me;
    open_two(NULL);
    OK(voldazpe_house_register(house, one, &me));
    uint64_t before = orders();
    errno = 78;
    CHECK(voldazpe_house_wait(me, 0) == VOLDAZPE_TIMED_OUT && errno == 78);
    CHECK(orders() == before); /* nothing is due */
    OK(voldazpe_house_want(house, one, 0, 1));
    before = orders();
    OK(voldazpe_house_wait(me, 0));
    CHECK(orders() == before + 1 && errno == 78);
    OK(voldazpe_house_wait(me, 0));
    CHECK(orders() == before + 1); /* it keeps it */
    OK(voldazpe_house_want(house, one, 0, 0));
    before = orders();
    CHECK(voldazpe_house_wait(me, 0) == VOLDAZPE_TIMED_OUT && orders() == before + 1); /* it gives it back */
    CHECK(voldazpe_house_core(me) == -1 && counts_of(house, one).owned == 0 && counts_of(house, one).waiting == 0);
    OK(voldazpe_house_close(house));
    CHECK(voldazpe_house_wait(me, 0) == VOLDAZPE_HOUSE_CLOSED);
    OK(voldazpe_house_leave(me));
}

/* a thread that keeps both cores from the other application: all that is due is asked back, and none is free */
static void *holds(void *go_on) {
    VOLDAZPE_ATOMIC(uint32_t) *stops = go_on;
    voldazpe_house_thread_t *me;
    OK(voldazpe_house_register(house, other, &me));
    OK(voldazpe_house_wait(me, -1));
    while (!VOLDAZPE_LOAD(stops)) pause_for(100000);
    OK(voldazpe_house_leave(me));
    return NULL;
}

static void polls_of_taken_cores(void) {
    static VOLDAZPE_ATOMIC(uint32_t) stops;
    pthread_t threads[2];
    voldazpe_house_thread_t *me;
    open_two(NULL);
    OK(voldazpe_house_want(house, other, 1, 2));
    for (int i = 0; i < 2; i++) threads[i] = start_thread(holds, &stops);
    UNTIL(counts_of(house, other).owned == 2);
    OK(voldazpe_house_register(house, one, &me));
    OK(voldazpe_house_want(house, one, 0, 1));
    CHECK(counts_of(house, one).due == 1 && counts_of(house, other).asked == 1);
    uint64_t before = orders();
    CHECK(voldazpe_house_wait(me, 0) == VOLDAZPE_TIMED_OUT && orders() == before);
    VOLDAZPE_STORE(&stops, 1);
    for (int i = 0; i < 2; i++) join_thread(threads[i]);
    before = orders();
    OK(voldazpe_house_wait(me, 0));
    CHECK(orders() == before + 1);
    OK(voldazpe_house_leave(me));
    OK(voldazpe_house_close(house));
}

/* ---- which hook is told what is due ---- */

static voldazpe_house_event_t events[16];
static uint32_t event_count;
static pthread_t teller;

static void notes(void *unused, const voldazpe_house_event_t *event) {
    (void)unused;
    if (event->kind != VOLDAZPE_HOUSE_DUE) return;
    CHECK(event_count < 16 && pthread_equal(teller, pthread_self()));
    CHECK(counts_of(house, event->application).due == event->due); /* without the lock */
    events[event_count++] = *event;
}

/* what was told since the last look: the number of cores of each of these applications */
static bool told(uint32_t count, voldazpe_house_application_t first, uint8_t due, voldazpe_house_application_t second,
                 uint8_t others) {
    bool is = event_count == count && (count < 1 || (events[0].application == first && events[0].due == due)) &&
              (count < 2 || (events[1].application == second && events[1].due == others));
    for (uint32_t i = 0; i < event_count; i++) is = is && events[i].thread == 0 && events[i].core == 0 && !events[i].moved;
    event_count = 0;
    return is;
}

static void due(void) {
    const voldazpe_house_options_t options = {.unpinned = true, .grace = NEVER, .hook = notes};
    const uint8_t low[VOLDAZPE_LEVELS] = {0, 0, 0, 0, 0, 0, 0, 2};
    teller = pthread_self();
    open_two(&options);
    CHECK(told(0, 0, 0, 0, 0));
    OK(voldazpe_house_want_at_levels(house, one, low));
    CHECK(told(1, one, 2, 0, 0));
    OK(voldazpe_house_want_at_levels(house, one, low)); /* no other number */
    CHECK(told(0, 0, 0, 0, 0));
    OK(voldazpe_house_want(house, other, 3, 1)); /* at a level before */
    CHECK(told(2, one, 1, other, 1));
    OK(voldazpe_house_cap(house, other, 0));
    CHECK(told(2, one, 2, other, 0));
    OK(voldazpe_house_cap(house, other, 5));
    CHECK(told(2, one, 1, other, 1));
    OK(voldazpe_house_withdraw(house, other)); /* which isn't told itself */
    CHECK(told(1, one, 2, 0, 0));
    OK(voldazpe_house_join(house, "new", &other)); /* has the number of the one that went, and its count */
    OK(voldazpe_house_want(house, other, 3, 1));
    CHECK(told(2, one, 1, other, 1));
    OK(voldazpe_house_close(house));
}

int main(void) {
    sleepers();
    of_an_application();
    next_waits();
    at_all_moments();
    polls();
    polls_of_taken_cores();
    due();
    return 0;
}
