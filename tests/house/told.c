/* What comes between the hold of the lock and the sleep. A hook is told that a thread got a core, even if the core is wanted just
 * when the house lets go of its lock after the order to wait. A call that found no room in the journal goes on, even if there is
 * room again by then. Linked with --wrap=pthread_mutex_unlock. */
#include "../../house/house.h"
#include "check.h"

static voldazpe_house_t *house;
static voldazpe_house_application_t application;
static voldazpe_house_thread_t *me;

static _Thread_local bool wants_now, finds_no_room;
static VOLDAZPE_ATOMIC(bool) held;
static VOLDAZPE_ATOMIC(uint32_t) got, lost;

int __real_pthread_mutex_unlock(pthread_mutex_t *mutex);
int __wrap_pthread_mutex_unlock(pthread_mutex_t *mutex);

int __wrap_pthread_mutex_unlock(pthread_mutex_t *mutex) {
    uint32_t emptied = finds_no_room && house->wanted ? VOLDAZPE_LOAD(&house->emptied) : UINT32_MAX;
    int fault = __real_pthread_mutex_unlock(mutex);
    if (emptied != UINT32_MAX) { /* the house's own thread makes room before this one sleeps */
        finds_no_room = false;
        VOLDAZPE_STORE(&held, false);
        UNTIL(VOLDAZPE_LOAD(&house->emptied) != emptied);
        pause_for(20000000);
    }
    if (wants_now) {
        wants_now = false;
        OK(voldazpe_house_want(house, application, 0, 1));
    }
    return fault;
}

static void hook(void *unused, const voldazpe_house_event_t *event) {
    (void)unused;
    atomic_fetch_add(&got, event->kind == VOLDAZPE_HOUSE_GOT);
    atomic_fetch_add(&lost, event->kind == VOLDAZPE_HOUSE_LOST);
}

/* keeps the house's own thread from making room */
static void holds(void *unused, voldazpe_house_text_t text, const char *bytes, size_t length) {
    (void)unused, (void)text, (void)bytes, (void)length;
    while (VOLDAZPE_LOAD(&held)) pause_for(100000);
}

static VOLDAZPE_ATOMIC(bool) went_on;

static void *fills_the_journal(void *unused) {
    finds_no_room = true;
    for (uint32_t i = 0; finds_no_room; i++) OK(voldazpe_house_want(house, application, 0, i % 2));
    VOLDAZPE_STORE(&went_on, true);
    return unused;
}

static void room_comes_before_the_sleep(void) {
    const voldazpe_house_options_t options = {.unpinned = true, .journal = holds, .grace = NEVER};
    house = open_text("[[socket]]\nmanaged = [1]\nunmanaged = [0]\n", &options);
    OK(voldazpe_house_join(house, "fills", &application));
    VOLDAZPE_STORE(&held, true);
    pthread_t thread = start_thread(fills_the_journal, NULL);
    UNTIL(VOLDAZPE_LOAD(&went_on));
    join_thread(thread);
    OK(voldazpe_house_close(house));
}

int main(void) {
    const voldazpe_house_options_t options = {.unpinned = true, .hook = hook, .grace = NEVER};
    room_comes_before_the_sleep();
    house = open_text("[[socket]]\nmanaged = [1]\nunmanaged = [0]\n", &options);
    OK(voldazpe_house_join(house, "works", &application));
    OK(voldazpe_house_register(house, application, &me));
    for (uint32_t time = 1; time <= 3; time++) {
        OK(voldazpe_house_want(house, application, 0, 0));
        wants_now = time < 3; /* the third time it is wanted before */
        if (!wants_now) OK(voldazpe_house_want(house, application, 0, 1));
        OK(voldazpe_house_wait(me, -1));
        CHECK(!wants_now && voldazpe_house_core(me) == 1);
        CHECK(VOLDAZPE_LOAD(&got) == time && VOLDAZPE_LOAD(&lost) == time - 1);
        OK(voldazpe_house_give_back(me));
        CHECK(VOLDAZPE_LOAD(&lost) == time);
    }
    OK(voldazpe_house_leave(me));
    OK(voldazpe_house_close(house));
    return 0;
}
