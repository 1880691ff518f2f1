/* How calls begin and end: which calls are inside a house, the lock, room in the journal, hooks, what a fork leaves. */
#include "house.h"

#include <errno.h>
#include <limits.h>
#include <linux/futex.h>
#include <sys/syscall.h>

VOLDAZPE_ATOMIC(uint32_t) voldazpe_house_forks;
_Thread_local bool voldazpe_house_in_hook;

/* ---- sleeping ---- */

bool voldazpe_house_sleep(VOLDAZPE_ATOMIC(uint32_t) *word, uint32_t value, int64_t nanoseconds) {
    struct timespec limit = {nanoseconds / 1000000000, nanoseconds % 1000000000};
    int kept = errno;
    bool over = syscall(SYS_futex, word, FUTEX_WAIT_PRIVATE, value, nanoseconds < 0 ? NULL : &limit, NULL, 0) != 0 &&
                errno == ETIMEDOUT;
    errno = kept;
    return !over;
}

void voldazpe_house_wake(void *word) {
    int kept = errno;
    (void)syscall(SYS_futex, word, FUTEX_WAKE_PRIVATE, INT_MAX, NULL, NULL, 0);
    errno = kept;
}

/* ---- which calls are inside ---- */

voldazpe_house_code_t voldazpe_house_enter(voldazpe_house_t *house) {
    if (!house) return VOLDAZPE_NULL;
    if (house->forks != VOLDAZPE_LOAD(&voldazpe_house_forks)) return VOLDAZPE_HOUSE_FORKED;
    if (atomic_fetch_add(&house->inside, 1) < CLOSING) return VOLDAZPE_OK;
    voldazpe_house_exit(house);
    return VOLDAZPE_HOUSE_CLOSED;
}

void voldazpe_house_exit(voldazpe_house_t *house) {
    /* once no call is inside, the closing thread may free the house: only its address is used after this */
    if (atomic_fetch_sub(&house->inside, 1) == CLOSING + 1) voldazpe_house_wake(&house->inside);
}

void voldazpe_house_release(voldazpe_house_t *house) {
    if (atomic_fetch_sub(&house->owed, 1) != 1) return;
    (void)pthread_mutex_destroy(&house->lock);
    free(house);
}

/* ---- the lock ---- */

/* These make 1,656 pauses of the processor in all, of up to 60 ns each: at most 0.1 ms. */
enum { TRIES = 16, FIRST_PAUSES = 8, MOST_PAUSES = 128 };

static void pause_processor(void) {
#if defined(__x86_64__)
    __builtin_ia32_pause();
#elif defined(__aarch64__)
    __asm__ volatile("yield");
#endif
}

/* Giving an order takes less time than sleeping and waking, and less than fetching the arbiter from another processor's
 * cache. So a thread that finds the lock taken leaves it alone for longer and longer, and the thread that has it may
 * give several orders meanwhile. */
void voldazpe_house_lock(voldazpe_house_t *house) {
    for (int tries = 0, pauses = FIRST_PAUSES; tries < TRIES; tries++) {
        if (pthread_mutex_trylock(&house->lock) == 0) return;
        for (int i = 0; i < pauses; i++) pause_processor();
        if (pauses < MOST_PAUSES) pauses *= 2;
    }
    (void)pthread_mutex_lock(&house->lock);
}

/* Sleeps until the house's own thread has emptied the journal's buffer. Lets go of the lock meanwhile. */
static void await_room(voldazpe_house_t *house) {
    uint32_t seen = VOLDAZPE_LOAD(&house->emptied);
    house->wanted = true;
    voldazpe_house_finish(house);
    while (VOLDAZPE_LOAD(&house->emptied) == seen) (void)voldazpe_house_sleep(&house->emptied, seen, -1);
    voldazpe_house_lock(house);
}

voldazpe_house_code_t voldazpe_house_begin(voldazpe_house_t *house) {
    voldazpe_house_lock(house);
    while (!house->closed && !voldazpe_house_journal_has_room(house)) {
        if (pthread_equal(house->own, pthread_self())) voldazpe_house_journal_write(house); /* a hook's call there */
        else await_room(house);
    }
    if (house->closed) {
        voldazpe_house_unlock(house);
        return VOLDAZPE_HOUSE_CLOSED;
    }
    house->self = -1;
    return VOLDAZPE_OK;
}

/* whether the house's own thread sleeps and has work */
static bool has_work(const voldazpe_house_t *house) {
    if (house->rest == AWAKE) return false;
    if (house->closed || house->wanted || voldazpe_house_journal_is_half_full(house)) return true;
    return house->asked > 0 && house->rest == RESTS;
}

void voldazpe_house_wake_later(voldazpe_house_t *house, void *word) {
    if (house->wake_count == MOST_WAKES) voldazpe_house_wake(house->wakes[--house->wake_count]);
    house->wakes[house->wake_count++] = word;
}

/* Lets go of the lock, wakes the threads that are to be woken, and then tells the hook what happened in this hold. So a
 * hook that takes its time, or that waits for another thread, keeps no thread asleep. This is a function of its own
 * since its caller mostly needs none of its lists. */
__attribute__((noinline)) static void unlock_wake_and_tell(voldazpe_house_t *house, bool ring) {
    voldazpe_house_event_t events[MOST_EVENTS];
    listener_t *told[MOST_EVENTS];
    void *wakes[MOST_WAKES];
    uint32_t event_count = house->event_count, wake_count = house->wake_count;
    memcpy(events, house->events, event_count * sizeof *events);
    memcpy(told, house->told, event_count * sizeof(*told));
    memcpy(wakes, house->wakes, wake_count * sizeof *wakes);
    house->event_count = house->wake_count = 0;
    /* before the lock is free: the closing thread waits for hooks that are being told */
    if (event_count > 0) atomic_fetch_add(&house->inside, 1);
    voldazpe_house_unlock(house);
    for (uint32_t i = 0; i < wake_count; i++) voldazpe_house_wake(wakes[i]);
    if (ring) voldazpe_house_wake(&house->bell);
    for (uint32_t i = 0; i < event_count; i++) voldazpe_house_tell(house, &events[i], told[i]);
    if (event_count > 0) voldazpe_house_exit(house);
}

void voldazpe_house_finish(voldazpe_house_t *house) {
    bool ring = has_work(house);
    if (ring) {
        house->rest = AWAKE;
        atomic_fetch_add(&house->bell, 1);
    }
    if (VOLDAZPE_LOAD(&house->refused) && !house->refused_told) {
        house->refused_told = true;
        voldazpe_house_note(house, NULL, VOLDAZPE_HOUSE_REFUSED, 0, false);
    }
    house->self = -1;
    if (ring || house->event_count > 0 || house->wake_count > 0) unlock_wake_and_tell(house, ring);
    else voldazpe_house_unlock(house);
}

/* ---- hooks ---- */

void voldazpe_house_note_event(voldazpe_house_t *house, voldazpe_house_event_t event) {
    if (!voldazpe_house_has_hook(house) || house->event_count == MOST_EVENTS) return;
    application_t *application = voldazpe_house_find(house, event.application);
    listener_t *listener = application ? application->listener : NULL;
    if (listener) atomic_fetch_add(&listener->uses, 1);
    else if (!house->options.hook) return;
    house->told[house->event_count] = listener;
    house->events[house->event_count++] = event;
}

void voldazpe_house_note(voldazpe_house_t *house, const registration_t *thread, uint32_t kind, int32_t core,
                         bool moved) {
    if (!voldazpe_house_has_hook(house)) return;
    voldazpe_house_note_event(house, (voldazpe_house_event_t){
        .application = thread ? thread->application : 0,
        .kind = kind,
        .thread = thread ? thread->handle.number : 0,
        .core = (uint16_t)core,
        .moved = moved,
    });
}

listener_t *voldazpe_house_listener(voldazpe_house_t *house, voldazpe_house_application_t id) {
    if (VOLDAZPE_LOAD(&house->listeners) == 0) return NULL;
    voldazpe_house_lock(house);
    application_t *application = voldazpe_house_find(house, id);
    listener_t *listener = application ? application->listener : NULL;
    if (listener) atomic_fetch_add(&listener->uses, 1);
    voldazpe_house_unlock(house);
    return listener;
}

void voldazpe_house_drop_listener(listener_t *listener) {
    if (!listener || atomic_fetch_sub(&listener->uses, 1) != 1) return;
    if (listener->done) listener->done(listener->context);
    free(listener);
}

void voldazpe_house_tell(voldazpe_house_t *house, const voldazpe_house_event_t *event, listener_t *listener) {
    bool inner = voldazpe_house_in_hook;
    int cancels; /* a thread that is cancelled in the hook would stay counted in forever */
    (void)pthread_setcancelstate(PTHREAD_CANCEL_DISABLE, &cancels);
    voldazpe_house_in_hook = true;
    if (house->options.hook) house->options.hook(house->options.hook_context, event);
    if (listener) listener->hook(listener->context, event);
    voldazpe_house_in_hook = inner;
    voldazpe_house_drop_listener(listener);
    (void)pthread_setcancelstate(cancels, NULL);
}

application_t *voldazpe_house_find(voldazpe_house_t *house, voldazpe_house_application_t id) {
    application_t *application = &house->applications[id % VOLDAZPE_APPLICATIONS];
    return id != 0 && application->id == id ? application : NULL;
}

/* ---- texts ---- */

const char *voldazpe_house_code_text(voldazpe_house_code_t code) {
    switch (code) {
    case VOLDAZPE_HOUSE_CLOSED: return "the house is closed";
    case VOLDAZPE_HOUSE_WITHDRAWN: return "the application was withdrawn";
    case VOLDAZPE_HOUSE_FORKED: return "the house belongs to the process that forked";
    case VOLDAZPE_HOUSE_ALL_TAKEN: return "all numbers of applications, or of the application's threads, are taken";
    case VOLDAZPE_HOUSE_REGISTERED: return "the thread is registered already, here or in another house that pins it";
    case VOLDAZPE_HOUSE_NOT_YOURS: return "the handle is another thread's";
    case VOLDAZPE_HOUSE_LIMITED: return "the machine's text limits orders, and a house has no end";
    case VOLDAZPE_HOUSE_UNPINNED: return "pinning was refused";
    case VOLDAZPE_HOUSE_NO_THREAD: return "no thread could be started";
    case VOLDAZPE_HOUSE_NO_PROCESSORS: return "this process's processors aren't told";
    case VOLDAZPE_HOUSE_IN_HOOK: return "a hook may not make this call";
    case VOLDAZPE_HOUSE_JOURNAL: return "the journal can't be written, or is incomplete";
    case VOLDAZPE_HOUSE_JOURNAL_THERE: return "the folder has a journal already";
    case VOLDAZPE_HOUSE_NO_LEVEL: return "no such level";
    case VOLDAZPE_HOUSE_WAIT_ENDED: return "another thread ended the wait";
    case VOLDAZPE_HOUSE_CORE_TAKEN: return "another house of this process manages a core";
    case VOLDAZPE_HOUSE_OTHER_OPTIONS: return "this process's house has other options";
    case VOLDAZPE_HOUSE_OTHER_VERSION: return "the header and the archive are of two versions";
    default: return voldazpe_code_text((voldazpe_code_t)code);
    }
}
