/* Waiting for a core, and giving it back: what a thread does for itself. It reads its word without the lock. */
#include "house.h"

#include <errno.h>
#include <linux/futex.h>
#include <sys/syscall.h>

/* the answer for a thread without an application, or VOLDAZPE_OK */
static voldazpe_house_code_t ending(int32_t word) {
    switch (word) {
    case WORD_CLOSED: return VOLDAZPE_HOUSE_CLOSED;
    case WORD_WITHDRAWN: return VOLDAZPE_HOUSE_WITHDRAWN;
    case WORD_FORKED: return VOLDAZPE_HOUSE_FORKED;
    default: return VOLDAZPE_OK;
    }
}

static int32_t word_of(const registration_t *me) { return VOLDAZPE_LOAD(&me->handle.word); }

/* Pins the thread to the core that its own order gave it. True if it still has that core then. Otherwise the house has
 * unpinned it meanwhile, and this pinning may have come later: it is undone. */
static bool pin(registration_t *me, int32_t core) {
    voldazpe_house_t *house = me->house;
    voldazpe_house_run_on_core(house, 0, core);
    int32_t word = word_of(me);
    if (word_core(word) == core) return true;
    voldazpe_house_run_on(house, 0, ending(word) == VOLDAZPE_OK ? &house->unmanaged : &me->before);
    return false;
}

/* Unpins the thread, whose core will be another thread's. If the thread was ended meanwhile, it may run where it might
 * before. */
static void unpin(registration_t *me) {
    voldazpe_house_run_on(me->house, 0, &me->house->unmanaged);
    if (ending(word_of(me)) != VOLDAZPE_OK) voldazpe_house_run_on(me->house, 0, &me->before);
}

void voldazpe_house_step_aside(registration_t *me) { unpin(me); }

void voldazpe_house_step_back(registration_t *me) {
    int32_t word = word_of(me);
    if (word_has_core(word)) (void)pin(me, word_core(word));
}

/* ---- sleeping ---- */

static int64_t now(void) {
    struct timespec moment;
    (void)clock_gettime(CLOCK_MONOTONIC, &moment);
    return (int64_t)moment.tv_sec * 1000000000 + moment.tv_nsec;
}

/* Sleeps once, so that a cancellation ends it: only here may the thread be cancelled at any instruction. It has nothing
 * then that its end wouldn't give back. False at the limit. */
static bool sleep_once(registration_t *me, int64_t nanoseconds) {
    struct timespec limit = {nanoseconds / 1000000000, nanoseconds % 1000000000};
    int type;
    (void)pthread_setcanceltype(PTHREAD_CANCEL_ASYNCHRONOUS, &type);
    long slept = syscall(SYS_futex, &me->handle.word, FUTEX_WAIT_PRIVATE, WORD_WAITS, nanoseconds < 0 ? NULL : &limit,
                         NULL, 0);
    bool over = slept != 0 && errno == ETIMEDOUT;
    (void)pthread_setcanceltype(type, NULL);
    return !over;
}

/* AddressSanitizer's, if a program has it: tells it that the stack's frames are left without their ends. */
extern void __asan_handle_no_return(void) __attribute__((weak));

/* A cancelled thread runs its handlers on unmanaged cores, or on the core that it was given meanwhile. */
static void cancelled(void *me) {
    if (__asan_handle_no_return) __asan_handle_no_return();
    unpin(me);
}

/* Sleeps while the thread waits. *left is how long it may; below 0 there is no limit. */
static void sleep_while_waiting(registration_t *me, int64_t *left) {
    if (word_of(me) != WORD_WAITS) return;
    int64_t began = *left >= 0 ? now() : 0;
    pthread_cleanup_push(cancelled, me);
    /* before the kernel looks at the word, so that a thread which stores another word after that look sees a sleeper */
    VOLDAZPE_STORE(&me->sleeps, 1);
    while (word_of(me) == WORD_WAITS && *left != 0) {
        bool more = sleep_once(me, *left);
        if (*left < 0) continue;
        int64_t passed = now() - began;
        began += passed;
        *left = !more || passed >= *left ? 0 : passed > 0 ? *left - passed : *left;
    }
    VOLDAZPE_STORE(&me->sleeps, 0);
    pthread_cleanup_pop(0);
}

/* ---- orders ---- */

/* What a thread's order to block has done. */
typedef struct blocked {
    voldazpe_house_code_t code; /* the order's */
    int32_t lost; /* the core that it gave back, or -1 */
    bool waits;   /* it waits: none was free */
    bool other;   /* it has another core, to which it has to pin itself */
    bool vain;    /* it doesn't wait, since that would be in vain */
} blocked_t;

/* Whether a thread that doesn't want to sleep would get no core: its application has as many cores as it is due without
 * the one that is asked back, or no core is free. *code is the reading's. */
static bool in_vain(const registration_t *me, bool has_core, voldazpe_house_code_t *code) {
    voldazpe_house_t *house = me->house;
    voldazpe_counts_t has = {0, 0, 0, 0};
    *code = voldazpe_house_read_counts(house, (uint32_t)me->seat / VOLDAZPE_THREADS, &has);
    if (*code == VOLDAZPE_OK && has.owned - has_core >= has.due) return true;
    for (uint32_t position = 0; position < house->machine.managed; position++) {
        if (house->owner[position] < 0) return false;
    }
    return true;
}

/* Gives back what the thread has, if it is asked back, and waits for a core. If the thread doesn't want to sleep, it
 * waits only if that may give it a core. */
static blocked_t block(registration_t *me, bool sleeps) {
    voldazpe_house_t *house = me->house;
    voldazpe_reply_t reply;
    blocked_t it = {.lost = -1};
    if (voldazpe_house_begin(house) != VOLDAZPE_OK) return it; /* closed: its word says so */
    int32_t before = word_of(me);
    if (ending(before) == VOLDAZPE_OK && before < 0) {
        bool has_core = word_has_core(before);
        it.vain = !sleeps && in_vain(me, has_core, &it.code);
        house->self = me->seat;
        if (it.code == VOLDAZPE_OK && (!it.vain || has_core)) {
            it.code = voldazpe_house_order(house, (uint32_t)me->seat, it.vain ? voldazpe_retire() : voldazpe_block(), &reply);
        }
    }
    int32_t word = word_of(me);
    it.waits = word == WORD_WAITS;
    if (it.waits && VOLDAZPE_LOAD(&me->ends)) VOLDAZPE_STORE(&me->handle.word, WORD_ENDS);
    it.other = word_has_core(word) && word_core(word) != word_core(before);
    voldazpe_house_finish(house);
    if (word_core(word) != word_core(before)) it.lost = word_core(before);
    return it;
}

/* Gives up what the thread has or waits for. With `only_waiting` it keeps a core, which came in time. Returns the
 * order's code. */
static voldazpe_house_code_t retire(registration_t *me, bool only_waiting) {
    voldazpe_house_t *house = me->house;
    voldazpe_reply_t reply;
    voldazpe_house_code_t code = VOLDAZPE_OK;
    if (voldazpe_house_begin(house) != VOLDAZPE_OK) return code; /* closed: its word says so */
    int32_t word = word_of(me);
    if (word == WORD_WAITS || word == WORD_ENDS || (word_has_core(word) && !only_waiting)) {
        if (word_has_core(word)) voldazpe_house_note(house, me, VOLDAZPE_HOUSE_LOST, word_core(word), false);
        house->self = me->seat;
        code = voldazpe_house_order(house, (uint32_t)me->seat, voldazpe_retire(), &reply);
    }
    voldazpe_house_finish(house);
    return code;
}

/* Tells the hook that the thread has a core, or gave one back. */
static void tell(registration_t *me, uint32_t kind, int32_t core) {
    voldazpe_house_t *house = me->house;
    const voldazpe_house_event_t event = {.application = me->application, .kind = kind,
                                          .thread = me->handle.number, .core = (uint16_t)core};
    if (!voldazpe_house_has_hook(house) || voldazpe_house_enter(house) != VOLDAZPE_OK) return;
    voldazpe_house_tell(house, &event, voldazpe_house_listener(house, me->application));
    voldazpe_house_exit(house);
}

/* ---- the calls ---- */

/* what ended a wait that got no core */
static voldazpe_house_code_t why(registration_t *me) {
    return atomic_exchange(&me->ends, 0) ? VOLDAZPE_HOUSE_WAIT_ENDED : VOLDAZPE_TIMED_OUT;
}

/* A function of its own, so that a thread that is cancelled in the call before it waits has no frame of this one. */
__attribute__((noinline)) static voldazpe_house_code_t wait_for_core(registration_t *me, int64_t left) {
    for (;;) {
        voldazpe_house_code_t code = ending(word_of(me));
        if (code != VOLDAZPE_OK) { /* the thread that ended it may set its mask later, or did before a late unpinning */
            voldazpe_house_run_on(me->house, 0, &me->before);
            return code;
        }
        bool pins = left == 0 && word_has_core(word_of(me));
        if (pins) unpin(me); /* it may go on without a core */
        blocked_t it = block(me, left != 0);
        if (it.code != VOLDAZPE_OK) return it.code;
        if (it.lost >= 0 && voldazpe_house_has_hook(me->house)) {
            if (!pins) unpin(me); /* the core may be another thread's by now: the hook runs elsewhere */
            pins = true;
            tell(me, VOLDAZPE_HOUSE_LOST, it.lost);
        }
        if (it.vain) return why(me);
        pins = pins || it.other;
        sleep_while_waiting(me, &left);
        int32_t word = word_of(me);
        if (word == WORD_WAITS || word == WORD_ENDS) { /* the limit is over, or another thread ended the wait */
            unpin(me);
            pins = true;
            code = retire(me, true);
            if (code != VOLDAZPE_OK) return code;
            word = word_of(me);
            if (word == WORD_NONE) return why(me);
        }
        if (word_has_core(word) && (!pins || pin(me, word_core(word)))) {
            if (it.waits || it.other) tell(me, VOLDAZPE_HOUSE_GOT, word_core(word));
            return VOLDAZPE_OK;
        }
        /* the thread was ended, which the next round tells, or moved before it looked */
    }
}

voldazpe_house_code_t voldazpe_house_wait(voldazpe_house_thread_t *thread, int64_t nanoseconds) {
    registration_t *me = (registration_t *)(void *)thread;
    if (!thread) return VOLDAZPE_NULL;
    if (!pthread_equal(me->self, pthread_self())) return VOLDAZPE_HOUSE_NOT_YOURS;
    pthread_testcancel();
    if (voldazpe_house_keep(thread)) return VOLDAZPE_OK;
    if (voldazpe_house_in_hook) return VOLDAZPE_HOUSE_IN_HOOK;
    int kept = errno;
    voldazpe_house_code_t code = wait_for_core(me, nanoseconds < 0 ? -1 : nanoseconds);
    errno = kept;
    return code;
}

voldazpe_house_code_t voldazpe_house_give_back(voldazpe_house_thread_t *thread) {
    registration_t *me = (registration_t *)(void *)thread;
    if (!thread) return VOLDAZPE_NULL;
    if (!pthread_equal(me->self, pthread_self())) return VOLDAZPE_HOUSE_NOT_YOURS;
    int32_t word = word_of(me);
    voldazpe_house_code_t code = ending(word);
    if (code != VOLDAZPE_OK || !word_has_core(word)) return code;
    if (voldazpe_house_in_hook) return VOLDAZPE_HOUSE_IN_HOOK;
    unpin(me); /* before the order makes the core another thread's */
    code = retire(me, false);
    return code == VOLDAZPE_OK ? ending(word_of(me)) : code;
}
