/* Orders, and what follows from their posts: which thread has which core, what each thread's word says, and where the
 * thread may run. All of this is done under the lock, except a thread's own pinning. */
#include "house.h"

#include <errno.h>

/* ---- pinning ---- */

/* Notes that pinning was refused, the first time. */
static void note_refused(voldazpe_house_t *house, int why) {
    int none = 0;
    if (why != ESRCH) (void)atomic_compare_exchange_strong(&house->refused, &none, why);
}

void voldazpe_house_run_on(voldazpe_house_t *house, pid_t id, const cpu_set_t *processors) {
    int kept = errno;
    if (house->options.unpinned) return;
    if (sched_setaffinity(id, sizeof *processors, processors) != 0) {
        note_refused(house, errno);
        (void)sched_setaffinity(id, sizeof house->all, &house->all); /* anywhere rather than on another thread's core */
    }
    errno = kept;
}

void voldazpe_house_run_on_core(voldazpe_house_t *house, pid_t id, int32_t core) {
    cpu_set_t one;
    if (house->options.unpinned) return;
    CPU_ZERO(&one);
    CPU_SET((size_t)core, &one);
    voldazpe_house_run_on(house, id, &one);
}

/* ---- a thread's word ---- */

/* what the word of a seat's thread has to be, by its place word */
static int32_t word_of(const voldazpe_house_t *house, uint32_t seat) {
    uint32_t place = house->place[seat];
    if (place >= 4) {
        int32_t core = house->cores[(place - 4) / 2].number;
        return place & 1 ? INT32_MIN + core : core;
    }
    switch ((voldazpe_place_kind_t)place) {
    case VOLDAZPE_WAITING: return WORD_WAITS;
    case VOLDAZPE_UNMANAGED:
    case VOLDAZPE_MOVED_AWAY:
    case VOLDAZPE_ON: break; /* a place word is never this */
    }
    return WORD_NONE;
}

/* Wakes a thread if it sleeps, once its word is stored and its mask is set. */
static void wake(voldazpe_house_t *house, registration_t *thread) {
    if (VOLDAZPE_LOAD(&thread->sleeps)) voldazpe_house_wake_later(house, &thread->handle.word);
}

/* Shows a thread what its place word says. Pins, unpins and wakes the thread if another thread's order changed the
 * word. */
static void show(voldazpe_house_t *house, uint32_t seat) {
    registration_t *thread = house->threads[seat];
    if (!thread) return;
    int32_t before = VOLDAZPE_LOAD(&thread->handle.word), word = word_of(house, seat);
    bool another = (int32_t)seat != house->self && word_core(before) != word_core(word);
    if (before == word) return;
    if (another && word_has_core(before)) {
        VOLDAZPE_STORE(&thread->handle.word, WORD_NONE); /* it may be pinning itself: it looks at its word after that */
        voldazpe_house_run_on(house, thread->id, &house->unmanaged);
        voldazpe_house_note(house, thread, VOLDAZPE_HOUSE_LOST, word_core(before),
                            house->place[seat] == VOLDAZPE_MOVED_AWAY);
    }
    if (another && word_has_core(word)) voldazpe_house_run_on_core(house, thread->id, word_core(word));
    VOLDAZPE_STORE(&thread->handle.word, word);
    if (word != WORD_WAITS) wake(house, thread);
    if (word_is_asked(word)) voldazpe_house_note(house, thread, VOLDAZPE_HOUSE_ASKED, word_core(word), false);
}

void voldazpe_house_end(voldazpe_house_t *house, registration_t *thread) {
    VOLDAZPE_STORE(&thread->ends, 1);
    if (VOLDAZPE_LOAD(&thread->handle.word) != WORD_WAITS) return;
    VOLDAZPE_STORE(&thread->handle.word, WORD_ENDS);
    wake(house, thread);
}

void voldazpe_house_detach(voldazpe_house_t *house, registration_t *thread, int32_t word) {
    int32_t before = VOLDAZPE_LOAD(&thread->handle.word);
    house->threads[thread->seat] = NULL;
    thread->seat = -1;
    VOLDAZPE_STORE(&thread->handle.word, word);
    voldazpe_house_run_on(house, thread->id, &thread->before);
    wake(house, thread);
    if (word_has_core(before)) {
        voldazpe_house_note(house, thread, VOLDAZPE_HOUSE_LOST, word_core(before), false);
    }
}

/* ---- which thread has which core ---- */

voldazpe_code_t voldazpe_house_read_counts(voldazpe_house_t *house, uint32_t number, voldazpe_counts_t *counts) {
    return (voldazpe_code_t)voldazpe_lib_member_counts(&house->member, number, counts);
}

voldazpe_code_t voldazpe_house_note_due(voldazpe_house_t *house) {
    voldazpe_counts_t has;
    for (uint32_t number = 0; number < VOLDAZPE_APPLICATIONS && voldazpe_house_has_hook(house); number++) {
        voldazpe_code_t code = voldazpe_house_read_counts(house, number, &has);
        if (code != VOLDAZPE_OK) return code;
        if (has.due == house->due[number]) continue;
        house->due[number] = has.due;
        if (house->applications[number].id) voldazpe_house_note_event(house, (voldazpe_house_event_t){
            .application = house->applications[number].id, .kind = VOLDAZPE_HOUSE_DUE, .due = has.due});
    }
    return VOLDAZPE_OK;
}

static bool is_asked(uint32_t place) { return place >= 4 && (place & 1); }

/* A thread's place word has become another one. */
static void post(voldazpe_house_t *house, uint32_t seat, uint32_t place) {
    uint32_t before = house->place[seat];
    house->place[seat] = (uint16_t)place;
    house->asked += is_asked(place);
    house->asked -= is_asked(before);
    if (before >= 4 && house->owner[(before - 4) / 2] == (int16_t)seat) house->owner[(before - 4) / 2] = -1;
    if (place >= 4) house->owner[(place - 4) / 2] = (int16_t)seat;
    if (is_asked(place) && !is_asked(before)) house->since[(place - 4) / 2] = house->clock;
    show(house, seat);
}

/* as voldazpe_member_give, but the posts go to the threads' words */
voldazpe_code_t voldazpe_house_order(voldazpe_house_t *house, uint32_t client, voldazpe_order_t order,
                                     voldazpe_reply_t *reply) {
    voldazpe_post_t next;
    uint32_t code = voldazpe_lib_member_step(&house->member, client, &order, reply);
    if (code != VOLDAZPE_OK) return (voldazpe_code_t)code;
    if (house->journal) voldazpe_house_journal_order(house, client, &order, reply);
    if (reply->kind == VOLDAZPE_MOVED) {
        house->clock = order.moment;
        house->moved += reply->moved;
    }
    /* in their order: a thread that loses a core is unpinned before another is pinned there */
    while ((code = voldazpe_lib_member_post(&house->member, &next)) == VOLDAZPE_OK) {
        if (next.word >= VOLDAZPE_FIRST_PLACE) post(house, next.word - VOLDAZPE_FIRST_PLACE, (uint32_t)next.value);
    }
    return code == VOLDAZPE_SETTLED ? VOLDAZPE_OK : (voldazpe_code_t)code;
}
