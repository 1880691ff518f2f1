/* Applications and threads: which of them take part, and what applications want. */
#include "house.h"

#include <sys/syscall.h>

/* ---- the registrations of the calling thread, in a list that only this thread has. They end with the thread ---- */

static pthread_once_t once = PTHREAD_ONCE_INIT;
static pthread_key_t key;
static bool has_key;

static registration_t *registrations(void) { return pthread_getspecific(key); }

static voldazpe_house_code_t leave(registration_t *me);

/* The program's destructors may still leave by a handle, in whatever order they are called. In the round after theirs,
 * this ends the registrations that remain. */
static void thread_ends(void *list) {
    static _Thread_local bool again;
    if (!again && (again = pthread_setspecific(key, list) == 0)) return;
    for (registration_t *next, *me = list; me; me = next) {
        next = me->next;
        if (VOLDAZPE_LOAD(&me->handle.word) != WORD_FORKED) (void)leave(me);
    }
}

/* In the child of a fork. Of the parent's threads only the calling one is here: its word says so, and it is unpinned.
 * What the parent had stays as it is: no thread here may rely on its lock. */
static void forked(void) {
    atomic_fetch_add(&voldazpe_house_forks, 1);
    voldazpe_house_in_hook = false;
    voldazpe_house_list_forked();
    for (registration_t *me = registrations(); me; me = me->next) {
        VOLDAZPE_STORE(&me->handle.word, WORD_FORKED);
        if (!me->house->options.unpinned) (void)sched_setaffinity(0, sizeof me->before, &me->before);
    }
}

static void begin_process(void) {
    has_key = pthread_key_create(&key, thread_ends) == 0 && pthread_atfork(NULL, NULL, forked) == 0;
}

bool voldazpe_house_begin_process(void) {
    return pthread_once(&once, begin_process) == 0 && has_key;
}

/* ---- applications ---- */

voldazpe_house_code_t voldazpe_house_join(voldazpe_house_t *house, const char *name,
                                          voldazpe_house_application_t *application) {
    voldazpe_reply_t reply;
    uint32_t number = 0;
    voldazpe_house_code_t code = application ? voldazpe_house_enter(house) : (uint32_t)VOLDAZPE_NULL;
    if (code != VOLDAZPE_OK) return code;
    char *copy = strdup(name ? name : "");
    code = copy ? voldazpe_house_begin(house) : (uint32_t)VOLDAZPE_OUT_OF_MEMORY;
    if (code == VOLDAZPE_OK) {
        while (number < VOLDAZPE_APPLICATIONS && house->applications[number].id) number++;
        if (number == VOLDAZPE_APPLICATIONS) code = VOLDAZPE_HOUSE_ALL_TAKEN;
        else code = voldazpe_house_order(house, voldazpe_client(number, 0), voldazpe_join(), &reply);
        if (code == VOLDAZPE_OK) {
            application_t *joined = &house->applications[number];
            *joined = (application_t){.id = ++house->joined * VOLDAZPE_APPLICATIONS + number, .name = copy,
                                      .cap = VOLDAZPE_CORES};
            copy = NULL;
            *application = joined->id;
        }
        voldazpe_house_finish(house);
    }
    free(copy);
    voldazpe_house_exit(house);
    return code;
}

/* Begins a call for an application. If this is VOLDAZPE_OK, the call is counted in and has the lock. */
static voldazpe_house_code_t begin_for(voldazpe_house_t *house, voldazpe_house_application_t id,
                                       application_t **found) {
    voldazpe_house_code_t code = voldazpe_house_enter(house);
    if (code != VOLDAZPE_OK) return code;
    code = voldazpe_house_begin(house);
    if (code == VOLDAZPE_OK) {
        *found = voldazpe_house_find(house, id);
        if (*found) return code;
        code = VOLDAZPE_HOUSE_WITHDRAWN;
        voldazpe_house_finish(house);
    }
    voldazpe_house_exit(house);
    return code;
}

static void end_for(voldazpe_house_t *house) {
    voldazpe_house_finish(house);
    voldazpe_house_exit(house);
}

/* Begins a call as begin_for does, for an order before which a tick may come. If the tick would move the calling
 * thread, the thread leaves its core before, and *aside becomes its registration. Since a migration may take long, this
 * is done without the lock. */
static voldazpe_house_code_t begin_with_a_tick(voldazpe_house_t *house, voldazpe_house_application_t id,
                                               application_t **found, registration_t **aside) {
    registration_t *me = (registration_t *)(void *)voldazpe_house_mine(house);
    *aside = NULL;
    voldazpe_house_code_t code = begin_for(house, id, found);
    if (code != VOLDAZPE_OK || !me || !voldazpe_house_is_overdue(house, me->seat)) return code;
    end_for(house);
    *aside = me;
    voldazpe_house_step_aside(me);
    code = begin_for(house, id, found);
    if (code != VOLDAZPE_OK) voldazpe_house_step_back(me);
    return code;
}

static void end_with_a_tick(voldazpe_house_t *house, registration_t *aside) {
    end_for(house);
    if (aside) voldazpe_house_step_back(aside);
}

static uint32_t client_of(voldazpe_house_application_t id) {
    return voldazpe_client((uint32_t)(id % VOLDAZPE_APPLICATIONS), 0);
}

voldazpe_house_code_t voldazpe_house_withdraw(voldazpe_house_t *house, voldazpe_house_application_t id) {
    voldazpe_reply_t reply;
    application_t *application;
    voldazpe_house_code_t code = begin_for(house, id, &application);
    if (code != VOLDAZPE_OK) return code;
    uint32_t first = client_of(id);
    for (uint32_t seat = first; seat < first + VOLDAZPE_THREADS; seat++) { /* before other threads have their cores */
        if (house->threads[seat]) voldazpe_house_detach(house, house->threads[seat], WORD_WITHDRAWN);
    }
    code = voldazpe_house_order(house, first, voldazpe_leave(), &reply);
    char *name = application->name;
    listener_t *listener = application->listener;
    if (listener) atomic_fetch_sub(&house->listeners, 1);
    *application = (application_t){0};
    if (code == VOLDAZPE_OK) code = voldazpe_house_note_due(house);
    end_for(house);
    free(name);
    voldazpe_house_drop_listener(listener);
    return code;
}

voldazpe_house_code_t voldazpe_house_watch(voldazpe_house_t *house, voldazpe_house_application_t id, voldazpe_house_hook_t hook,
                                           void *context, void (*done)(void *context)) {
    application_t *application;
    voldazpe_counts_t has;
    uint32_t number = (uint32_t)(id % VOLDAZPE_APPLICATIONS);
    listener_t *before = NULL, *listener = hook ? malloc(sizeof *listener) : NULL;
    if (listener) *listener = (listener_t){.hook = hook, .context = context, .done = done, .uses = 1};
    voldazpe_house_code_t code = !hook || listener ? begin_for(house, id, &application) : (uint32_t)VOLDAZPE_OUT_OF_MEMORY;
    if (code != VOLDAZPE_OK) {
        free(listener);
        return code;
    }
    code = voldazpe_house_read_counts(house, number, &has);
    if (code == VOLDAZPE_OK) {
        house->due[number] = has.due; /* what is due now isn't told; each change of it is */
        before = application->listener;
        application->listener = listener;
        if (before) atomic_fetch_sub(&house->listeners, 1);
        if (listener) atomic_fetch_add(&house->listeners, 1);
    }
    end_for(house);
    if (code == VOLDAZPE_OK) voldazpe_house_drop_listener(before);
    else free(listener);
    return code;
}

voldazpe_house_code_t voldazpe_house_want_at_levels(voldazpe_house_t *house, voldazpe_house_application_t id,
                                                    const uint8_t *cores) {
    voldazpe_reply_t reply;
    application_t *application;
    registration_t *aside;
    if (!house || !cores) return VOLDAZPE_NULL;
    for (int level = 0; level < VOLDAZPE_LEVELS; level++) {
        if (cores[level] > VOLDAZPE_CORES) return VOLDAZPE_ENTRY_TOO_LARGE;
    }
    voldazpe_house_code_t code = begin_with_a_tick(house, id, &application, &aside);
    if (code != VOLDAZPE_OK) return code;
    if (memcmp(application->request, cores, VOLDAZPE_LEVELS) != 0) {
        voldazpe_house_freshen(house);
        code = voldazpe_house_order(house, client_of(id), voldazpe_ask_at_levels(cores), &reply);
        if (code == VOLDAZPE_OK) memcpy(application->request, cores, VOLDAZPE_LEVELS);
        if (code == VOLDAZPE_OK) code = voldazpe_house_note_due(house);
    }
    end_with_a_tick(house, aside);
    return code;
}

voldazpe_house_code_t voldazpe_house_want(voldazpe_house_t *house, voldazpe_house_application_t id, uint32_t level,
                                          uint32_t cores) {
    uint8_t request[VOLDAZPE_LEVELS] = {0};
    if (level >= VOLDAZPE_LEVELS) return house ? VOLDAZPE_HOUSE_NO_LEVEL : VOLDAZPE_NULL;
    request[level] = (uint8_t)(cores < 255 ? cores : 255);
    return voldazpe_house_want_at_levels(house, id, request);
}

voldazpe_house_code_t voldazpe_house_cap(voldazpe_house_t *house, voldazpe_house_application_t id, uint32_t cores) {
    voldazpe_reply_t reply;
    application_t *application;
    registration_t *aside;
    voldazpe_house_code_t code = begin_with_a_tick(house, id, &application, &aside);
    if (code != VOLDAZPE_OK) return code;
    if (application->cap != cores) {
        voldazpe_house_freshen(house);
        code = voldazpe_house_order(house, client_of(id), voldazpe_cap(cores), &reply); /* which refuses above 128 */
        _Static_assert(VOLDAZPE_LAST_REFUSAL == 7, "a house's cap is refused for its size alone");
        if (code == VOLDAZPE_OK && reply.kind == VOLDAZPE_REFUSED) code = VOLDAZPE_ENTRY_TOO_LARGE;
        if (code == VOLDAZPE_OK) application->cap = (uint8_t)cores;
        if (code == VOLDAZPE_OK) code = voldazpe_house_note_due(house);
    }
    end_with_a_tick(house, aside);
    return code;
}

voldazpe_house_code_t voldazpe_house_end_wait(voldazpe_house_t *house, voldazpe_house_application_t id, uint32_t thread) {
    application_t *application;
    voldazpe_house_code_t code = begin_for(house, id, &application);
    if (code != VOLDAZPE_OK) return code;
    for (uint32_t number = 0; number < VOLDAZPE_THREADS; number++) {
        registration_t *one = house->threads[client_of(id) + number];
        if (one && (number == thread || thread == VOLDAZPE_HOUSE_ALL)) voldazpe_house_end(house, one);
    }
    end_for(house);
    return code;
}

/* ---- threads ---- */

/* Where the calling thread may run. A thread that a registered thread started is pinned to that one's core or to the
 * unmanaged cores: it may run wherever the house's opener might. */
static void read_mask(const voldazpe_house_t *house, cpu_set_t *mask) {
    if (house->options.unpinned) return;
    if (sched_getaffinity(0, sizeof *mask, mask) != 0) *mask = house->all;
    if (voldazpe_house_pins_so(mask)) *mask = house->all;
}

/* Whether the calling thread may register: not twice, and not if two houses would pin it. A closed house counts too,
 * since it may still be setting the thread's mask back. */
static bool may_register(const voldazpe_house_t *house) {
    for (const registration_t *one = registrations(); one; one = one->next) {
        if (VOLDAZPE_LOAD(&one->handle.word) == WORD_FORKED) continue;
        if (one->house == house || !(one->house->options.unpinned || house->options.unpinned)) return false;
    }
    return true;
}

static registration_t *new_registration(voldazpe_house_t *house, voldazpe_house_application_t id) {
    const size_t line = 64; /* the word is polled: it shares its line with nothing that others write often */
    registration_t *me = aligned_alloc(line, (sizeof *me + line - 1) / line * line);
    if (!me) return NULL;
    memset(me, 0, sizeof *me);
    me->handle.word = WORD_NONE;
    me->house = house;
    me->application = id;
    me->self = pthread_self();
    me->id = (pid_t)syscall(SYS_gettid);
    me->seat = -1;
    me->next = registrations();
    read_mask(house, &me->before);
    return me;
}

/* Gives the thread a seat. Under the lock. */
static voldazpe_house_code_t take_seat(voldazpe_house_t *house, registration_t *me) {
    uint32_t first = client_of(me->application), seat = first;
    if (!voldazpe_house_find(house, me->application)) return VOLDAZPE_HOUSE_WITHDRAWN;
    while (seat < first + VOLDAZPE_THREADS && house->threads[seat]) seat++;
    if (seat == first + VOLDAZPE_THREADS) return VOLDAZPE_HOUSE_ALL_TAKEN;
    house->threads[seat] = me;
    me->seat = (int32_t)seat;
    me->handle.number = seat - first;
    return VOLDAZPE_OK;
}

/* Registers the calling thread, which is counted in. */
static voldazpe_house_code_t sit_down(voldazpe_house_t *house, registration_t *me) {
    if (pthread_setspecific(key, me) != 0) return VOLDAZPE_OUT_OF_MEMORY;
    voldazpe_house_run_on(house, 0, &house->unmanaged);
    voldazpe_house_code_t code = voldazpe_house_begin(house);
    if (code == VOLDAZPE_OK) {
        code = take_seat(house, me);
        voldazpe_house_finish(house);
    }
    if (code == VOLDAZPE_OK) {
        atomic_fetch_add(&house->owed, 1);
    } else {
        voldazpe_house_run_on(house, 0, &me->before);
        (void)pthread_setspecific(key, me->next);
    }
    return code;
}

voldazpe_house_code_t voldazpe_house_register(voldazpe_house_t *house, voldazpe_house_application_t application,
                                              voldazpe_house_thread_t **thread) {
    if (!house || !thread) return VOLDAZPE_NULL;
    if (voldazpe_house_in_hook) return VOLDAZPE_HOUSE_IN_HOOK; /* a hook could neither wait nor leave */
    voldazpe_house_code_t code = voldazpe_house_enter(house);
    if (code != VOLDAZPE_OK) return code;
    if (!may_register(house)) code = VOLDAZPE_HOUSE_REGISTERED;
    registration_t *me = code == VOLDAZPE_OK ? new_registration(house, application) : NULL;
    if (code == VOLDAZPE_OK) code = me ? sit_down(house, me) : (uint32_t)VOLDAZPE_OUT_OF_MEMORY;
    if (code == VOLDAZPE_OK) *thread = &me->handle;
    else free(me);
    voldazpe_house_exit(house);
    return code;
}

voldazpe_house_thread_t *voldazpe_house_mine(const voldazpe_house_t *house) {
    registration_t *me = voldazpe_house_begin_process() ? registrations() : NULL;
    while (me && me->house != house) me = me->next;
    return me ? &me->handle : NULL;
}

/* Gives back what the calling thread has, and frees its registration. Returns the order's code. */
static voldazpe_house_code_t leave(registration_t *me) {
    voldazpe_house_t *house = me->house;
    voldazpe_reply_t reply;
    voldazpe_house_code_t code = VOLDAZPE_OK;
    voldazpe_house_run_on(house, 0, &me->before); /* before another thread has the core */
    if (voldazpe_house_begin(house) == VOLDAZPE_OK) { /* if the house is closed, the close ended the registration */
        if (me->seat >= 0) {
            uint32_t seat = (uint32_t)me->seat, place = house->place[seat];
            voldazpe_house_detach(house, me, WORD_NONE); /* unpins again: the thread may have got a core meanwhile */
            _Static_assert(VOLDAZPE_PLACE_KINDS == 4, "who is elsewhere has nothing to give back");
            if (place >= 4 || place == VOLDAZPE_WAITING) {
                code = voldazpe_house_order(house, seat, voldazpe_retire(), &reply);
            }
        }
        voldazpe_house_finish(house);
    }
    voldazpe_house_release(house);
    free(me);
    return code;
}

voldazpe_house_code_t voldazpe_house_leave(voldazpe_house_thread_t *thread) {
    registration_t *me = (registration_t *)(void *)thread;
    if (!thread) return VOLDAZPE_NULL;
    if (!pthread_equal(me->self, pthread_self())) return VOLDAZPE_HOUSE_NOT_YOURS;
    if (VOLDAZPE_LOAD(&thread->word) == WORD_FORKED) return VOLDAZPE_HOUSE_FORKED;
    if (voldazpe_house_in_hook) return VOLDAZPE_HOUSE_IN_HOOK;
    if (registrations() == me) (void)pthread_setspecific(key, me->next);
    for (registration_t *one = registrations(); one; one = one->next) {
        if (one->next == me) one->next = me->next;
    }
    return leave(me);
}
