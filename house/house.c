/* Opening and closing a house. */
#include "house.h"

#include <errno.h>
#include <signal.h>
#include <stdio.h>

enum {
    OWN_TEXT = 32768,  /* bytes of the text of this process's processors */
    OWN_STACK = 1 << 20 /* of the house's own thread: opening an arbiter takes up to 160 KB */
};

/* ---- opening ---- */

/* Keeps a text, with the options' grace written before it. */
static bool keep_text(voldazpe_house_t *house, const char *text, size_t length) {
    char before[40];
    int used = 0;
    unsigned long long grace = house->options.grace;
    if (grace) used = snprintf(before, sizeof before, "grace = %llu\n", grace);
    house->length = (size_t)used + length;
    house->text = malloc(house->length + 1);
    if (!house->text) return false;
    memcpy(house->text, before, (size_t)used);
    memcpy(house->text + used, text, length);
    house->text[house->length] = 0;
    return true;
}

/* Keeps the machine's text, and the processors that the calling thread may use. */
static voldazpe_house_code_t read_machine(voldazpe_house_t *house, const char *text, size_t length) {
    static const char root[] = "/sys/devices/system/cpu";
    unsigned char processors[VOLDAZPE_TEXT / 64] = {0};
    char *own = NULL;
    bool told = voldazpe_house_processors(processors, sizeof processors);
    if (!told && !text) return VOLDAZPE_HOUSE_NO_PROCESSORS;
    for (size_t number = 0; number < CPU_SETSIZE; number++) {
        if (processors[number / 8] >> (number % 8) & 1) CPU_SET(number, &house->all);
    }
    if (!text) {
        own = malloc(OWN_TEXT);
        if (!own) return VOLDAZPE_OUT_OF_MEMORY;
        length = voldazpe_house_describe(root, processors, sizeof processors,
                                         house->options.unmanaged ? house->options.unmanaged : 1, own, OWN_TEXT);
    }
    bool kept = length <= VOLDAZPE_TEXT && keep_text(house, own ? own : text, length);
    free(own);
    if (length > VOLDAZPE_TEXT) return VOLDAZPE_TOO_LONG;
    if (!text && length == 0) return VOLDAZPE_HOUSE_NO_PROCESSORS;
    return kept ? VOLDAZPE_OK : VOLDAZPE_OUT_OF_MEMORY;
}

/* Creates the house's own thread. If the opener's scheduling policy is SCHED_IDLE or SCHED_BATCH, the thread doesn't
 * inherit it, as far as the system allows. */
static int create(voldazpe_house_t *house, pthread_attr_t *attributes) {
    int policy = sched_getscheduler(0);
    if (policy == SCHED_IDLE || policy == SCHED_BATCH) {
        (void)pthread_attr_setinheritsched(attributes, PTHREAD_EXPLICIT_SCHED);
        if (pthread_create(&house->own, attributes, voldazpe_house_live, house) == 0) return 0;
        (void)pthread_attr_setinheritsched(attributes, PTHREAD_INHERIT_SCHED);
    }
    return pthread_create(&house->own, attributes, voldazpe_house_live, house);
}

/* Starts the house's own thread, which takes no signals, and waits until it has opened the arbiter. */
static voldazpe_house_code_t start(voldazpe_house_t *house) {
    pthread_attr_t attributes;
    sigset_t all, before;
    if (pthread_attr_init(&attributes) != 0) return VOLDAZPE_HOUSE_NO_THREAD;
    (void)pthread_attr_setstacksize(&attributes, OWN_STACK);
    (void)sigfillset(&all);
    (void)pthread_sigmask(SIG_SETMASK, &all, &before);
    int fault = create(house, &attributes);
    (void)pthread_sigmask(SIG_SETMASK, &before, NULL);
    (void)pthread_attr_destroy(&attributes);
    if (fault != 0) return VOLDAZPE_HOUSE_NO_THREAD;
    while (!VOLDAZPE_LOAD(&house->opened)) (void)voldazpe_house_sleep(&house->opened, 0, -1);
    voldazpe_house_code_t code = VOLDAZPE_OK;
    voldazpe_house_lock(house);
    code = house->fault;
    voldazpe_house_unlock(house);
    if (code != VOLDAZPE_OK) (void)pthread_join(house->own, NULL);
    return code;
}

/* Frees what no thread with a handle looks at. False if the journal's folder is incomplete. */
static bool empty(voldazpe_house_t *house) {
    bool complete = voldazpe_house_journal_close(house);
    (void)voldazpe_lib_member_end(&house->member); /* in no turn, or closed, if the opening failed */
    (void)voldazpe_lib_member_close(&house->member);
    for (int i = 0; i < VOLDAZPE_APPLICATIONS; i++) {
        free(house->applications[i].name);
        voldazpe_house_drop_listener(house->applications[i].listener);
    }
    free(house->text);
    return complete;
}

/* Opens a house of its own. Under the lock of the process's houses. */
static voldazpe_house_code_t open_house(const char *text, size_t length, const voldazpe_house_options_t *options,
                                        voldazpe_house_t **opened) {
    voldazpe_house_t *house = aligned_alloc(LINE, sizeof *house);
    if (!house) return VOLDAZPE_OUT_OF_MEMORY;
    memset(house, 0, sizeof *house);
    house->options = *options;
    house->owed = house->opens = 1;
    house->self = -1;
    house->shared = !text && !options->own;
    house->forks = VOLDAZPE_LOAD(&voldazpe_house_forks);
    (void)pthread_mutex_init(&house->lock, NULL);
    voldazpe_house_code_t code = read_machine(house, text, length);
    if (code == VOLDAZPE_OK) code = start(house);
    if ((code == VOLDAZPE_CORE_TWICE || code == VOLDAZPE_HOUSE_CORE_TAKEN) && options->named) {
        *options->named = house->named;
    }
    if (code == VOLDAZPE_OK) {
        voldazpe_house_list_add(house);
        *opened = house;
    } else {
        (void)empty(house);
        voldazpe_house_release(house);
    }
    return code;
}

voldazpe_house_code_t voldazpe_house_open_version(uint32_t version, const char *text, size_t length,
                                                  const voldazpe_house_options_t *options, voldazpe_house_t **house) {
    static const voldazpe_house_options_t usual;
    int cancels, kept = errno;
    voldazpe_house_t *shared = NULL;
    voldazpe_house_code_t code = VOLDAZPE_OK;
    if (version != VOLDAZPE_HOUSE_VERSION) return VOLDAZPE_HOUSE_OTHER_VERSION;
    if (!house || (!text && length > 0)) return VOLDAZPE_NULL;
    if (!options) options = &usual;
    (void)pthread_setcancelstate(PTHREAD_CANCEL_DISABLE, &cancels);
    if (!voldazpe_house_begin_process()) code = VOLDAZPE_OUT_OF_MEMORY;
    voldazpe_house_list_lock(); /* two that open at once get one house */
    if (code == VOLDAZPE_OK && !text && !options->own) code = voldazpe_house_share(options, &shared);
    if (code == VOLDAZPE_OK && !shared) code = open_house(text, length, options, &shared);
    voldazpe_house_list_unlock();
    if (code == VOLDAZPE_OK) *house = shared;
    (void)pthread_setcancelstate(cancels, NULL);
    errno = kept;
    return code;
}

void voldazpe_house_hold(voldazpe_house_t *house) {
    if (house) atomic_fetch_add(&house->owed, 1);
}

void voldazpe_house_let_go(voldazpe_house_t *house) {
    if (house) voldazpe_house_release(house);
}

/* ---- closing ---- */

/* Counts a close. True if it is the last one, with both locks held. Otherwise another opener has the house, or it is
 * closed already. */
static bool is_last(voldazpe_house_t *house, voldazpe_house_code_t *code) {
    voldazpe_house_list_lock();
    voldazpe_house_lock(house);
    *code = house->closed ? (uint32_t)VOLDAZPE_HOUSE_CLOSED : (uint32_t)VOLDAZPE_OK;
    if (!house->closed && --house->opens == 0) return true;
    voldazpe_house_unlock(house);
    voldazpe_house_list_unlock();
    return false;
}

/* Ends all registrations, and the calls that wait for room. Then another house may have the house's cores. Lets go of
 * both locks. */
static void end_all(voldazpe_house_t *house) {
    house->closed = true;
    atomic_fetch_or(&house->inside, CLOSING);
    for (uint32_t seat = 0; seat < VOLDAZPE_ALL_THREADS; seat++) {
        if (house->threads[seat]) voldazpe_house_detach(house, house->threads[seat], WORD_CLOSED);
    }
    atomic_fetch_add(&house->emptied, 1);
    voldazpe_house_wake(&house->emptied);
    voldazpe_house_list_remove(house);
    voldazpe_house_list_unlock();
    voldazpe_house_finish(house);
}

voldazpe_house_code_t voldazpe_house_close(voldazpe_house_t *house) {
    int cancels;
    if (house && voldazpe_house_in_hook) return VOLDAZPE_HOUSE_IN_HOOK;
    voldazpe_house_code_t code = voldazpe_house_enter(house);
    if (code != VOLDAZPE_OK) return code;
    (void)pthread_setcancelstate(PTHREAD_CANCEL_DISABLE, &cancels);
    bool last = is_last(house, &code);
    if (last) {
        end_all(house);
        (void)pthread_join(house->own, NULL);
    }
    voldazpe_house_exit(house);
    if (last) {
        for (uint32_t inside; (inside = VOLDAZPE_LOAD(&house->inside)) != CLOSING;) {
            (void)voldazpe_house_sleep(&house->inside, inside, -1);
        }
        if (!empty(house)) code = VOLDAZPE_HOUSE_JOURNAL;
        if (house->options.done) house->options.done(house->options.hook_context);
        voldazpe_house_release(house);
    }
    (void)pthread_setcancelstate(cancels, NULL);
    return code;
}
