/* What a house is, for its own files. Names that several files share begin with voldazpe_house_ and stay hidden.
 *
 * One lock guards all of a house, except what is atomic and what only one thread has. It guards the arbiter, which
 * thread has which seat, and each store to a thread's word. A thread reads its own word without the lock.
 *
 * The house is its arbiter's only member, in one turn from the opening to the close. So the arbiter is never found
 * taken, and the library's own lock is taken once.
 *
 * Pinning. A thread that runs without a core is on unmanaged ones; a thread that sleeps in a wait runs nowhere,
 * whatever its mask. So a thread that waits doesn't leave its old core before it sleeps: that would take milliseconds
 * when the unmanaged cores are busy, and no other thread could have its core meanwhile.
 *   - A waiting thread is pinned by the thread whose order gives it a core, under the lock, before it wakes.
 *   - A thread that gets another core by its own order pins itself afterwards, without the lock. Then it looks at its
 *     word again. If the word no longer names that core, the house unpinned the thread meanwhile, and it undoes its own
 *     pinning.
 *   - A thread that gives its core back and goes on without one unpins itself before the order.
 *   - A thread that no longer waits, and has no core, unpins itself.
 *   - A thread that is moved, withdrawn or ended is unpinned by the house under the lock, before the core is another
 *     thread's. Its word says so before that: the later one of thread and house then sees it, and unpins.
 *
 * Sleepers are woken once the lock is free: a sleeper that wakes on the processor of the lock's holder would keep the
 * lock held. */
#ifndef HOUSE_H
#define HOUSE_H
#ifndef _GNU_SOURCE
#define _GNU_SOURCE
#endif
#include "voldazpe_house.h"

#include <pthread.h>
#include <sched.h>
#include <stdlib.h>
#include <string.h>
#include <time.h>
#include <unistd.h>

#pragma GCC visibility push(hidden)

enum {
    HOLD = 4,                      /* the most orders that a call gives in one hold of the lock */
    MOST_EVENTS = 2 * (VOLDAZPE_CORES + VOLDAZPE_APPLICATIONS) + 2, /* in one hold of the lock */
    MOST_WAKES = 32,               /* wakes that are noted until the lock is free */
    LINE = 64,                     /* bytes of a line of the processor's cache */
    FRESH = 16                     /* a tick comes before an ask if the last is older than this part of the grace */
};

/* A thread's word: the number of a core that it may keep, INT32_MIN plus the number of a core that is asked back, or
 * one of these. */
enum {
    WORD_NONE = -1,
    WORD_WAITS = -2,
    WORD_CLOSED = -3,
    WORD_WITHDRAWN = -4,
    WORD_FORKED = -5,
    WORD_ENDS = -6 /* for the arbiter it waits, but that wait is to end */
};

static inline bool word_is_asked(int32_t word) { return word < -65536; }
static inline bool word_has_core(int32_t word) { return word >= 0 || word_is_asked(word); }
static inline int32_t word_core(int32_t word) { return word >= 0 ? word : word_is_asked(word) ? word - INT32_MIN : -1; }

/* A thread's registration. Its handle is the first field. */
typedef struct registration {
    voldazpe_house_thread_t handle;
    VOLDAZPE_ATOMIC(uint32_t) sleeps; /* whether the thread sleeps on its word, or is about to */
    voldazpe_house_t *house;          /* lives as long as this registration */
    voldazpe_house_application_t application;
    pthread_t self;
    pid_t id;                         /* the operating system's number of the thread */
    VOLDAZPE_ATOMIC(uint32_t) ends;   /* whether its wait, or its next one if it is in none, is to end */
    int32_t seat;                     /* its number in the arbiter; -1 once it was withdrawn or ended. Under the lock */
    cpu_set_t before;                 /* where it might run before it registered */
    struct registration *next;        /* of the same thread, in another house */
} registration_t;

/* A function that is told of an application's events, besides the hook of the options. The last thread that may call it
 * frees it. */
typedef struct listener {
    voldazpe_house_hook_t hook;
    void *context;
    void (*done)(void *context);
    VOLDAZPE_ATOMIC(uint32_t) uses; /* one for the application, and one for each event that is to be told */
} listener_t;

typedef struct application {
    voldazpe_house_application_t id; /* 0: the number is free */
    char *name;
    listener_t *listener;            /* or null */
    uint8_t request[VOLDAZPE_LEVELS];
    uint8_t cap;
} application_t;

typedef struct journal journal_t;

/* Whether the house's own thread sleeps, and with a limit or without. */
typedef enum { AWAKE, RESTS_SHORTLY, RESTS } rest_t;

struct voldazpe_house {
    /* what threads write without the lock, each on a line of its own */
    _Alignas(LINE) pthread_mutex_t lock;
    _Alignas(LINE) VOLDAZPE_ATOMIC(uint32_t) inside; /* calls with its pointer, and hooks, that go on; and CLOSING */

    /* what each order touches, side by side: one line */
    _Alignas(LINE) voldazpe_member_handle_t member; /* the arbiter's only one */
    int32_t self;                     /* the seat of the thread that gives the orders, if they are its own */
    uint32_t asked;                   /* cores that are asked back */
    uint64_t clock;                   /* the moment of the last tick */
    uint64_t latest, shift;           /* the latest moment; how far the system's clock fell behind */
    uint16_t event_count, wake_count; /* of this hold of the lock */
    rest_t rest;
    bool closed;
    bool wanted;                      /* a thread sleeps on `emptied` */
    bool refused_told;                /* the hook was told of a refused pinning */

    /* the machine; only the first of these changes */
    _Alignas(LINE) VOLDAZPE_ATOMIC(int) refused; /* the errno of the first pinning that was refused, or 0 */
    journal_t *journal;               /* or null */
    voldazpe_house_options_t options;
    uint32_t forks;                   /* forks in this process's ancestry when the house was opened */
    char *text;
    size_t length;
    uint16_t named;                   /* the core that is listed twice or taken, if the opening says so */
    voldazpe_machine_t machine;
    voldazpe_core_t cores[VOLDAZPE_CORES];
    cpu_set_t all, unmanaged;

    /* what the arbiter has posted */
    _Alignas(LINE) uint16_t place[VOLDAZPE_ALL_THREADS]; /* place words */
    int16_t owner[VOLDAZPE_CORES];        /* by position: a seat, or -1 */
    uint64_t since[VOLDAZPE_CORES];       /* by position: if the core is asked back, the clock's moment when it was */
    uint64_t moved;

    /* applications and threads */
    application_t applications[VOLDAZPE_APPLICATIONS];
    uint8_t due[VOLDAZPE_APPLICATIONS];   /* cores due, as the hook was told */
    uint64_t joined;                      /* how many applications ever joined */
    registration_t *threads[VOLDAZPE_ALL_THREADS]; /* by seat */
    VOLDAZPE_ATOMIC(uint32_t) listeners;  /* how many applications have one. Changed under the lock */
    VOLDAZPE_ATOMIC(uint32_t) owed;       /* how many may still look at this memory: opener, registrations, holders */

    /* among the houses of this process: under the lock of their list */
    struct voldazpe_house *next;
    uint32_t opens;                       /* how many openers haven't closed it */
    bool shared;                          /* whether openers of the process's own processors share it */

    /* the house's own thread */
    pthread_t own;
    VOLDAZPE_ATOMIC(uint32_t) opened;     /* 1 once it has opened the arbiter, or failed */
    voldazpe_house_code_t fault;          /* of the opening */
    VOLDAZPE_ATOMIC(uint32_t) bell;       /* what it sleeps on */
    VOLDAZPE_ATOMIC(uint32_t) emptied;    /* how often the journal was emptied: calls without room sleep on it */

    voldazpe_house_event_t events[MOST_EVENTS]; /* of this hold of the lock, for the hook */
    listener_t *told[MOST_EVENTS];              /* for each event: the listener that is told too, or null */
    void *wakes[MOST_WAKES];                    /* words of sleepers that are to be woken after this hold */
};

_Static_assert(offsetof(struct voldazpe_house, refused) - offsetof(struct voldazpe_house, member) == LINE, "one line");

#define CLOSING 0x80000000u

/* ---- calls.c: how calls begin and end ---- */

/* how many forks there are in this process's ancestry, as far up as a process had a house */
extern VOLDAZPE_ATOMIC(uint32_t) voldazpe_house_forks;
extern _Thread_local bool voldazpe_house_in_hook;

/* Sleeps while a word has a value, for `nanoseconds` at most, or without a limit if that is below 0. False at the
 * limit. */
bool voldazpe_house_sleep(VOLDAZPE_ATOMIC(uint32_t) *word, uint32_t value, int64_t nanoseconds);
void voldazpe_house_wake(void *word);

/* Counts in a call that has the house's pointer: VOLDAZPE_OK, or NULL, FORKED or CLOSED. The second function counts it
 * out. */
voldazpe_house_code_t voldazpe_house_enter(voldazpe_house_t *house);
void voldazpe_house_exit(voldazpe_house_t *house);

/* Takes the lock. If it is taken, tries again for a while before it sleeps. */
void voldazpe_house_lock(voldazpe_house_t *house);
static inline void voldazpe_house_unlock(voldazpe_house_t *house) { (void)pthread_mutex_unlock(&house->lock); }

/* Takes the lock, with room in the journal for as many orders as a call gives. Returns VOLDAZPE_OK, or CLOSED without
 * the lock. */
voldazpe_house_code_t voldazpe_house_begin(voldazpe_house_t *house);

/* Lets go of the lock. Wakes the house's own thread if that has work, and tells the hook of events. */
void voldazpe_house_finish(voldazpe_house_t *house);

/* Notes that the sleepers on a word are to be woken. Only the word's address is used: the word may be freed by then. */
void voldazpe_house_wake_later(voldazpe_house_t *house, void *word);

/* Notes an event for the end of this hold. The second function notes an event of a thread, or of none. */
void voldazpe_house_note_event(voldazpe_house_t *house, voldazpe_house_event_t event);
void voldazpe_house_note(voldazpe_house_t *house, const registration_t *thread, uint32_t kind, int32_t core,
                         bool moved);

/* Whether there is a hook or a listener to tell of events. */
static inline bool voldazpe_house_has_hook(const voldazpe_house_t *house) {
    return house->options.hook || VOLDAZPE_LOAD(&house->listeners) > 0;
}

/* The listener of an application, with one more use, or null. Without the lock. */
listener_t *voldazpe_house_listener(voldazpe_house_t *house, voldazpe_house_application_t id);
/* Takes one use from a listener. Null does nothing. */
void voldazpe_house_drop_listener(listener_t *listener);

/* Calls the hook, and a listener if there is one, and takes a use from that. Without the lock, by a call that is
 * counted in. */
void voldazpe_house_tell(voldazpe_house_t *house, const voldazpe_house_event_t *event, listener_t *listener);

/* The application with an id, or null. Under the lock. */
application_t *voldazpe_house_find(voldazpe_house_t *house, voldazpe_house_application_t id);

/* Lets go of the house's memory. */
void voldazpe_house_release(voldazpe_house_t *house);

/* ---- seats.c ---- */

/* Prepares this process for houses. False if there is no memory for that. */
bool voldazpe_house_begin_process(void);

/* ---- process.c: the houses of this process ---- */

/* The lock of their list. A thread that takes a house's lock too takes this one first. */
void voldazpe_house_list_lock(void);
void voldazpe_house_list_unlock(void);
/* Empties the list in the child of a fork: the parent's houses aren't the child's. */
void voldazpe_house_list_forked(void);

/* Opens the house of this process's own processors once more: VOLDAZPE_OK with *house, which is null if there is no
 * such house; or OTHER_OPTIONS. Under the list's lock. */
voldazpe_house_code_t voldazpe_house_share(const voldazpe_house_options_t *options, voldazpe_house_t **house);

/* Whether another house of this process pins threads to one of the managed cores; *core is the first of these. While
 * the opener has the list's lock. */
bool voldazpe_house_overlaps(const voldazpe_house_t *house, uint16_t *core);
/* Whether a house of this process lets threads run on just these processors: its unmanaged cores, or one that it
 * manages. */
bool voldazpe_house_pins_so(const cpu_set_t *mask);
/* Puts a house into the list, and takes it out. Under the list's lock. */
void voldazpe_house_list_add(voldazpe_house_t *house);
void voldazpe_house_list_remove(voldazpe_house_t *house);

/* ---- orders.c: orders, and what follows of their posts. Under the lock ---- */

/* Gives an order in the member's turn. By the arbiter's promises each order of a house is answered VOLDAZPE_OK. If
 * another code comes, the call that gave the order answers it. */
voldazpe_code_t voldazpe_house_order(voldazpe_house_t *house, uint32_t client, voldazpe_order_t order,
                                     voldazpe_reply_t *reply);
/* Reads, in the member's turn, what the application with a number has: VOLDAZPE_OK, by the arbiter's promises. */
voldazpe_code_t voldazpe_house_read_counts(voldazpe_house_t *house, uint32_t number, voldazpe_counts_t *counts);
/* If a hook or a listener is told, notes each application whose due number of cores is another than it was told.
 * Returns as the reading does. Under the lock. */
voldazpe_code_t voldazpe_house_note_due(voldazpe_house_t *house);
/* Ends the thread's wait, or its next one if it is in none. */
void voldazpe_house_end(voldazpe_house_t *house, registration_t *thread);
/* Ends a registration, except for its memory: the thread may run where it might before, its word says why, and it
 * wakes. */
void voldazpe_house_detach(voldazpe_house_t *house, registration_t *thread, int32_t word);
/* Lets a thread, 0 for the calling one, run on some processors, or on one core; with or without the lock. */
void voldazpe_house_run_on(voldazpe_house_t *house, pid_t id, const cpu_set_t *processors);
void voldazpe_house_run_on_core(voldazpe_house_t *house, pid_t id, int32_t core);

/* ---- wait.c ---- */

/* Lets the calling thread run on unmanaged cores, since it is to be moved; the second function lets it run on its core
 * again, if it wasn't moved. Without the lock. */
void voldazpe_house_step_aside(registration_t *me);
void voldazpe_house_step_back(registration_t *me);

/* ---- clock.c: the clock, and the house's own thread ---- */

void *voldazpe_house_live(void *house);
/* Gives a tick. Under the lock. */
void voldazpe_house_tick(voldazpe_house_t *house);
/* Gives a tick if the last is too old for a core to be asked back now. Under the lock. */
void voldazpe_house_freshen(voldazpe_house_t *house);
/* Whether a tick would move the thread of a seat, because it stayed for the grace. Under the lock. */
bool voldazpe_house_is_overdue(voldazpe_house_t *house, int32_t seat);

/* ---- machine.c ---- */

/* Writes the text of the machine that these processors are, as the files below `root` describe it. Returns its length,
 * or 0 if it doesn't fit or there is no processor. */
size_t voldazpe_house_describe(const char *root, const unsigned char *processors, size_t bytes, uint32_t unmanaged,
                               char *text, size_t size);
/* The processors that the calling thread may use, by their numbers, one bit each. False if the system doesn't tell. */
bool voldazpe_house_processors(unsigned char *processors, size_t bytes);

/* ---- journal.c ---- */

voldazpe_house_code_t voldazpe_house_journal_open(voldazpe_house_t *house);
/* Ends the journal. False if its folder is incomplete. */
bool voldazpe_house_journal_close(voldazpe_house_t *house);
/* Whether its buffer takes as many orders as a call gives; true if there is no journal. Under the lock. */
bool voldazpe_house_journal_has_room(const voldazpe_house_t *house);
bool voldazpe_house_journal_is_half_full(const voldazpe_house_t *house);
/* Notes an order. Under the lock. */
void voldazpe_house_journal_order(voldazpe_house_t *house, uint32_t client, const voldazpe_order_t *order,
                                  const voldazpe_reply_t *reply);
/* Empties the buffer, and writes what was noted. Only in the house's own thread, which lets go of the lock meanwhile
 * and takes it again. */
void voldazpe_house_journal_write(voldazpe_house_t *house);
/* Writes the owners, which no order changes after the close. Only in the house's own thread, without the lock. */
void voldazpe_house_journal_end(voldazpe_house_t *house);
bool voldazpe_house_journal_failed(const voldazpe_house_t *house);

#pragma GCC visibility pop
#endif
