/* A house over the core arbiter Voldazpe, for runtimes in C and C++ on Linux.
 *
 * The arbiter of voldazpe.h decides which thread is on which core. A house does the rest: it locks the arbiter, keeps
 * the clock, pins and unpins threads, and moves threads that stay too long. Each thread of your runtime waits for a
 * core, works while it may, and gives the core back:
 *
 *     voldazpe_house_t *house;
 *     voldazpe_house_application_t service;
 *
 *     if (voldazpe_house_open(NULL, 0, NULL, &house) != VOLDAZPE_OK) exit(1);   // this process's own processors
 *     if (voldazpe_house_join(house, "service", &service) != VOLDAZPE_OK) exit(1);
 *     voldazpe_house_want(house, service, 0, 2);               // two cores at level 0: from any thread, at any time
 *
 *     void *works(void *argument) {                            // each thread of the service
 *         voldazpe_house_thread_t *me;
 *         if (voldazpe_house_register(house, service, &me) != VOLDAZPE_OK) return NULL;
 *         while (voldazpe_house_wait(me, -1) == VOLDAZPE_OK) { // it has a core now, and is pinned to it
 *             while (voldazpe_house_keep(me)) run_a_task();    // one load between two tasks
 *         }                                                    // asked back: the next wait gives it back first
 *         voldazpe_house_leave(me);                            // the house was closed, or the application withdrawn
 *         return NULL;
 *     }
 *
 *     voldazpe_house_close(house);                             // each wait returns, and keep returns false
 *
 * C11 or C++17, on Linux, on a machine of 64 bits. Two archives, in this order:
 *
 *     cc -std=c11 NAME.c $(pkg-config --cflags --libs voldazpe-house)
 *
 * Words. A house has up to sixteen *applications* at a time, each with up to 32 *threads*. It hands out *managed*
 * cores. From its registration until it leaves, a thread that runs without a core runs on *unmanaged* cores. (A thread
 * that sleeps in a wait runs nowhere, whatever its mask.) A core that is due to another application is *asked back*. A
 * thread that keeps such a core for the *grace*, 10 ms by default, is *moved*: the house unpins it, and it no longer
 * has a core.
 *
 * Rules for the caller:
 *
 *   - A process has one house of its own processors. Each further open returns that house, and needs a close of its
 *     own. Two houses of a process never pin threads to the same core.
 *   - Any thread may make any call that takes the house's pointer. A call that takes a thread's handle is for that
 *     thread alone. The exceptions are `voldazpe_house_keep` and `voldazpe_house_core`: any thread may make these while
 *     the handle is valid.
 *   - Make no call from a signal handler, except `voldazpe_house_keep` and `voldazpe_house_core`.
 *   - `voldazpe_house_wait` is a cancellation point; no other call is. Asynchronous cancellation must be off.
 *   - After a fork, the child's calls on what its parent opened answer VOLDAZPE_HOUSE_FORKED. The child may open a
 *     house of its own.
 *   - Threads and programs that a registered thread starts inherit its mask: its core, or the unmanaged cores. Such a
 *     thread may run anywhere again once it has registered and left. Unpin any other yourself.
 *   - Don't unload (`dlclose`) what was linked with the house while one of its threads lives.
 *   - `voldazpe_house_open` and `voldazpe_house_wait` don't change errno. No call changes it because the operating
 *     system refuses a pinning.
 *   - No call needs more than 16 KB of stack. The house's own thread, `voldazpe-house`, opens the arbiter on a stack of
 *     its own.
 *   - A house takes orders without limit. Once it is open, only `voldazpe_house_join`, `voldazpe_house_watch` and
 *     `voldazpe_house_register` allocate memory. */
#ifndef VOLDAZPE_HOUSE_H
#define VOLDAZPE_HOUSE_H

#include "voldazpe.h"

#ifndef VOLDAZPE_MUST_USE
#define VOLDAZPE_MUST_USE
#endif

#ifdef __cplusplus
extern "C++" {
#include <memory>
#include <string_view>
}
extern "C" {
#endif

/* ---- codes ---- */

/* What a call answers: VOLDAZPE_OK, another voldazpe_code_t, or one of these. A call that answers a code other than
 * VOLDAZPE_OK did nothing and wrote no output, unless its comment says otherwise. */
typedef uint32_t voldazpe_house_code_t;

enum {
    VOLDAZPE_HOUSE_CLOSED = 41,       /* the house was closed */
    VOLDAZPE_HOUSE_WITHDRAWN = 42,    /* the application was withdrawn, or never joined */
    VOLDAZPE_HOUSE_FORKED = 43,       /* this process is a forked child, and its parent opened the house */
    VOLDAZPE_HOUSE_ALL_TAKEN = 44,    /* sixteen applications have joined, or the application has 32 threads */
    VOLDAZPE_HOUSE_REGISTERED = 45,   /* the thread is registered here already, or in another house that pins it too */
    VOLDAZPE_HOUSE_NOT_YOURS = 46,    /* the handle is another thread's */
    VOLDAZPE_HOUSE_LIMITED = 47,      /* the machine's text states `orders`, and a house takes orders without limit */
    VOLDAZPE_HOUSE_UNPINNED = 48,     /* the operating system refused to pin or to unpin a thread */
    VOLDAZPE_HOUSE_NO_THREAD = 49,    /* the house's own thread couldn't be started */
    VOLDAZPE_HOUSE_NO_PROCESSORS = 50,/* the operating system doesn't tell which processors this process may use */
    VOLDAZPE_HOUSE_IN_HOOK = 51,      /* the call came from a hook or a journal's function, which may not make it */
    VOLDAZPE_HOUSE_JOURNAL = 52,      /* a file of the journal can't be written, or the folder is incomplete */
    VOLDAZPE_HOUSE_JOURNAL_THERE = 53,/* the folder has a journal already, or a file with a name that this one needs */
    VOLDAZPE_HOUSE_NO_LEVEL = 54,     /* levels go from 0 to 7 */
    VOLDAZPE_HOUSE_WAIT_ENDED = 55,   /* `voldazpe_house_end_wait` ended the wait */
    VOLDAZPE_HOUSE_CORE_TAKEN = 56,   /* another house of this process manages one of the cores */
    VOLDAZPE_HOUSE_OTHER_OPTIONS = 57,/* this process's house is open already, with other options */
    VOLDAZPE_HOUSE_OTHER_VERSION = 58 /* the program was compiled with a header whose version isn't the archive's */
};

/* The version of this header. It changes whenever a struct or a code changes. */
#define VOLDAZPE_HOUSE_VERSION 2u

/* Given in place of a thread's number, it stands for all threads of the application. */
#define VOLDAZPE_HOUSE_ALL UINT32_MAX

/* A line of text that explains a code of this header or of voldazpe.h. It is never null, and stays valid. */
const char *voldazpe_house_code_text(voldazpe_house_code_t code);

/* ---- a house ---- */

typedef struct voldazpe_house voldazpe_house_t;

/* An application of a house: a number that no other application of that house ever had, and never 0. Modulo
 * VOLDAZPE_APPLICATIONS it is the application's number in the arbiter, which a later application may get again. */
typedef uint64_t voldazpe_house_application_t;

/* A thread's registration, which only that thread hands to calls. It is valid until `voldazpe_house_leave`, or until
 * the thread ends, even after the house was closed. Its word says where the thread is; read it by the calls below. */
typedef struct voldazpe_house_thread {
    VOLDAZPE_ATOMIC(int32_t) word;
    uint32_t number; /* of the thread in its application, 0 to 31 */
} voldazpe_house_thread_t;

/* What happened to a thread, for the hook. */
typedef enum voldazpe_house_event_kind {
    VOLDAZPE_HOUSE_GOT = 1,     /* it has a core, and is pinned to it */
    VOLDAZPE_HOUSE_ASKED = 2,   /* its core is asked back */
    VOLDAZPE_HOUSE_LOST = 3,    /* it no longer has the core: it gave it back, was moved, left or was ended */
    VOLDAZPE_HOUSE_REFUSED = 4, /* a thread couldn't be pinned or unpinned, for the first time; no other field is set */
    VOLDAZPE_HOUSE_DUE = 5      /* the number of cores due to the application has changed; no thread is named */
} voldazpe_house_event_kind_t;

typedef struct voldazpe_house_event {
    voldazpe_house_application_t application;
    uint32_t kind;   /* a voldazpe_house_event_kind_t */
    uint32_t thread; /* the number of the thread in its application */
    uint16_t core;   /* the number of the core */
    bool moved;      /* of LOST: the thread stayed longer than the grace, and the house moved it */
    uint8_t due;     /* of DUE: how many cores */
} voldazpe_house_event_t;

/* A function of yours that is told of events. It is called without the house's lock. Each event has its thread:
 *   - GOT, and LOST for a core given back: in the thread itself, within `voldazpe_house_wait`,
 *     `voldazpe_house_give_back` or `voldazpe_house_leave`.
 *   - ASKED: in the thread whose call asks the core back, before that call returns, or in the house's own thread.
 *   - LOST for a thread that was moved: in the house's own thread.
 *   - LOST for a thread that was ended: in the thread that closes or withdraws.
 *   - DUE: in the thread that wants, caps or withdraws.
 *
 * Two calls may overlap, and a call may come late. ASKED may come after the thread has given the core back. DUE may
 * come with an outdated number, after the DUE of a later order. To start or wake as many threads as are due, take a
 * lock of the hook's own and ask `voldazpe_house_counts`.
 *
 * GOT and LOST of a thread alternate, with two exceptions. If the thread is moved or ended meanwhile, LOST comes before
 * GOT, or without GOT if the wait hadn't returned. No LOST comes for a core that a thread gives back while its
 * registration ends.
 *
 * Sleepers and the house's own thread are woken before the hook is called. The hook must not take a lock that the
 * program holds around a call: it would wait for its own thread.
 *
 * The hook may make any call with the house's pointer except `voldazpe_house_close` and `voldazpe_house_register`. With
 * a handle it may make `voldazpe_house_keep` and `voldazpe_house_core`. The other calls answer IN_HOOK. The hook must
 * not throw, nor end its thread. The thread can't be cancelled meanwhile.
 *
 * A house has one hook in its options: its first opener's, which is told of all applications. If others share the
 * house, this hook is called until the last close, whoever makes it. Keep its context and its code until then: `done`
 * says when. For a hook of one application, use `voldazpe_house_watch`. */
typedef void (*voldazpe_house_hook_t)(void *context, const voldazpe_house_event_t *event);

/* The three texts of the journal. */
typedef enum voldazpe_house_text {
    VOLDAZPE_HOUSE_MACHINE = 0, /* the machine's text, as `arbiter live --config` takes it */
    VOLDAZPE_HOUSE_SCRIPT = 1,  /* the orders, as `arbiter live` reads them; at the close, a line `cores` */
    VOLDAZPE_HOUSE_REPLIES = 2  /* what `arbiter live --endless` prints for them: each order with its reply, then the
                                 * owners and a line `end` */
} voldazpe_house_text_t;

/* A function of yours that is handed the next bytes of a journal's text: the machine's at the opening, then those of
 * the other two in turns. It is called in the house's own thread, without the lock. Until it returns, no thread is
 * moved, and orders come to wait. While it is handed the machine's text, no house of this process opens or closes,
 * and no thread registers. The only call of this header that it may make is `voldazpe_house_code_text`. Like the hook,
 * it is called until the last close. */
typedef void (*voldazpe_house_journal_t)(void *context, voldazpe_house_text_t text, const char *bytes, size_t length);

/* The options of a house. Zero bytes are the defaults. */
typedef struct voldazpe_house_options {
    uint64_t grace;              /* microseconds; 0: as the text says, otherwise 10,000 */
    uint32_t unmanaged;          /* without a text: how many cores of the first socket stay unmanaged; 0: one */
    bool unpinned;               /* no thread is ever pinned or unpinned */
    bool own;                    /* without a text: a house that no other opener shares */
    voldazpe_house_hook_t hook;  /* or null */
    void *hook_context;
    const char *journal_folder;  /* a folder without a journal, or null. The house makes machine.toml there, and
                                  * 00000000.script, 00000000.replies and so on, of at most 16 MiB each */
    voldazpe_house_journal_t journal; /* or null */
    void *journal_context;
    uint16_t *named;             /* or null: gets the core, if the opening answers CORE_TWICE or CORE_TAKEN */
    void (*done)(void *context); /* or null: called once with hook_context, in the last close, after the last call of
                                  * hook and journal */
} voldazpe_house_options_t;

/* Opens a house, and starts its own thread. The text, of `length` bytes, describes the machine, as for `voldazpe_open`.
 * A `grace` in the options is written before the text; if the text has a `grace` too, it is refused as NOT_TOML. A text
 * that has `orders` is refused as LIMITED. Null options are zero bytes.
 *
 * If the text is null, the machine is the processors that the calling thread may use:
 *   - Of each core only the hardware thread with the least number is used, as by `this-machine`. No thread is pinned to
 *     another one.
 *   - Up to 128 cores on up to 8 sockets are managed.
 *   - The first core stays unmanaged, or as many cores of the first socket as the options say. At least one core is
 *     managed.
 *   - If there is no second core, hardware threads count as cores.
 *   - If there is one processor only, it is managed, and the house's own thread shares it.
 *
 * A process has one house for its own processors. If the text is null and such a house is open, *house is that one. The
 * last of its openers' closes closes it. Each option that you set must equal the house's own, otherwise the call
 * answers OTHER_OPTIONS; a journal's folder is never shared. Openers that ask for `unpinned` share another house, which
 * pins no thread. `own` asks for a separate house. If this house pins threads, and another pinning house of this
 * process manages one of its cores, the call answers CORE_TAKEN.
 *
 * A thread without a core runs on processors that the calling thread may use: on those that the text lists as
 * unmanaged. If there are none, it runs on those that aren't managed, otherwise on all.
 *
 * Returns VOLDAZPE_OK with *house, or NULL, TOO_LONG, NOT_UTF8, what is wrong with the text (NOT_TOML to
 * NO_UNMANAGED), LIMITED, OUT_OF_MEMORY, NO_THREAD, NO_PROCESSORS, JOURNAL, JOURNAL_THERE, CORE_TAKEN, OTHER_OPTIONS or
 * OTHER_VERSION. It doesn't change errno. */
VOLDAZPE_MUST_USE
static inline voldazpe_house_code_t voldazpe_house_open(const char *text, size_t length,
                                                        const voldazpe_house_options_t *options,
                                                        voldazpe_house_t **house);

/* Opens a house as `voldazpe_house_open` does, for bindings in other languages. `version` is that of the header from
 * which the binding copies these structs. */
VOLDAZPE_MUST_USE
voldazpe_house_code_t voldazpe_house_open_version(uint32_t version, const char *text, size_t length,
                                                  const voldazpe_house_options_t *options, voldazpe_house_t **house);

static inline voldazpe_house_code_t voldazpe_house_open(const char *text, size_t length,
                                                        const voldazpe_house_options_t *options,
                                                        voldazpe_house_t **house) {
    return voldazpe_house_open_version(VOLDAZPE_HOUSE_VERSION, text, length, options, house);
}

/* Closes a house, from any thread, whatever the other threads do. Each `voldazpe_house_wait` returns CLOSED,
 * `voldazpe_house_keep` returns false, and all threads may run where they might before they registered. The close
 * doesn't wait for threads that work. Once it returns, the house's own thread has ended, the journal is written, and no
 * hook is called any more. No call of the house is still running then, except the ends of calls with handles. Later
 * calls with handles answer CLOSED, except `voldazpe_house_leave`.
 *
 * A house that was opened several times takes as many closes. Each but the last only counts, and the house goes on:
 * withdraw your applications before your close. If you close twice, you take another opener's close.
 *
 * After the close, the house's pointer may be used by threads that are still registered, and while it is held.
 *
 * Returns VOLDAZPE_OK, or JOURNAL if the house is closed but a text of the journal's folder is incomplete; or NULL,
 * FORKED, CLOSED or IN_HOOK. */
voldazpe_house_code_t voldazpe_house_close(voldazpe_house_t *house);

/* Holds a house: its pointer may be used after the close, and each call answers CLOSED then. You may hold a house
 * several times, while its pointer may be used; let it go as often. A null pointer does nothing. */
void voldazpe_house_hold(voldazpe_house_t *house);
void voldazpe_house_let_go(voldazpe_house_t *house);

/* ---- applications ---- */

/* Adds an application, with a name, which is copied (a null name is empty). It wants no core at first, and has no cap.
 * Returns VOLDAZPE_OK with *application, or NULL, FORKED, CLOSED, ALL_TAKEN or OUT_OF_MEMORY. */
VOLDAZPE_MUST_USE
voldazpe_house_code_t voldazpe_house_join(voldazpe_house_t *house, const char *name,
                                          voldazpe_house_application_t *application);

/* Ends an application and the registrations of its threads: each `voldazpe_house_wait` returns WITHDRAWN,
 * `voldazpe_house_keep` returns false, and the threads may run where they might before they registered. Each of them
 * must leave before it registers again. Returns VOLDAZPE_OK, or NULL, FORKED, CLOSED or WITHDRAWN. */
voldazpe_house_code_t voldazpe_house_withdraw(voldazpe_house_t *house, voldazpe_house_application_t application);

/* Sets how many cores, 0 to 128, the application wants at one level, 0 to 7. It wants none at the others. Level 0 is
 * served first. This replaces what the application wanted before. Ask for no more cores than there are threads to use
 * them. Wanting the same again costs no order. Returns VOLDAZPE_OK, or NULL, NO_LEVEL, ENTRY_TOO_LARGE, FORKED, CLOSED
 * or WITHDRAWN. */
voldazpe_house_code_t voldazpe_house_want(voldazpe_house_t *house, voldazpe_house_application_t application,
                                          uint32_t level, uint32_t cores);

/* Sets how many cores the application wants at all eight levels, as `voldazpe_house_want` does at one. Entry p is how
 * many it wants at level p, in addition to those at the levels before. */
voldazpe_house_code_t voldazpe_house_want_at_levels(voldazpe_house_t *house, voldazpe_house_application_t application,
                                                    const uint8_t *cores);

/* Caps the application at 0 to 128 cores, until another cap is given. What it wants beyond the cap doesn't count; level
 * 0 counts first. Returns as `voldazpe_house_want`; a cap above 128 is ENTRY_TOO_LARGE. */
voldazpe_house_code_t voldazpe_house_cap(voldazpe_house_t *house, voldazpe_house_application_t application,
                                         uint32_t cores);

/* Sets a function that is told of the application's events and of no other's, besides the hook of the options. So each
 * library that shares a house can have its own. The function is called like a hook, from the next event on;
 * `voldazpe_house_counts` tells what is due already. It replaces the function before, and a null function removes that.
 *
 * `done`, if it isn't null, is called once with the context, after the last call of the function. That is when another
 * function has replaced it, or the application or the house has ended, and the calls that were going on have returned.
 * `done` is called in the last thread that has to do with the function.
 *
 * Returns VOLDAZPE_OK, or NULL, FORKED, CLOSED, WITHDRAWN or OUT_OF_MEMORY; `done` isn't called then. */
voldazpe_house_code_t voldazpe_house_watch(voldazpe_house_t *house, voldazpe_house_application_t application,
                                           voldazpe_house_hook_t hook, void *context, void (*done)(void *context));

/* ---- threads ---- */

/* Registers the calling thread in an application. The thread has no core at first, and is unpinned to the unmanaged
 * cores. It may be registered in several houses, but once in each, and in one only that pins threads. It must leave
 * that house before it registers in another one that pins, even if the first was closed.
 *
 * A thread that runs where a house would have it (on just the unmanaged cores, or on one managed core) counts as
 * started by one of the house's threads. Once it leaves, it may run wherever the opener might. A thread that ends
 * leaves by itself, whether it returns, exits or is cancelled. In a hook, where a thread could neither wait nor leave,
 * this call answers IN_HOOK.
 *
 * Returns VOLDAZPE_OK with *thread, or NULL, IN_HOOK, FORKED, CLOSED, WITHDRAWN, REGISTERED, ALL_TAKEN or
 * OUT_OF_MEMORY. */
VOLDAZPE_MUST_USE
voldazpe_house_code_t voldazpe_house_register(voldazpe_house_t *house, voldazpe_house_application_t application,
                                              voldazpe_house_thread_t **thread);

/* The calling thread's handle in a house, or null if it isn't registered there. It serves code of yours that doesn't
 * have the handle of the thread that calls it. */
voldazpe_house_thread_t *voldazpe_house_mine(const voldazpe_house_t *house);

/* Ends the thread's registration: the thread gives back what it has, and may run where it might before it registered.
 * The handle is invalid from then on. Returns VOLDAZPE_OK, even after a close or a withdrawal, or NULL or NOT_YOURS. In
 * a forked child it answers FORKED, and in a hook IN_HOOK; nothing is done then. */
voldazpe_house_code_t voldazpe_house_leave(voldazpe_house_thread_t *thread);

/* Whether the thread has a core that it may keep, by one load. A thread on a core asks between two tasks. False means
 * that the core is asked back, or lost: the thread then calls `voldazpe_house_wait`, or gives back what it has. False
 * becomes true again if the core is no longer wanted back. Safe in a signal handler. */
static inline bool voldazpe_house_keep(const voldazpe_house_thread_t *thread) {
    return VOLDAZPE_LOAD(&thread->word) >= 0;
}

/* The number of the core that the thread has, even while it is asked back, or -1 if it has none. One load. */
static inline int voldazpe_house_core(const voldazpe_house_thread_t *thread) {
    int32_t word = VOLDAZPE_LOAD(&thread->word);
    return word < -65536 ? word - INT32_MIN : word < 0 ? -1 : word;
}

/* Sleeps until the thread has a core, or until the nanoseconds are over; a negative number is no limit. The thread is
 * pinned to the core when this returns. If it has a core that it may keep, this returns at once, at the cost of a load.
 * If its core is asked back, the thread gives it back first and waits for another. This is one order, the last thing
 * that it does there before it sleeps. Signals don't end a wait; a handler runs on the core that the thread had last.
 * With a limit of 0, a thread that can get no core now gives no order, or one.
 *
 * Returns VOLDAZPE_OK with a core (which may be asked back again at once), or NULL or NOT_YOURS, or FORKED, CLOSED,
 * WITHDRAWN, WAIT_ENDED or TIMED_OUT. After each of the last five the thread has no core and waits for none. In a hook,
 * a thread without a core that it may keep gets IN_HOOK, and nothing is done. It doesn't change errno.
 *
 * This is a cancellation point. A thread that is cancelled here leaves the house as it ends. */
VOLDAZPE_MUST_USE
voldazpe_house_code_t voldazpe_house_wait(voldazpe_house_thread_t *thread, int64_t nanoseconds);

/* Ends the wait of one thread of the application, by its number, or of all its threads (VOLDAZPE_HOUSE_ALL): their
 * `voldazpe_house_wait` returns WAIT_ENDED. For a thread that isn't in a wait, this ends its next wait that finds no
 * core, even one with a limit of 0. Several ends before that wait count as one. A pool shuts down like this: it sets a
 * flag, then ends all waits, and each of its threads sees the flag. Returns VOLDAZPE_OK, even if no such thread is
 * registered, or NULL, FORKED, CLOSED or WITHDRAWN. */
voldazpe_house_code_t voldazpe_house_end_wait(voldazpe_house_t *house, voldazpe_house_application_t application,
                                              uint32_t thread);

/* Gives back the core of a thread that has no work. The thread is unpinned first, to the unmanaged cores, and waits for
 * no core until it calls `voldazpe_house_wait`. A thread without a core is left as it is. Returns VOLDAZPE_OK, or NULL,
 * NOT_YOURS, or FORKED, CLOSED or WITHDRAWN. After VOLDAZPE_OK and the last three the thread has no core. In a hook, a
 * thread with a core gets IN_HOOK, and nothing is done. */
voldazpe_house_code_t voldazpe_house_give_back(voldazpe_house_thread_t *thread);

/* ---- reading: by any thread, at any time. Each call takes the house's lock, and gives no order ---- */

/* What an application has and wants. */
typedef struct {
    uint8_t due;     /* cores due to it */
    uint8_t owned;   /* cores that its threads have */
    uint8_t asked;   /* of these, those that are asked back */
    uint8_t waiting; /* threads that wait for a core */
    uint8_t threads; /* threads that are registered */
    uint8_t cap;     /* 128 where there is none */
    uint8_t request[VOLDAZPE_LEVELS]; /* what it last wanted, not cut at the cap */
} voldazpe_house_counts_t;

/* Returns VOLDAZPE_OK with *counts, or NULL, FORKED, CLOSED or WITHDRAWN. */
VOLDAZPE_MUST_USE
voldazpe_house_code_t voldazpe_house_counts(voldazpe_house_t *house, voldazpe_house_application_t application,
                                            voldazpe_house_counts_t *counts);

/* Copies an application's name into `size` bytes, with a closing zero. A name that doesn't fit is cut. Returns as
 * `voldazpe_house_counts`. */
VOLDAZPE_MUST_USE
voldazpe_house_code_t voldazpe_house_name(voldazpe_house_t *house, voldazpe_house_application_t application, char *name,
                                          size_t size);

/* A managed core, and the thread that has it. */
typedef struct voldazpe_house_owner {
    voldazpe_house_application_t application; /* 0 where the core is free */
    uint32_t thread;                          /* the number of the thread in its application */
    uint16_t core;
    uint8_t socket;
    bool asked;                               /* whether the core is asked back */
} voldazpe_house_owner_t;

/* Writes up to `room` managed cores, in the order of their positions and all as of one moment, and sets *count to how
 * many there are. Returns VOLDAZPE_OK, or NULL, FORKED or CLOSED. */
VOLDAZPE_MUST_USE
voldazpe_house_code_t voldazpe_house_owners(voldazpe_house_t *house, voldazpe_house_owner_t *owners, size_t room,
                                            size_t *count);

/* What a house is and has done. */
typedef struct {
    uint64_t orders;       /* orders given, ticks and refused ones included */
    uint64_t moved;        /* threads that stayed longer than the grace */
    uint64_t grace;        /* microseconds */
    uint32_t applications; /* applications that have joined and weren't withdrawn */
    uint32_t threads;      /* registered threads */
    uint16_t managed;      /* managed cores */
    uint16_t sockets;
    int refused;           /* the errno of the first pinning that was refused, or 0 */
    bool journal_failed;   /* the journal's folder couldn't be written: the journal ends there, for good */
    uint32_t opens;        /* openers that haven't closed the house */
} voldazpe_house_state_t;

/* Returns VOLDAZPE_OK with *state, or NULL, FORKED or CLOSED. */
VOLDAZPE_MUST_USE
voldazpe_house_code_t voldazpe_house_state(voldazpe_house_t *house, voldazpe_house_state_t *state);

/* Bindings in other languages copy these structs. */
VOLDAZPE_ASSERT(sizeof(voldazpe_house_thread_t) == 8 && offsetof(voldazpe_house_thread_t, number) == 4, "thread");
VOLDAZPE_ASSERT(sizeof(voldazpe_house_event_t) == 24 && offsetof(voldazpe_house_event_t, kind) == 8 &&
                    offsetof(voldazpe_house_event_t, thread) == 12 && offsetof(voldazpe_house_event_t, core) == 16 &&
                    offsetof(voldazpe_house_event_t, moved) == 18 && offsetof(voldazpe_house_event_t, due) == 19,
                "event");
VOLDAZPE_ASSERT(sizeof(voldazpe_house_options_t) == 72 && offsetof(voldazpe_house_options_t, unmanaged) == 8 &&
                    offsetof(voldazpe_house_options_t, unpinned) == 12 && offsetof(voldazpe_house_options_t, own) == 13 &&
                    offsetof(voldazpe_house_options_t, hook) == 16 &&
                    offsetof(voldazpe_house_options_t, hook_context) == 24 &&
                    offsetof(voldazpe_house_options_t, journal_folder) == 32 &&
                    offsetof(voldazpe_house_options_t, journal) == 40 &&
                    offsetof(voldazpe_house_options_t, journal_context) == 48 &&
                    offsetof(voldazpe_house_options_t, named) == 56 && offsetof(voldazpe_house_options_t, done) == 64,
                "options");
VOLDAZPE_ASSERT(sizeof(voldazpe_house_counts_t) == 14 && offsetof(voldazpe_house_counts_t, owned) == 1 &&
                    offsetof(voldazpe_house_counts_t, asked) == 2 && offsetof(voldazpe_house_counts_t, waiting) == 3 &&
                    offsetof(voldazpe_house_counts_t, threads) == 4 && offsetof(voldazpe_house_counts_t, cap) == 5 &&
                    offsetof(voldazpe_house_counts_t, request) == 6,
                "counts");
VOLDAZPE_ASSERT(sizeof(voldazpe_house_owner_t) == 16 && offsetof(voldazpe_house_owner_t, thread) == 8 &&
                    offsetof(voldazpe_house_owner_t, core) == 12 && offsetof(voldazpe_house_owner_t, socket) == 14 &&
                    offsetof(voldazpe_house_owner_t, asked) == 15,
                "owner");
VOLDAZPE_ASSERT(sizeof(voldazpe_house_state_t) == 48 && offsetof(voldazpe_house_state_t, moved) == 8 &&
                    offsetof(voldazpe_house_state_t, grace) == 16 &&
                    offsetof(voldazpe_house_state_t, applications) == 24 &&
                    offsetof(voldazpe_house_state_t, threads) == 28 &&
                    offsetof(voldazpe_house_state_t, managed) == 32 &&
                    offsetof(voldazpe_house_state_t, sockets) == 34 &&
                    offsetof(voldazpe_house_state_t, refused) == 36 &&
                    offsetof(voldazpe_house_state_t, journal_failed) == 40 &&
                    offsetof(voldazpe_house_state_t, opens) == 44,
                "state");

/* Whether threads are pinned: VOLDAZPE_OK, or UNPINNED once the operating system has refused a pinning. The house goes
 * on then. It tries each pinning anew, and lets a thread that can't be pinned run on all processors that it may use.
 * Also NULL, FORKED, CLOSED. */
VOLDAZPE_MUST_USE
voldazpe_house_code_t voldazpe_house_affinity(voldazpe_house_t *house);

#ifdef __cplusplus
} /* extern "C" */

extern "C++" {
namespace voldazpe {

/* One opener's house. Copies share it, and the last copy closes it, unless `close` did. Any thread may make any call on
 * a copy, even after the close. The call answers CLOSED then, or works as before if another opener shares the house.
 * Destroy the last copy outside of hooks: a close is refused there, and the house would stay open. */
class house {
  public:
    house() : house(nullptr, 0, nullptr) {} /* of this process's own processors */
    explicit house(const voldazpe_house_options_t &options) : house(nullptr, 0, &options) {}
    explicit house(std::string_view text) : house(text.data() ? text.data() : "", text.size(), nullptr) {}
    house(std::string_view text, const voldazpe_house_options_t &options)
        : house(text.data() ? text.data() : "", text.size(), &options) {}
    house(const house &) = default; /* and no move: a house that was moved from would be empty */
    house &operator=(const house &) = default;
    voldazpe_house_code_t code() const { return code_; } /* of the opening */
    voldazpe_house_t *handle() const { return opener_->held_->house; } /* null where the code isn't VOLDAZPE_OK */
    voldazpe_house_code_t close() { return opener_->close(); }

  private:
    friend class house_application;
    struct held { /* keeps the pointer valid; applications share it too */
        voldazpe_house_t *house = nullptr;
        held() = default;
        ~held() { voldazpe_house_let_go(house); }
        held(const held &) = delete;
        held &operator=(const held &) = delete;
    };
    struct opener { /* owes a close; copies of the house share it */
        std::shared_ptr<held> held_ = std::make_shared<held>();
        std::atomic<bool> closed{false};
        opener() = default;
        ~opener() { (void)close(); }
        opener(const opener &) = delete;
        opener &operator=(const opener &) = delete;
        voldazpe_house_code_t close() {
            if (closed.exchange(true)) return VOLDAZPE_HOUSE_CLOSED;
            voldazpe_house_code_t code = voldazpe_house_close(held_->house);
            if (code == VOLDAZPE_HOUSE_IN_HOOK) closed = false;
            return code;
        }
    };
    house(const char *text, size_t length, const voldazpe_house_options_t *options)
        : opener_(std::make_shared<opener>()), code_(voldazpe_house_open(text, length, options, &opener_->held_->house)) {
        voldazpe_house_hold(handle());
    }
    std::shared_ptr<opener> opener_;
    voldazpe_house_code_t code_;
};

/* An application. Copies share it, and the last copy withdraws it, unless `withdraw` did. It keeps its house's pointer
 * valid. */
class house_application {
  public:
    explicit house_application(const voldazpe::house &house, const char *name = nullptr)
        : joined_(std::make_shared<joined>(house.opener_->held_)),
          code_(voldazpe_house_join(house.handle(), name, &joined_->id)) {}
    house_application(const house_application &) = default; /* and no move, for the reason that a house has none */
    house_application &operator=(const house_application &) = default;
    voldazpe_house_code_t code() const { return code_; } /* of the joining */
    voldazpe_house_application_t id() const { return joined_->id; } /* 0 where the code isn't VOLDAZPE_OK */
    voldazpe_house_t *house() const { return joined_->held->house; }
    voldazpe_house_code_t want(uint32_t level, uint32_t cores) { return voldazpe_house_want(house(), id(), level, cores); }
    voldazpe_house_code_t want_at_levels(const uint8_t *cores) {
        return voldazpe_house_want_at_levels(house(), id(), cores);
    }
    /* see voldazpe_house_watch */
    voldazpe_house_code_t watch(voldazpe_house_hook_t hook, void *context, void (*done)(void *context) = nullptr) {
        return voldazpe_house_watch(house(), id(), hook, context, done);
    }
    voldazpe_house_code_t cap(uint32_t cores) { return voldazpe_house_cap(house(), id(), cores); }
    voldazpe_house_code_t counts(voldazpe_house_counts_t &counts) const {
        return voldazpe_house_counts(house(), id(), &counts);
    }
    voldazpe_house_code_t end_wait(uint32_t thread) { return voldazpe_house_end_wait(house(), id(), thread); }
    voldazpe_house_code_t end_waits() { return end_wait(VOLDAZPE_HOUSE_ALL); }
    voldazpe_house_code_t withdraw() { return voldazpe_house_withdraw(house(), id()); }

  private:
    struct joined {
        std::shared_ptr<voldazpe::house::held> held;
        voldazpe_house_application_t id = 0;
        explicit joined(std::shared_ptr<voldazpe::house::held> its) : held(std::move(its)) {}
        ~joined() { (void)voldazpe_house_withdraw(held->house, id); }
        joined(const joined &) = delete;
        joined &operator=(const joined &) = delete;
    };
    std::shared_ptr<joined> joined_;
    voldazpe_house_code_t code_;
};

/* Registers the calling thread, and leaves at the end of its scope. Don't let the scope end in a hook, where no thread
 * can leave: the thread would stay registered until it ends. */
class house_thread {
  public:
    house_thread(voldazpe_house_t *house, voldazpe_house_application_t application)
        : code_(voldazpe_house_register(house, application, &thread_)) {}
    explicit house_thread(const house_application &application) : house_thread(application.house(), application.id()) {}
    ~house_thread() {
        if (thread_) voldazpe_house_leave(thread_);
    }
    house_thread(const house_thread &) = delete;
    house_thread &operator=(const house_thread &) = delete;
    voldazpe_house_code_t code() const { return code_; }
    voldazpe_house_thread_t *handle() const { return thread_; } /* null where the code isn't VOLDAZPE_OK */

  private:
    voldazpe_house_thread_t *thread_ = nullptr;
    voldazpe_house_code_t code_;
};

/* Waits for a core, and gives it back at the end of its scope, even when an exception ends that:
 *
 *     voldazpe::house_core core(me);
 *     while (core.code() == VOLDAZPE_OK) {
 *         while (core.keep()) run_a_task();
 *         core.wait();                     // gives the core back, and waits for another: one order, as in C
 *     } */
class house_core {
  public:
    explicit house_core(voldazpe_house_thread_t *thread, int64_t nanoseconds = -1)
        : thread_(thread), code_(voldazpe_house_wait(thread, nanoseconds)) {}
    explicit house_core(const house_thread &thread, int64_t nanoseconds = -1)
        : house_core(thread.handle(), nanoseconds) {}
    ~house_core() {
        if (code_ == VOLDAZPE_OK) voldazpe_house_give_back(thread_);
    }
    explicit house_core(const house_thread &&, int64_t = -1) = delete; /* a temporary would leave at once */
    house_core(const house_core &) = delete;
    house_core &operator=(const house_core &) = delete;
    voldazpe_house_code_t wait(int64_t nanoseconds = -1) { return code_ = voldazpe_house_wait(thread_, nanoseconds); }
    /* for a thread that goes on without a core */
    voldazpe_house_code_t give_back() { return voldazpe_house_give_back(thread_); }
    voldazpe_house_code_t code() const { return code_; } /* of the last wait */
    bool keep() const { return code_ == VOLDAZPE_OK && voldazpe_house_keep(thread_); }

  private:
    voldazpe_house_thread_t *thread_;
    voldazpe_house_code_t code_;
};

} // namespace voldazpe
} // extern "C++"
#endif

#endif
