/* The core arbiter Voldazpe, for runtimes in C and C++.
 *
 * Up to sixteen applications, each with up to 32 kernel threads, share the managed cores of one machine. An application
 * says how many cores it wants at each of eight levels. The arbiter says which of its threads are on which cores, and
 * which cores it wants back. The arbiter decides; your runtime pins threads, and gives cores back when it is asked to.
 * All applications of an arbiter live in one process.
 *
 * C11 or C++17, on a machine of 64 bits. Link one archive:
 *
 *     cc -std=c11 runtime.c $(pkg-config --cflags --libs voldazpe) -lpthread
 *
 * A process has one arbiter and one page, which all its applications share. Each thread that gives orders is a *member*
 * of the arbiter. It takes no lock:
 *
 *     static voldazpe_page_t page;             // zero bytes: nothing posted
 *     static voldazpe_member_t first, mine;    // zero bytes: closed
 *
 *     voldazpe_member_open(&first, &page, text, strlen(text), NULL);   // the text of a machine: see voldazpe_open
 *     voldazpe_member_another(&first, &mine);                          // one more member, for another thread
 *
 *     // an order, and the posts that it brings
 *     code = voldazpe_member_give(&mine, voldazpe_client(0, 3), voldazpe_block(), &reply);
 *
 *     // any thread reads the page at any time: one load
 *     if (voldazpe_must_release(&page, voldazpe_client(0, 3)) != 0) block_again(); // 1: asked back; -1: lost already
 *
 * However threads interleave, every reply is one that a single-threaded arbiter would give. This is proved of the
 * library. A single-threaded program, or one that has a lock of its own anyway, keeps the arbiter itself:
 *
 *     static voldazpe_arbiter_t arbiter;       // zero bytes: closed
 *
 *     voldazpe_open(&arbiter, text, strlen(text), NULL);
 *     pthread_mutex_lock(&lock);               // of yours, around each call on the arbiter
 *     code = voldazpe_give(&arbiter, &page, voldazpe_client(0, 3), voldazpe_block(), &reply);
 *     pthread_mutex_unlock(&lock);
 *
 * Below, calls on an arbiter come first; calls on members stand under "many threads". What has to be done under one
 * hold of the lock, a member does in one *turn*: see voldazpe_member_begin.
 *
 * The life of an application and its threads: the application joins, by one order of any of its threads, and asks for
 * cores. Each thread blocks, waits until it is on a core, pins itself there, and polls between tasks. It blocks again
 * when the core is asked back or lost. A thread that ends retires, and an application that ends leaves. One more
 * thread, for all applications together, gives ticks. Without ticks no thread that keeps a core is moved.
 *
 * Rules for the caller:
 *
 *   - Make one call at a time on a member: it belongs to one thread. Calls on different members may overlap freely.
 *   - Make one call at a time on an arbiter without members: take a lock of your own around each. A call that comes
 *     while another goes on answers VOLDAZPE_BUSY and does nothing, so a forgotten lock is noticed. (On a member most
 *     such calls are noticed, but not all.) ThreadSanitizer reports two calls without a lock as a race, whether or not
 *     they overlap, and also two threads on one member.
 *   - An order names its client, and any thread may give it. The exception is an order to block: only the thread itself
 *     gives that.
 *   - An open arbiter or member stays where it is: never copy, move or write it. (C++ refuses the copy.)
 *   - A page begins as zero bytes: static, from calloc, `= VOLDAZPE_INIT`, or in C++ `new voldazpe_page_t()`. It
 *     belongs to one arbiter at a time, from its opening to its closing. `voldazpe_close_and_clear` closes the arbiter
 *     and makes the page zero bytes again, so that no thread reads its place in an arbiter that is gone. The last
 *     member that closes does the same.
 *   - An arbiter takes orders without limit, unless the machine's text states `orders`. After that many orders it
 *     answers VOLDAZPE_FULL.
 *   - Make no call from a signal handler, and none in the forked child of a process with more than one thread. The
 *     readers of the page (`voldazpe_must_release` and its like) may be called from a signal handler.
 *   - voldazpe_open and voldazpe_member_open need a large stack: see there. The other calls need less than 2 KB.
 *
 * The functions that begin with voldazpe_lib_ are the library's own, and proved. The others are wrappers in this file:
 * they check what only C can get wrong (null pointers, overlapping calls), keep the page, and sleep and wake. */
#ifndef VOLDAZPE_H
#define VOLDAZPE_H

/* The version of this header and of the library that is installed with it. As one number, 1,000,000 times the first,
 * 1,000 times the second and the third, it grows with each version. */
#define VOLDAZPE_VERSION_MAJOR 0
#define VOLDAZPE_VERSION_MINOR 1
#define VOLDAZPE_VERSION_PATCH 0
#define VOLDAZPE_VERSION (1000000 * VOLDAZPE_VERSION_MAJOR + 1000 * VOLDAZPE_VERSION_MINOR + VOLDAZPE_VERSION_PATCH)
#define VOLDAZPE_VERSION_TEXT "0.1.0"

#ifdef __cplusplus
extern "C++" { /* also where this header is included within an `extern "C"`, in which no template can stand */
#if defined(__GNUC__) && !defined(__clang__)
#pragma GCC diagnostic push
#pragma GCC diagnostic ignored "-Wshadow" /* a struct and a function have one name, as voldazpe_place */
#endif
#endif

#include <stdbool.h>
#include <stddef.h>
#include <stdint.h>

#ifdef __cplusplus
#include <atomic>
#define VOLDAZPE_ATOMIC(type) std::atomic<type>
#define VOLDAZPE_LOAD(at) ((at)->load(std::memory_order_seq_cst))
#define VOLDAZPE_STORE(at, value) ((at)->store((value), std::memory_order_seq_cst))
#define VOLDAZPE_ADD(at, value) ((void)(at)->fetch_add((value), std::memory_order_seq_cst))
#define VOLDAZPE_SUBTRACT(at, value) ((void)(at)->fetch_sub((value), std::memory_order_seq_cst))
#define VOLDAZPE_EXCHANGE_ACQUIRE(at, value) ((at)->exchange((value), std::memory_order_acquire))
#define VOLDAZPE_EXCHANGE_RELAXED(at, value) ((at)->exchange((value), std::memory_order_relaxed))
#define VOLDAZPE_COMPARE_EXCHANGE(at, expected, value) ((at)->compare_exchange_strong(*(expected), (value)))
#define VOLDAZPE_LOAD_ACQUIRE(at) ((at)->load(std::memory_order_acquire))
#define VOLDAZPE_LOAD_RELAXED(at) ((at)->load(std::memory_order_relaxed))
#define VOLDAZPE_STORE_RELEASE(at, value) ((at)->store((value), std::memory_order_release))
#define VOLDAZPE_STORE_RELAXED(at, value) ((at)->store((value), std::memory_order_relaxed))
#define VOLDAZPE_ASSERT(holds, text) static_assert(holds, text)
#define VOLDAZPE_CAST(type, value) static_cast<type>(value)
#define VOLDAZPE_CASES(type, number) (number) /* no cast: the number may be none of the enum's values */
#define VOLDAZPE_MUST_USE [[nodiscard]]
#else
#include <stdatomic.h>
#define VOLDAZPE_ATOMIC(type) _Atomic(type)
#define VOLDAZPE_LOAD(at) atomic_load_explicit((at), memory_order_seq_cst)
#define VOLDAZPE_STORE(at, value) atomic_store_explicit((at), (value), memory_order_seq_cst)
#define VOLDAZPE_ADD(at, value) ((void)atomic_fetch_add_explicit((at), (value), memory_order_seq_cst))
#define VOLDAZPE_SUBTRACT(at, value) ((void)atomic_fetch_sub_explicit((at), (value), memory_order_seq_cst))
#define VOLDAZPE_EXCHANGE_ACQUIRE(at, value) atomic_exchange_explicit((at), (value), memory_order_acquire)
#define VOLDAZPE_EXCHANGE_RELAXED(at, value) atomic_exchange_explicit((at), (value), memory_order_relaxed)
#define VOLDAZPE_COMPARE_EXCHANGE(at, expected, value) atomic_compare_exchange_strong((at), (expected), (value))
#define VOLDAZPE_LOAD_ACQUIRE(at) atomic_load_explicit((at), memory_order_acquire)
#define VOLDAZPE_LOAD_RELAXED(at) atomic_load_explicit((at), memory_order_relaxed)
#define VOLDAZPE_STORE_RELEASE(at, value) atomic_store_explicit((at), (value), memory_order_release)
#define VOLDAZPE_STORE_RELAXED(at, value) atomic_store_explicit((at), (value), memory_order_relaxed)
#define VOLDAZPE_ASSERT(holds, text) _Static_assert(holds, text)
#define VOLDAZPE_CAST(type, value) ((type)(value))
#define VOLDAZPE_CASES(type, number) ((type)(number)) /* of a switch: the compiler reports one that is missing */
#if defined(__GNUC__)
#define VOLDAZPE_MUST_USE __attribute__((warn_unused_result)) /* to ignore the answer is a bug */
#else
#define VOLDAZPE_MUST_USE
#endif
#endif
#if defined(__GNUC__)
#define VOLDAZPE_RARE __attribute__((cold)) /* kept apart from the code that runs for each order */
#else
#define VOLDAZPE_RARE
#endif

#if defined(__SANITIZE_THREAD__)
#define VOLDAZPE_THREAD_SANITIZER 1
#elif defined(__has_feature)
#if __has_feature(thread_sanitizer)
#define VOLDAZPE_THREAD_SANITIZER 1
#endif
#endif
#ifndef VOLDAZPE_THREAD_SANITIZER
#define VOLDAZPE_THREAD_SANITIZER 0
#endif

/* 1 if a thread can sleep until its word changes (`voldazpe_wait`), and posts wake it. Otherwise there is no
 * `voldazpe_wait`: bring a sleep of your own, such as a condition variable under the lock that you broadcast after each
 * `voldazpe_give`. A member that waits for another member's turn to end doesn't sleep then either: it pauses. */
#if defined(__linux__)
#define VOLDAZPE_SLEEPS 1
#else
#define VOLDAZPE_SLEEPS 0
#endif

#if VOLDAZPE_SLEEPS
#include <errno.h>
#include <limits.h>
#include <linux/futex.h>
#include <sys/syscall.h>
#ifdef __cplusplus
#include <unistd.h>
#else
/* unistd.h doesn't declare it if the compiler is asked for plain C11 */
#pragma GCC diagnostic push
#pragma GCC diagnostic ignored "-Wredundant-decls"
extern long syscall(long number, ...);
#pragma GCC diagnostic pop
#endif
#endif

/* ---- limits ---- */

enum {
    VOLDAZPE_APPLICATIONS = 16,  /* numbered from 0 */
    VOLDAZPE_THREADS = 32,       /* of each application, numbered from 0 */
    VOLDAZPE_ALL_THREADS = 512,  /* of all applications */
    VOLDAZPE_CLOCK = 512,        /* the client that gives the ticks */
    VOLDAZPE_LEVELS = 8,         /* of a request; level 0 is served first */
    VOLDAZPE_CORES = 128,        /* managed cores of a machine, and the most that one level may ask for */
    VOLDAZPE_WORDS = 545,        /* of a page */
    VOLDAZPE_FIRST_RELEASE = 1,  /* two words of each application: which of its cores are asked back */
    VOLDAZPE_FIRST_PLACE = 33,   /* one word of each thread: where it is */
    VOLDAZPE_WAKES = 32,         /* threads that a member notes, to wake them when it gives the arbiter back */
    VOLDAZPE_TEXT = 65536        /* the most bytes of a machine's text */
};

/* ---- codes ---- */

/* What a call answers. A call that answers a code other than VOLDAZPE_OK did nothing and wrote no output (except
 * `named`, if a core is listed twice). */
typedef enum voldazpe_code {
    VOLDAZPE_OK = 0,
    VOLDAZPE_CLOSED = 1,          /* the arbiter, or the member, isn't open: open it first */
    VOLDAZPE_ALREADY_OPEN = 2,    /* the arbiter or the member is open, or the page has members: close it, or them,
                                   * first */
    VOLDAZPE_NO_CLIENT = 3,       /* no client, or no thread, has this number: make it by `voldazpe_client` */
    VOLDAZPE_NO_ORDER = 4,        /* no order has this kind: make it by the functions below, at a level below 8 */
    VOLDAZPE_ENTRY_TOO_LARGE = 5, /* an entry of the request is above 128: ask for less */
    VOLDAZPE_STALE = 6,           /* the posts of an earlier order are missing: call `voldazpe_post_all`, or in a turn
                                   * `voldazpe_member_next_post` until it answers SETTLED */
    VOLDAZPE_FULL = 7,            /* as many orders were given as the machine's text states by `orders`: no order
                                   * works any more, not even a `leave`. Without that key this is never answered */
    VOLDAZPE_SETTLED = 8,         /* nothing is to be posted: all is well */
    VOLDAZPE_NO_WORD = 9,         /* no page word has this number: they go from 0 to 544 */
    VOLDAZPE_NO_POSITION = 10,    /* no managed core has this position, or no unmanaged core this index: they go from 0
                                   * to one below their number */
    VOLDAZPE_NO_OWNER = 11,       /* no thread is on this core, or it isn't managed */
    VOLDAZPE_TOO_LONG = 12,       /* the text has more than 65,536 bytes */
    VOLDAZPE_NOT_UTF8 = 13,
    VOLDAZPE_OUT_OF_MEMORY = 14,  /* malloc failed: open it again later */
    VOLDAZPE_NO_APPLICATION = 15, /* no application has this number: they go from 0 to 15 */
    VOLDAZPE_NO_REQUEST = 16,     /* the application hasn't joined, or has left: it asks for nothing */
    VOLDAZPE_TAKEN = 17,          /* another member gives an order, or is in a turn: try again later */
    VOLDAZPE_IN_TURN = 18,        /* the member is in a turn: end it first */
    VOLDAZPE_NO_TURN = 19,        /* the member is in no turn: begin one first */
    /* what is wrong with the text of a machine: the first that applies, in this order. Correct the text */
    VOLDAZPE_NOT_TOML = 21,
    VOLDAZPE_UNKNOWN_KEY = 22,
    VOLDAZPE_BAD_KEY = 23,        /* a key is missing, or its value has another type */
    VOLDAZPE_OUT_OF_RANGE = 24,   /* an integer is outside its range: see `voldazpe_open` */
    VOLDAZPE_SOCKET_COUNT = 25,   /* not 1 to 8 sockets */
    VOLDAZPE_CORE_TWICE = 26,     /* a core is listed twice: `named` says which */
    VOLDAZPE_MANAGED_COUNT = 27,  /* not 1 to 128 managed cores */
    VOLDAZPE_NO_UNMANAGED = 28,
    /* what this header itself finds */
    VOLDAZPE_NULL = 31,           /* a pointer that must not be null is null */
    VOLDAZPE_BUSY = 32,           /* another call on this arbiter is going on: take your lock around each. Or one on
                                   * this member: give each thread its own. Or it didn't begin as zero bytes:
                                   * `= VOLDAZPE_INIT` was forgotten */
    VOLDAZPE_TIMED_OUT = 33       /* the limit of a wait is over, and the thread still waits */
} voldazpe_code_t;

/* A line of text that explains a code, for messages. Never null; it stays valid. */
static inline const char *voldazpe_code_text(voldazpe_code_t code) {
    switch (code) {
    case VOLDAZPE_OK: return "done";
    case VOLDAZPE_CLOSED: return "the arbiter is closed";
    case VOLDAZPE_ALREADY_OPEN: return "the arbiter is open already";
    case VOLDAZPE_NO_CLIENT: return "no such client";
    case VOLDAZPE_NO_ORDER: return "no such order";
    case VOLDAZPE_ENTRY_TOO_LARGE: return "an entry of the request is above 128";
    case VOLDAZPE_STALE: return "words of an earlier order are not posted";
    case VOLDAZPE_FULL: return "the limit on orders is reached";
    case VOLDAZPE_SETTLED: return "nothing to post";
    case VOLDAZPE_NO_WORD: return "no such page word";
    case VOLDAZPE_NO_POSITION: return "no such position";
    case VOLDAZPE_NO_OWNER: return "nobody is on this core";
    case VOLDAZPE_TOO_LONG: return "the text is too long";
    case VOLDAZPE_NOT_UTF8: return "the text is not UTF-8";
    case VOLDAZPE_OUT_OF_MEMORY: return "out of memory";
    case VOLDAZPE_NO_APPLICATION: return "no such application";
    case VOLDAZPE_NO_REQUEST: return "the application has not joined";
    case VOLDAZPE_TAKEN: return "another member gives an order or is in a turn";
    case VOLDAZPE_IN_TURN: return "the member is in a turn";
    case VOLDAZPE_NO_TURN: return "the member is in no turn";
    case VOLDAZPE_NOT_TOML: return "C1 not TOML";
    case VOLDAZPE_UNKNOWN_KEY: return "C2 unknown key";
    case VOLDAZPE_BAD_KEY: return "C3 key missing or of the wrong type";
    case VOLDAZPE_OUT_OF_RANGE: return "C4 number out of range";
    case VOLDAZPE_SOCKET_COUNT: return "C5 sockets must be 1 to 8";
    case VOLDAZPE_CORE_TWICE: return "C6 a core is listed twice";
    case VOLDAZPE_MANAGED_COUNT: return "C7 managed cores must be 1 to 128";
    case VOLDAZPE_NO_UNMANAGED: return "C8 no unmanaged core";
    case VOLDAZPE_NULL: return "a null pointer";
    case VOLDAZPE_BUSY:
        return "another call on the arbiter or the member is going on, or VOLDAZPE_INIT was forgotten";
    case VOLDAZPE_TIMED_OUT: return "timed out";
    }
    return "no code";
}

/* ---- clients ---- */

/* The number of a thread of an application, or UINT32_MAX if there is no such thread. For UINT32_MAX every call answers
 * VOLDAZPE_NO_CLIENT, and every reader says that the thread is on no core.
 *
 *     uint32_t me = voldazpe_client(2, 7);    // thread 7 of application 2
 *
 * `number / VOLDAZPE_THREADS` is the application again, and `number % VOLDAZPE_THREADS` the thread. */
VOLDAZPE_MUST_USE
static inline uint32_t voldazpe_client(uint32_t application, uint32_t thread) {
    return application < VOLDAZPE_APPLICATIONS && thread < VOLDAZPE_THREADS ? VOLDAZPE_THREADS * application + thread
                                                                          : UINT32_MAX;
}

/* ---- orders ---- */

typedef enum voldazpe_order_kind {
    VOLDAZPE_JOIN = 0,
    VOLDAZPE_ASK = 1,
    VOLDAZPE_CAP = 2,
    VOLDAZPE_BLOCK = 3,
    VOLDAZPE_RETIRE = 4,
    VOLDAZPE_LEAVE = 5,
    VOLDAZPE_STATUS = 6,
    VOLDAZPE_TICK = 7
} voldazpe_order_kind_t;

enum { VOLDAZPE_ORDER_KINDS = 8 }; /* numbered from 0 */

/* The word for an order of this kind in a script, as `arbiter run` reads and prints it. Never null; it stays valid. */
static inline const char *voldazpe_order_name(uint32_t kind) {
    switch (VOLDAZPE_CASES(voldazpe_order_kind_t, kind)) {
    case VOLDAZPE_JOIN: return "join";
    case VOLDAZPE_ASK: return "ask";
    case VOLDAZPE_CAP: return "cap";
    case VOLDAZPE_BLOCK: return "block";
    case VOLDAZPE_RETIRE: return "retire";
    case VOLDAZPE_LEAVE: return "leave";
    case VOLDAZPE_STATUS: return "status";
    case VOLDAZPE_TICK: return "tick";
    }
    return "no order";
}

/* An order. Make one by the functions below. */
typedef struct voldazpe_order {
    uint64_t moment;                  /* of a tick */
    uint32_t kind;                    /* a voldazpe_order_kind_t */
    uint8_t cap;                      /* of a cap */
    uint8_t request[VOLDAZPE_LEVELS]; /* of an ask */
} voldazpe_order_t;

static inline voldazpe_order_t voldazpe_order_of(uint32_t kind) {
    voldazpe_order_t order = {0, 0, 0, {0, 0, 0, 0, 0, 0, 0, 0}};
    order.kind = kind;
    return order;
}

/* Each order below says what it is refused for. Besides that, an order of the clock is refused NOT_A_THREAD, unless it
 * is a tick. An order of an application that hasn't joined is refused NOT_JOINED, unless it is a join or a tick. In the
 * examples, `give` is a function of yours that calls `voldazpe_member_give`, or `voldazpe_give` under your lock, and
 * returns the reply. */

/* The thread's application joins, with a request for no core and no cap. Reply: JOINED, or REFUSED for ALREADY_JOINED.
 *
 *     give(me, voldazpe_join()); */
VOLDAZPE_MUST_USE
static inline voldazpe_order_t voldazpe_join(void) { return voldazpe_order_of(VOLDAZPE_JOIN); }

/* The application asks for 0 to 128 cores at one level, and for none at the others. Each of its threads is on one core
 * at most: a runtime that wants more than 32 cores is two applications. Reply: DUE. An ask for more than 128 is
 * answered VOLDAZPE_ENTRY_TOO_LARGE. A level that isn't below 8 gives an order of no kind, which is answered
 * VOLDAZPE_NO_ORDER.
 *
 *     due = give(me, voldazpe_ask(0, 4)).due; // four cores, at level 0 */
VOLDAZPE_MUST_USE
static inline voldazpe_order_t voldazpe_ask(uint32_t level, uint32_t cores) {
    voldazpe_order_t order =
        voldazpe_order_of(level < VOLDAZPE_LEVELS ? VOLDAZPE_CAST(uint32_t, VOLDAZPE_ASK) : UINT32_MAX);
    if (level < VOLDAZPE_LEVELS) order.request[level] = VOLDAZPE_CAST(uint8_t, cores < 255 ? cores : 255);
    return order;
}

/* The application asks for cores at all eight levels, as `voldazpe_ask` does at one. Entry p is how many it wants at
 * level p, in addition to those at the levels before. Reply: DUE.
 *
 *     const uint8_t cores[VOLDAZPE_LEVELS] = {2, 0, 4}; // two at level 0, and four more at level 2
 *     due = give(me, voldazpe_ask_at_levels(cores)).due; */
VOLDAZPE_MUST_USE
static inline voldazpe_order_t voldazpe_ask_at_levels(const uint8_t *cores) {
    voldazpe_order_t order = voldazpe_order_of(VOLDAZPE_ASK);
    for (int level = 0; level < VOLDAZPE_LEVELS; level++) order.request[level] = cores[level];
    return order;
}

/* Caps the application at 0 to 128 cores, whatever it asks for later. What it asks for beyond the cap doesn't count;
 * level 0 counts first. A leave ends the cap. Reply: DUE, or REFUSED for CAP_TOO_LARGE.
 *
 *     due = give(me, voldazpe_cap(3)).due; */
VOLDAZPE_MUST_USE
static inline voldazpe_order_t voldazpe_cap(uint32_t cores) {
    voldazpe_order_t order = voldazpe_order_of(VOLDAZPE_CAP);
    order.cap = VOLDAZPE_CAST(uint8_t, cores < 255 ? cores : 255);
    return order;
}

/* The thread gives its core back, if it has one, and waits for a core. Then it waits, or is on a core, perhaps the same
 * one. Reply: NOW, or REFUSED for ALREADY_WAITING. The thread pins itself to unmanaged cores before: from the order on,
 * its core may be another thread's.
 *
 * Only the thread itself gives this order, since `voldazpe_must_release` doesn't tell it that its core has become
 * another one. If a thread is stuck, in a system call say, another thread may take its core. It pins the stuck thread
 * to unmanaged cores and gives that thread's order to retire, under one hold of the lock. The stuck thread then reads
 * -1, and blocks. If fewer cores were asked for meanwhile, it asks again first.
 *
 *     core = voldazpe_reply_core(give(me, voldazpe_block())); // -1: it waits */
VOLDAZPE_MUST_USE
static inline voldazpe_order_t voldazpe_block(void) { return voldazpe_order_of(VOLDAZPE_BLOCK); }

/* The thread becomes unmanaged: it gives its core back if it has one, and waits for none. Reply: DONE. Pin the thread
 * to unmanaged cores before, as for a block.
 *
 * You may also end a thread that sleeps in `voldazpe_wait`: this order, from another thread, wakes it. Set a flag of
 * your own under the lock before. The thread must look at that flag and block under one hold of the lock. Otherwise it
 * may block after this order, and sleep on. Another thread may have its number only once the thread has seen the flag
 * and no longer reads its word. If the thread may be on a core, pin it to unmanaged cores and give the order under one
 * hold of the lock.
 *
 *     give(me, voldazpe_retire()); // a thread that ends */
VOLDAZPE_MUST_USE
static inline voldazpe_order_t voldazpe_retire(void) { return voldazpe_order_of(VOLDAZPE_RETIRE); }

/* The application leaves, and all its threads become unmanaged, as by orders to retire. It may join again. Reply: DONE.
 * A thread that is on a core runs on there until it looks. So end such threads before, or pin all of them to unmanaged
 * cores and give this order under one hold of the lock. Otherwise a thread that sleeps may get a core in between. As
 * for retire, another thread may have a thread's number only once that one no longer reads its word.
 *
 *     give(me, voldazpe_leave()); */
VOLDAZPE_MUST_USE
static inline voldazpe_order_t voldazpe_leave(void) { return voldazpe_order_of(VOLDAZPE_LEAVE); }

/* Asks what the application has. Reply: COUNTS.
 *
 *     voldazpe_reply_t counts = give(me, voldazpe_status()); // counts.due, .owned, .asked, .waiting */
VOLDAZPE_MUST_USE
static inline voldazpe_order_t voldazpe_status(void) { return voldazpe_order_of(VOLDAZPE_STATUS); }

/* Tells the arbiter the present moment, in microseconds since a start of your own, the same for all ticks of an
 * arbiter. Any client may give it; VOLDAZPE_CLOCK is there for it. Reply: MOVED, or REFUSED for CLOCK_BACK. A thread
 * that has kept a core for the grace or longer since it was asked back is moved. It is VOLDAZPE_MOVED_AWAY then, and
 * its core is free for others.
 *
 * The arbiter itself pins no thread. If `moved` isn't 0, look for threads that are VOLDAZPE_MOVED_AWAY, and pin those
 * to unmanaged cores. Do so under the same hold of the lock, since after it such a thread may block and be on a core
 * again.
 *
 * Read the moment and give the tick under one hold of the lock, as below. With a moment that was read before, you may
 * wait for the lock while another thread gives a later tick. Then your tick is refused, and threads that have stayed
 * too long aren't moved.
 *
 * A core counts as asked back from the last tick before that, or from 0 if there was none. So give one tick before all
 * other orders, and make the grace several ticks long. Only an ask or a cap can cause cores to be asked back. If you
 * have paused the ticks, give one before the next ask or cap of any application.
 *
 * (In plain C11 define _POSIX_C_SOURCE as 199309L, or _GNU_SOURCE, before all headers, to have clock_gettime.)
 *
 *     pthread_mutex_lock(&lock);
 *     clock_gettime(CLOCK_MONOTONIC, &t);
 *     moment = (uint64_t)t.tv_sec * 1000000 + (uint64_t)t.tv_nsec / 1000;
 *     code = voldazpe_give(&arbiter, &page, VOLDAZPE_CLOCK, voldazpe_tick(moment), &reply);
 *     for (uint32_t k = 0; code == VOLDAZPE_OK && reply.moved && k < VOLDAZPE_ALL_THREADS; k++) {
 *         if (voldazpe_place_word(&page, k) == VOLDAZPE_MOVED_AWAY) pin_to_unmanaged(k);
 *     }
 *     pthread_mutex_unlock(&lock); */
VOLDAZPE_MUST_USE
static inline voldazpe_order_t voldazpe_tick(uint64_t microseconds) {
    voldazpe_order_t order = voldazpe_order_of(VOLDAZPE_TICK);
    order.moment = microseconds;
    return order;
}

/* ---- replies ---- */

typedef enum voldazpe_place_kind {
    VOLDAZPE_UNMANAGED = 0, /* the ordinary scheduler has the thread */
    VOLDAZPE_WAITING = 1,   /* it waits for a core */
    VOLDAZPE_MOVED_AWAY = 2,/* it kept its core for the grace or longer since it was asked back, and lost it */
    VOLDAZPE_ON = 3         /* it is on a core */
} voldazpe_place_kind_t;

enum { VOLDAZPE_PLACE_KINDS = 4 }; /* numbered from 0 */

/* The word that `arbiter run` prints for a place of this kind. Never null; it stays valid. */
static inline const char *voldazpe_place_name(uint32_t kind) {
    switch (VOLDAZPE_CASES(voldazpe_place_kind_t, kind)) {
    case VOLDAZPE_UNMANAGED: return "unmanaged";
    case VOLDAZPE_WAITING: return "waiting";
    case VOLDAZPE_MOVED_AWAY: return "moved";
    case VOLDAZPE_ON: return "core";
    }
    return "no place";
}

/* Where a thread is. */
typedef struct voldazpe_place {
    uint32_t kind; /* a voldazpe_place_kind_t */
    uint16_t core; /* if the kind is ON: the number of the core; otherwise 0 */
    uint8_t asked; /* if the kind is ON: 1 if that core is asked back; otherwise 0 */
} voldazpe_place_t;

typedef enum voldazpe_reply_kind {
    VOLDAZPE_JOINED = 0,
    VOLDAZPE_DUE = 1,    /* due: how many cores the application is due now */
    VOLDAZPE_NOW = 2,    /* place: where the thread is now */
    VOLDAZPE_DONE = 3,
    VOLDAZPE_COUNTS = 4, /* due, owned, asked, waiting */
    VOLDAZPE_MOVED = 5,  /* moved: how many threads the tick moved */
    VOLDAZPE_REFUSED = 6 /* refusal; nothing changed but the counts of orders */
} voldazpe_reply_kind_t;

enum { VOLDAZPE_REPLY_KINDS = 7 }; /* numbered from 0 */

/* The word with which `arbiter run` prints a reply of this kind. Never null; it stays valid. */
static inline const char *voldazpe_reply_name(uint32_t kind) {
    switch (VOLDAZPE_CASES(voldazpe_reply_kind_t, kind)) {
    case VOLDAZPE_JOINED: return "joined";
    case VOLDAZPE_DUE: return "due";
    case VOLDAZPE_NOW: return "now";
    case VOLDAZPE_DONE: return "done";
    case VOLDAZPE_COUNTS: return "counts";
    case VOLDAZPE_MOVED: return "moved";
    case VOLDAZPE_REFUSED: return "refused";
    }
    return "no reply";
}

/* Why an order was refused. The number 3 isn't used. */
typedef enum voldazpe_refusal {
    VOLDAZPE_ALREADY_JOINED = 1,
    VOLDAZPE_NOT_JOINED = 2,
    VOLDAZPE_ALREADY_WAITING = 4,
    VOLDAZPE_CLOCK_BACK = 5, /* clock: the latest moment, which is after the tick's */
    VOLDAZPE_NOT_A_THREAD = 6,
    VOLDAZPE_CAP_TOO_LARGE = 7
} voldazpe_refusal_t;

enum { VOLDAZPE_LAST_REFUSAL = 7 }; /* the greatest number */

/* The word that `arbiter run` prints after the number of a refusal. Never null; it stays valid. */
static inline const char *voldazpe_refusal_name(uint32_t refusal) {
    switch (VOLDAZPE_CASES(voldazpe_refusal_t, refusal)) {
    case VOLDAZPE_ALREADY_JOINED: return "already-joined";
    case VOLDAZPE_NOT_JOINED: return "not-joined";
    case VOLDAZPE_ALREADY_WAITING: return "already-waiting";
    case VOLDAZPE_CLOCK_BACK: return "clock-back";
    case VOLDAZPE_NOT_A_THREAD: return "not-a-thread";
    case VOLDAZPE_CAP_TOO_LARGE: return "cap-too-large";
    }
    return "no refusal";
}

/* A reply: its kind, and the fields that a reply of that kind has; all others are 0. A refusal is a reply too: the call
 * answers VOLDAZPE_OK. Since 0 may be the number of a core, `voldazpe_reply_core` tells whether there is one. */
typedef struct voldazpe_reply {
    uint64_t clock;
    uint32_t kind;          /* a voldazpe_reply_kind_t */
    uint32_t refusal;       /* a voldazpe_refusal_t, or 0 */
    voldazpe_place_t place;
    uint8_t due;            /* cores due to the application */
    uint8_t owned;          /* cores that its threads are on */
    uint8_t asked;          /* of these, those that are asked back */
    uint8_t waiting;        /* threads that wait for a core */
    uint8_t moved;
} voldazpe_reply_t;

/* A line of text that says why an order was refused, for messages. Never null; it stays valid. */
static inline const char *voldazpe_refusal_text(uint32_t refusal) {
    switch (VOLDAZPE_CASES(voldazpe_refusal_t, refusal)) {
    case VOLDAZPE_ALREADY_JOINED: return "the application has joined before";
    case VOLDAZPE_NOT_JOINED: return "the application has not joined";
    case VOLDAZPE_ALREADY_WAITING: return "the thread waits already";
    case VOLDAZPE_CLOCK_BACK: return "the moment lies before the clock";
    case VOLDAZPE_NOT_A_THREAD: return "the clock gives no such order";
    case VOLDAZPE_CAP_TOO_LARGE: return "the cap is above 128";
    }
    return "no refusal";
}

/* The number of the core that a thread at this place is on, or -1 if it is on none. */
VOLDAZPE_MUST_USE
static inline int voldazpe_place_core(voldazpe_place_t place) {
    return place.kind == VOLDAZPE_ON ? place.core : -1;
}

/* The number of the core that an order to block gave the thread. -1 if the thread waits, the order was refused, or the
 * reply is to another order.
 *
 *     int core = voldazpe_reply_core(give(me, voldazpe_block()));
 *     if (core >= 0) pin_to((uint16_t)core); */
VOLDAZPE_MUST_USE
static inline int voldazpe_reply_core(voldazpe_reply_t reply) {
    return reply.kind == VOLDAZPE_NOW ? voldazpe_place_core(reply.place) : -1;
}

/* What an application has, as a reply of the kind COUNTS tells it. All fields are 0 if it hasn't joined. */
typedef struct voldazpe_counts {
    uint8_t due;     /* cores due to it */
    uint8_t owned;   /* cores that its threads are on */
    uint8_t asked;   /* of these, those that are asked back */
    uint8_t waiting; /* threads that wait for a core */
} voldazpe_counts_t;

/* How many cores an application asks for at each level. */
typedef struct voldazpe_request {
    uint8_t cores[VOLDAZPE_LEVELS];
} voldazpe_request_t;

/* A page word, and the value that it becomes. */
typedef struct voldazpe_post {
    uint64_t value;
    uint32_t word;
} voldazpe_post_t;

/* What a machine has. */
typedef struct voldazpe_machine {
    uint64_t grace;   /* after how many microseconds a thread is moved from a core that is asked back */
    uint32_t orders;  /* how many orders may be given, ticks and refused ones included; 0 where there is no limit */
    uint16_t managed; /* how many managed cores there are: as many as positions */
    uint16_t sockets; /* how many sockets there are */
} voldazpe_machine_t;

/* A core, managed or not. */
typedef struct voldazpe_core {
    uint16_t number; /* as in the machine's text and in the operating system */
    uint8_t socket;  /* numbered from 0, in the order of the text */
} voldazpe_core_t;

/* ---- the library ---- */

/* What the library keeps of an arbiter. */
typedef struct voldazpe_handle {
    void *held;
    bool live;
} voldazpe_handle_t;

/* What the library keeps of a member. */
typedef struct voldazpe_member_handle {
    void *held;
    bool live;
} voldazpe_member_handle_t;

VOLDAZPE_ASSERT(sizeof(void *) == 8 && sizeof(size_t) == 8, "a machine of 64 bits");
VOLDAZPE_ASSERT(sizeof(bool) == 1, "bool");
VOLDAZPE_ASSERT(sizeof(voldazpe_member_handle_t) == 16 && offsetof(voldazpe_member_handle_t, live) == 8, "member");
VOLDAZPE_ASSERT(sizeof(voldazpe_handle_t) == 16 && offsetof(voldazpe_handle_t, live) == 8, "handle");
VOLDAZPE_ASSERT(sizeof(voldazpe_order_t) == 24 && offsetof(voldazpe_order_t, kind) == 8 &&
                    offsetof(voldazpe_order_t, cap) == 12 && offsetof(voldazpe_order_t, request) == 13,
                "order");
VOLDAZPE_ASSERT(sizeof(voldazpe_place_t) == 8 && offsetof(voldazpe_place_t, core) == 4 &&
                    offsetof(voldazpe_place_t, asked) == 6,
                "place");
VOLDAZPE_ASSERT(sizeof(voldazpe_reply_t) == 32 && offsetof(voldazpe_reply_t, kind) == 8 &&
                    offsetof(voldazpe_reply_t, refusal) == 12 && offsetof(voldazpe_reply_t, place) == 16 &&
                    offsetof(voldazpe_reply_t, due) == 24 && offsetof(voldazpe_reply_t, owned) == 25 &&
                    offsetof(voldazpe_reply_t, asked) == 26 && offsetof(voldazpe_reply_t, waiting) == 27 &&
                    offsetof(voldazpe_reply_t, moved) == 28,
                "reply");
VOLDAZPE_ASSERT(sizeof(voldazpe_post_t) == 16 && offsetof(voldazpe_post_t, word) == 8, "post");
VOLDAZPE_ASSERT(sizeof(voldazpe_machine_t) == 16 && offsetof(voldazpe_machine_t, orders) == 8 &&
                    offsetof(voldazpe_machine_t, managed) == 12 && offsetof(voldazpe_machine_t, sockets) == 14,
                "machine");
VOLDAZPE_ASSERT(sizeof(voldazpe_core_t) == 4 && offsetof(voldazpe_core_t, socket) == 2, "core");
VOLDAZPE_ASSERT(sizeof(voldazpe_counts_t) == 4 && offsetof(voldazpe_counts_t, owned) == 1 &&
                    offsetof(voldazpe_counts_t, asked) == 2 && offsetof(voldazpe_counts_t, waiting) == 3,
                "counts");
VOLDAZPE_ASSERT(sizeof(voldazpe_request_t) == 8, "request");

#ifdef __cplusplus
extern "C" {
#endif
/* The library's functions, as its contracts state them. No pointer may be null, and no two may overlap. Calls on one
 * handle must come one at a time; calls on the handles of different members may overlap in time. From C and C++, call
 * the wrappers below instead. */
uint32_t voldazpe_lib_open(voldazpe_handle_t *handle, const uint8_t *text, size_t length, uint16_t *named);
uint32_t voldazpe_lib_close(voldazpe_handle_t *handle);
uint32_t voldazpe_lib_step(voldazpe_handle_t *handle, uint32_t client, const voldazpe_order_t *order,
                           voldazpe_reply_t *reply);
uint32_t voldazpe_lib_post(voldazpe_handle_t *handle, voldazpe_post_t *post);
uint32_t voldazpe_lib_posted(voldazpe_handle_t *handle, uint32_t word, uint64_t *value);
uint32_t voldazpe_lib_place(voldazpe_handle_t *handle, uint32_t thread, voldazpe_place_t *place);
uint32_t voldazpe_lib_owner(voldazpe_handle_t *handle, uint16_t core, uint32_t *thread);
uint32_t voldazpe_lib_count(voldazpe_handle_t *handle, uint32_t client, uint64_t *count);
uint32_t voldazpe_lib_orders(voldazpe_handle_t *handle, uint64_t *count);
uint32_t voldazpe_lib_clock(voldazpe_handle_t *handle, uint64_t *moment);
uint32_t voldazpe_lib_machine(voldazpe_handle_t *handle, voldazpe_machine_t *machine);
uint32_t voldazpe_lib_core_at(voldazpe_handle_t *handle, uint32_t position, voldazpe_core_t *core);
uint32_t voldazpe_lib_unmanaged_at(voldazpe_handle_t *handle, uint32_t index, voldazpe_core_t *core);
uint32_t voldazpe_lib_counts(voldazpe_handle_t *handle, uint32_t application, voldazpe_counts_t *counts);
uint32_t voldazpe_lib_requested(voldazpe_handle_t *handle, uint32_t application, voldazpe_request_t *request);
uint32_t voldazpe_lib_member_open(voldazpe_member_handle_t *handle, const uint8_t *text, size_t length,
                                  uint16_t *named);
uint32_t voldazpe_lib_member_another(voldazpe_member_handle_t *handle, voldazpe_member_handle_t *other);
uint32_t voldazpe_lib_member_close(voldazpe_member_handle_t *handle);
uint32_t voldazpe_lib_member_give(voldazpe_member_handle_t *handle, uint32_t client, const voldazpe_order_t *order,
                                  voldazpe_reply_t *reply);
uint32_t voldazpe_lib_member_begin(voldazpe_member_handle_t *handle);
uint32_t voldazpe_lib_member_begin_with(voldazpe_member_handle_t *handle, uint32_t client,
                                        const voldazpe_order_t *order, voldazpe_reply_t *reply);
uint32_t voldazpe_lib_member_step(voldazpe_member_handle_t *handle, uint32_t client, const voldazpe_order_t *order,
                                  voldazpe_reply_t *reply);
uint32_t voldazpe_lib_member_post(voldazpe_member_handle_t *handle, voldazpe_post_t *post);
uint32_t voldazpe_lib_member_post_or_end(voldazpe_member_handle_t *handle, voldazpe_post_t *post);
uint32_t voldazpe_lib_member_end(voldazpe_member_handle_t *handle);
uint32_t voldazpe_lib_member_read(voldazpe_member_handle_t *handle, uint32_t word, uint64_t *value);
uint32_t voldazpe_lib_member_place(voldazpe_member_handle_t *handle, uint32_t thread, voldazpe_place_t *place);
uint32_t voldazpe_lib_member_owner(voldazpe_member_handle_t *handle, uint16_t core, uint32_t *thread);
uint32_t voldazpe_lib_member_counts(voldazpe_member_handle_t *handle, uint32_t application,
                                    voldazpe_counts_t *counts);
uint32_t voldazpe_lib_member_requested(voldazpe_member_handle_t *handle, uint32_t application,
                                       voldazpe_request_t *request);
uint32_t voldazpe_lib_member_clock(voldazpe_member_handle_t *handle, uint64_t *moment);
uint32_t voldazpe_lib_member_machine(voldazpe_member_handle_t *handle, voldazpe_machine_t *machine);
uint32_t voldazpe_lib_member_core_at(voldazpe_member_handle_t *handle, uint32_t position, voldazpe_core_t *core);
uint32_t voldazpe_lib_member_unmanaged_at(voldazpe_member_handle_t *handle, uint32_t index, voldazpe_core_t *core);
#ifdef __cplusplus
}
#endif

/* ---- the arbiter ---- */

/* An arbiter. Zero bytes are a closed one: a static variable is closed, and a local one by `= VOLDAZPE_INIT`. It may
 * lie in static memory, on a stack or on the heap. */
typedef struct voldazpe_arbiter {
    voldazpe_handle_t handle;
    VOLDAZPE_ATOMIC(unsigned char) busy;
    unsigned long calls; /* counted only under ThreadSanitizer, without a lock: it reports callers that have none */
} voldazpe_arbiter_t;

#ifdef __cplusplus
#define VOLDAZPE_INIT {}
#else
#define VOLDAZPE_INIT {0}
#endif

/* Begins a call. False if another is going on. For the functions of this file. */
static inline bool voldazpe_begins(voldazpe_arbiter_t *arbiter) {
#if VOLDAZPE_THREAD_SANITIZER
    /* relaxed, so that the flag doesn't order the callers for the sanitizer: their own lock has to */
    if (VOLDAZPE_EXCHANGE_RELAXED(&arbiter->busy, 1)) return false;
    arbiter->calls++;
    return true;
#else
    return !VOLDAZPE_EXCHANGE_ACQUIRE(&arbiter->busy, 1);
#endif
}

/* Ends a call with its code. */
static inline voldazpe_code_t voldazpe_ends(voldazpe_arbiter_t *arbiter, uint32_t code) {
#if VOLDAZPE_THREAD_SANITIZER
    VOLDAZPE_STORE_RELAXED(&arbiter->busy, 0);
#else
    VOLDAZPE_STORE_RELEASE(&arbiter->busy, 0);
#endif
    return VOLDAZPE_CAST(voldazpe_code_t, code);
}

/* Opens a closed arbiter for the machine that a text describes. No order has been given yet. It keeps one block of
 * 41,296 bytes from malloc until it is closed; no other call allocates memory. While it reads the text it takes more:
 * up to 45 KB in all for a few cores, 105 KB for a thousand, and 40 MB for a text full of dotted keys, before that text
 * is refused.
 *
 * The text is TOML, in UTF-8, of at most 65,536 bytes:
 *
 *     grace = 10000         # microseconds until a thread that keeps a core is moved, 1 to 1,000,000,000; or left out
 *     orders = 1000         # how many orders may be given, 1 to 1,000,000; or left out
 *     [[socket]]            # 1 to 8 of these
 *     managed = [1, 2, 3]   # cores that the arbiter hands out, 1 to 128 over all sockets
 *     unmanaged = [0]       # cores that the ordinary scheduler keeps, at least 1 over all sockets
 *
 * If `grace` is left out, it is as here; if `orders` is left out, there is no limit. A socket has both lists; one may
 * be empty, `[]`. A core's number is 0 to 1023, and stands once in all lists. A managed core's *position* is its index,
 * from 0, in all managed lists joined in order. `length` is the number of bytes, without a closing zero. If the code is
 * VOLDAZPE_CORE_TWICE and `named` isn't null, *named becomes the core that is listed twice.
 *
 * Returns VOLDAZPE_OK, or the first of: NULL, TOO_LONG, BUSY, ALREADY_OPEN, NOT_UTF8, and what is wrong with the text,
 * from NOT_TOML to NO_UNMANAGED. OUT_OF_MEMORY means that malloc failed, and nothing is kept. (That it comes only then
 * is tested, not proved.)
 *
 * Stack: up to 160 KB. Give the thread at least 256 KB. The default of musl's threads is too small, and so is the small
 * stack of a user thread. */
VOLDAZPE_MUST_USE
static inline voldazpe_code_t voldazpe_open(voldazpe_arbiter_t *arbiter, const char *text, size_t length,
                                            uint16_t *named) {
    const void *bytes = text ? text : "";
    uint16_t core = 0;
    uint32_t code;
    if (!arbiter || (!text && length)) return VOLDAZPE_NULL;
    if (length > VOLDAZPE_TEXT) return VOLDAZPE_TOO_LONG;
    if (!voldazpe_begins(arbiter)) return VOLDAZPE_BUSY;
    code = voldazpe_lib_open(&arbiter->handle, VOLDAZPE_CAST(const uint8_t *, bytes), length, &core);
    if (code == VOLDAZPE_CORE_TWICE && named) *named = core;
    return voldazpe_ends(arbiter, code);
}

/* Closes an arbiter and frees what it has, for a caller that keeps a page of its own. A page stays as it is: threads
 * still read their places in an arbiter that is gone, and a thread that sleeps there sleeps on. If you have a
 * `voldazpe_page_t`, call `voldazpe_close_and_clear`.
 *
 * Returns VOLDAZPE_OK, NULL, BUSY or CLOSED. */
static inline voldazpe_code_t voldazpe_close(voldazpe_arbiter_t *arbiter) {
    if (!arbiter) return VOLDAZPE_NULL;
    if (!voldazpe_begins(arbiter)) return VOLDAZPE_BUSY;
    return voldazpe_ends(arbiter, voldazpe_lib_close(&arbiter->handle));
}

/* ---- the page ---- */

/* The page words as they were posted, which any thread reads without a lock. Word 0 counts the orders. Two words of
 * each application say which of its cores are asked back, and one word of each thread says where it is. A page begins
 * as zero bytes: static, or `voldazpe_page_t page = VOLDAZPE_INIT;`. */
typedef struct voldazpe_page {
    VOLDAZPE_ATOMIC(uint32_t) members; /* how many its arbiter has, or UINT32_MAX while the last one clears the page */
    VOLDAZPE_ATOMIC(uint32_t) waiting; /* a mark: a member sleeps, or is about to, until the arbiter is given back */
    VOLDAZPE_ATOMIC(uint32_t) given;   /* such members sleep on this: it changes when one is to wake */
    VOLDAZPE_ATOMIC(uint32_t) held;    /* orders what members do while they have the arbiter */
    VOLDAZPE_ATOMIC(uint64_t) words[VOLDAZPE_WORDS];
    VOLDAZPE_ATOMIC(uint32_t) sleepers[VOLDAZPE_ALL_THREADS]; /* how many sleep on a thread's word */
} voldazpe_page_t;

#if VOLDAZPE_SLEEPS
/* The half of a thread's word that the kernel looks at. It has all that matters, since place words are small. */
static inline void *voldazpe_futex(voldazpe_page_t *page, uint32_t thread) {
    void *at = &page->words[VOLDAZPE_FIRST_PLACE + thread];
    char *word = VOLDAZPE_CAST(char *, at);
#if defined(__BYTE_ORDER__) && __BYTE_ORDER__ == __ORDER_BIG_ENDIAN__
    word += 4;
#endif
    return word;
}
#endif

/* Stores a word. True if the word said that its thread waits and no longer does, and a thread sleeps on it. */
static inline bool voldazpe_page_set(voldazpe_page_t *page, uint32_t word, uint64_t value) {
#if VOLDAZPE_SLEEPS
    uint64_t before = VOLDAZPE_LOAD(&page->words[word]);
    VOLDAZPE_STORE(&page->words[word], value);
    return word >= VOLDAZPE_FIRST_PLACE && before == VOLDAZPE_WAITING && value != VOLDAZPE_WAITING &&
           VOLDAZPE_LOAD(&page->sleepers[word - VOLDAZPE_FIRST_PLACE]) != 0;
#else
    VOLDAZPE_STORE(&page->words[word], value);
    return false;
#endif
}

#if VOLDAZPE_SLEEPS
/* Wakes up to `many` threads that sleep on this half of a word. errno stays as it is. */
VOLDAZPE_RARE static inline void voldazpe_wake(void *half, int many) {
    int kept = errno;
    (void)syscall(SYS_futex, half, FUTEX_WAKE_PRIVATE, many, NULL, NULL, 0);
    errno = kept;
}
#endif

/* Stores a word. If the word said that its thread waits and no longer does, wakes the threads that sleep on it. */
static inline void voldazpe_page_store(voldazpe_page_t *page, uint32_t word, uint64_t value) {
    bool wakes = voldazpe_page_set(page, word, value);
#if VOLDAZPE_SLEEPS
    if (wakes) voldazpe_wake(voldazpe_futex(page, word - VOLDAZPE_FIRST_PLACE), INT_MAX);
#else
    (void)wakes;
#endif
}

/* Makes all words 0, so that the page can be used with the next arbiter. Threads that sleep on a word are woken, and
 * find their thread on no core. Call it while no arbiter uses the page: after a close, before the next open. The page
 * must have begun as zero bytes. A null pointer does nothing. A page may be freed once no thread reads it and each
 * `voldazpe_wait` on it has returned: a thread that was woken still touches it. */
static inline void voldazpe_page_clear(voldazpe_page_t *page) {
    if (!page) return;
    for (uint32_t word = 0; word < VOLDAZPE_WORDS; word++) voldazpe_page_store(page, word, 0);
}

/* Closes an arbiter, frees what it has, and clears its page. Each thread then reads that it is on no core, and threads
 * that sleep there are woken. The arbiter can be opened again, with the same page. Take your lock around the call.
 *
 * Returns VOLDAZPE_OK, or NULL, BUSY or CLOSED: then the page stays as it is. */
static inline voldazpe_code_t voldazpe_close_and_clear(voldazpe_arbiter_t *arbiter, voldazpe_page_t *page) {
    uint32_t code;
    if (!arbiter || !page) return VOLDAZPE_NULL;
    if (!voldazpe_begins(arbiter)) return VOLDAZPE_BUSY;
    code = voldazpe_lib_close(&arbiter->handle);
    if (code == VOLDAZPE_OK) voldazpe_page_clear(page);
    return voldazpe_ends(arbiter, code);
}

/* ---- an order and its posts ---- */

/* Posts all stale words of an arbiter, within a call that has begun. */
static inline uint32_t voldazpe_posts(voldazpe_arbiter_t *arbiter, voldazpe_page_t *page) {
    voldazpe_post_t post;
    uint64_t count = 0;
    uint32_t code = voldazpe_lib_posted(&arbiter->handle, 0, &count);
    if (code != VOLDAZPE_OK) return code;
    voldazpe_page_store(page, 0, count);
    while ((code = voldazpe_lib_post(&arbiter->handle, &post)) == VOLDAZPE_OK) {
        voldazpe_page_store(page, post.word, post.value);
    }
    return code == VOLDAZPE_SETTLED ? VOLDAZPE_CAST(uint32_t, VOLDAZPE_OK) : code;
}

/* Gives an order of a client, and posts what it changes. A runtime calls this for every order. Take your lock around
 * the call.
 *
 * The words are posted one by one, those that lose a core first, so at no moment do two words name one core. On Linux a
 * thread that sleeps in `voldazpe_wait` is woken when its word no longer says that it waits.
 *
 * Returns VOLDAZPE_OK with *reply, or the first of: NULL, BUSY, CLOSED, NO_CLIENT, NO_ORDER, ENTRY_TOO_LARGE, STALE
 * (after a `voldazpe_step` without its posts), FULL. After each of these nothing has changed, not even *reply. A
 * refused order is answered VOLDAZPE_OK, with a reply of the kind VOLDAZPE_REFUSED.
 *
 *     voldazpe_reply_t reply;
 *     pthread_mutex_lock(&lock);
 *     voldazpe_code_t code = voldazpe_give(&arbiter, &page, me, voldazpe_ask(0, 4), &reply);
 *     pthread_mutex_unlock(&lock);
 *     if (code != VOLDAZPE_OK) fprintf(stderr, "%s\n", voldazpe_code_text(code));
 *     else if (reply.kind == VOLDAZPE_DUE) printf("due %u\n", reply.due); */
VOLDAZPE_MUST_USE
static inline voldazpe_code_t voldazpe_give(voldazpe_arbiter_t *arbiter, voldazpe_page_t *page, uint32_t client,
                                            voldazpe_order_t order, voldazpe_reply_t *reply) {
    voldazpe_reply_t answer;
    uint32_t code;
    if (!arbiter || !page || !reply) return VOLDAZPE_NULL;
    if (!voldazpe_begins(arbiter)) return VOLDAZPE_BUSY;
    code = voldazpe_lib_step(&arbiter->handle, client, &order, &answer);
    if (code == VOLDAZPE_OK) {
        code = voldazpe_posts(arbiter, page);
        *reply = answer;
    }
    return voldazpe_ends(arbiter, code);
}

/* Gives an order and posts nothing, for a caller that keeps a page of its own. Until its posts are made, by
 * `voldazpe_post_all` or `voldazpe_next_post`, the next order is answered VOLDAZPE_STALE. Returns as
 * `voldazpe_give`. */
VOLDAZPE_MUST_USE
static inline voldazpe_code_t voldazpe_step(voldazpe_arbiter_t *arbiter, uint32_t client, voldazpe_order_t order,
                                            voldazpe_reply_t *reply) {
    voldazpe_reply_t answer;
    uint32_t code;
    if (!arbiter || !reply) return VOLDAZPE_NULL;
    if (!voldazpe_begins(arbiter)) return VOLDAZPE_BUSY;
    code = voldazpe_lib_step(&arbiter->handle, client, &order, &answer);
    if (code == VOLDAZPE_OK) *reply = answer;
    return voldazpe_ends(arbiter, code);
}

/* Posts to the page all words that an order left stale, in their order, and the count of orders. Returns VOLDAZPE_OK,
 * even if there was nothing to post, or NULL, BUSY or CLOSED. */
VOLDAZPE_MUST_USE
static inline voldazpe_code_t voldazpe_post_all(voldazpe_arbiter_t *arbiter, voldazpe_page_t *page) {
    if (!arbiter || !page) return VOLDAZPE_NULL;
    if (!voldazpe_begins(arbiter)) return VOLDAZPE_BUSY;
    return voldazpe_ends(arbiter, voldazpe_posts(arbiter, page));
}

/* Tells the next word to be posted, and its value, and counts it as posted. Before the next call, store it where your
 * threads read it. Returns VOLDAZPE_OK with *post, VOLDAZPE_SETTLED if no word is left, or NULL, BUSY or CLOSED. Word
 * 0, the count of orders, is posted by the order itself: `voldazpe_posted` tells it.
 *
 *     while (voldazpe_next_post(&arbiter, &post) == VOLDAZPE_OK) my_page_store(post.word, post.value); */
VOLDAZPE_MUST_USE
static inline voldazpe_code_t voldazpe_next_post(voldazpe_arbiter_t *arbiter, voldazpe_post_t *post) {
    voldazpe_post_t next;
    uint32_t code;
    if (!arbiter || !post) return VOLDAZPE_NULL;
    if (!voldazpe_begins(arbiter)) return VOLDAZPE_BUSY;
    code = voldazpe_lib_post(&arbiter->handle, &next);
    if (code == VOLDAZPE_OK) *post = next;
    return voldazpe_ends(arbiter, code);
}

/* ---- what the arbiter has: under the lock, like each call. These are no orders, and count towards no limit. ---- */

/* The value that a page word, 0 to 544, had when it was last posted. Also NULL, BUSY, CLOSED, NO_WORD. */
VOLDAZPE_MUST_USE
static inline voldazpe_code_t voldazpe_posted(voldazpe_arbiter_t *arbiter, uint32_t word, uint64_t *value) {
    uint64_t read;
    uint32_t code;
    if (!arbiter || !value) return VOLDAZPE_NULL;
    if (!voldazpe_begins(arbiter)) return VOLDAZPE_BUSY;
    code = voldazpe_lib_posted(&arbiter->handle, word, &read);
    if (code == VOLDAZPE_OK) *value = read;
    return voldazpe_ends(arbiter, code);
}

/* Where a thread is. Also NULL, BUSY, CLOSED, NO_CLIENT (the clock is no thread).
 *
 *     if (voldazpe_place(&arbiter, me, &place) == VOLDAZPE_OK && place.kind == VOLDAZPE_ON) pin_to(place.core); */
VOLDAZPE_MUST_USE
static inline voldazpe_code_t voldazpe_place(voldazpe_arbiter_t *arbiter, uint32_t thread, voldazpe_place_t *place) {
    voldazpe_place_t read;
    uint32_t code;
    if (!arbiter || !place) return VOLDAZPE_NULL;
    if (!voldazpe_begins(arbiter)) return VOLDAZPE_BUSY;
    code = voldazpe_lib_place(&arbiter->handle, thread, &read);
    if (code == VOLDAZPE_OK) *place = read;
    return voldazpe_ends(arbiter, code);
}

/* The thread that is on the core with this number. Also NULL, BUSY, CLOSED, NO_OWNER (the core is free, or not
 * managed).
 *
 *     if (voldazpe_owner(&arbiter, 3, &thread) == VOLDAZPE_OK) application = thread / VOLDAZPE_THREADS; */
VOLDAZPE_MUST_USE
static inline voldazpe_code_t voldazpe_owner(voldazpe_arbiter_t *arbiter, uint16_t core, uint32_t *thread) {
    uint32_t read;
    uint32_t code;
    if (!arbiter || !thread) return VOLDAZPE_NULL;
    if (!voldazpe_begins(arbiter)) return VOLDAZPE_BUSY;
    code = voldazpe_lib_owner(&arbiter->handle, core, &read);
    if (code == VOLDAZPE_OK) *thread = read;
    return voldazpe_ends(arbiter, code);
}

/* What an application, 0 to 15, has: the same as an order `voldazpe_status` tells. All fields are 0 if it hasn't
 * joined. Also NULL, BUSY, CLOSED, NO_APPLICATION.
 *
 *     if (voldazpe_counts(&arbiter, 2, &counts) == VOLDAZPE_OK && counts.owned > counts.due) cut_work_short(); */
VOLDAZPE_MUST_USE
static inline voldazpe_code_t voldazpe_counts(voldazpe_arbiter_t *arbiter, uint32_t application,
                                              voldazpe_counts_t *counts) {
    voldazpe_counts_t read;
    uint32_t code;
    if (!arbiter || !counts) return VOLDAZPE_NULL;
    if (!voldazpe_begins(arbiter)) return VOLDAZPE_BUSY;
    code = voldazpe_lib_counts(&arbiter->handle, application, &read);
    if (code == VOLDAZPE_OK) *counts = read;
    return voldazpe_ends(arbiter, code);
}

/* What an application, 0 to 15, asks for, as far as it counts: its last ask, cut at its cap if it has one. Also NULL,
 * BUSY, CLOSED, NO_APPLICATION, NO_REQUEST (it hasn't joined, or has left).
 *
 *     if (voldazpe_requested(&arbiter, 2, &request) == VOLDAZPE_OK) printf("%u at level 0\n", request.cores[0]); */
VOLDAZPE_MUST_USE
static inline voldazpe_code_t voldazpe_requested(voldazpe_arbiter_t *arbiter, uint32_t application,
                                                 voldazpe_request_t *request) {
    voldazpe_request_t read;
    uint32_t code;
    if (!arbiter || !request) return VOLDAZPE_NULL;
    if (!voldazpe_begins(arbiter)) return VOLDAZPE_BUSY;
    code = voldazpe_lib_requested(&arbiter->handle, application, &read);
    if (code == VOLDAZPE_OK) *request = read;
    return voldazpe_ends(arbiter, code);
}

/* How many orders of a client were given, refused ones included. Also NULL, BUSY, CLOSED, NO_CLIENT. */
VOLDAZPE_MUST_USE
static inline voldazpe_code_t voldazpe_count(voldazpe_arbiter_t *arbiter, uint32_t client, uint64_t *count) {
    uint64_t read;
    uint32_t code;
    if (!arbiter || !count) return VOLDAZPE_NULL;
    if (!voldazpe_begins(arbiter)) return VOLDAZPE_BUSY;
    code = voldazpe_lib_count(&arbiter->handle, client, &read);
    if (code == VOLDAZPE_OK) *count = read;
    return voldazpe_ends(arbiter, code);
}

/* How many orders were given, refused ones included. Also NULL, BUSY, CLOSED. */
VOLDAZPE_MUST_USE
static inline voldazpe_code_t voldazpe_orders(voldazpe_arbiter_t *arbiter, uint64_t *count) {
    uint64_t read;
    uint32_t code;
    if (!arbiter || !count) return VOLDAZPE_NULL;
    if (!voldazpe_begins(arbiter)) return VOLDAZPE_BUSY;
    code = voldazpe_lib_orders(&arbiter->handle, &read);
    if (code == VOLDAZPE_OK) *count = read;
    return voldazpe_ends(arbiter, code);
}

/* The latest moment of a tick, in microseconds; 0 before the first. Also NULL, BUSY, CLOSED. */
VOLDAZPE_MUST_USE
static inline voldazpe_code_t voldazpe_clock(voldazpe_arbiter_t *arbiter, uint64_t *moment) {
    uint64_t read;
    uint32_t code;
    if (!arbiter || !moment) return VOLDAZPE_NULL;
    if (!voldazpe_begins(arbiter)) return VOLDAZPE_BUSY;
    code = voldazpe_lib_clock(&arbiter->handle, &read);
    if (code == VOLDAZPE_OK) *moment = read;
    return voldazpe_ends(arbiter, code);
}

/* The machine: its grace, its limit on orders, and how many managed cores and sockets it has. Also NULL, BUSY,
 * CLOSED. */
VOLDAZPE_MUST_USE
static inline voldazpe_code_t voldazpe_machine(voldazpe_arbiter_t *arbiter, voldazpe_machine_t *machine) {
    voldazpe_machine_t read;
    uint32_t code;
    if (!arbiter || !machine) return VOLDAZPE_NULL;
    if (!voldazpe_begins(arbiter)) return VOLDAZPE_BUSY;
    code = voldazpe_lib_machine(&arbiter->handle, &read);
    if (code == VOLDAZPE_OK) *machine = read;
    return voldazpe_ends(arbiter, code);
}

/* The number and the socket of the core at a position. Also NULL, BUSY, CLOSED, NO_POSITION. A machine never changes,
 * so a runtime reads all of them once, after `voldazpe_open`:
 *
 *     for (uint32_t p = 0; voldazpe_core_at(&arbiter, p, &core) == VOLDAZPE_OK; p++) numbers[p] = core.number; */
VOLDAZPE_MUST_USE
static inline voldazpe_code_t voldazpe_core_at(voldazpe_arbiter_t *arbiter, uint32_t position, voldazpe_core_t *core) {
    voldazpe_core_t read;
    uint32_t code;
    if (!arbiter || !core) return VOLDAZPE_NULL;
    if (!voldazpe_begins(arbiter)) return VOLDAZPE_BUSY;
    code = voldazpe_lib_core_at(&arbiter->handle, position, &read);
    if (code == VOLDAZPE_OK) *core = read;
    return voldazpe_ends(arbiter, code);
}

/* The number and the socket of an unmanaged core, by its index from 0: sockets in the order of the text, in each the
 * order of its list. Also NULL, BUSY, CLOSED, NO_POSITION (past the last). The mask for threads without a core:
 *
 *     for (uint32_t i = 0; voldazpe_unmanaged_at(&arbiter, i, &core) == VOLDAZPE_OK; i++) {
 *         CPU_SET(core.number, &unmanaged);
 *     } */
VOLDAZPE_MUST_USE
static inline voldazpe_code_t voldazpe_unmanaged_at(voldazpe_arbiter_t *arbiter, uint32_t index,
                                                    voldazpe_core_t *core) {
    voldazpe_core_t read;
    uint32_t code;
    if (!arbiter || !core) return VOLDAZPE_NULL;
    if (!voldazpe_begins(arbiter)) return VOLDAZPE_BUSY;
    code = voldazpe_lib_unmanaged_at(&arbiter->handle, index, &read);
    if (code == VOLDAZPE_OK) *core = read;
    return voldazpe_ends(arbiter, code);
}

/* ---- many threads: members of an arbiter ---- */

/* A member of an arbiter: one thread's side of it. Zero bytes are a closed member. All members of an arbiter share its
 * page, and any of them may give orders of any client.
 *
 * This is proved of the library: the orders and posts of all members are one growing history. Each reply, and each word
 * that `voldazpe_member_read` reads, is the single-threaded arbiter's at a point of that history. That point is never
 * before one that the member had seen. The rest is trusted: the page, which this file keeps as a copy of the library's
 * words, and sleeping and waking. */
typedef struct voldazpe_member {
    voldazpe_member_handle_t handle;
    voldazpe_page_t *page;          /* its arbiter's; null if the member is closed */
    VOLDAZPE_ATOMIC(unsigned char) busy;
    bool turn;                      /* whether it is in a turn */
    uint16_t wake_count;
    uint16_t wakes[VOLDAZPE_WAKES]; /* threads that are woken when it gives the arbiter back */
    unsigned long calls; /* counted only under ThreadSanitizer: it reports two threads that call on one member */
} voldazpe_member_t;

/* Begins a call on a member. False if it sees another going on. For the functions of this file. */
static inline bool voldazpe_member_enters(voldazpe_member_t *member) {
    if (VOLDAZPE_LOAD_RELAXED(&member->busy)) return false;
    VOLDAZPE_STORE_RELAXED(&member->busy, 1);
#if VOLDAZPE_THREAD_SANITIZER
    member->calls++;
#endif
    return true;
}

/* Ends a call on a member with its code. */
static inline voldazpe_code_t voldazpe_member_leaves(voldazpe_member_t *member, uint32_t code) {
    VOLDAZPE_STORE_RELAXED(&member->busy, 0);
    return VOLDAZPE_CAST(voldazpe_code_t, code);
}

/* Opens a closed member of a new arbiter for the machine that a text describes. No order has been given yet. This is
 * the arbiter's first member, and `page` becomes the arbiter's. The text, `length`, `named` and the stack that is
 * needed are as for `voldazpe_open`. The arbiter keeps 41,664 bytes of malloc's until the last member closes, and each
 * further member 24 bytes until it closes itself. While it reads the text it takes more: up to 60 KB in all for a few
 * cores, 120 KB for a thousand, and 40 MB where `voldazpe_open` does.
 *
 * Returns VOLDAZPE_OK, or the first of: NULL, TOO_LONG, BUSY, ALREADY_OPEN (the member is open, or the page has
 * members), NOT_UTF8, what is wrong with the text. OUT_OF_MEMORY means that malloc failed, and nothing is kept. */
VOLDAZPE_MUST_USE
static inline voldazpe_code_t voldazpe_member_open(voldazpe_member_t *member, voldazpe_page_t *page, const char *text,
                                                   size_t length, uint16_t *named) {
    const void *bytes = text ? text : "";
    uint16_t core = 0;
    uint32_t code = VOLDAZPE_ALREADY_OPEN, none = 0;
    if (!member || !page || (!text && length)) return VOLDAZPE_NULL;
    if (length > VOLDAZPE_TEXT) return VOLDAZPE_TOO_LONG;
    if (!voldazpe_member_enters(member)) return VOLDAZPE_BUSY;
    if (VOLDAZPE_COMPARE_EXCHANGE(&page->members, &none, 1)) {
        code = voldazpe_lib_member_open(&member->handle, VOLDAZPE_CAST(const uint8_t *, bytes), length, &core);
        if (code == VOLDAZPE_OK) member->page = page;
        else VOLDAZPE_STORE(&page->members, 0);
    }
    if (code == VOLDAZPE_CORE_TWICE && named) *named = core;
    return voldazpe_member_leaves(member, code);
}

/* Opens one more member of an arbiter, for another thread: `other`, which is closed. It has seen what `member` has
 * seen. This is a call on both members: make it in the thread of `member`. Returns VOLDAZPE_OK, or the first of: NULL,
 * BUSY, ALREADY_OPEN (`other` is open), CLOSED, IN_TURN, OUT_OF_MEMORY (malloc failed). */
VOLDAZPE_MUST_USE
static inline voldazpe_code_t voldazpe_member_another(voldazpe_member_t *member, voldazpe_member_t *other) {
    uint32_t code;
    if (!member || !other) return VOLDAZPE_NULL;
    if (!voldazpe_member_enters(member)) return VOLDAZPE_BUSY;
    if (!voldazpe_member_enters(other)) return voldazpe_member_leaves(member, VOLDAZPE_BUSY);
    code = voldazpe_lib_member_another(&member->handle, &other->handle);
    if (code == VOLDAZPE_OK) {
        other->page = member->page;
        VOLDAZPE_ADD(&other->page->members, 1);
    }
    (void)voldazpe_member_leaves(other, code);
    return voldazpe_member_leaves(member, code);
}

/* Closes a member; it is zero bytes again. Members may close in any order, and from any thread. The last one frees what
 * the arbiter has, and clears the page: each thread then reads that it is on no core, and threads that sleep there are
 * woken. Then the page can have another arbiter. Returns VOLDAZPE_OK, NULL, BUSY, CLOSED or IN_TURN. */
static inline voldazpe_code_t voldazpe_member_close(voldazpe_member_t *member) {
    voldazpe_page_t *page;
    uint32_t code, members;
    if (!member) return VOLDAZPE_NULL;
    if (!voldazpe_member_enters(member)) return VOLDAZPE_BUSY;
    code = voldazpe_lib_member_close(&member->handle);
    if (code == VOLDAZPE_OK) {
        page = member->page;
        member->page = NULL;
        member->calls = 0;
        for (uint32_t i = 0; i < VOLDAZPE_WAKES; i++) member->wakes[i] = 0;
        members = VOLDAZPE_LOAD(&page->members);
        /* the page is nobody else's while the last one clears it */
        while (!VOLDAZPE_COMPARE_EXCHANGE(&page->members, &members, members == 1 ? UINT32_MAX : members - 1)) {}
        if (members == 1) {
            voldazpe_page_clear(page);
            VOLDAZPE_STORE(&page->members, 0);
        }
    }
    return voldazpe_member_leaves(member, code);
}

/* Pauses the processor for some cycles. */
static inline void voldazpe_pause(void) {
#if defined(__x86_64__) && defined(__GNUC__)
    __builtin_ia32_pause();
#elif defined(__aarch64__) && defined(__GNUC__)
    __asm__ volatile("yield");
#endif
}

#if VOLDAZPE_SLEEPS
/* Sleeps until a member has the arbiter, which it found taken. Returns what the library answered.
 *
 * No wake is lost. The member reads `given`, marks that it waits, and then finds the arbiter taken, so the mark is seen
 * later. A member that erases the mark then changes `given` and wakes a sleeper. No member sleeps past the change, and
 * one that wakes marks again. */
VOLDAZPE_RARE static inline uint32_t voldazpe_member_sleeps(voldazpe_member_t *member) {
    voldazpe_page_t *page = member->page;
    void *at = &page->given;
    const int kept = errno;
    uint32_t code, seen;
    for (;;) {
        seen = VOLDAZPE_LOAD(&page->given);
        VOLDAZPE_STORE(&page->waiting, 1);
        code = voldazpe_lib_member_begin(&member->handle);
        if (code != VOLDAZPE_TAKEN) break;
        (void)syscall(SYS_futex, at, FUTEX_WAIT_PRIVATE, seen, NULL, NULL, 0);
    }
    errno = kept;
    return code;
}
#endif

/* Takes the arbiter for a member that found it taken. It pauses for longer and longer, since an order takes less time
 * than sleeping and waking, and then sleeps. */
VOLDAZPE_RARE static inline uint32_t voldazpe_member_awaits(voldazpe_member_t *member) {
    uint32_t code = VOLDAZPE_TAKEN;
    for (uint32_t tries = 0, pauses = 8; code == VOLDAZPE_TAKEN; tries++) {
#if VOLDAZPE_SLEEPS
        if (tries == 16) return voldazpe_member_sleeps(member);
#endif
        for (uint32_t i = 0; i < pauses; i++) voldazpe_pause();
        if (pauses < 128) pauses *= 2;
        code = voldazpe_lib_member_begin(&member->handle);
    }
    return code;
}

/* Takes the arbiter, and waits for it if `waits` says so. Returns what the library answered. */
static inline uint32_t voldazpe_member_takes(voldazpe_member_t *member, bool waits) {
    uint32_t code = voldazpe_lib_member_begin(&member->handle);
    if (code == VOLDAZPE_TAKEN && waits) code = voldazpe_member_awaits(member);
    /* with the store before the end, this shows compiler and ThreadSanitizer the order that the library's lock makes */
    if (code == VOLDAZPE_OK) (void)VOLDAZPE_LOAD_ACQUIRE(&member->page->held);
    return code;
}

#if VOLDAZPE_SLEEPS
/* Erases the mark of the members that wait for the arbiter, and wakes one of them. */
VOLDAZPE_RARE static inline void voldazpe_member_wakes_one(voldazpe_page_t *page) {
    void *at = &page->given;
    VOLDAZPE_STORE(&page->waiting, 0);
    VOLDAZPE_ADD(&page->given, 1);
    voldazpe_wake(at, 1);
}

/* Wakes the threads that a member has noted. */
VOLDAZPE_RARE static inline void voldazpe_member_wakes_kept(voldazpe_member_t *member) {
    for (uint32_t i = 0; i < member->wake_count; i++) {
        voldazpe_wake(voldazpe_futex(member->page, member->wakes[i]), INT_MAX);
    }
    member->wake_count = 0;
}
#endif

/* Wakes a member that waits for the arbiter, which this one has given back, and then threads whose word no longer says
 * that they wait. A thread that woke before that, on this processor, would keep the arbiter taken. */
static inline void voldazpe_member_wakes(voldazpe_member_t *member) {
#if VOLDAZPE_SLEEPS
    if (VOLDAZPE_LOAD(&member->page->waiting) != 0) voldazpe_member_wakes_one(member->page);
    if (member->wake_count != 0) voldazpe_member_wakes_kept(member);
#else
    (void)member;
#endif
}

/* Gives back the arbiter, which the member has, and then wakes. */
static inline uint32_t voldazpe_member_gives_back(voldazpe_member_t *member) {
    uint32_t code;
    VOLDAZPE_STORE_RELEASE(&member->page->held, 1);
    code = voldazpe_lib_member_end(&member->handle);
    if (code == VOLDAZPE_OK) voldazpe_member_wakes(member);
    return code;
}

/* Stores a word in the page of a member that has the arbiter. The lock orders these stores, and each is over before the
 * arbiter is given back: a release is enough for readers. If the word no longer says that its thread waits, its
 * sleepers are read after the store, and both are sequentially consistent. A thread that is to be woken is noted for
 * later, if there is room. */
static inline void voldazpe_member_stores(voldazpe_member_t *member, uint32_t word, uint64_t value) {
    voldazpe_page_t *page = member->page;
#if VOLDAZPE_SLEEPS
    if (word >= VOLDAZPE_FIRST_PLACE && value != VOLDAZPE_WAITING &&
        VOLDAZPE_LOAD_RELAXED(&page->words[word]) == VOLDAZPE_WAITING) {
        uint32_t thread = word - VOLDAZPE_FIRST_PLACE;
        if (!voldazpe_page_set(page, word, value)) return;
        if (member->wake_count == VOLDAZPE_WAKES) voldazpe_wake(voldazpe_futex(page, thread), INT_MAX);
        else member->wakes[member->wake_count++] = VOLDAZPE_CAST(uint16_t, thread);
        return;
    }
#endif
    VOLDAZPE_STORE_RELEASE(&page->words[word], value);
}

/* Enters an order, and counts it in the page, as the library does in word 0. */
static inline uint32_t voldazpe_member_steps(voldazpe_member_t *member, uint32_t client, const voldazpe_order_t *order,
                                             voldazpe_reply_t *reply) {
    uint32_t code = voldazpe_lib_member_step(&member->handle, client, order, reply);
    if (code == VOLDAZPE_OK) voldazpe_member_stores(member, 0, VOLDAZPE_LOAD_RELAXED(&member->page->words[0]) + 1);
    return code;
}

/* Posts the next stale word. Returns what the library answered. */
static inline uint32_t voldazpe_member_posts(voldazpe_member_t *member, voldazpe_post_t *post) {
    uint32_t code = voldazpe_lib_member_post(&member->handle, post);
    if (code == VOLDAZPE_OK) voldazpe_member_stores(member, post->word, post->value);
    return code;
}

/* Posts the next stale word. If none is stale, gives the arbiter back and then wakes. Returns what the library
 * answered. `held` is stored each time, since the library decides which of the two it is. */
static inline uint32_t voldazpe_member_posts_or_gives_back(voldazpe_member_t *member) {
    voldazpe_post_t post;
    uint32_t code;
    VOLDAZPE_STORE_RELEASE(&member->page->held, 1);
    code = voldazpe_lib_member_post_or_end(&member->handle, &post);
    if (code == VOLDAZPE_OK) voldazpe_member_stores(member, post.word, post.value);
    if (code == VOLDAZPE_SETTLED) voldazpe_member_wakes(member);
    return code;
}

/* Takes the arbiter, enters an order, and counts it in the page. Returns what the library answered. If that is OK, the
 * member has the arbiter. If it is FULL, the library has given the arbiter back, and a member that found it taken is
 * woken. */
static inline uint32_t voldazpe_member_begins_with(voldazpe_member_t *member, uint32_t client,
                                                   const voldazpe_order_t *order, voldazpe_reply_t *reply) {
    uint32_t code = voldazpe_lib_member_begin_with(&member->handle, client, order, reply);
    if (code == VOLDAZPE_OK) {
        (void)VOLDAZPE_LOAD_ACQUIRE(&member->page->held); /* as voldazpe_member_takes does */
        voldazpe_member_stores(member, 0, VOLDAZPE_LOAD_RELAXED(&member->page->words[0]) + 1);
    }
    if (code == VOLDAZPE_FULL) voldazpe_member_wakes(member);
    return code;
}

/* Gives an order, and waits for the arbiter if `waits` says so. What is wrong with the order comes before IN_TURN and
 * TAKEN, and these come before FULL. */
static inline voldazpe_code_t voldazpe_member_gives(voldazpe_member_t *member, uint32_t client, voldazpe_order_t order,
                                                    voldazpe_reply_t *reply, bool waits) {
    voldazpe_reply_t answer;
    uint32_t code;
    if (!member || !reply) return VOLDAZPE_NULL;
    if (!voldazpe_member_enters(member)) return VOLDAZPE_BUSY;
    code = voldazpe_member_begins_with(member, client, &order, &answer);
    if (code == VOLDAZPE_TAKEN && waits) {
        (void)voldazpe_member_takes(member, true);
        code = voldazpe_member_steps(member, client, &order, &answer);
        if (code != VOLDAZPE_OK) (void)voldazpe_member_gives_back(member);
    }
    if (code == VOLDAZPE_OK) {
        while (voldazpe_member_posts_or_gives_back(member) == VOLDAZPE_OK) {}
        *reply = answer;
    }
    return voldazpe_member_leaves(member, code);
}

/* Gives an order of a client, and posts what it changes, as `voldazpe_give` does. A thread calls this for every order.
 * It needs no lock of yours. If another member gives an order or is in a turn, the call waits. It pauses for up to some
 * 0.1 ms, and then sleeps (on Linux). errno stays as it is.
 *
 * Returns VOLDAZPE_OK with *reply, or the first of: NULL, BUSY, CLOSED, NO_CLIENT, NO_ORDER, ENTRY_TOO_LARGE, IN_TURN,
 * FULL. After each of these nothing has changed, not even *reply.
 *
 *     voldazpe_code_t code = voldazpe_member_give(&mine, me, voldazpe_ask(0, 4), &reply); */
VOLDAZPE_MUST_USE
static inline voldazpe_code_t voldazpe_member_give(voldazpe_member_t *member, uint32_t client, voldazpe_order_t order,
                                                   voldazpe_reply_t *reply) {
    return voldazpe_member_gives(member, client, order, reply, true);
}

/* Gives an order as `voldazpe_member_give` does, but without waiting. If another member gives an order or is in a turn,
 * it does nothing and answers TAKEN, which comes before FULL. */
VOLDAZPE_MUST_USE
static inline voldazpe_code_t voldazpe_member_try_give(voldazpe_member_t *member, uint32_t client,
                                                       voldazpe_order_t order, voldazpe_reply_t *reply) {
    return voldazpe_member_gives(member, client, order, reply, false);
}

/* The value that a page word, 0 to 544, has in the library. This value is proved, while the page is trusted. It is
 * never older than what this member has read or been answered, nor than the page. In a turn, only the turn changes it.
 * Also NULL, BUSY, CLOSED, NO_WORD.
 *
 *     if (voldazpe_member_read(&mine, 0, &value) == VOLDAZPE_OK) orders = value; */
VOLDAZPE_MUST_USE
static inline voldazpe_code_t voldazpe_member_read(voldazpe_member_t *member, uint32_t word, uint64_t *value) {
    uint64_t read;
    uint32_t code;
    if (!member || !value) return VOLDAZPE_NULL;
    if (!voldazpe_member_enters(member)) return VOLDAZPE_BUSY;
    code = voldazpe_lib_member_read(&member->handle, word, &read);
    if (code == VOLDAZPE_OK) *value = read;
    return voldazpe_member_leaves(member, code);
}

/* ---- turns of a member ---- */

/* Begins a turn. Until it ends, no other member of the arbiter gives an order or begins a turn; each may read. So a
 * turn is like a hold of the lock, and guards data of yours as well as a lock does. If another member gives an order or
 * is in a turn, this waits, as `voldazpe_member_give` does. Also NULL, BUSY, CLOSED, IN_TURN.
 *
 * Keep a turn short, since other members wait meanwhile. In a turn a thread must not use another member of the arbiter
 * for an order or a turn, nor call `voldazpe_wait`: it would wait forever. It must not exit before it ends the turn.
 *
 *     voldazpe_code_t code = voldazpe_member_begin(&mine); // the clock's thread: see voldazpe_tick
 *     if (code == VOLDAZPE_OK) {
 *         clock_gettime(CLOCK_MONOTONIC, &t);
 *         moment = (uint64_t)t.tv_sec * 1000000 + (uint64_t)t.tv_nsec / 1000;
 *         code = voldazpe_member_step(&mine, VOLDAZPE_CLOCK, voldazpe_tick(moment), &reply);
 *         while (voldazpe_member_next_post(&mine, &post) == VOLDAZPE_OK) {}
 *         for (uint32_t k = 0; code == VOLDAZPE_OK && reply.moved && k < VOLDAZPE_ALL_THREADS; k++) {
 *             if (voldazpe_place_word(&page, k) == VOLDAZPE_MOVED_AWAY) pin_to_unmanaged(k);
 *         }
 *         if (voldazpe_member_end(&mine) != VOLDAZPE_OK) abort();
 *     } */
VOLDAZPE_MUST_USE
static inline voldazpe_code_t voldazpe_member_begin(voldazpe_member_t *member) {
    uint32_t code;
    if (!member) return VOLDAZPE_NULL;
    if (!voldazpe_member_enters(member)) return VOLDAZPE_BUSY;
    code = voldazpe_member_takes(member, true);
    if (code == VOLDAZPE_OK) member->turn = true;
    return voldazpe_member_leaves(member, code);
}

/* Begins a turn as `voldazpe_member_begin` does, but without waiting: if another member gives an order or is in a turn,
 * it answers TAKEN. */
VOLDAZPE_MUST_USE
static inline voldazpe_code_t voldazpe_member_try_begin(voldazpe_member_t *member) {
    uint32_t code;
    if (!member) return VOLDAZPE_NULL;
    if (!voldazpe_member_enters(member)) return VOLDAZPE_BUSY;
    code = voldazpe_member_takes(member, false);
    if (code == VOLDAZPE_OK) member->turn = true;
    return voldazpe_member_leaves(member, code);
}

/* Gives an order in a turn, and posts the count of orders alone. Until the other posts are made, by
 * `voldazpe_member_next_post`, the next order of the turn is answered VOLDAZPE_STALE. Returns VOLDAZPE_OK with *reply,
 * or the first of: NULL, BUSY, CLOSED, NO_CLIENT, NO_ORDER, ENTRY_TOO_LARGE, NO_TURN, STALE, FULL. */
VOLDAZPE_MUST_USE
static inline voldazpe_code_t voldazpe_member_step(voldazpe_member_t *member, uint32_t client, voldazpe_order_t order,
                                                   voldazpe_reply_t *reply) {
    voldazpe_reply_t answer;
    uint32_t code;
    if (!member || !reply) return VOLDAZPE_NULL;
    if (!voldazpe_member_enters(member)) return VOLDAZPE_BUSY;
    code = voldazpe_member_steps(member, client, &order, &answer);
    if (code == VOLDAZPE_OK) *reply = answer;
    return voldazpe_member_leaves(member, code);
}

/* Posts the next stale word, in the library and in the page, and tells it. A thread that sleeps on it is woken when the
 * turn ends (from the 33rd on, at once). Returns VOLDAZPE_OK with *post, VOLDAZPE_SETTLED if no word is left, or NULL,
 * BUSY, CLOSED or NO_TURN. */
VOLDAZPE_MUST_USE
static inline voldazpe_code_t voldazpe_member_next_post(voldazpe_member_t *member, voldazpe_post_t *post) {
    voldazpe_post_t next;
    uint32_t code;
    if (!member || !post) return VOLDAZPE_NULL;
    if (!voldazpe_member_enters(member)) return VOLDAZPE_BUSY;
    code = voldazpe_member_posts(member, &next);
    if (code == VOLDAZPE_OK) *post = next;
    return voldazpe_member_leaves(member, code);
}

/* Ends a turn. It posts nothing: if a word is stale, it answers VOLDAZPE_STALE, and the turn goes on. Also NULL, BUSY,
 * CLOSED, NO_TURN. */
VOLDAZPE_MUST_USE
static inline voldazpe_code_t voldazpe_member_end(voldazpe_member_t *member) {
    uint32_t code;
    if (!member) return VOLDAZPE_NULL;
    if (!voldazpe_member_enters(member)) return VOLDAZPE_BUSY;
    code = member->turn ? voldazpe_member_gives_back(member) : voldazpe_lib_member_end(&member->handle);
    if (code == VOLDAZPE_OK) member->turn = false;
    return voldazpe_member_leaves(member, code);
}

/* What the arbiter has, read in a turn, as `voldazpe_place` and its like do without members. These are no orders. */

/* Where a thread is. Also NULL, BUSY, CLOSED, NO_CLIENT (the clock is no thread), NO_TURN. */
VOLDAZPE_MUST_USE
static inline voldazpe_code_t voldazpe_member_place(voldazpe_member_t *member, uint32_t thread,
                                                    voldazpe_place_t *place) {
    voldazpe_place_t read;
    uint32_t code;
    if (!member || !place) return VOLDAZPE_NULL;
    if (!voldazpe_member_enters(member)) return VOLDAZPE_BUSY;
    code = voldazpe_lib_member_place(&member->handle, thread, &read);
    if (code == VOLDAZPE_OK) *place = read;
    return voldazpe_member_leaves(member, code);
}

/* The thread that is on the core with this number. Also NULL, BUSY, CLOSED, NO_TURN, NO_OWNER. */
VOLDAZPE_MUST_USE
static inline voldazpe_code_t voldazpe_member_owner(voldazpe_member_t *member, uint16_t core, uint32_t *thread) {
    uint32_t read;
    uint32_t code;
    if (!member || !thread) return VOLDAZPE_NULL;
    if (!voldazpe_member_enters(member)) return VOLDAZPE_BUSY;
    code = voldazpe_lib_member_owner(&member->handle, core, &read);
    if (code == VOLDAZPE_OK) *thread = read;
    return voldazpe_member_leaves(member, code);
}

/* What an application, 0 to 15, has. Also NULL, BUSY, CLOSED, NO_APPLICATION, NO_TURN. */
VOLDAZPE_MUST_USE
static inline voldazpe_code_t voldazpe_member_counts(voldazpe_member_t *member, uint32_t application,
                                                     voldazpe_counts_t *counts) {
    voldazpe_counts_t read;
    uint32_t code;
    if (!member || !counts) return VOLDAZPE_NULL;
    if (!voldazpe_member_enters(member)) return VOLDAZPE_BUSY;
    code = voldazpe_lib_member_counts(&member->handle, application, &read);
    if (code == VOLDAZPE_OK) *counts = read;
    return voldazpe_member_leaves(member, code);
}

/* What an application, 0 to 15, asks for, as far as it counts. Also NULL, BUSY, CLOSED, NO_APPLICATION, NO_TURN,
 * NO_REQUEST. */
VOLDAZPE_MUST_USE
static inline voldazpe_code_t voldazpe_member_requested(voldazpe_member_t *member, uint32_t application,
                                                        voldazpe_request_t *request) {
    voldazpe_request_t read;
    uint32_t code;
    if (!member || !request) return VOLDAZPE_NULL;
    if (!voldazpe_member_enters(member)) return VOLDAZPE_BUSY;
    code = voldazpe_lib_member_requested(&member->handle, application, &read);
    if (code == VOLDAZPE_OK) *request = read;
    return voldazpe_member_leaves(member, code);
}

/* The latest moment of a tick. Also NULL, BUSY, CLOSED, NO_TURN. */
VOLDAZPE_MUST_USE
static inline voldazpe_code_t voldazpe_member_clock(voldazpe_member_t *member, uint64_t *moment) {
    uint64_t read;
    uint32_t code;
    if (!member || !moment) return VOLDAZPE_NULL;
    if (!voldazpe_member_enters(member)) return VOLDAZPE_BUSY;
    code = voldazpe_lib_member_clock(&member->handle, &read);
    if (code == VOLDAZPE_OK) *moment = read;
    return voldazpe_member_leaves(member, code);
}

/* What never changes, read in a turn or outside, as `voldazpe_machine` and its like do without members. */

/* The machine. Also NULL, BUSY, CLOSED. */
VOLDAZPE_MUST_USE
static inline voldazpe_code_t voldazpe_member_machine(voldazpe_member_t *member, voldazpe_machine_t *machine) {
    voldazpe_machine_t read;
    uint32_t code;
    if (!member || !machine) return VOLDAZPE_NULL;
    if (!voldazpe_member_enters(member)) return VOLDAZPE_BUSY;
    code = voldazpe_lib_member_machine(&member->handle, &read);
    if (code == VOLDAZPE_OK) *machine = read;
    return voldazpe_member_leaves(member, code);
}

/* The core at a position. Also NULL, BUSY, CLOSED, NO_POSITION. */
VOLDAZPE_MUST_USE
static inline voldazpe_code_t voldazpe_member_core_at(voldazpe_member_t *member, uint32_t position,
                                                      voldazpe_core_t *core) {
    voldazpe_core_t read;
    uint32_t code;
    if (!member || !core) return VOLDAZPE_NULL;
    if (!voldazpe_member_enters(member)) return VOLDAZPE_BUSY;
    code = voldazpe_lib_member_core_at(&member->handle, position, &read);
    if (code == VOLDAZPE_OK) *core = read;
    return voldazpe_member_leaves(member, code);
}

/* An unmanaged core, by its index. Also NULL, BUSY, CLOSED, NO_POSITION. */
VOLDAZPE_MUST_USE
static inline voldazpe_code_t voldazpe_member_unmanaged_at(voldazpe_member_t *member, uint32_t index,
                                                           voldazpe_core_t *core) {
    voldazpe_core_t read;
    uint32_t code;
    if (!member || !core) return VOLDAZPE_NULL;
    if (!voldazpe_member_enters(member)) return VOLDAZPE_BUSY;
    code = voldazpe_lib_member_unmanaged_at(&member->handle, index, &read);
    if (code == VOLDAZPE_OK) *core = read;
    return voldazpe_member_leaves(member, code);
}

/* ---- readers of the page: one sequentially consistent load each, from any thread, without a lock. The page must not
 * be null. A thread that reads a posted word sees what its poster wrote before it gave the order. */

/* How many orders were given, as word 0 says. It is posted before the other words of its order. */
VOLDAZPE_MUST_USE
static inline uint64_t voldazpe_entered(const voldazpe_page_t *page) { return VOLDAZPE_LOAD(&page->words[0]); }

/* The word of a thread: VOLDAZPE_UNMANAGED, VOLDAZPE_WAITING, VOLDAZPE_MOVED_AWAY, or 4 + 2 * p + a. The last says that
 * it is on the core at position p, which is asked back if a is 1. (The word is never VOLDAZPE_ON, which is a kind of
 * place.) A client that is no thread is unmanaged; nothing is loaded for it. */
VOLDAZPE_MUST_USE
static inline uint64_t voldazpe_place_word(const voldazpe_page_t *page, uint32_t thread) {
    return thread < VOLDAZPE_ALL_THREADS ? VOLDAZPE_LOAD(&page->words[VOLDAZPE_FIRST_PLACE + thread])
                                         : VOLDAZPE_CAST(uint64_t, VOLDAZPE_UNMANAGED);
}

/* Whether a thread must give its core back: 1 if so, 0 if it may stay, -1 if it is on no core. A thread polls this
 * between tasks, and goes on only while it is 0. At 1, and at -1 (it has lost its core already), it pins itself to
 * unmanaged cores and gives an order to block. A 1 may become 0 again, if the core is no longer wanted back.
 *
 *     while (voldazpe_must_release(&page, me) == 0) run_a_task(); */
VOLDAZPE_MUST_USE
static inline int voldazpe_must_release(const voldazpe_page_t *page, uint32_t thread) {
    uint64_t word = voldazpe_place_word(page, thread);
    return word < 4 ? -1 : VOLDAZPE_CAST(int, word & 1);
}

/* The position of the core that a thread is on, or -1. */
VOLDAZPE_MUST_USE
static inline int voldazpe_position(const voldazpe_page_t *page, uint32_t thread) {
    uint64_t word = voldazpe_place_word(page, thread);
    return word < 4 ? -1 : VOLDAZPE_CAST(int, (word - 4) / 2);
}

/* Which cores of an application are asked back, in one half of the positions. Bit c stands for position c in half 0,
 * and for position 64 + c in half 1. An application or a half that doesn't exist has none. Two halves are two loads,
 * and may show two moments. */
VOLDAZPE_MUST_USE
static inline uint64_t voldazpe_asked_cores(const voldazpe_page_t *page, uint32_t application, uint32_t half) {
    return application < VOLDAZPE_APPLICATIONS && half < 2
               ? VOLDAZPE_LOAD(&page->words[VOLDAZPE_FIRST_RELEASE + 2 * application + half])
               : 0;
}

/* ---- waiting for a core ---- */

#if VOLDAZPE_SLEEPS
/* Sleeps until a thread's word no longer says that it waits, or until the nanoseconds are over. A negative number is no
 * limit, and a signal doesn't end the sleep. Call it without the lock and outside of turns, after an order to block.
 *
 * Returns VOLDAZPE_OK if the word says something other than waiting. `voldazpe_position` then tells the core, or -1:
 * the thread left, retired or was moved since, or the page was cleared. At -1 the thread blocks again, with work or
 * without, unless it is to end or its application has left. (After a leave the order to block is refused, and this call
 * returns at once.) Otherwise returns VOLDAZPE_TIMED_OUT, NULL or NO_CLIENT.
 *
 * A thread that sleeps here is woken by `voldazpe_member_give`, at the end of a turn, by `voldazpe_give` or by
 * `voldazpe_post_all`. A caller that keeps a page of its own, by `voldazpe_next_post`, brings its own sleep. errno
 * stays as it is.
 *
 *     give(me, voldazpe_block());
 *     while (voldazpe_wait(&page, me, 1000000000) == VOLDAZPE_TIMED_OUT) if (closing) break;
 *     position = voldazpe_position(&page, me);   // -1: no core */
static inline voldazpe_code_t voldazpe_wait(voldazpe_page_t *page, uint32_t thread, int64_t nanoseconds) {
    struct { int64_t seconds, rest; } until = {0, 0}; /* the kernel's, on a machine of 64 bits */
    voldazpe_code_t code = VOLDAZPE_OK;
    bool over = false;
    int kept = errno;
    if (!page) return VOLDAZPE_NULL;
    if (thread >= VOLDAZPE_ALL_THREADS) return VOLDAZPE_NO_CLIENT;
    if (voldazpe_place_word(page, thread) != VOLDAZPE_WAITING) return VOLDAZPE_OK;
    if (nanoseconds >= 0) {
        (void)syscall(SYS_clock_gettime, 1 /* CLOCK_MONOTONIC */, &until);
        until.seconds += nanoseconds / 1000000000;
        until.rest += nanoseconds % 1000000000;
        if (until.rest >= 1000000000) {
            until.seconds++;
            until.rest -= 1000000000;
        }
    }
    /* counted before the kernel looks at the word: a thread that posts a value after that look sees the sleeper */
    VOLDAZPE_ADD(&page->sleepers[thread], 1);
    while (code == VOLDAZPE_OK && voldazpe_place_word(page, thread) == VOLDAZPE_WAITING) {
        if (over) {
            code = VOLDAZPE_TIMED_OUT;
        } else {
            long slept = syscall(SYS_futex, voldazpe_futex(page, thread), FUTEX_WAIT_BITSET_PRIVATE, VOLDAZPE_WAITING,
                                 nanoseconds >= 0 ? &until : NULL, NULL, FUTEX_BITSET_MATCH_ANY);
            over = slept != 0 && errno == ETIMEDOUT; /* the word is read once more */
        }
    }
    VOLDAZPE_SUBTRACT(&page->sleepers[thread], 1);
    errno = kept;
    return code;
}
#endif

#ifdef __cplusplus
#if defined(__GNUC__) && !defined(__clang__)
#pragma GCC diagnostic pop
#endif
}
#endif

#endif
