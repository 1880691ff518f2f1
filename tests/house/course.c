/* Random courses of calls on two houses, made by six threads. Only one thread runs at a time. At each point where threads could
 * see each other, the next one is drawn by lot. So a seed gives the same course each time. At each point this checks which
 * threads may run where. After each round of calls it checks all that the houses say against a second arbiter that was given the
 * same orders.
 *
 * The processors, the clock, the locks and the sleeps are this program's own. It is linked with --wrap for the system functions
 * that the house calls, and compiled together with the house's files, with points.h before each.
 * course COURSES [SEED]: COURSES courses, from that seed on, 1 by default. */
#include "../../house/house.h"
#include "check.h"

#include <linux/futex.h>
#include <malloc.h>
#include <semaphore.h>
#include <signal.h>
#include <stdarg.h>
#include <sys/syscall.h>

#if defined(__SANITIZE_ADDRESS__)
#define SANITIZED 1
#elif defined(__has_feature)
#if __has_feature(address_sanitizer)
#define SANITIZED 1
#endif
#endif
#ifndef SANITIZED
#define SANITIZED 0
#endif

enum { WORKERS = 6, HOUSES = 2, RUNNERS = WORKERS + HOUSES, PROCESSORS = 8, APPLICATIONS = 3 };
enum { MOST_EXPECTED = 64, MOST_IDS = 64 };
#define NEVER_ENDS UINT64_MAX
#define JOINING UINT64_MAX /* in the place of an id, until the call tells it */
#define NOBODYS 1000000u   /* from here on: ids that no application of a course has */

/* ---- what there is ---- */

typedef enum { OPEN, JOIN, WITHDRAW, WANT, CAP, END_WAIT, READ, REGISTER, WAIT, GIVE_BACK, LEAVE, CLOSE, END, JOBS } kind_t;
static const char *const kinds[] = {"open", "join", "withdraw", "want", "cap", "end_wait", "read", "register", "wait",
                                    "give_back", "leave", "close", "end"};
_Static_assert(sizeof kinds / sizeof *kinds == JOBS, "each has its text");

typedef struct world world_t;

/* A call, and what came of it. */
typedef struct job {
    kind_t kind;
    world_t *in;
    voldazpe_house_application_t application;
    uint8_t request[VOLDAZPE_LEVELS];
    uint32_t number;              /* a cap, or the number of a thread */
    int64_t limit;
    bool alone;                   /* no other call is going on */
    voldazpe_house_code_t due;    /* the answer, if it is alone */
    voldazpe_house_code_t code;
    uint64_t began;
    uint32_t gave[VOLDAZPE_ORDER_KINDS]; /* orders of each kind */
    uint32_t locked;              /* how often it took a lock */
    bool had_core;                /* at its begin, or later */
} job_t;

/* A registration. */
typedef struct seat {
    bool there;
    voldazpe_house_thread_t *handle; /* null as it leaves */
    voldazpe_house_application_t application;
    uint32_t client;
    cpu_set_t before;
    voldazpe_house_code_t ended;     /* VOLDAZPE_OK where it isn't */
    bool ends;                       /* its wait, or its next one, is to end */
    int granted;                     /* the core that it was given last, or -1 */
    bool told;                       /* the hook, of that one */
} seat_t;

typedef enum { IDLE, GOES, HELD, SLEEPS, WANTS_LOCK, JOINS, DEAD } state_t; /* held: until others have gone on */

/* A thread: a worker, or a house's own. */
typedef struct runner {
    state_t state;
    sem_t turn;
    pthread_t thread;
    pid_t id;
    const void *at;               /* what it sleeps on, or the lock that it wants */
    uint32_t value;               /* what the word had as it fell asleep */
    uint64_t until;               /* when it wakes by itself */
    uint64_t read;                /* the moment that it read last, in microseconds */
    uint64_t slip;                /* nanoseconds that passed before it fell asleep */
    int woken;                    /* why: 0, an errno, or CANCELLED */
    cpu_set_t mask;
    bool anywhere;                /* its last pinning was refused */
    const struct runner *refused; /* whose pinning by this one was refused just now: it goes on to let that one run anywhere */
    uint32_t holds;               /* locks */
    uint32_t hooks;               /* that it is in */
    bool calls;                   /* it is in a call */
    job_t job;
    seat_t seats[HOUSES];
} runner_t;
enum { CANCELLED = -1 };

typedef struct known {
    voldazpe_house_application_t id; /* 0: none */
    uint8_t request[VOLDAZPE_LEVELS];
    uint32_t cap;
    uint8_t due;                     /* as the hook was told */
    char name[8];
} known_t;

typedef struct expected {
    voldazpe_house_event_t event;
    const runner_t *teller;
    bool told;
} expected_t;

/* A house, and what it is to be. */
struct world {
    voldazpe_house_t *house;
    uint32_t number;
    bool pinned, hooked, held, open; /* open: until the lock's hold in which it is closed */
    bool closing, closed;            /* a close has begun, has returned */
    cpu_set_t all, unmanaged;
    uint64_t grace;                  /* microseconds */
    voldazpe_arbiter_t reference;
    voldazpe_page_t page;
    uint16_t places[VOLDAZPE_ALL_THREADS];
    uint64_t since[VOLDAZPE_CORES];  /* by position: when it was asked back */
    uint64_t clock, orders, moved;
    known_t known[VOLDAZPE_APPLICATIONS];
    voldazpe_house_application_t ids[MOST_IDS]; /* of all that ever joined */
    uint32_t id_count;
    runner_t *own;
    expected_t expected[MOST_EXPECTED];
    uint32_t expected_count, refused_told;
    uint32_t hooks;                  /* that go on */
    int refused;                     /* the first errno of a pinning */
};

static runner_t runners[RUNNERS];
static world_t worlds[HOUSES];
static sem_t main_turn;
static _Thread_local runner_t *me;   /* null in main */
static uint64_t seed, lots, points;
static uint64_t now_is;              /* nanoseconds, whole microseconds */
static uint32_t hurry;               /* at one in this many points another thread goes on */
static bool late;                    /* time passes between points too */
static bool holding;                 /* some threads are held at a point for long */
static uint32_t locks;               /* that are taken */
static cpu_set_t present;
static pid_t next_id = 1000;
static uint32_t busy;                /* the house that most calls are to */
static uint32_t round_number;
static world_t *opening;

long __real_syscall(long number, ...);

/* By bare system calls: the thread may be one that is cancelled. */
static void fails(const char *file, int line, const char *what) {
    char text[512];
    const char *in = !me ? "main" : me < runners + WORKERS ? kinds[me->job.kind] : "its own thread";
    int length = snprintf(text, sizeof text, "%s:%d: %s (seed %lu, round %u, %s)\n", file, line, what, (unsigned long)seed,
                          round_number, in);
    (void)__real_syscall(SYS_write, 2, text, length);
    _exit(1);
}
#undef CHECK
#define CHECK(holds) ((holds) ? (void)0 : fails(__FILE__, __LINE__, #holds))

static void crashes(int signal) {
    (void)signal;
    fails(__FILE__, __LINE__, "a signal that ends it");
}

static uint32_t lot(uint32_t many) { return next_random(&lots) % many; }

/* ---- faults: the so-manieth call of a kind fails, or each from then on ---- */

typedef enum { NO_FAULT, PINNING, MEMORY, THREAD, FAULTS } fault_t;
static struct { fault_t kind; uint32_t left; bool stays; } fault;

static bool is_refused(fault_t kind) {
    if (fault.kind != kind || !me) return false;
    if (fault.left > 0) return --fault.left == 0;
    return fault.stays;
}

/* ---- turns ---- */

/* The thread that goes on next, by lot; null if none can. */
static runner_t *draw(void) {
    runner_t *can[RUNNERS];
    uint32_t many = 0;
    for (int i = 0; i < RUNNERS; i++) {
        if (runners[i].state == GOES) can[many++] = &runners[i];
    }
    return many == 0 ? NULL : can[lot(many)];
}

static void await(sem_t *turn) {
    while (sem_wait(turn) != 0) CHECK(errno == EINTR);
}

static void pass_on(void) {
    int cancels;
    runner_t *next = draw();
    if (next == me) return;
    (void)pthread_setcancelstate(PTHREAD_CANCEL_DISABLE, &cancels);
    CHECK(sem_post(next ? &next->turn : &main_turn) == 0);
    if (me->state != DEAD) await(&me->turn);
    (void)pthread_setcancelstate(cancels, NULL);
}

static void let_go(void) {
    for (int i = 0; i < RUNNERS; i++) {
        if (runners[i].state == HELD) runners[i].state = GOES;
    }
}

static bool is_any(state_t state) {
    for (int i = 0; i < RUNNERS; i++) {
        if (runners[i].state == state) return true;
    }
    return false;
}

/* Called from main: runs until no thread can go on. */
static void run(void) {
    runner_t *next = draw();
    points = 0;
    if (!next) return;
    CHECK(sem_post(&next->turn) == 0);
    await(&main_turn);
}

static void rouse(state_t state, const void *at) {
    for (int i = 0; i < RUNNERS; i++) {
        runner_t *one = &runners[i];
        if (one->state != state || one->at != at) continue;
        one->state = GOES;
        one->woken = 0;
    }
}

/* When the first thread is to be moved, in microseconds; 0 where none is. */
static uint64_t first_to_move(void) {
    uint64_t first = 0;
    for (int h = 0; h < HOUSES; h++) {
        for (uint32_t client = 0; client < VOLDAZPE_ALL_THREADS && worlds[h].open; client++) {
            uint32_t place = worlds[h].places[client];
            if (place < 4 || !(place & 1)) continue;
            uint64_t its = worlds[h].since[(place - 4) / 2] + worlds[h].grace;
            if (first == 0 || its < first) first = its;
        }
    }
    return first;
}

/* Time passes. Threads whose sleep is over wake. */
static void pass_time(void) {
    static const uint64_t steps[] = {1, 60, 625, 1000, 5000, 10000, 20000};
    uint64_t step = steps[lot(7)] * 1000, until = lot(2) == 0 ? first_to_move() * 1000 : 0;
    if (until > now_is) step = until - now_is;
    now_is += step;
    for (int i = 0; i < RUNNERS; i++) {
        runner_t *one = &runners[i];
        if (one->state != SLEEPS) one->slip += step;
        if (one->state != SLEEPS || one->until > now_is) continue;
        one->state = GOES;
        one->woken = ETIMEDOUT;
    }
}

/* ---- memory: what is freed is kept until the course is over, with other bytes ---- */

enum { MOST_FREED = 4096 };
static struct { char *block; size_t size; } freed[MOST_FREED];
static uint32_t freed_count;
static int64_t live;

void *__real_malloc(size_t size);
void *__real_calloc(size_t count, size_t size);
void *__real_aligned_alloc(size_t line, size_t size);
char *__real_strdup(const char *text);
void __real_free(void *block);
void *__wrap_malloc(size_t size);
void *__wrap_calloc(size_t count, size_t size);
void *__wrap_aligned_alloc(size_t line, size_t size);
char *__wrap_strdup(const char *text);
void __wrap_free(void *block);

static void *counted(void *block) {
    live += block != NULL;
    return block;
}

void *__wrap_malloc(size_t size) { return is_refused(MEMORY) ? NULL : counted(__real_malloc(size)); }
void *__wrap_calloc(size_t count, size_t size) { return is_refused(MEMORY) ? NULL : counted(__real_calloc(count, size)); }
char *__wrap_strdup(const char *text) { return is_refused(MEMORY) ? NULL : counted(__real_strdup(text)); }
void *__wrap_aligned_alloc(size_t line, size_t size) {
    return is_refused(MEMORY) ? NULL : counted(__real_aligned_alloc(line, size));
}

void __wrap_free(void *block) {
    if (!block) return;
    live--;
    if (SANITIZED) {
        __real_free(block);
        return;
    }
    CHECK(freed_count < MOST_FREED);
    freed[freed_count].block = block;
    freed[freed_count].size = malloc_usable_size(block);
    memset(block, 0xdd, freed[freed_count++].size);
}

static bool is_freed(const volatile void *at) {
    for (uint32_t i = 0; i < freed_count; i++) {
        const volatile char *byte = at;
        if (byte >= freed[i].block && byte < freed[i].block + freed[i].size) return true;
    }
    return false;
}

static void free_all(void) {
    for (uint32_t i = 0; i < freed_count; i++) {
        for (size_t k = 0; k < freed[i].size; k++) CHECK((unsigned char)freed[i].block[k] == 0xdd); /* nobody wrote there */
        __real_free(freed[i].block);
    }
    freed_count = 0;
}

/* ---- which thread runs where: checked at each point ---- */

static int32_t word_of(const seat_t *seat) { return atomic_load(&seat->handle->word); }

static cpu_set_t only(int core) {
    cpu_set_t one;
    CPU_ZERO(&one);
    CPU_SET((size_t)core, &one);
    return one;
}

/* A thread isn't on another's core, but where there are no unmanaged ones. */
static void look_whether_alone(const world_t *in, const runner_t *one) {
    for (int i = 0; i < WORKERS; i++) {
        const seat_t *other = &runners[i].seats[in->number];
        int core = &runners[i] != one && other->handle ? word_core(word_of(other)) : -1;
        if (core < 0 || CPU_ISSET((size_t)core, &in->unmanaged)) continue;
        CHECK("not on another's core" && !CPU_ISSET((size_t)core, &one->mask));
    }
}

/* A thread in its own code has the mask that its word says. In a hook too it isn't on another's core. */
static void look_at_mask(const world_t *in, const runner_t *one) {
    const seat_t *seat = &one->seats[in->number];
    if (!seat->handle || (one->calls && one->hooks == 0)) return;
    if (one->anywhere) { /* or as it was, where each pinning is refused */
        CHECK("anywhere" && (one->calls || locks > 0 || fault.stays || CPU_EQUAL(&one->mask, &in->all)));
        return;
    }
    int32_t word = word_of(seat);
    bool ended = word <= WORD_CLOSED && word >= WORD_FORKED;
    if (!one->calls && word_has_core(word)) {
        cpu_set_t its = only(word_core(word));
        CHECK("pinned to its core" && CPU_EQUAL(&one->mask, &its));
    } else if (!one->calls && locks == 0) {
        CHECK("where it may be without a core" && CPU_EQUAL(&one->mask, ended ? &seat->before : &in->unmanaged));
    }
    if (!ended) look_whether_alone(in, one);
}

static void look_at_masks(void) {
    for (int h = 0; h < HOUSES; h++) {
        for (int i = 0; i < WORKERS && worlds[h].house && worlds[h].pinned; i++) {
            if (runners[i].state != DEAD) look_at_mask(&worlds[h], &runners[i]);
        }
    }
}

void course_point(const volatile void *at) {
    if (!me) return;
    look_at_masks();
    CHECK("it ends" && ++points < 1000000);
    if (late && lot(48) == 0) pass_time();
    if (holding && lot(24) == 0) me->state = HELD;
    if (me->state == HELD || lot(hurry) == 0) pass_on();
    CHECK("memory that isn't freed" && !is_freed(at));
}

/* ---- the system, as the house calls it ---- */

static void note_closed(world_t *in);

/* All words of the house's member are posted once its lock is let go of. */
static void look_whether_posted(const pthread_mutex_t *lock) {
    voldazpe_post_t post;
    for (int h = 0; h < HOUSES; h++) {
        if (!worlds[h].house || lock != &worlds[h].house->lock) continue;
        uint32_t code = voldazpe_lib_member_post(&worlds[h].house->member, &post);
        CHECK("all is posted" && (code == VOLDAZPE_SETTLED || code == VOLDAZPE_NO_TURN || code == VOLDAZPE_CLOSED));
    }
}

int __wrap_pthread_mutex_trylock(pthread_mutex_t *mutex);
int __wrap_pthread_mutex_lock(pthread_mutex_t *mutex);
int __wrap_pthread_mutex_unlock(pthread_mutex_t *mutex);
int __real_pthread_mutex_trylock(pthread_mutex_t *mutex);
int __real_pthread_mutex_lock(pthread_mutex_t *mutex);
int __real_pthread_mutex_unlock(pthread_mutex_t *mutex);

int __wrap_pthread_mutex_lock(pthread_mutex_t *mutex) {
    if (!me) return __real_pthread_mutex_lock(mutex);
    course_point(mutex);
    while (__real_pthread_mutex_trylock(mutex) != 0) {
        me->at = mutex;
        me->state = WANTS_LOCK;
        pass_on();
    }
    CHECK(!is_freed(mutex));
    me->holds++;
    me->job.locked++;
    locks++;
    return 0;
}

int __wrap_pthread_mutex_trylock(pthread_mutex_t *mutex) { return __wrap_pthread_mutex_lock(mutex); }

int __wrap_pthread_mutex_unlock(pthread_mutex_t *mutex) {
    if (!me) return __real_pthread_mutex_unlock(mutex);
    course_point(mutex);
    world_t *in = me->job.kind == CLOSE ? me->job.in : NULL;
    if (in && in->open && me->holds > 1 && in->house->closed) note_closed(in);
    look_whether_posted(mutex);
    int done = __real_pthread_mutex_unlock(mutex);
    CHECK(me->holds > 0);
    me->holds--;
    locks--;
    rouse(WANTS_LOCK, mutex);
    course_point(NULL);
    return done;
}

/* The calling thread ends, and leaves all houses. */
static void begin_to_end(void) {
    me->job.kind = END;
    for (int h = 0; h < HOUSES; h++) me->seats[h].handle = NULL;
}

/* AddressSanitizer's, if it is there: tells it that these frames are left without their ends. */
extern void __asan_handle_no_return(void) __attribute__((weak));

/* Sleeps while a word has a value. A signal may end it at once. */
static long sleep_on(void *word, uint32_t value, const struct timespec *limit) {
    if (lot(16) == 0) {
        errno = EINTR;
        return -1;
    }
    if (atomic_load((VOLDAZPE_ATOMIC(uint32_t) *)word) != value) {
        errno = EAGAIN;
        return -1;
    }
    me->at = word;
    me->value = value;
    me->until = limit ? now_is + (uint64_t)limit->tv_sec * 1000000000 + (uint64_t)limit->tv_nsec : NEVER_ENDS;
    me->state = SLEEPS;
    pass_on();
    if (me >= runners + WORKERS) me->slip = 0;
    if (me->woken == CANCELLED) {
        begin_to_end();
        if (__asan_handle_no_return) __asan_handle_no_return();
        (void)pthread_cancel(pthread_self());
    }
    if (me->woken == 0) return 0;
    errno = me->woken;
    return -1;
}

static size_t tell_processors(size_t bytes, unsigned char *processors) {
    memset(processors, 0, bytes);
    for (size_t i = 0; i < PROCESSORS; i++) {
        if (CPU_ISSET(i, &me->mask)) processors[i / 8] = (unsigned char)(processors[i / 8] | 1 << i % 8);
    }
    return bytes;
}

long __wrap_syscall(long number, ...);
long __wrap_syscall(long number, ...) {
    va_list words;
    long word[6];
    va_start(words, number);
    for (int i = 0; i < 6; i++) word[i] = va_arg(words, long);
    va_end(words);
    if (!me || (number != SYS_futex && number != SYS_gettid && number != SYS_sched_getaffinity)) {
        return __real_syscall(number, word[0], word[1], word[2], word[3], word[4], word[5]);
    }
    if (number == SYS_gettid) return me->id;
    if (number == SYS_sched_getaffinity) return (long)tell_processors((size_t)word[1], (unsigned char *)word[2]);
    course_point(NULL);
    CHECK(word[1] == FUTEX_WAIT_PRIVATE || word[1] == FUTEX_WAKE_PRIVATE);
    if (word[1] == FUTEX_WAIT_PRIVATE) {
        CHECK("no lock is held" && (me->holds == 0 || me->job.kind == OPEN) && !is_freed((void *)word[0]));
        return sleep_on((void *)word[0], (uint32_t)word[2], (const struct timespec *)word[3]);
    }
    CHECK(word[2] == INT_MAX);
    rouse(SLEEPS, (void *)word[0]);
    return 0;
}

int __wrap_clock_gettime(clockid_t clock, struct timespec *moment);
int __wrap_clock_gettime(clockid_t clock, struct timespec *moment) {
    CHECK(clock == CLOCK_MONOTONIC);
    if (me) me->read = now_is / 1000;
    *moment = (struct timespec){(time_t)(now_is / 1000000000), (long)(now_is % 1000000000)};
    return 0;
}

int __wrap_sched_getaffinity(pid_t id, size_t size, cpu_set_t *mask);
int __wrap_sched_getaffinity(pid_t id, size_t size, cpu_set_t *mask) {
    CHECK(me && id == 0 && size == sizeof *mask);
    *mask = me->mask;
    return 0;
}

/* The house that pins a thread: the one in which it is registered, otherwise the one of this call. */
static world_t *pinning_world(const runner_t *whom) {
    for (int h = 0; h < HOUSES; h++) {
        if (worlds[h].pinned && (whom->seats[h].there || worlds[h].own == whom)) return &worlds[h];
    }
    return me->job.in && me->job.in->pinned ? me->job.in : NULL;
}

int __wrap_sched_setaffinity(pid_t id, size_t size, const cpu_set_t *mask);
int __wrap_sched_setaffinity(pid_t id, size_t size, const cpu_set_t *mask) {
    runner_t *whom = id == 0 ? me : NULL;
    cpu_set_t may, kept;
    CHECK(me && size == sizeof *mask);
    for (int i = 0; i < RUNNERS && id != 0; i++) {
        if (runners[i].id == id && runners[i].state != DEAD) whom = &runners[i];
    }
    course_point(NULL);
    CHECK("a thread that is there" && whom && CPU_COUNT(mask) > 0);
    CPU_AND(&may, mask, &present);
    int refusal = is_refused(PINNING) ? EPERM : CPU_COUNT(&may) == 0 ? EINVAL : 0;
    world_t *in = pinning_world(whom);
    CHECK("a house that pins" && in);
    CPU_AND(&kept, &may, &whom->mask);
    if (refusal == 0) {
        bool moves = whom == me && me->job.kind == LEAVE && me->holds > 0 && CPU_COUNT(&kept) == 0 &&
                     in->places[me->seats[in->number].client] >= 4; /* nobody else has moved it */
        CHECK("it isn't moved under the lock" && !moves);
        whom->anywhere = (whom->anywhere || me->refused == whom) && CPU_EQUAL(&may, &in->all);
        whom->mask = may;
        me->refused = NULL;
        return 0;
    }
    if (in->refused == 0) in->refused = refusal;
    whom->anywhere = true;
    me->refused = whom;
    errno = refusal;
    return -1;
}

/* ---- a house's own thread ---- */

typedef struct started {
    void *(*function)(void *);
    void *argument;
    runner_t *runner;
} started_t;

static void dies(void) {
    me->state = DEAD;
    rouse(JOINS, me);
    pass_on();
}

static void *lives(void *argument) {
    started_t it = *(started_t *)argument;
    sigset_t blocked;
    __real_free(argument);
    me = it.runner;
    await(&me->turn);
    CHECK(pthread_sigmask(SIG_BLOCK, NULL, &blocked) == 0);
    CHECK("it takes no signals" && sigismember(&blocked, SIGTERM) && sigismember(&blocked, SIGUSR1));
    (void)it.function(it.argument);
    dies();
    return NULL;
}

static void begin_runner(runner_t *runner) {
    CHECK(sem_init(&runner->turn, 0, 0) == 0);
    runner->id = next_id++;
    runner->anywhere = false;
    runner->refused = NULL;
    runner->calls = false;
    runner->holds = runner->hooks = 0;
    memset(runner->seats, 0, sizeof runner->seats);
}

int __real_pthread_create(pthread_t *thread, const pthread_attr_t *attributes, void *(*function)(void *), void *argument);
int __wrap_pthread_create(pthread_t *thread, const pthread_attr_t *attributes, void *(*function)(void *), void *argument);
int __wrap_pthread_create(pthread_t *thread, const pthread_attr_t *attributes, void *(*function)(void *), void *argument) {
    if (is_refused(THREAD)) return EAGAIN;
    CHECK(me && opening);
    runner_t *own = &runners[WORKERS + opening->number];
    started_t *it = __real_malloc(sizeof *it);
    *it = (started_t){function, argument, own};
    begin_runner(own);
    own->mask = me->mask;
    own->state = GOES;
    opening->own = own;
    CHECK(__real_pthread_create(thread, attributes, lives, it) == 0);
    own->thread = *thread;
    return 0;
}

int __real_pthread_join(pthread_t thread, void **result);
int __wrap_pthread_join(pthread_t thread, void **result);
int __wrap_pthread_join(pthread_t thread, void **result) {
    for (int i = WORKERS; i < RUNNERS && me; i++) {
        if (runners[i].state == DEAD || !runners[i].thread || !pthread_equal(runners[i].thread, thread)) continue;
        me->at = &runners[i];
        me->state = JOINS;
        pass_on();
    }
    return __real_pthread_join(thread, result);
}

/* ---- orders: which ones a call may give, and what follows of them ---- */

static known_t *find(world_t *in, voldazpe_house_application_t id) {
    known_t *known = &in->known[id % VOLDAZPE_APPLICATIONS];
    return id != 0 && known->id == id ? known : NULL;
}

static uint64_t microseconds(void) { return now_is / 1000; }

static bool is_asked(uint32_t place) { return place >= 4 && (place & 1); }
static int position_of(uint32_t place) { return place >= 4 ? (int)(place - 4) / 2 : -1; }

static int core_at(const world_t *in, uint32_t place) {
    return position_of(place) < 0 ? -1 : in->house->cores[position_of(place)].number;
}

/* Whether a thread stayed for the grace, at the moment that the calling thread has read. */
static bool is_overdue(const world_t *in) {
    for (uint32_t client = 0; client < VOLDAZPE_ALL_THREADS; client++) {
        uint32_t place = in->places[client];
        if (is_asked(place) && me->read - in->since[position_of(place)] >= in->grace) return true;
    }
    return false;
}

static bool is_fresh(const world_t *in) {
    uint64_t part = in->grace / 16 > 0 ? in->grace / 16 : 1;
    return me->read - in->clock < part;
}

/* Whether this thread's call may give an order now. */
static bool may_give(world_t *in, uint32_t client, const voldazpe_order_t *order) {
    const job_t *job = &me->job;
    uint32_t first = voldazpe_client((uint32_t)(job->application % VOLDAZPE_APPLICATIONS), 0), lowest = 0;
    bool its = job->in == in && client == me->seats[in->number].client;
    bool is_tick = order->kind == VOLDAZPE_TICK && client == VOLDAZPE_CLOCK && order->moment == me->read;
    if (me == in->own) return is_tick && is_overdue(in);
    switch ((voldazpe_order_kind_t)order->kind) {
    case VOLDAZPE_TICK:
        return (job->kind == WANT || job->kind == CAP) && is_tick && !is_fresh(in);
    case VOLDAZPE_JOIN:
        while (in->known[lowest].id) lowest++;
        return job->kind == JOIN && client == voldazpe_client(lowest, 0);
    case VOLDAZPE_LEAVE: return job->kind == WITHDRAW && client == first;
    case VOLDAZPE_ASK:
        return job->kind == WANT && client == first && is_fresh(in) &&
               memcmp(order->request, job->request, VOLDAZPE_LEVELS) == 0;
    case VOLDAZPE_CAP:
        return job->kind == CAP && client == first && is_fresh(in) && order->cap == (job->number < 255 ? job->number : 255);
    case VOLDAZPE_BLOCK: return job->kind == WAIT && its;
    case VOLDAZPE_RETIRE:
        if (job->kind == END) return client == me->seats[in->number].client;
        return its && (job->kind == WAIT || job->kind == GIVE_BACK || job->kind == LEAVE);
    case VOLDAZPE_STATUS: break;
    }
    return false;
}

static void expect(world_t *in, voldazpe_house_event_t event) {
    if (!in->hooked) return;
    CHECK(in->expected_count < MOST_EXPECTED);
    in->expected[in->expected_count++] = (expected_t){.event = event, .teller = me};
}

/* The thread that is registered by this number. A thread that is about to leave may have lost its number to another. */
static runner_t *on_seat(const world_t *in, uint32_t client) {
    runner_t *leaving = NULL;
    for (int i = 0; i < WORKERS; i++) {
        const seat_t *seat = &runners[i].seats[in->number];
        if (!seat->there || seat->client != client || seat->ended == VOLDAZPE_HOUSE_WITHDRAWN) continue;
        if (seat->handle) return &runners[i];
        leaving = &runners[i];
    }
    return leaving;
}

/* A thread's place has become another one. */
static void change(world_t *in, uint32_t client, uint32_t before, uint32_t after) {
    _Static_assert(VOLDAZPE_PLACE_KINDS == 4, "which places follow which");
    int lost = position_of(before), got = position_of(after);
    runner_t *whose = on_seat(in, client);
    if (!whose) { /* one that was moved has left since */
        CHECK("a registered thread" && before == VOLDAZPE_MOVED_AWAY && after == VOLDAZPE_UNMANAGED);
        return;
    }
    seat_t *seat = &whose->seats[in->number];
    voldazpe_house_event_t event = {.application = seat->application, .thread = client % VOLDAZPE_THREADS};
    if (lost >= 0 && lost != got) {
        event.kind = VOLDAZPE_HOUSE_LOST;
        event.core = in->house->cores[lost].number;
        event.moved = after == VOLDAZPE_MOVED_AWAY;
        expect(in, event);
    }
    if (got >= 0 && lost != got) {
        seat->granted = in->house->cores[got].number;
        seat->told = false;
        whose->job.had_core = true;
    }
    if (is_asked(after) && (lost != got || !is_asked(before))) {
        event.kind = VOLDAZPE_HOUSE_ASKED;
        event.core = in->house->cores[got].number;
        event.moved = false;
        expect(in, event);
    }
}

static void note_dues(world_t *in) {
    voldazpe_counts_t has;
    for (uint32_t number = 0; number < VOLDAZPE_APPLICATIONS; number++) {
        known_t *known = &in->known[number];
        CHECK(voldazpe_counts(&in->reference, number, &has) == VOLDAZPE_OK);
        if (has.due == known->due) continue;
        known->due = has.due;
        if (known->id == 0) continue;
        expect(in, (voldazpe_house_event_t){.application = known->id, .kind = VOLDAZPE_HOUSE_DUE, .due = has.due});
    }
}

/* All threads of an application that is withdrawn. */
static void note_withdrawn(world_t *in, known_t *known) {
    for (int i = 0; i < WORKERS; i++) {
        seat_t *seat = &runners[i].seats[in->number];
        if (seat->there && seat->application == known->id && seat->ended == VOLDAZPE_OK) seat->ended = VOLDAZPE_HOUSE_WITHDRAWN;
    }
    *known = (known_t){.due = known->due};
}

/* A thread that waits without a core, or gives its core back and goes on, is on unmanaged ones before the order. */
static void look_before_order(const world_t *in, uint32_t client, const voldazpe_order_t *order) {
    bool goes_on = order->kind == VOLDAZPE_RETIRE && (me->job.kind == WAIT || me->job.kind == GIVE_BACK);
    bool has_none = order->kind == VOLDAZPE_BLOCK && in->places[client] < 4;
    if (!in->pinned || me->anywhere || !(goes_on || has_none)) return;
    CHECK("on unmanaged cores before its order" && CPU_EQUAL(&me->mask, &in->unmanaged));
}

/* An order that the house gave, with its reply: the reference is given it too. */
static void follow(world_t *in, uint32_t client, const voldazpe_order_t *order, const voldazpe_reply_t *reply) {
    voldazpe_reply_t again;
    CHECK("an order of this call" && may_give(in, client, order));
    look_before_order(in, client, order);
    CHECK(voldazpe_give(&in->reference, &in->page, client, *order, &again) == VOLDAZPE_OK && again.kind == reply->kind);
    CHECK("the same reply" && again.place.kind == reply->place.kind && again.place.core == reply->place.core);
    me->job.gave[order->kind]++;
    in->orders++;
    if (reply->kind == VOLDAZPE_MOVED) {
        in->clock = order->moment;
        in->moved += reply->moved;
    }
    for (uint32_t seat = 0; seat < VOLDAZPE_ALL_THREADS; seat++) {
        uint32_t before = in->places[seat], after = (uint32_t)voldazpe_place_word(&in->page, seat);
        in->places[seat] = (uint16_t)after;
        bool was_asked = is_asked(before) && position_of(before) == position_of(after);
        if (is_asked(after) && !was_asked) in->since[position_of(after)] = in->clock;
        if (before != after) change(in, seat, before, after);
    }
    known_t *known = &in->known[client / VOLDAZPE_THREADS % VOLDAZPE_APPLICATIONS];
    if (order->kind == VOLDAZPE_JOIN) *known = (known_t){.id = JOINING, .cap = VOLDAZPE_CORES, .due = known->due};
    if (order->kind == VOLDAZPE_ASK) memcpy(known->request, order->request, VOLDAZPE_LEVELS);
    if (order->kind == VOLDAZPE_CAP && reply->kind != VOLDAZPE_REFUSED) known->cap = order->cap;
    if (order->kind == VOLDAZPE_LEAVE) note_withdrawn(in, &in->known[client / VOLDAZPE_THREADS]);
    if (order->kind == VOLDAZPE_ASK || order->kind == VOLDAZPE_CAP || order->kind == VOLDAZPE_LEAVE) note_dues(in);
}

uint32_t __real_voldazpe_lib_member_step(voldazpe_member_handle_t *handle, uint32_t client,
                                         const voldazpe_order_t *order, voldazpe_reply_t *reply);
uint32_t __wrap_voldazpe_lib_member_step(voldazpe_member_handle_t *handle, uint32_t client,
                                         const voldazpe_order_t *order, voldazpe_reply_t *reply);
uint32_t __wrap_voldazpe_lib_member_step(voldazpe_member_handle_t *handle, uint32_t client,
                                         const voldazpe_order_t *order, voldazpe_reply_t *reply) {
    world_t *in = NULL;
    for (int h = 0; h < HOUSES; h++) {
        if (worlds[h].house && handle == &worlds[h].house->member) in = &worlds[h];
    }
    CHECK("a house's" && in);
    course_point(NULL);
    uint32_t code = __real_voldazpe_lib_member_step(handle, client, order, reply);
    CHECK("under the lock" && me->holds > 0 && code == VOLDAZPE_OK);
    follow(in, client, order, reply);
    return code;
}

/* ---- the hook ---- */

static bool is_same(const voldazpe_house_event_t *one, const voldazpe_house_event_t *other) {
    return one->kind == other->kind && one->application == other->application && one->thread == other->thread &&
           one->core == other->core && one->moved == other->moved && one->due == other->due;
}

static void is_told_got(world_t *in, const voldazpe_house_event_t *event) {
    seat_t *seat = &me->seats[in->number];
    CHECK("in its own wait" && me->job.kind == WAIT && me->job.in == in && seat->application == event->application);
    CHECK(event->thread == seat->client % VOLDAZPE_THREADS && event->core == seat->granted && !seat->told);
    seat->told = true;
}

static void is_told(world_t *in, const voldazpe_house_event_t *event) {
    for (uint32_t i = 0; i < in->expected_count; i++) {
        expected_t *one = &in->expected[i];
        if (one->told || one->teller != me || !is_same(&one->event, event)) continue;
        one->told = true;
        return;
    }
    CHECK("an event that is due, in its thread" == NULL);
}

static void hook(void *world, const voldazpe_house_event_t *event) {
    world_t *in = world;
    CHECK("without the lock" && me->holds == 0 && !in->closed);
    me->hooks++;
    in->hooks++;
    if (event->kind == VOLDAZPE_HOUSE_GOT) is_told_got(in, event);
    else if (event->kind == VOLDAZPE_HOUSE_REFUSED) in->refused_told++;
    else is_told(in, event);
    const seat_t *seat = &me->seats[in->number];
    bool own = event->kind == VOLDAZPE_HOUSE_LOST && me->job.kind == WAIT && me->job.in == in && word_of(seat) != WORD_CLOSED &&
               word_of(seat) != WORD_WITHDRAWN && !CPU_ISSET(event->core, &in->unmanaged) &&
               core_at(in, in->places[seat->client]) != event->core; /* it was given that core again */
    if (own && in->pinned && !me->anywhere) CHECK("it runs elsewhere" && !CPU_ISSET(event->core, &me->mask));
    if (lot(4) == 0 && in->house) CHECK(voldazpe_house_close(in->house) == VOLDAZPE_HOUSE_IN_HOOK);
    course_point(NULL);
    me->hooks--;
    in->hooks--;
}

/* ---- calls ---- */

/* Whether a house that is open has threads run on just these processors. */
static bool pins_so(const world_t *in, const cpu_set_t *mask) {
    if (!in->house || !in->open || !in->pinned) return false;
    if (CPU_EQUAL(mask, &in->unmanaged)) return true;
    for (uint32_t p = 0; p < in->house->machine.managed && CPU_COUNT(mask) == 1; p++) {
        if (CPU_ISSET(in->house->cores[p].number, mask)) return true;
    }
    return false;
}

/* Where a thread of this mask may run that registers now, once it has left. */
static cpu_set_t before_of(const world_t *in, const cpu_set_t *mask) {
    bool inherited = false;
    for (int h = 0; h < HOUSES; h++) inherited = inherited || pins_so(&worlds[h], mask);
    return inherited ? in->all : *mask;
}

/* Whether a wait without sleep would be in vain. */
static bool in_vain(world_t *in, const seat_t *seat) {
    voldazpe_counts_t has;
    uint32_t owner;
    CHECK(voldazpe_counts(&in->reference, seat->client / VOLDAZPE_THREADS, &has) == VOLDAZPE_OK);
    if (has.owned - (position_of(in->places[seat->client]) >= 0) >= has.due) return true;
    for (uint32_t p = 0; p < in->house->machine.managed; p++) {
        if (voldazpe_owner(&in->reference, in->house->cores[p].number, &owner) == VOLDAZPE_NO_OWNER) return false;
    }
    return true;
}

/* What a call is answered if no other call is going on. A wait that sleeps is checked when it returns. */
static voldazpe_house_code_t due_of(const runner_t *one, const job_t *job) {
    world_t *in = job->in;
    const seat_t *seat = &one->seats[in->number];
    const known_t *known = find(in, job->application);
    bool closed = !in->open, too_large = false, taken = seat->there, place;
    for (int level = 0; level < VOLDAZPE_LEVELS; level++) too_large = too_large || job->request[level] > VOLDAZPE_CORES;
    for (int h = 0; h < HOUSES; h++) taken = taken || (one->seats[h].there && worlds[h].pinned && in->pinned);
    switch (job->kind) {
    case JOIN: return closed ? (uint32_t)VOLDAZPE_HOUSE_CLOSED : VOLDAZPE_OK;
    case WANT: if (too_large) return VOLDAZPE_ENTRY_TOO_LARGE; break;
    case REGISTER: if (!closed && taken) return VOLDAZPE_HOUSE_REGISTERED; break;
    case WAIT:
        if (seat->ended != VOLDAZPE_OK) return seat->ended;
        place = position_of(in->places[seat->client]) >= 0;
        if (place && !is_asked(in->places[seat->client])) return VOLDAZPE_OK;
        if (job->limit != 0 || !in_vain(in, seat)) return VOLDAZPE_OK;
        return seat->ends ? (uint32_t)VOLDAZPE_HOUSE_WAIT_ENDED : (uint32_t)VOLDAZPE_TIMED_OUT;
    case GIVE_BACK: return seat->ended;
    case LEAVE: case END: case OPEN: return VOLDAZPE_OK;
    case WITHDRAW: case CAP: case END_WAIT: case READ: case CLOSE: case JOBS: break;
    }
    if (closed) return VOLDAZPE_HOUSE_CLOSED;
    if (job->kind == CLOSE) return VOLDAZPE_OK;
    if (!known) return VOLDAZPE_HOUSE_WITHDRAWN;
    if (job->kind == CAP && job->number > VOLDAZPE_CORES) return VOLDAZPE_ENTRY_TOO_LARGE;
    return VOLDAZPE_OK;
}

static void do_join(job_t *job) {
    world_t *in = job->in;
    voldazpe_house_application_t id = 0;
    char name[8];
    (void)snprintf(name, sizeof name, "%u", round_number);
    job->code = voldazpe_house_join(in->house, name, &id);
    CHECK((job->code == VOLDAZPE_OK) == (id != 0));
    if (job->code != VOLDAZPE_OK) return;
    known_t *known = &in->known[id % VOLDAZPE_APPLICATIONS];
    CHECK("an id that nobody had" && known->id == JOINING && job->gave[VOLDAZPE_JOIN] == 1);
    for (uint32_t i = 0; i < in->id_count; i++) CHECK("an id that nobody had" && in->ids[i] != id);
    known->id = id;
    memcpy(known->name, name, sizeof name);
    if (in->id_count < MOST_IDS) in->ids[in->id_count++] = id;
}

static void do_want(job_t *job) {
    const known_t *known = find(job->in, job->application);
    bool same = known && memcmp(known->request, job->request, VOLDAZPE_LEVELS) == 0;
    uint32_t level = 0;
    for (uint32_t i = 0; i < VOLDAZPE_LEVELS; i++) level = job->request[i] ? i : level;
    bool one = true;
    for (uint32_t i = 0; i < VOLDAZPE_LEVELS; i++) one = one && (i == level || job->request[i] == 0);
    job->code = one ? voldazpe_house_want(job->in->house, job->application, level, job->request[level])
                    : voldazpe_house_want_at_levels(job->in->house, job->application, job->request);
    if (job->alone) CHECK("one order, or none" && job->gave[VOLDAZPE_ASK] == (job->code == VOLDAZPE_OK && !same));
}

static void do_cap(job_t *job) {
    const known_t *known = find(job->in, job->application);
    bool same = known && known->cap == job->number;
    job->code = voldazpe_house_cap(job->in->house, job->application, job->number);
    if (job->alone) CHECK("one order, or none" && job->gave[VOLDAZPE_CAP] == (known && job->in->open && !same));
}

static void do_end_wait(job_t *job) {
    for (int i = 0; i < WORKERS; i++) {
        seat_t *seat = &runners[i].seats[job->in->number];
        if (!seat->there || seat->ended != VOLDAZPE_OK || seat->application != job->application) continue;
        if (job->number == VOLDAZPE_HOUSE_ALL || job->number == seat->client % VOLDAZPE_THREADS) seat->ends = true;
    }
    job->code = voldazpe_house_end_wait(job->in->house, job->application, job->number);
}

static void do_read(job_t *job) {
    voldazpe_house_counts_t counts;
    voldazpe_house_t *house = job->in->house;
    job->code = voldazpe_house_counts(house, job->application, &counts);
    CHECK(voldazpe_house_mine(house) == me->seats[job->in->number].handle);
}

/* Whether a thread is in a house that pins. */
static bool is_pinned(const runner_t *one) {
    for (int h = 0; h < HOUSES; h++) {
        if (one->seats[h].there && worlds[h].pinned) return true;
    }
    return false;
}

static void do_register(job_t *job) {
    world_t *in = job->in;
    seat_t *seat = &me->seats[in->number];
    voldazpe_house_thread_t *handle = NULL;
    cpu_set_t mask = me->mask, before = before_of(in, &mask);
    job->code = voldazpe_house_register(in->house, job->application, &handle);
    CHECK((job->code == VOLDAZPE_OK) == (handle != NULL));
    cpu_set_t after = before_of(in, &mask); /* another house may have been closed meanwhile */
    if (job->code != VOLDAZPE_OK) {
        bool tried = in->pinned && job->alone && job->code == VOLDAZPE_HOUSE_WITHDRAWN;
        bool as_before = CPU_EQUAL(&me->mask, &before) || CPU_EQUAL(&me->mask, &after) || (!tried && CPU_EQUAL(&me->mask, &mask));
        CHECK("where it might run before" && (me->anywhere || is_pinned(me) || as_before));
        return;
    }
    CHECK(handle->number < VOLDAZPE_THREADS);
    if (in->pinned && !CPU_EQUAL(&before, &after)) {
        cpu_set_t its = ((const registration_t *)(const void *)handle)->before;
        CHECK("where it might run before" && (CPU_EQUAL(&its, &before) || CPU_EQUAL(&its, &after)));
        before = its;
    }
    *seat = (seat_t){.there = true, .handle = handle, .application = job->application, .before = before, .granted = -1,
                     .client = voldazpe_client((uint32_t)(job->application % VOLDAZPE_APPLICATIONS), handle->number)};
    if (!find(in, job->application)) seat->ended = VOLDAZPE_HOUSE_WITHDRAWN;
    if (!in->open) seat->ended = seat->ended ? seat->ended : (uint32_t)VOLDAZPE_HOUSE_CLOSED;
}

/* Whether a call goes on that withdraws an application. */
static bool is_withdrawn(const world_t *in, voldazpe_house_application_t id) {
    for (int i = 0; i < WORKERS; i++) {
        const job_t *job = &runners[i].job;
        if (runners[i].calls && job->kind == WITHDRAW && job->in == in && job->application == id) return true;
    }
    return false;
}

/* What a wait that returns may answer. */
static void wait_returns(job_t *job, seat_t *seat) {
    world_t *in = job->in;
    uint32_t place = seat->ended == VOLDAZPE_OK && in->open ? in->places[seat->client] : VOLDAZPE_UNMANAGED;
    if (job->code == VOLDAZPE_OK) {
        CHECK("it had a core" && job->had_core);
        CHECK("the hook was told" && (!in->hooked || seat->told || in->closing));
        return;
    }
    CHECK("it has no core" && voldazpe_house_core(seat->handle) == -1);
    bool is_ended = job->code == VOLDAZPE_HOUSE_CLOSED || job->code == VOLDAZPE_HOUSE_WITHDRAWN;
    if (is_ended && in->pinned && !me->anywhere) CHECK("where it might run before" && CPU_EQUAL(&me->mask, &seat->before));
    if (job->code == VOLDAZPE_HOUSE_CLOSED) CHECK(in->closing);
    else if (job->code == VOLDAZPE_HOUSE_WITHDRAWN) CHECK(seat->ended == job->code || is_withdrawn(in, seat->application));
    else CHECK("it waits for none" && (place == VOLDAZPE_UNMANAGED || place == VOLDAZPE_MOVED_AWAY));
    bool is_over = job->limit >= 0 && now_is >= job->began + (uint64_t)job->limit;
    if (job->code == VOLDAZPE_TIMED_OUT) CHECK("at its limit" && is_over);
    if (job->code == VOLDAZPE_HOUSE_WAIT_ENDED) seat->ends = false;
}

/* what a cancelled thread runs */
static void cleans(void *unused) {
    (void)unused;
    const seat_t *seat = &me->seats[me->job.in->number];
    bool ends = seat->ended != VOLDAZPE_OK || me->job.in->closing || is_withdrawn(me->job.in, seat->application);
    CHECK(me->job.kind == END && seat->there);
    if (me->job.in->pinned && !me->anywhere && !ends) look_whether_alone(me->job.in, me);
}

static void do_wait(job_t *job) {
    seat_t *seat = &me->seats[job->in->number];
    job->had_core = voldazpe_house_core(seat->handle) >= 0;
    errno = 77;
    pthread_cleanup_push(cleans, NULL);
    job->code = voldazpe_house_wait(seat->handle, job->limit);
    pthread_cleanup_pop(0);
    CHECK(errno == 77);
    wait_returns(job, seat);
}

static void do_leave(job_t *job) {
    seat_t *seat = &me->seats[job->in->number];
    voldazpe_house_thread_t *handle = seat->handle;
    seat->handle = NULL;
    job->code = voldazpe_house_leave(handle);
    if (job->in->pinned) CHECK("where it might run before" && (me->anywhere || CPU_EQUAL(&me->mask, &seat->before)));
    seat->there = false;
}

/* Threads that aren't registered, and for which no one holds the house, use its pointer only once their call has begun. */
static bool comes_late(const world_t *in) {
    for (int i = 0; i < WORKERS && !in->held; i++) {
        const runner_t *one = &runners[i];
        bool uses = one != me && one->calls && one->job.in == in && one->job.kind < WAIT;
        if (uses && !one->seats[in->number].there && one->job.locked == 0) return true;
    }
    return false;
}

static void do_close(job_t *job) {
    world_t *in = job->in;
    while (comes_late(in)) {
        let_go();
        pass_on();
    }
    in->closing = true;
    job->code = voldazpe_house_close(in->house);
    if (job->code != VOLDAZPE_OK) return;
    in->closed = true;
    CHECK("its own thread has ended" && in->own->state == DEAD);
    CHECK("no hook goes on" && in->hooks == 0);
}

/* The thread that closes has the lock, and no order comes after that: each thread with a core loses it. */
static void note_closed(world_t *in) {
    in->open = false;
    for (int i = 0; i < WORKERS; i++) {
        seat_t *seat = &runners[i].seats[in->number];
        int position = seat->there ? position_of(in->places[seat->client]) : -1;
        if (!seat->there || seat->ended != VOLDAZPE_OK) continue;
        seat->ended = VOLDAZPE_HOUSE_CLOSED;
        if (position < 0 || on_seat(in, seat->client) != &runners[i]) continue;
        expect(in, (voldazpe_house_event_t){.application = seat->application, .kind = VOLDAZPE_HOUSE_LOST,
                                            .thread = seat->client % VOLDAZPE_THREADS,
                                            .core = in->house->cores[position].number});
    }
}

static void do_open(job_t *job);

static void do_job(job_t *job) {
    world_t *in = job->in;
    seat_t *seat = &me->seats[in->number];
    errno = 78;
    switch (job->kind) {
    case OPEN: do_open(job); break;
    case JOIN: do_join(job); break;
    case WITHDRAW:
        job->code = voldazpe_house_withdraw(in->house, job->application);
        CHECK(job->gave[VOLDAZPE_LEAVE] == (job->code == VOLDAZPE_OK));
        break;
    case WANT: do_want(job); break;
    case CAP: do_cap(job); break;
    case END_WAIT: do_end_wait(job); break;
    case READ: do_read(job); break;
    case REGISTER: do_register(job); break;
    case WAIT: do_wait(job); break;
    case GIVE_BACK: job->code = voldazpe_house_give_back(seat->handle); break;
    case LEAVE: do_leave(job); break;
    case CLOSE: do_close(job); break;
    case END: begin_to_end(); break;
    case JOBS: break;
    }
    CHECK(errno == 78 || errno == 77 || job->code != VOLDAZPE_OK);
    if (job->alone && job->kind != WAIT) CHECK("its answer" && job->code == job->due);
    bool is_told = job->limit == 0 || job->due != VOLDAZPE_OK; /* otherwise it depends on what comes while it sleeps */
    if (job->alone && job->kind == WAIT && is_told) CHECK("its answer" && job->code == job->due);
}

/* ---- a worker ---- */

static pthread_key_t ending;

/* Called in each round of destructors, the house's among them; in the last one it is over. */
static void ends(void *unused) {
    static _Thread_local int rounds;
    if (++rounds < PTHREAD_DESTRUCTOR_ITERATIONS) CHECK(pthread_setspecific(ending, unused) == 0);
    else dies();
}

static void *works(void *runner) {
    me = runner;
    CHECK(pthread_setspecific(ending, runner) == 0);
    await(&me->turn);
    for (;;) {
        do_job(&me->job);
        if (me->job.kind == END) break;
        me->calls = false;
        me->state = IDLE;
        pass_on();
    }
    return NULL;
}

static cpu_set_t some_mask(void) {
    cpu_set_t mask;
    CPU_ZERO(&mask);
    switch (lot(4)) {
    case 0: CPU_SET(lot(PROCESSORS), &mask); break;
    case 1:
        for (int i = 0; i < 3; i++) CPU_SET(lot(PROCESSORS), &mask);
        break;
    default: mask = present;
    }
    return mask;
}

static void start_worker(runner_t *one) {
    begin_runner(one);
    one->mask = some_mask();
    one->state = IDLE;
    one->job.kind = READ;
    CHECK(__real_pthread_create(&one->thread, NULL, works, one) == 0);
}

static void bury(runner_t *one) {
    CHECK(__real_pthread_join(one->thread, NULL) == 0);
    for (int h = 0; h < HOUSES; h++) {
        const seat_t *seat = &one->seats[h];
        if (!seat->there || !worlds[h].pinned || one->anywhere) continue;
        CHECK("where it might run before" && CPU_EQUAL(&one->mask, &seat->before));
    }
    CHECK(one->holds == 0);
    start_worker(one);
}

/* ---- openings ---- */

/* the machines: their managed cores aren't those of the other house's */
static const char *const machines[HOUSES][4] = {
    {"[[socket]]\nmanaged = [1, 2]\nunmanaged = [0]\n", "[[socket]]\nmanaged = [1]\nunmanaged = [0, 3]\n",
     "[[socket]]\nmanaged = [1, 2]\nunmanaged = [9]\n", "[[socket]]\nmanaged = [0, 1, 2, 3]\nunmanaged = [9]\n"},
    {"[[socket]]\nmanaged = [5, 6]\nunmanaged = [4]\n",
     "[[socket]]\nmanaged = [5]\nunmanaged = [4]\n[[socket]]\nmanaged = [7]\nunmanaged = []\n",
     "[[socket]]\nmanaged = [6]\nunmanaged = [4]\n", "[[socket]]\nmanaged = [5, 9]\nunmanaged = [4]\n"}};

static const char *text_of; /* of the house that is opened */

/* Where threads without a core go. */
static cpu_set_t unmanaged_of(world_t *in) {
    voldazpe_core_t core;
    cpu_set_t set;
    CPU_ZERO(&set);
    for (uint32_t i = 0; voldazpe_unmanaged_at(&in->reference, i, &core) == VOLDAZPE_OK; i++) CPU_SET(core.number, &set);
    CPU_AND(&set, &set, &in->all);
    if (CPU_COUNT(&set) > 0) return set;
    set = in->all;
    for (uint32_t i = 0; voldazpe_core_at(&in->reference, i, &core) == VOLDAZPE_OK; i++) CPU_CLR(core.number, &set);
    return CPU_COUNT(&set) > 0 ? set : in->all;
}

static void do_open(job_t *job) {
    world_t *in = job->in;
    const voldazpe_house_options_t options = {.unpinned = !in->pinned, .grace = in->grace, .hook = in->hooked ? hook : NULL,
                                              .hook_context = in};
    int64_t before = live;
    fault_t refused = fault.kind;
    voldazpe_house_t *house = NULL;
    job->code = voldazpe_house_open(text_of, strlen(text_of), &options, &house);
    bool came = fault.kind != NO_FAULT && fault.left == 0; /* the fault */
    fault.kind = refused == PINNING ? PINNING : NO_FAULT;
    CHECK((job->code == VOLDAZPE_OK) == (house != NULL) && errno == 78);
    if (came && refused != PINNING) {
        CHECK("nothing is kept" && live == before && (!in->own || in->own->state == DEAD));
        CHECK(job->code == (refused == THREAD ? (uint32_t)VOLDAZPE_HOUSE_NO_THREAD : (uint32_t)VOLDAZPE_OUT_OF_MEMORY));
        job->code = voldazpe_house_open(text_of, strlen(text_of), &options, &house);
    }
    CHECK(job->code == VOLDAZPE_OK);
    in->house = house;
    if (in->held) voldazpe_house_hold(house);
}

static void open_world(world_t *in, uint32_t number) {
    char whole[256];
    runner_t *opener = &runners[lot(WORKERS)];
    memset(in, 0, sizeof *in);
    in->number = number;
    in->pinned = lot(4) != 0;
    in->hooked = lot(2) == 0;
    in->held = lot(2) == 0;
    in->grace = lot(2) == 0 ? 1000 : 10000;
    in->open = true;
    text_of = machines[number][lot(4)];
    (void)snprintf(whole, sizeof whole, "grace = %lu\n%s", (unsigned long)in->grace, text_of);
    CHECK(voldazpe_open(&in->reference, whole, strlen(whole), NULL) == VOLDAZPE_OK);
    if (lot(3) == 0) opener->mask = some_mask();
    else opener->mask = present;
    in->all = opener->mask;
    in->unmanaged = unmanaged_of(in);
    opening = in;
    opener->job = (job_t){.kind = OPEN, .in = in, .alone = true};
    opener->calls = true;
    opener->state = GOES;
    run();
    CHECK(opener->state == IDLE && in->house);
}

/* ---- rounds ---- */

static voldazpe_house_application_t some_application(const world_t *in) {
    voldazpe_house_application_t id = 0;
    for (int tries = 0; tries < 20 && (!id || id == JOINING); tries++) id = in->known[lot(4)].id;
    if (id && id != JOINING && lot(16) != 0) return id;
    return in->id_count == 0 || lot(2) == 0 ? NOBODYS + lot(40) : in->ids[lot(in->id_count)]; /* of one that may be gone */
}

/* What a thread does for itself, or as anybody. */
static kind_t draw_kind(const seat_t *seat) {
    static const kind_t its[] = {WAIT, WAIT, WAIT, WAIT, WAIT, WAIT, WAIT, WAIT, WAIT, WAIT, GIVE_BACK, GIVE_BACK, GIVE_BACK, LEAVE,
                                 LEAVE, END};
    static const kind_t anybodys[] = {WANT, WANT, WANT, WANT, WANT, WANT, WANT, WANT, WANT, WANT, CAP, CAP, END_WAIT, READ, JOIN,
                                      REGISTER};
    if (lot(is_any(HELD) ? 10 : 40) == 0) return WITHDRAW;
    if (round_number > 50 && lot(200) == 0) return CLOSE;
    if (lot(2) == 0) return anybodys[lot(16)];
    return seat->there ? its[lot(16)] : REGISTER;
}

static bool closes(const world_t *in) {
    for (int i = 0; i < WORKERS; i++) {
        if (runners[i].calls && runners[i].job.in == in && runners[i].job.kind == CLOSE) return true;
    }
    return false;
}

/* Gives a worker a call. False if it may not make that call now. */
static bool draw_job(runner_t *one, job_t *job) {
    static const int64_t limits[] = {-1, -1, -1, 0, 0, 1000, 400000, 3000000};
    world_t *in = &worlds[lot(6) == 0 ? 1 - busy : busy];
    const seat_t *seat = &one->seats[in->number];
    uint32_t applications = 0;
    for (int i = 0; i < VOLDAZPE_APPLICATIONS; i++) applications += in->known[i].id != 0;
    *job = (job_t){.kind = draw_kind(seat), .in = in, .application = some_application(in), .began = now_is};
    if (applications < 2 && lot(2) == 0) job->kind = JOIN;
    if (job->kind == JOIN && applications >= APPLICATIONS) return false;
    if ((job->kind < WAIT || job->kind == CLOSE) && (!in->house || (in->closing && !in->held && !seat->there))) return false;
    if (job->kind == CLOSE && closes(in)) return false; /* one at a time */
    if (job->kind >= WAIT && job->kind <= LEAVE) job->application = seat->application;
    job->limit = limits[lot(8)];
    for (int i = 0; i < 2; i++) job->request[lot(VOLDAZPE_LEVELS)] = (uint8_t)(lot(40) == 0 ? 129 : lot(4));
    job->number = job->kind == CAP ? (lot(4) == 0 ? 128 + lot(2) * 72 : lot(4)) : lot(3) == 0 ? VOLDAZPE_HOUSE_ALL : lot(3);
    return true;
}

/* So many workers begin a call. */
static uint32_t begin_jobs(uint32_t many, bool alone) {
    uint32_t began = 0;
    const job_t *waits = NULL;
    for (int tries = 0; tries < 50 && began < many; tries++) {
        runner_t *one = &runners[lot(WORKERS)];
        job_t job;
        if (one->state != IDLE || !draw_job(one, &job)) continue;
        if (waits && lot(2) == 0 && waits->in->house && (!waits->in->closing || waits->in->held)) {
            job = (job_t){.kind = WANT, .in = waits->in, .application = waits->application, .began = now_is};
            job.request[lot(2)] = (uint8_t)(1 + lot(3)); /* for a thread that is about to sleep */
        }
        if (!is_pinned(one) && lot(8) == 0) one->mask = some_mask(); /* it pins itself */
        job.alone = alone;
        if (alone) job.due = due_of(one, &job);
        waits = job.kind == WAIT ? &one->job : NULL;
        one->job = job;
        one->slip = 0;
        one->calls = true;
        one->state = GOES;
        began++;
    }
    return began;
}

/* Time passes, or a sleeper is sent a signal, or is cancelled. */
static bool disturb(void) {
    runner_t *one = &runners[lot(WORKERS)];
    bool passes = lot(3) == 0;
    if (passes) pass_time();
    if (one->state != SLEEPS || one->job.kind != WAIT || lot(4) != 0) return passes;
    one->state = GOES;
    one->woken = lot(2) == 0 ? EINTR : CANCELLED;
    return true;
}

/* ---- after a round ---- */

static void look_at_sleeper(const runner_t *one) {
    CHECK("it ends, or sleeps" && one->state == SLEEPS && one->holds == 0);
    CHECK("it was woken" && !is_freed(one->at) && *(const uint32_t *)one->at == one->value);
    if (one >= runners + WORKERS) return;
    const seat_t *seat = &one->seats[one->job.in->number];
    CHECK("it waits" && one->job.kind == WAIT && one->at == (const void *)seat->handle && one->job.in->open);
    CHECK("it waits" && seat->ended == VOLDAZPE_OK && one->job.in->places[seat->client] == VOLDAZPE_WAITING);
    CHECK("its limit isn't over" && (one->job.limit < 0 || now_is < one->job.began + (uint64_t)one->job.limit + one->slip));
}

static void look_at_seat(const world_t *in, const runner_t *one, bool alone) {
    seat_t *seat = (seat_t *)(uintptr_t)&one->seats[in->number];
    const registration_t *registered = (const registration_t *)(const void *)seat->handle;
    if (!seat->there) return;
    uint32_t place = in->places[seat->client], ends = atomic_load(&registered->ends);
    if (seat->ended != VOLDAZPE_OK) {
        CHECK("its end" && word_of(seat) == (seat->ended == VOLDAZPE_HOUSE_CLOSED ? WORD_CLOSED : WORD_WITHDRAWN));
        return;
    }
    int core = core_at(in, place);
    CHECK("its core" && voldazpe_house_core(seat->handle) == core);
    CHECK("whether it may keep it" && voldazpe_house_keep(seat->handle) == (core >= 0 && !is_asked(place)));
    CHECK("it sleeps" && (place == VOLDAZPE_WAITING) == (one->state == SLEEPS && one->job.in == in));
    if (alone) CHECK("whether a wait is to end" && seat->ends == (ends != 0));
    seat->ends = ends != 0;
    CHECK("its wait ends" && (!seat->ends || place != VOLDAZPE_WAITING));
    if (!is_asked(place)) return;
    CHECK("it is moved in time" && microseconds() - in->since[position_of(place)] < in->grace + in->own->slip / 1000);
}

static void look_at_counts(world_t *in, uint32_t number) {
    const known_t *known = &in->known[number];
    voldazpe_counts_t has;
    uint32_t threads = 0;
    char name[8];
    if (!known->id) return;
    CHECK(voldazpe_counts(&in->reference, number, &has) == VOLDAZPE_OK);
    for (int i = 0; i < WORKERS; i++) {
        threads += runners[i].seats[in->number].there && runners[i].seats[in->number].application == known->id;
    }
    voldazpe_house_counts_t counts = counts_of(in->house, known->id);
    CHECK(counts.due == has.due && counts.owned == has.owned && counts.asked == has.asked && counts.waiting == has.waiting);
    CHECK(counts.threads == threads && counts.cap == known->cap);
    CHECK(memcmp(counts.request, known->request, VOLDAZPE_LEVELS) == 0);
    OK(voldazpe_house_name(in->house, known->id, name, sizeof name));
    CHECK(strcmp(name, known->name) == 0);
}

static void look_at_owners(world_t *in) {
    voldazpe_house_owner_t owners[VOLDAZPE_CORES];
    size_t count;
    OK(voldazpe_house_owners(in->house, owners, VOLDAZPE_CORES, &count));
    for (uint32_t p = 0; p < count; p++) {
        uint32_t client = 0;
        bool taken = voldazpe_owner(&in->reference, owners[p].core, &client) == VOLDAZPE_OK;
        CHECK(owners[p].application == (taken ? in->known[client / VOLDAZPE_THREADS].id : 0));
        CHECK(owners[p].thread == (taken ? client % VOLDAZPE_THREADS : 0));
        CHECK(owners[p].asked == (taken && is_asked(in->places[client])));
    }
}

static void look_at_state(world_t *in) {
    voldazpe_house_state_t state = state_of(in->house);
    uint32_t applications = 0, threads = 0;
    for (int i = 0; i < VOLDAZPE_APPLICATIONS; i++) applications += in->known[i].id != 0;
    for (int i = 0; i < WORKERS; i++) {
        threads += runners[i].seats[in->number].there && runners[i].seats[in->number].ended == VOLDAZPE_OK;
    }
    CHECK(state.orders == in->orders && state.moved == in->moved && state.grace == in->grace && state.opens == 1);
    CHECK(state.applications == applications && state.threads == threads && state.refused == in->refused);
    CHECK(voldazpe_house_affinity(in->house) == (in->refused ? (uint32_t)VOLDAZPE_HOUSE_UNPINNED : VOLDAZPE_OK));
}

/* Each event that was due was told once; but some of a thread that a close ended meanwhile. */
static void look_at_events(world_t *in, bool alone) {
    for (uint32_t i = 0; i < in->expected_count; i++) {
        CHECK("an event is told" && (in->expected[i].told || (in->closing && !alone)));
    }
    in->expected_count = 0;
    /* it is told as the next lock is let go of */
    CHECK("a refusal is told once" && in->refused_told <= (in->refused != 0) && (in->hooked || !in->refused_told));
}

static void look_at_world(world_t *in, bool alone) {
    bool there = false;
    for (int i = 0; i < WORKERS; i++) {
        look_at_seat(in, &runners[i], alone);
        there = there || runners[i].seats[in->number].there;
    }
    look_at_events(in, alone);
    if (!in->open) {
        CHECK(in->own->state == DEAD);
        if (!there && !in->held) in->house = NULL; /* it is freed */
        return;
    }
    look_at_sleeper(in->own);
    bool elsewhere = !in->pinned || in->own->anywhere || CPU_EQUAL(&in->own->mask, &in->unmanaged);
    CHECK("its own thread is on unmanaged cores" && elsewhere);
    for (uint32_t number = 0; number < VOLDAZPE_APPLICATIONS; number++) look_at_counts(in, number);
    look_at_owners(in);
    look_at_state(in);
}

static void look_at_all(bool alone) {
    CHECK("locks are free" && locks == 0);
    for (int i = 0; i < WORKERS; i++) {
        if (runners[i].state == DEAD) bury(&runners[i]);
        else if (runners[i].state != IDLE) look_at_sleeper(&runners[i]);
    }
    for (int h = 0; h < HOUSES; h++) {
        if (worlds[h].house) look_at_world(&worlds[h], alone);
    }
}

static void one_round(void) {
    static const uint32_t many[] = {0, 0, 1, 1, 1, 1, 2, 2, 3};
    static const uint32_t hurries[] = {1, 2, 2, 4, 16};
    round_number++;
    hurry = hurries[lot(5)];
    bool disturbed = disturb();
    uint32_t jobs = many[lot(9)];
    late = lot(3) == 0;
    holding = lot(3) == 0;
    bool alone = jobs == 1 && !disturbed && !late && !holding;
    (void)begin_jobs(jobs, alone);
    run();
    for (; is_any(HELD); run()) { /* others begin calls meanwhile */
        if (lot(4) == 0) let_go();
        (void)disturb();
        (void)begin_jobs(lot(3), false);
    }
    look_at_all(alone);
}

/* ---- courses ---- */

static void start_job(runner_t *one, kind_t kind, world_t *in) {
    one->job = (job_t){.kind = kind, .in = in, .limit = -1, .began = now_is};
    if (in->id_count > 0) one->job.application = in->ids[lot(in->id_count)];
    one->calls = true;
    one->state = GOES;
}

/* A worker that is in no call: where all of them sleep, one is cancelled, and another begins in its place. */
static runner_t *some_idle(void) {
    for (int i = 0; i < WORKERS; i++) {
        if (runners[i].state == IDLE) return &runners[i];
    }
    runners[0].woken = CANCELLED;
    runners[0].state = GOES;
    run();
    look_at_all(false);
    return &runners[0];
}

/* All threads leave a house: then only its callers keep its memory. */
static void leave_all(world_t *in) {
    for (int i = 0; i < WORKERS; i++) {
        runner_t *one = &runners[i];
        if (!one->seats[in->number].there) continue;
        if (one->state == IDLE) start_job(one, LEAVE, in);
        one->woken = CANCELLED;
        one->state = GOES;
        run();
        look_at_all(false);
    }
}

/* All houses are closed, and all threads end at once. */
static void end_course(void) {
    holding = false;
    for (int h = 0; h < HOUSES; h++) {
        if (worlds[h].open && lot(2) == 0) leave_all(&worlds[h]);
        runner_t *closer = worlds[h].open ? some_idle() : NULL;
        if (closer) {
            start_job(closer, CLOSE, &worlds[h]);
            holding = lot(2) == 0;
            (void)begin_jobs(3, false); /* beside others' calls */
        }
        for (run(); is_any(HELD); run()) let_go();
        holding = false;
        look_at_all(false);
    }
    hurry = 1;
    for (int i = 0; i < WORKERS; i++) {
        runners[i].job = (job_t){.kind = END, .in = &worlds[0]};
        runners[i].calls = true;
        runners[i].state = GOES;
    }
    run();
    for (int i = 0; i < WORKERS; i++) {
        CHECK(runners[i].state == DEAD && __real_pthread_join(runners[i].thread, NULL) == 0);
        runners[i].seats[0].there = runners[i].seats[1].there = false;
    }
    for (int h = 0; h < HOUSES; h++) {
        if (worlds[h].held) voldazpe_house_let_go(worlds[h].house);
        worlds[h].house = NULL;
        CHECK(voldazpe_close(&worlds[h].reference) == VOLDAZPE_OK);
    }
    CHECK("no memory is kept" && live == 0);
    free_all();
}

/* Applications join the busy house, and most threads are of them. */
static void settle(void) {
    for (int i = 0; i < 2 + WORKERS; i++) {
        runner_t *one = &runners[i % WORKERS];
        if (one->state == IDLE && (i < 2 || lot(4) != 0)) start_job(one, i < 2 ? JOIN : REGISTER, &worlds[busy]);
        run();
        look_at_all(false);
    }
}

static void course(uint64_t number) {
    seed = lots = number;
    (void)next_random(&lots);
    round_number = 0;
    hurry = 2;
    late = false;
    busy = lot(HOUSES);
    fault.kind = lot(2) == 0 ? NO_FAULT : (fault_t)lot(FAULTS);
    fault.left = 1 + lot(fault.kind == PINNING ? 40 : fault.kind == MEMORY ? 5 : 1);
    fault.stays = fault.kind == PINNING && lot(2) == 0;
    for (int i = 0; i < WORKERS; i++) start_worker(&runners[i]);
    for (uint32_t h = 0; h < HOUSES; h++) open_world(&worlds[h], h);
    settle();
    for (uint32_t rounds = 100 + lot(100); round_number < rounds;) one_round();
    end_course();
}

int main(int count, char **words) {
    struct sigaction action = {.sa_handler = crashes};
    CHECK(count == 2 || count == 3);
    if (!SANITIZED) CHECK(sigaction(SIGSEGV, &action, NULL) == 0);
    CHECK(sem_init(&main_turn, 0, 0) == 0);
    CHECK(voldazpe_house_begin_process()); /* its key comes before this one's */
    CHECK(pthread_key_create(&ending, ends) == 0);
    CPU_ZERO(&present);
    for (size_t i = 0; i < PROCESSORS; i++) CPU_SET(i, &present);
    now_is = 1000000000000;
    uint64_t courses = strtoull(words[1], NULL, 10), first = count == 3 ? strtoull(words[2], NULL, 10) : 1;
    for (uint64_t number = first; number < first + courses; number++) course(number);
    return 0;
}
