/* A small runtime on the arbiter, to copy from: two applications in one process share this machine's cores.
 *
 *     cc -std=c11 -O2 runtime.c $(pkg-config --cflags --libs voldazpe) -lpthread -o runtime
 *     ./runtime [SECONDS [MACHINE.toml]]      (10 seconds if left out)
 *
 * A service, application 0, gets bursts of tasks and asks for cores at level 0. A batch job, application 1, always
 * has tasks, and takes at level 1 what the service leaves. Each application has a kernel thread for each managed
 * core. A thread blocks until it gets a core, pins itself to it, and runs tasks from its application's queue. Between
 * tasks it checks whether the core is asked back. If so, it goes back to the unmanaged cores and blocks again. One more
 * thread is the clock: it gives ticks, and takes threads that stayed too long off their cores. It also brings the
 * service its bursts, and asks for as many cores as the length of each queue calls for.
 *
 * Each second the program prints what each application had. At the end it prints how long a core took, from the
 * service's ask to its first task there. Then it does everything again without the arbiter, when the operating system
 * places the same threads, and prints the same figures.
 *
 * Without a machine file, the first processor that this process may use stays unmanaged, and the others are managed. */
#define _GNU_SOURCE
#include <voldazpe.h>

#include "beside_measure.h" /* a clock, tasks of a fixed number of steps, percentiles, and what others took of the machine */

#include <inttypes.h>
#include <pthread.h>
#include <string.h>

enum {
    SERVICE = 0,
    BATCH = 1,
    QUEUE = 4096,          /* places of a queue of tasks */
    SAMPLES = 65536,
    TASK = 50,             /* microseconds that a task's steps take on a core of its own */
    TASKS_FOR_A_CORE = 40, /* tasks in an application's queue for which it wants one more core */
    BURST = 200,           /* tasks of a burst */
    BURST_EACH = 50,       /* milliseconds from one burst to the next */
    TICK = 2               /* milliseconds from one tick to the next; the grace is several of them */
};

/* ---- user-level tasks: here each is a number of steps. A time on a clock wouldn't do: a task that was preempted would
 * count as done. */

typedef struct application {
    pthread_mutex_t lock;
    uint32_t queued;                 /* tasks in the queue */
    uint64_t dropped;                /* tasks that came when it was full */
    _Atomic(uint32_t) wanted;        /* cores that it last asked for; only the clock's thread writes it */
    _Atomic(uint64_t) asked_at;      /* when it first asked for more, in nanoseconds, until a core came; otherwise 0 */
    _Atomic(uint64_t) done;          /* tasks that were run */
    _Atomic(uint64_t) given_back;    /* cores that were given back since they were asked for */
    _Atomic(uint32_t) allowed;       /* without the arbiter: how many threads may run */
    pthread_cond_t allowed_more;
} application_t;

static application_t applications[2] = {
    {.lock = PTHREAD_MUTEX_INITIALIZER, .allowed_more = PTHREAD_COND_INITIALIZER},
    {.lock = PTHREAD_MUTEX_INITIALIZER, .allowed_more = PTHREAD_COND_INITIALIZER},
};
static uint64_t samples[SAMPLES];        /* nanoseconds from an ask to the first task on a core */
static _Atomic(uint32_t) sample_count;
static _Atomic(bool) ending;
static uint64_t steps_of_a_task;

static void add_tasks(application_t *application, uint32_t count) {
    pthread_mutex_lock(&application->lock);
    uint32_t room = QUEUE - application->queued, added = count < room ? count : room;
    application->queued += added;
    application->dropped += count - added;
    pthread_mutex_unlock(&application->lock);
}

/* adds tasks, as many as the queue takes */
static void fill(application_t *application) {
    pthread_mutex_lock(&application->lock);
    application->queued = QUEUE;
    pthread_mutex_unlock(&application->lock);
}

static uint32_t queue_length(application_t *application) {
    pthread_mutex_lock(&application->lock);
    uint32_t queued = application->queued;
    pthread_mutex_unlock(&application->lock);
    return queued;
}

/* Runs one task, or lets go of the processor if there is none. `first` is whether the thread has just got its core. */
static void run_a_task(application_t *application, bool first) {
    pthread_mutex_lock(&application->lock);
    bool found = application->queued > 0;
    if (found) application->queued--;
    pthread_mutex_unlock(&application->lock);
    uint64_t began = now(), asked_at = first ? atomic_exchange(&application->asked_at, 0) : 0;
    if (!found) {
        sched_yield();
        return;
    }
    if (asked_at && application == &applications[SERVICE]) {
        uint32_t at = atomic_fetch_add(&sample_count, 1);
        if (at < SAMPLES) samples[at] = began - asked_at;
    }
    work(steps_of_a_task);
    application->done++;
}

/* ---- the arbiter: each thread is a member of it, without a lock, and reads its page by one load */

static voldazpe_page_t page;
static voldazpe_member_t clock_member;   /* zero bytes: closed. It is for the clock's thread, and opens the arbiter */
static voldazpe_member_t members[VOLDAZPE_ALL_THREADS]; /* those of the applications' threads, by client number */
static char text[VOLDAZPE_TEXT + 1];     /* of the machine */
static size_t text_length;
static uint32_t cores;                   /* managed cores */
static uint32_t each;                    /* threads of each application */
static uint16_t numbers[VOLDAZPE_CORES]; /* of the core at each position */
static cpu_set_t unmanaged;              /* the processors that the text leaves to the ordinary scheduler */
static _Atomic(bool) unpinned;           /* affinity was refused */
static _Atomic(pid_t) ids[VOLDAZPE_ALL_THREADS]; /* the operating system's number of each thread */
static uint64_t moved;                   /* how often a thread stayed too long; only the clock's thread writes it */

static void expect_done(voldazpe_code_t code) {
    if (code == VOLDAZPE_OK) return;
    fprintf(stderr, "runtime: %s\n", voldazpe_code_text(code));
    exit(1);
}

/* Gives an order by the caller's member. It isn't refused: here threads retire before their application leaves. */
static void give(voldazpe_member_t *member, uint32_t client, voldazpe_order_t order) {
    voldazpe_reply_t reply = {0};
    expect_done(voldazpe_member_give(member, client, order, &reply));
    CHECK(reply.kind != VOLDAZPE_REFUSED);
}

/* Pins a thread by the operating system's number, 0 for the calling one. */
static void pin(pid_t id, const cpu_set_t *processors) {
    if (sched_setaffinity(id, sizeof *processors, processors) != 0 && !atomic_exchange(&unpinned, true)) {
        fprintf(stderr, "runtime: affinity is refused: going on unpinned\n");
    }
}

static void pin_to(uint16_t core) {
    cpu_set_t one;
    CPU_ZERO(&one);
    CPU_SET(core, &one);
    pin(0, &one);
}

/* A kernel thread of an application: waits for a core, works there until it is asked back, and waits again. */
static void *works(void *argument) {
    const uint32_t me = (uint32_t)(uintptr_t)argument;
    application_t *application = &applications[me / VOLDAZPE_THREADS];
    ids[me] = (pid_t)syscall(SYS_gettid);
    while (!ending) {
        pin(0, &unmanaged); /* before the order makes the core another thread's */
        give(&members[me], me, voldazpe_block());
        while (voldazpe_wait(&page, me, 50000000) == VOLDAZPE_TIMED_OUT && !ending) {}
        int position = voldazpe_position(&page, me);
        if (position < 0) continue;
        pin_to(numbers[position]);
        int release = 0;
        for (bool first = true; (release = voldazpe_must_release(&page, me)) == 0 && !ending; first = false) {
            run_a_task(application, first);
        }
        if (release == 1) application->given_back++; /* the next order to block gives it back; at -1 it was moved */
    }
    pin(0, &unmanaged);
    give(&members[me], me, voldazpe_retire());
    return NULL;
}

/* Gives the moment. The arbiter pins nothing: threads that it has moved are taken off their cores here. All this is one
 * turn, since such a thread may block and get a core again. */
static void tick(void) {
    voldazpe_reply_t reply = {0};
    voldazpe_post_t post;
    expect_done(voldazpe_member_begin(&clock_member));
    expect_done(voldazpe_member_step(&clock_member, VOLDAZPE_CLOCK, voldazpe_tick(now() / 1000), &reply));
    CHECK(reply.kind == VOLDAZPE_MOVED);
    while (voldazpe_member_next_post(&clock_member, &post) == VOLDAZPE_OK) {}
    for (uint32_t thread = 0; reply.moved > 0 && thread < VOLDAZPE_ALL_THREADS; thread++) {
        if (voldazpe_place_word(&page, thread) == VOLDAZPE_MOVED_AWAY) pin(ids[thread], &unmanaged);
    }
    expect_done(voldazpe_member_end(&clock_member));
    moved += reply.moved;
}

/* ---- without the arbiter: as many threads of an application run as it wants cores, wherever the system places them */

static void *works_anywhere(void *argument) {
    const uint32_t me = (uint32_t)(uintptr_t)argument, thread = me % VOLDAZPE_THREADS;
    application_t *application = &applications[me / VOLDAZPE_THREADS];
    while (!ending) {
        pthread_mutex_lock(&application->lock);
        while (thread >= application->allowed && !ending) {
            pthread_cond_wait(&application->allowed_more, &application->lock);
        }
        pthread_mutex_unlock(&application->lock);
        for (bool first = true; thread < application->allowed && !ending; first = false) {
            run_a_task(application, first);
        }
    }
    return NULL;
}

static void allow(application_t *application, uint32_t count) {
    pthread_mutex_lock(&application->lock);
    application->allowed = count;
    pthread_cond_broadcast(&application->allowed_more);
    pthread_mutex_unlock(&application->lock);
}

/* ---- the clock's thread: here the main one */

/* how many cores the length of the queue calls for; no more than there are threads to use them */
static uint32_t estimate(application_t *application) {
    uint32_t wanted = (queue_length(application) + TASKS_FOR_A_CORE - 1) / TASKS_FOR_A_CORE;
    return wanted < each ? wanted : each;
}

static void ask(uint32_t which, uint32_t wanted, bool arbitrated) {
    application_t *application = &applications[which];
    uint64_t nobody = 0;
    if (wanted == application->wanted) return;
    if (wanted > application->wanted) atomic_compare_exchange_strong(&application->asked_at, &nobody, now());
    if (wanted == 0) application->asked_at = 0;
    application->wanted = wanted;
    if (!arbitrated) allow(application, wanted);
    else give(&clock_member, voldazpe_client(which, 0), voldazpe_ask(which, wanted)); /* the level is its number too */
}

static void report(uint32_t second, bool arbitrated) {
    printf("second %" PRIu32 ":", second);
    for (uint32_t which = SERVICE; which <= BATCH; which++) {
        printf("%s %s", which ? "," : "", which ? "batch" : "service");
        if (arbitrated) {
            voldazpe_counts_t counts = {0}; /* read in a turn, which is no order */
            expect_done(voldazpe_member_begin(&clock_member));
            expect_done(voldazpe_member_counts(&clock_member, which, &counts));
            expect_done(voldazpe_member_end(&clock_member));
            printf(" due %u owned %u,", counts.due, counts.owned);
        }
        printf(" %" PRIu64 " tasks", atomic_exchange(&applications[which].done, 0));
    }
    printf("\n");
    fflush(stdout);
}

static void keep_time(uint32_t seconds, bool arbitrated) {
    const uint64_t began = now();
    for (uint32_t millisecond = 0, second = 0; second < seconds; millisecond += TICK) {
        const struct timespec pause = {0, TICK * 1000000};
        nanosleep(&pause, NULL);
        if (arbitrated) tick();
        if (millisecond % BURST_EACH == 0) add_tasks(&applications[SERVICE], BURST);
        fill(&applications[BATCH]);
        ask(SERVICE, estimate(&applications[SERVICE]), arbitrated);
        ask(BATCH, estimate(&applications[BATCH]), arbitrated);
        if ((now() - began) / 1000000000 > second) report(++second, arbitrated);
    }
}

/* Says so if other programs took part in what was measured. */
static void warn(use_t from, const cpu_set_t *processors) {
    double others, stolen;
    use_between(from, use_now(processors), CPU_COUNT(processors), &others, &stolen);
    if (others + stolen <= 0.03) return;
    printf("others took %.0f of 100 of the processors' time meanwhile: these figures are theirs too\n", 100 * (others + stolen));
}

/* Runs both applications for some seconds, and tells how long a core took. */
static void run(uint32_t seconds, bool arbitrated, const cpu_set_t *processors) {
    static pthread_t threads[2 * VOLDAZPE_THREADS];
    uint32_t count = 0;
    const use_t before = use_now(processors);
    printf("%s the arbiter:\n", arbitrated ? "with" : "without");
    ending = false;
    sample_count = 0;
    for (uint32_t which = SERVICE; which <= BATCH; which++) {
        application_t *application = &applications[which];
        application->queued = 0;
        application->wanted = application->allowed = 0;
        application->dropped = 0;
        application->asked_at = application->done = 0;
        for (uint32_t thread = 0; thread < each; thread++) {
            const uint32_t client = voldazpe_client(which, thread);
            if (arbitrated) expect_done(voldazpe_member_another(&clock_member, &members[client]));
            CHECK(pthread_create(&threads[count++], NULL, arbitrated ? works : works_anywhere,
                                 (void *)(uintptr_t)client) == 0);
        }
    }
    keep_time(seconds, arbitrated);
    ending = true;
    for (uint32_t which = SERVICE; which <= BATCH; which++) allow(&applications[which], 0);
    for (uint32_t thread = 0; thread < count; thread++) CHECK(pthread_join(threads[thread], NULL) == 0);
    for (uint32_t which = SERVICE; arbitrated && which <= BATCH; which++) {
        give(&clock_member, voldazpe_client(which, 0), voldazpe_leave());
        for (uint32_t thread = 0; thread < each; thread++) {
            expect_done(voldazpe_member_close(&members[voldazpe_client(which, thread)]));
        }
    }
    uint32_t taken = sample_count < SAMPLES ? sample_count : SAMPLES;
    CHECK(taken > 0); /* the service asked, and its tasks ran */
    qsort(samples, taken, sizeof *samples, by_size);
    printf("from the service's ask to its first task on a core: median %.1f us, 99th percentile %.1f us, of %u\n",
           (double)percentile(samples, taken, 500) / 1000, (double)percentile(samples, taken, 990) / 1000, taken);
    if (applications[SERVICE].dropped) {
        printf("tasks of the service for which its queue had no room: %" PRIu64 "\n", applications[SERVICE].dropped);
    }
    warn(before, processors);
}

/* The text of the machine: the file's, or one of the processors that this process may use. */
static size_t machine(char *to, size_t size, const char *name) {
    if (name) {
        FILE *file = fopen(name, "r");
        if (!file) {
            fprintf(stderr, "runtime: cannot open %s\n", name);
            exit(1);
        }
        size_t length = fread(to, 1, size, file);
        fclose(file);
        return length;
    }
    cpu_set_t allowed;
    int first = -1, managed = 0;
    size_t length = (size_t)snprintf(to, size, "[[socket]]\nmanaged = [");
    CHECK(sched_getaffinity(0, sizeof allowed, &allowed) == 0);
    for (int processor = 0; processor < CPU_SETSIZE && managed < VOLDAZPE_THREADS; processor++) {
        if (!CPU_ISSET((size_t)processor, &allowed)) continue;
        if (first < 0) first = processor;
        else length += (size_t)snprintf(to + length, size - length, "%s%d", managed++ ? ", " : "", processor);
    }
    if (managed == 0) { /* there is only one processor: it is managed, and the clock's thread shares it */
        fprintf(stderr, "runtime: one processor alone\n");
        return (size_t)snprintf(to, size, "[[socket]]\nmanaged = [%d]\nunmanaged = [%d]\n", first, first ? 0 : 1);
    }
    return length + (size_t)snprintf(to + length, size - length, "]\nunmanaged = [%d]\n", first);
}

/* How many seconds a word says, or 0 if it is no number from 1 to 1,000,000. */
static uint32_t seconds_of(const char *word) {
    char *end;
    unsigned long seconds = strtoul(word, &end, 10);
    return *end == 0 && seconds <= 1000000 && word[0] != '-' ? (uint32_t)seconds : 0;
}

int main(int count, char **words) {
    uint32_t seconds = count > 1 ? seconds_of(words[1]) : 10;
    if (count > 3 || seconds == 0) {
        fprintf(stderr, "usage: runtime [SECONDS [MACHINE.toml]]\n");
        return 2;
    }
    text_length = machine(text, sizeof text, count > 2 ? words[2] : NULL);
    voldazpe_code_t code = voldazpe_member_open(&clock_member, &page, text, text_length, NULL);
    if (code != VOLDAZPE_OK) {
        fprintf(stderr, "runtime: the machine: %s\n", voldazpe_code_text(code));
        return 1;
    }
    tick(); /* before all other orders, since a core counts as asked back from the last tick before that */
    for (uint32_t which = SERVICE; which <= BATCH; which++) {
        give(&clock_member, voldazpe_client(which, 0), voldazpe_join());
    }
    cpu_set_t all;
    CHECK(sched_getaffinity(0, sizeof all, &all) == 0);
    voldazpe_core_t core;
    for (; voldazpe_member_core_at(&clock_member, cores, &core) == VOLDAZPE_OK; cores++) numbers[cores] = core.number;
    each = cores < VOLDAZPE_THREADS ? cores : VOLDAZPE_THREADS;
    for (uint32_t index = 0; voldazpe_member_unmanaged_at(&clock_member, index, &core) == VOLDAZPE_OK; index++) {
        CPU_SET(core.number, &unmanaged);
    }
    CPU_AND(&unmanaged, &unmanaged, &all);
    if (CPU_COUNT(&unmanaged) == 0) unmanaged = all; /* the text has none of them */
    pin(0, &unmanaged); /* the clock's thread; the threads that it starts pin themselves */
    steps_of_a_task = steps_for(TASK * 1000);
    run(seconds, true, &all);
    printf("cores given back: service %" PRIu64 ", batch %" PRIu64 "; threads moved: %" PRIu64 "\n",
           (uint64_t)applications[SERVICE].given_back, (uint64_t)applications[BATCH].given_back, moved);
    CHECK(cores < 2 || applications[BATCH].given_back > 0); /* the service asked for some of them */
    expect_done(voldazpe_member_close(&clock_member)); /* the last member: the page is cleared */
    pin(0, &all);
    run(seconds, false, &all);
    return 0;
}
