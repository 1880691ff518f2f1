/* A thread pool whose tasks call a parallel math library. The pool has one thread per processor, and OpenMP, which stands for the
 * library, would start as many for each of them.
 *
 *     library -w WAY -l LOAD [-s SECONDS] [-n STEPS] [-c CAPACITY] [-r SEED]
 *
 * A task runs four parallel regions. Each region is some 50 us of work on all processors. There are two loads:
 *
 *     random    tasks come at random moments and use half of all processors on average
 *     at-once   all tasks come at the start: as many as all processors can do in half of SECONDS
 *
 * A run is given up after three times SECONDS. OMP_WAIT_POLICY says how OpenMP's threads wait. The ways differ in the threads
 * of a region:
 *
 *     none, fifo, rr     one per processor
 *     divided            processors divided by the tasks in progress
 *     parts              one; each thread of the pool has its own processor
 *     turns              one per processor; a lock admits one task at a time
 *     house, house-all   one per core that its application is due. Each thread of the pool is an application, and there is one
 *                        per managed core. A thread that finds no task gives its cores back */
#define _GNU_SOURCE
#include "openmp_house.h"

#include "beside_threads.h"
#include "equals.h"

enum { REGIONS = 4, SHARES = 24, PATIENT = 3, WARM = 100000000 };

static service_t pool;
static options_t options;
static openmp_house_t in_house[VOLDAZPE_THREADS]; /* of each thread of the pool */
static pthread_mutex_t turn = PTHREAD_MUTEX_INITIALIZER;
static uint64_t share;                            /* steps */
static int team;                                  /* threads of a region, at most */
static _Atomic(int) tasks;                        /* that are being done */

static void compute(void) {
    for (int region = 0; region < REGIONS; region++) {
        int threads = options.way->parts != DIVIDED ? team : team > tasks ? team / tasks : 1;
#pragma omp parallel for num_threads(threads) schedule(static)
        for (int i = 0; i < SHARES; i++) work(share);
    }
}

static void compute_in_house(openmp_house_t *mine) {
    for (int region = 0; region < REGIONS; region++) {
        int threads = openmp_house_begin(mine, team);
#pragma omp parallel num_threads(threads)
        {
            voldazpe_house_thread_t *me = openmp_house_enter(mine);
#pragma omp for schedule(static)
            for (int i = 0; i < SHARES; i++) work(share);
            openmp_house_exit(mine, me);
        }
    }
}

/* A thread of the pool that has found no task gives back what it has. */
static void rest_in_house(worker_t *me) {
    openmp_house_t *mine = &in_house[me->application];
    if (mine->threads > 0) openmp_house_rest(mine);
    mine->threads = 0;
}

static bool serve_by_library(worker_t *me) {
    uint32_t task;
    bool alone = options.way->parts == TURNS;
    if (!take(me->service, &task)) return false;
    if (alone) pthread_mutex_lock(&turn);
    tasks++;
    if (options.way->house) compute_in_house(&in_house[me->application]);
    else compute();
    tasks--;
    if (alone) pthread_mutex_unlock(&turn);
    end_task(me->service, task);
    return true;
}

/* Starts the pool's threads. In a house they take cores for the library's regions, and sleep without one. */
static void start(voldazpe_house_t *of, uint32_t threads) {
    voldazpe_house_application_t joined;
    for (uint32_t number = 0; number < threads && number < VOLDAZPE_THREADS; number++) {
        worker_t it = {.application = number, .service = &pool, .serve = serve_by_library, .policy = options.way->policy};
        cpu_set_t where = part_of(options.way, number, threads);
        if (of) {
            CHECK(voldazpe_house_join(of, "a thread of the pool", &joined) == VOLDAZPE_OK);
            openmp_house_open(&in_house[number], of, joined, 0);
            it.rest = rest_in_house;
        }
        start_one(serves_anywhere, &it, &where);
    }
}

/* Counts unfinished tasks, and takes the time until now as theirs. */
static uint32_t give_up(uint64_t moment) {
    uint32_t left = 0;
    for (uint32_t task = 0; task < pool.count; task++) {
        if (pool.took[task]) continue;
        pool.took[task] = moment - began_at - pool.planned[task];
        left++;
    }
    return left;
}

int main(int count, char **words) {
    options = options_of(count, words, " house house-all none divided parts turns fifo rr ", " random at-once ");
    const uint32_t all = (uint32_t)CPU_COUNT(&processors);
    const uint64_t length = (uint64_t)(options.seconds * 1e9), limit = PATIENT * length;
    double rate = options.capacity / REGIONS / all; /* tasks a second that all processors can take */
    voldazpe_house_t *of = options.way->house ? house_of(options.way->all) : NULL;
    outcome_t outcome = {.urgent = false};
    share = options.steps * all / SHARES;
    team = options.way->parts == PARTS ? 1 : of && !options.way->all ? CPU_COUNT(&managed) : (int)all;
    if (strcmp(options.load, "random") == 0) pool.count = plan_poisson(pool.planned, TASKS, length, 2e9 / rate, options.seed);
    else pool.count = (uint32_t)(rate * options.seconds / 2) + 1; /* planned at 0 */
    start(of, of ? (uint32_t)team : all);
    if (of && !options.way->all) CHECK(sched_setaffinity(0, sizeof unmanaged, &unmanaged) == 0);
    outcome.urgent = be_urgent();
    began_at = now() + WARM;
    sleep_until(began_at);
    outcome.from = use_now(&processors);
    bring(&pool, 1);
    while (pool.ended < pool.count && now() < began_at + limit) sleep_until(now() + 1000000);
    uint64_t end = now();
    outcome.to = use_now(&processors);
    outcome.through = (double)(end - began_at) / 1e9;
    bool through = pool.ended == pool.count;
    outcome.left = pool.count ? 100.0 * give_up(end) / pool.count : 0;
    tell(&options, &(equal_t){pool.took, pool.count, pool.ended / outcome.through}, 1, &outcome);
    if (!through) _exit(0); /* some threads never end */
    end_all(&pool, 1);
    if (of) CHECK(voldazpe_house_close(of) == VOLDAZPE_OK);
    return 0;
}
