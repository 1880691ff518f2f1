/* OpenMP in a house, by examples/c/openmp_house.h. Results are right. A region has as many threads as it got cores,
 * each pinned to a core of its own. Two threads that begin regions share the cores, and both finish. Cores that are
 * asked back in the middle of a region are given back, and the region still ends. Linked with
 * --wrap=voldazpe_house_wait and --wrap=voldazpe_house_want. */
#ifndef _GNU_SOURCE
#define _GNU_SOURCE
#endif
#include "few_cores.h"
#include "openmp_house.h"

enum { PIECES = 240, REGIONS = 60, MOST = 8 };

static VOLDAZPE_ATOMIC(bool) delays, delays_wants;
static VOLDAZPE_ATOMIC(int64_t) a_limit, a_patience; /* nanoseconds, of which waits are counted */
static VOLDAZPE_ATOMIC(uint32_t) waits, limited_waits, patient_waits, wanting;

/* In place of the house's calls. Where it is asked to, the first thread of a team comes late to a wait; and a thread of a team
 * takes the longer to want cores the more it wants, while no other one wants any. */
#ifdef __cplusplus
extern "C" {
#endif
voldazpe_house_code_t __real_voldazpe_house_wait(voldazpe_house_thread_t *thread, int64_t nanoseconds);
voldazpe_house_code_t __wrap_voldazpe_house_wait(voldazpe_house_thread_t *thread, int64_t nanoseconds);
voldazpe_house_code_t __real_voldazpe_house_want(voldazpe_house_t *house, voldazpe_house_application_t application,
                                                 uint32_t level, uint32_t cores);
voldazpe_house_code_t __wrap_voldazpe_house_want(voldazpe_house_t *house, voldazpe_house_application_t application,
                                                 uint32_t level, uint32_t cores);

voldazpe_house_code_t __wrap_voldazpe_house_wait(voldazpe_house_thread_t *thread, int64_t nanoseconds) {
    waits++;
    CHECK(nanoseconds >= 0 || a_limit == 0);
    limited_waits += nanoseconds == a_limit;
    patient_waits += nanoseconds == a_patience;
    if (delays && omp_get_num_threads() > 1 && omp_get_thread_num() == 0) pause_for(500000);
    return __real_voldazpe_house_wait(thread, nanoseconds);
}

voldazpe_house_code_t __wrap_voldazpe_house_want(voldazpe_house_t *house, voldazpe_house_application_t application,
                                                 uint32_t level, uint32_t cores) {
    bool in_team = delays_wants && omp_in_parallel();
    if (in_team) {
        CHECK(wanting++ == 0);
        pause_for(1000000 + 1000000 * VOLDAZPE_CAST(long, cores));
        wanting--;
    }
    return __real_voldazpe_house_want(house, application, level, cores);
}
#ifdef __cplusplus
} /* extern "C" */
#endif

/* A region of at most `most` threads. Returns how many there were. */
static int run_a_region(openmp_house_t *openmp, int most, uint64_t first) {
    uint64_t sum = 0;
    int threads = 0, begun = openmp_house_begin(openmp, most);
#pragma omp parallel num_threads(begun) reduction(+ : threads)
    {
        voldazpe_house_thread_t *me = openmp_house_enter(openmp);
        threads += 1;
        check_owner(me, openmp->application);
#pragma omp for schedule(dynamic) reduction(+ : sum)
        for (uint64_t piece = first; piece < first + PIECES; piece++) {
            openmp_house_between(openmp, me);
            sum += run_a_piece(me, piece);
        }
        openmp_house_exit(openmp, me);
    }
    CHECK(threads == begun && begun >= 1 && begun <= most);
    CHECK(sum == sum_of(first, PIECES));
    return begun;
}

/* ---- one application alone, and beside threads that have cores */

static void begin_with_what_is_left(openmp_house_t *openmp) {
    holders_t holders;
    CHECK(run_a_region(openmp, MOST, 1) == managed);
    CHECK(run_a_region(openmp, 1, 2) == 1);
    CHECK(counts(openmp->application).owned == 0 && counts(openmp->application).due == 0);
    hold(&holders, 0, managed - 1); /* at a level that is served before */
    for (int i = 0; i < 3; i++) CHECK(run_a_region(openmp, MOST, 3) == 1);
    let_go(&holders);
    CHECK(run_a_region(openmp, MOST, 4) == managed);
}

/* One core is due, and a region doesn't wait for more. */
static void begin_at_once(openmp_house_t *openmp) {
    holders_t holders;
    double began = omp_get_wtime();
    hold(&holders, 0, managed - 1);
    CHECK(run_a_region(openmp, MOST, 10) == 1);
    CHECK(omp_get_wtime() - began < 15); /* patience is 20 s */
    let_go(&holders);
}

/* Two cores are due, but one of them doesn't come in time, and the other goes to the second thread first. */
static void begin_with_what_comes_in_time(openmp_house_t *openmp) {
    holders_t holders;
    hold(&holders, 1, 2);
    openmp->patience = 2000000;
    delays = true;
    for (int i = 0; i < 20; i++) CHECK(run_a_region(openmp, 3, 7) == 1);
    CHECK(without == 0 && moved == 0);
    delays = false;
    let_go(&holders);
}

/* No core comes in time: the region goes on without one, and waits for it now and then alone. */
static void begin_without_a_core(openmp_house_t *openmp) {
    holders_t holders;
    hold(&holders, 0, managed);
    a_limit = openmp->limit = 3000000;
    a_patience = openmp->patience = 20000000;
    waits = limited_waits = patient_waits = 0;
    CHECK(run_a_region(openmp, MOST, 8) == 1);
    CHECK(without == PIECES && moved == 0);
    CHECK(limited_waits == 1 && patient_waits == waits - 1 && waits >= 3 && waits < PIECES / 4);
    without = 0;
    let_go(&holders);
    a_limit = 0;
    openmp->limit = -1;
    openmp->patience = 2000000;
}

/* A thread that waited in vain in one region doesn't go on without a core in the next one. */
static void forget_what_was_in_vain(openmp_house_t *openmp) {
    holders_t holders;
    CHECK(openmp_house_begin(openmp, 1) == 1);
    voldazpe_house_thread_t *me = openmp_house_enter(openmp);
    CHECK(me && voldazpe_house_keep(me));
    openmp->again[me->number] = omp_get_wtime() + 100;
    openmp_house_exit(openmp, me);
    CHECK(openmp_house_begin(openmp, 1) == 1 && openmp_house_enter(openmp) == me);
    ask(&holders, 0, managed);
    while (voldazpe_house_keep(me)) pause_for(100000);
    CHECK(counts(openmp->application).owned == 1);
    double began = omp_get_wtime(), patience = VOLDAZPE_CAST(double, openmp->patience) / 1e9;
    openmp_house_between(openmp, me);
    CHECK(counts(openmp->application).owned == 0);
    CHECK(openmp->again[me->number] > began + 1.9 * patience); /* it has waited for so long, and goes on for so long */
    await(&holders);
    openmp_house_exit(openmp, me);
    let_go(&holders);
    openmp_house_rest(openmp);
}

/* As many cores are due as the last region had threads, but these have given theirs back, and two don't come in time. */
static void begin_with_fewer_than_last(openmp_house_t *openmp) {
    holders_t holders;
    CHECK(run_a_region(openmp, MOST, 16) == managed);
    openmp_house_rest(openmp);
    hold(&holders, 2, managed - 1); /* at a level that is served after */
    CHECK(run_a_region(openmp, MOST, 17) == 1 && without == 0);
    CHECK(counts(openmp->application).request[1] == 1); /* what didn't come isn't wanted any more */
    let_go(&holders);
    openmp_house_rest(openmp);
}

/* Threads that are through one after another want one core fewer each, in their order. */
static void want_in_order(openmp_house_t *openmp) {
    delays_wants = true;
    for (int i = 0; i < 3; i++) {
        CHECK(run_a_region(openmp, MOST, 18) == managed);
        CHECK(counts(openmp->application).request[1] == 0 && counts(openmp->application).owned == 0);
    }
    delays_wants = false;
}

/* A core is asked back for good in the middle of a region: one thread goes on without, and the region ends. Each thread
 * keeps its last piece until the core has gone. */
static void lose_a_core(openmp_house_t *openmp) {
    holders_t holders;
    VOLDAZPE_ATOMIC(bool) asks = false;
    uint64_t sum = 0;
    int begun = openmp_house_begin(openmp, MOST);
    CHECK(begun == managed);
#pragma omp parallel num_threads(begun)
    {
        voldazpe_house_thread_t *me = openmp_house_enter(openmp);
#pragma omp single
        holders.application = 0;
#pragma omp for schedule(static) reduction(+ : sum)
        for (uint64_t piece = 0; piece < PIECES; piece++) {
            if (piece == 0) {
                holders.let_go = false;
                holders.count = 1;
                holders.application = join("holds");
                CHECK(voldazpe_house_want(the_house, holders.application, 0, 1) == VOLDAZPE_OK);
                CHECK(pthread_create(&holders.threads[0], NULL, holds_a_core, &holders) == 0);
                asks = true;
            }
            bool is_last = (piece + 1) % (PIECES / VOLDAZPE_CAST(uint64_t, begun)) == 0;
            do {
                openmp_house_between(openmp, me);
                pause_for(100000);
            } while (is_last && (!asks || counts(holders.application).owned == 0));
            sum += run_a_piece(me, piece);
        }
        openmp_house_exit(openmp, me);
    }
    CHECK(sum == sum_of(0, PIECES));
    CHECK(counts(holders.application).owned == 1 && without > 0);
    let_go(&holders);
    without = 0;
}

/* ---- cores are kept from one region to the next */

static void keep_cores(openmp_house_t *openmp) {
    voldazpe_house_state_t before, after;
    holders_t holders;
    CHECK(run_a_region(openmp, MOST, 5) == managed);
    CHECK(counts(openmp->application).owned == managed);
    CHECK(voldazpe_house_state(the_house, &before) == VOLDAZPE_OK);
    waits = 0;
    for (int i = 0; i < 5; i++) CHECK(run_a_region(openmp, MOST, 6) == managed);
    CHECK(waits == 0);
    CHECK(voldazpe_house_state(the_house, &after) == VOLDAZPE_OK);
    CHECK(after.orders - before.orders < 12); /* none but a tick, and what reading takes in an older library */
    /* others get cores between two regions, and the next one has what is left */
    hold(&holders, 0, managed - 1);
    CHECK(run_a_region(openmp, MOST, 11) == 1);
    let_go(&holders);
    CHECK(run_a_region(openmp, MOST, 12) == managed);
    openmp_house_rest(openmp);
    CHECK(counts(openmp->application).owned == 0 && counts(openmp->application).due == 0);
}

/* Another application is due cores that threads have kept: they give them back where the next region begins. */
static void give_back_what_was_kept(openmp_house_t *openmp) {
    holders_t holders;
    CHECK(run_a_region(openmp, MOST, 13) == managed);
    ask(&holders, 0, managed - 1);
    while (counts(openmp->application).asked < managed - 1) pause_for(100000);
    CHECK(run_a_region(openmp, MOST, 14) == 1);
    await(&holders);
    CHECK(moved == 0);
    let_go(&holders);
    openmp_house_rest(openmp);
}

/* A core is asked back in a region that doesn't look: it goes at the region's end. */
static void give_back_at_the_end(openmp_house_t *openmp) {
    holders_t holders;
    int begun = openmp_house_begin(openmp, MOST);
#pragma omp parallel num_threads(begun)
    {
        voldazpe_house_thread_t *me = openmp_house_enter(openmp);
#pragma omp barrier
#pragma omp single
        {
            ask(&holders, 0, 1);
            while (counts(openmp->application).asked == 0) pause_for(100000);
        }
        openmp_house_exit(openmp, me);
    }
    await(&holders);
    CHECK(moved == 0);
    let_go(&holders);
    openmp_house_rest(openmp);
}

/* ---- two applications, one after another and at the same time */

/* A thread that begins regions ends, and libomp gives its other threads to the next one. */
static void *runs_a_region(void *name) {
    openmp_house_t openmp;
    openmp_house_open(&openmp, the_house, join(VOLDAZPE_CAST(const char *, name)), 1);
    CHECK(run_a_region(&openmp, MOST, 15) == managed);
    openmp_house_rest(&openmp);
    return NULL;
}

static pthread_barrier_t both;
static VOLDAZPE_ATOMIC(int) sharing; /* of the two, those that had a region of fewer threads than there are cores */
static uint64_t firsts[2] = {0, 100000};

static void *runs_regions(void *first) {
    openmp_house_t openmp;
    int least = MOST, most = 0;
    double latest = omp_get_wtime() + 30;
    openmp_house_open(&openmp, the_house, join("shares"), 1);
    openmp.gives_back = first != &firsts[0]; /* one of each way */
    (void)pthread_barrier_wait(&both);
    /* to the end, and longer if one of them comes so late that it met no other yet */
    for (uint64_t region = 0; region < REGIONS || (sharing < 2 && managed > 1 && omp_get_wtime() < latest); region++) {
        int begun = run_a_region(&openmp, MOST, *VOLDAZPE_CAST(uint64_t *, first) + region);
        if (begun < managed && least >= managed) sharing++;
        least = begun < least ? begun : least;
        most = begun > most ? begun : most;
    }
    openmp_house_rest(&openmp); /* or its application's claim would stay */
    CHECK(least < managed || managed == 1);
    printf("regions of %d to %d threads\n", least, most);
    return NULL;
}

int main(void) {
    openmp_house_t openmp;
    pthread_t threads[2];
    char names[2][8] = {"one", "another"};

    open_house(10000000);
    openmp_house_open(&openmp, the_house, join("mine"), 1);
    CHECK(openmp.patience == 20000000000 && openmp.limit < 0 && !openmp.gives_back); /* twice the grace */
    openmp.gives_back = true;
    begin_at_once(&openmp);
    if (managed == FEW) begin_with_what_comes_in_time(&openmp);
    begin_without_a_core(&openmp);
    want_in_order(&openmp);
    openmp.gives_back = false;
    forget_what_was_in_vain(&openmp);
    if (managed > 1) begin_with_fewer_than_last(&openmp);
    if (managed > 1) lose_a_core(&openmp);
    openmp.patience = 20000000000;
    give_back_what_was_kept(&openmp);
    give_back_at_the_end(&openmp);
    CHECK(moved == 0);
    check_pieces(true);
    CHECK(voldazpe_house_close(the_house) == VOLDAZPE_OK);

    open_house(50000);
    openmp_house_open(&openmp, the_house, join("mine"), 1);
    keep_cores(&openmp);
    check_pieces(true);
    openmp.gives_back = true;
    begin_with_what_is_left(&openmp);
    for (int i = 0; i < 2; i++) {
        CHECK(pthread_create(&threads[0], NULL, runs_a_region, names[i]) == 0);
        CHECK(pthread_join(threads[0], NULL) == 0);
    }
    CHECK(pthread_barrier_init(&both, NULL, 2) == 0);
    for (int i = 0; i < 2; i++) CHECK(pthread_create(&threads[i], NULL, runs_regions, &firsts[i]) == 0);
    for (int i = 0; i < 2; i++) CHECK(pthread_join(threads[i], NULL) == 0);
    check_pieces(false);
    voldazpe_house_hold(the_house);
    CHECK(voldazpe_house_close(the_house) == VOLDAZPE_OK);
    CHECK(run_a_region(&openmp, 4, 9) == 4); /* as without a house */
    voldazpe_house_let_go(the_house);
    return 0;
}
