/* OpenMP in a house. A parallel region asks for cores before it begins, and runs on as many threads as it got cores,
 * each pinned to a core of its own. For you to copy. C11 or C++17, with libgomp or libomp.
 *
 *     openmp_house_t openmp;
 *     openmp_house_open(&openmp, house, application, 1);      // its regions want cores at level 1
 *
 *     #pragma omp parallel num_threads(openmp_house_begin(&openmp, 8))           // 8 at most
 *     {
 *         voldazpe_house_thread_t *me = openmp_house_enter(&openmp);             // first, in each thread
 *         #pragma omp for
 *         for (int i = 0; i < n; i++) {
 *             openmp_house_between(&openmp, me);              // between two pieces of work: one load, mostly
 *             work(i);
 *         }
 *         openmp_house_exit(&openmp, me);                     // last, in each thread
 *     }
 *
 * What to know:
 *
 *   - Only one thread at a time begins regions of one openmp_house_t. Don't nest them.
 *   - A thread is in the application for which it came here last, until it ends. Outside of regions it is on unmanaged
 *     cores. A thread that the program has registered itself has no core here.
 *   - OpenMP's threads wait for one another. So if a core is asked back, `between` waits up to `patience` for another.
 *     Then the thread goes on without one for as long, on unmanaged cores, before it waits again.
 *   - Threads keep their cores between regions, until openmp_house_rest, and don't poll there: if another application is
 *     due such a core, it gets it at the end of the grace. If `gives_back` is set, a thread that is done gives its core
 *     back. Set OMP_WAIT_POLICY=passive then: otherwise threads spin on unmanaged cores, and a region takes milliseconds.
 *   - In a closed house, regions run on as many threads as they ask for.
 *   - Leave OMP_PROC_BIND unset: otherwise the library moves threads to cores of its own choice. */
#ifndef OPENMP_HOUSE_H
#define OPENMP_HOUSE_H

#include <omp.h>
#include <voldazpe_house.h>

typedef struct openmp_house {
    voldazpe_house_t *house;
    voldazpe_house_application_t application;
    uint32_t level;
    int64_t limit;    /* nanoseconds that a region waits for its first core; below 0: as long as it takes */
    int64_t patience; /* nanoseconds that a thread waits for a core that is due: twice the grace, when it has come */
    bool gives_back;
    int threads;      /* of the region, or of the last one */
    int gone;         /* of these, those that are done */
    double again[VOLDAZPE_THREADS]; /* by a thread's number: until when it goes on without a core, by omp_get_wtime */
} openmp_house_t;

static inline void openmp_house_open(openmp_house_t *openmp, voldazpe_house_t *house,
                                     voldazpe_house_application_t application, uint32_t level) {
    const openmp_house_t empty = VOLDAZPE_INIT;
    voldazpe_house_state_t state;
    *openmp = empty;
    openmp->house = house;
    openmp->application = application;
    openmp->level = level;
    openmp->limit = -1;
    openmp->patience = 20000000;
    if (voldazpe_house_state(house, &state) == VOLDAZPE_OK) openmp->patience = VOLDAZPE_CAST(int64_t, state.grace) * 2000;
}

/* The calling thread's registration by this header. All files that include it share this one. */
__attribute__((weak)) __thread struct openmp_house_seat {
    voldazpe_house_t *house;
    voldazpe_house_application_t application;
    voldazpe_house_thread_t *handle; /* null if there is none */
} openmp_house_seat;

/* The calling thread's handle, or null. If the thread came here for another application last, it is registered anew. */
static inline voldazpe_house_thread_t *openmp_house_me(const openmp_house_t *openmp) {
    struct openmp_house_seat *seat = &openmp_house_seat, none = {openmp->house, openmp->application, NULL};
    if (seat->handle && seat->house == openmp->house && seat->application == openmp->application) return seat->handle;
    if (seat->handle) (void)voldazpe_house_leave(seat->handle);
    *seat = none;
    bool sits = voldazpe_house_register(openmp->house, openmp->application, &seat->handle) == VOLDAZPE_OK;
    return sits ? seat->handle : NULL;
}

static inline void openmp_house_want(const openmp_house_t *openmp, int cores) {
    (void)voldazpe_house_want(openmp->house, openmp->application, openmp->level, VOLDAZPE_CAST(uint32_t, cores));
}

/* Lets each thread of a team wait for a core, and returns how many got one. Those are the first threads of the next team:
 * if one of these has no core yet, a later thread gives its own back. */
static inline int openmp_house_gather(openmp_house_t *openmp, int team) {
    int got = 0, all = team > openmp->threads ? team : openmp->threads; /* threads of the last region may have cores */
#pragma omp parallel num_threads(all) reduction(+ : got)
    {
        voldazpe_house_thread_t *me = openmp_house_me(openmp);
        if (omp_get_thread_num() >= team) (void)voldazpe_house_give_back(me);
        else got += voldazpe_house_wait(me, openmp->patience) == VOLDAZPE_OK;
    }
    if (got > 0 && got < team) {
#pragma omp parallel num_threads(team)
        if (omp_get_thread_num() >= got) (void)voldazpe_house_give_back(openmp_house_me(openmp));
    }
    return got > 0 ? got : 1;
}

/* Asks for cores for a region, and returns how many threads it is to have: 1 to `most`. */
static inline int openmp_house_begin(openmp_house_t *openmp, int most) {
    voldazpe_house_counts_t has;
    most = most < 1 ? 1 : most > VOLDAZPE_THREADS ? VOLDAZPE_CAST(int, VOLDAZPE_THREADS) : most;
    omp_set_dynamic(0);
    openmp->gone = 0;
    openmp_house_want(openmp, most);
    voldazpe_house_code_t code = voldazpe_house_counts(openmp->house, openmp->application, &has);
    bool none = code == VOLDAZPE_OK && has.due == 0; /* others have all cores; once one comes, there may be more */
    if (none && voldazpe_house_wait(openmp_house_me(openmp), openmp->limit) != VOLDAZPE_NULL) {
        code = voldazpe_house_counts(openmp->house, openmp->application, &has);
    }
    if (code != VOLDAZPE_OK) return openmp->threads = most;
    int team = has.due < 1 ? 1 : has.due < most ? has.due : most;
    bool has_all = team == openmp->threads && has.owned == team; /* since the last region */
    openmp->threads = has_all ? team : openmp_house_gather(openmp, team);
    if (openmp->threads < team) openmp_house_want(openmp, openmp->threads); /* the rest is for others */
    return openmp->threads;
}

/* Between two pieces of work. */
static inline void openmp_house_between(openmp_house_t *openmp, voldazpe_house_thread_t *me) {
    if (!me || voldazpe_house_keep(me) || omp_get_wtime() < openmp->again[me->number]) return;
    if (voldazpe_house_wait(me, openmp->patience) == VOLDAZPE_OK) return;
    openmp->again[me->number] = omp_get_wtime() + VOLDAZPE_CAST(double, openmp->patience) / 1e9;
}

/* A thread of the region begins. It has a core if one comes in time. */
static inline voldazpe_house_thread_t *openmp_house_enter(openmp_house_t *openmp) {
    voldazpe_house_thread_t *me = openmp_house_me(openmp);
    if (me) openmp->again[me->number] = 0;
    openmp_house_between(openmp, me);
    return me;
}

/* A thread of the region is done. A core that is asked back goes to the application that is due it. */
static inline void openmp_house_exit(openmp_house_t *openmp, voldazpe_house_thread_t *me) {
    if (!openmp->gives_back && me && voldazpe_house_keep(me)) return;
    (void)voldazpe_house_give_back(me);
#pragma omp critical(openmp_house)
    openmp_house_want(openmp, omp_get_num_threads() - ++openmp->gone);
}

/* No region comes for a while: all threads give their cores back. */
static inline void openmp_house_rest(openmp_house_t *openmp) {
#pragma omp parallel num_threads(openmp->threads > 0 ? openmp->threads : 1)
    (void)voldazpe_house_give_back(openmp_house_me(openmp));
    openmp_house_want(openmp, 0);
}

#endif
