/* Two parallel applications. In each, threads wait for one another at the end of every region.
 *
 *     barriers -w WAY -l LOAD [-s SECONDS] [-n STEPS]
 *
 * A region is work for 50, 100 or 200 us on all processors, divided evenly among the application's threads. It has one thread
 * per processor, or per core that the house gives it. A load is one of these names, a hyphen and the microseconds:
 *
 *     spin     waiting threads spin
 *     yield    they spin for some 30 us, and then call sched_yield until they may go on
 *     openmp   both applications use OpenMP; OMP_WAIT_POLICY says how its threads wait
 *     onetbb   one uses OpenMP and the other oneTBB
 *
 * Both applications together have work for SECONDS on all processors. A run is given up after five times that. A region's time
 * counts from the end of the region before. In a house both applications want all cores, at one level. `turns` runs the second
 * application after the first; `alone` runs the first. */
#ifndef _GNU_SOURCE
#define _GNU_SOURCE
#endif
#include "equals.h"
#include "openmp_house.h"
#include "tbb_house.h"

#include <atomic>
#include <memory>
#include <thread>
#include <tbb/parallel_for.h>
#include <vector>

namespace {

constexpr int PIECES = 24; /* of a region, where a library distributes them */
constexpr int PATIENT = 5; /* times its seconds, after which a run is given up */

/* An application: its work, and how much of it is done. */
struct job {
    options_t options;
    cpu_set_t where;
    int threads;
    uint32_t regions;
    uint64_t region; /* steps */
    voldazpe_house_t *house;
    voldazpe_house_application_t application = 0;
    std::vector<uint64_t> took;
    std::atomic<uint32_t> done{0};
    uint64_t last = 0; /* when its last region ended, or it began */

    void begin() { last = now(); }
    void end_region() {
        uint64_t moment = now();
        took[done.load(std::memory_order_relaxed)] = moment - last;
        last = moment;
        done.fetch_add(1, std::memory_order_release);
    }
    bool through() const { return done.load(std::memory_order_acquire) == regions; }
};

/* ---- threads of the program's own */

/* How a thread waits: it spins, and if it `yields`, it calls sched_yield after a while. */
struct patience {
    bool yields;
    int spins = 0;
    void once() {
        if (yields && spins >= 500) sched_yield();
        else spins++;
#if defined(__x86_64__)
        __builtin_ia32_pause();
#endif
    }
};

/* Threads that compute regions together. One leads: it divides a region among the threads that are there, computes its own part
 * and waits for the others. In a house a thread gives its core back between two regions. If that is the leader, another thread
 * leads. */
class team {
  public:
    explicit team(job &of) : job_(of), seats_(static_cast<size_t>(of.threads)) {}

    void run() {
        std::vector<std::thread> threads;
        for (seat &mine : seats_) threads.emplace_back([this, &mine] { live(mine); });
        for (std::thread &thread : threads) thread.join();
    }

  private:
    enum state { AWAY, READY, CHOSEN, BUSY };
    struct alignas(64) seat {
        std::atomic<state> now{AWAY};
        uint64_t share = 0; /* steps */
    };

    /* Moves a seat from one state to another; false if it wasn't in the first. */
    static bool turn(seat &it, state from, state to) { return it.now.compare_exchange_strong(from, to); }

    void live(seat &mine) {
        voldazpe_house_thread_t *me = nullptr;
        CHECK(be_at(job_.options.way->policy, 0));
        if (job_.house) CHECK(voldazpe_house_register(job_.house, job_.application, &me) == VOLDAZPE_OK);
        while (!me || voldazpe_house_wait(me, -1) == VOLDAZPE_OK) {
            mine.now = READY;
            stay(mine, me);
            if (job_.through()) break;
        }
        if (me) (void)voldazpe_house_leave(me);
    }

    /* Works until everything is done, or the core is asked back. */
    void stay(seat &mine, const voldazpe_house_thread_t *me) {
        patience wait{yields_};
        while (!job_.through()) {
            if (mine.now == BUSY) {
                work(mine.share);
                mine.now = READY;
                arrived_++;
                wait = {yields_};
            } else if (me && !voldazpe_house_keep(me)) {
                if (turn(mine, READY, AWAY)) return;
            } else if (!led_ && !led_.exchange(true)) {
                while (!job_.through() && (!me || voldazpe_house_keep(me))) lead(mine);
                led_ = false;
            } else {
                wait.once();
            }
        }
    }

    void lead(seat &mine) {
        std::vector<seat *> &others = others_;
        others.clear();
        for (seat &it : seats_) {
            if (&it != &mine && turn(it, READY, CHOSEN)) others.push_back(&it);
        }
        arrived_ = 0;
        uint64_t share = job_.region / (others.size() + 1);
        for (seat *it : others) {
            it->share = share;
            it->now = BUSY;
        }
        work(share);
        for (patience wait{yields_}; arrived_ < others.size();) wait.once();
        job_.end_region();
        if (job_.through() && job_.house) (void)voldazpe_house_withdraw(job_.house, job_.application);
    }

    job &job_;
    std::vector<seat> seats_;
    std::vector<seat *> others_; /* of the region, without the leader's */
    alignas(64) std::atomic<bool> led_{false};
    alignas(64) std::atomic<size_t> arrived_{0};
    const bool yields_ = strncmp(job_.options.load, "yield", 5) == 0;
};

/* ---- OpenMP's and oneTBB's */

void openmp(job &of) {
    while (!of.through()) {
#pragma omp parallel for num_threads(of.threads) schedule(static)
        for (int i = 0; i < PIECES; i++) work(of.region / PIECES);
        of.end_region();
    }
}

void openmp_in_house(job &of) {
    openmp_house_t in_house;
    openmp_house_open(&in_house, of.house, of.application, 0);
    while (!of.through()) {
        int team = openmp_house_begin(&in_house, of.threads);
#pragma omp parallel num_threads(team)
        {
            voldazpe_house_thread_t *me = openmp_house_enter(&in_house);
#pragma omp for schedule(static)
            for (int i = 0; i < PIECES; i++) work(of.region / PIECES);
            openmp_house_exit(&in_house, me);
        }
        of.end_region();
    }
    openmp_house_rest(&in_house);
}

void onetbb(job &of) {
    tbb::task_arena arena(of.threads);
    arena.execute([&] {
        while (!of.through()) {
            tbb::parallel_for(0, PIECES, [&](int) { work(of.region / PIECES); });
            of.end_region();
        }
    });
}

void onetbb_in_house(job &of) {
    tbb_house arena(of.house, of.application, 0, of.threads);
    arena.execute([&] {
        while (!of.through()) {
            tbb::parallel_for(0, PIECES, [&](int) {
                arena.between();
                work(of.region / PIECES);
            });
            of.end_region();
        }
    });
}

/* ---- a run */

void run(job &of, bool second) {
    CHECK(sched_setaffinity(0, sizeof of.where, &of.where) == 0 && be_at(of.options.way->policy, 0)); /* and who it starts */
    of.begin();
    bool libraries = strncmp(of.options.load, "onetbb", 6) == 0;
    if (strncmp(of.options.load, "openmp", 6) == 0 || (libraries && !second)) of.house ? openmp_in_house(of) : openmp(of);
    else if (libraries) of.house ? onetbb_in_house(of) : onetbb(of);
    else team(of).run();
}

void fill(job &of, const options_t &options, uint32_t index, voldazpe_house_t *house) {
    double microseconds = atof(options.load + strcspn(options.load, "0123456789"));
    int all = CPU_COUNT(&processors);
    of.options = options;
    of.house = house;
    of.where = part_of(options.way, index, 2);
    of.threads = house && !options.way->all ? CPU_COUNT(&managed) : CPU_COUNT(&of.where);
    of.regions = static_cast<uint32_t>(options.seconds / 2 * 1e6 / microseconds) + 1;
    of.region = static_cast<uint64_t>(microseconds * 1000 / TASK * static_cast<double>(options.steps) * all);
    of.took.resize(of.regions);
    if (!house) return;
    CHECK(voldazpe_house_join(house, "equal", &of.application) == VOLDAZPE_OK);
    CHECK(voldazpe_house_want(house, of.application, 0, static_cast<uint32_t>(of.threads)) == VOLDAZPE_OK);
}

} // namespace

int main(int count, char **words) {
    options_t options = options_of(count, words, " house house-all none parts turns fifo rr alone ",
                                   " spin-50 spin-100 spin-200 yield-50 yield-100 yield-200 openmp-100 onetbb-100 ");
    voldazpe_house_t *house = options.way->house ? house_of(options.way->all) : nullptr;
    uint32_t equals = options.way->who == FIRST ? 1 : 2, left = 0, all = 0;
    std::vector<job> jobs(equals);
    std::atomic<uint32_t> through{0};
    for (uint32_t i = 0; i < equals; i++) fill(jobs[i], options, i, house);
    outcome_t outcome = {};
    outcome.from = use_now(&processors);
    uint64_t began = now(), limit = began + static_cast<uint64_t>(PATIENT * options.seconds * 1e9);
    std::thread first([&] { run(jobs[0], false); through++; });
    std::thread second([&] {
        if (options.way->parts == TURNS) first.join();
        if (equals == 2) run(jobs[1], true), through++;
    });
    outcome.urgent = be_urgent();
    while (through < equals && now() < limit) sleep_until(now() + 1000000);
    outcome.to = use_now(&processors);
    equal_t told[2] = {};
    for (uint32_t i = 0; i < equals; i++) {
        uint32_t done = jobs[i].done.load(std::memory_order_acquire);
        uint64_t end = jobs[i].through() ? jobs[i].last : outcome.to.moment;
        double seconds = static_cast<double>(end - began) / 1e9; /* one that waits for its turn does nothing meanwhile */
        told[i] = {jobs[i].took.data(), done, done / seconds};
        outcome.through = std::max(outcome.through, static_cast<double>(end - began) / 1e9);
        all += jobs[i].regions;
        left += jobs[i].regions - done;
    }
    outcome.left = 100.0 * left / all;
    tell(&options, told, equals, &outcome);
    if (through < equals) _exit(0); /* some threads never end */
    second.join();
    if (first.joinable()) first.join();
    if (house) CHECK(voldazpe_house_close(house) == VOLDAZPE_OK);
    return 0;
}
