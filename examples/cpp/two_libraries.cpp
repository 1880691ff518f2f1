/* Two libraries in one process, each with a thread for each core: OpenMP beside oneTBB. Both have the same work to do,
 * and begin at the same moment. The program prints how long each took, and both together.
 *
 *     c++ -std=c++17 -O2 -fopenmp -I../c two_libraries.cpp $(pkg-config --cflags --libs voldazpe-house) -ltbb \
 *         -o two_libraries
 *     OMP_WAIT_POLICY=passive ./two_libraries house [REGIONS [STEPS]]
 *
 * The ways:
 *   - `house`: each wants all managed cores at one level. So they share them evenly, and one that is alone has all.
 *   - `none`, on the same cores, and `none-all`, on all processors: the operating system places the threads.
 *   - `turns`, on the managed cores: oneTBB begins once OpenMP is done.
 *
 * A region is a loop of pieces of some 50 us. OpenMP's threads get equal parts of it, and wait for one another at its
 * end, as in most programs with OpenMP. oneTBB gives out its pieces as threads ask for them. A piece is a fixed number
 * of steps, so that a thread that is preempted takes longer. */
#ifndef _GNU_SOURCE
#define _GNU_SOURCE
#endif
#include "beside_measure.h"
#include "openmp_house.h"
#include "tbb_house.h"

#include <tbb/parallel_for.h>

#include <atomic>
#include <cinttypes>
#include <cstring>
#include <thread>

namespace {

constexpr int PIECES = 48;        /* of a region */
constexpr uint64_t PIECE = 50000; /* nanoseconds */

voldazpe_house_t *house;
cpu_set_t processors, managed;
int regions = 400;
uint64_t steps;
std::atomic<uint64_t> done; /* pieces of both libraries */

void piece() {
    work(steps);
    done.fetch_add(1, std::memory_order_relaxed);
}

/* ---- each library, with a house and without */

void openmp(int threads) {
    for (int region = 0; region < regions; region++) {
#pragma omp parallel for num_threads(threads) schedule(static)
        for (int i = 0; i < PIECES; i++) piece();
    }
}

void openmp_in_house(voldazpe_house_application_t application, int threads) {
    openmp_house_t in_house;
    openmp_house_open(&in_house, house, application, 0);
    for (int region = 0; region < regions; region++) {
        int team = openmp_house_begin(&in_house, threads);
#pragma omp parallel num_threads(team)
        {
            voldazpe_house_thread_t *me = openmp_house_enter(&in_house);
#pragma omp for schedule(static)
            for (int i = 0; i < PIECES; i++) {
                openmp_house_between(&in_house, me);
                piece();
            }
            openmp_house_exit(&in_house, me);
        }
    }
    openmp_house_rest(&in_house);
}

void onetbb(int threads) {
    tbb::task_arena arena(threads);
    arena.execute([] {
        for (int region = 0; region < regions; region++) tbb::parallel_for(0, PIECES, [](int) { piece(); });
    });
}

void onetbb_in_house(voldazpe_house_application_t application, int threads) {
    tbb_house arena(house, application, 0, threads);
    arena.execute([&] {
        for (int region = 0; region < regions; region++) {
            tbb::parallel_for(0, PIECES, [&](int) {
                arena.between();
                piece();
            });
        }
    });
}

/* ---- a run */

voldazpe_house_application_t join(const char *name) {
    voldazpe_house_application_t application;
    CHECK(voldazpe_house_join(house, name, &application) == VOLDAZPE_OK);
    return application;
}

/* The processors of a house of this process's own processors. */
int find_cores() {
    voldazpe_house_owner_t owners[VOLDAZPE_CORES];
    size_t count = 0;
    CHECK(sched_getaffinity(0, sizeof processors, &processors) == 0);
    voldazpe_house_code_t code = voldazpe_house_open(nullptr, 0, nullptr, &house);
    if (code != VOLDAZPE_OK) {
        fprintf(stderr, "two_libraries: %s\n", voldazpe_house_code_text(code));
        exit(1);
    }
    CHECK(voldazpe_house_owners(house, owners, VOLDAZPE_CORES, &count) == VOLDAZPE_OK);
    for (size_t i = 0; i < count; i++) CPU_SET(owners[i].core, &managed);
    return static_cast<int>(count);
}

/* Runs both libraries' work, and returns how long each took, and both together, in nanoseconds. */
struct times { uint64_t openmp, onetbb, both; };

times run(const char *way, int threads) {
    times took = {};
    bool in_house = strcmp(way, "house") == 0, turns = strcmp(way, "turns") == 0;
    voldazpe_house_application_t first = in_house ? join("OpenMP") : 0, second = in_house ? join("oneTBB") : 0;
    uint64_t began = now();
    std::thread one([&] {
        in_house ? openmp_in_house(first, threads) : openmp(threads);
        took.openmp = now() - began;
    });
    if (turns) one.join();
    std::thread two([&] {
        in_house ? onetbb_in_house(second, threads) : onetbb(threads);
        took.onetbb = now() - began;
    });
    if (!turns) one.join();
    two.join();
    took.both = now() - began;
    return took;
}

} // namespace

int main(int count, char **words) {
    const char *way = count > 1 ? words[1] : "house";
    const bool all = strcmp(way, "none-all") == 0;
    if (count > 4 || (!all && strcmp(way, "house") && strcmp(way, "none") && strcmp(way, "turns"))) {
        fprintf(stderr, "usage: two_libraries [house|none|none-all|turns [REGIONS [STEPS]]]\n");
        return 2;
    }
    if (count > 2) regions = atoi(words[2]);
    steps = count > 3 ? strtoull(words[3], nullptr, 10) : steps_for(PIECE);
    int cores = find_cores(), threads = all ? CPU_COUNT(&processors) : cores;
    if (strcmp(way, "house") != 0) CHECK(sched_setaffinity(0, sizeof managed, all ? &processors : &managed) == 0);
    use_t from = use_now(&processors);
    times took = run(way, threads);
    use_t to = use_now(&processors);
    double others, stolen;
    use_between(from, to, CPU_COUNT(&processors), &others, &stolen);
    CHECK(done == 2u * PIECES * static_cast<uint64_t>(regions));
    printf("steps %" PRIu64 " managed %d processors %d\n", steps, cores, CPU_COUNT(&processors));
    printf("way      load       OpenMP  oneTBB    both others stolen\n");
    printf("%-8s libraries %7.3f %7.3f %7.3f %6.1f %6.1f\n", way, static_cast<double>(took.openmp) / 1e9,
           static_cast<double>(took.onetbb) / 1e9, static_cast<double>(took.both) / 1e9, 100 * others, 100 * stolen);
    CHECK(voldazpe_house_close(house) == VOLDAZPE_OK);
    return 0;
}
