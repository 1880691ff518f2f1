/* oneTBB in a house, by examples/cpp/tbb_house.h. Results are right. Each thread that works in an arena has a core of
 * its own. Two arenas of two applications share the cores, and both finish. Cores that are asked back in the middle are
 * given back, and the work still ends. A worker that waits for a core doesn't delay the arena's end. A thread that
 * can't be registered wants no core. */
#include "few_cores.h"
#include "tbb_house.h"

#include <tbb/blocked_range.h>
#include <tbb/parallel_for.h>
#include <tbb/parallel_reduce.h>

#include <atomic>
#include <memory>
#include <thread>
#include <vector>

namespace {

enum { PIECES = 2000, ROUNDS = 30, MOST = FEW + 1 };

std::atomic<int> working, most_working;

/* An application and its arena. */
struct tested {
    explicit tested(const char *name, int most = MOST) : application(join(name)), arena(the_house, application, 1, most) {}
    voldazpe_house_application_t application;
    tbb_house arena;
};

/* So many pieces in an arena; each is between two looks whether the core is asked back. */
void run_some_work(tested &with, uint64_t first, uint64_t count) {
    uint64_t sum = 0;
    with.arena.execute([&] {
        sum = tbb::parallel_reduce(
            tbb::blocked_range<uint64_t>(first, first + count), uint64_t{0},
            [&](const tbb::blocked_range<uint64_t> &range, uint64_t part) {
                check_owner(voldazpe_house_mine(the_house), with.application);
                for (uint64_t piece = range.begin(); piece < range.end(); piece++) {
                    with.arena.between();
                    int now = ++working;
                    for (int most = most_working; now > most && !most_working.compare_exchange_weak(most, now);) {}
                    part += run_a_piece(voldazpe_house_mine(the_house), piece);
                    working--;
                }
                return part;
            },
            [](uint64_t left, uint64_t right) { return left + right; });
    });
    CHECK(sum == sum_of(first, count));
}

/* ---- one arena alone, and beside threads that have cores */

void follow_the_cores() {
    tested arena("alone");
    holders_t holders;
    most_working = 0;
    for (int i = 0; i < 100 && most_working < managed; i++) run_some_work(arena, 1, 4 * PIECES);
    for (int i = 0; i < 5; i++) run_some_work(arena, 2, 4 * PIECES);
    CHECK(most_working == managed && without == 0);
    /* the workers find no more work, and go out */
    for (int i = 0; i < 10000 && counts(arena.application).due > 0; i++) pause_for(1000000);
    CHECK(counts(arena.application).due == 0 && counts(arena.application).owned == 0);

    hold(&holders, 0, managed - 1); /* at a level that is served before */
    most_working = 0;
    run_some_work(arena, 2, PIECES);
    CHECK(most_working == 1);
    let_go(&holders);
    for (int i = 0; i < 100 && most_working < managed; i++) run_some_work(arena, 3, 4 * PIECES);
    CHECK(most_working == managed);
}

/* Another application takes all cores but one in the middle of tasks, while no thread is moved: they go in `between`. */
void give_cores_back() {
    tested arena("asked");
    std::atomic<bool> taken_all{false};
    std::thread taking([&] {
        holders_t holders;
        while (working < managed) pause_for(100000);
        hold(&holders, 0, managed - 1); /* returns once they have them */
        taken_all = true;
        let_go(&holders);
    });
    arena.arena.execute([&] {
        tbb::parallel_for(0, 4 * MOST, [&](int task) {
            working++;
            while (!taken_all) {
                arena.arena.between();
                (void)run_a_piece(voldazpe_house_mine(the_house), static_cast<uint64_t>(task));
            }
            working--;
        });
    });
    taking.join();
    CHECK(moved == 0);
}

/* ---- two arenas at the same time */

void share() {
    const auto rounds = [](const char *name, uint64_t first) {
        tested arena(name);
        for (uint64_t round = 0; round < ROUNDS; round++) run_some_work(arena, first + round, PIECES);
    };
    std::thread other(rounds, "one", 0);
    rounds("two", 100000);
    other.join();
}

/* ---- the end of an arena */

void end_while_a_worker_waits() {
    auto arena = std::make_unique<tested>("ends");
    std::atomic<bool> ran{false};
    holders_t holders;
    hold(&holders, 0, managed);
    arena->arena.enqueue([&] { ran = true; });
    voldazpe_house_state_t state;
    do {
        pause_for(100000);
        CHECK(voldazpe_house_state(the_house, &state) == VOLDAZPE_OK);
    } while (state.threads < static_cast<uint32_t>(managed) + 1);
    pause_for(5000000);
    CHECK(!ran); /* it waits */
    arena.reset();
    while (!ran) pause_for(100000); /* its task isn't lost */
    let_go(&holders);
}

/* ---- threads that can't be registered */

/* A thread that the program has registered comes into an arena: all cores go to another application, which is served after it. */
void enter_registered() {
    const voldazpe_house_application_t its = join("registers itself");
    tested arena("entered");
    holders_t holders;
    voldazpe_house_thread_t *me;
    CHECK(voldazpe_house_register(the_house, its, &me) == VOLDAZPE_OK);
    arena.arena.execute([&] {
        CHECK(counts(arena.application).request[1] == 0 && counts(arena.application).threads == 0);
        hold(&holders, 2, managed);
        arena.arena.between();
        CHECK(counts(holders.application).owned == managed);
    });
    CHECK(counts(arena.application).request[1] == 0);
    let_go(&holders);
    CHECK(voldazpe_house_leave(me) == VOLDAZPE_OK);
    arena.arena.execute([&] { CHECK(counts(arena.application).request[1] == 1 && counts(arena.application).owned == 1); });
    CHECK(voldazpe_house_withdraw(the_house, its) == VOLDAZPE_OK);
}

/* Runs a function in several threads, one after another or at the same time. All of them live until it has run in each.
 * */
template <class Function> void run_in_threads(int count, bool at_once, const Function &function) {
    std::vector<std::thread> threads;
    std::atomic<int> ran{0};
    for (int number = 0; number < count; number++) {
        threads.emplace_back([&, number] {
            function(number);
            ran++;
            while (ran < count) pause_for(100000);
        });
        while (!at_once && ran <= number) pause_for(100000);
    }
    for (std::thread &thread : threads) thread.join();
}

/* An application has 32 threads at most, so that an arena has no more; and each that came in is one until it ends. */
void enter_with_many() {
    enum { MANY = 40, THREADS = 32 };
    holders_t holders;
    tested one("one after another", MANY);
    CHECK(one.arena.max_concurrency() == THREADS);
    run_in_threads(MANY, false, [&](int number) {
        one.arena.execute([&] {
            CHECK(counts(one.application).request[1] == (number < THREADS ? 1 : 0));
            CHECK(counts(one.application).threads == (number < THREADS ? number + 1 : THREADS));
        });
        CHECK(counts(one.application).request[1] == 0 && counts(one.application).owned == 0);
    });

    tested other("at once", MANY);
    std::atomic<int> inside{0};
    hold(&holders, 0, managed);
    std::thread threads([&] {
        run_in_threads(MANY, true, [&](int) { other.arena.execute([&] { inside++; }); });
    });
    while (counts(other.application).waiting < THREADS) pause_for(100000);
    pause_for(20000000);
    CHECK(counts(other.application).request[1] == THREADS && inside == 0);
    let_go(&holders);
    threads.join();
    CHECK(inside == MANY && counts(other.application).request[1] == 0);
}

} // namespace

int main() {
    tbb::task_arena stays; /* so that oneTBB's workers stay, and go from arena to arena */
    stays.initialize();
    open_house(10000000);
    std::thread(give_cores_back).join();
    std::thread(end_while_a_worker_waits).join();
    std::thread(enter_registered).join();
    std::thread(enter_with_many).join();
    CHECK(moved == 0);
    check_pieces(true);
    CHECK(voldazpe_house_close(the_house) == VOLDAZPE_OK);

    open_house(50000);
    std::thread(follow_the_cores).join();
    share();
    check_pieces(false);
    CHECK(voldazpe_house_close(the_house) == VOLDAZPE_OK);
    return 0;
}
