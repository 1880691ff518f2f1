/* oneTBB in a house: an arena whose threads work only while they have a core, so that it follows the cores that the
 * application owns. For you to copy. C++17, for oneTBB 2021 and later.
 *
 *     tbb_house arena(house, application, 1, 8);     // wants cores at level 1, 8 at most
 *     arena.execute([&] {
 *         tbb::parallel_for(0, n, [&](int i) {
 *             arena.between();                       // between two pieces of work: one load, if the core may be kept
 *             work(i);
 *         });
 *     });
 *
 * oneTBB sends its workers into the arena while there is work, and takes them out when they find no more. A thread that
 * enters waits for a core there, and a thread that leaves gives it back. The application wants as many cores as
 * registered threads are in the arena.
 *
 * What to know:
 *
 *   - oneTBB has no call by which a worker leaves an arena between two tasks. If a worker's core is asked back, `between`
 *     gives it back and waits up to `patience` for another, since others may wait for the worker's task. Then the worker
 *     goes on without a core for as long, on the unmanaged ones, before it waits again. Tasks that it has split off are
 *     stolen meanwhile. A thread that doesn't call `between` is moved at the end of the grace, and goes on without a core.
 *   - Until it ends, a thread is in the application of the arena that it entered last, and outside of arenas on unmanaged
 *     cores. In a nested arena it keeps the core that it has. A thread that can't be registered wants no core and has none
 *     here: one that the program has registered itself, or one that comes while the application has 32 threads.
 *   - A worker that waits for a core stays in the arena, even once the work is done. Other arenas do without it meanwhile.
 *   - oneTBB counts the processors once: those that the first thread that uses it may use. Make the first arena before that
 *     thread is registered.
 *   - The end of the object withdraws the application. No work may be going on in the arena then. */
#ifndef TBB_HOUSE_H
#define TBB_HOUSE_H

#include <tbb/info.h>
#include <tbb/task_arena.h>
#include <tbb/task_scheduler_observer.h>
#include <voldazpe_house.h>

#include <algorithm>
#include <atomic>
#include <chrono>
#include <memory>
#include <mutex>

class tbb_house : public tbb::task_arena, private tbb::task_scheduler_observer {
  public:
    /* `most`: threads of the arena, the one that calls `execute` included; an application has 32 at most. */
    tbb_house(voldazpe_house_t *house, voldazpe_house_application_t application, uint32_t level, int most)
        : tbb::task_arena(threads_of(most)), tbb::task_scheduler_observer(static_cast<tbb::task_arena &>(*this)), house_(house),
          application_(application), level_(level) {
        voldazpe_house_state_t state;
        if (voldazpe_house_state(house, &state) == VOLDAZPE_OK) patience = std::chrono::microseconds(2 * state.grace);
        (void)tbb::info::default_concurrency();
        observe(true);
    }

    ~tbb_house() {
        (void)voldazpe_house_withdraw(house_, application_); /* waits in the arena return */
        observe(false); /* threads that are in now aren't seen to leave */
        *there_ = false;
    }

    tbb_house(const tbb_house &) = delete;
    tbb_house &operator=(const tbb_house &) = delete;

    /* How long a thread waits in `between`: twice the grace, since by then a core that is due has come. */
    std::chrono::nanoseconds patience = std::chrono::milliseconds(20);

    /* Between two pieces of work of a task in the arena. */
    void between() {
        seat &me = mine();
        if (!me.handle || voldazpe_house_keep(me.handle) || clock::now() < me.again) return;
        if (voldazpe_house_wait(me.handle, patience.count()) != VOLDAZPE_OK) me.again = clock::now() + patience;
    }

  private:
    using clock = std::chrono::steady_clock;

    /* The calling thread's registration. */
    struct seat {
        voldazpe_house_t *house = nullptr;
        voldazpe_house_application_t application = 0;
        voldazpe_house_thread_t *handle = nullptr; /* null if it isn't registered */
        int depth = 0;                             /* arenas that it is in, one in another */
        std::shared_ptr<std::atomic<bool>> outer;  /* whether the outermost of these still exists */
        clock::time_point again;                   /* until when it goes on without a core */
    };

    static seat &mine() {
        static thread_local seat me;
        return me;
    }

    static int threads_of(int most) {
        return std::min(most == automatic ? tbb::info::default_concurrency() : most, int{VOLDAZPE_THREADS});
    }

    /* Registers the thread in the arena's application, unless it is registered there. Returns whether it is now. */
    bool sit_down(seat &me) {
        if (me.handle && me.house == house_ && me.application == application_) return true;
        if (me.handle) (void)voldazpe_house_leave(me.handle);
        if (voldazpe_house_register(house_, application_, &me.handle) != VOLDAZPE_OK) me.handle = nullptr;
        me.house = house_;
        me.application = application_;
        return me.handle != nullptr;
    }

    /* Counts registered threads that enter the arena or leave it. */
    void want(int more) {
        std::lock_guard<std::mutex> one_after_another(wants_);
        inside_ += more;
        (void)voldazpe_house_want(house_, application_, level_, static_cast<uint32_t>(inside_));
    }

    void on_scheduler_entry(bool) override {
        seat &me = mine();
        if (me.depth > 0 && *me.outer) {
            me.depth++;
            return;
        }
        me.depth = 1;
        me.outer = there_;
        me.again = clock::time_point();
        if (!sit_down(me)) return;
        want(1);
        (void)voldazpe_house_wait(me.handle, -1);
    }

    void on_scheduler_exit(bool) override {
        seat &me = mine();
        if (--me.depth > 0 || !me.handle) return;
        (void)voldazpe_house_give_back(me.handle);
        want(-1);
    }

    voldazpe_house_t *house_;
    voldazpe_house_application_t application_;
    uint32_t level_;
    std::mutex wants_;
    int inside_ = 0;
    std::shared_ptr<std::atomic<bool>> there_ = std::make_shared<std::atomic<bool>>(true);
};

#endif
