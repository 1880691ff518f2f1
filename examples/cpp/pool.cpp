/* A pool of threads over a house: a queue, as many cores as there is work, exceptions in tasks, and an end.
 *
 *     c++ -std=c++17 -O2 pool.cpp $(pkg-config --cflags --libs voldazpe-house) -o pool && ./pool
 *
 * Copy `Pool`. What to know:
 *   - It wants cores for the tasks that are queued or running. It counts them and wants under one lock, so the last
 *     want is the latest.
 *   - If a task throws, its future has the exception.
 *   - At the end, first no task is queued any more, then the application is withdrawn, and only then are the threads
 *     joined. They sleep in their waits until the withdrawal, so a join before it would never return. */
#include <voldazpe_house.h>

#include <atomic>
#include <cstdio>
#include <deque>
#include <functional>
#include <future>
#include <mutex>
#include <stdexcept>
#include <thread>
#include <vector>

class Pool {
  public:
    Pool(const voldazpe::house &house, const char *name, uint32_t level, uint32_t threads)
        : application_(house, name), level_(level), most_(threads) {
        if (application_.code() != VOLDAZPE_OK) throw std::runtime_error(voldazpe_house_code_text(application_.code()));
        try {
            while (threads-- > 0) threads_.emplace_back([this] { work(); });
        } catch (...) { /* a thread couldn't be started: those that were are ended first */
            end();
            throw;
        }
    }
    ~Pool() { end(); }
    Pool(const Pool &) = delete;
    Pool &operator=(const Pool &) = delete;

    /* The future has what the task threw. If the task was dropped, it has a std::future_error. */
    std::future<void> run(std::function<void()> function) {
        std::packaged_task<void()> task(std::move(function));
        std::future<void> result = task.get_future();
        std::lock_guard<std::mutex> lock(lock_);
        if (over_) return result; /* its task is dropped here */
        queue_.push_back(std::move(task));
        want();
        return result;
    }

    /* From any thread, at any time. Tasks that run are finished; tasks that are queued are dropped. */
    void withdraw() {
        {
            std::lock_guard<std::mutex> lock(lock_);
            over_ = true;
        }
        for (;;) { /* each is dropped without the lock, and nothing here allocates memory */
            std::packaged_task<void()> dropped;
            std::lock_guard<std::mutex> lock(lock_);
            if (queue_.empty()) break;
            dropped = std::move(queue_.front());
            queue_.pop_front();
        }
        (void)application_.withdraw(); /* each wait returns */
    }

  private:
    void end() {
        withdraw();
        for (std::thread &thread : threads_) thread.join();
    }

    void work() {
        voldazpe::house_thread me(application_);
        if (me.code() != VOLDAZPE_OK) return;
        voldazpe::house_core core(me);
        while (core.code() == VOLDAZPE_OK) {
            while (core.keep() && run_one()) {
            }
            if (core.keep()) core.give_back(); /* no work: it waits until a core is wanted again */
            core.wait();
        }
    }

    bool run_one() {
        std::packaged_task<void()> task;
        {
            std::lock_guard<std::mutex> lock(lock_);
            if (over_ || queue_.empty()) return false;
            task = std::move(queue_.front());
            queue_.pop_front();
            running_++;
        }
        task(); /* an exception goes to the future */
        std::lock_guard<std::mutex> lock(lock_);
        running_--;
        want();
        return true;
    }

    void want() {
        size_t work = queue_.size() + running_;
        (void)application_.want(level_, work < most_ ? static_cast<uint32_t>(work) : most_);
    }

    voldazpe::house_application application_;
    uint32_t level_, most_;
    std::mutex lock_; /* guards the members below */
    std::deque<std::packaged_task<void()>> queue_;
    size_t running_ = 0;
    bool over_ = false;
    std::vector<std::thread> threads_;
};

int main() {
    voldazpe::house house; /* this process's own processors */
    if (house.code() != VOLDAZPE_OK) {
        std::fprintf(stderr, "pool: %s\n", voldazpe_house_code_text(house.code()));
        return 1;
    }
    std::atomic<int> sum{0};
    Pool service(house, "service", 0, 4), batch(house, "batch", 1, 4);

    std::vector<std::future<void>> results;
    for (int i = 1; i <= 1000; i++) {
        results.push_back(service.run([i, &sum] { sum += i; }));
        results.push_back(batch.run([i, &sum] { sum -= i; }));
    }
    for (std::future<void> &result : results) result.get();
    std::printf("2000 tasks: the sum is %d\n", sum.load());

    try {
        service.run([] { throw std::runtime_error("a task failed"); }).get();
    } catch (const std::runtime_error &error) {
        std::printf("an exception: %s\n", error.what());
    }

    std::promise<void> goes_on; /* withdrawn in the middle: at most four tasks have begun, and each waits for this */
    std::shared_future<void> wait_for = goes_on.get_future().share();
    std::vector<std::future<void>> stopped;
    for (int i = 0; i < 40; i++) stopped.push_back(batch.run([wait_for] { wait_for.wait(); }));
    batch.withdraw();
    goes_on.set_value();
    int dropped = 0;
    for (std::future<void> &result : stopped) {
        try {
            result.get();
        } catch (const std::future_error &) {
            dropped++;
        }
    }
    std::printf("withdrawn: %s tasks were dropped\n", dropped >= 36 ? "most" : "few");
    service.run([] { std::printf("the other pool goes on\n"); }).get();
    return 0;
}
