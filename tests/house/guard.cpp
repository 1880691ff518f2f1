// The C++ part of the header: a thread leaves and gives its core back at the end of the scope, also where an exception
// passes through, and where it is cancelled; a house is closed with its last copy, and each call hands on what it is given.
#include "check.h"

#define main main_of_pool
#include "../../examples/cpp/pool.cpp"
#undef main

#include <new>
#include <stdexcept>
#include <string>
#include <thread>
#include <type_traits>
#include <utility>
#include <vector>

static const char two[] = "[[socket]]\nmanaged = [1, 2]\nunmanaged = [0]\n";

static voldazpe_house_t *house;
static voldazpe_house_application_t application;

static uint32_t owned() { return counts_of(house, application).owned; }
static uint32_t registered() { return counts_of(house, application).threads; }

static void throws(voldazpe_house_thread_t *me) {
    voldazpe::house_core core(me);
    CHECK(core.code() == VOLDAZPE_OK && core.keep() && owned() == 1);
    throw std::runtime_error("a task failed");
}

static void scopes() {
    voldazpe::house_thread me(house, application);
    CHECK(me.code() == VOLDAZPE_OK && registered() == 1);
    {
        voldazpe::house_core core(me.handle());
        CHECK(core.keep() && owned() == 1);
    }
    CHECK(owned() == 0);
    bool caught = false;
    try {
        throws(me.handle());
    } catch (const std::runtime_error &) {
        caught = true;
    }
    CHECK(caught && owned() == 0 && registered() == 1);
    {
        voldazpe::house_core core(me.handle(), 0); // at once, since one is free
        CHECK(core.code() == VOLDAZPE_OK);
        voldazpe::house_thread again(house, application);
        CHECK(again.code() == VOLDAZPE_HOUSE_REGISTERED && again.handle() == nullptr);
    }
    OK(voldazpe_house_want(house, application, 0, 0));
    {
        voldazpe::house_core core(me.handle(), 1000000);
        CHECK(core.code() == VOLDAZPE_TIMED_OUT && !core.keep());
    }
    OK(voldazpe_house_want(house, application, 0, 2));
}

static std::atomic<int> destroyed;

struct counted {
    ~counted() { destroyed++; }
};

static void *is_cancelled(void *unused) {
    counted outer;
    voldazpe::house_thread me(house, application);
    voldazpe::house_core core(me.handle());
    counted inner;
    for (;;) {
        if (voldazpe_house_wait(me.handle(), -1) != VOLDAZPE_OK) break; // a cancellation point, also with a core
    }
    return unused;
}

static void *is_cancelled_asleep(void *unused) {
    counted outer;
    voldazpe::house_thread me(house, application);
    voldazpe::house_core core(me.handle());
    CHECK("it is cancelled before" == nullptr);
    return unused;
}

static void cancellations() {
    pthread_t thread = start_thread(is_cancelled, nullptr);
    UNTIL(owned() == 1);
    CHECK(pthread_cancel(thread) == 0 && join_thread(thread) == PTHREAD_CANCELED);
    CHECK(destroyed == 2 && owned() == 0 && registered() == 0);
    OK(voldazpe_house_want(house, application, 0, 0));
    thread = start_thread(is_cancelled_asleep, nullptr);
    UNTIL(counts_of(house, application).waiting == 1);
    CHECK(pthread_cancel(thread) == 0 && join_thread(thread) == PTHREAD_CANCELED);
    CHECK(destroyed == 3 && counts_of(house, application).waiting == 0 && registered() == 0);
    OK(voldazpe_house_want(house, application, 0, 2));
}

static void many() {
    std::vector<std::thread> threads;
    std::atomic<int> thrown{0};
    for (int i = 0; i < 8; i++) {
        threads.emplace_back([&] {
            voldazpe::house_thread me(house, application);
            CHECK(me.code() == VOLDAZPE_OK);
            for (int round = 0; round < 300; round++) {
                try {
                    voldazpe::house_core core(me.handle());
                    int number = voldazpe_house_core(me.handle());
                    believe(number, &me);
                    believe_no_more(number, &me);
                    if (round % 3 == 0) throw round;
                } catch (int) {
                    thrown++;
                }
            }
        });
    }
    for (std::thread &thread : threads) thread.join();
    CHECK(thrown == 800 && registered() == 0 && owned() == 0);
}

static uint64_t orders(voldazpe_house_t *of) { return state_of(of).orders; }

// a house and an application, shared by copies, and used behind their ends
static void owners(const voldazpe_house_options_t &options) {
    voldazpe::house first(two, options), copy = first;
    CHECK(first.code() == VOLDAZPE_OK && copy.handle() == first.handle());
    voldazpe_house_t *here = first.handle();
    voldazpe::house_application stays(copy, "stays");
    CHECK(stays.code() == VOLDAZPE_OK && stays.id() != 0 && stays.house() == here);
    {
        voldazpe::house_application goes(copy), shared = goes;
        CHECK(goes.id() == shared.id() && state_of(here).applications == 2);
        { voldazpe::house_application inner = goes; }
        CHECK(state_of(here).applications == 2);
    }
    CHECK(state_of(here).applications == 1);
    {
        voldazpe::house_thread me(stays);
        CHECK(me.code() == VOLDAZPE_OK && stays.want(0, 1) == VOLDAZPE_OK);
        voldazpe::house_core core(me);
        CHECK(core.keep());
        uint64_t before = orders(here);
        CHECK(core.wait() == VOLDAZPE_OK && orders(here) == before); // it keeps its core
        CHECK(stays.cap(0) == VOLDAZPE_OK && !core.keep());
        before = orders(here);
        CHECK(core.wait(0) == VOLDAZPE_TIMED_OUT && orders(here) == before + 1 && core.code() == VOLDAZPE_TIMED_OUT);
        CHECK(stays.cap(1) == VOLDAZPE_OK && core.wait() == VOLDAZPE_OK && core.keep());
        before = orders(here);
        CHECK(core.give_back() == VOLDAZPE_OK && orders(here) == before + 1 && core.wait() == VOLDAZPE_OK);
    }
    voldazpe_house_counts_t counts;
    CHECK(stays.counts(counts) == VOLDAZPE_OK && counts.owned == 0 && counts.threads == 0 && counts.request[0] == 1);

    std::atomic<bool> began{false};
    std::thread wants([stays, &began]() mutable { // its own copy, which it uses behind the close
        voldazpe_house_code_t code;
        for (uint32_t cores = 0; (code = stays.want(1, cores % 3)) == VOLDAZPE_OK; cores++) began = true;
        CHECK(code == VOLDAZPE_HOUSE_CLOSED);
    });
    std::thread waits([stays] {
        voldazpe::house_thread me(stays);
        CHECK(me.code() == VOLDAZPE_OK);
        voldazpe_house_code_t code;
        do code = voldazpe_house_wait(me.handle(), 1000000);
        while (code == VOLDAZPE_OK || code == VOLDAZPE_TIMED_OUT);
        CHECK(code == VOLDAZPE_HOUSE_CLOSED);
    });
    UNTIL(began.load());
    UNTIL(counts_of(here, stays.id()).threads == 1);
    CHECK(first.close() == VOLDAZPE_OK && copy.close() == VOLDAZPE_HOUSE_CLOSED);
    wants.join();
    waits.join();
    CHECK(stays.want(0, 1) == VOLDAZPE_HOUSE_CLOSED && stays.withdraw() == VOLDAZPE_HOUSE_CLOSED);
    voldazpe::house_application late(first);
    CHECK(late.code() == VOLDAZPE_HOUSE_CLOSED && late.id() == 0);

    voldazpe::house none("managed", options);
    CHECK(none.code() == VOLDAZPE_NOT_TOML && none.handle() == nullptr && none.close() == VOLDAZPE_NULL);
    voldazpe::house_application nobody(none);
    CHECK(nobody.code() == VOLDAZPE_NULL);
}

static std::string name_of(const voldazpe::house_application &of) {
    char name[40];
    OK(voldazpe_house_name(of.house(), of.id(), name, sizeof name));
    return name;
}

// what is handed on to the house: names, levels, caps, numbers of threads
static void values(const voldazpe_house_options_t &options) {
    voldazpe::house here(two, options);
    voldazpe::house_application named(here, "a name"), unnamed(here);
    CHECK(name_of(named) == "a name" && name_of(unnamed).empty() && named.house() == here.handle());
    const auto counts = [&named] {
        voldazpe_house_counts_t has;
        CHECK(named.counts(has) == VOLDAZPE_OK);
        return has;
    };
    const uint8_t request[VOLDAZPE_LEVELS] = {0, 3, 1, 0, 0, 0, 2, 4}, at_five[VOLDAZPE_LEVELS] = {0, 0, 0, 0, 0, 6, 0, 0};
    CHECK(named.want_at_levels(request) == VOLDAZPE_OK && memcmp(counts().request, request, sizeof request) == 0);
    CHECK(named.want(5, 6) == VOLDAZPE_OK && memcmp(counts().request, at_five, sizeof at_five) == 0 && counts().due == 2);
    CHECK(named.cap(1) == VOLDAZPE_OK && counts().cap == 1 && counts().due == 1);
    CHECK(named.want(VOLDAZPE_LEVELS, 1) == VOLDAZPE_HOUSE_NO_LEVEL && named.cap(129) == VOLDAZPE_ENTRY_TOO_LARGE);
    CHECK(named.withdraw() == VOLDAZPE_OK && named.want(0, 1) == VOLDAZPE_HOUSE_WITHDRAWN);
    CHECK(unnamed.want(0, 1) == VOLDAZPE_OK && state_of(here.handle()).applications == 1);
}

// Waits that are ended: of one thread by its number, of all of an application, and of no other one
static void ends_of_waits(const voldazpe_house_options_t &options) {
    voldazpe::house here(two, options);
    voldazpe::house_application first(here), pool(here);
    std::atomic<uint32_t> ended{0};
    std::vector<std::thread> threads;
    for (uint32_t number = 0; number < 4; number++) {
        const voldazpe::house_application &its = number < 3 ? pool : first;
        threads.emplace_back([its, number, &ended] {
            voldazpe::house_thread me(its);
            CHECK(me.code() == VOLDAZPE_OK && me.handle()->number == number % 3);
            voldazpe::house_core core(me);
            CHECK(core.code() == VOLDAZPE_HOUSE_WAIT_ENDED && !core.keep());
            ended |= 1u << number;
        });
        UNTIL(counts_of(here.handle(), its.id()).waiting == number % 3 + 1);
    }
    CHECK(pool.end_wait(1) == VOLDAZPE_OK);
    UNTIL(ended & 2);
    pause_for(20000000); // no other one comes to its end
    CHECK(ended == 2 && counts_of(here.handle(), pool.id()).waiting == 2);
    CHECK(pool.end_waits() == VOLDAZPE_OK);
    UNTIL((ended & 5) == 5);
    pause_for(20000000);
    CHECK(ended == 7 && counts_of(here.handle(), first.id()).waiting == 1);
    CHECK(first.end_waits() == VOLDAZPE_OK);
    for (std::thread &thread : threads) thread.join();
    CHECK(ended == 15);
}

// Each opener closes once: a second close of its takes nobody else's.
static void closes(const voldazpe_house_options_t &options) {
    voldazpe::house first(options), second(options), copy = first;
    CHECK(first.code() == VOLDAZPE_OK && second.handle() == first.handle() && state_of(first.handle()).opens == 2);
    CHECK(first.close() == VOLDAZPE_OK && first.close() == VOLDAZPE_HOUSE_CLOSED && copy.close() == VOLDAZPE_HOUSE_CLOSED);
    CHECK(state_of(second.handle()).opens == 1);
    voldazpe::house_application goes_on(first); // as the house does
    CHECK(goes_on.want(0, 1) == VOLDAZPE_OK);
    {
        voldazpe::house third(options);
        CHECK(state_of(second.handle()).opens == 2);
        voldazpe::house another = third;
        another = second;
        third = second; // the last copy of the third one is gone
        CHECK(state_of(second.handle()).opens == 1);
    }
    CHECK(state_of(second.handle()).opens == 1);
    CHECK(second.close() == VOLDAZPE_OK && goes_on.want(0, 2) == VOLDAZPE_HOUSE_CLOSED);
}

// The last copy closes the house, also where an application of it is still there, which a thread uses.
static void copies_close(const voldazpe_house_options_t &options) {
    std::thread waits;
    std::atomic<bool> closed{false};
    voldazpe_house_t *here;
    {
        voldazpe::house first(two, options);
        here = first.handle();
        voldazpe_house_hold(here);
        voldazpe::house_application worker(first, "worker");
        waits = std::thread([worker, &closed] {
            voldazpe::house_thread me(worker);
            voldazpe::house_core core(me);
            CHECK(core.code() == VOLDAZPE_HOUSE_CLOSED && worker.house());
            closed = true;
        });
        UNTIL(counts_of(here, worker.id()).waiting == 1);
        { voldazpe::house copy = first; }
        CHECK(state_of(here).opens == 1 && !closed);
    }
    voldazpe_house_state_t state;
    CHECK(voldazpe_house_state(here, &state) == VOLDAZPE_HOUSE_CLOSED);
    UNTIL(closed.load());
    waits.join();
    voldazpe_house_let_go(here);
}

// A close is refused in a hook, and isn't spent there.
static voldazpe::house *of_hook;
static std::atomic<int> refused;

static void closes_in_hook(void *, const voldazpe_house_event_t *) {
    if (!of_hook) return;
    CHECK(of_hook->close() == VOLDAZPE_HOUSE_IN_HOOK);
    refused++;
}

static void hooks(voldazpe_house_options_t options) {
    options.hook = closes_in_hook;
    voldazpe::house here(two, options);
    voldazpe::house_application application_(here);
    of_hook = &here;
    CHECK(application_.want(0, 1) == VOLDAZPE_OK && refused == 1);
    of_hook = nullptr;
    CHECK(here.close() == VOLDAZPE_OK && here.close() == VOLDAZPE_HOUSE_CLOSED);
    CHECK(application_.want(0, 2) == VOLDAZPE_HOUSE_CLOSED);
}

// What is moved is copied: what was moved from goes on.
static void moves(const voldazpe_house_options_t &options) {
    voldazpe::house from(two, options), to(std::move(from));
    CHECK(from.code() == VOLDAZPE_OK && from.handle() == to.handle());
    voldazpe::house_application first(from), second(std::move(first));
    CHECK(first.code() == VOLDAZPE_OK && first.id() == second.id() && first.want(0, 1) == VOLDAZPE_OK);
    voldazpe::house_application third(to);
    third = std::move(second);
    CHECK(third.id() == first.id() && second.want(0, 2) == VOLDAZPE_OK && state_of(to.handle()).applications == 1);
    voldazpe::house other(two, options);
    other = std::move(to);
    CHECK(other.handle() == from.handle() && to.close() == VOLDAZPE_OK && from.close() == VOLDAZPE_HOUSE_CLOSED);
}

// the texts of a machine, and options
static void openings(voldazpe_house_options_t options) {
    options.grace = 123456;
    options.own = true;
    voldazpe::house own(options), text(std::string_view("[[socket]]\nmanaged = [7, 9]\nunmanaged = [0]\nmore").substr(0, 44), options);
    CHECK(own.code() == VOLDAZPE_OK && state_of(own.handle()).grace == 123456);
    CHECK(text.code() == VOLDAZPE_OK && state_of(text.handle()).grace == 123456 && state_of(text.handle()).managed == 2);
    voldazpe::house empty(""), none{std::string_view{}}, with_options(std::string_view{}, options);
    CHECK(empty.code() == VOLDAZPE_BAD_KEY && none.code() == VOLDAZPE_BAD_KEY && with_options.code() == VOLDAZPE_BAD_KEY);
}

// A pool of which not all threads can be started throws that, and those that began have ended.
#if VOLDAZPE_THREAD_SANITIZER // it has these operators itself
static void pools(const voldazpe_house_options_t &) {}
#else
static thread_local int granted = -1; // how many allocations before this thread is refused one; below 0 it is refused none

__attribute__((noinline)) void *operator new(size_t size) {
    void *memory = granted == 0 ? nullptr : malloc(size);
    if (granted >= 0) granted--;
    if (!memory) throw std::bad_alloc();
    return memory;
}
__attribute__((noinline)) void operator delete(void *memory) noexcept { free(memory); }
__attribute__((noinline)) void operator delete(void *memory, size_t) noexcept { free(memory); }

static void pools(const voldazpe_house_options_t &options) {
    voldazpe::house here(two, options);
    int refusals = 0;
    for (bool made = false; !made; refusals += !made) {
        granted = refusals;
        try {
            Pool pool(here, "pool", 0, 6);
            made = granted >= 0; // it is made with fewer
            granted = -1;
        } catch (const std::bad_alloc &) {
        }
        CHECK(state_of(here.handle()).threads == 0 && state_of(here.handle()).applications == 0);
    }
    CHECK(refusals > 6); // one of each thread at least
}
#endif

// a registration lives for as long as whoever waits by it
static_assert(std::is_constructible_v<voldazpe::house_core, voldazpe::house_thread &>);
static_assert(std::is_constructible_v<voldazpe::house_core, const voldazpe::house_thread &, int64_t>);
static_assert(!std::is_constructible_v<voldazpe::house_core, voldazpe::house_thread>);
static_assert(!std::is_constructible_v<voldazpe::house_core, voldazpe::house_thread, int64_t>);
static_assert(!std::is_constructible_v<voldazpe::house_core, const voldazpe::house_thread>);
// and what has a thread's place isn't copied
static_assert(!std::is_copy_constructible_v<voldazpe::house_thread> && !std::is_copy_constructible_v<voldazpe::house_core>);
static_assert(!std::is_move_constructible_v<voldazpe::house_thread> && !std::is_move_constructible_v<voldazpe::house_core>);

int main() {
    voldazpe_house_options_t options = {};
    options.unpinned = true;
    options.grace = 1000000000;
    OK(voldazpe_house_open(two, strlen(two), &options, &house));
    OK(voldazpe_house_join(house, "guarded", &application));
    OK(voldazpe_house_want(house, application, 0, 2));
    scopes();
    CHECK(registered() == 0);
    cancellations();
    many();
    OK(voldazpe_house_close(house));
    owners(options);
    values(options);
    ends_of_waits(options);
    closes(options);
    copies_close(options);
    hooks(options);
    moves(options);
    openings(options);
    pools(options);
    return 0;
}
