/* Times the orders of a script with their posts, a bare call, a reading, an opening with its closing, and an order that
 * renews; then the orders under a mutex; then the orders by a single member, its readings of the page and of the
 * library's words, and its opening with its closing: speed MACHINE.toml < SCRIPT. Prints the least and the median of
 * nine runs, each as a line `name value unit`. */
#define _POSIX_C_SOURCE 200809L
#include "script.h"

#include <inttypes.h>
#include <pthread.h>
#include <time.h>

enum { RUNS = 9, LINES = 1000000, LIMIT = 1000000 /* orders between two renewals */ };

struct line {
    uint32_t client;
    voldazpe_order_t order;
};

static voldazpe_arbiter_t arbiter;
static voldazpe_page_t page;
static voldazpe_member_t member;
static char text[VOLDAZPE_TEXT + 1];
static struct line script[LINES];
static double now(void) {
    struct timespec moment;
    clock_gettime(CLOCK_MONOTONIC, &moment);
    return (double)moment.tv_sec * 1e9 + (double)moment.tv_nsec;
}

static int compare(const void *left, const void *right) {
    double a = *(const double *)left, b = *(const double *)right;
    return (a > b) - (a < b);
}

static void print(const char *name, double *times) {
    qsort(times, RUNS, sizeof *times, compare);
    printf("%s.least %.2f ns\n%s.median %.2f ns\n", name, times[0], name, times[RUNS / 2]);
}

/* The time of a reading of the page, by the same code for all givers of orders. */
__attribute__((noinline)) static double time_readings(uint64_t *sum) {
    double began = now();
    for (uint32_t i = 0; i < 10000000; i++) *sum += (uint64_t)voldazpe_must_release(&page, i & 511);
    return (now() - began) / 1e7;
}

static double mutex_orders[RUNS];

/* The orders of one run, each under a mutex: the sum of their replies, or 0 where a call failed. */
static uint64_t time_mutex(int run, size_t length, size_t lines) {
    static pthread_mutex_t mutex = PTHREAD_MUTEX_INITIALIZER;
    uint64_t sum = 1;
    double began;
    if (voldazpe_open(&arbiter, text, length, NULL) != VOLDAZPE_OK) return 0;
    began = now();
    for (size_t i = 0; i < lines; i++) {
        voldazpe_reply_t reply;
        (void)pthread_mutex_lock(&mutex);
        if (voldazpe_give(&arbiter, &page, script[i].client, script[i].order, &reply) != VOLDAZPE_OK) return 0;
        (void)pthread_mutex_unlock(&mutex);
        sum += reply.kind;
    }
    mutex_orders[run] = (now() - began) / (double)lines;
    return voldazpe_close_and_clear(&arbiter, &page) == VOLDAZPE_OK ? sum : 0;
}

static double member_orders[RUNS], member_readings[RUNS], member_reads[RUNS], member_openings[RUNS];

/* One run of a member: the sum of what it read, or 0 where a call failed. */
static uint64_t time_member(int run, size_t length, size_t lines) {
    uint64_t sum = 1, value;
    double began = now();
    if (voldazpe_member_open(&member, &page, text, length, NULL) != VOLDAZPE_OK) return 0;
    member_openings[run] = now() - began;
    began = now();
    for (size_t i = 0; i < lines; i++) {
        voldazpe_reply_t reply;
        if (voldazpe_member_give(&member, script[i].client, script[i].order, &reply) != VOLDAZPE_OK) return 0;
        sum += reply.kind;
    }
    member_orders[run] = (now() - began) / (double)lines;
    member_readings[run] = time_readings(&sum);
    began = now();
    for (uint32_t i = 0; i < 10000000; i++) {
        if (voldazpe_member_read(&member, VOLDAZPE_FIRST_PLACE + (i & 511), &value) != VOLDAZPE_OK) return 0;
        sum += value;
    }
    member_reads[run] = (now() - began) / 1e7;
    began = now();
    if (voldazpe_member_close(&member) != VOLDAZPE_OK) return 0;
    member_openings[run] += now() - began;
    return sum;
}

static void *ends(void *nothing) { return nothing; }

/* A process that has had a second thread: a mutex costs less in one that never had. */
static bool had_a_thread(void) {
    pthread_t thread;
    return pthread_create(&thread, NULL, ends, NULL) == 0 && pthread_join(thread, NULL) == 0;
}

int main(int count, char **words) {
    double orders[RUNS], calls[RUNS], readings[RUNS], openings[RUNS], renewals[RUNS];
    size_t length, lines = 0;
    FILE *file = count == 2 ? fopen(words[1], "r") : NULL;
    uint64_t sum = 0, value;
    char line[256];
    if (!file) return 2;
    length = fread(text, 1, sizeof text, file);
    fclose(file);
    while (lines < LINES && fgets(line, sizeof line, stdin)) {
        lines += script_line(line, &script[lines].client, &script[lines].order);
    }
    if (lines == 0) return 2;
    if (!had_a_thread()) return 1;
    for (int run = 0; run < RUNS; run++) {
        double began = now();
        if (voldazpe_open(&arbiter, text, length, NULL) != VOLDAZPE_OK) return 1;
        openings[run] = now() - began;
        began = now();
        for (size_t i = 0; i < lines; i++) {
            voldazpe_reply_t reply;
            if (voldazpe_give(&arbiter, &page, script[i].client, script[i].order, &reply) != VOLDAZPE_OK) return 1;
            sum += reply.kind;
        }
        orders[run] = (now() - began) / (double)lines;
        began = now();
        for (uint32_t i = 0; i < 1000000; i++) {
            voldazpe_lib_posted(&arbiter.handle, i % VOLDAZPE_WORDS, &value);
            sum += value;
        }
        calls[run] = (now() - began) / 1e6;
        readings[run] = time_readings(&sum);
        for (size_t i = lines; i <= LIMIT; i++) { /* the last renews */
            voldazpe_reply_t reply;
            began = now();
            if (voldazpe_step(&arbiter, VOLDAZPE_CLOCK, voldazpe_status(), &reply) != VOLDAZPE_OK) return 1;
        }
        renewals[run] = now() - began;
        began = now();
        if (voldazpe_close(&arbiter) != VOLDAZPE_OK) return 1;
        openings[run] += now() - began;
        voldazpe_page_clear(&page);
        value = time_mutex(run, length, lines);
        if (value == 0) return 1;
        sum += value;
        value = time_member(run, length, lines);
        if (value == 0) return 1;
        sum += value;
    }
    print("c.order", orders);
    print("c.call", calls);
    print("c.must_release", readings);
    print("c.open_and_close", openings);
    print("c.renewing_order", renewals);
    print("c.mutex_order", mutex_orders);
    print("c.member_order", member_orders);
    print("c.member_must_release", member_readings);
    print("c.member_read", member_reads);
    print("c.member_open_and_close", member_openings);
    fprintf(stderr, "sum %" PRIu64 " of %zu orders\n", sum, lines);
    return 0;
}
