/* Runs a script through the C calls, and prints the report that `arbiter run` prints: replay MACHINE.toml [AHEAD] <
 * SCRIPT. For a machine without `orders` it prints what `arbiter live --endless` prints for the script and a line
 * `cores`, except `end`.
 *
 * After each order it compares what the page's readers say of the client with what the arbiter says. It compares what
 * the arbiter says of the client's application with the page and with the orders before. At the end it compares the
 * complete page with the posted words. A second arbiter, which was given AHEAD orders before, gets the same orders. It
 * is renewed at other orders than the first. After each order its reply, and its page words except the count, are those
 * of the first. */
#include "script.h"

#include <inttypes.h>

static voldazpe_arbiter_t arbiter;
static voldazpe_page_t page;
static uint16_t numbers[VOLDAZPE_CORES]; /* of the core at each position */
static char text[VOLDAZPE_TEXT + 1];

#define CHECK(holds)                                                        \
    do {                                                                    \
        if (!(holds)) {                                                     \
            fprintf(stderr, "%s:%d: %s\n", __FILE__, __LINE__, #holds);     \
            exit(1);                                                        \
        }                                                                   \
    } while (0)

static void print_place(const voldazpe_place_t *place) {
    printf(" %s", voldazpe_place_name(place->kind));
    switch ((voldazpe_place_kind_t)place->kind) {
    case VOLDAZPE_ON: printf(" %u%s", place->core, place->asked ? " asked" : ""); break;
    case VOLDAZPE_UNMANAGED:
    case VOLDAZPE_WAITING:
    case VOLDAZPE_MOVED_AWAY: break;
    }
}

static void print_refusal(const voldazpe_reply_t *reply) {
    printf(" %u %s", reply->refusal, voldazpe_refusal_name(reply->refusal));
    switch ((voldazpe_refusal_t)reply->refusal) {
    case VOLDAZPE_CLOCK_BACK: printf(" %" PRIu64, reply->clock); break;
    case VOLDAZPE_ALREADY_JOINED:
    case VOLDAZPE_NOT_JOINED:
    case VOLDAZPE_ALREADY_WAITING:
    case VOLDAZPE_NOT_A_THREAD:
    case VOLDAZPE_CAP_TOO_LARGE: break;
    }
}

static void print_reply(const voldazpe_reply_t *reply) {
    printf("%s", voldazpe_reply_name(reply->kind));
    switch ((voldazpe_reply_kind_t)reply->kind) {
    case VOLDAZPE_JOINED:
    case VOLDAZPE_DONE: break;
    case VOLDAZPE_DUE: printf(" %u", reply->due); break;
    case VOLDAZPE_NOW: print_place(&reply->place); break;
    case VOLDAZPE_COUNTS:
        printf(" due %u owned %u asked %u waiting %u", reply->due, reply->owned, reply->asked, reply->waiting);
        break;
    case VOLDAZPE_MOVED: printf(" %u", reply->moved); break;
    case VOLDAZPE_REFUSED: print_refusal(reply); break;
    }
    putchar('\n');
}

/* the readers of the page say what the arbiter says */
static void compare(uint32_t client) {
    voldazpe_place_t place;
    uint64_t word = voldazpe_place_word(&page, client);
    CHECK(voldazpe_place(&arbiter, client, &place) == VOLDAZPE_OK);
    if (place.kind == VOLDAZPE_ON) {
        CHECK(voldazpe_must_release(&page, client) == place.asked);
        CHECK(numbers[voldazpe_position(&page, client)] == place.core && voldazpe_place_core(place) == place.core);
    } else {
        CHECK(word == place.kind && voldazpe_must_release(&page, client) == -1);
        CHECK(voldazpe_position(&page, client) == -1 && voldazpe_place_core(place) == -1);
    }
}

/* what each application asked for, as the orders before have it */
static struct application {
    bool joined;
    uint8_t cap; /* if there is none, more than any request has */
    uint8_t request[VOLDAZPE_LEVELS];
} applications[VOLDAZPE_APPLICATIONS];

static void note(uint32_t client, const voldazpe_order_t *order, const voldazpe_reply_t *reply) {
    struct application *application = &applications[client / VOLDAZPE_THREADS];
    if (reply->kind == VOLDAZPE_REFUSED) return;
    switch ((voldazpe_order_kind_t)order->kind) {
    case VOLDAZPE_JOIN:
    case VOLDAZPE_LEAVE:
        memset(application, 0, sizeof *application);
        application->cap = UINT8_MAX;
        application->joined = order->kind == VOLDAZPE_JOIN;
        break;
    case VOLDAZPE_ASK: memcpy(application->request, order->request, VOLDAZPE_LEVELS); break;
    case VOLDAZPE_CAP: application->cap = order->cap; break;
    case VOLDAZPE_BLOCK:
    case VOLDAZPE_RETIRE:
    case VOLDAZPE_STATUS:
    case VOLDAZPE_TICK: break;
    }
}

static uint8_t least(uint32_t a, uint32_t b) { return (uint8_t)(a < b ? a : b); }

/* what it asks for is the last ask, cut at the cap; what it has is what the page and the reply say */
static void compare_application(uint32_t client, const voldazpe_reply_t *reply) {
    const uint32_t number = client / VOLDAZPE_THREADS;
    const struct application *application = &applications[number];
    voldazpe_request_t request;
    voldazpe_counts_t counts;
    uint32_t owned = 0, waiting = 0, left = application->cap == UINT8_MAX ? UINT32_MAX : application->cap;
    uint64_t low = voldazpe_asked_cores(&page, number, 0), high = voldazpe_asked_cores(&page, number, 1);
    CHECK(voldazpe_requested(&arbiter, number, &request) == (application->joined ? VOLDAZPE_OK : VOLDAZPE_NO_REQUEST));
    for (uint32_t level = 0; application->joined && level < VOLDAZPE_LEVELS; level++) {
        uint8_t counted = least(application->request[level], left);
        CHECK(request.cores[level] == counted);
        left -= counted;
    }
    for (uint32_t thread = 0; thread < VOLDAZPE_THREADS; thread++) {
        uint64_t word = voldazpe_place_word(&page, VOLDAZPE_THREADS * number + thread);
        owned += word >= 4;
        waiting += word == VOLDAZPE_WAITING;
    }
    CHECK(voldazpe_counts(&arbiter, number, &counts) == VOLDAZPE_OK);
    CHECK(counts.owned == owned && counts.waiting == waiting);
    CHECK(counts.asked == __builtin_popcountll(low) + __builtin_popcountll(high));
    if (reply->kind == VOLDAZPE_DUE) CHECK(counts.due == reply->due);
    if (reply->kind == VOLDAZPE_COUNTS) {
        CHECK(counts.due == reply->due && counts.owned == reply->owned);
        CHECK(counts.asked == reply->asked && counts.waiting == reply->waiting);
    }
    if (!application->joined) CHECK(counts.due == 0 && counts.owned == 0 && counts.waiting == 0);
}

/* ---- the second arbiter */

static voldazpe_arbiter_t second;
static uint64_t words[VOLDAZPE_WORDS]; /* its page, of which each post is made here */
static uint64_t counts[VOLDAZPE_CLOCK + 1], before[VOLDAZPE_CLOCK + 1]; /* orders of each client; of the second alone */

static void go_ahead(uint64_t ahead) { /* by orders that are refused */
    voldazpe_reply_t reply;
    for (uint64_t i = 0; i < ahead; i++) {
        before[i % VOLDAZPE_ALL_THREADS]++;
        CHECK(voldazpe_step(&second, (uint32_t)(i % VOLDAZPE_ALL_THREADS), voldazpe_status(), &reply) == VOLDAZPE_OK);
    }
}

static void goes_along(uint32_t client, voldazpe_order_t order, const voldazpe_reply_t *reply) {
    voldazpe_reply_t its;
    voldazpe_post_t post;
    CHECK(voldazpe_step(&second, client, order, &its) == VOLDAZPE_OK);
    while (voldazpe_next_post(&second, &post) == VOLDAZPE_OK) {
        CHECK(post.word > 0); /* the count is never among the posts */
        words[post.word] = post.value;
    }
    CHECK(its.clock == reply->clock && its.kind == reply->kind && its.refusal == reply->refusal);
    CHECK(its.place.kind == reply->place.kind && its.place.core == reply->place.core);
    CHECK(its.place.asked == reply->place.asked && its.due == reply->due && its.owned == reply->owned);
    CHECK(its.asked == reply->asked && its.waiting == reply->waiting && its.moved == reply->moved);
    for (uint32_t word = 1; word < VOLDAZPE_WORDS; word++) CHECK(VOLDAZPE_LOAD(&page.words[word]) == words[word]);
}

/* compares the counts of orders with how many were given, and how many more to the second arbiter */
static void compare_counts(uint64_t entered, uint64_t ahead) {
    uint64_t told, its;
    CHECK(voldazpe_orders(&arbiter, &told) == VOLDAZPE_OK && told == entered && voldazpe_entered(&page) == entered);
    CHECK(voldazpe_orders(&second, &told) == VOLDAZPE_OK && told == entered + ahead);
    CHECK(voldazpe_posted(&second, 0, &told) == VOLDAZPE_OK && told == entered + ahead);
    for (uint32_t client = 0; client <= VOLDAZPE_CLOCK && entered % 50000 < 2; client++) { /* around each renewal too */
        CHECK(voldazpe_count(&arbiter, client, &told) == VOLDAZPE_OK && told == counts[client]);
        CHECK(voldazpe_count(&second, client, &its) == VOLDAZPE_OK && its == told + before[client]);
    }
}

static void print_owners(void) {
    voldazpe_core_t core;
    for (uint32_t position = 0; voldazpe_core_at(&arbiter, position, &core) == VOLDAZPE_OK; position++) {
        uint32_t owner;
        printf("core %u socket %u ", core.number, core.socket);
        voldazpe_code_t code = voldazpe_owner(&arbiter, core.number, &owner);
        if (code == VOLDAZPE_OK) {
            uint32_t application = owner / VOLDAZPE_THREADS;
            uint64_t asked = voldazpe_asked_cores(&page, application, position / 64) >> (position % 64) & 1;
            CHECK(voldazpe_position(&page, owner) == (int)position);
            CHECK(voldazpe_must_release(&page, owner) == (int)asked);
            printf("owner %u.%u%s\n", application, owner % VOLDAZPE_THREADS, asked ? " asked" : "");
        } else {
            CHECK(code == VOLDAZPE_NO_OWNER);
            printf("free\n");
        }
    }
}

int main(int count, char **arguments) {
    uint64_t entered = 0, told, clock = 0, ahead = count == 3 ? strtoull(arguments[2], NULL, 10) : 0;
    char line[256], kept[256];
    FILE *file = count == 2 || count == 3 ? fopen(arguments[1], "r") : NULL;
    if (!file) return 2;
    size_t length = fread(text, 1, sizeof text, file);
    fclose(file);
    CHECK(voldazpe_open(&arbiter, text, length, NULL) == VOLDAZPE_OK);
    CHECK(voldazpe_open(&second, text, length, NULL) == VOLDAZPE_OK);
    go_ahead(ahead);
    voldazpe_core_t core;
    for (uint32_t p = 0; voldazpe_core_at(&arbiter, p, &core) == VOLDAZPE_OK; p++) numbers[p] = core.number;
    while (fgets(line, sizeof line, stdin)) {
        line[strcspn(line, "\n")] = 0;
        strcpy(kept, line);
        uint32_t client;
        voldazpe_order_t order;
        if (!script_line(line, &client, &order)) continue;
        if (order.kind == VOLDAZPE_ASK) {
            printf("%s ask", line); /* its first word */
            for (uint32_t level = 0; level < VOLDAZPE_LEVELS; level++) printf(" %u", order.request[level]);
        } else printf("%s", kept);
        voldazpe_reply_t reply;
        voldazpe_code_t code = voldazpe_give(&arbiter, &page, client, order, &reply);
        if (code == VOLDAZPE_FULL) {
            printf(" -> full\n");
            continue;
        }
        CHECK(code == VOLDAZPE_OK);
        printf(" -> ");
        print_reply(&reply);
        entered++;
        counts[client]++;
        goes_along(client, order, &reply);
        compare_counts(entered, ahead);
        if (order.kind == VOLDAZPE_TICK && reply.kind == VOLDAZPE_MOVED) clock = order.moment;
        if (client == VOLDAZPE_CLOCK) continue;
        compare(client);
        note(client, &order, &reply);
        compare_application(client, &reply);
    }
    print_owners();
    CHECK(voldazpe_clock(&arbiter, &told) == VOLDAZPE_OK && told == clock);
    for (uint32_t word = 0; word < VOLDAZPE_WORDS; word++) {
        CHECK(voldazpe_posted(&arbiter, word, &told) == VOLDAZPE_OK && told == VOLDAZPE_LOAD(&page.words[word]));
    }
    CHECK(voldazpe_close(&arbiter) == VOLDAZPE_OK && voldazpe_close(&second) == VOLDAZPE_OK);
    return 0;
}
