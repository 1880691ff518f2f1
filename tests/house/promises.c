/* Answers that the arbiter's promises rule out, made here by stand-ins: each call that meets such an answer returns it, and none
 * goes on as if nothing had happened. A house's member is in one turn, from the opening to the close. Linked with --wrap for
 * voldazpe_lib_member_begin, _end, _step, _post and _counts. */
#include "../../house/house.h"
#include "check.h"

static voldazpe_house_t *house;
static voldazpe_house_application_t application, other;
static voldazpe_house_thread_t *me;

typedef enum { NONE, BEGIN, STEP, POST, COUNTS } place_t;
static VOLDAZPE_ATOMIC(place_t) breaks;   /* where a promise is broken */
static VOLDAZPE_ATOMIC(uint32_t) code_of; /* what is answered there */
static VOLDAZPE_ATOMIC(uint32_t) begins, ends;

uint32_t __real_voldazpe_lib_member_begin(voldazpe_member_handle_t *handle);
uint32_t __wrap_voldazpe_lib_member_begin(voldazpe_member_handle_t *handle);
uint32_t __real_voldazpe_lib_member_end(voldazpe_member_handle_t *handle);
uint32_t __wrap_voldazpe_lib_member_end(voldazpe_member_handle_t *handle);
uint32_t __real_voldazpe_lib_member_step(voldazpe_member_handle_t *handle, uint32_t client, const voldazpe_order_t *order,
                                         voldazpe_reply_t *reply);
uint32_t __wrap_voldazpe_lib_member_step(voldazpe_member_handle_t *handle, uint32_t client, const voldazpe_order_t *order,
                                         voldazpe_reply_t *reply);
uint32_t __real_voldazpe_lib_member_post(voldazpe_member_handle_t *handle, voldazpe_post_t *post);
uint32_t __wrap_voldazpe_lib_member_post(voldazpe_member_handle_t *handle, voldazpe_post_t *post);
uint32_t __real_voldazpe_lib_member_counts(voldazpe_member_handle_t *handle, uint32_t number, voldazpe_counts_t *counts);
uint32_t __wrap_voldazpe_lib_member_counts(voldazpe_member_handle_t *handle, uint32_t number, voldazpe_counts_t *counts);

static bool is_broken(place_t place) { return VOLDAZPE_LOAD(&breaks) == place; }

uint32_t __wrap_voldazpe_lib_member_begin(voldazpe_member_handle_t *handle) {
    atomic_fetch_add(&begins, 1);
    return is_broken(BEGIN) ? VOLDAZPE_LOAD(&code_of) : __real_voldazpe_lib_member_begin(handle);
}

uint32_t __wrap_voldazpe_lib_member_end(voldazpe_member_handle_t *handle) {
    uint32_t code = __real_voldazpe_lib_member_end(handle);
    if (code == VOLDAZPE_OK) atomic_fetch_add(&ends, 1);
    return code;
}

uint32_t __wrap_voldazpe_lib_member_step(voldazpe_member_handle_t *handle, uint32_t client, const voldazpe_order_t *order,
                                         voldazpe_reply_t *reply) {
    return is_broken(STEP) ? VOLDAZPE_LOAD(&code_of) : __real_voldazpe_lib_member_step(handle, client, order, reply);
}

uint32_t __wrap_voldazpe_lib_member_post(voldazpe_member_handle_t *handle, voldazpe_post_t *post) {
    return is_broken(POST) ? VOLDAZPE_LOAD(&code_of) : __real_voldazpe_lib_member_post(handle, post);
}

uint32_t __wrap_voldazpe_lib_member_counts(voldazpe_member_handle_t *handle, uint32_t number, voldazpe_counts_t *counts) {
    return is_broken(COUNTS) ? VOLDAZPE_LOAD(&code_of) : __real_voldazpe_lib_member_counts(handle, number, counts);
}

/* A call answers `code` while the arbiter does, in some place; and changes nothing. */
#define ANSWERS(place, code, call)                                    \
    do {                                                              \
        uint64_t before = state_of(house).orders;                     \
        VOLDAZPE_STORE(&code_of, (uint32_t)(code));                   \
        VOLDAZPE_STORE(&breaks, (place));                             \
        CHECK((call) == (voldazpe_house_code_t)(code));               \
        VOLDAZPE_STORE(&breaks, NONE);                                \
        CHECK(state_of(house).orders == before);                      \
    } while (0)

static void hook(void *unused, const voldazpe_house_event_t *event) { (void)unused, (void)event; }

/* each call that reads or gives an order, while the thread has no core */
static void without_a_core(place_t place, voldazpe_code_t code) {
    voldazpe_house_application_t joined = 0;
    ANSWERS(place, code, voldazpe_house_join(house, "joins", &joined));
    CHECK(joined == 0);
    ANSWERS(place, code, voldazpe_house_want(house, application, 0, 2));
    CHECK(counts_of(house, application).request[0] == 1);
    ANSWERS(place, code, voldazpe_house_cap(house, application, 3));
    CHECK(counts_of(house, application).cap == VOLDAZPE_CORES);
    ANSWERS(place, code, voldazpe_house_wait(me, -1));
    ANSWERS(place, code, voldazpe_house_wait(me, 0));
    CHECK(voldazpe_house_core(me) == -1 && counts_of(house, application).waiting == 0);
}

/* the readings that want a turn */
static void readings(place_t place, voldazpe_code_t code) {
    voldazpe_house_counts_t counts = {.cap = 77};
    ANSWERS(place, code, voldazpe_house_counts(house, application, &counts));
    CHECK(counts.cap == 77);
    ANSWERS(place, code, voldazpe_house_watch(house, application, hook, NULL, NULL));
    CHECK(VOLDAZPE_LOAD(&house->listeners) == 0);
    ANSWERS(place, code, voldazpe_house_wait(me, 0)); /* which would have to know whether it is in vain */
}

/* What is due is told after the order, which was given. */
static void what_is_due(void) {
    OK(voldazpe_house_watch(house, other, hook, NULL, NULL));
    uint64_t before = state_of(house).orders;
    VOLDAZPE_STORE(&code_of, (uint32_t)VOLDAZPE_NO_TURN);
    VOLDAZPE_STORE(&breaks, COUNTS);
    CHECK(voldazpe_house_want(house, application, 0, 2) == VOLDAZPE_NO_TURN);
    CHECK(voldazpe_house_cap(house, application, 2) == VOLDAZPE_NO_TURN);
    VOLDAZPE_STORE(&breaks, NONE);
    CHECK(state_of(house).orders == before + 2);
    OK(voldazpe_house_want(house, application, 0, 1));
    OK(voldazpe_house_watch(house, other, NULL, NULL, NULL));
}

static void *leaves(void *unused) {
    voldazpe_house_thread_t *its;
    OK(voldazpe_house_register(house, other, &its));
    OK(voldazpe_house_wait(its, -1));
    ANSWERS(STEP, VOLDAZPE_STALE, voldazpe_house_leave(its));
    return unused;
}

/* An opening whose member finds the arbiter taken says so, and leaves nothing open. */
static void opens_in_vain(const char *text, const voldazpe_house_options_t *options) {
    VOLDAZPE_STORE(&code_of, (uint32_t)VOLDAZPE_TAKEN);
    VOLDAZPE_STORE(&breaks, BEGIN);
    CHECK(voldazpe_house_open(text, strlen(text), options, &house) == VOLDAZPE_TAKEN && !house);
    VOLDAZPE_STORE(&breaks, NONE);
    CHECK(VOLDAZPE_LOAD(&ends) == 0);
    VOLDAZPE_STORE(&begins, 0);
}

int main(void) {
    const voldazpe_house_options_t options = {.unpinned = true, .grace = NEVER};
    static const char text[] = "[[socket]]\nmanaged = [1, 2]\nunmanaged = [0]\n";
    opens_in_vain(text, &options);
    house = open_text(text, &options);
    OK(voldazpe_house_join(house, "works", &application));
    OK(voldazpe_house_join(house, "leaves", &other));
    OK(voldazpe_house_want(house, application, 0, 1));
    OK(voldazpe_house_want(house, other, 0, 1));
    OK(voldazpe_house_register(house, application, &me));
    without_a_core(STEP, VOLDAZPE_NO_TURN);
    without_a_core(STEP, VOLDAZPE_STALE);
    readings(COUNTS, VOLDAZPE_NO_TURN);
    what_is_due();
    OK(voldazpe_house_wait(me, -1));
    ANSWERS(STEP, VOLDAZPE_NO_TURN, voldazpe_house_give_back(me));
    ANSWERS(STEP, VOLDAZPE_FULL, voldazpe_house_give_back(me));
    CHECK(voldazpe_house_keep(me));
    OK(voldazpe_house_give_back(me));
    join_thread(start_thread(leaves, NULL));
    /* where words aren't all posted, the next order says so */
    VOLDAZPE_STORE(&code_of, (uint32_t)VOLDAZPE_NO_TURN);
    VOLDAZPE_STORE(&breaks, POST);
    CHECK(voldazpe_house_want(house, other, 0, 0) == VOLDAZPE_NO_TURN);
    VOLDAZPE_STORE(&breaks, NONE);
    CHECK(voldazpe_house_want(house, other, 0, 0) == VOLDAZPE_STALE);
    voldazpe_post_t post; /* what the house left out */
    while (voldazpe_lib_member_post(&house->member, &post) == VOLDAZPE_OK) {}
    OK(voldazpe_house_want(house, other, 0, 0));
    OK(voldazpe_house_leave(me));
    CHECK(VOLDAZPE_LOAD(&begins) == 1 && VOLDAZPE_LOAD(&ends) == 0);
    OK(voldazpe_house_close(house));
    CHECK(VOLDAZPE_LOAD(&begins) == 1 && VOLDAZPE_LOAD(&ends) == 1);
    return 0;
}
