/* Many orders, through renewals of the arbiter: threads whose cores aren't asked back keep them, none of their readings
 * says stop or another core, and the process takes no more memory. With a folder the house keeps its journal there.
 * keeping ORDERS [FOLDER]: until ORDERS orders were given */
#include "check.h"

#include <malloc.h>

static const char machine[] = "[[socket]]\nmanaged = [1, 2, 3]\nunmanaged = [0]\n"
                              "[[socket]]\nmanaged = [6, 5]\nunmanaged = [4]\n";

enum { KEEPERS = 2, PASSERS = 3, BLOCK = 4096 };

static voldazpe_house_t *house;
static voldazpe_house_application_t keeps, passes, wanted;
static VOLDAZPE_ATOMIC(bool) go_on = true;
static VOLDAZPE_ATOMIC(uint32_t) kept;
static VOLDAZPE_ATOMIC(uint64_t) readings, passed;

/* keeps its core, and looks at it all the time; now and then the processor goes to others */
static void *keeps_on(void *unused) {
    voldazpe_house_thread_t *me;
    OK(voldazpe_house_register(house, keeps, &me));
    OK(voldazpe_house_wait(me, -1));
    int core = voldazpe_house_core(me);
    CHECK(core >= 0);
    atomic_fetch_add(&kept, 1);
    for (uint32_t count = 1; VOLDAZPE_LOAD(&go_on); count++) {
        CHECK(voldazpe_house_keep(me) && voldazpe_house_core(me) == core);
        if (count % BLOCK != 0) continue;
        atomic_fetch_add(&readings, BLOCK);
        sched_yield();
    }
    return unused;
}

/* takes turns with its fellows on the cores that are left */
static void *passes_on(void *unused) {
    voldazpe_house_thread_t *me;
    OK(voldazpe_house_register(house, passes, &me));
    while (VOLDAZPE_LOAD(&go_on)) {
        if (voldazpe_house_wait(me, 10000000) != VOLDAZPE_OK) continue;
        int core = voldazpe_house_core(me);
        CHECK(core >= 0);
        believe(core, me);
        atomic_fetch_add(&passed, 1);
        believe_no_more(core, me);
        OK(voldazpe_house_give_back(me));
        pause_for(20000);
    }
    return unused;
}

/* bytes that this process has of the allocator; 0 under AddressSanitizer, which has its own */
static size_t allocated(void) {
    struct mallinfo2 info = mallinfo2();
    return info.uordblks + info.hblkhd;
}

int main(int count, char **words) {
    CHECK(count == 2 || count == 3);
    uint64_t orders = strtoull(words[1], NULL, 10);
    voldazpe_house_options_t options = {.unpinned = true, .grace = NEVER};
    pthread_t threads[KEEPERS + PASSERS];
    if (count == 3) options.journal_folder = words[2];
    OK(voldazpe_house_open(machine, strlen(machine), &options, &house));
    OK(voldazpe_house_join(house, "wants", &wanted));
    OK(voldazpe_house_join(house, "keeps", &keeps));
    OK(voldazpe_house_join(house, "passes", &passes));
    OK(voldazpe_house_want(house, keeps, 0, KEEPERS));
    OK(voldazpe_house_cap(house, keeps, KEEPERS));
    OK(voldazpe_house_want(house, passes, 1, 2));
    for (int i = 0; i < KEEPERS; i++) threads[i] = start_thread(keeps_on, NULL);
    UNTIL(VOLDAZPE_LOAD(&kept) == KEEPERS);
    for (int i = 0; i < PASSERS; i++) threads[KEEPERS + i] = start_thread(passes_on, NULL);
    UNTIL(VOLDAZPE_LOAD(&passed) >= PASSERS && counts_of(house, passes).threads == PASSERS);
    size_t before = allocated();
    /* in blocks, so that little of the time goes to asking how many there were */
    for (uint32_t i = 0; state_of(house).orders < orders;) {
        for (int k = 0; k < 1000; k++, i++) OK(voldazpe_house_want(house, wanted, 1, i % 2));
    }
    UNTIL(VOLDAZPE_LOAD(&readings) > 1000 && VOLDAZPE_LOAD(&passed) > 10); /* on a busy machine they come late */
    size_t after = allocated();
    CHECK(after == before);
    VOLDAZPE_STORE(&go_on, false);
    for (int i = 0; i < KEEPERS + PASSERS; i++) join_thread(threads[i]);
    voldazpe_house_state_t state = state_of(house);
    printf("%lu orders, %lu readings of kept cores, %lu passed on, %lu bytes allocated\n", (unsigned long)state.orders,
           (unsigned long)VOLDAZPE_LOAD(&readings), (unsigned long)VOLDAZPE_LOAD(&passed), (unsigned long)after);
    CHECK(state.moved == 0 && state.orders >= orders && !state.journal_failed);
    OK(voldazpe_house_close(house));
    return 0;
}
