/* Refused allocations: each of an opening in turn, those of a join and of a registration, and all of an open house
 * while its arbiter is renewed, when it makes none. Linked with --wrap for malloc, calloc, realloc, aligned_alloc,
 * strdup and free. */
#include "check.h"

static const char two[] = "[[socket]]\nmanaged = [1, 2]\nunmanaged = [0]\n";

static VOLDAZPE_ATOMIC(long) left = -1; /* allocations until one is refused, or below 0: none is */
static VOLDAZPE_ATOMIC(bool) none;      /* whether each allocation is refused */
static VOLDAZPE_ATOMIC(long) asked_for; /* allocations while each is refused */
static VOLDAZPE_ATOMIC(long) live;      /* blocks that are in use */

void *__real_malloc(size_t size);
void *__real_calloc(size_t count, size_t size);
void *__real_realloc(void *block, size_t size);
void *__real_aligned_alloc(size_t line, size_t size);
char *__real_strdup(const char *text);
void __real_free(void *block);
void *__wrap_malloc(size_t size);
void *__wrap_calloc(size_t count, size_t size);
void *__wrap_realloc(void *block, size_t size);
void *__wrap_aligned_alloc(size_t line, size_t size);
char *__wrap_strdup(const char *text);
void __wrap_free(void *block);

static bool is_refused(void) {
    if (VOLDAZPE_LOAD(&none)) atomic_fetch_add(&asked_for, 1);
    return VOLDAZPE_LOAD(&none) || (VOLDAZPE_LOAD(&left) >= 0 && atomic_fetch_sub(&left, 1) == 0);
}

static void *counted(void *block) {
    atomic_fetch_add(&live, block != NULL);
    return block;
}

void *__wrap_malloc(size_t size) { return is_refused() ? NULL : counted(__real_malloc(size)); }
void *__wrap_calloc(size_t count, size_t size) { return is_refused() ? NULL : counted(__real_calloc(count, size)); }
char *__wrap_strdup(const char *text) { return is_refused() ? NULL : counted(__real_strdup(text)); }

void *__wrap_aligned_alloc(size_t line, size_t size) {
    return is_refused() ? NULL : counted(__real_aligned_alloc(line, size));
}

void *__wrap_realloc(void *block, size_t size) {
    void *grown = is_refused() ? NULL : __real_realloc(block, size);
    atomic_fetch_add(&live, !block && grown);
    return grown;
}

void __wrap_free(void *block) {
    atomic_fetch_sub(&live, block != NULL);
    __real_free(block);
}

/* ---- an opening ---- */

static void opening(const char *text, const voldazpe_house_options_t *options) {
    long refused = 0;
    for (voldazpe_house_code_t code = VOLDAZPE_OUT_OF_MEMORY; code != VOLDAZPE_OK; refused++) {
        voldazpe_house_t *house = NULL;
        VOLDAZPE_STORE(&left, refused);
        code = voldazpe_house_open(text, text ? strlen(text) : 0, options, &house);
        VOLDAZPE_STORE(&left, -1);
        CHECK(code == (house ? VOLDAZPE_OK : text ? VOLDAZPE_OUT_OF_MEMORY : code));
        CHECK(code == VOLDAZPE_OK || code == VOLDAZPE_OUT_OF_MEMORY || (!text && code == VOLDAZPE_HOUSE_NO_PROCESSORS));
        if (house) OK(voldazpe_house_close(house));
        CHECK(VOLDAZPE_LOAD(&live) == 0); /* nothing is kept */
    }
    CHECK(refused > 10);
    printf("%ld allocations of an opening refused in turn\n", refused - 1);
}

static void handing_out(void *unused, voldazpe_house_text_t text, const char *bytes, size_t length) {
    (void)unused, (void)text, (void)bytes, (void)length;
}

static void joining(void) {
    voldazpe_house_t *house = open_text(two, NULL);
    voldazpe_house_application_t application = 0;
    voldazpe_house_thread_t *me = NULL;
    VOLDAZPE_STORE(&none, true);
    CHECK(voldazpe_house_join(house, "name", &application) == VOLDAZPE_OUT_OF_MEMORY && !application);
    VOLDAZPE_STORE(&none, false);
    OK(voldazpe_house_join(house, "name", &application));
    VOLDAZPE_STORE(&none, true);
    CHECK(voldazpe_house_register(house, application, &me) == VOLDAZPE_OUT_OF_MEMORY && !me);
    VOLDAZPE_STORE(&none, false);
    CHECK(counts_of(house, application).threads == 0);
    OK(voldazpe_house_register(house, application, &me));
    OK(voldazpe_house_leave(me));
    OK(voldazpe_house_close(house));
    CHECK(VOLDAZPE_LOAD(&live) == 0);
}

/* ---- an open house, past a renewal of its arbiter ---- */

static void orders(const voldazpe_house_options_t *options, uint64_t most) {
    voldazpe_house_t *house = open_text(two, options);
    voldazpe_house_application_t application, other, third;
    voldazpe_house_thread_t *me;
    OK(voldazpe_house_join(house, "works", &application));
    OK(voldazpe_house_join(house, "asks", &other));
    OK(voldazpe_house_join(house, "leaves", &third));
    OK(voldazpe_house_want(house, application, 3, 1));
    OK(voldazpe_house_register(house, application, &me));
    long before = VOLDAZPE_LOAD(&live);
    VOLDAZPE_STORE(&asked_for, 0);
    VOLDAZPE_STORE(&none, true);
    while (state_of(house).orders < most) {
        for (uint32_t i = 0; i < 1000; i++) OK(voldazpe_house_want(house, other, 7, i % 2));
        OK(voldazpe_house_wait(me, -1));
        OK(voldazpe_house_give_back(me));
        OK(voldazpe_house_cap(house, other, (uint32_t)(state_of(house).orders % 3)));
    }
    CHECK(VOLDAZPE_LOAD(&live) == before && !state_of(house).journal_failed);
    OK(voldazpe_house_withdraw(house, third));
    OK(voldazpe_house_leave(me));
    CHECK(VOLDAZPE_LOAD(&live) == before - 2); /* a name and a registration */
    OK(voldazpe_house_close(house));
    VOLDAZPE_STORE(&none, false);
    CHECK(VOLDAZPE_LOAD(&live) == 0 && VOLDAZPE_LOAD(&asked_for) == 0);
}

int main(void) {
    const voldazpe_house_options_t plain = {.unpinned = true, .grace = NEVER};
    const voldazpe_house_options_t journal = {.unpinned = true, .grace = NEVER, .journal = handing_out,
                                              .journal_folder = "."};
    opening(two, &plain);
    opening(NULL, &plain);
    remove_journal();
    opening(two, &journal);
    joining();
    orders(&plain, 2100000);
    remove_journal();
    orders(&journal, 1100000);
    return 0;
}
