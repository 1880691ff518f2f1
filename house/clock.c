/* The clock, and the house's own thread: it opens the arbiter, gives ticks while a core is asked back, and writes the
 * journal. Otherwise it sleeps without a limit. */
#include "house.h"

#include <errno.h>
#include <sys/prctl.h>

/* ---- the clock ---- */

/* The moment, in microseconds. If the system's clock jumps back, the moment goes on from the latest one. */
static uint64_t moment(voldazpe_house_t *house) {
    struct timespec system;
    (void)clock_gettime(CLOCK_MONOTONIC, &system);
    uint64_t now = (uint64_t)system.tv_sec * 1000000 + (uint64_t)system.tv_nsec / 1000 + house->shift;
    if (now < house->latest) {
        house->shift += house->latest - now;
        now = house->latest;
    }
    house->latest = now;
    return now;
}

void voldazpe_house_tick(voldazpe_house_t *house) {
    voldazpe_reply_t reply;
    (void)voldazpe_house_order(house, VOLDAZPE_CLOCK, voldazpe_tick(moment(house)), &reply);
}

/* a core counts as asked back at the last tick */
void voldazpe_house_freshen(voldazpe_house_t *house) {
    if (moment(house) - house->clock >= house->machine.grace / FRESH) voldazpe_house_tick(house);
}

bool voldazpe_house_is_overdue(voldazpe_house_t *house, int32_t seat) {
    uint32_t place = seat < 0 ? 0 : house->place[seat];
    return place >= 4 && (place & 1) && moment(house) - house->since[(place - 4) / 2] >= house->machine.grace;
}

/* In how many microseconds the first thread is to be moved; UINT64_MAX if no core is asked back. */
static uint64_t until_tick(voldazpe_house_t *house) {
    uint64_t first = UINT64_MAX, now;
    if (house->asked == 0) return UINT64_MAX;
    for (uint32_t position = 0; position < house->machine.managed; position++) {
        int32_t seat = house->owner[position];
        if (seat < 0 || !(house->place[seat] & 1)) continue;
        if (house->since[position] < first) first = house->since[position];
    }
    now = moment(house);
    return first + house->machine.grace > now ? first + house->machine.grace - now : 0;
}

/* ---- the house's own thread ---- */

/* Does one thing that is to be done. False if there is nothing to do. */
static bool works(voldazpe_house_t *house) {
    if (house->wanted || voldazpe_house_journal_is_half_full(house)) {
        voldazpe_house_journal_write(house);
        return true;
    }
    if (until_tick(house) > 0) return false;
    voldazpe_house_tick(house); /* a buffer that isn't half full has room for it */
    return true;
}

/* Sleeps until there is work. Lets go of the lock. */
static void rest(voldazpe_house_t *house) {
    uint32_t seen = VOLDAZPE_LOAD(&house->bell);
    uint64_t pause = until_tick(house);
    house->rest = pause == UINT64_MAX ? RESTS : RESTS_SHORTLY;
    voldazpe_house_unlock(house);
    (void)voldazpe_house_sleep(&house->bell, seen, pause == UINT64_MAX ? -1 : (int64_t)pause * 1000);
    voldazpe_house_lock(house);
    house->rest = AWAKE;
    voldazpe_house_unlock(house);
}

/* where threads without a core run */
static void read_unmanaged(voldazpe_house_t *house) {
    voldazpe_core_t core;
    CPU_ZERO(&house->unmanaged);
    for (uint32_t i = 0; voldazpe_lib_member_unmanaged_at(&house->member, i, &core) == VOLDAZPE_OK; i++) {
        CPU_SET(core.number, &house->unmanaged);
    }
    CPU_AND(&house->unmanaged, &house->unmanaged, &house->all);
    if (CPU_COUNT(&house->unmanaged) > 0) return;
    house->unmanaged = house->all;
    for (uint32_t i = 0; voldazpe_lib_member_core_at(&house->member, i, &core) == VOLDAZPE_OK; i++) {
        CPU_CLR(core.number, &house->unmanaged);
    }
    if (CPU_COUNT(&house->unmanaged) == 0) house->unmanaged = house->all;
}

/* Opens the arbiter. This is done in the house's own thread, since it needs a large stack. */
static voldazpe_house_code_t open_arbiter(voldazpe_house_t *house) {
    const void *text = house->text;
    voldazpe_house_code_t code = voldazpe_lib_member_open(&house->member, text, house->length, &house->named);
    if (code == VOLDAZPE_OK) code = voldazpe_lib_member_machine(&house->member, &house->machine);
    if (code != VOLDAZPE_OK) return code;
    if (house->machine.orders != 0) return VOLDAZPE_HOUSE_LIMITED;
    for (uint32_t i = 0; voldazpe_lib_member_core_at(&house->member, i, &house->cores[i]) == VOLDAZPE_OK; i++) {
        house->owner[i] = -1;
    }
    if (voldazpe_house_overlaps(house, &house->named)) return VOLDAZPE_HOUSE_CORE_TAKEN;
    read_unmanaged(house);
    code = voldazpe_lib_member_begin(&house->member);
    return code == VOLDAZPE_OK ? voldazpe_house_journal_open(house) : code;
}

void *voldazpe_house_live(void *argument) {
    voldazpe_house_t *house = argument;
    (void)prctl(PR_SET_NAME, "voldazpe-house");
    house->fault = open_arbiter(house);
    bool opened = house->fault == VOLDAZPE_OK;
    if (opened) voldazpe_house_run_on(house, 0, &house->unmanaged);
    VOLDAZPE_STORE(&house->opened, 1);
    voldazpe_house_wake(&house->opened);
    while (opened) {
        voldazpe_house_lock(house);
        if (house->closed) break;
        if (works(house)) voldazpe_house_finish(house);
        else rest(house);
    }
    if (opened) {
        if (house->journal) voldazpe_house_journal_write(house);
        voldazpe_house_unlock(house);
        if (house->journal) voldazpe_house_journal_end(house);
    }
    return NULL;
}
