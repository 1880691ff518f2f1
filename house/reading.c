/* What a house has, read under its lock, without an order. */
#include "house.h"

/* Begins a reading, which is counted in and has the lock. */
static voldazpe_house_code_t begin(voldazpe_house_t *house) {
    voldazpe_house_code_t code = voldazpe_house_enter(house);
    if (code == VOLDAZPE_OK) voldazpe_house_lock(house);
    return code;
}

static void end(voldazpe_house_t *house) {
    voldazpe_house_unlock(house);
    voldazpe_house_exit(house);
}

/* Counts what an application has, by its threads' places. What it is due comes from the arbiter, in `has`. */
static void count(const voldazpe_house_t *house, uint32_t number, const voldazpe_counts_t *has,
                  voldazpe_house_counts_t *counts) {
    _Static_assert(VOLDAZPE_PLACE_KINDS == 4, "where a thread is counted");
    counts->due = has->due;
    for (uint32_t seat = voldazpe_client(number, 0), end = seat + VOLDAZPE_THREADS; seat < end; seat++) {
        uint32_t place = house->place[seat];
        counts->threads = (uint8_t)(counts->threads + (house->threads[seat] != NULL));
        counts->waiting = (uint8_t)(counts->waiting + (place == VOLDAZPE_WAITING));
        counts->owned = (uint8_t)(counts->owned + (place >= 4));
        counts->asked = (uint8_t)(counts->asked + (place >= 4 && place & 1));
    }
}

voldazpe_house_code_t voldazpe_house_counts(voldazpe_house_t *house, voldazpe_house_application_t id,
                                            voldazpe_house_counts_t *counts) {
    voldazpe_house_code_t code = counts ? begin(house) : (uint32_t)VOLDAZPE_NULL;
    if (code != VOLDAZPE_OK) return code;
    voldazpe_counts_t has;
    uint32_t number = (uint32_t)(id % VOLDAZPE_APPLICATIONS);
    const application_t *application = voldazpe_house_find(house, id);
    code = application ? (uint32_t)voldazpe_house_read_counts(house, number, &has) : (uint32_t)VOLDAZPE_HOUSE_WITHDRAWN;
    if (code == VOLDAZPE_OK) {
        *counts = (voldazpe_house_counts_t){.cap = application->cap};
        count(house, number, &has, counts);
        memcpy(counts->request, application->request, VOLDAZPE_LEVELS);
    }
    end(house);
    return code;
}

voldazpe_house_code_t voldazpe_house_name(voldazpe_house_t *house, voldazpe_house_application_t id, char *name,
                                          size_t size) {
    voldazpe_house_code_t code = name && size > 0 ? begin(house) : (uint32_t)VOLDAZPE_NULL;
    if (code != VOLDAZPE_OK) return code;
    const application_t *application = voldazpe_house_find(house, id);
    if (application) {
        size_t length = strnlen(application->name, size - 1);
        memcpy(name, application->name, length);
        name[length] = 0;
    }
    end(house);
    return application ? (uint32_t)VOLDAZPE_OK : (uint32_t)VOLDAZPE_HOUSE_WITHDRAWN;
}

voldazpe_house_code_t voldazpe_house_owners(voldazpe_house_t *house, voldazpe_house_owner_t *owners, size_t room,
                                            size_t *many) {
    voldazpe_house_code_t code = many && (owners || room == 0) ? begin(house) : (uint32_t)VOLDAZPE_NULL;
    if (code != VOLDAZPE_OK) return code;
    *many = house->machine.managed;
    for (uint32_t position = 0; position < *many && position < room; position++) {
        int32_t seat = house->owner[position];
        owners[position] = (voldazpe_house_owner_t){.core = house->cores[position].number,
                                                    .socket = house->cores[position].socket};
        if (seat < 0) continue;
        owners[position].application = house->applications[seat / VOLDAZPE_THREADS].id;
        owners[position].thread = (uint32_t)seat % VOLDAZPE_THREADS;
        owners[position].asked = house->place[seat] & 1;
    }
    end(house);
    return VOLDAZPE_OK;
}

voldazpe_house_code_t voldazpe_house_state(voldazpe_house_t *house, voldazpe_house_state_t *state) {
    voldazpe_house_code_t code = state ? begin(house) : (uint32_t)VOLDAZPE_NULL;
    if (code != VOLDAZPE_OK) return code;
    *state = (voldazpe_house_state_t){
        .moved = house->moved,
        .grace = house->machine.grace,
        .managed = house->machine.managed,
        .sockets = house->machine.sockets,
        .refused = VOLDAZPE_LOAD(&house->refused),
        .opens = house->opens,
        .journal_failed = voldazpe_house_journal_failed(house),
    };
    code = voldazpe_lib_member_read(&house->member, 0, &state->orders); /* word 0 counts them */
    for (int i = 0; i < VOLDAZPE_APPLICATIONS; i++) state->applications += house->applications[i].id != 0;
    for (int seat = 0; seat < VOLDAZPE_ALL_THREADS; seat++) state->threads += house->threads[seat] != NULL;
    end(house);
    return code;
}

voldazpe_house_code_t voldazpe_house_affinity(voldazpe_house_t *house) {
    voldazpe_house_code_t code = voldazpe_house_enter(house);
    if (code != VOLDAZPE_OK) return code;
    if (VOLDAZPE_LOAD(&house->refused)) code = VOLDAZPE_HOUSE_UNPINNED;
    voldazpe_house_exit(house);
    return code;
}
