/* The houses of this process: the one that openers share, and which cores are taken. */
#include "house.h"

static pthread_mutex_t lock = PTHREAD_MUTEX_INITIALIZER;
static voldazpe_house_t *houses;

void voldazpe_house_list_lock(void) { (void)pthread_mutex_lock(&lock); }
void voldazpe_house_list_unlock(void) { (void)pthread_mutex_unlock(&lock); }

void voldazpe_house_list_forked(void) {
    (void)pthread_mutex_init(&lock, NULL); /* a thread of the parent may have held it */
    houses = NULL;
}

/* Whether a house is all that options ask for. A journal's folder is never shared. */
static bool suits(const voldazpe_house_t *house, const voldazpe_house_options_t *options) {
    const voldazpe_house_options_t *has = &house->options;
    uint32_t unmanaged = has->unmanaged ? has->unmanaged : 1;
    return !options->journal_folder && (!options->grace || options->grace == house->machine.grace) &&
           (!options->unmanaged || options->unmanaged == unmanaged) &&
           (!options->hook || (options->hook == has->hook && options->hook_context == has->hook_context)) &&
           (!options->journal || (options->journal == has->journal && options->journal_context == has->journal_context)) &&
           (!options->done || options->done == has->done);
}

voldazpe_house_code_t voldazpe_house_share(const voldazpe_house_options_t *options, voldazpe_house_t **house) {
    voldazpe_house_t *one = houses;
    while (one && !(one->shared && one->options.unpinned == options->unpinned)) one = one->next;
    *house = one;
    if (!one) return VOLDAZPE_OK;
    if (!suits(one, options)) return VOLDAZPE_HOUSE_OTHER_OPTIONS;
    voldazpe_house_lock(one); /* a thread that reads its state has only that lock */
    one->opens++;
    voldazpe_house_unlock(one);
    return VOLDAZPE_OK;
}

static bool manages(const voldazpe_house_t *house, uint16_t core) {
    for (uint32_t position = 0; position < house->machine.managed; position++) {
        if (house->cores[position].number == core) return true;
    }
    return false;
}

bool voldazpe_house_overlaps(const voldazpe_house_t *house, uint16_t *core) {
    for (const voldazpe_house_t *other = house->options.unpinned ? NULL : houses; other; other = other->next) {
        if (other->options.unpinned) continue;
        for (uint32_t position = 0; position < house->machine.managed; position++) {
            *core = house->cores[position].number;
            if (manages(other, *core)) return true;
        }
    }
    return false;
}

bool voldazpe_house_pins_so(const cpu_set_t *mask) {
    bool so = false;
    voldazpe_house_list_lock();
    for (const voldazpe_house_t *one = houses; one && !so; one = one->next) {
        so = !one->options.unpinned && CPU_EQUAL(mask, &one->unmanaged);
        for (uint32_t position = 0; position < one->machine.managed && !one->options.unpinned && CPU_COUNT(mask) == 1; position++) {
            so = so || CPU_ISSET(one->cores[position].number, mask);
        }
    }
    voldazpe_house_list_unlock();
    return so;
}

void voldazpe_house_list_add(voldazpe_house_t *house) {
    house->next = houses;
    houses = house;
}

void voldazpe_house_list_remove(voldazpe_house_t *house) {
    voldazpe_house_t **at = &houses;
    while (*at && *at != house) at = &(*at)->next;
    if (*at) *at = house->next;
}
