/* Two threads that call without a lock: ThreadSanitizer must report them. `unlocked member`: both call on one member,
 * which
 * belongs to one thread. */
#include "voldazpe.h"

#include <pthread.h>
#include <string.h>

static voldazpe_arbiter_t arbiter;
static voldazpe_page_t page;
static voldazpe_member_t member;
static bool by_member;

/* A call that finds another one going on does nothing. Where that one's thread isn't running, this may be so for long: so each
 * thread goes on until its own calls were served. */
static void *calls(void *argument) {
    voldazpe_reply_t reply;
    uint64_t value;
    int served = 0;
    while (served < 2000) {
        const uint32_t me = (uint32_t)(uintptr_t)argument;
        voldazpe_code_t code = by_member ? voldazpe_member_read(&member, 0, &value)
                                         : voldazpe_give(&arbiter, &page, me, voldazpe_status(), &reply);
        if (code != VOLDAZPE_BUSY) served++;
    }
    return NULL;
}

int main(int count, char **words) {
    static const char text[] = "[[socket]]\nmanaged = [1]\nunmanaged = [0]\n";
    pthread_t threads[2];
    by_member = count == 2 && !strcmp(words[1], "member");
    if (voldazpe_open(&arbiter, text, strlen(text), NULL) != VOLDAZPE_OK) return 1;
    if (voldazpe_member_open(&member, &page, text, strlen(text), NULL) != VOLDAZPE_OK) return 1;
    for (uintptr_t i = 0; i < 2; i++) pthread_create(&threads[i], NULL, calls, (void *)i);
    for (int i = 0; i < 2; i++) pthread_join(threads[i], NULL);
    return 0;
}
