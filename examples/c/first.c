/* Two applications share four cores: orders, their replies, and what the page says of a thread. Nothing is pinned here:
 * `runtime.c` is a runtime that does. */
#include <voldazpe.h>

#include <stdio.h>
#include <string.h>

static const char machine[] = "[[socket]]\n"
                              "managed = [1, 2]\n"
                              "unmanaged = [0]\n"
                              "[[socket]]\n"
                              "managed = [4, 5]\n"
                              "unmanaged = [3]\n";

static voldazpe_arbiter_t arbiter; /* zero bytes: closed */
static voldazpe_page_t page;       /* read by any thread, without a lock */

/* Gives an order; where several threads do, each under one lock. */
static voldazpe_reply_t give(uint32_t client, voldazpe_order_t order) {
    voldazpe_reply_t reply = {0};
    voldazpe_code_t code = voldazpe_give(&arbiter, &page, client, order, &reply);
    if (code != VOLDAZPE_OK) printf("%s\n", voldazpe_code_text(code));
    return reply;
}

int main(void) {
    const uint32_t first = voldazpe_client(0, 0), second = voldazpe_client(0, 1), other = voldazpe_client(1, 0);
    voldazpe_code_t code = voldazpe_open(&arbiter, machine, strlen(machine), NULL);
    if (code != VOLDAZPE_OK) {
        printf("%s\n", voldazpe_code_text(code));
        return 1;
    }
    give(first, voldazpe_join());
    printf("application 0 is due %u\n", give(first, voldazpe_ask(0, 2)).due);
    printf("its first thread is on core %d\n", voldazpe_reply_core(give(first, voldazpe_block()))); /* -1: on none */
    printf("its second thread is on core %d\n", voldazpe_reply_core(give(second, voldazpe_block())));
    give(other, voldazpe_join());
    printf("application 1 is due %u\n", give(other, voldazpe_ask(0, 4)).due);
    printf("its first thread is on core %d\n", voldazpe_reply_core(give(other, voldazpe_block())));
    printf("application 0 is due %u\n", give(first, voldazpe_ask(0, 1)).due);
    printf("its first thread is to give its core back: %d\n", voldazpe_must_release(&page, first));
    printf("its second thread is to give its core back: %d\n", voldazpe_must_release(&page, second));
    give(second, voldazpe_block());
    printf("now its second thread waits: %d\n", voldazpe_place_word(&page, second) == VOLDAZPE_WAITING);
    return voldazpe_close_and_clear(&arbiter, &page) != VOLDAZPE_OK;
}
