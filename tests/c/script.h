/* Reads lines of a script, as `arbiter run` takes them. For the tests, which have only lines without faults. */
#ifndef SCRIPT_H
#define SCRIPT_H
#include "voldazpe.h"

#include <stdio.h>
#include <stdlib.h>
#include <string.h>

/* The client and the order of a line, which is cut into words; false where the line has none. */
static inline bool script_line(char *line, uint32_t *client, voldazpe_order_t *order) {
    char *who = strtok(line, " \n"), *what = strtok(NULL, " \n"), *word;
    unsigned application, thread;
    uint32_t level = 0;
    if (!who || *who == '#' || !what) return false;
    *client = VOLDAZPE_CLOCK;
    if (sscanf(who, "%u.%u", &application, &thread) == 2) *client = voldazpe_client(application, thread);
    *order = voldazpe_order_of(UINT32_MAX);
    for (uint32_t kind = 0; kind < VOLDAZPE_ORDER_KINDS; kind++) {
        if (!strcmp(what, voldazpe_order_name(kind))) order->kind = kind;
    }
    while ((word = strtok(NULL, " \n"))) {
        switch ((voldazpe_order_kind_t)order->kind) {
        case VOLDAZPE_TICK: order->moment = strtoull(word, NULL, 10); break;
        case VOLDAZPE_CAP: order->cap = (uint8_t)strtoul(word, NULL, 10); break;
        case VOLDAZPE_ASK:
            if (level < VOLDAZPE_LEVELS) order->request[level++] = (uint8_t)strtoul(word, NULL, 10);
            break;
        case VOLDAZPE_JOIN:
        case VOLDAZPE_BLOCK:
        case VOLDAZPE_RETIRE:
        case VOLDAZPE_LEAVE:
        case VOLDAZPE_STATUS: break; /* they have no more words */
        }
    }
    return true;
}

#endif
