/* Writes a script of random orders, in the format of `arbiter run`: orders SEED COUNT. Each kind of order occurs, from
 * the
 * clock too, and about one in ten is refused. */
#include "voldazpe.h"

#include <inttypes.h>
#include <stdio.h>
#include <stdlib.h>

static uint64_t state;

/* a number below `bound`, by xorshift */
static uint32_t below(uint32_t bound) {
    state ^= state << 13;
    state ^= state >> 7;
    state ^= state << 17;
    return (uint32_t)((state >> 32) % bound);
}

int main(int count, char **words) {
    VOLDAZPE_ASSERT(VOLDAZPE_ORDER_KINDS == 8, "each kind of order comes");
    if (count != 3) return 2;
    state = strtoull(words[1], NULL, 10) * 2 + 1;
    uint64_t clock = 0;
    for (uint64_t left = strtoull(words[2], NULL, 10); left > 0; left--) {
        uint32_t kind = below(1000);
        char who[16];
        if (below(500) == 0) snprintf(who, sizeof who, "clock");
        else snprintf(who, sizeof who, "%" PRIu32 ".%" PRIu32, below(16), below(32));
        if (kind < 10) printf("%s join\n", who);
        else if (kind < 200) {
            printf("%s ask", who);
            for (uint32_t level = 0, levels = 1 + below(8); level < levels; level++) {
                printf(" %" PRIu32, below(4) ? below(6) : below(129));
            }
            putchar('\n');
        } else if (kind < 220) printf("%s cap %" PRIu32 "\n", who, below(8) ? below(64) : 129 + below(127));
        else if (kind < 700) printf("%s block\n", who);
        else if (kind < 800) printf("%s retire\n", who);
        else if (kind < 803) printf("%s leave\n", who);
        else if (kind < 850) printf("%s status\n", who);
        else {
            uint64_t moment = below(20) ? clock + below(4000) : clock - (clock > 9 ? 9 : 0);
            if (moment > clock) clock = moment;
            printf("clock tick %" PRIu64 "\n", moment);
        }
    }
    return 0;
}
