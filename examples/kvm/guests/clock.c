/* A guest that measures: pages that are missing, a grant and its revoke, and an exit that asks nothing. */
#include "guest.h"

enum { FIRST = 1024, PAGES = 512, CALLS = 500, ROUNDS = 8 };

void main(uint32_t vcpu, uint32_t slot) {
    (void)vcpu, (void)slot;
    for (uint32_t round = 0; round < ROUNDS; round++) {
        out(CLOCK, 0);
        for (uint32_t gfn = 0; gfn < PAGES; gfn++) words(FIRST + round * PAGES + gfn)[0] = 1;
        out(CLOCK, PAGES);
    }
    out(CLOCK, 0);
    for (int call = 0; call < CALLS; call++) asks(GRANT, FIRST, 0), asks(REVOKE, FIRST, 0);
    out(CLOCK, 2 * CALLS);
    out(CLOCK, 0);
    for (int call = 0; call < 2 * CALLS; call++) in(GRANT);
    out(CLOCK, 2 * CALLS);
}
