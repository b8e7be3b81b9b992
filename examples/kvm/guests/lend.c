/* A program for a Linux guest, run by root: lends the host the pages that its disk needs, which are the buffer through
 * which Linux has all that is read and written go (swiotlb), and the ring. Nothing else of the guest's is shared.
 *
 * usage: lend FIRST LAST   the addresses of the buffer's first and last bytes, in hexadecimal */
#include "guest.h"
#include <stdio.h>
#include <stdlib.h>
#include <sys/io.h>

enum { DISK = 0x100b, RING_PAGES = 2, MOST = 32 };

static int lend(uint32_t gfn, uint32_t count) {
    for (uint32_t part; count; gfn += part, count -= part) {
        part = count < MOST ? count : MOST;
        if (!asks(GRANTR, gfn, part)) return 0;
    }
    return 1;
}

int main(int count, char **words) {
    if (count != 3 || iopl(3)) return fprintf(stderr, "lend: there is no buffer, or no right to ports\n"), 1;
    uint64_t first = strtoull(words[1], NULL, 16), last = strtoull(words[2], NULL, 16);
    uint32_t ring, pages = (last + 1 - first) / PAGE;
    while (!(ring = in(DISK))) continue;
    int is_lent = lend(ring, RING_PAGES) && lend(first / PAGE, pages);
    printf("lends %u pages to its disk: %s\n", RING_PAGES + pages, is_lent ? "done" : "refused");
    out(DISK, 0); /* the host looks into the ring again */
    return !is_lent;
}
