/* A guest that does with pages what chance says: writes and reads them, shares them, takes them back, gives them up.
 * What it wrote to a page that has been private since then has to be there. The first words of private pages are
 * marked. */
#include "guest.h"

enum { FIRST = 256, PAGES = 32, STEPS = 1500, WORDS = 8 };
static const uint64_t PRIVATE = 0x5ec4e7, PUBLIC = 0x0b11c0;

/* What a virtual processor knows of its pages. */
struct storm {
    uint64_t chance, calls, looks, changed;
    uint32_t first;
    uint8_t shares[PAGES];
    uint64_t wrote[PAGES]; /* 0: nothing, or not to a private page */
};

static uint64_t mark(const struct storm *storm, uint32_t page) {
    return (storm->shares[page] ? PUBLIC : PRIVATE) << 40 | (storm->chance & 0xffffffff) << 8 | 1;
}

static void write(struct storm *storm, uint32_t page) {
    uint64_t value = mark(storm, page);
    for (int word = 0; word < WORDS; word++) words(storm->first + page)[word] = value;
    storm->wrote[page] = storm->shares[page] ? 0 : value;
}

static void look(struct storm *storm, uint32_t page) {
    if (!storm->wrote[page]) return;
    storm->looks++;
    for (int word = 0; word < WORDS; word++)
        if (words(storm->first + page)[word] != storm->wrote[page]) {
            storm->changed++;
            return;
        }
}

/* Before a page is shared, its marks are removed. */
static void share(struct storm *storm, uint16_t call, uint32_t page, uint32_t count) {
    for (uint32_t n = page; n < page + (count ? count : 1); n++) {
        storm->shares[n]++;
        if (storm->wrote[n]) write(storm, n);
        storm->shares[n]--;
    }
    if (asks(call, storm->first + page, count))
        for (uint32_t n = page; n < page + (count ? count : 1); n++) storm->shares[n]++;
    storm->calls++;
}

static void take_back(struct storm *storm, uint16_t call, uint32_t page, uint32_t count) {
    if (asks(call, storm->first + page, count))
        for (uint32_t n = page; n < page + (count ? count : 1); n++) storm->shares[n]--;
    storm->calls++;
}

static void step(struct storm *storm) {
    storm->chance ^= storm->chance << 13, storm->chance ^= storm->chance >> 7, storm->chance ^= storm->chance << 17;
    uint32_t page = storm->chance % PAGES, range = page & ~3u;
    switch (storm->chance >> 40 & 7) {
    case 0: case 1: case 2: write(storm, page); break;
    case 3: share(storm, GRANT, page, 0); break;
    case 4: take_back(storm, REVOKE, page, 0); break;
    case 5:
        if (asks(DROP, storm->first + page, 0)) storm->wrote[page] = 0;
        storm->calls++;
        break;
    case 6: share(storm, GRANTR, range, 4); break;
    default: take_back(storm, REVOKER, range, 4); break;
    }
    look(storm, page);
}

void main(uint32_t vcpu, uint32_t slot) {
    struct storm storm = {.chance = 88172645463325252 + slot * 7919 + vcpu * 104729, .first = FIRST + vcpu * PAGES};
    for (int n = 0; n < STEPS; n++) step(&storm);
    volatile uint64_t *results = words(1024) + vcpu * 8;
    results[1] = storm.calls, results[2] = storm.looks, results[3] = storm.changed;
    results[0] = 1;
    if (vcpu) return;
    while (!words(1024)[8]) continue;
    say_number(results[1] + results[9]), say(" calls, "), say_number(results[2] + results[10]);
    say(" looks at private pages, "), say_number(results[3] + results[11]), say(" of them changed\n");
}
