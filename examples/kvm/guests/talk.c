/* A guest with a secret, a page that it shares for a while, and one that it gives up. Its second virtual processor
 * counts in the shared page all the while, and checks whether a count is lost when the page moves. */
#include "guest.h"

enum { LAST = 4, SECRET = 512, LETTER, THROWN, COMMON, NEW = 1024, MOVES = 100 };

static void put(uint32_t gfn, const char *text) {
    volatile uint8_t *to = page(gfn);
    while ((*to++ = *text++)) continue;
}

/* A text, and the number of the slot. */
static void put_ours(uint32_t gfn, const char *text, uint32_t slot) {
    uint32_t length = 0;
    put(gfn, text);
    while (text[length]) length++;
    page(gfn)[length] = '0' + slot;
    page(gfn)[length + 1] = 0;
}

static void expect(int is_so, const char *what) {
    if (!is_so) say("not so: "), say(what), say("\n");
}

static void share(uint32_t slot) {
    put_ours(SECRET, "the secret of guest ", slot);
    put_ours(LETTER, "a letter of guest ", slot);
    out(NOTIFY, 1); /* the host looks, before anything is shared */
    expect(asks(GRANT, LETTER, 0), "a grant is done");
    out(NOTIFY, 2); /* the host reads the letter, and answers in it */
    say("the host wrote: "), say((const char *)page(LETTER) + 64), say("\n");
    expect(asks(REVOKE, LETTER, 0), "a revoke is done");
    put(LETTER, "no letter any more");
    out(NOTIFY, 3); /* the host looks again */
    expect(!asks(REVOKE, LETTER, 0), "a second revoke is refused");
}

static void give_up(uint32_t slot) {
    put_ours(THROWN, "thrown away by guest ", slot);
    expect(asks(DROP, THROWN, 0), "a drop is done");
    out(NOTIFY, 4); /* the host takes what was dropped */
    expect(page(THROWN)[0] == 0, "a page that comes anew is zero");
}

static void share_ranges(void) {
    uint64_t sum = 0;
    expect(!asks(GRANTR, NEW, 4), "a grant of pages that are not there is refused");
    for (uint32_t gfn = NEW; gfn < NEW + 8; gfn++) words(gfn)[0] = gfn;
    for (uint32_t gfn = NEW; gfn < NEW + 8; gfn++) sum += words(gfn)[0];
    expect(sum == 8 * NEW + 28, "pages hold what was written");
    expect(asks(GRANTR, NEW, 4) && asks(REVOKER, NEW, 4), "a range is shared and taken back");
    expect(!asks(REVOKER, NEW, 4), "a second revoke of a range is refused");
}

/* The page goes to the host and back while the other virtual processor writes to it. */
static void move(void) {
    for (int move = 0; move < MOVES; move++) {
        expect(asks(GRANT, LETTER, 0), "a grant is done");
        out(NOTIFY, 5);
        expect(asks(REVOKE, LETTER, 0), "a revoke is done");
    }
}

static void say_secret(void) { say("the secret is still \""), say((const char *)page(SECRET)), say("\"\n"); }

/* Counts in the letter's page until the other one says stop, and in slot 1 forever. */
static void count(uint32_t slot) {
    volatile uint64_t *counter = words(LETTER) + 256, *stop = words(COMMON);
    uint64_t counted = 0, lost = 0;
    while (!*stop) {
        lost += *counter != counted;
        *counter = ++counted;
    }
    stop[1] = lost;
    stop[2] = counted != 0;
    *stop = 2;
    while (slot == 1) ++*counter;
}

void main(uint32_t vcpu, uint32_t slot) {
    if (vcpu) {
        count(slot);
        return;
    }
    say("hello from guest "), say_number(slot), say("\n");
    expect(page(LAST)[PAGE - 1] == 0, "past the end of the image there are zeros");
    share(slot);
    give_up(slot);
    share_ranges();
    move();
    words(COMMON)[0] = 1;
    while (words(COMMON)[0] == 1) continue;
    expect(words(COMMON)[2], "the other one counted");
    say_number(words(COMMON)[1]), say(" counts lost\n");
    say_secret();
}
