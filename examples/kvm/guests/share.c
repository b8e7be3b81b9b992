/* A program for a Linux guest, run by root, that does what talk.c does: it has a secret, a page that it shares for a
 * while, and one that it drops. They are locked, so each stays at its guest frame, of which it notifies the host. */
#include "guest.h"
#include <fcntl.h>
#include <stdio.h>
#include <stdlib.h>
#include <string.h>
#include <sys/io.h>
#include <sys/mman.h>
#include <unistd.h>

enum { SECRET, LETTER, THROWN, COUNT };
enum { ANSWER = 64, TEXT = 128, PLACE = 1 << 20, MOVES = 100 };

/* The guest frame of a page of this process. */
static uint32_t frame_of(const char *page) {
    uint64_t entry = 0;
    int file = open("/proc/self/pagemap", O_RDONLY);
    if (file < 0 || pread(file, &entry, 8, (uintptr_t)page / PAGE * 8) != 8 || !(entry >> 63)) exit(1);
    close(file);
    return entry & ((1ull << 55) - 1);
}

static void expect(int is_so, const char *what) {
    if (!is_so) printf("not so: %s\n", what);
}

int main(int count, char **words) {
    static _Alignas(PAGE) char pages[COUNT][PAGE];
    uint32_t frames[COUNT];
    if (count != 2 || iopl(3) || mlock(pages, sizeof pages)) return 1;
    strcpy(pages[SECRET], "the secret of Linux");
    strcpy(pages[LETTER], "a letter of Linux");
    strcpy(pages[LETTER] + TEXT, words[1]);
    strcpy(pages[THROWN], "thrown away by Linux");
    for (int it = 0; it < COUNT; it++) {
        frames[it] = frame_of(pages[it]);
        out(NOTIFY, (it + 1) * PLACE + frames[it]);
    }
    out(NOTIFY, 1); /* the host looks, before anything is shared */
    expect(asks(GRANT, frames[LETTER], 0), "a grant is done");
    out(NOTIFY, 2); /* the host reads the letter, and answers in it */
    printf("the host wrote: %s\n", pages[LETTER] + ANSWER);
    expect(asks(REVOKE, frames[LETTER], 0), "a revoke is done");
    strcpy(pages[LETTER], "no letter any more");
    out(NOTIFY, 3); /* the host looks again */
    expect(!asks(REVOKE, frames[LETTER], 0), "a second revoke is refused");
    expect(asks(DROP, frames[THROWN], 0), "a drop is done");
    out(NOTIFY, 4); /* the host takes what was dropped */
    expect(!pages[THROWN][0], "a page that comes anew is zero");
    for (int move = 0; move < MOVES; move++) {
        expect(asks(GRANT, frames[LETTER], 0), "a grant is done");
        out(NOTIFY, 5);
        expect(asks(REVOKE, frames[LETTER], 0), "a revoke is done");
    }
    printf("the secret is still \"%s\"\n", pages[SECRET]);
    return 0;
}
