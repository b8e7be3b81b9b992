/* Every status of the C library, each where kcore.h names it. Prints what is not as it should be. */
#include <kcore.h>
#include <stdio.h>
#include <stdlib.h>
#include <string.h>

enum { ROOM = 9000, FILL = 0xa5 };
static _Alignas(8) uint8_t out[ROOM], filled[ROOM];
static size_t used;
static int failed;

/* A length and a number are as wide as a pointer. */
_Static_assert(_Generic(kcore_longest_reply, size_t (*)(void): 1, default: 0), "kcore_longest_reply");
_Static_assert(_Generic(kcore_longest_line, size_t (*)(void): 1, default: 0), "kcore_longest_line");
_Static_assert(_Generic(kcore_line, uint32_t (*)(kcore *, size_t, uint8_t *, size_t, size_t *): 1, default: 0), "kcore_line");

static void is(uint32_t status, uint32_t wanted, const char *what) {
    if (status == wanted) return;
    printf("%s: status %u and not %u\n", what, (unsigned)status, (unsigned)wanted);
    failed++;
}

static void holds(int fact, const char *what) {
    if (fact) return;
    printf("%s\n", what);
    failed++;
}

static uint32_t boot(kcore *core, const char *text) { return kcore_boot(core, (const uint8_t *)text, strlen(text)); }

/* After the bytes that are used, the buffer is as it was, even if there is no answer. */
static uint32_t ended(uint32_t status, size_t room) {
    size_t at = used < ROOM ? used : ROOM;
    holds(status == KCORE_DONE ? used <= room : used == 0, "what is used");
    /* (valgrind compares in words from where both are aligned, and in bytes otherwise) */
    while (at % 8 && out[at] == FILL) at++;
    holds(memcmp(out + at, filled + at, ROOM - at) == 0, "a byte after those used is another");
    return status;
}

static uint32_t ask(kcore *core, const char *line, size_t room) {
    used = 7;
    memset(out, FILL, sizeof out);
    return ended(kcore_call(core, (const uint8_t *)line, strlen(line), out, room, &used), room);
}

static uint32_t line(kcore *core, size_t number, size_t room) {
    used = 7;
    memset(out, FILL, sizeof out);
    return ended(kcore_line(core, number, out, room, &used), room);
}

static uint32_t redacted(kcore *core, size_t number, size_t room) {
    used = 7;
    memset(out, FILL, sizeof out);
    return ended(kcore_redacted_line(core, number, out, room, &used), room);
}

static uint32_t digest(kcore *core, size_t room) {
    used = 7;
    memset(out, FILL, sizeof out);
    return ended(kcore_digest(core, out, room, &used), room);
}

/* A whole page, as the last word of a line. */
static const char *page_line(const char *front) {
    static char text[9000];
    size_t at = (size_t)sprintf(text, "%s", front);
    memset(text + at, '5', 8192);
    text[at + 8192] = 0;
    return text;
}

/* The longest reply and the longest line fit into as many bytes as the library says, and not into one less. */
static void longest(kcore *core, size_t lines) {
    const char *text = page_line("hwrite 1 0 ");
    is(ask(core, "hfault 1", sizeof out), KCORE_DONE, "a frame of the host's");
    is(ask(core, text, kcore_longest_reply()), KCORE_DONE, "a whole page written");
    holds(used == 5 && memcmp(out, "done\n", 5) == 0, "its reply");
    is(line(core, lines + 2, sizeof out), KCORE_DONE, "its line");
    holds(used == strlen(text) + 1 && memcmp(out, text, used - 1) == 0 && out[used - 1] == '\n', "is what was asked");
    is(ask(core, "hread 1 0 4096", kcore_longest_reply() - 1), KCORE_NO_ROOM, "the longest reply, in a byte less");
    is(ask(core, "hread 1 0 4096", kcore_longest_reply()), KCORE_DONE, "and in as many bytes as it has");
    holds(used == kcore_longest_reply() && used == 5 + 8192 + 1, "the longest reply has another length");
    text = page_line("gwrite 4294967295 4294967295 4294967295 4294967295 ");
    is(ask(core, text, kcore_longest_reply()), KCORE_DONE, "the longest line");
    is(line(core, lines + 4, kcore_longest_line() - 1), KCORE_NO_ROOM, "it, in a byte less");
    is(line(core, lines + 4, kcore_longest_line()), KCORE_DONE, "and in as many bytes as it has");
    holds(used == kcore_longest_line() && used == strlen(text) + 1 && memcmp(out, text, used - 1) == 0, "is another");
    is(redacted(core, lines + 4, kcore_longest_line() - 1), KCORE_NO_ROOM, "it redacted, in a byte less");
    is(redacted(core, lines + 4, kcore_longest_line()), KCORE_DONE, "and in as many bytes as it has");
    size_t zeros = 0;
    for (size_t at = used; at > 1 && out[at - 2] == '0'; at--) zeros++;
    holds(used == kcore_longest_line() && memcmp(out, text, used - 8193) == 0 && zeros == 8192, "is redacted otherwise");
}

int main(void) {
    memset(filled, FILL, sizeof filled);
    kcore core = {0}, other = {0};
    is(ask(&core, "take", sizeof out), KCORE_CLOSED, "a call on a session that was never open");
    is(line(&core, 0, sizeof out), KCORE_CLOSED, "a line of one");
    is(redacted(&core, 0, sizeof out), KCORE_CLOSED, "a redacted line of one");
    is(digest(&core, sizeof out), KCORE_CLOSED, "the digest of one");
    is(kcore_turn(&core), KCORE_CLOSED, "the next volume of one");
    is(kcore_end(&core), KCORE_CLOSED, "the end of one");
    holds(!core.is_open && !core.session, "a session that was never open is changed");

    is(boot(&core, "{"), KCORE_NOT_JSON, "half an object");
    is(boot(&core, "{}"), KCORE_BAD_SHAPE, "an object without keys");
    is(boot(&core, "{\"frames\":0,\"core\":0,\"host\":0,\"leaves\":1,\"approved\":[]}"),
       KCORE_BAD_FRAMES, "no frames");
    is(boot(&core, "{\"frames\":8,\"core\":5,\"host\":4,\"leaves\":1,\"approved\":[]}"),
       KCORE_BAD_CORE_HOST, "more than there is");
    is(boot(&core, "{\"frames\":8,\"core\":1,\"host\":4,\"leaves\":99,\"approved\":[]}"),
       KCORE_BAD_LEAVES, "too many leaves");
    char many[65 * 67 + 100];
    size_t at = (size_t)sprintf(many, "{\"frames\":8,\"core\":1,\"host\":4,\"leaves\":1,\"approved\":[");
    for (int n = 0; n < 65; n++) at += (size_t)sprintf(many + at, "%s\"%064d\"", n ? "," : "", n);
    sprintf(many + at, "]}");
    is(boot(&core, many), KCORE_TOO_MANY_DIGESTS, "65 digests");
    is(ask(&core, "take", sizeof out), KCORE_CLOSED, "a call on a session that was refused");
    holds(!core.is_open, "a session that was refused is open");

    is(boot(&core, "{\"frames\":8,\"core\":1,\"host\":4,\"leaves\":1,\"approved\":[]}"),
       KCORE_DONE, "a configuration");
    holds(core.is_open && (uintptr_t)core.session > 1, "a session is not open, or is in another place");
    is(boot(&core, "{"), KCORE_ALREADY_OPEN, "a second one");
    is(boot(&other, "{\"frames\":8,\"core\":1,\"host\":7,\"leaves\":1,\"approved\":[]}"),
       KCORE_DONE, "a second session");
    is(ask(&core, "nonsense", sizeof out), KCORE_BAD_LINE, "a line that is not a call");
    is(ask(&core, "take\n", sizeof out), KCORE_BAD_LINE, "a line with its newline");
    is(ask(&core, "", sizeof out), KCORE_BAD_LINE, "an empty line");
    is((uint32_t)used, 0, "what a refused line uses");
    is(ask(&core, "take", kcore_longest_reply() - 1), KCORE_NO_ROOM, "a buffer that is a byte too short");
    is(ask(&core, "take", kcore_longest_reply()), KCORE_DONE, "one that is not");
    is(used == 8 && memcmp(out, "frame 5\n", 8) == 0 ? 0 : 1, 0, "the first frame that is free");
    is(ask(&other, "take", sizeof out), KCORE_DONE, "the other session");
    is(used == 16 && memcmp(out, "refused no-free\n", 16) == 0 ? 0 : 1, 0, "which has no free frame");
    is(line(&core, 0, 13), KCORE_NO_ROOM, "a buffer that is too short for the header");
    is(line(&core, 0, 14), KCORE_DONE, "one that is not");
    is(used == 14 && memcmp(out, "kcore-trace 2\n", 14) == 0 ? 0 : 1, 0, "the header");
    is(line(&core, 1, sizeof out), KCORE_DONE, "the only call");
    is(used == 5 && memcmp(out, "take\n", 5) == 0 ? 0 : 1, 0, "its line");
    is(line(&core, 2, sizeof out), KCORE_NO_SUCH_LINE, "a line past the end");
    is(line(&core, SIZE_MAX, sizeof out), KCORE_NO_SUCH_LINE, "the last line that has a number");
    is(line(&core, SIZE_MAX / 2 + 1, sizeof out), KCORE_NO_SUCH_LINE, "one whose number has a single bit");
    is(line(&core, (size_t)UINT32_MAX + 1, sizeof out), KCORE_NO_SUCH_LINE, "a line whose number is 0 in 32 bits");
    is(line(&core, (size_t)UINT32_MAX + 2, sizeof out), KCORE_NO_SUCH_LINE, "one whose number is 1 in 32 bits");
    is(redacted(&core, 1, 4), KCORE_NO_ROOM, "a buffer that is too short for its redacted line");
    is(redacted(&core, 1, 5), KCORE_DONE, "one that is not");
    is(used == 5 && memcmp(out, "take\n", 5) == 0 ? 0 : 1, 0, "its redacted line");
    is(redacted(&core, 2, sizeof out), KCORE_NO_SUCH_LINE, "a redacted line past the end");
    is(digest(&core, 31), KCORE_NO_ROOM, "a buffer that is too short for a digest");
    is(digest(&core, 32), KCORE_DONE, "one that is not");
    holds(used == 32, "a digest has another length");
    longest(&core, 1);

    for (int n = 5; n < 65536; n++)
        if (ask(&core, "give 5", sizeof out) != KCORE_DONE) is(1, 0, "a call that still has room in the history");
    is(ask(&core, "give 5", sizeof out), KCORE_HISTORY_FULL, "a call more than there may be");
    is(ask(&core, "nonsense", sizeof out), KCORE_BAD_LINE, "not a call, with a full history");
    is(line(&core, 65536, sizeof out), KCORE_DONE, "the last call");
    is(line(&core, 65537, sizeof out), KCORE_NO_SUCH_LINE, "the line after it");
    is(kcore_turn(&core), KCORE_DONE, "the next volume");
    is(line(&core, 0, sizeof out), KCORE_DONE, "its header");
    is(used == 14 && memcmp(out, "kcore-trace 2\n", 14) == 0 ? 0 : 1, 0, "which is the same");
    is(line(&core, 1, sizeof out), KCORE_NO_SUCH_LINE, "a volume in which nothing was answered");
    is(ask(&core, "take", sizeof out), KCORE_DONE, "its first call");
    is(used == 8 && memcmp(out, "frame 6\n", 8) == 0 ? 0 : 1, 0, "the frame before the one that was given back");
    is(kcore_turn(&core), KCORE_DONE, "one more volume, before this one is full");
    is(ask(&core, "take", sizeof out), KCORE_DONE, "the first call there");
    is(used == 8 && memcmp(out, "frame 7\n", 8) == 0 ? 0 : 1, 0, "the frame after it, since the core goes on");
    is(line(&core, 1, sizeof out), KCORE_DONE, "the only call of this volume");
    is(line(&core, 2, sizeof out), KCORE_NO_SUCH_LINE, "the line after that");
    is(kcore_end(&core), KCORE_DONE, "the end");
    holds(!core.is_open, "a session that has ended is open");
    is(kcore_end(&core), KCORE_CLOSED, "a second end");
    is(ask(&core, "take", sizeof out), KCORE_CLOSED, "a call after the end");
    is(boot(&core, "{\"frames\":8,\"core\":1,\"host\":4,\"leaves\":1,\"approved\":[]}"), KCORE_DONE, "once more");
    is(line(&core, 1, sizeof out), KCORE_NO_SUCH_LINE, "a session that has answered nothing");
    is(kcore_end(&core), KCORE_DONE, "its end");
    is(kcore_end(&other), KCORE_DONE, "the other one's");
    is(boot(&core, "{\"version\":2,\"frames\":65536,\"core\":1,\"host\":65535,\"leaves\":64,\"approved\":[]}"),
       KCORE_DONE, "as many frames as there may be");
    is(ask(&core, "hfault 65535", sizeof out), KCORE_DONE, "the last of them");
    holds(used == 5 && memcmp(out, "done\n", 5) == 0, "is the host's");
    is(kcore_end(&core), KCORE_DONE, "the end of that");
    return failed != 0;
}
