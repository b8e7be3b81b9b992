/* Makes the calls of a trace, which comes on standard input with its header, in a session: all in one volume or, with
 * CALLS, each in a volume of its own. Then what the core reports goes to files in FOLDER: state, blank, dump, and
 * digest, that of the blank state as 64 digits. A second session is opened from each text of a state, and has to report
 * it again. The last CALLS calls of the trace are left for both sessions, which have to answer the same. The state that
 * they leave goes to the file after. At last texts that are too long have to be refused.
 *
 * usage: resuming FOLDER [CALLS] */
/* for anonymous pages */
#define _DEFAULT_SOURCE
#include <kcore.h>
#include <stdio.h>
#include <stdlib.h>
#include <string.h>
#include <sys/mman.h>

static const char config[] = "{\"frames\":8,\"core\":1,\"host\":4,\"leaves\":1,\"approved\":"
                             "[\"ba7816bf8f01cfea414140de5dae2223b00361a396177a9cb410ff61f20015ad\"]}";
enum { ROOM = 8 * 8600 + 600000, MOST = 4096 };
static char lines[MOST][9000];
static uint8_t state[ROOM], blank[ROOM], again[ROOM], text[2][9000];

static void need(int fact, int number) {
    if (!fact) exit(number);
}

static void keep(const char *folder, const char *name, const uint8_t *bytes, size_t length) {
    char path[4096];
    snprintf(path, sizeof path, "%s/%s", folder, name);
    FILE *out = fopen(path, "wb");
    need(out && fwrite(bytes, 1, length, out) == length && fclose(out) == 0, 2);
}

/* What is reported fits a buffer that is just as long, and no shorter one, which stays as it is. */
static size_t reported(uint32_t (*report)(kcore *, uint8_t *, size_t, size_t *), kcore *core, uint8_t *out) {
    size_t used, less = 7;
    memset(out, 0xa5, ROOM);
    need(report(core, out, ROOM, &used) == KCORE_DONE && used > 0 && used < ROOM && out[used] == 0xa5, 3);
    memset(again, 0x5a, ROOM);
    need(report(core, again, used - 1, &less) == KCORE_NO_ROOM && less == 0, 4);
    for (size_t at = 0; at < ROOM; at++) need(again[at] == 0x5a, 5);
    need(report(core, again, used, &less) == KCORE_DONE && less == used && memcmp(out, again, used) == 0, 6);
    need(again[used] == 0x5a, 7);
    return used;
}

/* A second session that is opened from a text reports it again. */
static void resume(kcore *core, const uint8_t *bytes, size_t length,
                   uint32_t (*report)(kcore *, uint8_t *, size_t, size_t *)) {
    uint32_t place = 77;
    size_t used;
    need(kcore_resume(core, bytes, length, &place) == KCORE_DONE && place == 77, 8);
    need(kcore_resume(core, bytes, length, &place) == KCORE_ALREADY_OPEN && place == 77, 9);
    need(report(core, again, ROOM, &used) == KCORE_DONE && used == length && memcmp(again, bytes, length) == 0, 10);
}

/* A text of more than 1 GiB is refused before it is read: nobody may read these pages. */
static void too_long(kcore *core) {
    uint32_t place = 77;
    const size_t most = (size_t)1 << 30;
    const uint8_t *pages = mmap(NULL, most + 1, PROT_NONE, MAP_PRIVATE | MAP_ANONYMOUS | MAP_NORESERVE, -1, 0);
    need(pages != MAP_FAILED, 28);
    need(kcore_boot(core, pages, most + 1) == KCORE_TOO_LONG, 29);
    need(kcore_resume(core, pages, most + 1, &place) == KCORE_TOO_LONG && place == 77, 30);
}

int main(int count, char **words) {
    kcore core = {0}, second = {0};
    size_t calls = 0, used[2], length, left = count > 2 ? strtoul(words[2], 0, 10) : 0;
    uint32_t status[2];
    need(count > 1 && fgets(lines[0], sizeof lines[0], stdin), 13);
    while (calls < MOST && fgets(lines[calls], sizeof lines[0], stdin)) calls++;
    need(left <= calls && kcore_boot(&core, (const uint8_t *)config, strlen(config)) == KCORE_DONE, 14);
    for (size_t n = 0; n < calls - left; n++) {
        need(kcore_call(&core, (const uint8_t *)lines[n], strlen(lines[n]) - 1, text[0], 9000, used) == KCORE_DONE, 15);
        if (count > 2) need(kcore_turn(&core) == KCORE_DONE, 16);
    }
    length = reported(kcore_dump, &core, state);
    keep(words[1], "dump", state, length);
    length = reported(kcore_state, &core, state);
    keep(words[1], "state", state, length);
    size_t blank_length = reported(kcore_blank_state, &core, blank);
    keep(words[1], "blank", blank, blank_length);
    need(kcore_blank_digest(&core, text[0], 31, used) == KCORE_NO_ROOM && *used == 0, 17);
    need(kcore_blank_digest(&core, text[0], 32, used) == KCORE_DONE && *used == 32, 18);
    char digits[65];
    for (size_t at = 0; at < 32; at++) sprintf(digits + 2 * at, "%02x", text[0][at]);
    keep(words[1], "digest", (const uint8_t *)digits, 64);

    resume(&second, blank, blank_length, kcore_state);
    need(kcore_end(&second) == KCORE_DONE, 19);
    resume(&second, state, length, kcore_state);
    for (size_t n = calls - left; n < calls; n++) {
        size_t size = strlen(lines[n]) - 1;
        for (int k = 0; k < 2; k++)
            status[k] = kcore_call(k ? &second : &core, (const uint8_t *)lines[n], size, text[k], 9000, used + k);
        need(status[0] == KCORE_DONE && status[1] == KCORE_DONE && used[0] == used[1], 20);
        need(memcmp(text[0], text[1], used[0]) == 0, 20);
    }
    length = reported(kcore_state, &core, state);
    need(kcore_state(&second, again, ROOM, used) == KCORE_DONE && *used == length, 21);
    need(memcmp(again, state, length) == 0, 21);
    keep(words[1], "after", state, length);
    need(kcore_line(&second, left, text[0], 9000, used) == KCORE_DONE, 22);
    need(kcore_line(&second, left + 1, text[0], 9000, used) == KCORE_NO_SUCH_LINE, 22);
    need(kcore_end(&second) == KCORE_DONE && kcore_end(&core) == KCORE_DONE, 23);
    need(kcore_state(&core, state, ROOM, used) == KCORE_CLOSED && *used == 0, 24);
    need(kcore_blank_state(&core, state, ROOM, used) == KCORE_CLOSED && *used == 0, 25);
    need(kcore_dump(&core, state, ROOM, used) == KCORE_CLOSED && *used == 0, 26);
    need(kcore_blank_digest(&core, state, ROOM, used) == KCORE_CLOSED && *used == 0, 27);
    too_long(&core);
    return 0;
}
