/* A session of two volumes whose traces have heads. FOLDER gets each volume, volume-1 and volume-2, and the first one
 * redacted; the state after it, state-1, taken before the next volume is begun and again after that; and the state
 * after both, state-2. Then a session that is opened from state-1 is asked what the second volume was: it has to have
 * the same trace, and to leave the same state.
 *
 * usage: history FOLDER */
#include <kcore.h>
#include <stdio.h>
#include <stdlib.h>
#include <string.h>

static const char config[] = "{\"frames\":8,\"core\":1,\"host\":4,\"leaves\":1,\"approved\":"
                             "[\"ba7816bf8f01cfea414140de5dae2223b00361a396177a9cb410ff61f20015ad\"]}";
static const char *const first[] = {"hfault 1", "hwrite 1 0 616263", "regvm 0",         "regvcpu 0 0", "setboot 0 0 3",
                                    "remap 0 0 1", "verify 0",         "gwrite 0 0 0 0 07", NULL};
static const char *const second[] = {"gread 0 0 0 0 3", "take", "hread 1 0 3", NULL};
enum { ROOM = 8 * 8600 + 600000 };
static uint8_t state[ROOM], again[ROOM], line[9000];

static void need(int fact, int number) {
    if (!fact) exit(number);
}

static void ask(kcore *core, const char *const *calls) {
    size_t used;
    for (; *calls; calls++)
        need(kcore_call(core, (const uint8_t *)*calls, strlen(*calls), line, sizeof line, &used) == KCORE_DONE, 2);
}

static FILE *made(const char *folder, const char *name) {
    char path[4096];
    snprintf(path, sizeof path, "%s/%s", folder, name);
    FILE *out = fopen(path, "wb");
    need(out != NULL, 3);
    return out;
}

static void keep(const char *folder, const char *name, kcore *core,
                 uint32_t (*give)(kcore *, size_t, uint8_t *, size_t, size_t *)) {
    FILE *out = made(folder, name);
    size_t used;
    for (size_t n = 0; give(core, n, line, kcore_longest_line(), &used) == KCORE_DONE; n++) fwrite(line, 1, used, out);
    need(fclose(out) == 0, 4);
}

static size_t keep_state(const char *folder, const char *name, kcore *core) {
    FILE *out = made(folder, name);
    size_t used;
    need(kcore_state(core, state, ROOM, &used) == KCORE_DONE, 5);
    need(fwrite(state, 1, used, out) == used && fclose(out) == 0, 5);
    return used;
}

int main(int count, char **words) {
    kcore core = {0}, other = {0};
    size_t used, length;
    uint32_t place;
    need(count == 2, 6);
    need(kcore_boot_history(&core, (const uint8_t *)config, strlen(config)) == KCORE_DONE, 7);
    need(kcore_boot_history(&core, (const uint8_t *)config, strlen(config)) == KCORE_ALREADY_OPEN, 7);
    ask(&core, first);
    keep(words[1], "volume-1", &core, kcore_line);
    keep(words[1], "redacted-1", &core, kcore_redacted_line);
    length = keep_state(words[1], "state-1", &core);
    need(kcore_turn(&core) == KCORE_DONE, 8);
    need(kcore_state(&core, again, ROOM, &used) == KCORE_DONE && used == length && memcmp(again, state, used) == 0, 9);
    need(kcore_resume(&other, state, length, &place) == KCORE_DONE, 10);
    need(kcore_state(&other, again, ROOM, &used) == KCORE_DONE && used == length && memcmp(again, state, used) == 0, 11);
    ask(&core, second);
    ask(&other, second);
    keep(words[1], "volume-2", &core, kcore_line);
    keep(words[1], "volume-2-again", &other, kcore_line);
    length = keep_state(words[1], "state-2", &core);
    need(kcore_state(&other, again, ROOM, &used) == KCORE_DONE && used == length && memcmp(again, state, used) == 0, 12);
    return kcore_end(&core) == KCORE_DONE && kcore_end(&other) == KCORE_DONE ? 0 : 13;
}
