/* A session of two volumes: what the core is asked, and in which volume. Each volume goes to the file that an argument
 * names, the replies to standard output. */
#include <kcore.h>
#include <stdio.h>
#include <string.h>

static const char config[] = "{\"frames\":8,\"core\":1,\"host\":4,\"leaves\":1,\"approved\":"
                             "[\"ba7816bf8f01cfea414140de5dae2223b00361a396177a9cb410ff61f20015ad\"]}";
static const char *const volumes[2][8] = {
    {"hfault 1", "hwrite 1 0 616263", "regvm 0", "regvcpu 0 0", "setboot 0 0 3", "remap 0 0 1", "take"},
    {"verify 0", "gread 0 0 0 0 3", "take", "hread 1 0 3"}};
static kcore core;
static uint8_t text[9000];

int main(int count, char **paths) {
    size_t used;
    if (count != 3 || kcore_boot(&core, (const uint8_t *)config, strlen(config)) != KCORE_DONE) return 1;
    for (int volume = 0; volume < 2; volume++) {
        for (const char *const *call = volumes[volume]; *call; call++) {
            if (kcore_call(&core, (const uint8_t *)*call, strlen(*call), text, sizeof text, &used) != KCORE_DONE) return 2;
            fwrite(text, 1, used, stdout);
        }
        FILE *out = fopen(paths[volume + 1], "wb");
        if (!out) return 3;
        for (size_t n = 0; kcore_line(&core, n, text, sizeof text, &used) == KCORE_DONE; n++) fwrite(text, 1, used, out);
        if (fclose(out) != 0 || kcore_turn(&core) != KCORE_DONE) return 4;
    }
    return kcore_end(&core) == KCORE_DONE ? 0 : 5;
}
