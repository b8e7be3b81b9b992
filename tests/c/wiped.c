/* What is left of a page's bytes in memory after a session has ended, and in the memory that it gives back. Two calls
 * write half of a secret each into a page, so that only pages have it whole. Prints what is not as it should be. Linked
 * with --wrap=free. */
#include <kcore.h>
#include <malloc.h>
#include <stdio.h>
#include <stdlib.h>
#include <string.h>

static uint8_t out[9000];
static size_t used;

static uint32_t ask(kcore *core, const char *line) {
    return kcore_call(core, (const uint8_t *)line, strlen(line), out, sizeof out, &used);
}

/* Writes a half of the secret at an offset. */
static int writes(kcore *core, const char *call, unsigned offset, const char *half) {
    char line[256];
    size_t at = (size_t)sprintf(line, "%s %u ", call, offset);
    for (const char *byte = half; *byte; byte++) at += (size_t)sprintf(line + at, "%02x", (unsigned char)*byte);
    return ask(core, line) == KCORE_DONE && used == 5;
}

/* The halves, which are never side by side except in pages. */
static const char front[] = "left after the end", back[] = " or given back";

/* How often the second half follows the first between two places. */
static int found_in(const char *at, const char *end) {
    size_t length = sizeof front - 1, more = sizeof back - 1;
    int count = 0;
    for (; at + length + more <= end; at++)
        count += *at == *front && memcmp(at, front, length) == 0 && memcmp(at + length, back, more) == 0;
    return count;
}

/* What is given back with the secret in it. */
static int spilled;
void __real_free(void *block);
void __wrap_free(void *block) {
    if (block) spilled += found_in(block, (const char *)block + malloc_usable_size(block));
    __real_free(block);
}

/* How often it is in the memory that this process may write to. */
static int found(void) {
    FILE *maps = fopen("/proc/self/maps", "r");
    char line[512], rights[5];
    unsigned long from, end;
    int count = 0;
    while (maps && fgets(line, sizeof line, maps)) {
        if (sscanf(line, "%lx-%lx %4s", &from, &end, rights) != 3 || rights[0] != 'r' || rights[1] != 'w') continue;
        count += found_in((const char *)from, (const char *)end);
    }
    if (maps) fclose(maps);
    return count;
}

static const char config[] = "{\"frames\":600,\"core\":1,\"host\":599,\"leaves\":1,\"approved\":"
                             "[\"ba7816bf8f01cfea414140de5dae2223b00361a396177a9cb410ff61f20015ad\"]}";
/* A VM that boots from frame 1 and has frame 2, and then the host's frames that hold the secret too. */
static const char *const boots[] = {"hfault 1", "hwrite 1 0 616263", "regvm 0", "regvcpu 0 0", "setboot 0 0 3",
                                    "remap 0 0 1", "verify 0", "gread 0 0 5 0 1", "map 0 0 2"};
static const unsigned frames[] = {3, 4, 300, 598, 599};
enum { BOOTS = sizeof boots / sizeof *boots, FRAMES = sizeof frames / sizeof *frames };

static int fill(kcore *core) {
    char call[32];
    for (size_t n = 0; n < BOOTS; n++)
        if (ask(core, boots[n]) != KCORE_DONE) return 0;
    if (!writes(core, "gwrite 0 0 5", 1000, front) || !writes(core, "gwrite 0 0 5", 1000 + sizeof front - 1, back)) return 0;
    for (size_t n = 0; n < FRAMES; n++) {
        sprintf(call, "hfault %u", frames[n]);
        if (ask(core, call) != KCORE_DONE) return 0;
        sprintf(call, "hwrite %u", frames[n]);
        if (!writes(core, call, 1000, front) || !writes(core, call, 1000 + sizeof front - 1, back)) return 0;
    }
    return 1;
}

int main(void) {
    kcore core = {0};
    if (kcore_boot(&core, (const uint8_t *)config, strlen(config)) != KCORE_DONE || !fill(&core)) return puts("no session"), 1;
    if (found() != FRAMES + 1) return printf("%d secrets are held, and not %d\n", found(), FRAMES + 1), 1;
    if (kcore_turn(&core) != KCORE_DONE || found() != FRAMES + 1) return puts("the next volume has other pages"), 1;
    if (ask(&core, "give 4") != KCORE_DONE || found() != FRAMES) return puts("a page that is given back is not zeroed"), 1;
    if (ask(&core, "clear 0") != KCORE_DONE || found() != FRAMES - 1) return puts("a VM's page is not zeroed"), 1;
    if (kcore_end(&core) != KCORE_DONE) return puts("no end"), 1;
    int left = found() + spilled;
    if (left) printf("%d secrets are left\n", left);
    return left != 0;
}
