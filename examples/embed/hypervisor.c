/* A toy hypervisor: its guest reads pages, and the core decides about each. The trace goes to standard output, for
 * `kcore replay`; what was asked and answered goes to standard error. */
#include <kcore.h>
#include <stdio.h>
#include <stdlib.h>
#include <string.h>

static const char config[] = "{\"frames\":8,\"core\":1,\"host\":4,\"leaves\":1,\"approved\":"
                             "[\"ba7816bf8f01cfea414140de5dae2223b00361a396177a9cb410ff61f20015ad\"]}";
static kcore core;
static uint8_t *text;
static size_t room;

/* Asks the core. If it does not answer, the program ends. */
static const char *ask(const char *call) {
    size_t used;
    uint32_t status = kcore_call(&core, (const uint8_t *)call, strlen(call), text, room - 1, &used);
    if (status != KCORE_DONE) {
        fprintf(stderr, "hypervisor: %s: status %u\n", call, (unsigned)status);
        exit(1);
    }
    text[used] = 0;
    fprintf(stderr, "%-20s %s", call, (char *)text);
    return (const char *)text;
}

/* The guest reads a byte of a page. If it has no such page, the hypervisor gives it a frame. */
static void guest_reads(unsigned page, unsigned frame) {
    char read[64], give[64];
    snprintf(read, sizeof read, "gread 0 0 %u 0 1", page);
    snprintf(give, sizeof give, "map 0 0 %u", frame);
    if (strncmp(ask(read), "fault ", 6) != 0) return;
    ask(give);
    ask(read);
}

int main(void) {
    static const char *const boot[] = {"hfault 1", "hwrite 1 0 616263", "regvm 0",  "regvcpu 0 0",
                                       "setboot 0 0 3", "remap 0 0 1",  "verify 0"};
    size_t used;
    room = (kcore_longest_reply() > kcore_longest_line() ? kcore_longest_reply() : kcore_longest_line()) + 1;
    text = malloc(room);
    if (!text || kcore_boot_history(&core, (const uint8_t *)config, strlen(config)) != KCORE_DONE) return 1;
    for (size_t at = 0; at < sizeof boot / sizeof *boot; at++) ask(boot[at]);
    guest_reads(1, 2);
    guest_reads(2, 3);
    ask("hread 2 0 1"); /* The host asks for a page that the guest has, and is refused. */
    for (size_t number = 0; kcore_line(&core, number, text, room, &used) == KCORE_DONE; number++)
        fwrite(text, 1, used, stdout);
    kcore_end(&core);
    free(text);
    return fflush(stdout) == 0 && !ferror(stdout) ? 0 : 1;
}
