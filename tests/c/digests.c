/* Makes the calls of a trace, which comes on standard input with its header, in a session. Prints the digest of the
 * redacted trace before the first call, after each one and in the next volume, each as a line of 64 digits. The
 * redacted lines go to the file that the first argument names. With a second argument, no digest is asked for before
 * all calls are made. */
#include <kcore.h>
#include <stdio.h>
#include <stdlib.h>
#include <string.h>

static const char config[] = "{\"frames\":8,\"core\":1,\"host\":4,\"leaves\":1,\"approved\":"
                             "[\"ba7816bf8f01cfea414140de5dae2223b00361a396177a9cb410ff61f20015ad\"]}";
static kcore core;
static uint8_t text[9000];

static void print_digest(void) {
    size_t used;
    if (kcore_digest(&core, text, 32, &used) != KCORE_DONE || used != 32) exit(2);
    for (size_t at = 0; at < used; at++) printf("%02x", text[at]);
    putchar('\n');
}

int main(int count, char **words) {
    char line[9000];
    size_t used;
    if (count < 2 || kcore_boot(&core, (const uint8_t *)config, strlen(config)) != KCORE_DONE) return 1;
    if (!fgets(line, sizeof line, stdin)) return 3;
    if (count == 2) print_digest();
    while (fgets(line, sizeof line, stdin)) {
        size_t length = strlen(line) - 1;
        if (kcore_call(&core, (const uint8_t *)line, length, text, sizeof text, &used) != KCORE_DONE) return 4;
        if (count == 2) print_digest();
    }
    if (count > 2) print_digest();
    FILE *out = fopen(words[1], "wb");
    if (!out) return 5;
    for (size_t n = 0; kcore_redacted_line(&core, n, text, sizeof text, &used) == KCORE_DONE; n++) fwrite(text, 1, used, out);
    if (fclose(out) != 0 || kcore_turn(&core) != KCORE_DONE) return 6;
    print_digest();
    return kcore_end(&core) == KCORE_DONE ? 0 : 7;
}
