/* How long a call of the C library takes: by numbers (kcore_do_by), by numbers with what it changed read after it
 * (kcore_changes), and by a line (kcore_call_by). In nanoseconds of the thread's processor time; for each, the least of
 * several rounds, which take turns. A line is spelled beforehand, and its reply is not read. */
#define _POSIX_C_SOURCE 199309L
#include <kcore.h>
#include <stdio.h>
#include <stdlib.h>
#include <string.h>
#include <time.h>

enum { PAGE = 4096, ROUNDS = 9, CALLS = 4000 };
static const char config[] = "{\"frames\":8192,\"core\":64,\"host\":2048,\"leaves\":64,\"approved\":[]}";
static kcore core;
static uint8_t page[PAGE], out[20000];
static char line[20000];

static void done(uint32_t status, const char *what) {
    if (status == KCORE_DONE) return;
    printf("%s: status %u\n", what, (unsigned)status);
    exit(1);
}

static double now(void) {
    struct timespec at;
    clock_gettime(CLOCK_THREAD_CPUTIME_ID, &at);
    return (double)at.tv_sec * 1e9 + (double)at.tv_nsec;
}

/* Turns the core over if the volume does not have room for the calls of a round. */
static void turn(void) {
    kcore_size size;
    done(kcore_sizes(&core, &size), "kcore_sizes");
    if (size.left < CALLS) done(kcore_turn(&core), "kcore_turn");
}

static double by_numbers(const kcore_request *request, size_t bytes, uint32_t kind, int is_followed) {
    kcore_frame_change changes[1];
    kcore_answer answer;
    size_t used, count;
    turn();
    double start = now();
    for (int n = 0; n < CALLS; n++) {
        done(kcore_do_by(&core, KCORE_NONE, 0, request, page, bytes, out, PAGE, &used, &answer), "kcore_do_by");
        if (is_followed) done(kcore_changes(&core, changes, 1, &count), "kcore_changes");
        if (answer.kind != kind) done(KCORE_NO_SUCH_CALL, "another reply");
    }
    return (now() - start) / CALLS;
}

static double by_line(size_t length) {
    size_t used;
    turn();
    double start = now();
    for (int n = 0; n < CALLS; n++)
        done(kcore_call_by(&core, KCORE_NONE, 0, (const uint8_t *)line, length, out, sizeof out, &used), "kcore_call_by");
    return (now() - start) / CALLS;
}

static void compare(const char *what, kcore_request request, size_t bytes, uint32_t kind) {
    double least[3] = {1e18, 1e18, 1e18};
    for (int round = 0; round < ROUNDS; round++) {
        double seen[3] = {by_numbers(&request, bytes, kind, 0), by_numbers(&request, bytes, kind, 1), by_line(strlen(line))};
        for (int n = 0; n < 3; n++)
            if (seen[n] < least[n]) least[n] = seen[n];
    }
    printf("%-20s %8.0f %10.0f %8.0f %8.1f\n", what, least[0], least[1], least[2], least[2] / least[0]);
}

int main(void) {
    done(kcore_boot(&core, (const uint8_t *)config, strlen(config)), "kcore_boot");
    for (size_t n = 0; n < PAGE; n++) page[n] = (uint8_t)(n * 7);
    strcpy(line, "hfault 100");
    by_line(strlen(line));
    printf("%-20s %8s %10s %8s %8s\n", "call", "numbers", "followed", "line", "times");
    strcpy(line, "hfault 0");
    compare("hfault, refused", (kcore_request){KCORE_HFAULT, {0}}, 0, KCORE_IS_REFUSED);
    strcpy(line, "hread 100 0 1");
    compare("hread of a byte", (kcore_request){KCORE_HREAD, {100, 0, 1}}, 0, KCORE_IS_DATA);
    strcpy(line, "hread 100 0 4096");
    compare("hread of a page", (kcore_request){KCORE_HREAD, {100, 0, PAGE}}, 0, KCORE_IS_DATA);
    int at = sprintf(line, "hwrite 100 0 ");
    for (size_t n = 0; n < PAGE; n++) at += sprintf(line + at, "%02x", page[n]);
    compare("hwrite of a page", (kcore_request){KCORE_HWRITE, {100, 0}}, PAGE, KCORE_IS_DONE);
    done(kcore_end(&core), "kcore_end");
    return 0;
}
