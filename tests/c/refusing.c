/* Refuses each growth of memory in turn, over a session from its boot to its end: a function that says KCORE_MEMORY has
 * changed nothing, and called again it answers as it does in ample memory. Linked with --wrap=malloc,--wrap=realloc. */
#include <kcore.h>
#include <stdio.h>
#include <stdlib.h>
#include <string.h>

void *__real_malloc(size_t size), *__real_realloc(void *block, size_t size);
static unsigned long met, refused;
void *__wrap_malloc(size_t size) { return ++met == refused ? NULL : __real_malloc(size); }
void *__wrap_realloc(void *block, size_t size) { return ++met == refused ? NULL : __real_realloc(block, size); }

static const char config[] = "{\"frames\":8,\"core\":1,\"host\":4,\"leaves\":1,\"approved\":"
                             "[\"ba7816bf8f01cfea414140de5dae2223b00361a396177a9cb410ff61f20015ad\"]}";
/* What is asked, and what the rules answer. */
static const char *const calls[][2] = {
    {"hfault 1", "done"}, {"hwrite 1 0 616263", "done"}, {"hread 1 0 3", "data 616263"}, {"regvm 0", "done"},
    {"regvcpu 0 0", "done"}, {"setboot 0 0 3", "image 0"}, {"remap 0 0 1", "done"}, {"verify 0", "done"},
    {"gread 0 0 0 0 3", "data 616263"}, {"gread 0 0 1 0 1", "fault 1"}, {"map 0 0 2", "done"},
    {"gwrite 0 0 1 0 2a", "done"},
    {"gread 0 0 1 0 1", "data 2a"}, {"grant 0 0 1", "done"}, {"hfault 2", "done"}, {"hread 2 0 1", "data 2a"},
    {"revoke 0 0 1", "done"}, {"hread 2 0 1", "refused not-present"}, {"clear 0", "done"}};
enum { CALLS = sizeof calls / sizeof *calls };
static uint8_t text[9000];

static int is_line(const char *line, size_t used) {
    return used == strlen(line) + 1 && memcmp(text, line, used - 1) == 0 && text[used - 1] == '\n';
}

/* The same by numbers, in the next volume, of the frames and the slot that the first one left. */
static const struct {
    kcore_request request;
    const char *bytes;
    kcore_answer answer;
    const char *reply;
} numbered[] = {{{KCORE_HFAULT, {3}}, "", {KCORE_IS_DONE, 0}, ""},
                {{KCORE_HWRITE, {3, 0}}, "abc", {KCORE_IS_DONE, 0}, ""},
                {{KCORE_HREAD, {3, 0, 3}}, "", {KCORE_IS_DATA, 3}, "abc"},
                {{KCORE_HWRITE, {3, 8}}, "longer than what a value holds by itself", {KCORE_IS_DONE, 0}, ""},
                {{KCORE_HREAD, {3, 8, 40}}, "", {KCORE_IS_DATA, 40}, "longer than what a value holds by itself"},
                {{KCORE_REGVM, {1}}, "", {KCORE_IS_DONE, 0}, ""},
                {{KCORE_REGVCPU, {1, 0}}, "", {KCORE_IS_DONE, 0}, ""},
                {{KCORE_SETBOOT, {1, 0, 3}}, "", {KCORE_IS_IMAGE, 0}, ""},
                {{KCORE_REMAP, {1, 0, 3}}, "", {KCORE_IS_DONE, 0}, ""},
                {{KCORE_VERIFY, {1}}, "", {KCORE_IS_DONE, 0}, ""},
                {{KCORE_GREAD, {1, 0, 1, 0, 1}}, "", {KCORE_IS_FAULT, 1}, ""},
                {{KCORE_MAP, {1, 0, 4}}, "", {KCORE_IS_DONE, 0}, ""},
                {{KCORE_GWRITE, {1, 0, 1, 0}}, "*", {KCORE_IS_DONE, 0}, ""},
                {{KCORE_GRANTR, {1, 0, 0, 2}}, "", {KCORE_IS_DONE, 0}, ""},
                {{KCORE_REVOKER, {1, 0, 0, 2}}, "", {KCORE_IS_DONE, 0}, ""},
                {{KCORE_HREAD, {4, 0, 1}}, "", {KCORE_IS_REFUSED, 0}, ""},
                {{KCORE_CLEAR, {1}}, "", {KCORE_IS_DONE, 0}, ""}};
enum { NUMBERED = sizeof numbered / sizeof *numbered };

/* Makes all of them. Returns how often KCORE_MEMORY was said, or less than 0. A function that says so changes neither
 * the answer nor the number of calls that the volume has room for. */
static int run_numbered(kcore *core) {
    int times = 0;
    for (size_t n = 0; n < NUMBERED; n++) {
        const char *bytes = numbered[n].bytes, *reply = numbered[n].reply;
        uint32_t status, vm = KCORE_NONE;
        kcore_answer answer = {99, 99};
        kcore_size size;
        size_t used = 1;
        if (numbered[n].request.call >= KCORE_GREAD && numbered[n].request.call < KCORE_CLEAR) vm = 1;
        while ((status = kcore_do_by(core, vm, 0, &numbered[n].request, (const uint8_t *)bytes, strlen(bytes), text, 4096, &used,
                                     &answer)) == KCORE_MEMORY) {
            times++;
            if (used || answer.kind != 99 || kcore_sizes(core, &size) || size.left != 65536 - n) return -20;
        }
        if (status != KCORE_DONE || answer.kind != numbered[n].answer.kind) return -21;
        if (answer.kind != KCORE_IS_REFUSED && answer.number != numbered[n].answer.number) return -22;
        if (used != strlen(reply) || memcmp(text, reply, used)) return -23;
    }
    kcore_frame_change changes[3];
    size_t count;
    /* The two frames of the VM are nobody's now. */
    if (kcore_changes(core, changes, 3, &count) || count != 2 || changes[0].frame != 3 || changes[1].frame != 4) return -24;
    return changes[0].before.owner == KCORE_VM && changes[1].after.owner == KCORE_FREE ? times : -25;
}

/* A whole session in which one growth is refused, or none. Returns how often KCORE_MEMORY was said, or less than 0. */
static int run(unsigned long at) {
    kcore core = {0};
    size_t used = 1;
    uint32_t status;
    int times = 0;
    met = 0;
    refused = at;
    while ((status = kcore_boot(&core, (const uint8_t *)config, strlen(config))) == KCORE_MEMORY) {
        times++;
        if (kcore_call(&core, (const uint8_t *)"take", 4, text, sizeof text, &used) != KCORE_CLOSED || used) return -1;
    }
    if (status != KCORE_DONE) return -2;
    for (size_t n = 0; n < CALLS; n++) {
        const char *call = calls[n][0];
        const uint8_t *bytes = (const uint8_t *)call;
        while ((status = kcore_call(&core, bytes, strlen(call), text, sizeof text, &used)) == KCORE_MEMORY) {
            times++;
            if (used) return -3;
        }
        if (status != KCORE_DONE || !is_line(calls[n][1], used)) return -4;
    }
    for (size_t n = 0; n <= CALLS + 1; n++) {
        while ((status = kcore_line(&core, n, text, sizeof text, &used)) == KCORE_MEMORY) {
            times++;
            if (used) return -5;
        }
        const char *line = n == 0 ? "kcore-trace 2" : n <= CALLS ? calls[n - 1][0] : NULL;
        if (line ? status != KCORE_DONE || !is_line(line, used) : status != KCORE_NO_SUCH_LINE || used) return -6;
    }
    for (size_t n = 0; n <= CALLS + 1; n++) {
        while ((status = kcore_redacted_line(&core, n, text, sizeof text, &used)) == KCORE_MEMORY) {
            times++;
            if (used) return -11;
        }
        if (status != (n <= CALLS ? KCORE_DONE : KCORE_NO_SUCH_LINE)) return -12;
    }
    if (kcore_digest(&core, text, sizeof text, &used) != KCORE_DONE || used != 32) return -13;
    while ((status = kcore_turn(&core)) == KCORE_MEMORY) {
        times++;
        if (kcore_line(&core, CALLS + 1, text, sizeof text, &used) == KCORE_DONE) return -7;
    }
    if (status != KCORE_DONE) return -8;
    while ((status = kcore_line(&core, 1, text, sizeof text, &used)) == KCORE_MEMORY) times++;
    if (status != KCORE_NO_SUCH_LINE) return -9;
    int more = run_numbered(&core);
    if (more < 0) return more;
    times += more;
    return kcore_end(&core) == KCORE_DONE && kcore_end(&core) == KCORE_CLOSED ? times : -10;
}

int main(void) {
    int times = run(0), all = 0;
    unsigned long growths = met;
    if (times != 0) return printf("in ample memory: %d\n", times), 1;
    for (unsigned long at = 1; at <= growths; at++) {
        times = run(at);
        if (times < 0 || times > 1) return printf("with growth %lu refused: %d\n", at, times), 1;
        all += times;
    }
    printf("%lu growths, each refused in turn: %d were reported, and all was answered when asked again\n", growths,
           all);
    return all == 0;
}
