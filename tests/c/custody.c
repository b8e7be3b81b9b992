/* A random life of three VMs. A shadow of all records follows only what kcore_change reports, and is compared with what
 * the core has; a second session is asked the same by numbers, and has the same replies, records and trace.
 *
 * usage: custody ROUNDS */
#include <kcore.h>
#include <stdio.h>
#include <stdlib.h>
#include <string.h>

enum { PAGE = 4096, MOST_CHANGES = 4096, MOST_TEXT = 20000 };
static const char config[] = "{\"version\":1,\"frames\":256,\"core\":8,\"host\":32,\"leaves\":16,\"approved\":"
                             "[\"ad7facb2586fc6e966c004d7d1d16b024f5805ff7cb47c7a85dabd8b48892ca7\"]}";
/* The first is asked by lines, the other by numbers. */
static kcore core, other;
static kcore_size size;
static kcore_record *shadow;
static unsigned long calls, refused, changed, cleared;

#define HOLDS(fact) \
    do { \
        if (!(fact)) { \
            printf("line %d: %s\n", __LINE__, #fact); \
            exit(1); \
        } \
    } while (0)

static uint32_t below(uint32_t limit) { return (uint32_t)rand() % limit; }
static int same(const kcore_record *a, const kcore_record *b) { return !memcmp(a, b, sizeof *a); }

/* ---- a line as numbers, and a reply as a line */

static const char *const names[] = {"take",  "give",  "hfault", "hread", "hwrite", "regvm",  "regvcpu", "setboot", "remap", "verify",
                                    "map",   "gread", "gwrite", "grant", "revoke", "grantr", "revoker", "drop",    "clear"};

static kcore_request numbers_of(const char *line) {
    kcore_request request = {99, {0}};
    char name[20];
    int at = 0, more = 0;
    HOLDS(sscanf(line, "%19s%n", name, &at) == 1);
    for (uint32_t n = 0; n < sizeof names / sizeof *names; n++)
        if (!strcmp(name, names[n])) request.call = n;
    for (int n = 0; n < 5 && sscanf(line + at, "%u%n", &request.number[n], &more) == 1; n++) at += more;
    return request;
}

/* The line of a reply; for a refusal nothing, since its number is not a name. */
static const char *line_of(kcore_answer answer, const uint8_t *bytes, size_t used) {
    static char line[2 * PAGE + 8];
    static const char *const forms[] = {"done\n", "frame %u\n", "image %u\n", "data ", "fault %u\n", "rejected %u\n", ""};
    int at = sprintf(line, forms[answer.kind], (unsigned)answer.number);
    if (answer.kind != KCORE_IS_DATA) return line;
    for (size_t n = 0; n < used; n++) at += sprintf(line + at, "%02x", bytes[n]);
    strcpy(line + at, "\n");
    return line;
}

static void ask_other(uint32_t vm, uint32_t vcpu, const char *line, const char *reply) {
    kcore_request request = numbers_of(line);
    kcore_answer answer = {99, 99};
    uint8_t bytes[PAGE];
    size_t used = 9;
    uint32_t another = vm == KCORE_NONE ? 0 : KCORE_NONE;
    HOLDS(kcore_do_by(&other, vm, vcpu, &request, bytes, 0, bytes, PAGE - 1, &used, &answer) == KCORE_NO_ROOM && !used);
    HOLDS(kcore_do_by(&other, another, vcpu, &request, bytes, 0, bytes, PAGE, &used, &answer) == KCORE_NOT_YOURS && !used);
    HOLDS(answer.kind == 99 && answer.number == 99);
    uint32_t status = kcore_do_by(&other, vm, vcpu, &request, bytes, 0, bytes, PAGE, &used, &answer);
    if (status == KCORE_HISTORY_FULL) {
        HOLDS(!kcore_turn(&other));
        status = kcore_do(&other, &request, bytes, 0, bytes, PAGE, &used, &answer);
    }
    HOLDS(!status && answer.kind <= KCORE_IS_REFUSED && used == (answer.kind == KCORE_IS_DATA ? answer.number : 0));
    if (answer.kind == KCORE_IS_REFUSED)
        HOLDS(!strncmp(reply, "refused ", 8) && answer.number >= 1 && answer.number <= 26);
    else
        HOLDS(!strcmp(line_of(answer, bytes, used), reply));
}

/* ---- the shadow */

/* Follows the changes of the last call, one by one and all at once. Returns how many there are. */
static size_t follow(void) {
    static kcore_frame_change all[MOST_CHANGES + 1];
    kcore_frame_change change;
    size_t n = 0, count = 77;
    uint32_t last = 0, status;
    memset(all, 0xa5, sizeof all);
    HOLDS(!kcore_changes(&core, all, MOST_CHANGES, &count) && count <= MOST_CHANGES);
    HOLDS(all[count].frame == 0xa5a5a5a5);
    while (!(status = kcore_change(&core, n, &change))) {
        HOLDS(n < count && !memcmp(&change, &all[n], sizeof change));
        HOLDS(change.frame < size.frames && (n == 0 || change.frame > last));
        HOLDS(same(&shadow[change.frame], &change.before) && !same(&change.before, &change.after));
        shadow[change.frame] = change.after;
        last = change.frame;
        n++;
    }
    HOLDS(status == KCORE_NO_SUCH_CHANGE && n == count);
    if (n) HOLDS(kcore_changes(&core, all, n - 1, &count) == KCORE_NO_ROOM && count == n);
    return n;
}

static void ask(uint32_t vm, uint32_t vcpu, const char *line) {
    static uint8_t out[MOST_TEXT];
    size_t used;
    uint32_t status = kcore_call_by(&core, vm, vcpu, (const uint8_t *)line, strlen(line), out, sizeof out - 1, &used);
    if (status == KCORE_HISTORY_FULL) {
        HOLDS(!kcore_turn(&core));
        status = kcore_call_by(&core, vm, vcpu, (const uint8_t *)line, strlen(line), out, sizeof out - 1, &used);
    }
    HOLDS(!status);
    out[used] = 0;
    calls++;
    ask_other(vm, vcpu, line, (const char *)out);
    size_t n = follow();
    changed += n;
    if (!strncmp(line, "clear", 5)) cleared += n;
    if (!strncmp((const char *)out, "refused", 7)) {
        refused++;
        HOLDS(n == 0);
    }
}

/* Every record is the shadow's, each frame is found once by its owner, and by its guest frame. */
static void compare(void) {
    uint32_t found = 0, at;
    kcore_record record;
    for (uint32_t owner = KCORE_CORE; owner <= KCORE_VM + 1; owner++)
        for (uint32_t v = 0; v < 5; v++) {
            uint32_t vm = v == 4 ? KCORE_NONE : v, wanted = 0;
            for (at = 0; !kcore_next(&core, owner, vm, at, &at); at++, wanted++, found++) {
                while (shadow[wanted].owner != owner || shadow[wanted].vm != vm) wanted++;
                HOLDS(wanted == at);
            }
        }
    HOLDS(found == size.frames);
    for (uint32_t frame = 0; frame < size.frames; frame++) {
        HOLDS(!kcore_record_of(&core, frame, &record) && same(&record, &shadow[frame]));
        if (record.owner == KCORE_VM && record.gfn != KCORE_NONE)
            HOLDS(!kcore_frame_of(&core, record.vm, record.gfn, &at) && at == frame);
    }
    HOLDS(kcore_record_of(&core, size.frames, &record) == KCORE_NO_SUCH_FRAME);
}

/* The forms of calls: slot, virtual processor, guest frame, frame, count. */
static const char *const of_host[] = {"take",      "take",      "give F",     "hfault F", "hfault F", "regvm V",  "regvcpu V C", "setboot V 0 4096",
                                      "remap V 0 F", "remap V 0 F", "verify V", "map V C F", "map V C F", "hread F 0 4", "clear V"};
static const char *const of_guest[] = {"gread V C G 0 4", "gread V C G 0 4", "grant V C G", "revoke V C G",
                                       "grantr V C G N",  "revoker V C G N", "drop V C G"};

static void fill(char *line, const char *form, const uint32_t numbers[5]) {
    static const char letters[] = "VCGFN";
    for (; *form; form++) {
        const char *letter = strchr(letters, *form);
        line += letter ? sprintf(line, "%u", (unsigned)numbers[letter - letters]) : sprintf(line, "%c", *form);
    }
}

static void live(unsigned long rounds) {
    char line[100];
    srand(7);
    for (unsigned long round = 0; round < rounds; round++) {
        uint32_t numbers[5] = {below(3), below(2), below(12), below(size.frames), 1 + below(3)};
        int is_host = below(24) < 16;
        const char *form = is_host ? of_host[below(15)] : of_guest[below(7)];
        if (!strncmp(form, "clear", 5) && below(12)) continue;
        fill(line, form, numbers);
        ask(is_host ? KCORE_NONE : numbers[0], numbers[1], line);
        if (round % 64 == 0) compare();
    }
    compare();
}

/* ---- what is asked at the beginning, and at the end */

static void begin(void) {
    kcore_record record = {9, 9, 9, 9, 9};
    kcore_frame_change change;
    uint32_t frame = 9;
    size_t count = 9;
    HOLDS(kcore_change(&core, 0, &change) == KCORE_CLOSED && kcore_record_of(&core, 0, &record) == KCORE_CLOSED && record.owner == 9);
    HOLDS(kcore_frame_of(&core, 0, 0, &frame) == KCORE_CLOSED && kcore_next(&core, 0, 0, 0, &frame) == KCORE_CLOSED && frame == 9);
    HOLDS(kcore_sizes(&core, &size) == KCORE_CLOSED && kcore_changes(&core, &change, 1, &count) == KCORE_CLOSED && count == 0);
    HOLDS(!kcore_boot(&core, (const uint8_t *)config, strlen(config)) && !kcore_boot(&other, (const uint8_t *)config, strlen(config)));
    HOLDS(!kcore_sizes(&core, &size));
    HOLDS(size.frames == 256 && size.core == 8 && size.host == 32 && size.slots == 16 && size.left == 65536);
    HOLDS(kcore_change(&core, 0, &change) == KCORE_NO_SUCH_CHANGE && !kcore_changes(&core, &change, 1, &count) && count == 0);
    HOLDS(kcore_frame_of(&core, 0, 0, &frame) == KCORE_NO_SUCH_FRAME && frame == 9);
    shadow = calloc(size.frames, sizeof *shadow);
    for (frame = 0; frame < size.frames; frame++) HOLDS(!kcore_record_of(&core, frame, &shadow[frame]));
}

/* What each may say in its own name. */
static void ask_for_others(void) {
    static uint8_t out[MOST_TEXT];
    static const struct {
        uint32_t vm, vcpu;
        const char *line;
        uint32_t status;
    } rows[] = {{0, 0, "take", KCORE_NOT_YOURS},          {KCORE_NONE, 0, "grant 0 0 1", KCORE_NOT_YOURS},
                {0, 1, "grant 0 0 1", KCORE_NOT_YOURS},   {1, 0, "revoker 0 0 1 2", KCORE_NOT_YOURS},
                {KCORE_NONE, 0, "drop 0 0 1", KCORE_NOT_YOURS}, {1, 0, "grant", KCORE_BAD_LINE}};
    kcore_size then;
    size_t used;
    for (size_t n = 0; n < sizeof rows / sizeof *rows; n++) {
        const uint8_t *line = (const uint8_t *)rows[n].line;
        used = 9;
        HOLDS(kcore_call_by(&core, rows[n].vm, rows[n].vcpu, line, strlen(rows[n].line), out, sizeof out, &used) == rows[n].status);
        HOLDS(used == 0);
    }
    HOLDS(!kcore_sizes(&core, &then) && then.left == size.left);
}

static void compare_both(void) {
    static uint8_t one[9000], two[9000];
    size_t first, second, n = 0;
    kcore_record a, b;
    for (; !kcore_line(&core, n, one, sizeof one, &first); n++)
        HOLDS(!kcore_line(&other, n, two, sizeof two, &second) && first == second && !memcmp(one, two, first));
    HOLDS(kcore_line(&other, n, two, sizeof two, &second) == KCORE_NO_SUCH_LINE);
    for (uint32_t frame = 0; frame < size.frames; frame++)
        HOLDS(!kcore_record_of(&core, frame, &a) && !kcore_record_of(&other, frame, &b) && same(&a, &b));
}

/* Bytes go through, those after the reply's stay as they were, and what is not a call is not made. */
static void pass_bytes(void) {
    uint8_t given[PAGE + 1], out[PAGE];
    kcore_request request = {KCORE_HWRITE, {0}};
    kcore_answer answer = {99, 99};
    size_t used;
    for (uint32_t frame = 0; frame < size.frames; frame++)
        if (shadow[frame].present) request.number[0] = frame;
    for (size_t n = 0; n < sizeof given; n++) given[n] = (uint8_t)(n * 7);
    HOLDS(!kcore_do(&other, &request, given, PAGE, out, PAGE, &used, &answer) && answer.kind == KCORE_IS_DONE && !used);
    request = (kcore_request){KCORE_HREAD, {request.number[0], 0, PAGE}};
    HOLDS(!kcore_do(&other, &request, given, 0, out, PAGE, &used, &answer) && answer.kind == KCORE_IS_DATA);
    HOLDS(used == PAGE && answer.number == PAGE && !memcmp(given, out, PAGE));
    memset(out, 0xa5, sizeof out);
    request = (kcore_request){KCORE_HREAD, {request.number[0], 1, 3}};
    HOLDS(!kcore_do(&other, &request, given, 0, out, PAGE, &used, &answer) && used == 3 && !memcmp(given + 1, out, 3) && out[3] == 0xa5);
    answer.kind = 99;
    request.call = KCORE_HWRITE;
    HOLDS(kcore_do(&other, &request, given, 0, out, PAGE, &used, &answer) == KCORE_NO_SUCH_CALL && !used);
    HOLDS(kcore_do(&other, &request, given, PAGE + 1, out, PAGE, &used, &answer) == KCORE_NO_SUCH_CALL && !used);
    request.call = KCORE_CLEAR + 1;
    HOLDS(kcore_do(&other, &request, given, 4, out, PAGE, &used, &answer) == KCORE_NO_SUCH_CALL && answer.kind == 99);
    HOLDS(!kcore_end(&other) && kcore_do(&other, &request, given, 4, out, PAGE, &used, &answer) == KCORE_CLOSED && answer.kind == 99);
}

int main(int argc, char **argv) {
    begin();
    ask_for_others();
    live(argc > 1 ? strtoul(argv[1], 0, 10) : 200000);
    compare_both();
    pass_bytes();
    HOLDS(!kcore_end(&core));
    free(shadow);
    /* A life in which nothing happens shows nothing. */
    HOLDS(refused < calls && changed > calls / 20 && cleared > 0);
    printf("%lu calls, %lu of them refused, and %lu changes, %lu of them by clear\n", calls, refused, changed, cleared);
    return 0;
}
