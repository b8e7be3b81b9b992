/* The core: each call is in the trace before it has any effect. */
#include "monitor.h"
#include <errno.h>
#include <fcntl.h>
#include <limits.h>
#include <stdio.h>
#include <stdlib.h>
#include <string.h>
#include <sys/mman.h>
#include <sys/stat.h>
#include <time.h>
#include <unistd.h>

double now(void) {
    struct timespec time;
    clock_gettime(CLOCK_MONOTONIC, &time);
    return time.tv_sec * 1e6 + time.tv_nsec / 1e3;
}

/* Ends the program for a status that no caller of the monitor's can bring about. */
static void expect(uint32_t status, const char *what) {
    if (status == KCORE_DONE) return;
    end_with("%s: status %u", what, (unsigned)status);
}

/* A file of a volume. Its number has five digits, so that names sort in their order. */
static void volume_path(const struct core *core, unsigned volume, const char *end, char path[PATH_MAX]) {
    if (snprintf(path, PATH_MAX, "%s.%05u%s", core->path, volume, end) < PATH_MAX) return;
    errno = ENAMETOOLONG;
    fail("the trace");
}

static void open_volume(struct core *core) {
    char path[PATH_MAX];
    volume_path(core, ++core->volume, "", path);
    core->trace = open(path, O_WRONLY | O_CREAT | O_TRUNC | O_CLOEXEC, 0600);
    if (core->trace < 0) fail(path);
    core->written = 0;
}

/* Keeps the text of the state in which a volume begins. It is whole before it has its name. */
static void keep_state(struct core *core, unsigned volume) {
    size_t room = 8600 * (size_t)core->size.frames + 600000, used;
    char path[PATH_MAX], part[PATH_MAX];
    if (!core->keeps_states) return;
    volume_path(core, volume, ".state", path);
    volume_path(core, volume, ".part", part);
    int file = open(part, O_RDWR | O_CREAT | O_TRUNC | O_CLOEXEC, 0600);
    if (file < 0 || ftruncate(file, room)) fail(part);
    uint8_t *text = mmap(NULL, room, PROT_READ | PROT_WRITE, MAP_SHARED, file, 0);
    if (text == MAP_FAILED) fail(part);
    expect((core->redacted ? kcore_blank_state : kcore_state)(&core->session, text, room, &used), "kcore_state");
    if (munmap(text, room) || ftruncate(file, used) || close(file) || rename(part, path)) fail(path);
}

/* Writes each line at once, so that even a monitor that is killed leaves a trace. */
static void write_trace(struct core *core) {
    uint32_t (*const line_of)(kcore *, size_t, uint8_t *, size_t, size_t *) =
        core->redacted ? kcore_redacted_line : kcore_line;
    size_t used;
    uint32_t status;
    while ((status = line_of(&core->session, core->written, core->line, core->line_room - 1, &used)) == KCORE_DONE) {
        if (write(core->trace, core->line, used) != (ssize_t)used) fail("the trace");
        core->written++;
    }
    if (status != KCORE_NO_SUCH_LINE) expect(status, "kcore_line");
}

/* Adds a line to a file. */
static void add(int file, const char *what, const char *line, int length) {
    if (length < 0 || write(file, line, length) != length) fail(what);
}

static const char *name_of(const char *path) {
    const char *slash = strrchr(path, '/');
    return slash ? slash + 1 : path;
}

/* Lists a volume that has ended: the names of its trace and, if they are kept, of the states before and after it. */
static void list_volume(struct core *core) {
    char trace[PATH_MAX], before[PATH_MAX], after[PATH_MAX], line[3 * PATH_MAX];
    volume_path(core, core->volume, "", trace);
    volume_path(core, core->volume, ".state", before);
    volume_path(core, core->volume + 1, ".state", after);
    int length = core->keeps_states ? snprintf(line, sizeof line, "%s\t%s\t%s\n", name_of(trace), name_of(before),
                                               name_of(after))
                                    : snprintf(line, sizeof line, "%s\n", name_of(trace));
    add(core->list, "the list of volumes", line, length);
}

/* The line that is published of a volume: its number, its calls so far, and the digest of their redacted text. */
static int published_line(struct core *core, char line[200]) {
    char digits[65];
    uint8_t digest[32];
    size_t used;
    unsigned calls = core->written - 1; /* the header, with its head, is a line too */
    expect(kcore_digest(&core->session, digest, sizeof digest, &used), "kcore_digest");
    for (size_t byte = 0; byte < used; byte++) sprintf(digits + 2 * byte, "%02x", digest[byte]);
    return snprintf(line, 200, "{\"volume\":%u,\"calls\":%u,\"trace_sha256\":\"%s\"}\n", core->volume, calls, digits);
}

/* Ends a volume. What is listed is whole, and what is published is listed, whenever this program is killed. */
static void end_volume(struct core *core) {
    char line[200];
    int length = core->published < 0 ? 0 : published_line(core, line);
    if (close(core->trace)) fail("the trace");
    expect(kcore_turn(&core->session), "kcore_turn");
    keep_state(core, core->volume + 1);
    list_volume(core);
    if (core->published >= 0) add(core->published, "what is published", line, length);
}

static void next_volume(struct core *core) {
    end_volume(core);
    open_volume(core);
    write_trace(core);
}

static bool is_full(const struct core *core) { return core->most && core->written > core->most; }

/* What follows a call that was answered, before anything that it changed is carried out. */
static void answered(struct core *core, double begun) {
    write_trace(core);
    expect(kcore_changes(&core->session, core->changes, core->size.frames, &core->count), "kcore_changes");
    core->calls++;
    core->asking += now() - begun;
}

static char *read_whole(const char *path, size_t *length) {
    static const size_t room = 65536;
    char *text = malloc(room);
    FILE *file = fopen(path, "r");
    if (!text || !file) fail(path);
    *length = fread(text, 1, room, file);
    if (ferror(file)) fail(path);
    fclose(file);
    return text;
}

/* Opens the session from the text of a state. */
static void resume(struct core *core, const char *path) {
    struct stat about;
    uint32_t place = 0, status;
    int file = open(path, O_RDONLY | O_CLOEXEC);
    if (file < 0 || fstat(file, &about)) fail(path);
    const uint8_t *text = about.st_size ? mmap(NULL, about.st_size, PROT_READ, MAP_PRIVATE, file, 0) : (uint8_t *)"";
    if (text == MAP_FAILED) fail(path);
    status = kcore_resume(&core->session, text, about.st_size, &place);
    if (status) end_with("%s: refused at %u: status %u", path, (unsigned)place, (unsigned)status);
    if (about.st_size) munmap((void *)text, about.st_size);
    close(file);
}

static void boot(struct core *core, const char *path) {
    size_t length;
    char *text = read_whole(path, &length);
    expect(kcore_boot_history(&core->session, (const uint8_t *)text, length), path);
    free(text);
}

void core_publish(struct core *core, const char *path) {
    struct stat about;
    core->published = open(path, O_WRONLY | O_CREAT | O_APPEND | O_CLOEXEC, 0644);
    if (core->published < 0 || fstat(core->published, &about)) fail(path);
    if (S_ISREG(about.st_mode) && about.st_size) end_with("%s: it has another history", path);
}

void core_open(struct core *core, const char *path, bool is_state) {
    if (is_state) resume(core, path);
    else boot(core, path);
    expect(kcore_sizes(&core->session, &core->size), "kcore_sizes");
    core->reply_room = kcore_longest_reply() + 1;
    core->line_room = kcore_longest_line() + 1;
    core->reply = malloc(core->reply_room);
    core->line = malloc(core->line_room);
    core->changes = calloc(core->size.frames, sizeof *core->changes);
    if (!core->reply || !core->line || !core->changes) fail("memory");
}

/* The number of the volume that is filled, as the head of its trace says it; 1 if it has none. */
static unsigned volume_of(struct core *core) {
    size_t used;
    expect(kcore_line(&core->session, 0, core->line, core->line_room - 1, &used), "kcore_line");
    core->line[used] = 0;
    const char *said = strstr((const char *)core->line, "\nvolume ");
    return said ? strtoul(strchr(said, ' '), NULL, 10) : 1;
}

void core_trace(struct core *core, const char *trace, bool redacted) {
    char path[PATH_MAX];
    core->path = trace;
    core->redacted = redacted;
    core->volume = volume_of(core) - 1;
    if (snprintf(path, sizeof path, "%s.list", trace) >= (int)sizeof path) errno = ENAMETOOLONG, fail("the list");
    core->list = open(path, O_WRONLY | O_CREAT | O_TRUNC | O_APPEND | O_CLOEXEC, 0600);
    if (core->list < 0) fail(path);
    keep_state(core, core->volume + 1);
    open_volume(core);
    write_trace(core);
}

void core_close(struct core *core) {
    end_volume(core);
    if (close(core->list) || (core->published >= 0 && close(core->published))) fail("the list of volumes");
    expect(kcore_end(&core->session), "kcore_end");
    free(core->reply);
    free(core->line);
    free(core->changes);
}

const char *core_ask(struct core *core, const char *line, size_t length) {
    const uint8_t *bytes = (const uint8_t *)line;
    double begun = now();
    size_t used;
    uint32_t status;
    if (is_full(core)) next_volume(core);
    while ((status = kcore_call_by(&core->session, KCORE_NONE, 0, bytes, length, core->reply, core->reply_room - 1,
                                   &used)) == KCORE_HISTORY_FULL)
        next_volume(core);
    core->count = 0;
    if (status == KCORE_BAD_LINE) return "not a call";
    if (status == KCORE_NOT_YOURS) return "not yours";
    if (status == KCORE_MEMORY) return "no memory";
    expect(status, "kcore_call_by");
    core->reply[used - 1] = 0;
    answered(core, begun);
    return (const char *)core->reply;
}

kcore_answer core_do(struct core *core, uint32_t vm, uint32_t vcpu, kcore_request request, const uint8_t *page) {
    const uint8_t *bytes = page ? page : core->reply; /* in the second case none of them */
    double begun = now();
    kcore_answer answer;
    size_t used;
    uint32_t status;
    if (is_full(core)) next_volume(core);
    while ((status = kcore_do_by(&core->session, vm, vcpu, &request, bytes, page ? PAGE : 0, core->line,
                                 core->line_room - 1, &used, &answer)) == KCORE_HISTORY_FULL)
        next_volume(core);
    expect(status, "kcore_do_by");
    answered(core, begun);
    return answer;
}

kcore_record core_record_of(struct core *core, uint32_t frame) {
    kcore_record record;
    expect(kcore_record_of(&core->session, frame, &record), "kcore_record_of");
    return record;
}
