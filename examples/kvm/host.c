/* The host: it loads images, supplies frames and, if it is hostile, tries what it may not do. It does everything
 * through its three pipes and its own memory. */
#include "disk.h"
#include <errno.h>
#include <fcntl.h>
#include <poll.h>
#include <stdarg.h>
#include <stdio.h>
#include <stdlib.h>
#include <string.h>
#include <sys/mman.h>
#include <sys/ptrace.h>
#include <sys/uio.h>
#include <unistd.h>

enum { PAGE = 4096, IMAGE = 1048576, REMEMBERED = 32768, ANSWER = 64, REPLY = 8300 };
/* A page of a guest's code, and the guest frame from which on guests/talk.c has the pages that attacks are about. Linux
 * (guests/share.c) says by notices of PLACE and more where it has these. */
enum { CODE = 4, AT_SECRET = 512, PLACE = 1 << 20 };
enum { SECRET, LETTER, THROWN, PLACES };
/* What a Linux guest has in a file of its own, and in its letter. */
static const char text_of_a_file[] = "95ba2c4dd62ccc0aa99ab858329f7f878205fd6e0635b70129c1d0465eab5004";
static const uint64_t SECRET_TAG = 0x5ec4e7;

/* Lines that come through a pipe, and what has come of the next. */
struct lines {
    int file;
    char bytes[REPLY];
    size_t begin, end;
};

struct host {
    const struct plan *plan;
    uint8_t *memory;
    struct lines replies, events;
    const char *reply; /* the last one */
    uint32_t next;     /* frames of the host at boot from here on are unused */
    uint32_t frame_of[MOST_GUESTS][REMEMBERED]; /* what was supplied at the first guest frames */
    uint32_t places[MOST_GUESTS][PLACES];       /* guest frames */
    bool has_come[MOST_GUESTS];                 /* a guest that has notified: no Linux guest measures after that */
    bool runs[MOST_GUESTS];                     /* a guest whose first virtual processor has not ended */
    bool has_offered;
    unsigned storm, leaks;
    uint64_t chance;
    int pipes[MOST_GUESTS][2];
    struct host_disk disks[MOST_GUESTS];
};

/* One guest's pages, as the host reaches them. */
struct reached {
    struct host *host;
    uint32_t vm;
};

static _Noreturn void stop(const char *what) {
    fprintf(stderr, "%s: %s\n", what, strerror(errno));
    exit(3);
}

/* Calls. */

/* The next line, without its end, if it has come; else NULL. It stays until more is read. */
static const char *next_line(struct lines *lines) {
    char *line = lines->bytes + lines->begin, *end = memchr(line, '\n', lines->end - lines->begin);
    if (!end) return NULL;
    *end = 0;
    lines->begin = end + 1 - lines->bytes;
    return line;
}

/* Reads what comes next. When the monitor ends the run it closes the pipe, and the host ends. */
static void read_more(struct lines *lines) {
    memmove(lines->bytes, lines->bytes + lines->begin, lines->end - lines->begin);
    lines->end -= lines->begin;
    lines->begin = 0;
    ssize_t got = read(lines->file, lines->bytes + lines->end, sizeof lines->bytes - lines->end);
    if (got < 0 && errno == EINTR) return;
    if (got <= 0) exit(0);
    lines->end += got;
}

/* Sends bytes as a line, and returns the reply, which stays until the next one. */
static const char *send_line(struct host *host, const char *line, size_t length) {
    const struct iovec parts[] = {{(char *)line, length}, {"\n", 1}};
    if (writev(CALLS, parts, 2) != (ssize_t)length + 1) exit(0);
    while (!(host->reply = next_line(&host->replies))) read_more(&host->replies);
    return host->reply;
}

__attribute__((format(printf, 2, 3))) static const char *ask(struct host *host, const char *format, ...) {
    char line[128];
    va_list values;
    va_start(values, format);
    int length = vsnprintf(line, sizeof line, format, values);
    va_end(values);
    return send_line(host, line, length);
}

static bool is_done(const char *reply) { return !strcmp(reply, "done"); }

/* The number of a reply that is a name and a number, or UINT32_MAX. */
static uint32_t number_in(const char *reply, const char *name) {
    size_t length = strlen(name);
    return strncmp(reply, name, length) ? UINT32_MAX : strtoul(reply + length, NULL, 10);
}

static uint8_t *at(const struct host *host, uint32_t frame) { return host->memory + (size_t)frame * PAGE; }

static uint32_t take(struct host *host) { return number_in(ask(host, "take"), "frame "); }

static uint32_t any_frame(struct host *host) { return host->next < host->plan->last ? host->next++ : take(host); }

static bool is_linux(const struct host *host, uint32_t vm) {
    return host->plan->boots[vm].images < host->plan->boots[vm].count;
}

/* The frame that was supplied for a page of those that attacks are about. */
static uint32_t frame_at(const struct host *host, uint32_t vm, unsigned place) {
    return host->frame_of[vm][host->places[vm][place]];
}

static void remember(struct host *host, uint32_t vm, uint32_t gfn, uint32_t frame) {
    if (vm < MOST_GUESTS && gfn < REMEMBERED) host->frame_of[vm][gfn] = frame;
}

/* What a host is for. */

/* Gives a page of an image to a slot. Returns whether it has it now. */
static bool load_page(struct host *host, uint32_t vm, uint32_t image, uint32_t gfn, const uint8_t *bytes,
                      size_t length) {
    uint32_t frame = any_frame(host);
    if (frame == UINT32_MAX || !is_done(ask(host, "hfault %u", frame))) return false;
    if (host->plan->is_hostile) memset(at(host, frame), 0xee, PAGE); /* past the image's end, too */
    memcpy(at(host, frame), bytes, length);
    if (!is_done(ask(host, "remap %u %u %u", vm, image, frame))) return false;
    remember(host, vm, gfn, frame);
    return true;
}

/* Loads at most a MiB as one image. */
static bool load_image(struct host *host, uint32_t vm, uint32_t gfn, const uint8_t *bytes, size_t length) {
    uint32_t image = number_in(ask(host, "setboot %u %u %zu", vm, gfn, length), "image ");
    if (image == UINT32_MAX) return false;
    for (size_t from = 0; from < length; from += PAGE) {
        size_t part = length - from < PAGE ? length - from : PAGE;
        if (!load_page(host, vm, image, gfn + from / PAGE, bytes + from, part)) return false;
    }
    return true;
}

static bool load_file(struct host *host, uint32_t vm, int file, uint32_t gfn, bool is_altered) {
    static uint8_t bytes[IMAGE];
    ssize_t length;
    for (off_t from = 0; (length = pread(file, bytes, IMAGE, from)) > 0; from += length) {
        if (is_altered) bytes[length / 2] ^= 1;
        if (!load_image(host, vm, gfn + from / PAGE, bytes, length)) return false;
    }
    if (length < 0) stop("an image");
    return true;
}

/* Registers a slot, loads the guest's files, and has them measured. Returns whether it may run. */
static bool boot(struct host *host, uint32_t vm, const struct boot *boot, bool is_altered) {
    ask(host, "regvm %u", vm);
    for (unsigned vcpu = 0; vcpu < boot->vcpus; vcpu++) ask(host, "regvcpu %u %u", vm, vcpu);
    for (unsigned part = 0; part < boot->images; part++)
        if (!load_file(host, vm, boot->parts[part].file, boot->parts[part].base, is_altered)) return false;
    return is_done(ask(host, "verify %u", vm));
}

/* Puts into a frame what a guest's files have for a guest frame. Once it has notified, the guest has these files. */
static void fill(struct host *host, uint32_t vm, uint32_t gfn, uint32_t frame) {
    const struct boot *boot = &host->plan->boots[vm];
    uint8_t bytes[PAGE] = {0};
    for (unsigned part = boot->images; part < boot->count; part++) {
        off_t from = ((off_t)gfn - boot->parts[part].base) * PAGE;
        if (from >= 0 && pread(boot->parts[part].file, bytes, PAGE, from) > 0 && is_done(ask(host, "hfault %u", frame)))
            memcpy(at(host, frame), bytes, PAGE);
    }
}

/* A virtual processor waits for a page. */
static void supply(struct host *host, uint32_t vm, uint32_t vcpu, uint32_t gfn) {
    for (;;) {
        uint32_t frame = any_frame(host);
        if (frame != UINT32_MAX && vm < host->plan->count && !host->has_come[vm]) fill(host, vm, gfn, frame);
        const char *reply = frame == UINT32_MAX ? host->reply : ask(host, "map %u %u %u", vm, vcpu, frame);
        if (is_done(reply)) remember(host, vm, gfn, frame);
        else if (!strcmp(reply, "refused not-host")) continue; /* given away in the storm */
        else if (frame == UINT32_MAX || !strcmp(reply, "refused tables-full"))
            printf("no frame for guest %u at %u, which waits: %s\n", vm, gfn, reply);
        else ask(host, "give %u", frame); /* it no longer waits, or was cleared */
        return;
    }
}

static uint8_t *reach(void *of, uint32_t gfn) {
    struct reached *it = of;
    if (gfn >= REMEMBERED) return NULL;
    uint32_t frame = it->host->frame_of[it->vm][gfn];
    return is_done(ask(it->host, "hfault %u", frame)) ? at(it->host, frame) : NULL;
}

/* A guest has put something into the ring of its disk. Until it lends the ring, that stays there. */
static void serve_disk(struct host *host, uint32_t vm, uint32_t ring) {
    struct reached reached = {host, vm};
    const struct lent lent = {reach, &reached};
    if (vm < host->plan->count && disk_answer(&host->disks[vm], &lent, ring)) ask(host, "interrupt %u", vm);
}

static void clear(struct host *host, uint32_t vm) {
    if (is_done(ask(host, "clear %u", vm)) && vm < MOST_GUESTS) host->runs[vm] = false;
}

/* What it may not do. */

/* What the host's memory has at a frame, as text. */
static const char *text_at(const struct host *host, uint32_t frame) {
    static char text[40];
    size_t length = 0;
    for (const uint8_t *byte = at(host, frame); *byte && length < sizeof text - 1; byte++)
        text[length++] = *byte >= ' ' && *byte < 127 ? *byte : '.';
    text[length] = 0;
    return text;
}

/* Goes for a frame in both ways: it asks the core, and it reads its memory. */
static void look(struct host *host, const char *what, uint32_t frame) {
    const char *reply = ask(host, "hfault %u", frame);
    printf("looks at %s: %s, its memory has \"%s\"\n", what, reply, text_at(host, frame));
}

/* Looks in all of its memory for what a Linux guest has written to a file. */
static void look_for_file(const struct host *host, const char *when) {
    unsigned count = 0;
    for (off_t from = 0; (from = lseek(MEMORY, from, SEEK_DATA)) >= 0; from += PAGE)
        count += memmem(host->memory + from, PAGE, text_of_a_file, sizeof text_of_a_file - 1) != NULL;
    printf("looks for the text of a guest's file, %s: in %u of its frames\n", when, count);
}

/* Has a pipe keep a page, as no mapping does. */
static void pin(struct host *host, uint32_t vm, uint32_t frame) {
    struct iovec page = {at(host, frame), PAGE};
    if (pipe(host->pipes[vm]) || vmsplice(host->pipes[vm][1], &page, 1, 0) != PAGE) stop("vmsplice");
}

static void read_pin(struct host *host, uint32_t vm) {
    char text[PAGE];
    if (read(host->pipes[vm][0], text, PAGE) != PAGE) stop("the pipe");
    printf("the page that a pipe has kept: \"%.32s\"\n", text);
    close(host->pipes[vm][0]);
    close(host->pipes[vm][1]);
}

/* Sends lines that are not calls, or that it may not make: none may be done. */
static void send_rubbish(struct host *host) {
    static const char *const lines[] = {"hfault", "hfault  1", "hfault 4294967296", "remap 0 0 4294967295",
                                        "remap 0 0 x", "run 0 9", "run 99 0", "regvm 4294967295", "clear 63",
                                        "setboot 0 0 4096", "verify 0", "grantr 0 0 0 64", "", "kcore-trace 2"};
    static char longest[16000];
    unsigned done = 0, count = sizeof lines / sizeof *lines;
    for (unsigned number = 0; number < count; number++) done += is_done(ask(host, "%s", lines[number]));
    memset(longest, 'a', sizeof longest);
    done += is_done(send_line(host, longest, sizeof longest));
    done += is_done(send_line(host, "take\0", 5));
    printf("sends %u lines that are not calls of its own: %u done\n", count + 2, done);
}

/* Tries ways around the core: the monitor's memory, tracing the monitor, and its terminal. */
static void try_doors(const struct host *host) {
    int monitor = host->plan->monitor;
    char path[40];
    snprintf(path, sizeof path, "/proc/%d/mem", monitor);
    int file = open(path, O_RDWR);
    printf("opens the monitor's memory: %s\n", file < 0 ? strerror(errno) : "done");
    if (file >= 0) close(file);
    printf("traces the monitor: %s\n", ptrace(PTRACE_SEIZE, monitor, NULL, NULL) ? strerror(errno) : "done");
    file = open("/dev/tty", O_RDWR);
    printf("opens the monitor's terminal: %s\n", file < 0 ? strerror(errno) : "done");
}

static void attack_at_boot(struct host *host) {
    uint32_t vm = host->plan->count, code = host->frame_of[0][CODE];
    bool is_active = boot(host, vm, &host->plan->boots[0], true);
    printf("an altered image is %s; has it run: ", is_active ? "approved" : "rejected");
    printf("%s\n", ask(host, "run %u 0", vm));
    ask(host, "clear %u", vm);
    memset(at(host, code), 0x90, PAGE);
    printf("alters a page of an image after its remap: %s\n", ask(host, "hfault %u", code));
    printf("speaks for a guest: %s\n", ask(host, "grant 0 0 %u", AT_SECRET));
    printf("gives a frame to a virtual processor that waits for none: %s\n", ask(host, "map 0 0 %u", host->next));
    send_rubbish(host);
    try_doors(host);
}

/* The first fault of guest 1 is answered with a page of guest 0's image, and with a frame of the core's. */
static void attack_by_frames(struct host *host, uint32_t vm, uint32_t vcpu) {
    if (vm != 1 || host->has_offered) return;
    host->has_offered = true;
    printf("offers guest 1 a frame of guest 0: %s\n", ask(host, "map 1 %u %u", vcpu, host->frame_of[0][CODE]));
    printf("offers guest 1 a frame of the core: %s\n", ask(host, "map 1 %u 0", vcpu));
}

static void attack_before_sharing(struct host *host, uint32_t vm) {
    uint32_t secret = frame_at(host, vm, SECRET);
    look(host, "the secret", secret);
    look(host, "the letter, not shared yet", frame_at(host, vm, LETTER));
    strcpy((char *)at(host, secret), "a forged secret");
    printf("takes the secret's frame back: %s\n", ask(host, "give %u", secret));
}

/* Takes free frames until it has the one that was dropped, and looks at that. The others go back. */
static void attack_dropped(struct host *host, uint32_t vm) {
    uint32_t dropped = frame_at(host, vm, THROWN), frame = UINT32_MAX;
    look(host, "what was dropped", dropped);
    for (uint32_t count = 0; count < host->plan->frames && (frame = take(host)) != dropped; count++)
        ask(host, "give %u", frame);
    if (frame == dropped) look(host, "what was dropped, taken", frame);
}

/* Reads a letter that a guest shares, and answers in it. */
static void read_letter(struct host *host, uint32_t vm, bool is_first) {
    uint32_t letter = frame_at(host, vm, LETTER);
    if (is_first)
        printf("the letter, shared but not asked for: its memory has \"%s\"\n", text_at(host, letter));
    if (!is_done(ask(host, "hfault %u", letter))) printf("may not read the letter: %s\n", host->reply);
    if (!is_first) return;
    printf("the letter, shared and asked for: its memory has \"%s\"\n", text_at(host, letter));
    snprintf((char *)at(host, letter) + ANSWER, ANSWER, "thank you, guest %u", vm);
}

static void attack_while_shared(struct host *host, uint32_t vm) {
    pin(host, vm, frame_at(host, vm, LETTER));
    look(host, "the secret again", frame_at(host, vm, SECRET));
}

static void attack_revoked(struct host *host, uint32_t vm) {
    look(host, "the letter, revoked", frame_at(host, vm, LETTER));
    read_pin(host, vm);
}

/* A guest says how far it has come, and waits. */
static void serve_notice(struct host *host, uint32_t vm, uint32_t number) {
    uint32_t place = number / PLACE - 1, gfn = number % PLACE;
    host->has_come[vm] = true;
    if (number >= PLACE) {
        if (place < PLACES && gfn < REMEMBERED) host->places[vm][place] = gfn;
        return;
    }
    if (number == 2 || number == 5) read_letter(host, vm, number == 2);
    if (!host->plan->is_hostile) return;
    if (number <= 3 && is_linux(host, vm)) look_for_file(host, number == 2 ? "which its letter has too" : "private");
    if (number == 1) attack_before_sharing(host, vm);
    if (number == 2) attack_while_shared(host, vm);
    if (number == 3) attack_revoked(host, vm);
    if (number == 4) attack_dropped(host, vm);
}

/* The storm. */

/* Counts frames whose bytes in the host's memory a guest has marked as private. */
static void look_for_leaks(struct host *host) {
    for (uint32_t frame = 0; frame < host->plan->frames; frame++) {
        const uint64_t *words = (const uint64_t *)at(host, frame);
        for (int word = 0; word < 8; word++) host->leaks += words[word] >> 40 == SECRET_TAG;
    }
}

static uint32_t by_chance(struct host *host, uint32_t below) {
    host->chance ^= host->chance << 13;
    host->chance ^= host->chance >> 7;
    host->chance ^= host->chance << 17;
    return (host->chance >> 20) % below;
}

static void send_by_chance(struct host *host) {
    static const char characters[] = "0123456789 \r\0grantrevokedrophfaultmapclearverify";
    char line[24];
    size_t length = 1 + by_chance(host, sizeof line);
    for (size_t at = 0; at < length; at++) line[at] = characters[by_chance(host, sizeof characters - 1)];
    send_line(host, line, length);
}

/* A random call or access, whatever comes of it. Slots from 2 on are also cleared, while their guests run. */
static void storm_once(struct host *host) {
    uint32_t frame = by_chance(host, host->plan->frames), other = 2 + by_chance(host, 3), any = by_chance(host, 5);
    switch (by_chance(host, 16)) {
    case 0: ask(host, "take"); break;
    case 1: ask(host, "give %u", frame); break;
    case 2: case 3: case 4: ask(host, "hfault %u", frame); break;
    case 5: ask(host, "map %u %u %u", by_chance(host, 2), by_chance(host, 2), frame); break;
    case 6:
        ask(host, "regvm %u", other);
        ask(host, "regvcpu %u 0", other);
        break;
    case 7: ask(host, "setboot %u %u %u", other, by_chance(host, 64), 1 + by_chance(host, 9000)); break;
    case 8: case 9: ask(host, "remap %u %u %u", any, by_chance(host, 2), frame); break;
    case 10: ask(host, "verify %u", any); break;
    case 11: clear(host, other); break;
    case 12: ask(host, "hread %u %u 8", frame, by_chance(host, PAGE)); break;
    case 13: ask(host, "run %u %u", any, by_chance(host, 3)); break;
    case 14: send_by_chance(host); break;
    default: at(host, frame)[by_chance(host, PAGE)] ^= by_chance(host, 256); break;
    }
}

static void storm(struct host *host) {
    for (int call = 0; call < 20; call++) storm_once(host);
    host->storm -= host->storm < 20 ? host->storm : 20;
    look_for_leaks(host);
    if (!host->storm) printf("the storm is over: %u words of private pages seen\n", host->leaks);
}

/* The run. */

/* Ends guest 1 while it runs, takes every free frame, and looks for what it left. */
static void end_one(struct host *host) {
    uint32_t frame, count = 0, left = 0;
    printf("ends guest 1, which runs: %s\n", ask(host, "clear 1"));
    printf("has it run: %s\n", ask(host, "run 1 1"));
    while ((frame = take(host)) != UINT32_MAX) {
        ask(host, "hfault %u", frame);
        count++;
        for (int byte = 0; byte < PAGE; byte++) left += at(host, frame)[byte] != 0;
    }
    printf("takes %s free frames: %u bytes in them\n", count ? "all" : "no", left);
}

static void serve_event(struct host *host, const char *line) {
    uint32_t vm, vcpu, number;
    char name[16];
    if (sscanf(line, "%15s %u %u %u", name, &vm, &vcpu, &number) != 4) return;
    if (!strcmp(name, "fault")) {
        if (host->plan->is_hostile) attack_by_frames(host, vm, vcpu);
        supply(host, vm, vcpu, number);
    } else if (!strcmp(name, "notified")) {
        serve_notice(host, vm, number);
        ask(host, "run %u %u", vm, vcpu);
    } else if (!strcmp(name, "kicked")) {
        serve_disk(host, vm, number);
    } else if (!strcmp(name, "ended") && !vcpu) {
        printf("guest %u has ended\n", vm);
        host->runs[vm] = false;
    }
}

/* Serves the events that have come, or waits for one. */
static void serve_events(struct host *host, bool waits) {
    struct pollfd file = {EVENTS, POLLIN, 0};
    int ready = poll(&file, 1, waits ? -1 : 0);
    if (ready < 0 && errno != EINTR) stop("poll");
    if (ready > 0) read_more(&host->events);
    for (const char *line; (line = next_line(&host->events));) serve_event(host, line);
}

static bool any_runs(const struct host *host) {
    for (unsigned vm = 0; vm < MOST_GUESTS; vm++)
        if (host->runs[vm]) return true;
    return false;
}

/* Whether a Linux guest still measures what it gets. In a storm it would get pages that it refuses, and end. */
static bool any_measures(const struct host *host) {
    for (unsigned vm = 0; vm < host->plan->count; vm++)
        if (host->runs[vm] && !host->has_come[vm] && is_linux(host, vm)) return true;
    return false;
}

static void boot_all(struct host *host) {
    for (unsigned vm = 0; vm < host->plan->count; vm++) {
        for (unsigned place = 0; place < PLACES; place++) host->places[vm][place] = AT_SECRET + place;
        strcpy((char *)host->disks[vm].bytes, "a disk of the host's\n");
        host->runs[vm] = boot(host, vm, &host->plan->boots[vm], false);
        if (!host->runs[vm]) printf("guest %u is not booted: %s\n", vm, host->reply);
    }
    if (host->plan->is_hostile) attack_at_boot(host);
    for (unsigned vm = 0; vm < host->plan->count; vm++)
        for (unsigned vcpu = 0; vcpu < host->plan->boots[vm].vcpus; vcpu++) ask(host, "run %u %u", vm, vcpu);
}

_Noreturn void host_main(const struct plan *plan) {
    static struct host host;
    host = (struct host){.plan = plan, .next = plan->first, .storm = plan->storm, .chance = 88172645463325252,
                         .replies.file = REPLIES, .events.file = EVENTS};
    size_t size = (size_t)plan->frames * PAGE;
    setvbuf(stdout, NULL, _IOLBF, 0);
    host.memory = mmap(NULL, size, PROT_READ | PROT_WRITE, MAP_SHARED | MAP_NORESERVE, MEMORY, 0);
    if (host.memory == MAP_FAILED) stop("memory");
    boot_all(&host);
    while (any_runs(&host) || host.storm) {
        bool storms = host.storm && !any_measures(&host);
        serve_events(&host, !storms);
        if (storms) storm(&host);
    }
    if (plan->is_hostile) end_one(&host);
    exit(0);
}
