/* The host's calls: each is a line, which the core answers; then the MMU follows, and the reply is a line too. */
#include "monitor.h"
#include <errno.h>
#include <poll.h>
#include <stdio.h>
#include <stdlib.h>
#include <string.h>
#include <unistd.h>

enum { LONGEST = 16384, LONGEST_REPLY = 8300 };

/* Whether a line is this call, with `count` numbers. The core decides whether it is a call at all. */
static bool is_call(const char *line, const char *name, unsigned count, uint32_t *numbers) {
    size_t length = strlen(name);
    if (strncmp(line, name, length)) return false;
    const char *at = line + length;
    for (unsigned n = 0; n < count; n++) {
        char *end;
        if (*at++ != ' ' || *at < '0' || *at > '9') return false;
        errno = 0;
        unsigned long number = strtoul(at, &end, 10);
        if (errno || number > UINT32_MAX) return false;
        numbers[n] = number;
        at = end;
    }
    return !*at;
}

/* Copies a page of an image before it is handed over. The core gets that copy, so the guest has what is measured,
 * whatever the host writes meanwhile. Returns whether there is such a page. */
static bool copy_page(struct monitor *monitor, uint32_t frame, uint8_t *copy) {
    if (frame >= monitor->core.size.frames) return false;
    kcore_record record = core_record_of(&monitor->core, frame);
    if (record.owner != KCORE_HOST || !record.present) return false;
    mmu_read_host(&monitor->mmu, frame, copy);
    const kcore_request write = {KCORE_HWRITE, {frame, 0}};
    if (core_do(&monitor->core, KCORE_NONE, 0, write, copy).kind != KCORE_IS_DONE) {
        errno = EPROTO;
        fail("a write to a frame that the host has");
    }
    return true;
}

/* Keeps what the monitor needs of a call that was done, besides what the MMU follows. */
static void note(struct monitor *monitor, const char *line, const char *reply) {
    uint32_t n[3];
    bool is_done = !strcmp(reply, "done");
    if (is_done && is_call(line, "regvm", 1, n)) guest_open(monitor, n[0]);
    else if (is_done && is_call(line, "regvcpu", 2, n)) monitor->guests[n[0]]->vcpus[n[1]].is_registered = true;
    else if (is_done && is_call(line, "verify", 1, n)) guest_activate(monitor->guests[n[0]]);
    else if (!strncmp(reply, "image ", 6) && is_call(line, "setboot", 3, n)) {
        struct guest *guest = monitor->guests[n[0]];
        guest->images[guest->image_count].base = n[1];
        guest->images[guest->image_count++].length = n[2];
    }
}

/* Answers a line of the host's, with the lock. */
static const char *answer(struct monitor *monitor, const char *line, size_t length) {
    uint32_t n[3];
    uint8_t copy[PAGE];
    if (is_call(line, "run", 2, n)) return guest_run(monitor, n[0], n[1]);
    if (is_call(line, "interrupt", 1, n)) return guest_interrupt(monitor, n[0]);
    bool has_copy = is_call(line, "remap", 3, n) && copy_page(monitor, n[2], copy);
    const char *reply = core_ask(&monitor->core, line, length);
    struct guest *cleared = is_call(line, "clear", 1, n) && !strcmp(reply, "done") ? monitor->guests[n[0]] : NULL;
    if (cleared) guest_end(cleared);
    mmu_follow(&monitor->mmu, monitor->core.changes, monitor->core.count, has_copy ? copy : NULL);
    if (cleared) guest_close(cleared);
    note(monitor, line, reply);
    return reply;
}

/* Answers a line, and writes the reply, without the lock. Returns whether there was room for it. */
static bool serve_line(struct monitor *monitor, const char *line, size_t length) {
    char reply[LONGEST_REPLY];
    size_t used;
    pthread_mutex_lock(&monitor->lock);
    const char *text = monitor->is_over ? "over" : length < LONGEST ? answer(monitor, line, length) : "not a call";
    used = strlen(text);
    if (used >= sizeof reply) end_with("a reply of %zu bytes", used);
    memcpy(reply, text, used);
    pthread_mutex_unlock(&monitor->lock);
    reply[used++] = '\n';
    return write(monitor->host.replies, reply, used) == (ssize_t)used;
}

/* What came of the host's calls: the beginning of a line whose end did not come yet. Of a line that is longer than any
 * call only the beginning is kept. */
struct input {
    char line[LONGEST + 1];
    size_t length;
};

/* Reads calls, and answers those that are whole. Returns whether there may be more. */
static bool serve(struct monitor *monitor, struct input *input) {
    char bytes[4096];
    ssize_t got = read(monitor->host.calls, bytes, sizeof bytes);
    if (got < 0 && (errno == EAGAIN || errno == EINTR)) return true;
    if (got <= 0) return false;
    for (ssize_t at = 0; at < got; at++) {
        if (bytes[at] != '\n') {
            if (input->length < LONGEST) input->line[input->length++] = bytes[at];
            continue;
        }
        input->line[input->length] = 0;
        bool has_room = serve_line(monitor, input->line, input->length);
        input->length = 0;
        if (!has_room) return false;
    }
    return true;
}

/* Reads what the host prints, if there is something. Returns whether there may be more. */
static bool read_output(struct monitor *monitor, struct line *line) {
    char bytes[4096];
    errno = 0;
    ssize_t got = read(monitor->host.output, bytes, sizeof bytes);
    for (ssize_t at = 0; at < got; at++) print_character(line, OF_HOST, "host", bytes[at]);
    return got > 0 || (got < 0 && errno == EINTR);
}

void *serve_host(void *of) {
    struct monitor *monitor = of;
    struct host_process *host = &monitor->host;
    struct pollfd files[] = {{host->calls, POLLIN, 0}, {host->output, POLLIN, 0}, {monitor->stop, POLLIN, 0}};
    static struct input input;
    static struct line line;
    const uint64_t one = 1;
    while (!files[2].revents) {
        if (poll(files, 3, -1) < 0 && errno != EINTR) fail("poll");
        if (files[0].revents && !serve(monitor, &input)) {
            files[0].fd = -1;
            if (write(monitor->served, &one, sizeof one) != sizeof one) fail("an event");
        }
        if (files[1].revents && !read_output(monitor, &line) && errno != EAGAIN) files[1].fd = -1;
    }
    while (read_output(monitor, &line)) continue; /* of a host that has ended */
    if (line.length) print_character(&line, OF_HOST, "host", '\n');
    return NULL;
}

void monitor_event(struct monitor *monitor, const char *name, const struct vcpu *vcpu, uint32_t number) {
    char line[80];
    struct guest *guest = vcpu->guest;
    struct pollfd files[] = {{monitor->host.events, POLLOUT, 0}, {guest->ends, POLLIN, 0}};
    int length = snprintf(line, sizeof line, "%s %u %u %u\n", name, guest->slot, vcpu->number, number);
    while (!guest->has_ended && write(monitor->host.events, line, length) < 0) {
        if (errno == EPIPE) return; /* the host is gone, and the run is at its end */
        if (errno != EINTR && errno != EAGAIN) fail("an event");
        if (poll(files, 2, -1) < 0 && errno != EINTR) fail("poll");
    }
}
