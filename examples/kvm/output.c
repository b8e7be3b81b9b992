/* What the monitor prints: lines that are kept here until a thread of their own has written them. So whoever reads them
 * may stop, and nothing else stops. */
#include "monitor.h"
#include <errno.h>
#include <poll.h>
#include <stdarg.h>
#include <stdio.h>
#include <stdlib.h>
#include <string.h>
#include <time.h>
#include <unistd.h>

enum { ROOM = 1 << 20, LONGEST = 512, PATIENCE = 2 };

static struct {
    pthread_mutex_t lock;
    pthread_cond_t moved;
    char bytes[ROOM]; /* a ring */
    size_t first, count;
    unsigned left_out;
    bool is_open;
} output = {.lock = PTHREAD_MUTEX_INITIALIZER, .moved = PTHREAD_COND_INITIALIZER};

/* Of what is kept, a host's lines may take half, and those of guests all but what the monitor's may need. */
static const size_t shares[] = {[OF_HOST] = ROOM / 2, [OF_GUEST] = ROOM - 65536, [OF_MONITOR] = ROOM};

static void *write_output(void *of) {
    (void)of;
    pthread_mutex_lock(&output.lock);
    for (;;) {
        while (!output.count) pthread_cond_wait(&output.moved, &output.lock);
        size_t part = output.count < ROOM - output.first ? output.count : ROOM - output.first;
        if (part > PAGE) part = PAGE;
        pthread_mutex_unlock(&output.lock);
        ssize_t written = write(STDOUT_FILENO, output.bytes + output.first, part);
        if (written < 0) written = errno == EINTR ? 0 : part; /* nobody can read it any more */
        pthread_mutex_lock(&output.lock);
        output.first = (output.first + written) % ROOM;
        output.count -= written;
        pthread_cond_broadcast(&output.moved);
    }
    return NULL;
}

void output_open(void) {
    pthread_t thread;
    if (pthread_create(&thread, NULL, write_output, NULL) || pthread_detach(thread)) fail("a thread");
    output.is_open = true;
}

/* Keeps a text, if there is room for it. */
static bool keep(enum source source, const char *text, size_t length) {
    if (output.count + length > shares[source]) return false;
    for (size_t at = 0; at < length; at++) output.bytes[(output.first + output.count++) % ROOM] = text[at];
    pthread_cond_broadcast(&output.moved);
    return true;
}

static void print(enum source source, const char *text, size_t length) {
    char missing[80];
    pthread_mutex_lock(&output.lock);
    if (output.left_out) {
        int count = snprintf(missing, sizeof missing, "monitor: %u lines were left out here\n", output.left_out);
        if (keep(source, missing, count)) output.left_out = 0;
    }
    if (output.left_out || !keep(source, text, length)) output.left_out++;
    pthread_mutex_unlock(&output.lock);
}

void print_line(enum source source, const char *format, ...) {
    char text[LONGEST];
    va_list values;
    va_start(values, format);
    int length = vsnprintf(text, sizeof text - 1, format, values);
    va_end(values);
    size_t used = length < (int)sizeof text - 1 ? (size_t)length : sizeof text - 2;
    text[used++] = '\n';
    print(source, text, used);
}

void print_text(const char *text, size_t length) { print(OF_GUEST, text, length); }

void print_character(struct line *line, enum source source, const char *name, char character) {
    if (character == '\r') return;
    if (character != '\n') line->text[line->length++] = character >= ' ' && character < 127 ? character : '.';
    if (character != '\n' && line->length < sizeof line->text) return;
    print_line(source, "%s: %.*s", name, (int)line->length, line->text);
    line->length = 0;
}

void output_close(void) {
    struct timespec end;
    pthread_mutex_lock(&output.lock);
    for (size_t left = SIZE_MAX; output.is_open && output.count && output.count != left;) {
        left = output.count;
        clock_gettime(CLOCK_MONOTONIC, &end);
        end.tv_sec += PATIENCE;
        while (output.count == left &&
               !pthread_cond_clockwait(&output.moved, &output.lock, CLOCK_MONOTONIC, &end))
            continue;
    }
    pthread_mutex_unlock(&output.lock);
}

_Noreturn void end_with(const char *format, ...) {
    char text[LONGEST];
    struct pollfd file = {STDERR_FILENO, POLLOUT, 0};
    va_list values;
    va_start(values, format);
    int length = vsnprintf(text, sizeof text, format, values);
    va_end(values);
    output_close();
    terminal_close();
    if (poll(&file, 1, PATIENCE * 1000) > 0) dprintf(STDERR_FILENO, "monitor: %.*s\n", length, text);
    _exit(3);
}

_Noreturn void fail(const char *what) { end_with("%s: %s", what, strerror(errno)); }
