/* Comes between the program and the C library: counts what the program asks for, refuses, fails, interrupts, shortens
 * or holds up what the environment says, and looks for a secret in the program's memory when it ends. */
#define _GNU_SOURCE
#include <dlfcn.h>
#include <errno.h>
#include <fcntl.h>
#include <malloc.h>
#include <pthread.h>
#include <signal.h>
#include <stdatomic.h>
#include <stdint.h>
#include <stdio.h>
#include <stdlib.h>
#include <string.h>
#include <sys/prctl.h>
#include <sys/syscall.h>
#include <sys/wait.h>
#include <time.h>
#include <unistd.h>

static atomic_int growths, starts, reads, writes, pages, bytes, ticks, marked, told, held, spilled, stuck;
static _Thread_local int own;

/* What the environment may give a number to. */
#define EACH(it)                                                                                                       \
    it(REFUSE_GROWTH) it(REFUSE_START) it(FAIL_READ) it(INTERRUPT_READ) it(SHORT_READ) it(FAIL_WRITE)                  \
        it(INTERRUPT_WRITE) it(SHORT_WRITE) it(MOST_READ) it(MOST_WRITE) it(MARK_SIZE) it(HOLD_UP) it(HOLD_START)           \
        it(PASS_DIGITS)
#define ITSELF(name) name,
#define WORD(name) #name,
enum { EACH(ITSELF) COUNT };

static const char *const names[] = {EACH(WORD)};
static int numbers[COUNT];

/* The number that the environment gives, 0 for none. It is looked at once, as soon as it is there. */
static int asked(int which) {
    static atomic_int is_known;
    if (!is_known && environ) {
        for (int each = 0; each < COUNT; each++) numbers[each] = getenv(names[each]) ? atoi(getenv(names[each])) : 0;
        is_known = 1;
    }
    return numbers[which];
}

/* Holds up a growth until other threads have had a hundred. If they cannot, this thread has what they wait for. */
static void hold_up(void) {
    int others = growths - own;
    for (int turn = 0; growths - own < others + 100; turn++) {
        if (turn == 5000) {
            atomic_fetch_add(&stuck, 1);
            return;
        }
        usleep(1000);
    }
}

/* The first growth to the size that MARK_SIZE asks for keeps how many bytes have been read, and how many times the
 * clock. Under HOLD_UP, each growth of a thread that was started is held up. */
static int is_refused(size_t size) {
    int none = 0;
    if (size == (size_t)asked(MARK_SIZE) && atomic_compare_exchange_strong(&marked, &none, bytes)) told = ticks;
    own++;
    int number = atomic_fetch_add(&growths, 1) + 1;
    if (asked(HOLD_UP) && gettid() != getpid()) hold_up();
    return number == asked(REFUSE_GROWTH);
}

/* How often one text, with another right after it, is found between two places. */
static int pairs(char *from, char *end, const char *front, const char *back) {
    int count = 0;
    while ((from = memmem(from, end - from, front, strlen(front)))) {
        from += strlen(front);
        count += (size_t)(end - from) >= strlen(back) && memcmp(from, back, strlen(back)) == 0;
    }
    return count;
}

/* Writes a text in digits, as a state's text has the bytes of a page. */
static void digits(const char *text, char *to) {
    for (size_t at = 0; text[at]; at++) sprintf(to + 2 * at, "%02x", (unsigned char)text[at]);
}

/* The two halves of the secret, if there is one, as they are and in digits. */
static const char *front, *back;
static char front_digits[128], back_digits[128];

static void know_secret(void) {
    if (!getenv("SECRET_FRONT") || !getenv("SECRET_BACK")) return;
    digits(getenv("SECRET_FRONT"), front_digits);
    digits(getenv("SECRET_BACK"), back_digits);
    back = getenv("SECRET_BACK");
    front = getenv("SECRET_FRONT");
}

/* If COPIES is the number of a socket, the program itself is not run. For each message that comes there, a copy of it
 * is run, which takes less time than a start, and how the copy ended is the answer. The message is what else is
 * disturbed in the copy: a name that the environment may give a number to, and the number. */
static void make_copies(void) {
    char message[64], name[32];
    int number, status;
    if (!getenv("COPIES")) return;
    int socket = atoi(getenv("COPIES"));
    for (ssize_t length; (length = syscall(SYS_read, socket, message, sizeof message - 1)) > 0;) {
        message[length] = 0;
        pid_t copy = fork();
        if (copy == 0) {
            prctl(PR_SET_PDEATHSIG, SIGKILL);
            close(socket);
            if (sscanf(message, "%31s %d", name, &number) != 2) abort();
            for (int each = 0; each < COUNT; each++)
                if (strcmp(name, names[each]) == 0) numbers[each] = number;
            return;
        }
        if (copy < 0 || waitpid(copy, &status, 0) != copy) abort();
        syscall(SYS_write, socket, &status, sizeof status);
    }
    syscall(SYS_exit_group, 0);
}

__attribute__((constructor)) static void begin(void) {
    know_secret();
    asked(0);
    make_copies();
}

/* How often the secret is found between two places, as it is or in digits. If no call writes both of its halves, they
 * are together only in pages and in the texts of states. If one does, the trace's text has them in digits, and digits
 * are passed over (PASS_DIGITS). */
static int found(char *from, char *end) {
    if (!front || from == end) return 0;
    int of_digits = asked(PASS_DIGITS) ? 0 : pairs(from, end, front_digits, back_digits);
    return of_digits + pairs(from, end, front, back);
}

static int found_in(char *block) { return block ? found(block, block + malloc_usable_size(block)) : 0; }

/* The same in memory that is not a file's. Two bits for each page in pagemap say whether it is there or swapped out. A
 * page that is neither was never written to, so that all of it is zero, which no part of the secret is. */
static int found_in_pages(char *from, char *end, int pagemap) {
    uint64_t entries[512];
    int count = 0;
    char *begun = from;
    while (from < end) {
        size_t pages = (end - from) / 4096 < 512 ? (end - from) / 4096 : 512;
        ssize_t size = pages * sizeof *entries;
        if (syscall(SYS_pread64, pagemap, entries, size, (uintptr_t)from / 4096 * sizeof *entries) != size) break;
        for (size_t at = 0; at < pages; at++, from += 4096) {
            if (entries[at] >> 62) continue;
            count += found(begun, from);
            begun = from + 4096;
        }
    }
    return count + found(begun, end);
}

/* How often the secret is in memory. */
static int secrets(void) {
    static char maps[65536];
    int count = 0, file = front ? open("/proc/self/maps", O_RDONLY) : -1, pagemap = open("/proc/self/pagemap", O_RDONLY);
    size_t length = 0;
    if (file >= 0) {
        for (ssize_t more; (more = syscall(SYS_read, file, maps + length, sizeof maps - 1 - length)) > 0;) length += more;
        close(file);
    }
    maps[length] = 0;
    for (char *line = strtok(maps, "\n"); line; line = strtok(NULL, "\n")) {
        char *from, *end, rights[5];
        unsigned long inode;
        if (sscanf(line, "%p-%p %4s %*s %*s %lu", (void **)&from, (void **)&end, rights, &inode) != 4) continue;
        if (rights[0] != 'r' || rights[1] != 'w') continue;
        count += pagemap < 0 || inode ? found(from, end) : found_in_pages(from, end, pagemap);
    }
    if (pagemap >= 0) close(pagemap);
    return count;
}

/* The program ends here: the counts are written to a file, for the runs to come. */
void _exit(int status) {
    const char *path = getenv("TELL_COUNTS");
    char line[128];
    int left = secrets() + spilled;
    int length = snprintf(line, sizeof line, "%d %d %d %d %d %d %d %d %d %d", growths, starts, reads, writes, pages, marked, told,
                          held, left, stuck);
    int file = path ? open(path, O_WRONLY | O_CREAT | O_TRUNC, 0600) : -1;
    if (file >= 0) syscall(SYS_write, file, line, length);
    for (;;) syscall(SYS_exit_group, status);
}

extern void *__libc_malloc(size_t), *__libc_realloc(void *, size_t);
extern void __libc_free(void *);

void *malloc(size_t size) {
    if (is_refused(size)) { errno = ENOMEM; return NULL; }
    if (size == 4096) atomic_fetch_add(&pages, 1);
    return __libc_malloc(size);
}

void *realloc(void *old, size_t size) {
    if (is_refused(size)) { errno = ENOMEM; return NULL; }
    int had = found_in(old);
    void *block = __libc_realloc(old, size);
    if (block != old) spilled += had;
    return block;
}

/* Memory that is given back with the secret in it counts as left, wherever the C library puts it. */
void free(void *block) {
    spilled += found_in(block);
    __libc_free(block);
}

/* How many of the bytes that are asked for may pass: one in a call that is to be short, else up to `most`. */
static size_t passing(size_t size, int is_short, int most) {
    if (is_short) most = 1;
    return most > 0 && size > (size_t)most ? (size_t)most : size;
}

ssize_t read(int end, void *to, size_t size) {
    int number = atomic_fetch_add(&reads, 1) + 1;
    if (number == asked(FAIL_READ)) { errno = EIO; return -1; }
    if (number == asked(INTERRUPT_READ)) { errno = EINTR; return -1; }
    ssize_t count = syscall(SYS_read, end, to, passing(size, number == asked(SHORT_READ), asked(MOST_READ)));
    if (count > 0) atomic_fetch_add(&bytes, count);
    // (a look at all memory takes time: it is taken only at the end of a text, and if MARK_SIZE is asked for)
    if (count == 0 && asked(MARK_SIZE)) held = secrets();
    return count;
}

int clock_gettime(clockid_t clock, struct timespec *time) {
    atomic_fetch_add(&ticks, 1);
    return syscall(SYS_clock_gettime, clock, time);
}

typedef int creation(pthread_t *, const pthread_attr_t *, void *(*)(void *), void *);

/* What the threads that were started do, by their numbers. */
static struct start { void *(*job)(void *), *given; } started[64];
static atomic_int ended;

/* The thread that HOLD_START asks for begins after another has ended; it waits for ten seconds at most. */
static void *begin_thread(void *given) {
    struct start *it = given;
    if (it == started + asked(HOLD_START))
        for (int turn = 0; turn < 10000 && !ended; turn++) usleep(1000);
    void *result = it->job(it->given);
    ended = 1;
    return result;
}

int pthread_create(pthread_t *thread, const pthread_attr_t *attributes, void *(*job)(void *), void *given) {
    int number = atomic_fetch_add(&starts, 1) + 1;
    if (number == asked(REFUSE_START)) return EAGAIN;
    if (asked(HOLD_START) && number < 64) {
        started[number] = (struct start){job, given};
        job = begin_thread, given = started + number;
    }
    return ((creation *)dlsym(RTLD_NEXT, "pthread_create"))(thread, attributes, job, given);
}

/* Standard error is passed on as it is, since what comes there is looked at. */
ssize_t write(int end, const void *from, size_t size) {
    if (end == 2) return syscall(SYS_write, end, from, size);
    int number = atomic_fetch_add(&writes, 1) + 1;
    if (number == asked(FAIL_WRITE)) { errno = EIO; return -1; }
    if (number == asked(INTERRUPT_WRITE)) { errno = EINTR; return -1; }
    return syscall(SYS_write, end, from, passing(size, number == asked(SHORT_WRITE), asked(MOST_WRITE)));
}
