/* The monitor: its command line, and the run from start to end. */
#include "monitor.h"
#include "guests/loader.h"
#include <errno.h>
#include <fcntl.h>
#include <poll.h>
#include <signal.h>
#include <stdio.h>
#include <stdlib.h>
#include <string.h>
#include <sys/eventfd.h>
#include <sys/ioctl.h>
#include <sys/prctl.h>
#include <sys/signalfd.h>
#include <unistd.h>

static const char usage[] =
    "usage: monitor [--config PATH] [--trace PATH] [--redacted] [--states] [--calls N] [--published PATH] "
    "[--record PATH] [--seconds N] [--attack] [--storm N] [GUEST..] [-- HOST [WORD..]]\n"
    "       monitor --resume PATH [--trace PATH] [--redacted] [--states]\n"
    "       GUEST: bare:PATH@GFN[*VCPUS], bios:PATH@GFN, multiboot:PATH@GFN,PATH@GFN or linux:IMAGE,KERNEL,INITRAMFS\n";

struct options {
    const char *configuration, *resumed, *trace, *record, *published;
    bool is_redacted, keeps_states;
    unsigned seconds, calls;
    struct plan plan;
    enum mode modes[MOST_GUESTS];
};

/* What runs if no guest is named, as far as it exists. */
static const char *const usual[][2] = {{"out/talk", "bare:out/talk@0*2"},
                                       {"out/talk", "bare:out/talk@0*2"},
                                       {"out/bios", "bios:out/bios@0xe0"},
                                       {"out/kernel", "multiboot:out/kernel@0x1000,out/kernel.boot@0x10"}};

/* The command line. */

static _Noreturn void refuse(const char *word) {
    fprintf(stderr, "monitor: %s\n%s", word, usage);
    exit(2);
}

static unsigned number_of(const char *word) {
    char *end;
    errno = 0;
    unsigned long number = strtoul(word ? word : "", &end, 0);
    if (errno || !word || end == word || *end || number > UINT32_MAX) refuse(word ? word : "a number is missing");
    return number;
}

/* The image of a Linux guest says where its kernel and its initramfs are, and how many processors it has. */
static void read_plan(struct boot *boot, const char *word) {
    struct linux_plan plan;
    ssize_t length = pread(boot->parts[0].file, &plan, sizeof plan, PLAN);
    if (boot->count != 1 + MEASURED || length != sizeof plan) refuse(word);
    for (unsigned file = 0; file < MEASURED; file++) boot->parts[1 + file].base = plan.files[file].address / PAGE;
    if (!plan.vcpus || plan.vcpus > VCPUS) refuse(word);
    boot->images = 1;
    boot->vcpus = plan.vcpus;
}

/* Reads MODE:PATH@GFN[,PATH@GFN..][*VCPUS] or linux:PATH,PATH,PATH, and opens the files. */
static void read_guest(struct options *options, const char *word) {
    static const char *const modes[] = {[BARE] = "bare", [BIOS] = "bios", [MULTIBOOT] = "multiboot", [LINUX] = "linux"};
    char text[4096], *rest = text, *part;
    unsigned slot = options->plan.count++, mode = BARE;
    struct boot *boot = slot < MOST_GUESTS ? &options->plan.boots[slot] : NULL;
    if (!boot || snprintf(text, sizeof text, "%s", word) >= (int)sizeof text) refuse(word);
    char *kind = strsep(&rest, ":"), *vcpus = rest ? strchr(rest, '*') : NULL;
    if (vcpus) *vcpus++ = 0;
    while (mode <= LINUX && strcmp(kind, modes[mode])) mode++;
    boot->vcpus = vcpus ? number_of(vcpus) : 1;
    if (mode > LINUX || (mode == LINUX && vcpus) || !rest || !boot->vcpus || boot->vcpus > VCPUS) refuse(word);
    options->modes[slot] = mode;
    while ((part = strsep(&rest, ","))) {
        char *path = mode == LINUX ? part : strsep(&part, "@");
        if (!part || boot->count == PARTS) refuse(word);
        int file = open(path, O_RDONLY | O_CLOEXEC);
        if (file < 0) fail(path);
        boot->parts[boot->count].file = file;
        boot->parts[boot->count++].base = mode == LINUX ? 0 : number_of(part);
    }
    boot->images = boot->count;
    if (mode == LINUX) read_plan(boot, word);
}

/* A host other than the monitor's own: a program and its words. */
static void read_host(struct options *options, char **words) {
    if (!*words) refuse("--");
    options->plan.words = words;
    options->plan.program = open(*words, O_RDONLY | O_CLOEXEC);
    if (options->plan.program < 0) fail(*words);
}

/* The names of traces are in a list, with tabs between them. */
static const char *trace_of(const char *word) {
    if (strpbrk(word, "\t\n\r")) refuse("--trace has a tab or the end of a line in its name");
    return word;
}

static struct options read_options(char **words) {
    struct options options = {.configuration = "out/machine.json", .trace = "out/trace", .seconds = 600};
    for (const char *word; (word = *words++);) {
        const char *next = *words;
        if (!strcmp(word, "--")) {
            read_host(&options, words);
            break;
        }
        if (!strcmp(word, "--redacted")) options.is_redacted = true;
        else if (!strcmp(word, "--states")) options.keeps_states = true;
        else if (!strcmp(word, "--attack")) options.plan.is_hostile = true;
        else if (*word != '-') read_guest(&options, word);
        else if (words++, !next) refuse(word);
        else if (!strcmp(word, "--config")) options.configuration = next;
        else if (!strcmp(word, "--resume")) options.resumed = next;
        else if (!strcmp(word, "--trace")) options.trace = trace_of(next);
        else if (!strcmp(word, "--published")) options.published = next;
        else if (!strcmp(word, "--calls")) options.calls = number_of(next);
        else if (!strcmp(word, "--record")) options.record = next;
        else if (!strcmp(word, "--seconds")) options.seconds = number_of(next);
        else if (!strcmp(word, "--storm")) options.plan.storm = number_of(next);
        else refuse(word);
    }
    if (options.resumed && (options.published || options.record || options.plan.count || options.plan.words))
        refuse("--resume goes with --trace, --redacted and --states only");
    if (options.plan.count || options.resumed) return options;
    for (unsigned guest = 0; guest < sizeof usual / sizeof *usual; guest++)
        if (!access(usual[guest][0], R_OK)) read_guest(&options, usual[guest][1]);
    if (!options.plan.count) refuse("no guest is named, and out/ has none");
    return options;
}

/* The run. */

static bool compare(struct monitor *monitor) {
    struct comparison found = mmu_compare(&monitor->mmu, &monitor->core);
    print_line(OF_MONITOR,
               "monitor: %llu calls, %u faults, %u exits; %u frames: %u private pages, %u shared, "
               "%u otherwise than the record",
               (unsigned long long)monitor->core.calls, monitor->faults, monitor->exits, monitor->mmu.frames,
               found.private_pages, found.shared_pages, found.wrong);
    return !found.wrong;
}

unsigned linux_slot(const struct monitor *monitor) {
    for (unsigned slot = 0; slot < monitor->plan->count; slot++)
        if (monitor->modes[slot] == LINUX) return slot;
    return SLOTS;
}

/* Sends a character to the first Linux guest, when it is there and has room. */
static void type(struct monitor *monitor, char character) {
    unsigned slot = linux_slot(monitor);
    pthread_mutex_lock(&monitor->lock);
    while (!monitor->guests[slot] || !guest_type(monitor->guests[slot], character))
        pthread_cond_wait(&monitor->moved, &monitor->lock);
    pthread_mutex_unlock(&monitor->lock);
}

/* Sends each Linux guest what ends a shell, if it has room. */
static void end_input(struct monitor *monitor) {
    const char end_of_transmission = 4;
    pthread_mutex_lock(&monitor->lock);
    for (unsigned slot = 0; slot < monitor->plan->count; slot++)
        if (monitor->guests[slot] && monitor->modes[slot] == LINUX)
            guest_type(monitor->guests[slot], end_of_transmission);
    pthread_mutex_unlock(&monitor->lock);
}

/* Sends what is typed, and at its end what ends shells, until they do: a thread, which ends with the program. */
static void *read_input(void *of) {
    char text[256];
    ssize_t length;
    while ((length = read(STDIN_FILENO, text, sizeof text)) > 0)
        for (ssize_t at = 0; at < length; at++) type(of, text[at]);
    for (;; sleep(1)) end_input(of);
    return NULL;
}

static void open_terminal(struct monitor *monitor) {
    pthread_t reading;
    monitor->is_shown = terminal_open();
    if (pthread_create(&reading, NULL, read_input, monitor) || pthread_detach(reading)) fail("a thread");
}

/* Reads a signal. SIGUSR1 only compares; returns whether it was that one. */
static bool only_compares(struct monitor *monitor, int signals, bool *is_well) {
    struct signalfd_siginfo signal;
    if (read(signals, &signal, sizeof signal) != sizeof signal) fail("a signal");
    if (signal.ssi_signo != SIGUSR1) return false;
    pthread_mutex_lock(&monitor->lock);
    *is_well &= compare(monitor);
    pthread_mutex_unlock(&monitor->lock);
    return true;
}

/* Waits until the host ends, the time is over, or a signal ends the run. */
static bool wait_for_end(struct monitor *monitor, int signals, unsigned seconds) {
    struct pollfd files[] = {{signals, POLLIN, 0}, {monitor->served, POLLIN, 0}, {monitor->host.file, POLLIN, 0}};
    double end = now() + seconds * 1e6;
    bool is_well = true;
    for (;;) {
        double left = end - now();
        if (left <= 0) break;
        int ready = poll(files, 3, left < 1e9 ? left / 1e3 + 1 : 1e6);
        if (ready < 0 && errno != EINTR) fail("poll");
        if (ready <= 0) continue;
        if (files[0].revents && !only_compares(monitor, signals, &is_well)) return is_well;
        if (files[1].revents || files[2].revents) return is_well;
    }
    print_line(OF_MONITOR, "monitor: the time is over");
    return is_well;
}

/* The record of each frame, a line each, for a comparison with what the trace leaves. */
static void write_record(struct monitor *monitor, const char *path) {
    static const char *const owners[] = {"core", "host", "free", "vm"};
    FILE *file = fopen(path, "w");
    if (!file) fail(path);
    for (uint32_t frame = 0; frame < monitor->mmu.frames; frame++) {
        kcore_record it = core_record_of(&monitor->core, frame);
        fprintf(file, "%u %s", frame, owners[it.owner]);
        if (it.owner == KCORE_VM) fprintf(file, "%u %u", it.vm, it.gfn);
        else fprintf(file, " -");
        fprintf(file, " %u %u\n", it.share, it.present);
    }
    if (ferror(file) || fclose(file)) fail(path);
}

/* Compares a last time, after which nothing is asked, ends all guests, and waits until their threads are gone. */
static bool end_guests(struct monitor *monitor, const char *record) {
    pthread_mutex_lock(&monitor->lock);
    monitor->is_over = true;
    bool is_well = compare(monitor);
    if (record) write_record(monitor, record);
    for (unsigned slot = 0; slot < SLOTS; slot++)
        if (monitor->guests[slot]) {
            guest_end(monitor->guests[slot]);
            guest_close(monitor->guests[slot]);
        }
    while (monitor->lives) pthread_cond_wait(&monitor->moved, &monitor->lock);
    pthread_mutex_unlock(&monitor->lock);
    return is_well;
}

static void ignore(int number) { (void)number; }

/* Signals are read by the main thread alone; SIGUSR2 has a virtual processor look up. A pipe that nobody reads is no
 * reason to end. */
static int open_signals(void) {
    const int read_ones[] = {SIGINT, SIGTERM, SIGHUP, SIGUSR1};
    struct sigaction looks_up = {.sa_handler = ignore}, ignored = {.sa_handler = SIG_IGN};
    sigset_t set;
    sigemptyset(&set);
    for (size_t n = 0; n < sizeof read_ones / sizeof *read_ones; n++) sigaddset(&set, read_ones[n]);
    int file = signalfd(-1, &set, SFD_CLOEXEC);
    if (file < 0 || pthread_sigmask(SIG_BLOCK, &set, NULL) || sigaction(SIGUSR2, &looks_up, NULL) ||
        sigaction(SIGPIPE, &ignored, NULL))
        fail("signals");
    return file;
}

static void open_kvm(struct monitor *monitor) {
    monitor->kvm = open("/dev/kvm", O_RDWR | O_CLOEXEC);
    if (monitor->kvm < 0) fail("/dev/kvm");
    int size = ioctl(monitor->kvm, KVM_GET_VCPU_MMAP_SIZE, 0);
    if (ioctl(monitor->kvm, KVM_GET_API_VERSION, 0) != KVM_API_VERSION || size < 0) fail("/dev/kvm");
    monitor->run_size = size;
}

/* Takes up the core of a monitor that was killed, in a state that it had kept. The processors of its guests are gone
 * with it, so all guests are cleared: their frames are zeroed and given back. */
static int take_up(const struct options *options) {
    struct core core = {.keeps_states = options->keeps_states, .published = -1};
    unsigned cleared = 0;
    core_open(&core, options->resumed, true);
    core_trace(&core, options->trace, options->is_redacted);
    for (uint32_t vm = 0; vm < core.size.slots; vm++)
        cleared += core_do(&core, KCORE_NONE, 0, (kcore_request){KCORE_CLEAR, {vm}}, NULL).kind == KCORE_IS_DONE;
    printf("monitor: resumed, %u guests cleared\n", cleared);
    core_close(&core);
    return 0;
}

/* Starts the host, before this process has anything that it could inherit, and all else. Returns the file by which
 * signals come. */
static int start(struct monitor *monitor, struct options *options, pthread_t *serving) {
    struct core *core = &monitor->core;
    if (prctl(PR_SET_DUMPABLE, 0, 0, 0, 0)) fail("prctl"); /* not even the same user may look into this process */
    core->most = options->calls;
    core->keeps_states = options->keeps_states;
    if (options->published) core_publish(core, options->published);
    core_open(core, options->configuration, false);
    mmu_open(&monitor->mmu, core->size.frames);
    options->plan.frames = core->size.frames;
    options->plan.first = core->size.core;
    options->plan.last = core->size.core + core->size.host;
    options->plan.monitor = getpid();
    host_start(&monitor->host, &options->plan, monitor->mmu.host);
    core_trace(core, options->trace, options->is_redacted);
    int signals = open_signals();
    output_open();
    open_kvm(monitor);
    if (linux_slot(monitor) < SLOTS && terminal_may_read()) open_terminal(monitor);
    monitor->served = eventfd(0, EFD_CLOEXEC);
    monitor->stop = eventfd(0, EFD_CLOEXEC);
    if (monitor->served < 0 || monitor->stop < 0) fail("an event");
    if (pthread_create(serving, NULL, serve_host, monitor)) fail("a thread");
    return signals;
}

/* Ends the host, and then the thread that serves it: whatever that waited for is over. */
static void end_host(struct monitor *monitor, pthread_t serving) {
    const uint64_t one = 1;
    host_end(&monitor->host);
    if (write(monitor->stop, &one, sizeof one) != sizeof one || pthread_join(serving, NULL)) fail("a thread");
}

static void close_all(struct monitor *monitor, int signals) {
    const int files[] = {signals, monitor->kvm, monitor->served, monitor->stop, monitor->host.calls,
                         monitor->host.replies, monitor->host.events, monitor->host.output};
    for (size_t n = 0; n < sizeof files / sizeof *files; n++)
        if (close(files[n])) fail("a file");
    mmu_close(&monitor->mmu);
    core_close(&monitor->core);
}

int main(int count, char **words) {
    (void)count;
    struct options options = read_options(words + 1);
    if (options.resumed) return take_up(&options);
    static struct monitor monitor = {.lock = PTHREAD_MUTEX_INITIALIZER, .moved = PTHREAD_COND_INITIALIZER};
    pthread_t serving;
    memcpy(monitor.modes, options.modes, sizeof options.modes);
    monitor.plan = &options.plan;
    monitor.core.published = -1;
    int signals = start(&monitor, &options, &serving);
    bool is_well = wait_for_end(&monitor, signals, options.seconds);
    end_host(&monitor, serving);
    is_well &= end_guests(&monitor, options.record);
    close_all(&monitor, signals);
    output_close();
    terminal_close();
    return is_well ? 0 : 1;
}
