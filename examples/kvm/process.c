/* The host's processes: how they are started, with nothing of the monitor's but what is meant for them, and ended, all
 * of them.
 *
 * The first one, which is not the host's, is the init of a PID namespace if the kernel allows one: it gives up nothing
 * and does nothing but wait. The host is its child, and all that the host starts is in the namespace too. When the init
 * ends, which it does at the latest when the monitor does, the kernel ends all others. */
#include "monitor.h"
#include "host.h"
#include <errno.h>
#include <fcntl.h>
#include <grp.h>
#include <linux/audit.h>
#include <linux/filter.h>
#include <linux/seccomp.h>
#include <poll.h>
#include <sched.h>
#include <signal.h>
#include <stdio.h>
#include <stdlib.h>
#include <string.h>
#include <sys/prctl.h>
#include <sys/syscall.h>
#include <sys/wait.h>
#include <unistd.h>

enum { NOBODY = 65534, STACK = 1 << 18, FAR = 128, PATIENCE = 10000 };

/* What the host is started with: its files, in the order of the numbers that they get, and its plan. */
struct beginning {
    const struct plan *plan;
    int files[IMAGE_FILES + MOST_GUESTS * PARTS + 1];
    unsigned count;
    bool is_root;
};

/* Has the files get the numbers from 0 on, and closes all others. */
static void place_files(const struct beginning *it) {
    int far[IMAGE_FILES + MOST_GUESTS * PARTS + 1];
    for (unsigned n = 0; n < it->count; n++)
        if ((far[n] = fcntl(it->files[n], F_DUPFD, FAR)) < 0) _exit(3);
    for (unsigned n = 0; n < it->count; n++)
        if (dup2(far[n], n) < 0) _exit(3);
    if (close_range(it->count, ~0U, 0)) _exit(3);
}

/* Has the kernel refuse namespaces. In one of its own a user may mount a file system that answers nothing; a process
 * that waits for it cannot be ended, nor can whoever waits for a pipe that this process has locked. */
static bool forbid_namespaces(void) {
    const unsigned kinds = CLONE_NEWUSER | CLONE_NEWNS | CLONE_NEWPID | CLONE_NEWNET | CLONE_NEWIPC | CLONE_NEWUTS |
                           CLONE_NEWCGROUP;
    const struct sock_filter rules[] = {
        BPF_STMT(BPF_LD | BPF_W | BPF_ABS, offsetof(struct seccomp_data, arch)),
        BPF_JUMP(BPF_JMP | BPF_JEQ | BPF_K, AUDIT_ARCH_X86_64, 0, 8),
        BPF_STMT(BPF_LD | BPF_W | BPF_ABS, offsetof(struct seccomp_data, nr)),
        BPF_JUMP(BPF_JMP | BPF_JGE | BPF_K, 0x40000000, 6, 0), /* other numbers for the same calls */
        BPF_JUMP(BPF_JMP | BPF_JEQ | BPF_K, SYS_unshare, 5, 0),
        BPF_JUMP(BPF_JMP | BPF_JEQ | BPF_K, SYS_setns, 4, 0),
        BPF_JUMP(BPF_JMP | BPF_JEQ | BPF_K, SYS_clone3, 4, 0), /* its flags are in memory; then clone is tried */
        BPF_JUMP(BPF_JMP | BPF_JEQ | BPF_K, SYS_clone, 0, 4),
        BPF_STMT(BPF_LD | BPF_W | BPF_ABS, offsetof(struct seccomp_data, args)),
        BPF_JUMP(BPF_JMP | BPF_JSET | BPF_K, kinds, 0, 2),
        BPF_STMT(BPF_RET | BPF_K, SECCOMP_RET_ERRNO | EPERM),
        BPF_STMT(BPF_RET | BPF_K, SECCOMP_RET_ERRNO | ENOSYS),
        BPF_STMT(BPF_RET | BPF_K, SECCOMP_RET_ALLOW),
    };
    const struct sock_fprog program = {sizeof rules / sizeof *rules, (struct sock_filter *)rules};
    return !prctl(PR_SET_SECCOMP, SECCOMP_MODE_FILTER, &program, 0, 0);
}

/* Gives up what an untrusted process may not have: its user, if that is root, and what other programs could give it. */
static void give_up(const struct beginning *it) {
    if (it->is_root &&
        (setgroups(0, NULL) || setresgid(NOBODY, NOBODY, NOBODY) || setresuid(NOBODY, NOBODY, NOBODY)))
        _exit(3);
    if (prctl(PR_SET_NO_NEW_PRIVS, 1, 0, 0, 0) || prctl(PR_SET_PDEATHSIG, SIGKILL) || !forbid_namespaces()) _exit(3);
}

/* A host's program: its words, those of the protocol, and of the environment only the path. */
static _Noreturn void execute(const struct beginning *it) {
    static char numbers[3][12], guests[MOST_GUESTS][16 + PARTS * 24], path[4096];
    const struct plan *plan = it->plan;
    char *words[64], *environment[] = {path, NULL};
    unsigned count = 0, file = IMAGE_FILES;
    while (plan->words[count] && count < 40) words[count] = plan->words[count], count++;
    const uint32_t sizes[] = {plan->frames, plan->first, plan->last};
    for (int n = 0; n < 3; n++) {
        snprintf(numbers[n], sizeof numbers[n], "%u", (unsigned)sizes[n]);
        words[count++] = numbers[n];
    }
    for (unsigned vm = 0; vm < plan->count; vm++) {
        const struct boot *boot = &plan->boots[vm];
        int length = sprintf(guests[vm], "%u", boot->vcpus);
        for (unsigned part = 0; part < boot->count; part++)
            length += sprintf(guests[vm] + length, "%c%u@%u", part < boot->images ? ':' : '+', file++,
                              (unsigned)boot->parts[part].base);
        words[count++] = guests[vm];
    }
    words[count] = NULL;
    snprintf(path, sizeof path, "PATH=%s", getenv("PATH") ? getenv("PATH") : "/usr/bin:/bin");
    fexecve(file, words, environment);
    dprintf(STDERR_FILENO, "%s: %s\n", plan->words[0], strerror(errno));
    _exit(3);
}

static _Noreturn void be_host(const struct beginning *it) {
    give_up(it);
    if (it->plan->words) execute(it);
    struct plan plan = *it->plan;
    for (unsigned vm = 0, file = IMAGE_FILES; vm < plan.count; vm++)
        for (unsigned part = 0; part < plan.boots[vm].count; part++) plan.boots[vm].parts[part].file = file++;
    host_main(&plan);
}

/* The first process. If the monitor is gone, nobody reads the calls. */
static int wait_for_host(void *of) {
    const struct beginning *it = of;
    place_files(it);
    struct pollfd calls = {CALLS, 0, 0};
    if (setsid() < 0 || prctl(PR_SET_PDEATHSIG, SIGKILL) || poll(&calls, 1, 0)) _exit(3);
    pid_t host = fork();
    if (!host) be_host(it);
    if (host < 0 || close_range(0, ~0U, 0)) _exit(3);
    for (pid_t ended = 0; ended != host;)
        if ((ended = waitpid(-1, NULL, 0)) < 0 && errno != EINTR) break;
    _exit(0);
}

/* Makes a pipe whose end here never blocks. */
static void open_pipe(int *here, int *theirs, bool is_read_here) {
    int ends[2];
    if (pipe2(ends, O_CLOEXEC) || fcntl(ends[!is_read_here], F_SETFL, O_NONBLOCK)) fail("a pipe");
    *here = ends[!is_read_here];
    *theirs = ends[is_read_here];
}

/* Starts the first process: in a PID namespace, for which a user who is not root needs a user namespace as well; or, if
 * there may be none, without. */
static pid_t start(struct beginning *it) {
    static _Alignas(16) char stack[STACK];
    const int flags = it->is_root ? CLONE_NEWPID : CLONE_NEWUSER | CLONE_NEWPID;
    pid_t first = clone(wait_for_host, stack + STACK, flags | SIGCHLD, it);
    if (first >= 0) return first;
    print_line(OF_MONITOR, "monitor: no PID namespace for the host: %s", strerror(errno));
    if ((first = clone(wait_for_host, stack + STACK, SIGCHLD, it)) < 0) fail("the host's process");
    return first;
}

void host_start(struct host_process *host, const struct plan *plan, int memory) {
    struct beginning it = {.plan = plan, .count = IMAGE_FILES, .is_root = !geteuid()};
    if ((it.files[0] = open("/dev/null", O_RDONLY | O_CLOEXEC)) < 0) fail("/dev/null");
    it.files[MEMORY] = memory;
    open_pipe(&host->output, &it.files[1], true);
    it.files[2] = it.files[1];
    open_pipe(&host->calls, &it.files[CALLS], true);
    open_pipe(&host->replies, &it.files[REPLIES], false);
    open_pipe(&host->events, &it.files[EVENTS], false);
    for (unsigned vm = 0; vm < plan->count; vm++)
        for (unsigned part = 0; part < plan->boots[vm].count; part++)
            it.files[it.count++] = plan->boots[vm].parts[part].file;
    if (plan->words) it.files[it.count++] = plan->program;
    /* What the host leaves if there is no namespace becomes a child of this process. */
    if (prctl(PR_SET_CHILD_SUBREAPER, 1, 0, 0, 0)) fail("the host's process");
    host->first = start(&it);
    host->file = syscall(SYS_pidfd_open, host->first, 0);
    if (host->file < 0) fail("the host's process");
    for (unsigned n = 0; n <= EVENTS; n++)
        if (n != 2 && n != MEMORY && close(it.files[n])) fail("the host's files");
}

static void kill_children(void) {
    char path[64];
    int child;
    snprintf(path, sizeof path, "/proc/self/task/%d/children", (int)getpid());
    FILE *children = fopen(path, "r");
    while (children && fscanf(children, "%d", &child) == 1) kill(child, SIGKILL);
    if (children) fclose(children);
}

void host_end(struct host_process *host) {
    struct pollfd ended = {host->file, POLLIN, 0};
    double end = now() + PATIENCE * 1e3;
    pid_t child;
    kill(host->first, SIGKILL);
    if (poll(&ended, 1, PATIENCE) != 1) end_with("the host does not end");
    while ((child = waitpid(-1, NULL, WNOHANG)) >= 0) {
        kill_children();
        if (now() > end) end_with("what the host started does not end");
        if (!child) usleep(1000);
    }
    close(host->file);
}
