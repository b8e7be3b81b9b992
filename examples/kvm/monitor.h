/* A monitor of real virtual machines under Linux KVM: which page is whose is decided by kcore, and by nothing here.
 * docs/MONITOR.md says how its parts fit together. One lock, the monitor's, is held during each call and until what it
 * changed is carried out. */
#ifndef MONITOR_H
#define MONITOR_H
#include "host.h"
#include <kcore.h>
#include <linux/kvm.h>
#include <pthread.h>
#include <stdatomic.h>
#include <stdbool.h>
#include <stddef.h>
#include <stdint.h>
#include <sys/types.h>

enum { PAGE = 4096, GUEST_FRAMES = 262144, SLOTS = 64, VCPUS = 8, IMAGES = 4, IMAGE = 1048576 };

/* Output (output.c): nothing waits for whoever reads it, except the end of the program, and that no longer than two
 * seconds in which nothing is read. Lines for which there is no room are left out. */

enum source { OF_HOST, OF_GUEST, OF_MONITOR };

/* A line of a host's or a guest's that has not ended. */
struct line {
    char text[200];
    size_t length;
};

void output_open(void);
__attribute__((format(printf, 2, 3))) void print_line(enum source source, const char *format, ...);
/* Adds a character, which is printed with the line that it belongs to. That begins with a name. */
void print_character(struct line *line, enum source source, const char *name, char character);
/* Prints a guest's text as it is. */
void print_text(const char *text, size_t length);
void output_close(void);

/* The terminal (terminal.c) of whoever started the monitor: the serial line of the first Linux guest. */

/* Whether this program may read its input: not from a terminal of which another has the use. */
bool terminal_may_read(void);
/* Has each character come as it is typed, if input and output are a terminal. Returns whether they are. */
bool terminal_open(void);
/* Prints a character of the guest's, if a terminal may get it. */
void terminal_print(char character);
/* Leaves the terminal as it was. */
void terminal_close(void);

/* Ends the program with status 3 and a line on standard error: what was decided cannot be done. */
_Noreturn __attribute__((format(printf, 1, 2))) void end_with(const char *format, ...);
/* The same, with the reason that errno has. */
_Noreturn void fail(const char *what);

/* The host's processes (process.c). */

struct host_process {
    pid_t first; /* the one that waits for the host */
    int file;    /* its descriptor */
    int calls, replies, events, output;
};

void host_start(struct host_process *host, const struct plan *plan, int memory);
/* Ends the host and all that it started. */
void host_end(struct host_process *host);

/* The core (core.c): its session, and the trace that is written of it. */

struct core {
    kcore session;
    kcore_size size;
    kcore_frame_change *changes; /* what the last call changed */
    size_t count;
    uint8_t *reply, *line; /* with room for the longest of each, and a NUL */
    size_t reply_room, line_room;
    const char *path; /* of the traces; each ends with its volume's number, .00001 and so on */
    int trace, list, published;
    unsigned volume; /* its number in the history */
    size_t written; /* lines of the volume that are in its file */
    size_t most;    /* calls of a volume; 0 for as many as it holds */
    bool redacted, keeps_states;
    uint64_t calls;
    double asking; /* microseconds in the core, and in writing the trace */
};

/* Opens the file to which the digest of each volume is added at its end. It has to be new, unless it is no ordinary
 * file. */
void core_publish(struct core *core, const char *path);
/* Opens a core in the boot state of a configuration, where its history begins, or in the state of a text. */
void core_open(struct core *core, const char *path, bool is_state);
/* Begins the trace, to which each call is written, with the list of its volumes, and keeps the states in which these
 * begin, if asked for. */
void core_trace(struct core *core, const char *trace, bool redacted);
void core_close(struct core *core);

/* Makes the call on a line of the host's. Returns the reply, or why there is none, which stays until the next call.
 * Then the line is in the trace, and what it changed in `changes`. */
const char *core_ask(struct core *core, const char *line, size_t length);

/* Makes a call of virtual processor `vcpu` of slot `vm` or, for KCORE_NONE, of the host. `page` is the page of bytes of
 * a write, else NULL. */
kcore_answer core_do(struct core *core, uint32_t vm, uint32_t vcpu, kcore_request request, const uint8_t *page);

kcore_record core_record_of(struct core *core, uint32_t frame);

/* The MMU (mmu.c): where the bytes of frames are, and who sees them. */

/* What a guest sees: its private pages, each at its guest frame, and in between those of the host's that it shares. */
struct memory {
    int pages; /* the file of the private ones */
    uint8_t *seen;
    int faults; /* the userfaultfd of what is seen */
};

struct mmu {
    uint32_t frames;
    int host; /* the host's file, each page at its frame */
    struct memory *of[SLOTS];
};

struct comparison {
    uint32_t private_pages, shared_pages, wrong;
};

void mmu_open(struct mmu *mmu, uint32_t frames);
void mmu_close(struct mmu *mmu);
void memory_open(struct memory *memory);
/* Takes all pages from the guest's sight: whoever waits for one is refused. */
void memory_shut(struct memory *memory);
void memory_close(struct memory *memory);
/* Lets whoever waits at a guest frame try again. */
void memory_wake(struct memory *memory, uint32_t gfn);

/* Carries out what a call changed. If a page of the host's goes to a guest, `copy` has its bytes, or is NULL: then they
 * are read now. */
void mmu_follow(struct mmu *mmu, const kcore_frame_change *changes, size_t count, const uint8_t *copy);
void mmu_read_host(struct mmu *mmu, uint32_t frame, uint8_t *bytes);
/* Zeroes the bytes of a private page from an offset on. */
void mmu_zero_end(struct mmu *mmu, uint32_t vm, uint32_t gfn, uint32_t offset);
/* Compares what the kernel has mapped and kept with the record of each frame. */
struct comparison mmu_compare(struct mmu *mmu, struct core *core);

/* Devices (devices.c): a serial line, on which a guest prints, and what firmware looks for. */

struct devices {
    struct line line;
    uint8_t serial[8], speed[2], cmos, keyboard;
    char typed[256]; /* a ring: what the guest has not read yet */
    unsigned first, count;
    bool has_interrupts; /* as Linux wants it, and no firmware */
    bool was_sent;       /* a character, of which the guest was not informed yet */
    bool level;          /* of the serial line's interrupt */
    bool is_shown;       /* a terminal is its other end */
};

void device_out(struct devices *devices, unsigned vm, uint16_t port, uint32_t value);
uint32_t device_in(struct devices *devices, uint16_t port);
/* Whether the serial line asks for an interrupt. */
bool device_interrupts(const struct devices *devices);
/* Whether the guest can be sent a character now. */
bool device_has_room(const struct devices *devices);
void device_type(struct devices *devices, char character);

/* The disk of a Linux guest (virtio.c): its registers. */

enum { DISK = 0x40000000, DISK_END = 0x40001000, DISK_LINE = 5, SERIAL_LINE = 4 };

struct disk {
    uint32_t half, status, ring; /* which features are asked for; the guest frame of the ring */
    bool is_ready, interrupts;
};

uint32_t disk_read(const struct disk *disk, uint32_t at, uint32_t size);
/* Returns whether the guest has put something into the ring. */
bool disk_write(struct disk *disk, uint32_t at, uint32_t value);

/* Guests (guest.c): the life of a VM, from its registration until it is cleared and its threads are gone; and how its
 * virtual processors begin (begin.c). */

/* How its virtual processors begin. The host has no say in it. */
enum mode { BARE, BIOS, MULTIBOOT, LINUX };

struct guest;

struct vcpu {
    struct guest *guest;
    unsigned number;
    bool is_registered, has_begun, may_go, has_ended;
    pthread_t thread;
    pid_t thread_id;
    int file;
    struct kvm_run *run;
    uint32_t answer; /* of its last call: 0 is done */
    double begun, asked; /* for measuring */
};

struct guest {
    struct monitor *monitor;
    unsigned slot;
    const struct boot *boot; /* what the command line has for it, or NULL */
    enum mode mode;
    bool is_active, is_as_named; /* its images were approved, and are those of the command line */
    atomic_bool has_ended;
    unsigned users; /* its slot, and threads */
    int vm, ends;   /* KVM's, and what wakes the thread of its faults */
    struct memory memory;
    struct devices devices;
    struct disk disk;
    struct {
        uint32_t base, length;
    } images[IMAGES];
    unsigned image_count;
    struct vcpu vcpus[VCPUS];
};

struct monitor {
    pthread_mutex_t lock;
    pthread_cond_t moved; /* a virtual processor may go, or a thread is gone */
    struct core core;
    struct mmu mmu;
    struct guest *guests[SLOTS];
    const struct plan *plan;
    enum mode modes[MOST_GUESTS];
    struct host_process host;
    int kvm, served, stop; /* KVM; set when the host makes no more calls; set when none is answered any more */
    size_t run_size;
    atomic_uint faults, exits;
    unsigned lives; /* of guests whose threads are not all gone */
    bool is_over;   /* nothing is asked any more */
    bool is_shown;  /* the first Linux guest, at a terminal */
};

/* The slot of the first Linux guest, or SLOTS. */
unsigned linux_slot(const struct monitor *monitor);

/* These are called with the lock held. */
void guest_open(struct monitor *monitor, unsigned slot);
/* The host has answered what was in the ring of its disk. Returns the reply to the host. */
const char *guest_interrupt(struct monitor *monitor, uint32_t slot);
/* Sends a character by its serial line. Returns whether there was room for it. */
bool guest_type(struct guest *guest, char character);
/* Its images were approved. */
void guest_activate(struct guest *guest);
/* Sets how a virtual processor begins: its registers and features are no less the guest's than its memory. */
void set_beginning(const struct vcpu *vcpu);
/* Has a virtual processor begin, or go on. Returns the reply to the host. */
const char *guest_run(struct monitor *monitor, uint32_t slot, uint32_t vcpu);
/* It sees no page from now on, and its threads end. */
void guest_end(struct guest *guest);
/* Its slot is empty. */
void guest_close(struct guest *guest);

/* Serves the host's calls, and prints what it prints, until it is stopped: a thread. */
void *serve_host(void *monitor);
/* Sends the host a line: what happened (fault, notified, kicked or ended), slot, virtual processor, a number. It waits
 * for room as long as the guest does not end, so it is called without the lock. */
void monitor_event(struct monitor *monitor, const char *name, const struct vcpu *vcpu, uint32_t number);

/* Microseconds of the clock. */
double now(void);
#endif
