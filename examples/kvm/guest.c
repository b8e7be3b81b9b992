/* Guests: KVM's side of a VM, a thread for each virtual processor, and one for the pages that they miss. */
#include "monitor.h"
#include <errno.h>
#include <linux/userfaultfd.h>
#include <poll.h>
#include <signal.h>
#include <stdio.h>
#include <stdlib.h>
#include <string.h>
#include <sys/eventfd.h>
#include <sys/ioctl.h>
#include <sys/mman.h>
#include <sys/stat.h>
#include <unistd.h>

/* The ports of 32 bits by which a guest calls. A write to one of the first five is a call: bits 0 to 17 are the guest
 * frame and, for the two on ranges, those from 18 on the count. A read of the first is 0 if the last call was done. */
enum { GRANT = 0x1000, REVOKE, DROP, GRANTR, REVOKER, NOTIFY = 0x1008, END = 0x1009, CLOCK = 0x100a, RING = 0x100b };

static void start(pthread_t *thread, void *(*body)(void *), void *of, struct guest *guest) {
    pthread_attr_t attributes;
    guest->users++;
    if (pthread_attr_init(&attributes) || pthread_attr_setdetachstate(&attributes, PTHREAD_CREATE_DETACHED) ||
        pthread_create(thread, &attributes, body, of) || pthread_attr_destroy(&attributes))
        fail("a thread");
}

/* One of those that use a guest leaves it. The last one frees it. */
static void leave(struct guest *guest) {
    struct monitor *monitor = guest->monitor;
    if (--guest->users) return;
    for (unsigned number = 0; number < VCPUS; number++) {
        struct vcpu *vcpu = &guest->vcpus[number];
        if (vcpu->run && (munmap(vcpu->run, monitor->run_size) || close(vcpu->file))) fail("a virtual processor");
    }
    if (close(guest->vm) || close(guest->ends)) fail("a virtual machine");
    memory_close(&guest->memory);
    free(guest);
    monitor->lives--;
    pthread_cond_broadcast(&monitor->moved);
}

/* The virtual processor whose thread this is. */
static struct vcpu *vcpu_of(struct guest *guest, pid_t thread) {
    for (unsigned number = 0; number < VCPUS; number++)
        if (guest->vcpus[number].has_begun && guest->vcpus[number].thread_id == thread) return &guest->vcpus[number];
    return NULL;
}

/* Asks for a page as a virtual processor that reads it. Returns whether it waits for it from now on. */
static bool lacks_page(struct vcpu *vcpu, uint32_t gfn) {
    struct guest *guest = vcpu->guest;
    const kcore_request read = {KCORE_GREAD, {guest->slot, vcpu->number, gfn, 0, 1}};
    return core_do(&guest->monitor->core, guest->slot, vcpu->number, read, NULL).kind == KCORE_IS_FAULT;
}

/* A virtual processor waits: the page is missing, or it was moved, which is over once this has the lock. */
static void serve_fault(struct guest *guest, const struct uffd_msg *message) {
    struct monitor *monitor = guest->monitor;
    uint32_t gfn = (message->arg.pagefault.address - (uintptr_t)guest->memory.seen) / PAGE;
    bool moves = message->arg.pagefault.flags & UFFD_PAGEFAULT_FLAG_WP, is_missing = false;
    pthread_mutex_lock(&monitor->lock);
    struct vcpu *vcpu = vcpu_of(guest, message->arg.pagefault.feat.ptid);
    if (vcpu && !guest->has_ended && !monitor->is_over) {
        is_missing = !moves && lacks_page(vcpu, gfn);
        if (!is_missing) memory_wake(&guest->memory, gfn);
    }
    pthread_mutex_unlock(&monitor->lock);
    if (!is_missing) return;
    monitor->faults++;
    monitor_event(monitor, "fault", vcpu, gfn);
}

static void *serve_faults(void *of) {
    struct guest *guest = of;
    struct monitor *monitor = guest->monitor;
    struct pollfd files[] = {{guest->memory.faults, POLLIN, 0}, {guest->ends, POLLIN, 0}};
    struct uffd_msg message;
    while (!guest->has_ended) {
        if (poll(files, 2, -1) < 0 && errno != EINTR) fail("poll");
        ssize_t length = read(guest->memory.faults, &message, sizeof message);
        if (length < 0 && errno != EAGAIN) fail("userfaultfd");
        if (length == sizeof message && message.event == UFFD_EVENT_PAGEFAULT) serve_fault(guest, &message);
    }
    pthread_mutex_lock(&monitor->lock);
    leave(guest);
    pthread_mutex_unlock(&monitor->lock);
    return NULL;
}

/* Interrupt controllers and a timer, which are KVM's. Virtual processors halt without an exit; otherwise KVM would have
 * one that waits for a page go on with an interrupt, so that it could miss a second page. */
static void add_interrupts(struct guest *guest) {
    struct kvm_pit_config timer = {.flags = KVM_PIT_SPEAKER_DUMMY};
    struct kvm_enable_cap halts = {.cap = KVM_CAP_X86_DISABLE_EXITS, .args = {KVM_X86_DISABLE_EXITS_HLT}};
    if (ioctl(guest->vm, KVM_SET_TSS_ADDR, 0xfffbd000ul) || ioctl(guest->vm, KVM_CREATE_IRQCHIP) ||
        ioctl(guest->vm, KVM_CREATE_PIT2, &timer) || ioctl(guest->vm, KVM_ENABLE_CAP, &halts))
        fail("interrupts");
    guest->devices.has_interrupts = true;
}

static void set_interrupt(struct guest *guest, uint32_t number, bool level) {
    struct kvm_irq_level line = {.irq = number, .level = level};
    if (ioctl(guest->vm, KVM_IRQ_LINE, &line)) fail("an interrupt");
}

/* Has the serial line's interrupt follow the line, after anything that was done to it. */
static void follow_line(struct guest *guest) {
    bool level = device_interrupts(&guest->devices);
    if (!guest->devices.has_interrupts || level == guest->devices.level) return;
    guest->devices.level = level;
    set_interrupt(guest, SERIAL_LINE, level);
}

const char *guest_interrupt(struct monitor *monitor, uint32_t slot) {
    struct guest *guest = slot < SLOTS ? monitor->guests[slot] : NULL;
    if (!guest || !guest->disk.is_ready) return "refused no-disk";
    guest->disk.interrupts = true;
    set_interrupt(guest, DISK_LINE, true);
    return "done";
}

bool guest_type(struct guest *guest, char character) {
    if (!device_has_room(&guest->devices)) return false;
    device_type(&guest->devices, character);
    follow_line(guest);
    return true;
}

void guest_open(struct monitor *monitor, unsigned slot) {
    struct guest *guest = calloc(1, sizeof *guest);
    pthread_t thread;
    if (!guest) fail("memory");
    guest->monitor = monitor;
    guest->slot = slot;
    if (slot < monitor->plan->count) {
        guest->boot = &monitor->plan->boots[slot];
        guest->mode = monitor->modes[slot];
    }
    guest->users = 1;
    for (unsigned number = 0; number < VCPUS; number++) {
        guest->vcpus[number].guest = guest;
        guest->vcpus[number].number = number;
    }
    memory_open(&guest->memory);
    guest->ends = eventfd(0, EFD_CLOEXEC);
    guest->vm = ioctl(monitor->kvm, KVM_CREATE_VM, 0);
    struct kvm_userspace_memory_region all = {.memory_size = (uint64_t)GUEST_FRAMES * PAGE,
                                              .userspace_addr = (uintptr_t)guest->memory.seen};
    if (guest->ends < 0 || guest->vm < 0 || ioctl(guest->vm, KVM_SET_USER_MEMORY_REGION, &all))
        fail("a virtual machine");
    if (guest->mode == LINUX) add_interrupts(guest);
    guest->devices.is_shown = monitor->is_shown && slot == linux_slot(monitor);
    monitor->guests[slot] = guest;
    monitor->mmu.of[slot] = &guest->memory;
    monitor->lives++;
    pthread_cond_broadcast(&monitor->moved);
    start(&thread, serve_faults, guest, guest);
}

void guest_end(struct guest *guest) {
    struct monitor *monitor = guest->monitor;
    uint64_t one = 1;
    guest->has_ended = true;
    memory_shut(&guest->memory);
    for (unsigned number = 0; number < VCPUS; number++) {
        struct vcpu *vcpu = &guest->vcpus[number];
        if (vcpu->run) vcpu->run->immediate_exit = 1;
        if (vcpu->has_begun && vcpu->thread_id && pthread_kill(vcpu->thread, SIGUSR2)) fail("a thread");
    }
    if (write(guest->ends, &one, sizeof one) != sizeof one) fail("a virtual machine");
    pthread_cond_broadcast(&monitor->moved);
}

void guest_close(struct guest *guest) {
    guest->monitor->mmu.of[guest->slot] = NULL;
    guest->monitor->guests[guest->slot] = NULL;
    leave(guest);
}

static void create_vcpu(struct vcpu *vcpu) {
    vcpu->file = ioctl(vcpu->guest->vm, KVM_CREATE_VCPU, (unsigned long)vcpu->number);
    if (vcpu->file < 0) fail("a virtual processor");
    vcpu->run = mmap(NULL, vcpu->guest->monitor->run_size, PROT_READ | PROT_WRITE, MAP_SHARED, vcpu->file, 0);
    if (vcpu->run == MAP_FAILED) fail("a virtual processor");
    set_beginning(vcpu);
}

/* Whether its private pages from a guest frame on have these bytes of a file. */
static bool has_bytes(const struct guest *guest, uint32_t gfn, int file, off_t from, size_t length) {
    uint8_t guests[PAGE], files[PAGE];
    for (size_t at = 0; at < length; at += PAGE) {
        ssize_t part = length - at < PAGE ? length - at : PAGE;
        if (pread(guest->memory.pages, guests, part, (off_t)gfn * PAGE + at) != part) fail("a page is not read");
        if (pread(file, files, part, from + at) != part || memcmp(guests, files, part)) return false;
    }
    return true;
}

/* Whether its images are those that the command line has for it, one after another: each MiB of a file is one. An
 * approval is of the bytes of an image; where it is, and which others are there, decides what they mean. */
static bool has_named_images(const struct guest *guest) {
    unsigned image = 0;
    for (unsigned part = 0; guest->boot && part < guest->boot->images; part++) {
        int file = guest->boot->parts[part].file;
        struct stat about;
        if (fstat(file, &about)) fail("an image");
        for (off_t from = 0; from < about.st_size; from += IMAGE, image++) {
            uint32_t base = guest->boot->parts[part].base + from / PAGE;
            off_t length = about.st_size - from < IMAGE ? about.st_size - from : IMAGE;
            if (image == guest->image_count || guest->images[image].base != base ||
                guest->images[image].length != length || !has_bytes(guest, base, file, from, length))
                return false;
        }
    }
    return guest->boot && image == guest->image_count;
}

void guest_activate(struct guest *guest) {
    guest->is_as_named = has_named_images(guest);
    for (unsigned number = 0; number < guest->image_count; number++) {
        uint32_t length = guest->images[number].length, end = length % PAGE;
        if (end) mmu_zero_end(&guest->monitor->mmu, guest->slot, guest->images[number].base + length / PAGE, end);
    }
    for (unsigned number = 0; guest->is_as_named && number < guest->boot->vcpus; number++)
        if (guest->vcpus[number].is_registered) create_vcpu(&guest->vcpus[number]);
    guest->is_active = true;
}

/* Waits until the host has the virtual processor go on. Returns whether it may. */
static bool waits(struct vcpu *vcpu) {
    struct monitor *monitor = vcpu->guest->monitor;
    pthread_mutex_lock(&monitor->lock);
    while (!vcpu->may_go && !vcpu->guest->has_ended) pthread_cond_wait(&monitor->moved, &monitor->lock);
    pthread_mutex_unlock(&monitor->lock);
    return !vcpu->guest->has_ended;
}

/* Notifies the host, and waits. */
static bool notifies(struct vcpu *vcpu, uint32_t number) {
    struct monitor *monitor = vcpu->guest->monitor;
    pthread_mutex_lock(&monitor->lock);
    vcpu->may_go = false;
    pthread_mutex_unlock(&monitor->lock);
    monitor_event(monitor, "notified", vcpu, number);
    return waits(vcpu);
}

/* Makes a call of a virtual processor, and has the MMU follow. Returns whether it was done. */
static bool makes(struct vcpu *vcpu, uint32_t call, uint32_t gfn, uint32_t count) {
    struct guest *guest = vcpu->guest;
    struct monitor *monitor = guest->monitor;
    const kcore_request request = {call, {guest->slot, vcpu->number, gfn, count}};
    bool is_done = false;
    pthread_mutex_lock(&monitor->lock);
    if (!guest->has_ended && !monitor->is_over) {
        is_done = core_do(&monitor->core, guest->slot, vcpu->number, request, NULL).kind == KCORE_IS_DONE;
        mmu_follow(&monitor->mmu, monitor->core.changes, monitor->core.count, NULL);
    }
    pthread_mutex_unlock(&monitor->lock);
    return is_done;
}

/* For measuring: 0 begins, and a number of times ends. */
static void measure(struct vcpu *vcpu, uint32_t times) {
    struct monitor *monitor = vcpu->guest->monitor;
    pthread_mutex_lock(&monitor->lock);
    double time = now(), asking = monitor->core.asking;
    pthread_mutex_unlock(&monitor->lock);
    if (times)
        print_line(OF_GUEST, "guest %u: %u times: %.2f us each, of these %.2f us in the core", vcpu->guest->slot, times,
                   (time - vcpu->begun) / times, (asking - vcpu->asked) / times);
    vcpu->begun = time;
    vcpu->asked = asking;
}

/* The guest frame of the ring of its disk, or 0 if there is none. */
static uint32_t ring_of(struct guest *guest) {
    pthread_mutex_lock(&guest->monitor->lock);
    uint32_t ring = guest->disk.is_ready ? guest->disk.ring : 0;
    pthread_mutex_unlock(&guest->monitor->lock);
    return ring;
}

/* Has the host look into the ring. */
static void kicks(struct vcpu *vcpu) { monitor_event(vcpu->guest->monitor, "kicked", vcpu, ring_of(vcpu->guest)); }

/* Reads or writes a register of the disk. */
static void reach_disk(struct vcpu *vcpu) {
    struct guest *guest = vcpu->guest;
    struct kvm_run *run = vcpu->run;
    uint32_t at = run->mmio.phys_addr - DISK, value = 0, size = run->mmio.len < 4 ? run->mmio.len : 4;
    bool is_kicked = false;
    pthread_mutex_lock(&guest->monitor->lock);
    if (run->mmio.is_write) {
        memcpy(&value, run->mmio.data, size);
        is_kicked = disk_write(&guest->disk, at, value);
    } else {
        value = disk_read(&guest->disk, at, size);
        memset(run->mmio.data, 0, sizeof run->mmio.data);
        memcpy(run->mmio.data, &value, size);
    }
    if (!guest->disk.interrupts) set_interrupt(guest, DISK_LINE, false);
    pthread_mutex_unlock(&guest->monitor->lock);
    if (is_kicked) kicks(vcpu);
}

static void exits_by_memory(struct vcpu *vcpu) {
    struct kvm_run *run = vcpu->run;
    bool is_disk = run->mmio.phys_addr >= DISK && run->mmio.phys_addr < DISK_END;
    if (vcpu->guest->mode == LINUX && is_disk) reach_disk(vcpu);
    else if (!run->mmio.is_write) memset(run->mmio.data, 0xff, sizeof run->mmio.data);
}

/* Reads or writes a port of a device. */
static void reach_device(struct guest *guest, uint16_t port, uint32_t *value, bool is_out) {
    pthread_mutex_lock(&guest->monitor->lock);
    bool had_room = device_has_room(&guest->devices);
    if (is_out) device_out(&guest->devices, guest->slot, port, *value);
    else *value = device_in(&guest->devices, port);
    follow_line(guest);
    if (!had_room && device_has_room(&guest->devices)) pthread_cond_broadcast(&guest->monitor->moved);
    pthread_mutex_unlock(&guest->monitor->lock);
}

/* Writes a port. Returns whether the virtual processor goes on. */
static bool out(struct vcpu *vcpu, uint16_t port, uint32_t value) {
    static const uint32_t calls[] = {KCORE_GRANT, KCORE_REVOKE, KCORE_DROP, KCORE_GRANTR, KCORE_REVOKER};
    if (port >= GRANT && port <= REVOKER)
        vcpu->answer = !makes(vcpu, calls[port - GRANT], value % GUEST_FRAMES, value / GUEST_FRAMES);
    else if (port == NOTIFY) return notifies(vcpu, value);
    else if (port == END) return false;
    else if (port == CLOCK) measure(vcpu, value);
    else if (port == RING) kicks(vcpu);
    else reach_device(vcpu->guest, port, &value, true);
    return true;
}

static uint32_t in(struct vcpu *vcpu, uint16_t port) {
    if (port == GRANT) return vcpu->answer;
    if (port == RING) return ring_of(vcpu->guest);
    uint32_t value;
    reach_device(vcpu->guest, port, &value, false);
    return value;
}

static bool exits_by_port(struct vcpu *vcpu) {
    struct kvm_run *run = vcpu->run;
    uint8_t *data = (uint8_t *)run + run->io.data_offset;
    bool is_out = run->io.direction == KVM_EXIT_IO_OUT;
    uint16_t port = run->io.port;
    uint32_t size = run->io.size, count = run->io.count;
    for (; count; count--, data += size) {
        uint32_t value = is_out ? 0 : in(vcpu, port);
        memcpy(is_out ? (void *)&value : data, is_out ? data : (void *)&value, size);
        if (is_out && !out(vcpu, port, value)) return false;
    }
    return true;
}

/* Reports an exit that has no answer. */
static void report(struct vcpu *vcpu) {
    struct kvm_run *run = vcpu->run;
    struct kvm_regs at;
    if (ioctl(vcpu->file, KVM_GET_REGS, &at)) fail("registers");
    if (run->exit_reason == KVM_EXIT_SHUTDOWN)
        print_line(OF_MONITOR, "monitor: guest %u ends at %llx: it is reset", vcpu->guest->slot, at.rip);
    else if (run->exit_reason == KVM_EXIT_INTERNAL_ERROR && run->internal.suberror == KVM_INTERNAL_ERROR_EMULATION)
        print_line(OF_MONITOR, "monitor: guest %u ends at %llx: KVM does not emulate this instruction",
                   vcpu->guest->slot, at.rip);
    else print_line(OF_MONITOR, "monitor: guest %u ends at %llx: exit %u", vcpu->guest->slot, at.rip, run->exit_reason);
}

/* Answers an exit. Returns whether the virtual processor goes on. */
static bool answers(struct vcpu *vcpu) {
    struct kvm_run *run = vcpu->run;
    switch (run->exit_reason) {
    case KVM_EXIT_IO: return exits_by_port(vcpu);
    case KVM_EXIT_MMIO: exits_by_memory(vcpu); return true;
    case KVM_EXIT_HLT: /* no interrupt comes: one that takes interrupts is woken without any, another one has ended */
        if (run->if_flag) usleep(1000);
        return run->if_flag;
    default: report(vcpu); return false;
    }
}

static void run_until_end(struct vcpu *vcpu) {
    while (waits(vcpu)) {
        if (!ioctl(vcpu->file, KVM_RUN, 0)) {
            vcpu->guest->monitor->exits++;
            if (!answers(vcpu)) return;
        } else if (errno != EINTR && errno != EAGAIN) {
            if (!vcpu->guest->has_ended)
                print_line(OF_MONITOR, "monitor: guest %u: KVM_RUN: %s", vcpu->guest->slot, strerror(errno));
            return;
        }
    }
}

static void *run(void *of) {
    struct vcpu *vcpu = of;
    struct guest *guest = vcpu->guest;
    struct monitor *monitor = guest->monitor;
    pthread_mutex_lock(&monitor->lock);
    vcpu->thread_id = gettid();
    pthread_mutex_unlock(&monitor->lock);
    run_until_end(vcpu);
    if (!guest->has_ended) monitor_event(monitor, "ended", vcpu, 0);
    pthread_mutex_lock(&monitor->lock);
    vcpu->thread_id = 0;
    vcpu->has_ended = true;
    leave(guest);
    pthread_mutex_unlock(&monitor->lock);
    return NULL;
}

const char *guest_run(struct monitor *monitor, uint32_t slot, uint32_t number) {
    struct guest *guest = slot < SLOTS ? monitor->guests[slot] : NULL;
    struct vcpu *vcpu = guest && number < VCPUS ? &guest->vcpus[number] : NULL;
    if (!vcpu || !guest->is_active || !vcpu->is_registered) return "refused not-active";
    if (!guest->boot) return "refused other-guest";
    if (!guest->is_as_named) return "refused other-images";
    if (!vcpu->run) return "refused other-vcpu";
    if (vcpu->has_ended) return "refused ended";
    vcpu->may_go = true;
    pthread_cond_broadcast(&monitor->moved);
    if (!vcpu->has_begun) start(&vcpu->thread, run, vcpu, guest);
    vcpu->has_begun = true;
    return "done";
}
