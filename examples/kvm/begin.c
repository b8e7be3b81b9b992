/* How virtual processors begin: their registers and features, in which the host has no say. */
#include "monitor.h"
#include <sys/ioctl.h>

/* 64 bits in user mode, with ports: what every KVM runs natively. Descriptors, task and tables are in the image. */
static void begin_bare(const struct vcpu *vcpu, struct kvm_sregs *s, struct kvm_regs *r) {
    const struct kvm_segment data = {
        .limit = UINT32_MAX, .selector = 0x23, .type = 3, .present = 1, .dpl = 3, .s = 1, .db = 1, .g = 1};
    s->ds = s->es = s->fs = s->gs = s->ss = data;
    s->cs = data;
    s->cs.selector = 0x1b;
    s->cs.type = 11;
    s->cs.l = 1;
    s->cs.db = 0;
    s->tr = (struct kvm_segment){.base = 0x400, .limit = 0x3ff, .selector = 0x28, .type = 11, .present = 1};
    s->gdt = (struct kvm_dtable){.base = 0, .limit = 0x37};
    s->idt = (struct kvm_dtable){.base = 0x800, .limit = 0};
    s->cr0 = 0x80050033;
    s->cr3 = 0x1000;
    s->cr4 = 0x620;
    s->efer = 0x500;
    *r = (struct kvm_regs){.rip = 0x4000, .rsp = 0x40000 - vcpu->number * PAGE, .rflags = 0x3002,
                           .rdi = vcpu->number, .rsi = vcpu->guest->slot};
}

/* Real mode at the reset vector, in its copy below 1 MiB. */
static void begin_bios(struct kvm_sregs *s, struct kvm_regs *r) {
    s->cs.selector = 0xf000;
    s->cs.base = 0xf0000;
    *r = (struct kvm_regs){.rip = 0xfff0, .rflags = 2};
}

/* Protected mode, flat, at guest frame 0x10: there the image has what loads the registers that a kernel wants. */
static void begin_multiboot(struct kvm_sregs *s, struct kvm_regs *r) {
    const struct kvm_segment data = {
        .limit = UINT32_MAX, .selector = 16, .type = 3, .present = 1, .s = 1, .db = 1, .g = 1};
    s->ds = s->es = s->fs = s->gs = s->ss = s->cs = data;
    s->cs.selector = 8;
    s->cs.type = 11;
    s->cr0 = 0x11;
    *r = (struct kvm_regs){.rip = 0x10000, .rflags = 2};
}

/* 64 bits in kernel mode, at the image's loader. Descriptors and tables are in the image. */
static void begin_linux(struct kvm_sregs *s, struct kvm_regs *r) {
    const struct kvm_segment data = {
        .limit = UINT32_MAX, .selector = 0x18, .type = 3, .present = 1, .s = 1, .db = 1, .g = 1};
    s->ds = s->es = s->fs = s->gs = s->ss = s->cs = data;
    s->cs.selector = 0x10;
    s->cs.type = 11;
    s->cs.l = 1;
    s->cs.db = 0;
    s->tr = (struct kvm_segment){.limit = 0x67, .type = 11, .present = 1};
    s->gdt = (struct kvm_dtable){.base = 0, .limit = 0x1f};
    s->idt = (struct kvm_dtable){.base = 0, .limit = 0};
    s->cr0 = 0x80050033;
    s->cr3 = 0x1000;
    s->cr4 = 0x20;
    s->efer = 0x500;
    *r = (struct kvm_regs){.rip = 0x4000, .rsp = 0x8000, .rflags = 2};
}

static void set_registers(const struct vcpu *vcpu) {
    struct kvm_sregs s;
    struct kvm_regs r;
    if (ioctl(vcpu->file, KVM_GET_SREGS, &s)) fail("registers");
    switch (vcpu->guest->mode) {
    case BARE: begin_bare(vcpu, &s, &r); break;
    case BIOS: begin_bios(&s, &r); break;
    case MULTIBOOT: begin_multiboot(&s, &r); break;
    case LINUX: begin_linux(&s, &r); break;
    }
    if (ioctl(vcpu->file, KVM_SET_SREGS, &s) || ioctl(vcpu->file, KVM_SET_REGS, &r)) fail("registers");
}

/* Puts a virtual processor's number in place of that of the processor that was asked. */
static void correct(const struct vcpu *vcpu, struct kvm_cpuid_entry2 *entry) {
    if (entry->function == 1) entry->ebx = (entry->ebx & 0xffffff) | vcpu->number << 24;
    if (entry->function == 0xb || entry->function == 0x1f) entry->edx = vcpu->number;
}

/* Nothing in the features says that there is a hypervisor, so Linux asks for none of the ways by which KVM reaches a
 * guest's memory of its own accord. */
static void set_features(const struct vcpu *vcpu) {
    struct {
        struct kvm_cpuid2 head;
        struct kvm_cpuid_entry2 entries[256];
    } features = {.head.nent = 256};
    if (ioctl(vcpu->guest->monitor->kvm, KVM_GET_SUPPORTED_CPUID, &features)) fail("features");
    for (unsigned n = 0; n < features.head.nent; n++) correct(vcpu, &features.entries[n]);
    if (ioctl(vcpu->file, KVM_SET_CPUID2, &features)) fail("features");
}

void set_beginning(const struct vcpu *vcpu) {
    set_features(vcpu);
    /* the other processors of a Linux guest wait until the first one starts them, at an address that it gives */
    if (vcpu->guest->mode != LINUX || !vcpu->number) set_registers(vcpu);
}
