/* The registers of a Linux guest's disk: a block device of virtio (OASIS, 1.2: MMIO transport, version 2). That is all
 * the monitor has of it. The ring and the buffers are in pages that the guest shares, and the host does the rest. */
#include "monitor.h"

enum { IDENTITY = 0x74726976, VERSION = 2, BLOCK = 2, VENDOR = 0x6572636b, RING = 8 };
enum {
    MAGIC = 0x00, TRANSPORT = 0x04, DEVICE = 0x08, VENDOR_ID = 0x0c, FEATURES = 0x10, FEATURES_HALF = 0x14,
    RING_MOST = 0x34, RING_COUNT = 0x38, RING_READY = 0x44, RING_KICK = 0x50, INTERRUPT = 0x60, INTERRUPT_ACK = 0x64,
    STATUS = 0x70, RING_AT = 0x80, SECTORS = 0x100
};
/* Features 32 and 33: it is no device of the time before virtio 1, and all that it reaches is lent to it. */
enum { MODERN_AND_LENT = 3 };

static uint32_t read_register(const struct disk *disk, uint32_t at) {
    switch (at) {
    case MAGIC: return IDENTITY;
    case TRANSPORT: return VERSION;
    case DEVICE: return BLOCK;
    case VENDOR_ID: return VENDOR;
    case FEATURES: return disk->half == 1 ? MODERN_AND_LENT : 0;
    case RING_MOST: return RING;
    case RING_READY: return disk->is_ready;
    case INTERRUPT: return disk->interrupts;
    case STATUS: return disk->status;
    case SECTORS: return DISK_SECTORS;
    default: return 0;
    }
}

bool disk_write(struct disk *disk, uint32_t at, uint32_t value) {
    switch (at) {
    case FEATURES_HALF: disk->half = value; break;
    case RING_AT: disk->ring = value / PAGE; break;
    case RING_READY: disk->is_ready = value & 1; break;
    case RING_KICK: return disk->is_ready;
    case INTERRUPT_ACK: disk->interrupts = false; break;
    case STATUS:
        if (!value) *disk = (struct disk){0};
        disk->status = value;
        break;
    }
    return false;
}

uint32_t disk_read(const struct disk *disk, uint32_t at, uint32_t size) {
    uint32_t value = read_register(disk, at & ~3u) >> at % 4 * 8;
    return size < 4 ? value & ((1u << size * 8) - 1) : value;
}
