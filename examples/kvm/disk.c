/* A block device of virtio (OASIS, 1.2: split rings, block devices), as the host has it. */
#include "disk.h"
#include <stddef.h>
#include <string.h>

enum { PAGE = 4096, RING = 8, HAS_NEXT = 1, READ = 0, WRITE = 1, FLUSH = 4, OK = 0, FAILED = 1, UNKNOWN = 2 };

struct descriptor {
    uint64_t address;
    uint32_t length;
    uint16_t flags, next;
};

struct request {
    uint32_t kind, reserved;
    uint64_t sector;
};

/* What the guest has put into the ring, in its first page, and what was answered, in the second one. */
struct asked {
    struct descriptor descriptors[RING];
    uint16_t flags, count, heads[RING];
};

struct answered {
    uint16_t flags, count;
    struct {
        uint32_t head, written;
    } ring[RING];
};

/* Copies bytes from or to the guest's memory. Returns whether it reached them. */
static bool copy(const struct lent *lent, uint64_t address, uint8_t *bytes, uint32_t length, bool to_guest) {
    while (length) {
        uint8_t *page = lent->reach(lent->of, address / PAGE);
        uint32_t offset = address % PAGE, part = length < PAGE - offset ? length : PAGE - offset;
        if (!page) return false;
        memcpy(to_guest ? page + offset : bytes, to_guest ? bytes : page + offset, part);
        address += part, bytes += part, length -= part;
    }
    return true;
}

/* Reads or writes sectors. Returns the status. */
static uint8_t transfer(struct host_disk *disk, const struct lent *lent, const struct request *request, uint64_t *at,
                        const struct descriptor *buffer) {
    if (request->kind != READ && request->kind != WRITE) return UNKNOWN;
    if (*at > sizeof disk->bytes || buffer->length > sizeof disk->bytes - *at) return FAILED;
    if (!copy(lent, buffer->address, disk->bytes + *at, buffer->length, request->kind == READ)) return FAILED;
    *at += buffer->length;
    return OK;
}

/* Answers the request whose first descriptor is this: its kind and sector, then buffers, then a byte for the status.
 * Returns how many bytes it wrote. */
static uint32_t answer(struct host_disk *disk, const struct lent *lent, const struct asked *asked, uint16_t head) {
    const struct descriptor *next = &asked->descriptors[head % RING];
    struct request request;
    uint8_t status = OK;
    if (next->length < sizeof request) return 0;
    if (!copy(lent, next->address, (uint8_t *)&request, sizeof request, false)) return 0;
    uint64_t begin = request.sector < DISK_SECTORS ? request.sector * SECTOR : UINT64_MAX, at = begin;
    for (unsigned count = 0; count < RING && next->flags & HAS_NEXT; count++) {
        next = &asked->descriptors[next->next % RING];
        if (status == OK && next->flags & HAS_NEXT) status = transfer(disk, lent, &request, &at, next);
    }
    if (!copy(lent, next->address, &status, 1, true)) return 0;
    return 1 + (request.kind == READ && status == OK ? at - begin : 0);
}

bool disk_answer(struct host_disk *disk, const struct lent *lent, uint32_t ring) {
    uint8_t *first = lent->reach(lent->of, ring), *second = lent->reach(lent->of, ring + 1);
    if (!first || !second) return false;
    volatile struct answered *answered = (volatile struct answered *)second;
    bool is_any = false;
    for (struct asked asked; memcpy(&asked, first, sizeof asked), asked.count != answered->count; is_any = true) {
        uint16_t place = answered->count % RING, head = asked.heads[place];
        answered->ring[place].head = head;
        answered->ring[place].written = answer(disk, lent, &asked, head);
        __sync_synchronize();
        answered->count++;
    }
    return is_any;
}
